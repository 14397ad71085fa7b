#!/usr/bin/env python3
"""Where the code has a form for which the language has a better one: the places that docs/DESIGN-PASS.md counts.

    tools/places.py              the count of each kind of place in crates/*/src, a line each
    tools/places.py list [KIND]  the places themselves: crate, line, text
    tools/places.py at COMMIT    the same counts of the code as it was at that commit

A kind begins with its point's number. A place is counted by its text alone, so that two runs agree; whether it should change is said on
the page. Comments, contracts and clauses are not read, but for point 5, which counts the facts of contracts.
"""
import re
import subprocess
import sys
from collections import Counter
from pathlib import Path

# Forms that stand in one line.
LINES = {
    '1 a flag beside a value': r'^    pub (is|ok|here|more|well|old): bool',
    '1 a number for a refusal beside a value': r'^    pub number: u8',
    '1 a number for a kind': r'^    pub kind: (u8|usize)',
    '1 a number handed out, 0 for no refusal': r'^ *(pub )?fn .*-> u8$|^ *\) -> u8$',
    '1 a number for none': r'\b(return|==|!=|found =|number|at:) (256|NO_SLOT)\b(?! [*+])|\b(NO_SLOT|NO_PLACE|NO_DRIVE|NOWHERE)\b',
    '1 a number tested for a refusal': r'\b(number|refused|\.number) [!=]= 0\b',
    "1 a refusal's number written out": r'\b(unplaced|placed|carried|refused|Err)\((checked, )?\d+\b',
    '3 a loop that counts by hand': r"^\s*('\w+: )?while ",
    '4 a byte made a number by hand': r'\bwide\(',
    '4 a number cut to bytes by hand': r'/ (256|0x100+|65536)\b.* as u8|% 256\) as u8',
    '4 bytes put together by hand': r'\+ (256|65536|4294967296) \* ',
    '4 a bit asked for by hand': r'>> [\w:]+\) % 2 [!=]= 1',
    '4 a truth told by two returns': r'^\s*return (true|false);',
    '4 the smaller or larger by hand': r'\bif (\w+) < (\w+) \{ (\1|\2) \} else \{ (\1|\2) \}|\b(smaller|least)\(',
    '6 copying by a function of our own': r'\bcopy::\w+\(|\bcopy_into\(|\bclear\(',
    '6 a table as long as the directory, by index': r'&(mut )?\[(u8|u16|usize); 256\]',
    '7 a number switched on': r'^\s*if \w+(\.\w+)? == (\d+|DATA|START|COMMENT) \{',
    '7 a flag that steers': r'\b(set|writes|lowest|numbered): bool',
}
# Facts that stand in contracts, counted by how many functions require them.
FACTS = {
    '5 requires that the directory fits (Room)': r'\bRoom \(?[\w(]',
    '5 requires that a slot is one (Slot)': r'\bSlot [gh]? ?\w',
    '5 requires what the check answered': r'checked»? ≡ check|checked ≡ check',
    '5 requires that an entry lies in the image': r'entry_at g \w+ \+ 32 ≤',
    '5 requires that the disk can be walked (Walkable)': r'\bWalkable\b',
}
FN = re.compile(r'^( *)(pub )?fn (\w+)')


def functions(text):
    """Each function: its first line, its name, its head with its clauses, its body."""
    lines = text.split('\n')
    at = 0
    while at < len(lines):
        m = FN.match(lines[at])
        if not m:
            at += 1
            continue
        start, margin = at, m.group(1)
        while at < len(lines) and lines[at] != margin + '{':
            at += 1
        body = at
        while at < len(lines) and lines[at] != margin + '}':
            at += 1
        yield start, m.group(3), '\n'.join(lines[start:body]), '\n'.join(lines[body:at + 1])
        at += 1


def shape(body):
    """A body with its names and numbers taken out: what is left is the same of twins."""
    body = re.sub(r'//.*', '', body)
    body = re.sub(r'\b(if|else|while|for|in|return|let|mut|match|true|false|as)\b', lambda m: m.group(1).upper(), body)
    body = re.sub(r'\b[a-z_]\w*\b(::\w+)*', 'x', body)
    body = re.sub(r'\b(0x)?[0-9A-F_]+\b', 'n', body)
    return re.sub(r'\s+', ' ', body)


def places(files):
    found = {kind: [] for kind in list(LINES) + list(FACTS)}
    twins = {}
    pairs = []
    for crate, text in files:
        clause = False
        for n, line in enumerate(text.split('\n'), 1):
            code = line.split('//')[0]
            if re.match(r'^ +(requires|ensures)\b', code):
                clause = True
            elif re.match(r'^ *\{$', code) or re.match(r'^\S', code):
                clause = False
            if clause or code.startswith('ghost '):
                continue
            for kind, form in LINES.items():
                if re.search(form, code):
                    found[kind].append((crate, n, line.strip()))
        for start, name, head, body in functions(text):
            for kind, form in FACTS.items():
                if re.search(form, head.split('ensures')[0]):
                    found[kind].append((crate, start + 1, name))
            if re.search(r'\bimage: &', head) and re.search(r'\bg: Geometry', head):
                pairs.append((crate, start + 1, name))
            if body.count('\n') > 3:
                twins.setdefault(shape(body), []).append((crate, start + 1, name))
    found['5 image and geometry side by side'] = pairs
    found['2 functions of one shape'] = [x for group in twins.values() if len(group) > 1 for x in sorted(group)]
    return dict(sorted(found.items()))


def here():
    for path in sorted(Path('crates').glob('*/src/*.rt')):
        yield path.parts[1], path.read_text()


def git(*words):
    return subprocess.run(['git', *words], capture_output=True, text=True, check=True).stdout


def at(commit):
    for name in git('ls-tree', '-r', '--name-only', commit, 'crates').split():
        if re.match(r'crates/\w+/src/\w+\.rt$', name):
            yield name.split('/')[1], git('show', f'{commit}:{name}')


words = sys.argv[1:]
found = places(at(words[1]) if words[:1] == ['at'] and len(words) == 2 else here())
if words[:1] == ['list']:
    for kind, where in found.items():
        if kind.startswith(' '.join(words[1:])):
            print(f'{kind}: {len(where)}')
            for crate, line, text in where:
                print(f'    {crate}:{line}: {text}')
elif not words or words[:1] == ['at']:
    for kind, where in found.items():
        print(f'{len(where):5} in {len(Counter(c for c, _, _ in where)):3} crates   {kind}')
else:
    sys.exit(__doc__)
