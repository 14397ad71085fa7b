#!/usr/bin/env python3
"""Brings this repository's own definitions and lemmas to the spelling of today's Rattle: words in snake case, facts as types.

    python3 tools/respell.py      at the top, once, right after /opt/rattle/port/port.py

A word of specs/ or proofs/ in camel case becomes one in snake case (`fitsGeometry`, `fits_geometry`), part by part where a dash joins
names (`chainFrom-next`, `chain_from-next`); `getD` in a lemma's name is std's `get_or` today. A definition that is a type has a capital.
A field or a function of src/ keeps its name. Where a lemma and a word of one file would fall together, the lemma keeps the dash that it
had.
"""
import glob
import re
import sys

# Names of src/, and pieces of strings there.
KEPT = {"noPassword", "x00DIR", "x00LEER", "x00PULS01", "x05PULS01", "x10LEER"}
# Definitions that are types (`badName` is none: it was respelled again by hand, `bad_name`); and the entry of slot A3, beside `e80` and
# `e81`.
TYPES = {"badName": "BadName", "byteApart": "ByteApart", "case_at": "CaseAt", "eA3": "ea3"}
# Lemmas whose dash the older script took for a word's, each in the files that speak of it.
DASHED = {
    "by_name": ("promises/specs/Kept.antt", "promises/specs/Spelling.antt", "promises_compare/specs/Agreement.antt",
                "back_chain/proofs/File.antt", "differences_samples/specs/Samples.antt"),
    "hands_on": ("promises_fault/specs/Handed.antt", "promises_exports/specs/Proved.antt", "promises_unread/specs/Reads.antt"),
    "is_one": ("compare/proofs/Telling.antt",),
    "look_up": ("promises_unread_drives/specs/Kept.antt", "promises_data/specs/Kept.antt", "promises_unread/specs/Kept.antt",
                "promises_unread/specs/Answers.antt"),
    "take_at": ("laws/specs/TakeOne.antt", "laws/specs/Steps.antt", "growth/proofs/Roomy.antt", "growth/proofs/Grown.antt",
                "promises/specs/Fitting.antt", "promises/specs/Grow.antt"),
    "tells_none": ("play_samples/specs/Traces.antt", "refusal/proofs/Told.antt", "compare/proofs/compare_checked/Proof.antt",
                   "compare/proofs/told/Proof.antt"),
}
TOKEN = re.compile(r"[A-Za-z_][A-Za-z0-9_'-]*")
CAMEL = re.compile(r"(^|-)[a-z][a-z0-9_']*[A-Z]")


def respelled(name):
    """The name in today's spelling."""
    if name in TYPES:
        return TYPES[name]
    if name in KEPT or not CAMEL.search(name):
        return name
    parts = [part.replace("getD", "get_or") if part[:1].islower() else part for part in name.split("-")]
    for i, part in enumerate(parts):
        while part[:1].islower():
            turned = re.sub(r"(?<=[a-z0-9])([A-Z])(?=[a-z0-9_']|$)", lambda m: "_" + m[1].lower(), part)
            if turned == part:
                break
            part = turned
        parts[i] = part
    return "-".join(parts)


def main():
    paths = sorted(glob.glob("crates/*/specs/**/*.antt", recursive=True) + glob.glob("crates/*/proofs/**/*.antt", recursive=True)
                   + glob.glob("crates/*/src/**/*.rt", recursive=True))
    texts = {path: open(path, encoding="utf-8").read() for path in paths}
    spoken = {token for path, text in texts.items() if path.endswith(".antt") for token in TOKEN.findall(text)}
    names = {name: respelled(name) for name in spoken if respelled(name) != name}
    # no two names fall together
    turned = {}
    for old, new in names.items():
        if turned.setdefault(new, old) != old:
            sys.exit(f"{old} and {turned[new]} would both be {new}")
    changed = 0
    for path, text in texts.items():
        dashed = {old: old.replace("_", "-") for old, files in DASHED.items() if path.removeprefix("crates/") in files}
        fresh = TOKEN.sub(lambda m: dashed.get(m[0]) or names.get(m[0], m[0]), text)
        if fresh != text:
            open(path, "w", encoding="utf-8").write(fresh)
            changed += 1
    print(f"{len(names)} names in {changed} files")


main()
