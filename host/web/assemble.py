"""assemble.py WASM PAGE    puts the page together: page.html with page.css, page.js, the presets of gdos and the WebAssembly in it.

The policy in it lets run this script and this style, by their hashes, and nothing else: no request can be made.
"""
import base64
import hashlib
import html
import pathlib
import re
import sys

here = pathlib.Path(__file__).parent
wasm, page = map(pathlib.Path, sys.argv[1:])


def read(name):
    return (here / name).read_text(encoding="utf-8")


def allowed(text):
    return "'sha256-" + base64.b64encode(hashlib.sha256(text.encode()).digest()).decode() + "'"


style, script = read("page.css"), read("page.js")
# preset("sd40", 40, 2, 200, "5 inch, ..."), hard("hd10", 10, "a hard disk ..."): the list that gdos has.
presets = re.findall(r'^    (?:preset|hard)\("(\w+)",(?: \d+,)+ "([^"]*)"\),$', read("../rust/src/preset.rs"), re.MULTILINE)
assert presets, "gdos has no presets"
parts = {
    "policy": f"default-src 'none'; script-src {allowed(script)} 'wasm-unsafe-eval'; style-src {allowed(style)}; img-src data:; "
    "base-uri 'none'; form-action 'none'",
    "style": style,
    "script": script,
    "presets": "".join(f'<option value="{name}">{name}: {html.escape(about)}</option>' for name, about in presets),
    "wasm": base64.b64encode(wasm.read_bytes()).decode(),
}
page.write_text(re.sub(r"@(\w+)@", lambda found: parts[found[1]], read("page.html")), encoding="utf-8")
