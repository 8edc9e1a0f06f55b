#!/usr/bin/env python3
"""Packs the page, its scripts and the module into one file that needs nothing else.

    web/pack.py MODULE OUT

page.html has marks for what comes into it: @STYLE@ for style.css, @MODULE@ for the module in
letters, @WORKER@ and @SCRIPT@ for worker.js and page.js, each with the scripts that it imports, and
@POLICY@ for what the browser lets the page do: to run this script with this style, and to reach
nothing. A script stands once, behind those that it imports, without its imports and exports; so
no export has a second name, and no two scripts of one bundle have a name in common.
"""

import base64
import hashlib
import re
import sys
from pathlib import Path

WEB = Path(__file__).resolve().parent
IMPORT = re.compile(r'^import (?:\{[^}]*\} from )?"\./([\w.]+)";\n', re.MULTILINE)
EXPORT = re.compile(r"^export (?=(?:async function|function|const|let|class)\b)", re.MULTILINE)
# What may not be in a text of the page: what ends it there, and what changes how it is read.
ENDS = {"@STYLE@": r"</style", "@WORKER@": r"</script|<!--", "@SCRIPT@": r"</script|<!--"}


def bundle(name: str, packed: set[str]) -> str:
    """A script behind those that it imports, but for those that are packed."""
    if name in packed:
        return ""
    packed.add(name)
    text = (WEB / name).read_text(encoding="utf-8")
    before = "".join(bundle(imported, packed) for imported in IMPORT.findall(text))
    return before + EXPORT.sub("", IMPORT.sub("", text))


def digest(text: str) -> str:
    summed = hashlib.sha256(text.encode()).digest()
    return f"'sha256-{base64.b64encode(summed).decode()}'"


def policy(page: str) -> str:
    """What the browser lets the page do, by its own script and style."""
    script = re.search(r'<script type="module">(.*?)</script>', page, re.DOTALL)
    style = re.search(r"<style>(.*?)</style>", page, re.DOTALL)
    if script is None or style is None:
        raise ValueError("page.html has no script or no style")
    return (f"default-src 'none'; script-src {digest(script[1])} 'wasm-unsafe-eval'; "
            f"worker-src blob:; style-src {digest(style[1])}; img-src blob: data:; "
            "base-uri 'none'; form-action 'none'")


def packed_page(module: bytes) -> str:
    page = (WEB / "page.html").read_text(encoding="utf-8")
    parts = {"@STYLE@": (WEB / "style.css").read_text(encoding="utf-8"),
             "@MODULE@": base64.b64encode(module).decode(),
             "@WORKER@": bundle("worker.js", set()),
             "@SCRIPT@": bundle("page.js", set())}
    for mark, text in parts.items():
        if page.count(mark) != 1:
            raise ValueError(f"page.html has to have {mark} once")
        if mark in ENDS and (end := re.search(ENDS[mark], text, re.IGNORECASE)):
            raise ValueError(f"what stands for {mark} has {end[0]} in it")
        page = page.replace(mark, text)
    return page.replace("@POLICY@", policy(page))


def main(arguments: list[str]) -> int:
    if len(arguments) != 2:
        print(__doc__, file=sys.stderr)
        return 2
    module, out = map(Path, arguments)
    page = packed_page(module.read_bytes())
    out.write_text(page, encoding="utf-8")
    print(f"packed: {out}, {len(page.encode()) // 1000} kB")
    return 0


if __name__ == "__main__":
    sys.exit(main(sys.argv[1:]))
