#!/usr/bin/env python3
"""Writes the generated parts of the documents and of the manual page.

    python3 docs/make.py [PROGRAM] [--check]

A generated part stands between the lines `<!-- made: NAME -->` and `<!-- end -->`, in the manual
page `.\\" made: NAME` and `.\\" end`. Its text is what the maker NAME of a module docs/make_*.py
gives of the tree. Parts that are read from the program are left as they are without PROGRAM, and
that of the toolchain where there is no rt; their makers give None then, and how many did is told.
With --check nothing is written, and what differs first is told. The status is 1 where something
differs, where a part has no maker, or where a maker's part stands nowhere.
"""

import importlib
import re
import sys
from collections.abc import Callable, Iterator
from pathlib import Path
from typing import Optional

sys.dont_write_bytecode = True

from tree import Tree, Unreadable                                      # noqa: E402

ROOT = Path(__file__).resolve().parent.parent
DOCUMENTS = ("*.md", "docs/*.md", "bench/*.md", "contrib/**/*.md", "man/*.[1-9]")
PART = re.compile(r'(?ms)^(<!-- made: ([^\n]+) -->|\.\\" made: ([^\n]+))\n(.*?)'
                  r'^(<!-- end -->|\.\\" end)$')
Maker = Callable[[Tree], Optional[str]]


def makers() -> dict[str, Maker]:
    """The makers of all modules, by their names."""
    found: dict[str, Maker] = {}
    for path in sorted((ROOT / "docs").glob("make_*.py")):
        module = importlib.import_module(path.stem)
        found.update(getattr(module, "MAKERS", {}))
    return found


def documents() -> Iterator[tuple[Path, str]]:
    """The documents that have generated parts, with their texts."""
    paths = {path for pattern in DOCUMENTS for path in ROOT.glob(pattern)}
    for path in sorted(paths):
        text = path.read_text(encoding="utf-8")
        if PART.search(text):
            yield path, text


def written(text: str, tree: Tree, known: dict[str, Maker]) -> tuple[str, set[str], set[str]]:
    """A document with its parts as they are made, the names of these, and of those left unmade."""
    names, unmade = set(), set()

    def made(part: re.Match[str]) -> str:
        begin, name, name_of_page, stands, end = part.groups()
        name = name or name_of_page
        names.add(name)
        if name not in known:
            raise Unreadable(f"no maker has the name `{name}`")
        text_due = known[name](tree)
        if text_due is None:
            unmade.add(name)
        body = stands if text_due is None else text_due.strip("\n") + "\n"
        return f"{begin}\n{body}{end}"

    return PART.sub(made, text), names, unmade


def first_difference(name: str, old: str, new: str) -> str:
    """The first line in which two texts differ."""
    stand, due = old.split("\n"), new.split("\n")
    place = next((at for at, pair in enumerate(zip(stand, due)) if pair[0] != pair[1]),
                 min(len(stand), len(due)))
    here = stand[place] if place < len(stand) else "the end"
    there = due[place] if place < len(due) else "the end"
    return f"make: {name}:{place + 1} has\n  {here}\nand is made\n  {there}"


def main(words: list[str]) -> int:
    paths = [word for word in words if word != "--check"]
    if len(paths) > 1 or any(word.startswith("-") for word in paths):
        print(__doc__.strip(), file=sys.stderr)
        return 2
    tree = Tree(ROOT, Path(paths[0]).resolve() if paths else None)
    known, placed, count, left = makers(), set(), 0, 0
    try:
        for path, text in documents():
            new, names, unmade = written(text, tree, known)
            placed |= names
            count += len(names) - len(unmade)
            left += len(unmade)
            if new != text and "--check" in words:
                print(first_difference(str(path.relative_to(ROOT)), text, new))
                return 1
            if new != text:
                path.write_text(new, encoding="utf-8")
                print(f"make: {path.relative_to(ROOT)} is written")
    except Unreadable as fault:
        print(f"make: {fault}")
        return 1
    for name in sorted(set(known) - placed):
        print(f"make: the part `{name}` stands in no document")
    behind = f", {left} were not made: they need PROGRAM, or rt" if left else ""
    print(f"make: {count} parts are as they are made{behind}")
    return 1 if set(known) - placed else 0


if __name__ == "__main__":
    sys.exit(main(sys.argv[1:]))
