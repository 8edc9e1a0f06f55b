#!/usr/bin/env python3
"""Looks up the names and the files that the documents for readers of proofs and code cite.

A word between backticks that has an underscore, or a capital behind a small letter, is a name: it
stands in a file of crates/, or is that of a file or folder there. A link leads to a file. What does
not is printed, and the status is 1.
"""

import re
import sys
from pathlib import Path

ROOT = Path(__file__).resolve().parent.parent
DOCUMENTS = ("DEFINITIONS", "PROOFS", "BELIEVE", "DECISIONS", "GLOSSARY", "ADDING", "ARCHITECTURE")
NAME = re.compile(r"`([A-Za-z]\w*)`")
LINK = re.compile(r"\]\(([^)#:\s]+)(?:#[^)]*)?\)")
IS_NAME = re.compile(r"_|[a-z][A-Z]")
# A name with capitals in a row stands for others.
STANDS_FOR_OTHERS = re.compile(r"[A-Z]{2}")


def words_of_crates() -> set[str]:
    """The words of all files of crates, and of their paths."""
    words: set[str] = set()
    for path in (ROOT / "crates").rglob("*"):
        words.add(path.stem)
        if path.suffix in (".rt", ".antt", ".toml"):
            words |= set(re.findall(r"\w+", path.read_text(encoding="utf-8")))
    return words


def main() -> int:
    known, count, unknown = words_of_crates(), 0, []
    for document in DOCUMENTS:
        path = ROOT / "docs" / f"{document}.md"
        if not path.exists():
            continue
        text = path.read_text(encoding="utf-8")
        named = {name for name in NAME.findall(text)
                 if IS_NAME.search(name) and not STANDS_FOR_OTHERS.search(name)}
        count += len(named)
        unknown += [f"{document} has the name {name}, which no crate has"
                    for name in sorted(named - known)]
        links = sorted(set(LINK.findall(text)))
        unknown += [f"{document} has a link to {link}, where no file is"
                    for link in links if not (path.parent / link).exists()]
    print("\n".join([*unknown, f"check_names: {count} names, {len(unknown)} are unknown"]))
    return 1 if unknown else 0


if __name__ == "__main__":
    sys.exit(main())
