#!/usr/bin/env python3
"""Compares crates.txt with the crates, and finds modules in a circle.

A crate stands behind those on which it stands, and a file of it names each of these. Its modules
stand in no circle, nor does its root with them. What differs is printed, and the status is 1.
"""

import re
import sys
from pathlib import Path

sys.dont_write_bytecode = True

from make_crates import crates_of_list                                 # noqa: E402

ROOT = Path(__file__).resolve().parent.parent
# In code a crate begins a path; in definitions it stands behind the house's name.
NAMED = re.compile(r"(?<![\w:.])([a-z]\w*)::|\bRattle\.(\w+)\.")
USED = re.compile(r"\bcrate::(\{[^}]*\}|\w+(?:::\w+)*)")
# The root of a crate begins a path with a module, and hands on names of it.
NAMED_BY_ROOT = re.compile(r"(?<![\w:.])([a-z]\w*(?:::[a-z]\w*)*)::")
HANDED_ON = re.compile(r"\bpub use ([a-z]\w*(?:::[a-z]\w*)*)::(\{[^}]*\}|\w+)")
ROOTS = (("lib",), ("main",))
# What is proved has its own folders, which are no modules of the code.
OF_PROOFS = ("specs", "proofs")


def code_of(path):
    """The text of a file without its comments."""
    comment = r"--[^\n]*" if path.suffix == ".antt" else r"//[^\n]*"
    return re.sub(comment, "", path.read_text(encoding="utf-8"))


def names_of(crate):
    """The names in a crate's files that may be those of crates."""
    folders = [ROOT / "crates" / crate / part for part in ("src", "specs", "proofs", "must-fail")]
    code = "\n".join(code_of(path) for folder in folders for path in folder.rglob("*.*"))
    return {name for pair in NAMED.findall(code) for name in pair}


def words_of(names):
    """The names of a list in braces, or the one that stands without them."""
    return [word.split()[0] for word in names.strip("{}").split(",") if word.strip()]


def module_of(parts, modules):
    """The module that a path names, or the nearest above what it names; () where none is."""
    while parts and parts not in modules:
        parts = parts[:-1]
    return parts


def uses_of(crate):
    """The modules of a crate, and which others each one uses.

    A name that the root hands on is of the module that has it; any other is the root's own.
    """
    folder = ROOT / "crates" / crate / "src"
    paths = {path.relative_to(folder).with_suffix("").parts: path for path in folder.rglob("*.rt")}
    root = next(module for module in ROOTS if module in paths)
    code = code_of(paths[root])
    owners = {word: module_of(tuple(module.split("::")), paths)
              for module, words in HANDED_ON.findall(code) for word in words_of(words)}
    uses = {module: set() for module in paths}
    named = NAMED_BY_ROOT.findall(code)
    uses[root] = {module_of(tuple(path.split("::")), paths) for path in named}
    for module, path in paths.items():
        for found in USED.findall(code_of(path)):
            for word in words_of(found):
                parts = tuple(word.split("::"))
                if parts[0] not in OF_PROOFS:
                    uses[module].add(module_of(parts, paths) or owners.get(parts[0], root))
        uses[module] -= {(), module}
    return uses


def circles_of(crate):
    """The modules of a crate that stand in a circle, or between two."""
    left, before = uses_of(crate), None
    while left != before:
        before, used = left, set().union(*left.values())
        left = {module: uses & left.keys() for module, uses in left.items()}
        left = {module: uses for module, uses in left.items() if uses and module in used}
    return sorted("::".join(module) for module in left)


def main():
    crates = crates_of_list(ROOT)
    said, order = [], list(crates)
    for name, crate in crates.items():
        unused = sorted(set(crate.below) - names_of(name))
        later = sorted(set(crate.below) & set(order[order.index(name):]))
        said += [f"{name} stands on {other}, which no file of it names" for other in unused]
        said += [f"{name} stands before {other}, on which it stands" for other in later]
        if circle := circles_of(name):
            said.append(f"{name} has modules in a circle: {', '.join(circle)}")
    print("\n".join(said) or f"check_crates: {len(crates)} crates are as they are listed")
    return 1 if said else 0


if __name__ == "__main__":
    sys.exit(main())
