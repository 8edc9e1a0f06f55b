"""What ARCHITECTURE.md has of the crates: made from crates.txt and from each crate's first lines.

`MAKERS` has each part by its name. None needs the program.
"""

import re
import textwrap
from pathlib import Path
from typing import Dict, List, NamedTuple, Set

FLOOR = re.compile(r"# ---- (.+?):")
TESTS = "tests"
# The root of a library, or of a program.
ROOTS = ("lib.rt", "main.rt")
COLUMNS = 100
NAME_COLUMNS = 16


class Crate(NamedTuple):
    """A crate as crates.txt has it: the floor on which it stands, and the crates below it."""

    floor: str
    below: List[str]


def crates_of_list(root: Path) -> Dict[str, Crate]:
    """The crates in the order of crates.txt."""
    floor, crates = "", {}
    for line in (root / "crates.txt").read_text(encoding="utf-8").splitlines():
        if found := FLOOR.match(line):
            floor = found[1]
        elif line and not line.startswith("#"):
            words, _, below = line.partition(":")
            crates[words.split()[0]] = Crate(floor, below.split())
    return crates


def floors_of(crates: Dict[str, Crate]) -> Dict[str, List[str]]:
    """The floors from the lowest on, with their crates."""
    floors: Dict[str, List[str]] = {}
    for name, crate in crates.items():
        floors.setdefault(crate.floor, []).append(name)
    return floors


def all_below(floor: str, below: Dict[str, Set[str]]) -> Set[str]:
    """The floors below one, and those below these."""
    return below[floor].union(*(all_below(other, below) for other in below[floor]))


def nearest_below(crates: Dict[str, Crate]) -> Dict[str, List[str]]:
    """For each floor those on which it stands, but for what one of these stands on, too."""
    floors = floors_of(crates)
    order = list(floors)
    below = {floor: {crates[other].floor for name in names for other in crates[name].below
                     if other in crates}.intersection(order[:order.index(floor)])
             for floor, names in floors.items()}
    nearest = {}
    for floor, under in below.items():
        through = set().union(*(all_below(other, below) for other in under))
        nearest[floor] = [other for other in floors if other in under - through]
    return nearest


def first_sentence(root: Path, name: str) -> str:
    """The first sentence of the comment with which a crate begins."""
    source = root / "crates" / name / "src"
    path = next(source / file for file in ROOTS if (source / file).exists())
    paragraph: List[str] = []
    for line in path.read_text(encoding="utf-8").splitlines():
        if not line.startswith("//! "):
            break
        paragraph.append(line.removeprefix("//! "))
    return re.split(r"(?<=\.) (?=[A-Z])", " ".join(paragraph))[0].rstrip(".")


def picture_of_floors(tree) -> str:
    """The floors, the highest first: their crates, and on which floors each stands."""
    crates = crates_of_list(tree.root)
    nearest = nearest_below(crates)
    lines = []
    for floor, names in reversed(floors_of(crates).items()):
        under = nearest[floor]
        text = ", ".join(names) + (f" ─ over {', '.join(under)}" if under else "")
        indent = " " * NAME_COLUMNS
        lines += textwrap.wrap(text, COLUMNS, initial_indent=floor.ljust(NAME_COLUMNS),
                               subsequent_indent=indent, break_on_hyphens=False)
    return "\n".join(["```", *lines, "```"])


def lines_of(tree, are_tests: bool) -> str:
    """A line for each crate, the lowest first: what it is."""
    return "\n".join(f"- `{name}`: {first_sentence(tree.root, name)}"
                     for name, crate in crates_of_list(tree.root).items()
                     if (crate.floor == TESTS) == are_tests)


def list_of_crates(tree) -> str:
    """The crates of the product."""
    return lines_of(tree, are_tests=False)


def list_of_tests(tree) -> str:
    """The crates with tests, and what these share."""
    return lines_of(tree, are_tests=True)


MAKERS = {
    "floors": picture_of_floors,
    "crates": list_of_crates,
    "crates of tests": list_of_tests,
}
