"""Makes the sentence on how many commands `explain` tells of, and compares its texts of them.

What it writes of a command that is taken has the values, the fields that are read and the findings
of its row in the table of commands of DEFINITIONS, or no sentence is made. Values that are refused
by another form of a command stand in no row, but here.
"""

import re
from dataclasses import dataclass

from make_commands import commands
from tree import Tree, Unreadable

TEXTS = "crates/command_names/src/{}.rt"
HEAD = re.compile(r"(\S+) (.+) \((.+)\): (taken|refused)")
FILES = ("controls", "places", "pages", "jobs", "fonts", "raster_rows", "rectangles", "devices",
         "rasters", "colours", "frames_to_d", "frames_to_l", "frames_to_p", "frames_to_w",
         "job_lines")
# How the table of DEFINITIONS spells what has no spelling of a command with a number.
SPELLED = {"*rB": "*r#B", "*rC": "*r#C"}
# What these do not take is refused by another form of them: what is told of their values.
OTHER_FORMS = {"%A": "0, 1", "%B": "0, 1; not within a frame", "(@": ""}
CLOSES = "what closing the page reads"


@dataclass(frozen=True)
class Told:
    """What `explain` writes of a command."""

    key: str
    name: str
    spelling: str
    state: str
    file: str
    cells: dict[str, str]


def texts(tree: Tree) -> list[Told]:
    """All texts, by their files, and in each in the order of its table."""
    told = []
    for file in FILES:
        source = tree.text(TEXTS.format(file))
        found = re.findall(r'^    "\\\n(.*?)\n",$', source, re.MULTILINE | re.DOTALL)
        if f"const TEXTS: [&str; {len(found)}] = [" not in source:
            raise Unreadable(f"{TEXTS.format(file)} has texts in another form than is read")
        told += [told_of(file, text) for text in found]
    return told


def told_of(file: str, text: str) -> Told:
    """The parts of a text."""
    head, _, rest = text.replace(r'\"', '"').partition("\n")
    found = HEAD.fullmatch(head)
    lines = re.findall(r"  (\w+): +(.*(?:\n {11}.*)*)", rest)
    if found is None or not lines:
        raise Unreadable(f"{TEXTS.format(file)} has `{head}` in another form than is read")
    return Told(*found.groups(), file, {label: " ".join(said.split()) for label, said in lines})


def rows_of_commands(tree: Tree) -> dict[str, list[str]]:
    """The table of commands: by the bytes of each row its other four cells."""
    rows = {}
    for line in commands(tree).split("\n"):
        bytes_of, *cells = line.split(" | ")
        rows[bytes_of] = cells + [""] * (4 - len(cells))
    return rows


def compare_taken(told: Told, rows: dict[str, list[str]]) -> None:
    """Compares what is told of a command that is taken with its row of the table of commands."""
    spelling = SPELLED.get(told.key, told.spelling)
    forms = (f"`ESC {spelling}`", f"`{spelling}`", f"`ESC {spelling[:2]}`letter",
             f"`{spelling}` ({int(told.key[1:], 16)})" if told.file == "controls" else "")
    row = next((rows[form] for form in forms if form in rows), None)
    if row is None:
        raise Unreadable(f"the table of commands has no row of `{told.key}`")
    values, _, reads, findings = row
    if told.key in OTHER_FORMS:
        values = OTHER_FORMS[told.key]
        findings = f"3, {findings}" if findings else "3"
    due = {"Values": values, "Reads": reads.replace("closes", CLOSES), "Finds": findings}
    for label, said in due.items():
        if told.cells.get(label, "") != said:
            raise Unreadable(f"`{told.key}` tells of {label} `{told.cells.get(label, '')}`, "
                             f"and its row `{said}`")


def counts(tree: Tree) -> str:
    """How many commands are told of, and how many of them are taken, which are compared."""
    rows, all_texts = rows_of_commands(tree), texts(tree)
    taken = [told for told in all_texts if told.state == "taken"]
    for told in taken:
        if told.file != "job_lines":
            compare_taken(told, rows)
    return (f"The list has {len(all_texts)} commands: {len(taken)} are taken, "
            f"{len(all_texts) - len(taken)} refused.")


MAKERS = {"count of commands": counts}
