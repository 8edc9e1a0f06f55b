"""Makes what the documents repeat of the program's `--help`: options, words, exit statuses.

COMMANDS has a table of the options of `check`; the manual page the synopsis, the entries of the
words and options of `check`, and the sections of the other commands. All of it needs the program.
"""

import re
import sys
import textwrap
from functools import cache
from itertools import dropwhile
from pathlib import Path
from typing import Optional

import command_rows
from make_findings import ESCAPES, filled
from tree import Tree, Unreadable

sys.path.append(str(Path(__file__).resolve().parent.parent / "crosscheck"))

from help_text import Command, Program, rows_of                        # noqa: E402

NAMES = command_rows.names()
HELP = "-h, --help"
# A line of a help that has two columns.
IS_ROW = re.compile(r"  +\S.*?  +\S")
COLUMNS = 78


@cache
def commands(program: Path) -> dict[str, Command]:
    """The commands of the program, by their names."""
    found = {command.name: command for command in Program(str(program)).commands()}
    if sorted(found) != sorted(("", *NAMES)):
        raise Unreadable(f"crates/command_line has other commands than {program}")
    return found


def options_of_check(tree: Tree) -> Optional[str]:
    """The table of the options of `check`."""
    if tree.program is None:
        return None
    options = commands(tree.program)["check"].options
    rows = [f"`{words}` | {about}" for words, about in options.items() if words != HELP]
    return "\n".join(["Option | What it does", "---|---", *rows])


def synopsis(tree: Tree) -> Optional[str]:
    """The usages of all commands, as the manual page has them."""
    if tree.program is None:
        return None
    usages = [one.usage for name, one in commands(tree.program).items()
              if name and not one.commands]
    return "\n".join(f".B {escaped(usage)}" for usage in (*usages, "pclcheck help [COMMAND]..."))


def escaped(text: str) -> str:
    return "".join(ESCAPES.get(character, character) for character in text)


def tag_of(words: str) -> str:
    """The tag of an argument or an option: what is typed in bold, what it stands for in italics."""
    if not words.startswith("-"):
        return f".I {bare(words)}"
    parts = re.sub(r"(--?[\w-]+)", lambda found: rf"\fB{escaped(found[1])}\fP", words)
    return re.sub(r" <(.*)>", r" \\fI\1\\fP", parts)


def bare(words: str) -> str:
    """An argument without the brackets and points of a help."""
    return re.sub(r"[][<>]|\.\.\.$", "", words)


def entries(tags: dict[str, str]) -> str:
    return "\n".join(f".TP\n{tag}\n{filled(about)}" for tag, about in tags.items())


def words_of(command: Command) -> str:
    """The entries of a command's words: commands below it, arguments and options."""
    tags = {f".B {escaped(word)}": about for word, about in command.commands.items()}
    both = {**command.arguments, **command.options}
    tags.update((tag_of(words), about) for words, about in both.items() if words != HELP)
    return entries(tags)


def words_of_check(tree: Tree) -> Optional[str]:
    """The entries of the words of `check`, whose section is written by hand."""
    return None if tree.program is None else words_of(commands(tree.program)["check"])


def section_of(command: Command) -> str:
    """The section of a command, which has all that its help says but for examples."""
    lead = [f".SS {command.name}", f".B {escaped(command.usage)}", ".PP",
            filled(f"{command.about}.")]
    if command.commands:
        lead.append("Its commands:")
    said = [paragraphs(part) for part in command.others if not part.startswith("Examples:")]
    statuses = {f".B {status}": about for status, about in command.statuses.items()}
    told = [*lead, words_of(command), *said, ".PP", "Exit status:", entries(statuses)]
    return "\n".join(part for part in told if part)


def paragraphs(part: str) -> str:
    """A part of a help: paragraphs, where one begins with each option that it explains, and below
    them lines that stand as they are, and entries."""
    lines = part.split("\n")
    rows = list(dropwhile(lambda line: not line.startswith(" "), lines))
    table = list(dropwhile(lambda line: not IS_ROW.match(line), rows))
    prose = "\n".join(lines[:len(lines) - len(rows)])
    shown = [f".PP\n{filled(text)}" for text in re.split(r"\n(?=--[\w -]+: )", prose) if text]
    as_they_are = textwrap.dedent("\n".join(rows[:len(rows) - len(table)])).splitlines()
    if as_they_are:
        shown.append("\n".join([".PP", ".EX", *map(continued, as_they_are), ".EE"]))
    tags = {f".B {escaped(words)}": about for words, about in rows_of(table).items()}
    return "\n".join([*shown, entries(tags)] if tags else shown)


def continued(line: str) -> str:
    """A line that stands as it is, in several of the page where it is too long for one."""
    shown, lines = escaped(line), []
    while len(shown) > COLUMNS:
        end = shown.rindex(" ", 0, COLUMNS) + 1
        lines.append(shown[:end] + "\\")
        shown = shown[end:]
    return "\n".join([*lines, shown])


def sections(tree: Tree) -> Optional[str]:
    """The sections of all commands but `check`, in the order of the program's help."""
    if tree.program is None:
        return None
    known = commands(tree.program)
    return "\n".join(section_of(known[name]) for name in NAMES if name != "check")


MAKERS = {
    "options of check": options_of_check,
    "synopsis": synopsis,
    "words of check": words_of_check,
    "commands but check": sections,
}
