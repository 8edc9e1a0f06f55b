"""The commands of the program, as the rows in crates/command_line/src have them."""

import re
from pathlib import Path
from typing import NamedTuple, Optional

ROWS = Path(__file__).resolve().parent.parent / "crates" / "command_line" / "src"


class Row(NamedTuple):
    """A command: its name, what it does, and the words that it takes, None where these are no words
    that several commands take."""

    name: str
    about: str
    words: Optional[list[str]] = None


def text_of(literal: str) -> str:
    """The text of a string of the code."""
    return re.sub(r"\\\n\s*", "", literal).replace('\\"', '"')


def row_of(body: str) -> Row:
    """The row that stands between these braces."""
    words = re.search(r"words: &\[([A-Z, ]*)\]", body)
    has_options = "options: &[]" not in body
    return Row(re.search(r'name: "([\w-]+)"', body)[1],
               text_of(re.search(r'about: "(.*?)",\n', body, re.DOTALL)[1]),
               None if has_options or not words else re.findall(r"[A-Z]+", words[1]))


def commands() -> tuple[list[Row], list[Row]]:
    """The commands that none stands below and those below `profile`, each in the order in which
    help lists them."""
    rows = {name: row_of(body) for path in ROWS.glob("*.rt")
            for name, body in re.findall(r"const (\w+): &CommandRow = &CommandRow \{(.*?)\n\};",
                                         path.read_text(encoding="utf-8"), re.DOTALL)}
    text = (ROWS / "commands.rt").read_text(encoding="utf-8")
    constants = {name: row.upper()
                 for name, row in re.findall(r"CommandName::(\w+) => (\w+)_row\(\)", text)}

    def listed(constant: str) -> list[Row]:
        body = re.search(rf"const {constant}: &\[CommandName\] = &\[(.*?)\];", text, re.DOTALL)[1]
        return [rows[constants[name]] for name in re.findall(r"CommandName::(\w+)", body)]

    profile = Row(rows["PROFILE_COMMANDS"].name, rows["PROFILE_COMMANDS"].about)
    return [*listed("BELOW_PROGRAM"), profile], listed("BELOW_PROFILE")


def names() -> tuple[str, ...]:
    """What is written behind the program's name for each command but `help`, a group before those
    below it."""
    top, profile = commands()
    return (*(row.name for row in top), *(f"{top[-1].name} {row.name}" for row in profile))
