"""What a program says of its own commands: the help of each, its models and its version."""

import re
import subprocess
from dataclasses import dataclass
from typing import Dict, Iterator, List, Tuple

# A row of a table of the help: what is told of, and what is told, behind two blanks or more.
ROW = re.compile(r"  +(\S.*?)(?:  +(\S.*))?$")


def words_of(text: str) -> str:
    """The text with one blank between its words."""
    return " ".join(text.split())


@dataclass(frozen=True)
class Command:
    """A command by its words: none is the program itself."""
    words: Tuple[str, ...]
    about: str
    usage: str
    commands: Dict[str, str]
    arguments: Dict[str, str]
    options: Dict[str, str]
    statuses: Dict[str, str]
    # What else is said, in parts between empty lines.
    others: List[str]

    @property
    def name(self) -> str:
        return " ".join(self.words)

    @property
    def cells(self) -> List[str]:
        """What else is said, each line and each column of it by itself."""
        cells: List[str] = []
        for part in self.others:
            heading, *lines = part.split("\n")
            if not heading.endswith(":") or heading.startswith(" "):
                lines.insert(0, heading)
            cells += (words_of(cell) for line in lines
                      for cell in re.split(r"   +|(?<=\S)  +", line))
        return [cell for cell in cells if cell]

    def short_and_long(self) -> Dict[str, str]:
        """Each way to write an option, with what is told of it, but for brackets at its end."""
        told = {}
        for option, about in self.options.items():
            for way in re.findall(r"(?<!\w)--?[a-zA-Z][\w-]*", option):
                told[way] = re.sub(r"( \[[^]]*\])+$", "", about)
        return told

    def values(self) -> Dict[str, List[str]]:
        """The values of each option that takes fixed ones."""
        fixed = {}
        for option, about in self.options.items():
            values = re.search(r"\[possible values: (.*?)\]", about)
            if values:
                fixed[re.findall(r"--[\w-]+", option)[0]] = values[1].split(", ")
        return fixed


class Program:
    """A program that is asked about itself."""

    def __init__(self, path: str):
        self.path = path

    def output(self, *words: str) -> str:
        """What it writes on both streams."""
        ran = subprocess.run([self.path, *words], capture_output=True, text=True, check=False)
        return ran.stdout + ran.stderr

    def version(self) -> str:
        return self.output("--version").split()[-1]

    def models(self) -> Dict[str, List[str]]:
        """The papers of each model."""
        rows = (line.split(":")[0::2] for line in self.output("profile", "list").splitlines())
        return {model: papers.split() for model, papers in rows}

    def commands(self, words: Tuple[str, ...] = ()) -> Iterator[Command]:
        """A command, and all that stand below it."""
        command = read_help(words, self.output(*words, "--help"))
        yield command
        for name in command.commands:
            if name != "help":
                yield from self.commands((*words, name))


def rows_of(lines: List[str]) -> Dict[str, str]:
    """The rows of a table, with the lines that go on with one."""
    rows: Dict[str, str] = {}
    last = ""
    for line in lines:
        row = ROW.match(line)
        if row and row[2] is not None:
            last = row[1]
            rows[last] = row[2]
        elif last:
            rows[last] += " " + line.strip()
    return rows


def read_help(words: Tuple[str, ...], text: str) -> Command:
    """The command that a help tells of, whose parts have a heading and end at an empty line."""
    parts = text.strip("\n").split("\n\n")
    tables: Dict[str, Dict[str, str]] = {}
    others: List[str] = []
    for part in parts[2:]:
        heading, *lines = part.split("\n")
        name = heading.split(",")[0].rstrip(":")
        if name in ("Commands", "Arguments", "Options", "Exit status"):
            tables[name] = rows_of(lines)
        else:
            others.append(part)
    return Command(words, parts[0], parts[1].removeprefix("Usage: "),
                   *(tables.get(name, {}) for name in ("Commands", "Arguments", "Options",
                                                       "Exit status")), others)
