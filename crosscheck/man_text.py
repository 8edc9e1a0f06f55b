"""Reads manual pages in the macros of man(7), as far as the pages in man/ use them."""

import re
import shlex
from dataclasses import dataclass, field
from pathlib import Path
from typing import Dict, List, Optional

ESCAPES = {r"\-": "-", r"\e": "\\", r"\&": "", r"\(aq": "'", r"\(ha": "^", r"\(ti": "~",
           r"\(ga": "`", r"\(dq": '"'}
ESCAPE = re.compile(r"\\f[BIPR]|\\\(..|\\.")
# Macros whose words are text: those of two letters set their words in turn, without a blank.
FONTS = ("B", "I", "BR", "BI", "IR", "RB", "IB", "RI")
SILENT = ("TH", "nf", "fi", "br")


class Unreadable(Exception):
    """A page has what this reader does not know."""


@dataclass
class Section:
    """A section or subsection: its text, the entries of its lists by their tags, its examples."""
    text: str = ""
    entries: Dict[str, str] = field(default_factory=dict)
    examples: List[str] = field(default_factory=list)
    # What stands on lines of their own in bold, as the synopsis does.
    bold: List[str] = field(default_factory=list)


def plain(text: str) -> str:
    """The text without its escapes."""
    def one(escape: re.Match) -> str:
        if escape[0].startswith("\\f"):
            return ""
        if escape[0] not in ESCAPES:
            raise Unreadable(f"the escape {escape[0]}")
        return ESCAPES[escape[0]]
    return ESCAPE.sub(one, text)


def arguments_of(line: str) -> List[str]:
    """The words of a macro, where quotes hold some together."""
    lexer = shlex.shlex(line, posix=True)
    lexer.whitespace_split, lexer.quotes, lexer.escape, lexer.commenters = True, '"', "", ""
    return list(lexer)


class Reader:
    """Goes through the lines of a page."""

    def __init__(self) -> None:
        self.sections: Dict[str, Section] = {}
        self.section = Section()
        self.entry: Optional[str] = None
        self.tag_is_next = False
        self.example: Optional[List[str]] = None

    def words(self, text: str) -> None:
        """Some text, which is a tag or goes on with what stands before it."""
        if self.tag_is_next:
            self.tag_is_next = False
            self.entry = text
            self.section.entries.setdefault(text, "")
            self.section.text += "\n" + text + "\n"
            return
        self.section.text += text + " "
        if self.entry is not None:
            self.section.entries[self.entry] += text + " "
        if self.example is not None:
            self.example.append(text)

    def macro(self, name: str, rest: str) -> None:
        """A line that begins with a point."""
        if name in FONTS:
            text = plain((" " if len(name) == 1 else "").join(arguments_of(rest)))
            if name == "B" and not self.tag_is_next:
                self.section.bold.append(text)
            self.words(text)
        elif name in ("SH", "SS"):
            self.section = self.sections.setdefault(plain(rest.strip('"')), Section())
            self.entry = None
        elif name == "PP":
            self.entry = None
        elif name == "TP":
            self.tag_is_next = True
        elif name == "EX":
            self.example = []
        elif name == "EE":
            self.section.examples.append("".join(f"{line}\n" for line in self.example or []))
            self.example = None
        elif name == "IP" and not rest or name in SILENT:
            pass
        else:
            raise Unreadable(f"the macro .{name} {rest}")


def read_page(path: Path) -> Dict[str, Section]:
    """The sections and subsections of a page, by their titles."""
    reader = Reader()
    for line in path.read_text().replace("\\\n", "").splitlines():
        if line.startswith('.\\"'):
            continue
        if line.startswith("."):
            name, _, rest = line[1:].partition(" ")
            reader.macro(name, rest)
        else:
            reader.words(plain(line))
    return reader.sections
