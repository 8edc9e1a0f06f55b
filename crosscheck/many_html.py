"""The document of jobs, against what is due of it: a reading of its own, by a parser of HTML."""

import re
from base64 import b64decode
from dataclasses import dataclass, field
from html.parser import HTMLParser
from typing import Dict, List, Optional, Tuple

from kinds import kind_of
from many_due import Told
from many_forms import command_of, sentence_differs
from many_notes import note_text

ONCE = "This job can be read only once, so no page of it is drawn."
TOO_LARGE = "The picture of the page is too large for this document; the command picture of " \
    "pclcheck draws it."
FIRST_PAGE = "The first page, from the first settings of the panel"
FAILING_PAGE = "The page at which the job fails, from the first settings of the panel"
# By the number: of these two no failure is seen.
CAPTIONS = {
    12: "The page as it prints from the first settings of the panel; others may print it otherwise",
    33: "The page as it prints on this printer; the first one prints it otherwise",
}
ADDRESS = "data:image/svg+xml;base64,"
MOST_LISTED, MOST_OF_PICTURE = 4_000, 1_000_000
# What has no end, and what would load something.
VOID = ("meta", "input", "img")
LOADING = ("src", "href", "srcset", "data", "action", "background")
# What hides an element from a reader, and what alone is hidden: the fields, on paper.
HIDING = re.compile(r"display:\s*none|visibility:\s*(hidden|collapse)|(opacity|font-size):\s*0\b")
HIDDEN = {"form", "form:not([hidden])"}
# In a picture by itself there is room for the sentence on a failure.
HEAD, SENTENCE = re.compile(rb"<svg[^>]*>"), re.compile(rb'<text class="sentence".*</text>\n')


@dataclass
class Row:
    """A row as it was read."""
    verdict: str                              # its class
    printer: str
    texts: List[Tuple[str, str]] = field(default_factory=list)        # each element, and its text
    pictures: List[bytes] = field(default_factory=list)


class Document(HTMLParser):
    """The rows of a document, the names of its printers, and what is wrong with it."""

    def __init__(self, text: str):
        super().__init__()
        self.rows: List[Row] = []
        self.printers: List[str] = []
        self.wrong: List[str] = []
        self.inside: List[str] = []           # the elements that are open
        self.row: Optional[Row] = None
        self.feed(text)
        self.close()
        if self.inside:
            self.wrong.append(f"open at the end: {self.inside}")

    def handle_starttag(self, tag: str, attrs: List[Tuple[str, Optional[str]]]) -> None:
        given = {name: value or "" for name, value in attrs}
        for name in LOADING:
            if name in given and not given[name].startswith(ADDRESS):
                self.wrong.append(f"{tag} loads {given[name]!r}")
        if tag not in VOID:
            self.inside.append(tag)
        if tag == "details":
            self.row = Row(given.get("class", ""), given.get("data-printer", ""))
            self.rows.append(self.row)
        elif tag == "img" and self.row:
            self.row.pictures.append(picture_at(given["src"]))
        elif tag == "li":
            self.printers.append("")
        elif self.row:
            self.row.texts.append((tag, ""))

    def handle_endtag(self, tag: str) -> None:
        if not self.inside or self.inside.pop() != tag:
            self.wrong.append(f"the end of {tag} stands alone")
        if tag == "details":
            self.row = None

    def handle_data(self, data: str) -> None:
        tag = self.inside[-1] if self.inside else ""
        if tag == "style":
            self.wrong += [f"{selector} hides what it is of" for selector in hidden(data)]
        elif tag == "li":
            self.printers[-1] += data
        elif self.row and tag not in ("details", "summary", "figure") and self.row.texts:
            found, text = self.row.texts[-1]
            self.row.texts[-1] = (found, text + data)

    def handle_comment(self, data: str) -> None:
        self.wrong.append(f"a comment: {data!r}")


def hidden(style: str) -> List[str]:
    """The selectors by which a style sheet hides what a reader has to see."""
    rules = re.findall(r"([^{}]+)\{([^{}]*)\}", style)
    return [selector.strip() for selectors, rule in rules if HIDING.search(rule)
            for selector in selectors.split(",") if selector.strip() not in HIDDEN]


def picture_at(address: str) -> bytes:
    """The picture that an address has; nothing where it has none."""
    try:
        return b64decode(address[len(ADDRESS):], validate=True)
    except ValueError:
        return b""


@dataclass(frozen=True)
class Further:
    """What further readings of a job give: its list, and the picture of a page by itself."""
    listed: bytes = b""
    picture: bytes = b""


def shown(text: bytes) -> str:
    """A text as a document shows it, in which a control code is no character."""
    return "".join(letter if letter == "\n" or " " <= letter != "\x7f" else "\ufffd"
                   for letter in text.decode())


def near(told: Told, listed: bytes) -> str:
    """The lines of a list near the place at which a job fails."""
    lines = [line for line in listed.splitlines(True)
             if b" FAULT " not in line and told.at - 40 <= int(line.split()[0]) <= told.at + 16]
    text = b"".join(lines)
    return text.decode() if len(text) <= MOST_LISTED else text[:MOST_LISTED].decode() + "..."


def badges(told: Told, command: Optional[str]) -> List[Tuple[str, str]]:
    if told.verdict == "PASS":
        return [("i", f"pages {told.pages}")]
    if told.verdict == "FAIL":
        return [("i", kind_of(told.code, command)), ("i", f"page {told.place.page}"),
                ("i", f"byte {told.at}")]
    return []


def caption(told: Told) -> str:
    """Which page a picture is of, and what is seen of it."""
    return CAPTIONS.get(told.code, FAILING_PAGE) if told.verdict == "FAIL" else FIRST_PAGE


def body(told: Told, explanations: Dict[int, bytes], further: Further) -> List[Tuple[str, str]]:
    """What a row opens to."""
    found = []
    if told.verdict == "FAIL" and told.code in explanations:
        found.append(("pre", shown(explanations[told.code])))
    for note in told.notes:
        found.append(("p", shown(note_text("words", told.job, note, b""))))
        if note.code in explanations:
            found.append(("pre", shown(explanations[note.code])))
    if told.job == b"-":
        return found + [("p", ONCE)]
    if told.verdict == "FAIL":
        found.append(("pre", near(told, further.listed)))
    if len(further.picture) > MOST_OF_PICTURE:
        found.append(("p", TOO_LARGE))
    elif further.picture:
        found += [("figure", ""), ("figcaption", caption(told))]
    return found


def bare(picture: bytes) -> bytes:
    """A picture without its sides, and the sentence that it has by itself."""
    return SENTENCE.sub(b"", HEAD.sub(b"", picture, count=1))


def row_differs(told: Told, row: Row, explanations: Dict[int, bytes], further: Further) -> bool:
    """Whether a row is not that of a job."""
    texts = [text for text in row.texts if text[0] != "summary"]
    if [tag for tag, _ in texts[:2]] != ["b", "span"]:
        return True
    sentence = texts[1][1].encode()
    if sentence[-1:] != b"\n" or sentence_differs(told, sentence[:-1]):
        return True
    command = command_of(told, sentence[:-1])
    due = badges(told, command) + body(told, explanations, further)
    has_picture = ("figure", "") in due
    return (row.verdict, row.printer) != (told.verdict.lower(), told.printer.decode()) \
        or texts[0][1] != told.verdict or texts[2:] != due \
        or [bare(picture) for picture in row.pictures] \
        != ([bare(further.picture)] if has_picture else [])
