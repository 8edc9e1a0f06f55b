"""The objects of a PDF document, read strictly by the table at its end.

Each object stands where the table says, ends where the next one begins, and there is nothing
between them; the length of a page's marks is the number in the object behind. What is not so
raises Unsound.
"""

import re
from dataclasses import dataclass
from fractions import Fraction
from typing import Dict, List, Tuple

HEAD = b"%PDF-1.7\n%\xe2\xe3\xcf\xd3\n"
END = re.compile(rb"trailer\n<</Root (\d+) 0 R/Info (\d+) 0 R/Size (\d+)>>\n"
                 rb"startxref\n(\d+)\n%%EOF\n\Z")
ENTRY = re.compile(rb"(\d{10}) (\d{5}) ([fn]) \n")
STREAM = re.compile(rb"<<(.*?)/Length (\d+)( 0 R)?>>\nstream\n(.*)\nendstream\Z", re.DOTALL)
PAGE = re.compile(rb"<</Type/Page/Parent 2 0 R/Resources 5 0 R/MediaBox\[0 -([\d.]+) ([\d.]+) 0\]"
                  rb"/Contents (\d+) 0 R>>\Z")
CATALOG = re.compile(rb"<</Type/Catalog/Pages (\d+) 0 R/PageLabels<</Nums\[(.*)\]>>>>\Z")
PAGES = re.compile(rb"<</Type/Pages/Count (\d+)/Kids\[(.*)\]>>\Z")
LABEL = re.compile(rb"<</P\((.*)\)>>\Z")
INFORMATION = re.compile(rb"<</Producer\(pclcheck\)/Title<(.*?)>/Subject<(.*?)>>>\Z")


class Unsound(Exception):
    """What is wrong with a document."""


@dataclass
class Page:
    """A page: its sides in points, its label, and what marks it.

    The zero of its box is its upper left corner."""

    width: Fraction
    height: Fraction
    label: str
    content: bytes


@dataclass
class Document:
    pages: List[Page]
    title: bytes
    subject: bytes
    verdict: bytes


def found(pattern: re.Pattern, text: bytes, what: str) -> re.Match:
    match = pattern.match(text)
    if match is None:
        raise Unsound(f"{what}: {text[:80]!r}")
    return match


def holds(is_so: bool, what: str) -> None:
    if not is_so:
        raise Unsound(what)


def table_of(data: bytes) -> Tuple[int, List[int]]:
    """Where the table stands, and the places of the objects from the first on."""
    end = END.search(data)
    holds(end is not None, "no end of a document")
    count, start = int(end[3]), int(end[4])
    head = b"xref\n0 %d\n" % count
    holds(data[start:start + len(head)] == head, f"no table at {start}")
    rows = data[start + len(head):end.start()]
    holds(len(rows) == 20 * count, f"{len(rows)} bytes of a table of {count}")
    entries = [found(ENTRY, rows[at:at + 20], "an entry") for at in range(0, len(rows), 20)]
    holds(entries[0].groups() == (b"0" * 10, b"65535", b"f"), "the entry of no object")
    holds(all(entry.groups()[1:] == (b"00000", b"n") for entry in entries[1:]), "an entry")
    holds((end[1], end[2]) == (b"1", b"3"), "the trailer")
    return start, [int(entry[1]) for entry in entries[1:]]


def objects_of(data: bytes) -> Dict[int, bytes]:
    """The objects by their numbers, each without its head and its end."""
    holds(data.startswith(HEAD), "no head")
    start, places = table_of(data)
    order = sorted(zip(places, range(1, len(places) + 1)))
    holds(order[0][0] == len(HEAD), "bytes behind the head")
    objects = {}
    for (place, number), (after, _) in zip(order, [*order[1:], (start, 0)]):
        head, end = b"%d 0 obj\n" % number, b"\nendobj\n"
        text = data[place:after]
        holds(text.startswith(head) and text.endswith(end), f"no object {number} at {place}")
        objects[number] = text[len(head):-len(end)]
    return objects


def content_of(objects: Dict[int, bytes], number: int) -> bytes:
    """What marks a page, whose length the next object has."""
    stream = found(STREAM, objects[number], f"object {number}")
    holds(stream[3] == b" 0 R" and int(stream[2]) == number + 1, f"the length of {number}")
    holds(objects[number + 1] == b"%d" % len(stream[4]), f"the number in {number + 1}")
    return stream[4]


def lengths_hold(objects: Dict[int, bytes]) -> None:
    """The streams that stand for themselves are as long as they say."""
    for number, text in objects.items():
        stream = STREAM.match(text)
        if stream is not None and stream[3] is None:
            holds(int(stream[2]) == len(stream[4]), f"the length of object {number}")


def references(text: bytes, each: int) -> List[Tuple[int, ...]]:
    """Groups of so many numbers, of which the last is that of an object."""
    words = text.replace(b" 0 R", b"").split()
    groups = [tuple(map(int, words[at:at + each])) for at in range(0, len(words), each)]
    holds(b"".join(b" ".join(b"%d" % n for n in group) + b" 0 R " for group in groups) == text,
          f"references {text[:60]!r}")
    return groups


def document_of(data: bytes) -> Document:
    objects = objects_of(data)
    lengths_hold(objects)
    catalog = found(CATALOG, objects[1], "the catalog")
    tree = found(PAGES, objects[int(catalog[1])], "the pages")
    kids, labels = references(tree[2], 1), references(catalog[2], 2)
    holds(len(kids) == len(labels) == int(tree[1]), "as many pages as labels")
    holds([number for number, _ in labels] == list(range(len(kids))), "the order of labels")
    pages = []
    for (kid,), (_, label) in zip(kids, labels):
        page = found(PAGE, objects[kid], f"page {kid}")
        pages.append(Page(Fraction(page[2].decode()), Fraction(page[1].decode()),
                          found(LABEL, objects[label], f"label {label}")[1].decode(),
                          content_of(objects, int(page[3]))))
    holds(len(objects) == 22 + 4 * len(pages), f"{len(objects)} objects of {len(pages)} pages")
    information = found(INFORMATION, objects[3], "the names")
    verdict = found(STREAM, objects[4], "the verdict")[4]
    told = re.search(rb"<([0-9a-f]*)> Tj", verdict)
    holds(told is not None, f"no verdict: {verdict!r}")
    title, subject, sentence = (bytes.fromhex(one.decode())
                                for one in (information[1], information[2], told[1]))
    return Document(pages, title, subject, sentence)
