"""The marks of a picture, read from its SVG, and compared with the lines of `pages`.

    python3 crosscheck/picture_marks.py PICTURE LINES

PICTURE is the SVG of one page with `--boxes`, LINES what `pages` writes for it. Each mark has to
stand at its place within 1/7200 inch, in the order of the lines, and there may be no other.
"""

import re
import sys
import xml.etree.ElementTree as xml
from fractions import Fraction
from typing import List, Tuple

UNIT = 5_080_000                              # ticks in 1/7200 inch
SVG = "{http://www.w3.org/2000/svg}"
NO_MARKS = ("sheet", "rulers", "logical", "printable", "veil", "limit", "measure", "failure",
            "sentence")
RUN = re.compile(r"M(\d+) 0h(\d+)v1h-(\d+)z")
PLACE = re.compile(r"translate\((\S+) (\S+)\) scale\((\d+)\)")
DENSITIES = ((2, ".02"), (10, ".1"), (20, ".15"), (35, ".3"), (55, ".45"), (80, ".7"), (99, ".9"))

# A kind, what it is beside places, and its places in 1/7200 inch.
Mark = Tuple[str, Tuple, Tuple[Fraction, ...]]


def numbers(element: xml.Element, names: str) -> List[Fraction]:
    return [Fraction(element.get(name, "0")) for name in names.split()]


def box_of(element: xml.Element) -> Tuple[Fraction, ...]:
    left, top, width, height = numbers(element, "x y width height")
    return left, top, left + width, top + height


def row_of(element: xml.Element) -> Mark:
    """A row: behind its title its runs are drawn smoothed, and once more sharp."""
    place = PLACE.fullmatch(element.get("transform"))
    _, smooth, sharp = element
    assert (smooth.tag, sharp.tag) == (SVG + "path", SVG + "path")
    assert (smooth.attrib.keys(), sharp.attrib.keys()) == ({"d"}, {"d", "shape-rendering"})
    data = smooth.get("d")
    assert sharp.get("d") == data, (data, sharp.get("d"))
    runs = [tuple(map(int, run.groups())) for run in RUN.finditer(data)]
    assert "".join(f"M{a} 0h{n}v1h-{m}z" for a, n, m in runs) == data, data
    assert all(n == m > 0 for _, n, m in runs), data
    ends = [a + n for a, n, _ in runs]
    assert all(end < run[0] for end, run in zip(ends, runs[1:])), data
    pixels = tuple(x for a, n, _ in runs for x in range(a, a + n))
    return "row", (7200 // int(place[3]), pixels), (Fraction(place[1]), Fraction(place[2]))


def mark_of(element: xml.Element) -> Mark:
    kind = element.get("class")
    if kind == "area":
        return "rect", (element.get("fill"), element.get("fill-opacity")), box_of(element)
    if kind == "box":
        return "glyph", (), box_of(element)
    if kind == "line":
        return "line", (), tuple(numbers(element, "stroke-width x1 y1 x2 y2"))
    assert kind == "row", kind
    return row_of(element)


def marks_of_picture(text: str) -> List[Mark]:
    marks: List[Mark] = []
    for element in xml.fromstring(text):
        kind = element.get("class")
        if element.tag == SVG + "defs" or kind in NO_MARKS:
            continue
        if kind == "glyph":
            # The text of the box before it: as wide, and from its left edge.
            last, _, (left, _, right, _) = marks[-1]
            x, y, width = numbers(element, "x y textLength")
            assert last == "glyph" and (x, width) == (left, right - left)
            character = element[0].tail
            assert len(character) == 1, character
            marks[-1] = (last, (character, y), marks[-1][2])
            continue
        marks.append(mark_of(element))
    return marks


def fill_of(kind: str, number: int) -> Tuple:
    if kind == "3":
        return f"url(#pattern{number})", None
    if kind == "2":
        return "black", next((density for most, density in DENSITIES if number <= most), "1")
    return ("black", None) if kind == "0" else ("white", None)


def places_of(words: List[str]) -> Tuple[Fraction, ...]:
    return tuple(Fraction(int(word), UNIT) for word in words)


def mark_of_line(line: str) -> Mark:
    kind, *words = line.split()
    if kind == "rect":
        return kind, fill_of(words[0], int(words[1])), places_of(words[2:])
    if kind == "row":
        bits = "".join(f"{byte:08b}" for byte in bytes.fromhex(words[3]))
        pixels = tuple(at for at, bit in enumerate(bits) if bit == "1")
        return kind, (int(words[0]), pixels), places_of(words[1:3])
    if kind == "line":
        return kind, (), places_of(words)
    assert kind == "glyph", kind
    baseline, *box = places_of(words[-5:])
    return kind, (int(words[0]), words[1], baseline), tuple(box)


ENCODINGS = {"0U": "ascii", "10U": "cp437", "12U": "cp850", "8U": "hp-roman8", "0N": "latin-1",
             "19U": "cp1252"}


def is_text(drawn: Tuple, code: int, symbol_set: str, y: Fraction) -> bool:
    """Whether this is drawn of a character: its box alone, or its text on its baseline."""
    try:
        wanted = bytes([code]).decode(ENCODINGS.get(symbol_set, "undefined"))
    except UnicodeError:
        wanted = None
    is_control = wanted is not None and (ord(wanted) < 32 or 127 <= ord(wanted) < 160)
    if is_control and symbol_set in ("10U", "12U"):
        return not drawn or drawn[0] > "~"    # PC-8 and PC-850 show a symbol there
    if wanted is None or is_control:
        return not drawn
    return bool(drawn) and drawn[0] == wanted and abs(drawn[1] - y) < 1


def is_same(drawn: Mark, wanted: Mark) -> bool:
    if drawn[0] != wanted[0] or len(drawn[2]) != len(wanted[2]):
        return False
    if any(abs(a - b) >= 1 for a, b in zip(drawn[2], wanted[2])):
        return False
    return is_text(drawn[1], *wanted[1]) if drawn[0] == "glyph" else drawn[1] == wanted[1]


def first_difference(picture: str, lines: List[str]) -> str:
    """What differs first, or nothing."""
    drawn = marks_of_picture(picture)
    wanted = [mark_of_line(line) for line in lines if not line.startswith("page ")]
    for number, (a, b) in enumerate(zip(drawn, wanted)):
        if not is_same(a, b):
            return f"mark {number}: {a} is drawn for {b}"
    return "" if len(drawn) == len(wanted) else f"{len(drawn)} marks for {len(wanted)}"


def main() -> int:
    with open(sys.argv[1], encoding="ascii") as picture:
        with open(sys.argv[2], encoding="ascii") as lines:
            difference = first_difference(picture.read(), lines.read().splitlines())
    print(difference or "each mark is drawn at its place, and no other")
    return 1 if difference else 0


if __name__ == "__main__":
    sys.exit(main())
