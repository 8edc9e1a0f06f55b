"""The marks of a PDF document as mutool sees them, and how they compare with the lines of `pages`.

mutool knows nothing of pclcheck: where `pdf_marks.py` reads what pclcheck writes, this reads what
another program makes of it, `mutool trace FILE`. Pixels stand in no trace: of an image there are
its place and its size. Lengths are in 1/7200 inch, down from the upper edge.
"""

import subprocess
import xml.etree.ElementTree as xml
from dataclasses import dataclass
from fractions import Fraction
from typing import Iterator, List, Tuple

from pdf_marks import (SHADES, Matrix, Mark, Point, character_of, failure_differs, fill_of, is_near,
                       moved, times)
from pdf_objects import Unsound, holds
from picture_marks import places_of

SECONDS = 60
FACES = {"Courier": (False, False), "Courier-Bold": (True, False),
         "Courier-Oblique": (False, True), "Courier-BoldOblique": (True, True)}
# The lines of a pattern in its square, from corner to corner as they are drawn.
PATTERNS = {
    "P1": [(0, 192, 384, 192)], "P2": [(192, 0, 192, 384)],
    "P3": [(-96, 96, 96, -96), (-96, 480, 480, -96), (288, 480, 480, 288)],
    "P4": [(-96, 288, 96, 480), (-96, -96, 480, 480), (288, -96, 480, 96)],
    "P5": [(0, 192, 384, 192), (192, 0, 192, 384)],
    "P6": [(-96, -96, 480, 480), (-96, 480, 480, -96)],
}
UNITS: Matrix = tuple(map(Fraction, (100, 0, 0, 100, 0, 0)))


@dataclass
class Traced:
    """A page: its sides in points, and its marks."""

    width: Fraction
    height: Fraction
    marks: List[Mark]


def numbers(text: str) -> Tuple[Fraction, ...]:
    return tuple(Fraction(word) for word in text.split())


def matrix_of(element: xml.Element) -> Matrix:
    """From the lengths of an element to 1/7200 inch."""
    return times(numbers(element.get("transform")), UNITS)


def points_of(element: xml.Element) -> List[Point]:
    matrix = matrix_of(element)
    return [moved(matrix, Fraction(point.get("x")), Fraction(point.get("y")))
            for point in element if point.tag in ("moveto", "lineto")]


def color_of(element: xml.Element) -> str:
    is_gray = element.get("colorspace") == "DeviceGray"
    return element.get("color") if is_gray else {"1 0 0": "red"}.get(element.get("color"), "?")


def box_of(element: xml.Element) -> Tuple[Fraction, ...]:
    """The box of a path that is one."""
    points = points_of(element)
    across, down = zip(*points)
    box = min(across), min(down), max(across), max(down)
    corners = {(x, y) for x in (box[0], box[2]) for y in (box[1], box[3])}
    holds(len(points) == 4 and set(points) <= corners, f"no box: {points}")
    return box


def filled(element: xml.Element) -> Mark:
    return Mark("rect", (color_of(element), element.get("alpha", "1")), box_of(element))


def stroked(element: xml.Element) -> Mark:
    points, color = points_of(element), color_of(element)
    is_box = element.find("closepath") is not None
    width = Fraction(element.get("linewidth")) * abs(matrix_of(element)[0])
    if is_box:
        return Mark({".5": "outline", ".75": "box"}.get(color, "?"), (), box_of(element))
    if color == "red":
        across, down = zip(*points)
        return Mark("cross", (), (sum(across) / 4, sum(down) / 4))
    holds(color == "0" and element.get("linecap") == "1,1,1" and len(points) == 2, "a line")
    return Mark("line", (), (width, *points[0], *points[1]))


def image(element: xml.Element) -> Mark:
    matrix = matrix_of(element)
    x, y = moved(matrix, Fraction(0), Fraction(0))
    to_x, to_y = moved(matrix, Fraction(1), Fraction(1))
    holds(color_of(element) == "0" and x < to_x, "an image")
    size = int(element.get("width")), int(element.get("height"))
    return Mark("image", size, (x, min(y, to_y), to_x, max(y, to_y)))


def text(element: xml.Element) -> List[Mark]:
    """The letters of a string one by one, or a sentence."""
    span, = element.findall("span")
    scale = numbers(span.get("trm"))
    matrix = times((*scale, Fraction(0), Fraction(0)), matrix_of(element))
    holds(matrix[1] == matrix[2] == 0 and matrix[0] > 0, "text that is not level")
    kind = "hidden" if element.tag == "ignore_text" else \
        "letter" if color_of(element) == "0" else "sentence"
    marks = []
    for letter in span.findall("g"):
        left, level = moved(matrix_of(element), Fraction(letter.get("x")),
                            Fraction(letter.get("y")))
        right = left + matrix[0] * Fraction(letter.get("adv"))
        what = span.get("font"), letter.get("unicode")
        marks.append(Mark(kind, what, (left, right, level, abs(matrix[3]))))
    if kind != "sentence":
        return marks
    whole = "".join(mark.what[1] for mark in marks)
    return [Mark(kind, (span.get("font"), whole), marks[0].places)]


def drawn_in(lines: xml.Element) -> str:
    """The pattern whose lines these are."""
    ends = [int(point.get(axis)) for point in lines for axis in ("x", "y")]
    drawn = [tuple(ends[at:at + 4]) for at in range(0, len(ends), 4)]
    holds(lines.get("linewidth") == "48" and color_of(lines) == "0", "the lines of a pattern")
    return next((name for name, one in PATTERNS.items() if one == drawn), "?")


def is_from_corner(drawn: xml.Element) -> bool:
    """Whether the squares of a pattern are counted from the upper left corner of the page."""
    return all(abs(place / 384 - round(place / 384)) * 384 < 1 for place in matrix_of(drawn)[4:])


def clipped(area: xml.Element, inner: List[xml.Element]) -> Mark:
    """What is drawn within an area: the verdict, or a pattern, as a tile or square by square."""
    if [one.tag for one in inner] == ["fill_text"]:
        return Mark("verdict", (), ())
    if [one.tag for one in inner] == ["tile"]:
        tile, = inner
        square = tile.get("view"), tile.get("xstep"), tile.get("ystep")
        holds(square == ("0 0 384 384", "384", "384"), "the square of a pattern")
        inner = list(tile)
    lines = [one for one in inner if one.tag == "stroke_path"]
    holds(all(is_from_corner(one) for one in lines), "the place of a pattern")
    patterns = {drawn_in(one) if one.tag == "stroke_path" else "?" for one in inner}
    holds(len(patterns) == 1, f"in an area {patterns}")
    return Mark("rect", (patterns.pop(), "1"), box_of(area))


def marks_in(elements: List[xml.Element]) -> Iterator[Mark]:
    """The marks of a page, in their order."""
    known = {"fill_path": filled, "stroke_path": stroked, "fill_image_mask": image}
    while elements:
        element = elements.pop(0)
        if element.tag == "clip_path":
            end = next(at for at, one in enumerate(elements) if one.tag == "pop_clip")
            yield clipped(element, elements[:end])
            del elements[:end + 1]
        elif element.tag in ("fill_text", "ignore_text"):
            yield from text(element)
        elif element.tag != "set_default_colorspaces":
            holds(element.tag in known, f"the element {element.tag}")
            yield known[element.tag](element)


def traced_pages(path: str) -> List[Traced]:
    """The pages of a document; raises Unsound where mutool finds something wrong."""
    done = subprocess.run(["mutool", "trace", path], capture_output=True, timeout=SECONDS,
                          stdin=subprocess.DEVNULL)
    told = [line for line in done.stderr.decode("latin-1").splitlines()
            if "ICC support" not in line]
    holds(done.returncode == 0 and not told, f"mutool: {told}")
    pages = []
    for page in xml.fromstring(done.stdout).findall("page"):
        left, top, right, bottom = numbers(page.get("mediabox"))
        holds(left == top == 0, "a corner of a page")
        pages.append(Traced(right, bottom, list(marks_in(list(page)))))
    return pages


# ---- the lines of `pages`

def glyph_differs(words: List[str], marks: List[Mark]) -> str:
    """What is wrong with a character, whose marks are taken from the front."""
    code, symbol_set, _, height, style, weight = words[:6]
    y, left, top, right, bottom = places_of(words[-5:])
    character = character_of(int(code), symbol_set)
    first = marks.pop(0)
    if first.kind == "box":
        if not is_near(first.places, (left, top, right, bottom)):
            return f"the box {first.places}"
        if marks and marks[0].kind == "hidden":
            hidden = marks.pop(0).what[1]
            return "" if character in ("?", hidden) else f"{hidden!r} for {character!r}"
        return "" if character in (None, "?") else f"no text for {character!r}"
    if first.kind != "letter":
        return f"{first.kind} for a character"
    face, shown = first.what
    if FACES.get(face) != (float(weight) >= 1, int(float(style)) % 4 > 0):
        return f"the face {face}"
    if character not in ("?", shown):
        return f"{shown!r} for {character!r}"
    due = left, right, y, 100 * Fraction(height)
    return "" if is_near(first.places, due) else f"{first.places} for {due}"


def image_differs(lines: List[str], marks: List[Mark]) -> str:
    """What is wrong with an image, of which the rows are taken from the front of the lines.

    A row may have blank bytes at both ends, but the first and the last one are rows of the lines.
    """
    mark = marks.pop(0)
    if mark.kind != "image":
        return f"{mark.kind} for a row"
    (columns, rows), (left, top, right, bottom) = mark.what, mark.places
    pixel = (right - left) / columns
    if abs((bottom - top) / rows - pixel) * rows >= 1:
        return f"pixels of {(bottom - top) / rows} and {pixel}"
    spans = []
    while lines and lines[0].startswith("row "):
        _, resolution, *places, data = lines[0].split()
        x, y = places_of(places)
        span = x, y, x + 4 * len(data) * pixel, y + pixel
        is_within = left - 1 < x and span[2] < right + 1 and top - 1 < y and span[3] < bottom + 1
        if not is_within or abs(Fraction(7200) / int(resolution) - pixel) * columns >= 1:
            break
        spans.append(span)
        lines.pop(0)
    if not spans:
        return f"an image at {mark.places}"
    starts_x, starts_y, _, ends_y = zip(*spans)
    bytes_ahead = (min(starts_x) - left) / (8 * pixel)
    is_right = is_near((top, bottom, left + 8 * pixel * round(bytes_ahead)),
                       (min(starts_y), max(ends_y), min(starts_x)))
    return "" if is_right else f"an image at {mark.places} for rows at {spans}"


def mark_differs(lines: List[str], marks: List[Mark]) -> str:
    """What is wrong with the first mark, which is taken from the lines and from the marks."""
    if lines[0].startswith("row "):
        return image_differs(lines, marks)
    kind, *words = lines.pop(0).split()
    if kind == "glyph":
        return glyph_differs(words, marks)
    mark = marks.pop(0)
    if kind == "rect":
        color, shade = fill_of(words[0], int(words[1]))
        due = Mark(kind, (color, SHADES.get(shade, "1")), places_of(words[2:]))
    else:
        due = Mark(kind, (), places_of(words))
    same = (mark.kind, mark.what) == (due.kind, due.what) and is_near(mark.places, due.places)
    return "" if same else f"{mark} for {due}"


def traced_differs(page: Traced, lines: List[str], failure: str, is_proof: bool) -> str:
    """What is wrong with a page that has these marks, or nothing."""
    marks, lines = page.marks, list(lines)
    if is_proof:
        # Where the job fails the sentence is told once, in red.
        last = "sentence" if failure else "verdict"
        end = max((at for at, mark in enumerate(marks) if mark.kind == last), default=0)
        end += last == "sentence"
        around = [mark.kind for mark in marks[:2] + marks[end:] if mark.kind != "verdict"]
        is_twice = failure and any(mark.kind == "verdict" for mark in marks)
        if around[:2] != ["outline", "outline"] or set(around[2:]) != {"letter"} or is_twice:
            return f"round the marks stand {around}"
        marks = marks[2:end]
    if failure:
        kinds = [mark.kind for mark in marks[-2:]]
        if kinds != ["cross", "sentence"]:
            return f"a failure by {kinds}"
        why = failure_differs(marks[-1].what[1], failure)
        if why:
            return why
        marks = marks[:-2]
    while lines:
        line = lines[0]
        if not marks:
            return f"{line!r} is missing"
        why = mark_differs(lines, marks)
        if why:
            return f"{line!r}: {why}"
    return f"more marks: {marks[0]}" if marks else ""
