"""The marks of a page of a PDF document, and how they compare with the lines of `pages`.

Only the operators are known by which pclcheck writes a page; any other is an error, and so is a
state that is not set back behind a mark. Lengths are in 1/7200 inch, down from the upper edge.
"""

import re
from dataclasses import dataclass, field
from fractions import Fraction
from typing import Callable, Dict, List, Optional, Tuple

from pdf_objects import Page, Unsound, holds
from picture_marks import DENSITIES, ENCODINGS, places_of

TOKEN = re.compile(rb"\s*(/[A-Za-z0-9]+|<[0-9a-f]*>|\([^()]*\)|\[[^\]]*\]|-?[\d.]+|[A-Za-z]+)")
IMAGE = re.compile(rb"/W (\d+)/H (\d+)/IM true/D\[1 0\]ID ")
FACES = {"F1": (False, False), "F2": (True, False), "F3": (False, True), "F4": (True, True)}
HIDDEN = {"G1": "10U", "G2": "12U", "G3": "8U"}
SHADES = {f"S{number}": density
          for number, density in enumerate((".02", ".1", ".15", ".3", ".45", ".7", ".9", "1"), 1)}
IDENTITY = tuple(map(Fraction, (1, 0, 0, 1, 0, 0)))

Matrix = Tuple[Fraction, ...]
Point = Tuple[Fraction, Fraction]


@dataclass
class Mark:
    """What marks the page: its kind, what it is beside places, and its places."""

    kind: str
    what: Tuple
    places: Tuple[Fraction, ...]


@dataclass
class State:
    matrix: Matrix = IDENTITY
    fill: str = "0"
    stroke: str = "0"
    shade: str = "S0"
    width: Fraction = Fraction(1)
    cap: int = 0
    dash: str = "[]"

    def copy(self) -> "State":
        return State(**vars(self))


def times(first: Matrix, second: Matrix) -> Matrix:
    a, b, c, d, e, f = first
    p, q, r, s, t, u = second
    return (a * p + b * r, a * q + b * s, c * p + d * r, c * q + d * s,
            e * p + f * r + t, e * q + f * s + u)


def moved(matrix: Matrix, x: Fraction, y: Fraction) -> Point:
    a, b, c, d, e, f = matrix
    return a * x + c * y + e, b * x + d * y + f


@dataclass
class Reader:
    """Reads what marks a page, operator by operator."""

    page: Page
    at: int = 0
    state: State = field(default_factory=State)
    kept: List[State] = field(default_factory=list)
    words: List[bytes] = field(default_factory=list)
    path: List[Tuple[str, Tuple[Fraction, ...]]] = field(default_factory=list)
    marks: List[Mark] = field(default_factory=list)
    font: str = ""
    text_matrix: Matrix = IDENTITY
    render: int = 0

    # ---- places

    def unit(self, x: Fraction, y: Fraction, matrix: Optional[Matrix] = None) -> Point:
        """A place in 1/7200 inch from the upper left corner."""
        at_x, at_y = moved(matrix or self.state.matrix, x, y)
        return 100 * at_x, -100 * at_y

    def numbers(self, count: int) -> List[Fraction]:
        holds(len(self.words) >= count, f"{count} numbers before {self.at}")
        taken, self.words = self.words[-count:], self.words[:-count]
        return [Fraction(word.decode()) for word in taken]

    def name(self) -> str:
        word = self.words.pop()
        holds(word.startswith(b"/"), f"no name before {self.at}")
        return word[1:].decode()

    # ---- operators

    def read(self) -> List[Mark]:
        content = self.page.content
        while content[self.at:].strip():
            token = TOKEN.match(content, self.at)
            holds(token is not None, f"bytes {content[self.at:self.at + 30]!r}")
            self.at = token.end()
            word = token[1]
            if re.fullmatch(rb"[A-Za-z]+", word):
                known: Optional[Callable[[], None]] = OPERATORS.get(word.decode())
                holds(known is not None, f"the operator {word!r}")
                known(self)
                holds(word in (b"cs",) or not self.words, f"words before {word!r}")
            else:
                self.words.append(word)
        holds(not self.kept and not self.path and self.render == 0, "a state that is left")
        return self.marks

    def save(self) -> None:
        self.kept.append(self.state.copy())

    def restore(self) -> None:
        self.state = self.kept.pop()

    def transform(self) -> None:
        self.state.matrix = times(tuple(self.numbers(6)), self.state.matrix)

    def gray(self) -> None:
        self.state.fill = str(self.numbers(1)[0])

    def color(self) -> None:
        self.state.fill = "red"
        holds(self.numbers(3) == [1, 0, 0], "a color")

    def stroke_gray(self) -> None:
        self.state.stroke = str(self.numbers(1)[0])

    def stroke_color(self) -> None:
        self.state.stroke = "red"
        holds(self.numbers(3) == [1, 0, 0], "a color")

    def space(self) -> None:
        holds(self.name() == "Pattern", "a space of colors")

    def pattern(self) -> None:
        self.state.fill = self.name()

    def shade(self) -> None:
        self.state.shade = self.name()

    def line_width(self) -> None:
        self.state.width = self.numbers(1)[0]

    def line_cap(self) -> None:
        self.state.cap = int(self.numbers(1)[0])

    def dash(self) -> None:
        holds(self.numbers(1) == [0], "a dash")
        self.state.dash = self.words.pop().decode()

    def rectangle(self) -> None:
        x, y, width, height = self.numbers(4)
        self.path.append(("box", (*self.unit(x, y), *self.unit(x + width, y + height))))

    def begin_line(self) -> None:
        self.path.append(("from", self.unit(*self.numbers(2))))

    def end_line(self) -> None:
        self.path.append(("to", self.unit(*self.numbers(2))))

    def fill(self) -> None:
        (kind, places), = self.path
        holds(kind == "box", "a path that is filled")
        self.marks.append(Mark("rect", (self.state.fill, self.state.shade), places))
        self.path = []

    def paint(self) -> None:
        state, path, self.path = self.state, self.path, []
        if path[0][0] == "box":
            what = "outline" if state.stroke == "1/2" else "box"
            self.marks.append(Mark(what, (), path[0][1]))
        elif state.stroke == "red":
            left, top = path[0][1]
            right, bottom = path[1][1]
            self.marks.append(Mark("cross", (), ((left + right) / 2, (top + bottom) / 2)))
        else:
            holds(state.stroke == "0" and state.cap == 1 and len(path) == 2, "a line")
            self.marks.append(Mark("line", (), (state.width, *path[0][1], *path[1][1])))

    def image(self) -> None:
        """The rows of an image, without blank bytes at their ends; the first lies at its top."""
        image = IMAGE.match(self.page.content, self.at)
        holds(image is not None and self.state.fill == "0", "an image")
        columns, rows = int(image[1]), int(image[2])
        size = columns // 8
        data = self.page.content[image.end():image.end() + rows * size]
        self.at = image.end() + len(data)
        holds(self.page.content[self.at:self.at + 4] == b"\nEI ", "the end of an image")
        self.at += 4
        left, top = self.unit(Fraction(0), Fraction(1))
        right, bottom = self.unit(Fraction(1), Fraction(0))
        pixel = (right - left) / columns
        holds(abs(bottom - top) == rows * pixel, "how large an image is")
        holds(top < bottom or rows == 1, "an image upside down")
        for number in range(rows):
            row = data[number * size:(number + 1) * size]
            place = left + 8 * pixel * (size - len(row.lstrip(b"\0")))
            what = Fraction(7200) / pixel, row.strip(b"\0")
            if what[1]:
                self.marks.append(Mark("row", what, (place, min(top, bottom) + number * pixel)))

    # ---- text

    def begin_text(self) -> None:
        self.text_matrix = IDENTITY

    def end_text(self) -> None:
        self.font = ""

    def set_font(self) -> None:
        size, = self.numbers(1)
        self.font = self.name()
        self.text_matrix = times((size, Fraction(0), Fraction(0), size, Fraction(0), Fraction(0)),
                                 self.text_matrix)

    def set_render(self) -> None:
        self.render = int(self.numbers(1)[0])

    def move_text(self) -> None:
        x, y = self.numbers(2)
        self.text_matrix = times(self.text_matrix, (*IDENTITY[:4], x, y))

    def set_text_matrix(self) -> None:
        self.text_matrix = tuple(self.numbers(6))

    def show(self) -> None:
        """The letters of a string one by one, a sentence, or the number of a page."""
        word = self.words.pop()
        kind = "letter" if self.state.fill == "0" else "sentence"
        codes, step = [word[1:-1]], Fraction(6, 10)
        if word.startswith(b"<"):
            codes = [bytes.fromhex(word[1:-1].decode())]
            if kind == "letter":
                codes = [bytes([code]) for code in codes[0]]
        matrix = times(self.text_matrix, self.state.matrix)
        for number, code in enumerate(codes):
            left, y = self.unit(number * step, Fraction(0), matrix)
            right, level = self.unit((number + 1) * step, Fraction(0), matrix)
            upper, top = self.unit(number * step, Fraction(1), matrix)
            holds(level == y and upper == left, "text that is not level")
            places = left, right, y, y - top
            self.marks.append(Mark(kind, (self.font, code, self.render), places))

    def form(self) -> None:
        foot = (*IDENTITY[:5], -self.page.height)
        holds(self.name() == "V" and self.state.matrix == foot, "a form")
        self.marks.append(Mark("verdict", (), ()))


OPERATORS: Dict[str, Callable[[Reader], None]] = {
    "q": Reader.save, "Q": Reader.restore, "cm": Reader.transform, "g": Reader.gray,
    "rg": Reader.color, "G": Reader.stroke_gray, "RG": Reader.stroke_color, "cs": Reader.space,
    "scn": Reader.pattern, "gs": Reader.shade, "w": Reader.line_width, "J": Reader.line_cap,
    "d": Reader.dash, "re": Reader.rectangle, "m": Reader.begin_line, "l": Reader.end_line,
    "f": Reader.fill, "S": Reader.paint, "BI": Reader.image, "BT": Reader.begin_text,
    "ET": Reader.end_text, "Tf": Reader.set_font, "Tr": Reader.set_render, "Td": Reader.move_text,
    "Tm": Reader.set_text_matrix, "Tj": Reader.show, "Do": Reader.form}


def marks_of(page: Page) -> List[Mark]:
    return Reader(page).read()


# ---- the lines of `pages`

def fill_of(kind: str, number: int) -> Tuple[str, str]:
    if kind == "3":
        return f"P{number}", "S0"
    if kind == "2":
        density = next((density for most, density in DENSITIES if number <= most), "1")
        return "0", next(name for name, one in SHADES.items() if one == density)
    return ("0" if kind == "0" else "1"), "S0"


def character_of(code: int, symbol_set: str) -> Optional[str]:
    """What a code stands for; of the symbols of PCs below 32 and at 127 nothing is said."""
    try:
        wanted = bytes([code]).decode(ENCODINGS.get(symbol_set, "undefined"))
    except UnicodeError:
        return None
    is_control = ord(wanted) < 32 or 127 <= ord(wanted) < 160
    if is_control:
        return "?" if symbol_set in ("10U", "12U") else None
    return wanted


def is_near(have: Tuple[Fraction, ...], due: Tuple[Fraction, ...]) -> bool:
    return len(have) == len(due) and all(abs(a - b) < 1 for a, b in zip(have, due))


def glyph_differs(words: List[str], marks: List[Mark]) -> str:
    """What is wrong with a character, whose marks are taken from the front."""
    code, symbol_set, _, height, style, weight = words[:6]
    y, left, top, right, bottom = places_of(words[-5:])
    character = character_of(int(code), symbol_set)
    first = marks.pop(0)
    if first.kind == "box":
        if not is_near(first.places, (left, top, right, bottom)):
            return f"the box {first.places}"
        is_hidden = bool(marks) and marks[0].kind == "letter" and marks[0].what[2] == 3
        if is_hidden:
            font, codes, _ = marks.pop(0).what
            return "" if HIDDEN[font] == symbol_set and codes == bytes([int(code)]) else "hidden"
        return "" if character in (None, "?") else f"no text for {character!r}"
    if first.kind != "letter" or first.what[2] != 0:
        return f"{first.kind} for a character"
    face, codes, _ = first.what
    is_bold, is_italic = float(weight) >= 1, int(float(style)) % 4 > 0
    if FACES.get(face) != (is_bold, is_italic):
        return f"the face {face}"
    if character not in ("?", codes.decode("cp1252")):
        return f"{codes!r} for {character!r}"
    due = left, right, y, 100 * Fraction(height)
    return "" if is_near(first.places, due) else f"{first.places} for {due}"


def mark_differs(line: str, marks: List[Mark]) -> str:
    """What is wrong with the mark of a line, which is taken from the front, or nothing."""
    kind, *words = line.split()
    if not marks:
        return "it is missing"
    if kind == "glyph":
        return glyph_differs(words, marks)
    mark = marks.pop(0)
    if kind == "rect":
        due = Mark(kind, fill_of(words[0], int(words[1])), places_of(words[2:]))
    elif kind == "row":
        due = Mark(kind, (Fraction(words[0]), bytes.fromhex(words[3])), places_of(words[1:3]))
    else:
        due = Mark(kind, (), places_of(words))
    same = (mark.kind, mark.what) == (due.kind, due.what) and is_near(mark.places, due.places)
    return "" if same else f"{mark} for {due}"


def failure_differs(sentence: str, failure: str) -> str:
    """What is wrong with the sentence on a failure, whose line is this, or nothing."""
    at, number, name = re.fullmatch(r"FAIL at=(\d+) profile=\d+ (\d+) (.*)", failure).groups()
    due = rf".*: .* at byte {at} on page \d+[,:] .* \({number} {re.escape(name)}\)"
    return "" if re.fullmatch(due, sentence) else f"{sentence!r} for {failure!r}"


def page_differs(page: Page, lines: List[str], failure: str, is_proof: bool) -> str:
    """What is wrong with a page that has these marks, or nothing."""
    try:
        marks = marks_of(page)
    except (Unsound, ValueError, IndexError) as error:
        return f"no page: {error!r}"
    if is_proof:
        # Where the job fails the sentence is told once, in red.
        foot = ["letter"] if failure else ["verdict", "letter"]
        around = [mark.kind for mark in marks[:2] + marks[-len(foot):]]
        if around != ["outline", "outline", *foot]:
            return f"round the marks stand {around}"
        marks = marks[2:-len(foot)]
        if any(mark.kind == "verdict" for mark in marks):
            return "a verdict"
    if failure:
        kinds = [mark.kind for mark in marks[-2:]]
        if kinds != ["cross", "sentence"]:
            return f"a failure by {kinds}"
        why = failure_differs(marks[-1].what[1].decode("cp1252"), failure)
        if why:
            return why
        marks = marks[:-2]
    for number, line in enumerate(lines):
        why = mark_differs(line, marks)
        if why:
            return f"mark {number}, {line!r}: {why}"
    return f"more marks: {marks[0]}" if marks else ""
