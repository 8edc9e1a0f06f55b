"""The text of the pictures of a job, drawn a second time: by the machine of `machine.py`.

`draw` gives what `picture` owes on standard output: of one page the SVG, of all the HTML. Each
length is rounded down to a hundredth of 1/7200 inch, in titles and measures to one of a millimetre.
"""

from dataclasses import dataclass
from typing import List, Optional, Tuple

from items import Item
from lexer import lex
from machine import Machine
from state import INCH, MILLIMETRE, PER_7200, Finding

HUNDREDTH = PER_7200 // 100
LIMITS = {15: "logical page", 16: "left of the right margin", 17: "printable area",
          29: "picture frame"}
BLAMES_THE_MARK = (14, 15, 16, 17)
DENSITIES = ((2, ".02"), (10, ".1"), (20, ".15"), (35, ".3"), (55, ".45"), (80, ".7"), (99, ".9"))
# PC-8 and PC-850 have a symbol for each of 1 to 31, and 127 is a house.
SYMBOLS = "\u263a\u263b\u2665\u2666\u2663\u2660\u2022\u25d8\u25cb\u25d9\u2642\u2640\u266a\u266b" \
    "\u263c\u25ba\u25c4\u2195\u203c\xb6\xa7\u25ac\u21a8\u2191\u2193\u2192\u2190\u221f\u2194\u25b2" \
    "\u25bc"
ENCODINGS = {"0U": "ascii", "10U": "cp437", "12U": "cp850", "8U": "hp-roman8", "0N": "latin-1",
             "19U": "cp1252"}

PATTERNS = ("M0 192h384", "M192 0v384", "M-96 96L96-96M-96 480L480-96M288 480L480 288",
            "M-96 288L96 480M-96-96L480 480M288-96L480 96", "M0 192h384M192 0v384",
            "M-96-96L480 480M-96 480L480-96")
STYLE = """\
@page { margin: 8mm; }
h2 { font-size: 1em; break-after: avoid; }
svg { display: block; max-width: 100%; max-height: 94vh; height: auto; margin: 0 auto 1em; \
overflow: visible; }
@media print { ul { display: none; } svg { max-height: 85vh; break-after: page; } }
"""
LEGEND = """\
<ul>
<li>Dashed: the logical page. Thin: the printable area. At the edges: millimetres (gray) and \
inches (navy).</li>
<li>Silver: the box of a character, with --boxes, or where its code has no known character.</li>
<li>Red: where the job fails. The marks before that are gray there.</li>
<li>Point at a mark to read what it is, the byte of its item, and its place from the left and the \
upper edge.</li>
</ul>
"""

Box = Tuple[int, int, int, int]


def hundredths(number: int) -> str:
    """So many hundredths, with two decimals where they are not whole."""
    whole, rest = divmod(abs(number), 100)
    return ("-" if number < 0 else "") + (f"{whole}.{rest:02}" if rest else str(whole))


def units(ticks: int) -> str:
    return hundredths(ticks // HUNDREDTH)


def millimetres(ticks: int) -> str:
    return hundredths(ticks * 100 // MILLIMETRE)


def inches(ticks: int) -> str:
    millionths = (ticks + INCH // 2_000_000) // (INCH // 1_000_000)
    return f"{millionths // 10**6}.{millionths % 10**6:06}".rstrip("0").rstrip(".")


def box_attributes(box: Box) -> str:
    left, top, right, bottom = (edge // HUNDREDTH for edge in box)
    return (f' x="{hundredths(left)}" y="{hundredths(top)}" width="{hundredths(right - left)}" '
            f'height="{hundredths(bottom - top)}"')


def title(what: str, place: int, x: int, y: int) -> str:
    return f"<title>{what}, byte {place}, x {millimetres(x)} mm, y {millimetres(y)} mm</title>"


def escaped(character: str) -> str:
    known = {"&": "&amp;", "<": "&lt;", ">": "&gt;"}
    return known.get(character, character if character < "\x7f" else f"&#{ord(character)};")


def sentence_text(sentence: bytes) -> str:
    """A sentence, of which the bytes of letters behind ASCII stand as they are."""
    return "".join(chr(byte) if 128 <= byte else escaped(chr(byte)) if 32 <= byte <= 126
                   else "&#65533;" for byte in sentence)


def character_of(code: int, symbol_set: str) -> Optional[str]:
    encoding = ENCODINGS.get(symbol_set)
    if encoding is None or not (code or encoding in ("cp437", "cp850")):
        return None
    if encoding in ("cp437", "cp850") and code in (0, *range(1, 32), 127):
        return None if code == 0 else "\u2302" if code == 127 else SYMBOLS[code - 1]
    try:
        character = bytes([code]).decode(encoding)
    except UnicodeError:
        return None
    return None if ord(character) < 32 or 127 <= ord(character) < 160 else character


# ---- marks

def glyph(words: List[str], place: int, has_boxes: bool) -> str:
    code, symbol_set, _, height, style, weight, _ = words[:7]
    baseline, *box = map(int, words[7:])
    known = character_of(int(code), symbol_set)
    told = title(f"character {code}", place, box[0], box[1])
    if known is None:
        return (f'<rect class="box"{box_attributes(tuple(box))} fill="none" pointer-events="all" '
                f'stroke="silver" stroke-width="24">{told}</rect>\n')
    width = box[2] // HUNDREDTH - box[0] // HUNDREDTH
    size = hundredths(round(float(height) * 10_000))
    face = ' font-weight="bold"' if float(weight) >= 1 else ""
    face += ' font-style="italic"' if int(float(style)) % 4 else ""
    text = (f'<text class="glyph" x="{units(box[0])}" y="{units(baseline)}" font-size="{size}" '
            f'textLength="{hundredths(width)}"{face} lengthAdjust="spacingAndGlyphs">{told}'
            f"{escaped(known)}</text>\n")
    if not has_boxes:
        return text
    return (f'<rect class="box"{box_attributes(tuple(box))} fill="none" stroke="silver" '
            f'stroke-width="24"/>\n{text}')


def area(words: List[str], place: int) -> str:
    kind, number, *edges = map(int, words)
    fill = 'fill="white"' if kind == 1 else 'fill="black"'
    if kind == 2:
        density = next((density for most, density in DENSITIES if number <= most), "1")
        fill += f' fill-opacity="{density}"'
    if kind == 3:
        fill = f'fill="url(#pattern{number})"'
    return (f'<rect class="area"{box_attributes(tuple(edges))} {fill}>'
            f"{title('rectangle', place, edges[0], edges[1])}</rect>\n")


def row(words: List[str], place: int) -> str:
    resolution, x, y = map(int, words[:3])
    bits = "".join(f"{byte:08b}" for byte in bytes.fromhex(words[3]))
    runs, at = "", bits.find("1")
    while at >= 0:
        end = (bits + "0").find("0", at)
        runs += f"M{at} 0h{end - at}v1h-{end - at}z"
        at = bits.find("1", end)
    return (f'<g class="row" transform="translate({units(x)} {units(y)}) '
            f'scale({7200 // resolution})">{title("raster row", place, x, y)}'
            f'<path d="{runs}"/><path shape-rendering="crispEdges" d="{runs}"/></g>\n')


def line(words: List[str], place: int) -> str:
    width, *ends = map(int, words)
    names = zip(("x1", "y1", "x2", "y2", "stroke-width"), (*ends, width))
    attributes = "".join(f' {name}="{units(ticks)}"' for name, ticks in names)
    return (f'<line class="line"{attributes} stroke="black" stroke-linecap="round">'
            f"{title('line', place, ends[0], ends[1])}</line>\n")


def mark(text: str, place: int, has_boxes: bool) -> str:
    kind, *words = text.split()
    if kind == "glyph":
        return glyph(words, place, has_boxes)
    return {"rect": area, "row": row, "line": line}[kind](words, place)


# ---- the sheet

def ruler_ticks(length: int, start: str) -> str:
    return "".join(
        f'<path d="{start.format(half)}{units(length)}" stroke="{color}" stroke-width="{2 * half}" '
        f'stroke-dasharray="20 {gap}" stroke-dashoffset="10"/>\n'
        for half, color, gap in ((100, "gray", "263.464567"), (200, "gray", "2814.645669"),
                                 (600, "navy", "7180")))


def ruler_numbers(length: int, start: str, along: str, step: int, by: int) -> str:
    return "".join(f'<text {start} {along}="{units(number * step)}">{number * by}</text>\n'
                   for number in range(1, length // step + 1))


def rulers(width: int, height: int) -> str:
    centimetre = 10 * MILLIMETRE
    return ('<g class="rulers" font-size="600" text-anchor="middle">\n'
            + ruler_ticks(width, "M0 {}H") + ruler_ticks(height, "M{} 0V")
            + ruler_numbers(width, 'fill="gray" y="1000"', "x", centimetre, 10)
            + ruler_numbers(width, 'fill="navy" y="1900"', "x", INCH, 1)
            + ruler_numbers(height, 'fill="gray" x="800" dy="200"', "y", centimetre, 10)
            + ruler_numbers(height, 'fill="navy" x="1700" dy="200"', "y", INCH, 1) + "</g>\n")


@dataclass
class Sheet:
    """The page before an item, and what is known for its failure. Lengths are in ticks."""

    width: int
    height: int
    logical: Box
    printable: Box
    text: Box
    frame: Box
    cursor: Tuple[int, int]
    mark: Optional[Box]

    def head(self, has_sentence: bool, has_patterns: bool) -> str:
        height = self.height + (INCH // 2 if has_sentence else 0)
        patterns = "".join(
            f'<pattern id="pattern{number}" patternUnits="userSpaceOnUse" width="384" '
            f'height="384"><path d="{lines}"/></pattern>\n'
            for number, lines in enumerate(PATTERNS, 1))
        defs = f'<defs stroke="black" stroke-width="48">\n{patterns}</defs>\n'
        return (f'<svg xmlns="http://www.w3.org/2000/svg" width="{inches(self.width)}in" '
                f'height="{inches(height)}in" viewBox="0 0 {units(self.width)} {units(height)}" '
                f'font-family="Courier New, Courier, monospace">\n{defs if has_patterns else ""}'
                f'<rect class="sheet" width="{units(self.width)}" height="{units(self.height)}" '
                f'fill="white" stroke="black" stroke-width="24"/>\n'
                + rulers(self.width, self.height)
                + f'<rect class="logical"{box_attributes(self.logical)} fill="none" stroke="gray" '
                f'stroke-width="48" stroke-dasharray="240"/>\n'
                f'<rect class="printable"{box_attributes(self.printable)} fill="none" '
                f'stroke="gray" stroke-width="24"/>\n')

    def measures(self, what: str, box: Box, lower: str) -> str:
        middle = [hundredths(side // HUNDREDTH // 2) for side in (self.width, self.height)]
        left, top, right, bottom = map(millimetres, box)
        return (f'<text class="measure" text-anchor="middle" font-size="900" fill="red"{lower} '
                f'x="{middle[0]}" y="{middle[1]}">{what}: x {left} to {right} mm, y {top} to '
                f"{bottom} mm</text>\n")

    def cross(self) -> str:
        x, y = map(units, self.cursor)
        return (f'<path class="failure" transform="translate({x} {y})" d="M-480-480L480 480M-480 '
                f'480L480-480" stroke="red" stroke-width="72"/>\n')

    def failure(self, number: int) -> str:
        """What shows a failure by a finding of this number, or by a fault of the bytes."""
        limit = {15: self.logical, 16: self.text, 17: self.printable, 29: self.frame}.get(number)
        text = (f'<rect class="veil" width="{units(self.width)}" height="{units(self.height)}" '
                f'fill="white" fill-opacity=".65"/>\n')
        if limit is not None:
            text += (f'<rect class="limit"{box_attributes(limit)} fill="none" stroke="red" '
                     f'stroke-width="72"/>\n' + self.measures(LIMITS[number], limit, ' dy="1200"'))
        if self.mark is None or number not in BLAMES_THE_MARK:
            return text + self.cross()
        return (f'{text}<rect class="failure"{box_attributes(self.mark)} fill="red" '
                f'fill-opacity=".3" stroke="red" stroke-width="48"/>\n'
                + self.measures("what fails", self.mark, ""))

    def sentence(self, sentence: bytes) -> str:
        width = self.width // HUNDREDTH
        size = min(100_000, width * 5 // (3 * (len(sentence) + 1)))
        return (f'<text class="sentence" text-anchor="middle" x="{hundredths(width // 2)}" '
                f'y="{units(self.height + INCH // 3)}" font-size="{hundredths(size)}" '
                f'fill="red">{sentence_text(sentence)}</text>\n')


def sheet_before(machine: Machine, item: Optional[Item]) -> Sheet:
    page, settings = machine.geometry, machine.settings
    left, top, width, height = (n * PER_7200 for n in (page.lx, page.ly, page.lw, page.lh))
    x, y = left + machine.state.x, top + machine.cursor_y()
    mark_box = None
    if item is not None and item.name == "Text" and machine.face() is not None:
        face = machine.face()
        mark_box = (x, y - face.ascent * PER_7200, x + face.advance * PER_7200,
                    y + face.descent * PER_7200)
    if item is not None and item.name == "*cP":
        mark_box = (x, y, x + settings.rect_width, y + settings.rect_height)
    frame_left, frame_top = settings.anchor or (0, INCH // 2)
    frame_width, frame_height = machine.frame_size()
    return Sheet(
        width=page.page_width * PER_7200, height=page.page_height * PER_7200,
        logical=(left, top, left + width, top + height),
        printable=tuple(n * PER_7200 for n in (page.left, page.top, page.right, page.bottom)),
        text=(left, top, left + machine.right_margin(), top + height),
        frame=(left + frame_left, top + frame_top, left + frame_left + frame_width,
               top + frame_top + frame_height),
        cursor=(x, y), mark=mark_box)


# ---- the job

@dataclass
class Picture:
    """What is drawn so far. With no number of a page all are drawn."""

    page: Optional[int]
    has_boxes: bool
    sentence: bytes
    text: str = ""
    number: int = 1
    is_begun: bool = False                    # the head of the open page is drawn

    def is_drawn(self) -> bool:
        return self.page in (None, self.number)

    def begin(self, sheet: Sheet) -> None:
        if not self.is_begun:
            self.text += "" if self.page else f"<h2>Page {self.number}</h2>\n"
            has_patterns = self.page is not None or self.number == 1
            self.text += sheet.head(bool(self.page and self.sentence), has_patterns)

    def draw(self, sheet: Sheet, place: int, text: Optional[str]) -> None:
        """Draws a mark, or without one the end of the page."""
        if self.is_drawn():
            self.begin(sheet)
            self.text += "</svg>\n" if text is None else mark(text, place, self.has_boxes)
        self.is_begun = text is not None
        self.number += text is None

    def fail(self, sheet: Sheet, number: int) -> None:
        if self.is_drawn():
            self.begin(sheet)
            self.text += sheet.failure(number)
            if self.page and self.sentence:
                self.text += sheet.sentence(self.sentence)
            self.text += "</svg>\n"


def draw_items(picture: Picture, machine: Machine, job: bytes) -> None:
    lexed = lex(job)
    steps = list(lexed.items) + ([] if lexed.fault else [(len(job), None)])
    for place, item in steps:
        sheet, found, machine.events = sheet_before(machine, item), None, []
        try:
            machine.finish() if item is None else machine.step(item)
        except Finding as finding:
            found = finding
        for text, _ in machine.events:
            picture.draw(sheet, place, text)
        if picture.page is not None and picture.number > picture.page:
            return
        if found:
            picture.fail(sheet, found.number)
            return
    if lexed.fault:
        picture.fail(sheet_before(machine, None), 0)


def draw(profile, panel, job: bytes, page: Optional[int] = None, has_boxes: bool = False,
         sentence: bytes = b"") -> str:
    """One page of a job, with the sentence on its failure, or all, with the verdict."""
    picture = Picture(page, has_boxes, sentence)
    draw_items(picture, Machine(profile, panel, watched=False), job)
    if page is not None:
        return picture.text
    return ('<!DOCTYPE html>\n<html lang="en">\n<head>\n<meta charset="utf-8"/>\n'
            f"<title>Pages</title>\n<style>\n{STYLE}</style>\n</head>\n<body>\n"
            f"<p>{sentence_text(sentence)}</p>\n{LEGEND}{picture.text}</body>\n</html>\n")
