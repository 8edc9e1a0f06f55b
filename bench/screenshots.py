#!/usr/bin/env python3
"""Makes screenshots for people to look at: what a browser shows of what `picture` writes.

    python3 bench/screenshots.py PROGRAM FOLDER
    python3 bench/screenshots.py PROGRAM FOLDER --only fill --only drawing

FOLDER gets a PNG file of the first page of each job in `examples/`, of a page of each kind of mark
and of pages on which a job fails (jobs that this script makes), of a document of all pages, and of
the test sheet of each shipped profile and of each sample. `--only WORD` takes those alone whose
name begins with that word.

A picture has to be XML that can be parsed, Chromium has to end without an error, and the
screenshot to be as large as was asked for and not empty. Whether it shows what the job says is for
people to see. Needs Chromium.
"""

import argparse
import math
import re
import shutil
import struct
import subprocess
import sys
import tempfile
import xml.etree.ElementTree
import zlib
from dataclasses import dataclass
from functools import partial
from pathlib import Path

ROOT = Path(__file__).resolve().parent.parent
EXAMPLES = ROOT / "examples"
PROFILES = ROOT / "profiles"
BROWSERS = ("chromium", "chromium-browser", "google-chrome")

SAMPLES = ("@A", "@B", "@C", "@D")

# The printers of the examples: the first that has the page that is asked for is taken.
PRINTERS = ("front_desk.profile", "back_office.profile", "export_desk.profile", "dispatch.profile")

# Examples of which there is no picture, since they have no page.
PAGELESS = ("no_page",)

# A printer with papers and faces for the jobs that this script makes.
PRINTER = b"""\
pclprofile 1
name screenshots
size 2
orientation 0
vmi 8
font 1
copies 1
sides 0
tray 1
trays 1
duplex 0
depth 2
memory 65536
geometry 2 0 61200 79200 1800 0 57600 79200 1200 1200 60000 78000
geometry 2 1 79200 61200 1440 0 76320 61200 1200 1200 78000 60000
geometry 3 0 61200 100800 1800 0 57600 100800 1200 1200 60000 99600
geometry 3 1 100800 61200 1440 0 97920 61200 1200 1200 99600 60000
geometry 26 0 59520 84168 1704 0 56112 84168 1200 1200 58320 82968
geometry 26 1 84168 59520 1416 0 81336 59520 1200 1200 82968 58320
face 1 10U 10 12 0 0 3 720 900 300 33-126,128-254
face 2 8U 10 12 0 0 3 720 900 300 33-126,161-254
face 3 0N 10 12 0 0 3 720 900 300 33-126,161-255
face 4 19U 10 12 0 0 3 720 900 300 33-126,130-140,145-156,159-159,161-255
face 5 12U 10 12 0 0 3 720 900 300 33-126,128-254
face 6 10U 12 10 0 0 3 600 750 250 33-126,128-254
face 7 10U 16.67 8.5 0 0 0 432 638 213 33-126,128-254
face 8 10U 5 24 0 0 3 1440 1800 600 33-126,128-254
face 9 10U 10 12 1 3 3 720 900 300 33-126,128-254
face 10 0U 10 12 0 0 3 720 900 300 33-126
face 11 1E 10 12 0 0 3 720 900 300 33-126
"""

RESET = b"\x1bE"
RESOLUTIONS = (75, 100, 150, 200, 300, 600)
PEN_WIDTHS = (b"0.1", b"0.35", b"0.5", b"1", b"2", b"5")

# A letter that looks otherwise from behind and upside down, eight by eight.
LETTER = (0xFF, 0xFF, 0xC0, 0xFC, 0xFC, 0xC0, 0xC0, 0xC0)
# So many of its pixels go on an inch; each resolution is a multiple.
PIXELS_OF_LETTER = 25 / 3

# CSS has so many pixels an inch, and Chromium no window narrower than this.
PIXELS = 96
NARROWEST = 500
# What a document has beside its pages, in pixels: above and below each and at the sides.
AROUND_PAGES = 48

# How many bytes a pixel of a PNG file has, by its kind of colour: without opacity, or with it.
BYTES_OF_PIXEL = {2: 3, 6: 4}
# A screenshot without a page has fewer lines that differ; that of a page without a mark has more.
FEWEST_LINES = 10

SECONDS = 120


class ScreenshotError(Exception):
    """Why there is no screenshot."""


# What may be wrong with one picture, while the others go on.
FAULTS = (ScreenshotError, xml.etree.ElementTree.ParseError, subprocess.TimeoutExpired)


# The makers of jobs of the kinds of marks.


def setting(paper, orientation):
    """Paper, orientation and the first font."""
    return RESET + b"\x1b&l%da%do6D" % (paper, orientation) + font(b"10U", b"10", b"12")


def font(symbol_set, pitch, height, style=0, weight=0, typeface=3):
    """A font by its seven parts."""
    parts = (symbol_set, pitch, height, style, weight, typeface)
    return b"\x1b(%s\x1b(s0p%sh%sv%ds%db%dT" % parts


def to_units(x, y):
    """A move of the cursor to a place in 1/300 inch."""
    return b"\x1b*p%dx%dY" % (x, y)


def text():
    """A line in each face."""
    faces = [
        font(b"10U", b"10", b"12") + b"10 an inch: \x84\x94\x81 \x9b \xb0\xb1\xb2 |_|",
        font(b"8U", b"10", b"12") + b"Roman-8: \xcc\xce\xcf \xbb |_|",
        font(b"0N", b"10", b"12") + b"Latin 1: \xe4\xf6\xfc \xa3 |_|",
        font(b"19U", b"10", b"12") + b"Windows: \xe4\xf6\xfc \x93quoted\x94 |_|",
        font(b"12U", b"10", b"12") + b"PC-850: \x84\x94\x81 \xbd \xb0\xb1\xb2 |_|",
        font(b"0U", b"10", b"12") + b"ASCII |_|",
        font(b"1E", b"10", b"12") + b"British, of which there are boxes alone",
        font(b"10U", b"12", b"10") + b"12 an inch |_|",
        font(b"10U", b"16.67", b"8.5", typeface=0) + b"16.67 an inch |_|",
        font(b"10U", b"5", b"24") + b"5 an inch |_|",
        font(b"10U", b"10", b"12", style=1, weight=3) + b"bold italic |_|",
    ]
    lines = (to_units(150, 150 + 150 * at) + face for at, face in enumerate(faces))
    return setting(2, 0) + b"".join(lines) + RESET


def fill():
    """Rectangles: black, white on black, shades in their order, and patterns."""
    yield setting(2, 0)
    yield to_units(150, 100) + b"black, and white in it"
    yield to_units(150, 150) + b"\x1b*c2000a200b0P"
    yield to_units(250, 200) + b"\x1b*c1800a100b1P"
    for at, percent in enumerate((1, 10, 20, 35, 55, 80, 99, 100)):
        yield to_units(150 + 260 * at, 500) + b"%d" % percent
        yield to_units(150 + 260 * at, 550) + b"\x1b*c200a400b%dg2P" % percent
    for at in range(6):
        yield to_units(150 + 360 * at, 1150) + b"%d" % (at + 1)
        yield to_units(150 + 360 * at, 1200) + b"\x1b*c300a600b%dg3P" % (at + 1)
    yield to_units(150, 2000) + b"text under a shade, a pattern and white"
    for at, (number, kind) in enumerate(((30, 2), (3, 3), (1, 1))):
        yield to_units(150 + 420 * at, 1950) + b"\x1b*c300a100b%dg%dP" % (number, kind)
    yield to_units(0, 2150) + b"\x1b*c57600h7V\x1b*c5760h7v0P" + RESET


def raster():
    """The same letter in each resolution, then single pixels, and a raster with white rows."""
    yield setting(2, 0)
    for at, resolution in enumerate(RESOLUTIONS):
        x, y = 150 + 800 * (at % 3), 200 + 700 * (at // 3)
        yield to_units(x, y - 50) + b"%d an inch" % resolution + to_units(x, y)
        yield letter(resolution)
    yield to_units(150, 1600) + b"single pixels, and rows apart" + to_units(150, 1650)
    yield b"\x1b*t75R\x1b*r0f32s12T\x1b*r1A"
    for _ in range(4):
        yield b"\x1b*b4W\xaa\xaa\xff\x01\x1b*b1Y\x1b*b4W\x55\x55\x00\x01"
    yield b"\x1b*rB" + RESET


def letter(resolution):
    """The letter as a raster at the cursor, as large in each resolution."""
    times = round(resolution / PIXELS_OF_LETTER)
    raster_of = b"\x1b*t%dR\x1b*r0F\x1b*r1A" % resolution
    for bits in LETTER:
        pixels = "".join(pixel * times for pixel in f"{bits:08b}")
        row = int(pixels, 2).to_bytes(times, "big")
        raster_of += (b"\x1b*b%dW" % len(row) + row) * times
    return raster_of + b"\x1b*rB"


def line():
    """Lines of the pen: widths, directions, a dot, and a frame of its own."""
    yield setting(2, 0) + to_units(150, 150) + b"widths in mm; a dot each; one rises to the right"
    yield b"\x1b%0BIN;SP1;"
    for at, width in enumerate(PEN_WIDTHS):
        y = 9200 - 400 * at
        yield b"PW%s;PU700,%dPD5000,%d;PU6000,%dPD;" % (width, y, y, y)
    yield b"PW1;PU700,4000PD5000,6000;PU\x1b%0A"
    for at, width in enumerate(PEN_WIDTHS):
        yield to_units(1850, 295 + 118 * at) + width
    yield to_units(600, 2200) + b"\x1b*c0t3600x2160Y"
    yield b"\x1b%0BIN;SP1;PW.5;PU100,100PD5000,100,5000,2900,100,2900,100,100,2500,2900;PU"
    yield b"\x1b%0A"
    yield to_units(600, 2180) + b"a frame, with a corner at its lower left" + RESET


def turned(paper, orientation):
    """A job in an orientation: text at the left edge, a letter, shades, a line that rises."""
    yield setting(paper, orientation) + b"\x1b&l0L"
    yield to_units(0, 50) + b"at the head, on the left" + b"\x1b&a+0R"
    yield to_units(300, 400) + letter(75)
    for at, percent in enumerate((10, 30, 50, 70, 90)):
        yield to_units(700 + 150 * at, 400) + b"\x1b*c150a%db%dg2P" % (100 + 50 * at, percent)
    yield b"\x1b%0BIN;SP1;PW1;PU1000,1000PD4000,2000;PU\x1b%0A"
    yield to_units(300, 1000) + b"the line below rises to the right" + RESET


def landscape():
    """Letter paper in landscape."""
    return turned(2, 1)


def metric():
    """A4 paper in portrait."""
    return turned(26, 0)


def metric_landscape():
    """A4 paper in landscape."""
    return turned(26, 1)


def legal():
    """Legal paper in portrait."""
    return turned(3, 0)


def overlay():
    """Text under a form that is laid over it."""
    yield setting(2, 0) + b"\x1b&f1y0X" + to_units(100, 100) + b"\x1b*c2000a6b0P"
    yield to_units(100, 700) + b"\x1b*c2000a6b0P"
    yield to_units(100, 150) + font(b"10U", b"10", b"12") + b"THE FORM\x1b&f1X"
    yield b"\x1b&f4X" + to_units(300, 400) + b"the text of the page" + RESET


def fails():
    """Text, and a move that leads off the page: the cross stands behind the text."""
    return setting(2, 0) + to_units(300, 300) + b"the cross is behind this" + b"\x1b*p9999X"


def fails_at_once():
    """Nothing but a command that is wrong: the cross is at home."""
    return RESET + b"\x1b&l2a0O\x1b*c0P"


def fails_long():
    """A command that is not checked, on A4 in landscape; the cross is at a rectangle's corner."""
    return setting(26, 1) + to_units(1000, 1000) + b"\x1b*c500a200b20g2P\x1b&l66P"


def fails_in_a_frame():
    """A line that leaves the printable area: the cross is where the cursor of the page was."""
    frame = b"\x1b%0BIN;SP1;PU1000,1000PD2000,2000,99999,2000;\x1b%0A"
    return setting(2, 0) + to_units(300, 600) + b"the cross is behind this" + frame


def papers():
    """Pages on three papers."""
    pages = (turned(26, 0), turned(2, 1), turned(3, 0))
    return b"".join(b"".join(page) for page in pages)


def papers_then_fails():
    """Two pages, and a third one on which the job fails."""
    yield setting(2, 0) + b"one\f" + to_units(300, 300) + b"two\f"
    yield to_units(600, 300) + b"three, which fails here:" + b"\x1b&f1S"


PAGES = (text, fill, raster, line, landscape, metric, metric_landscape, legal, overlay)
FAILING = (fails, fails_at_once, fails_long, fails_in_a_frame)
DOCUMENTS = (((papers,), 0, ("--all",)), ((papers_then_fails,), 1, ("--all",)))


def bytes_of(maker):
    """The bytes of a job."""
    made = maker()
    return made if isinstance(made, bytes) else b"".join(made)


@dataclass(frozen=True)
class Picture:
    """A picture that the program wrote."""

    name: str
    content: bytes

    def size(self):
        """How large the screenshot has to be, in pixels."""
        sheets = re.findall(rb'<svg[^>]*? width="([\d.]+)in" height="([\d.]+)in"', self.content)
        if not sheets:
            raise ScreenshotError("there is no picture in it")
        widths = [math.ceil(float(width) * PIXELS) for width, _ in sheets]
        heights = [math.ceil(float(height) * PIXELS) for _, height in sheets]
        if not self.is_document():
            return max(widths[0], NARROWEST), heights[0]
        around = AROUND_PAGES * (len(sheets) + 1)
        return max(*widths, NARROWEST) + AROUND_PAGES, sum(heights) + around

    def parts(self):
        """What has to be XML: the whole, or of a document each picture in it."""
        if self.is_document():
            return re.findall(rb"<svg\b.*?</svg>", self.content, re.DOTALL)
        return [self.content]

    def is_document(self):
        """Whether it is a document of all pages."""
        return not self.content.startswith(b"<svg")


class Shop:
    """The program, and a folder for the files that it reads and writes."""

    def __init__(self, program, folder):
        self.program = str(Path(program).resolve())
        self.folder = Path(folder)

    def run(self, statuses, *words):
        """What the program writes; it has to end with one of these statuses."""
        words = [str(word) for word in words]
        done = subprocess.run(
            [self.program, *words], cwd=EXAMPLES, capture_output=True, timeout=SECONDS
        )
        if done.returncode not in statuses:
            told = done.stderr.decode(errors="replace").strip()
            raise ScreenshotError(f"{' '.join(words)}: status {done.returncode} {told}")
        return done.stdout

    def makers(self):
        """What makes the picture of each name."""
        found = {job.stem: partial(self.of_example, job) for job in sorted(EXAMPLES.glob("*.pcl"))}
        for name in PAGELESS:
            del found[name]
        for makers, status, words in ((PAGES, 0, ()), (FAILING, 1, ()), *DOCUMENTS):
            for maker in makers:
                found[maker.__name__] = partial(self.of_marks, maker, status, words)
        texts = [*sorted(PROFILES.glob("*.profile")), *sorted(EXAMPLES.glob("*.profile"))]
        found |= {f"sheet_{text.stem}": partial(self.of_sheet, text) for text in texts}
        found |= {f"sheet_{sample[1:]}": partial(self.of_sheet, sample) for sample in SAMPLES}
        return found

    def of_example(self, job):
        """The first page, on a printer on which the job does not fail there if there is one."""
        for printer in PRINTERS:
            content = self.run((0, 1), "picture", job, printer)
            if content and b'class="failure"' not in content:
                return content
        return self.run((1,), "picture", job, PRINTERS[0])

    def of_marks(self, maker, status, words):
        """The picture of a job that this script makes."""
        printer, job = self.folder / "screenshots.profile", self.folder / f"{maker.__name__}.pcl"
        printer.write_bytes(PRINTER)
        job.write_bytes(bytes_of(maker))
        return self.run((status,), "picture", job, printer, *words)

    def of_sheet(self, printer):
        """The test sheet of a printer, all pages of it in one document."""
        sheet = self.folder / "sheet.pcl"
        self.run((0,), "profile", "sheet", printer, sheet)
        return self.run((0,), "picture", sheet, printer, "--all")


def browser():
    """The path of Chromium."""
    for name in BROWSERS:
        path = shutil.which(name)
        if path:
            return path
    raise ScreenshotError(f"none of these is installed: {', '.join(BROWSERS)}")


def take(path, picture, folder, out):
    """Takes a screenshot of a picture, and judges it."""
    for part in picture.parts():
        xml.etree.ElementTree.fromstring(part)
    shown = Path(folder) / (picture.name + (".html" if picture.is_document() else ".svg"))
    shown.write_bytes(picture.content)
    width, height = picture.size()
    done = subprocess.run(
        [
            path,
            "--headless",
            "--no-sandbox",
            "--disable-gpu",
            "--hide-scrollbars",
            f"--user-data-dir={folder}/browser",
            "--force-device-scale-factor=1",
            f"--window-size={width},{height}",
            f"--screenshot={out}",
            shown.as_uri(),
        ],
        capture_output=True,
        timeout=SECONDS,
    )
    if done.returncode != 0 or b"written to file" not in done.stderr:
        raise ScreenshotError(f"Chromium ended with {done.returncode}: {done.stderr[-500:]}")
    judge(Path(out).read_bytes(), width, height)


def judge(png, width, height):
    """Whether a screenshot is of this size, and not of one colour."""
    size, lines = lines_of(png)
    if size != (width, height):
        raise ScreenshotError(f"it has {size} pixels, and not {(width, height)}")
    if len(set(lines)) < FEWEST_LINES:
        raise ScreenshotError("it is empty")


def lines_of(png):
    """The size of a PNG file in pixels, and its lines, filtered as they stand there."""
    at, data = 8, b""
    while at < len(png):
        (length,), kind = struct.unpack_from(">I", png, at), png[at + 4 : at + 8]
        body = png[at + 8 : at + 8 + length]
        if kind == b"IHDR":
            *size, depth, colour, _, _, interlaced = struct.unpack(">IIBBBBB", body)
            if depth != 8 or interlaced or colour not in BYTES_OF_PIXEL:
                raise ScreenshotError("it is a PNG file of another form")
            step = size[0] * BYTES_OF_PIXEL[colour] + 1
        elif kind == b"IDAT":
            data += body
        at += 12 + length
    raw = zlib.decompress(data)
    return tuple(size), [raw[begin : begin + step] for begin in range(0, len(raw), step)]


def words_of_line():
    """The words of the command line."""
    layout = argparse.RawDescriptionHelpFormatter
    parser = argparse.ArgumentParser(description=__doc__, formatter_class=layout)
    parser.add_argument("program", help="the built program")
    parser.add_argument("folder", help="where the PNG files go")
    parser.add_argument("--only", action="append", default=[], help="such names alone")
    return parser.parse_args()


def main():
    """Makes the screenshots, tells what went wrong, and how many there are."""
    asked = words_of_line()
    out = Path(asked.folder).resolve()
    out.mkdir(parents=True, exist_ok=True)
    made, wrong = 0, 0
    with tempfile.TemporaryDirectory() as folder:
        for name, make in Shop(asked.program, folder).makers().items():
            if asked.only and not name.startswith(tuple(asked.only)):
                continue
            try:
                take(browser(), Picture(name, make()), folder, out / f"{name}.png")
                made += 1
            except FAULTS as error:
                wrong += 1
                print(f"{name}: {error}")
    print(f"{made} screenshots, {wrong} wrong")
    return 1 if wrong or not made else 0


if __name__ == "__main__":
    sys.exit(main())
