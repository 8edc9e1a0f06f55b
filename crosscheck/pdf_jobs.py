"""Random jobs that are full of marks, with the text of a printer that prints them all.

    rich_case(seed, number)

Text in every symbol set with a name and in one without, in each look; every fill, shade and
pattern; lines of a pen; rows of every resolution, right below one another and apart; on several
papers, in each orientation. Hardly any of these jobs fails.
"""

from random import Random
from typing import Iterator, List, Tuple

ESC = b"\x1b"
PAPERS = {1: (52200, 75600), 2: (61200, 79200), 3: (61200, 100800), 25: (41953, 59528),
          26: (59528, 84189)}
SETS = ("0U", "10U", "12U", "8U", "0N", "19U", "9E")
LOOKS = tuple((style, weight) for style in (0, 1) for weight in (0, 3))
# Pitch and height, and how far a character goes.
SIZES = (("10", "12", 720), ("16.67", "8.5", 432), ("5", "20", 1440))
RESOLUTIONS = (75, 100, 150, 200, 300, 600)
TEXTS = (b"The quick brown fox", b"0123456789", b"TOTAL", b"(a\\b)<c>[d]{e}%/f#")


def faces() -> Iterator[str]:
    number = 0
    for symbol_set in SETS:
        for style, weight in LOOKS:
            for pitch, height, advance in SIZES[:1 if weight else 3]:
                number += 1
                points = round(float(height) * 100)
                yield (f"face {number} {symbol_set} {pitch} {height} {style} {weight} 3 {advance} "
                       f"{points * 3 // 4} {points // 4} 33-255")


def pages() -> Iterator[str]:
    for paper, (width, height) in PAPERS.items():
        for orientation in range(4):
            across, down = (width, height) if orientation % 2 == 0 else (height, width)
            yield (f"geometry {paper} {orientation} {across} {down} 1800 0 {across - 3600} {down} "
                   f"1200 1200 {across - 1200} {down - 1200}")


PROFILE = "\n".join([
    "pclprofile 1", "name rich", "size 2", "orientation 0", "vmi 8", "font 4", "copies 1",
    "sides 0", "tray 1", "trays 1 2 4", "duplex 1", "depth 2", "memory 65536", *pages(), *faces(),
    ""]).encode()


class Page:
    """What marks a page of a paper, anywhere on it."""

    def __init__(self, random: Random, width: int, height: int):
        self.random = random
        self.width, self.height = width // 24, height // 24      # in 1/300 inch

    def at(self, width: int, height: int) -> bytes:
        """Moves to a place from which so much lies on the page."""
        x = self.random.randint(50, max(50, self.width - 250 - width))
        y = self.random.randint(0, max(0, self.height - 300 - height))
        return ESC + b"*p%dx%dY" % (x, y)

    def text(self) -> bytes:
        symbol_set = self.random.choice(SETS)
        style, weight = self.random.choice(LOOKS)
        pitch, height, _ = self.random.choice(SIZES[:1 if weight else 3])
        font = f"({symbol_set}\x1b(s0p{pitch}h{height}v{style}s{weight}b3T"
        shown = self.random.choice(TEXTS)
        if self.random.random() < 0.6:
            count = self.random.randint(1, 12)
            data = bytes(self.random.randint(33, 255) for _ in range(count))
            shown = ESC + b"&p%dX" % count + data
        return ESC + font.encode() + self.at(1200, 100) + shown

    def rectangle(self) -> bytes:
        kind = self.random.choice((0, 0, 1, 2, 2, 3, 3))
        fill = self.random.randint(1, 100) if kind == 2 else self.random.randint(1, 6)
        width, height = self.random.randint(1, 500), self.random.randint(1, 400)
        return (self.at(width, height)
                + ESC + b"*c%da%db%dg%dP" % (width, height, fill, kind))

    def raster(self) -> bytes:
        resolution = self.random.choice(RESOLUTIONS)
        size = self.random.randint(1, 2 * resolution // 8)
        bits = self.random.choice((255, 1, 0x55, 0))
        rows: List[bytes] = [ESC + b"*t%dR" % resolution + self.at(700, 400) + ESC + b"*r0f1A"]
        for number in range(self.random.choice((1, 3, 20))):
            row = bytes(self.random.getrandbits(8) & self.random.choice((bits, 255, 0))
                        for _ in range(size))
            if self.random.random() < 0.1:
                rows.append(ESC + b"*b%dY" % self.random.randint(0, 3))
            rows.append(ESC + b"*b%dW" % size + row)
        return b"".join([*rows, ESC + b"*rC"])

    def drawing(self) -> bytes:
        places = [b"%d,%d" % (self.random.randint(100, 3000), self.random.randint(100, 3000))
                  for _ in range(self.random.randint(2, 8))]
        return (ESC + b"*p100x200Y" + ESC + b"*c2500x2500y0T" + ESC + b"%0BINSP1"
                + b"PW%.2f;PU" % self.random.choice((0.1, 0.35, 1, 3.5)) + places[0] + b"PD"
                + b",".join(places[1:]) + b";" + ESC + b"%0A")

    def marks(self) -> bytes:
        kinds = self.text, self.text, self.rectangle, self.rectangle, self.raster, self.drawing
        return b"".join(self.random.choice(kinds)()
                        for _ in range(self.random.choice((0, 1, 8, 20))))


def rich_case(seed: str, number: int) -> Tuple[bytes, bytes]:
    """A job, and the text of the printer."""
    random = Random(f"{seed} rich {number}")
    job = [ESC + b"E"]
    for _ in range(random.randint(1, 3)):
        paper, orientation = random.choice(list(PAPERS)), random.randint(0, 3)
        width, height = PAPERS[paper][::1 if orientation % 2 == 0 else -1]
        job.append(ESC + b"&l%da%dO" % (paper, orientation))
        job.append(ESC + b"&l%dx%ds%dH" % (random.randint(1, 3), random.randint(0, 2),
                                           random.choice((1, 2, 4))))
        job.append(Page(random, width, height).marks() + b"\x0c")
    return b"".join([*job, ESC + b"E"]), PROFILE
