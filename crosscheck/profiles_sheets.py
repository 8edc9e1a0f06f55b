"""The sheet of a printer passes on it, with so many pages at least, and with ten marks a page.

A fixed panel has a page that sets nothing, one in portrait, one in landscape and one of faces at
least; a free one has the two of each of its papers, and the faces.
"""

import re
from typing import Iterator, Tuple

from profiles_base import Comparison
from profiles_models import new_text
from samples import SAMPLE_A, SAMPLE_B, SAMPLES, with_lines

PASS = re.compile(rb"PASS pages=(\d+) marks=(\d+)\n")
# Sample B with one page and one face.
ONE_PAGE = "".join(line + "\n" for line in SAMPLE_B.splitlines()
                   if not re.match("geometry (2 1|26)|face 2", line))
SOME_TERMINATIONS = "pclprofile 2\nlineterm 0 2"
LETTER = "geometry 2 0 61200 79200"
# Printable areas, by their left, upper, right and lower edge.
AREAS = ("0 0 61200 79200", "1 1 61199 79199", "2400 3000 57000 70001", "1801 1201 59399 78001",
         "5000 1200 20000 30000")


def many_panels() -> str:
    """A printer with 12,582,912 panel settings."""
    numbers = " ".join(str(number) for number in range(1, 17))
    head = re.sub("(?m)^(geometry|face) .*\n", "", SAMPLE_B)
    head = with_lines(head, "orientation 0 1 2 3", "sides 0 1 2",
                      *(f"{key} {numbers}" for key in ("size", "vmi", "font", "copies", "tray",
                                                       "trays")))
    upright = "61200 79200 1800 0 57600 79200 1200 1200 60000 78000"
    turned = "79200 61200 1440 0 76320 61200 1200 1200 78000 60000"
    pages = "".join(f"geometry {size} {turn} {turned if turn % 2 else upright}\n"
                    for size in range(1, 17) for turn in range(4))
    faces = "".join(f"face {number} 10U {number + 4} 12 0 0 3 720 900 300 33-126\n"
                    for number in range(1, 17))
    return head + pages + faces


PRINTERS = {
    "moved": with_lines(ONE_PAGE, f"{LETTER} 1860 0 57600 79200 1200 1200 60000 78000"),
    "narrow": with_lines(ONE_PAGE, f"{LETTER} 1800 0 57600 79200 1200 1200 10000 78000"),
    "eight lines to the inch": with_lines(ONE_PAGE, "vmi 6"),
    "one-sided": with_lines(ONE_PAGE, "duplex 0"),
    "with copies to choose": with_lines(ONE_PAGE, "copies 1 2"),
    "two-sided, two copies": with_lines(ONE_PAGE, "copies 2", "sides 1", "tray 2"),
    "without A": with_lines(SAMPLE_B, "face 1 10U 10 12 0 0 3 720 900 300 66-126"),
    "line termination to choose": with_lines(SAMPLE_B, SOME_TERMINATIONS),
    "line termination to choose, of A": with_lines(SAMPLE_A, SOME_TERMINATIONS),
    "line termination 3": with_lines(SAMPLE_B, "pclprofile 2\nlineterm 3"),
    "light, 7.5/48 inch": with_lines(SAMPLE_B, "vmi 7.50",
                                     "face 1 10U 10.5 12 0 -3 3 720 900 300 33-126"),
    "many panels": many_panels(),
}


def texts(comparison: Comparison) -> Iterator[Tuple[str, bytes, int]]:
    """Profiles by their names, and how many pages their sheets have at least."""
    for model, papers in comparison.models().items():
        yield f"{model}, fixed", new_text(comparison, model, "fixed", []), 4
        yield f"{model}, free", new_text(comparison, model, "free", []), 5
        yield (f"{model}, all papers", new_text(comparison, model, "free", papers),
               2 * len(papers) + 1)
    for paper in comparison.models()["generic"]:
        yield f"{paper}, fixed", new_text(comparison, "generic", "fixed", [paper]), 4
        yield f"{paper}, free", new_text(comparison, "generic", "free", [paper]), 3
    for name, text in SAMPLES.items():
        yield name, text.encode(), 3
    for name, text in PRINTERS.items():
        yield name, text.encode(), 2
    for area in AREAS:
        yield area, with_lines(ONE_PAGE, f"{LETTER} 1800 0 57600 79200 {area}").encode(), 2


def compare_sheets(comparison: Comparison) -> None:
    for name, text, least in texts(comparison):
        comparison.put("text", text)
        told = comparison.output("profile", "sheet", "text", "sheet")
        verdict = comparison.output("check", "sheet", "text")
        passed = PASS.fullmatch(verdict)
        pages, marks = (int(passed[1]), int(passed[2])) if passed else (0, 0)
        comparison.require(told == b"" and pages >= least and marks >= 10 * pages,
                           f"the sheet of {name}: {told!r} {verdict!r}")
