"""The pictures of pages on which two jobs differ, drawn a second time.

`picture` gives the SVG that `compare --picture` owes of a page, `document` the HTML of several. A
page has the marks of both jobs as lines of `pages`, each with the byte of its item, and what
differs of them. The marks are drawn by `drawing.py`.
"""

from dataclasses import dataclass, replace
from typing import List, Optional, Tuple

from drawing import Sheet, hundredths, mark, sentence_text, units
from page_differences import Difference, Made
from printer_profile import Profile
from state import INCH, PER_7200

TICKS_PER_PIXEL_HUNDREDTH = INCH // 9600
MOST_LINES = 55
MOST_ROWS = 1000
ONLY_IN_OLD, ONLY_IN_NEW, PAGE_ENDS = "only in OLD", "only in NEW", "page ends otherwise"

STYLE = """\
.old { color: #d40000; }
.new { color: #00802b; }
.old, .new, .differs .area:not([fill^="url"]) { fill: currentColor; }
.differs { mix-blend-mode: multiply; }
.differs text, .differs path, .differs .area { stroke: currentColor; stroke-opacity: .2;
  stroke-width: 6px; stroke-linejoin: round; vector-effect: non-scaling-stroke; }
.differs path { stroke-width: 1px; }
.differs .area[fill="white"] { fill: white; stroke-opacity: 1; stroke-width: 2px; }
.differs .line, .differs .box { stroke: currentColor; }
.old .area[fill^="url"] { filter: url(#old); }
.new .area[fill^="url"] { filter: url(#new); }
.sentence { fill: #333; }
"""
FILTERS = "<defs>\n" + "".join(
    f'<filter id="{job}"><feFlood flood-color="{color}"/><feComposite in2="SourceAlpha" '
    f'operator="in"/></filter>\n' for job, color in (("old", "#d40000"), ("new", "#00802b"))
) + "</defs>\n"
HEAD = """\
<!DOCTYPE html>
<html lang="en">
<head>
<meta charset="utf-8">
<meta name="viewport" content="width=device-width">
<meta http-equiv="Content-Security-Policy" content="default-src 'none'; style-src 'unsafe-inline'">
<title>What differs between two print jobs</title>
<style>
:root { color-scheme: light dark; --back: #fff; --text: #1b1b1b; --line: #d0d0d0; }
@media screen and (prefers-color-scheme: dark) {
  :root { --back: #161616; --text: #e6e6e6; --line: #404040; }
}
"""
BODY = """\
body { margin: 0 auto; padding: 1em; max-width: 90em; background: var(--back);
  color: var(--text); font: 1em/1.45 sans-serif; }
body > svg { position: absolute; }
h2 { margin: 1.5em 0 .5em; font-size: 1.1em; break-after: avoid; }
section > div { display: flex; flex-wrap: wrap; align-items: flex-start; gap: 1em 2em; }
section svg { max-width: 100%; max-height: 94vh; height: auto; isolation: isolate; }
table { border-collapse: collapse; font-size: .85em; }
th, td { padding: .1em .8em .1em 0; border-bottom: 1px solid var(--line); text-align: left; }
th:nth-child(n+2), td:nth-child(n+2) { text-align: right; }
@media screen and (prefers-color-scheme: dark) {
  p .old, table .old { color: #ff8b80; }
  p .new, table .new { color: #6fd08c; }
}
@media print {
  body { max-width: none; padding: 0; font-size: 9pt; }
  section svg { max-height: 70vh; }
  section + section { break-before: page; }
}
</style>
</head>
<body>
<svg width="0" height="0" aria-hidden="true">
"""
LEGEND = """\
</p>
<p>Gray: what both jobs have. <span class="old">Red: what OLD has alone.</span> \
<span class="new">Green: what NEW has alone.</span>
Where both lie one upon the other it is dark. A white rectangle is an outline. Point at a mark to \
read what it is,
the byte of its item, and its place from the left and the upper edge.</p>
"""
LIST_START = """\
<table>
<thead><tr><th>what</th><th class="old">mark of OLD</th><th class="old">byte</th>\
<th class="new">mark of NEW</th><th class="new">byte</th></tr></thead>
<tbody>
"""


@dataclass
class DifferingPage:
    """A page, its sheet, and the marks of both jobs."""
    number: int
    sheet: Sheet
    old: List[Made]
    new: List[Made]
    differences: List[Difference]

    def told(self) -> Tuple[set, set]:
        """The numbers of the marks of OLD and of NEW that differ."""
        old = {it.old_mark for it in self.differences if it.change not in (ONLY_IN_NEW, PAGE_ENDS)}
        new = {it.new_mark for it in self.differences if it.change not in (ONLY_IN_OLD, PAGE_ENDS)}
        return old, new


def drawn(marks: List[Made], differing: set, wanted: bool) -> str:
    return "".join(mark(line, place, False) for number, (place, line) in enumerate(marks, start=1)
                   if (number in differing) == wanted)


def sheet_of(page: DifferingPage, sentence: bytes, has_patterns: bool) -> str:
    """What both have gray, upon that what OLD has alone, and upon that what NEW has alone."""
    sheet, (old, new) = page.sheet, page.told()
    text = (sheet.head(bool(sentence), has_patterns) + drawn(page.old, old, False)
            + f'<rect class="veil" width="{units(sheet.width)}" height="{units(sheet.height)}" '
              f'fill="white" fill-opacity=".65"/>\n'
            + f'<g class="differs old">\n{drawn(page.old, old, True)}</g>\n'
            + f'<g class="differs new">\n{drawn(page.new, new, True)}</g>\n')
    return text + (sheet.sentence(sentence) if sentence else "") + "</svg>\n"


# ---- the picture of a page

def paper(profile: Profile, old_end: Optional[str], new_end: Optional[str]) -> Sheet:
    """OLD's sheet of a page, which holds NEW's too; of a page that one job lacks the other's."""
    if not old_end or not new_end:
        return sheet_by(profile, old_end or new_end)
    sheet, other = sheet_by(profile, old_end), sheet_by(profile, new_end)
    return replace(sheet, width=max(sheet.width, other.width),
                   height=max(sheet.height, other.height))


def sheet_by(profile: Profile, end: str) -> Sheet:
    """The sheet of a page that ends with this line."""
    values = dict(word.split("=") for word in end.split() if "=" in word)
    page = profile.geometries[int(values["size"]), int(values["orientation"])]
    left, top, width, height = (n * PER_7200 for n in (page.lx, page.ly, page.lw, page.lh))
    logical = (left, top, left + width, top + height)
    printable = tuple(n * PER_7200 for n in (page.left, page.top, page.right, page.bottom))
    return Sheet(width=page.page_width * PER_7200, height=page.page_height * PER_7200,
                 logical=logical, printable=printable, text=logical, frame=logical, cursor=(0, 0),
                 mark=None)


def pixels(ticks: int, more: int) -> str:
    """A side in pixels, of which an inch has 96."""
    return hundredths(ticks // TICKS_PER_PIXEL_HUNDREDTH + more)


def line_of(it: Difference) -> str:
    return (f'<tspan x="10" dy="17">{it.listed}</tspan>'
            f'<tspan class="old" x="150">mark {it.old_mark}, byte {it.old_place}</tspan>'
            f'<tspan class="new" x="310">mark {it.new_mark}, byte {it.new_place}</tspan>\n')


def list_beside(page: DifferingPage) -> str:
    more = len(page.differences) - MOST_LINES
    return (f'<text transform="translate({pixels(page.sheet.width, 0)})" y="8" '
            f'font-family="sans-serif" font-size="12"><tspan x="10" dy="17" font-weight="bold">'
            f'Page {page.number}</tspan><tspan class="old" x="150">OLD</tspan>'
            f'<tspan class="new" x="310">NEW</tspan>\n'
            + "".join(map(line_of, page.differences[:MOST_LINES]))
            + (f'<tspan x="10" dy="17">and {more} more</tspan>\n' if more > 0 else "")
            + "</text>\n")


def picture(page: DifferingPage, sentence: bytes) -> str:
    """The SVG of a page, with what comes of both jobs below it, and the list beside it."""
    width, height = pixels(page.sheet.width, 48_000), pixels(page.sheet.height, 4_800)
    return (f'<svg xmlns="http://www.w3.org/2000/svg" width="{width}" height="{height}" '
            f'viewBox="0 0 {width} {height}">\n<style>\n{STYLE}</style>\n{FILTERS}'
            + sheet_of(page, sentence, True) + list_beside(page) + "</svg>\n")


# ---- the document of pages

def row_of(it: Difference) -> str:
    return (f'<tr><td>{it.listed}</td><td class="old">{it.old_mark}</td>'
            f'<td class="old">{it.old_place}</td><td class="new">{it.new_mark}</td>'
            f'<td class="new">{it.new_place}</td></tr>\n')


def section(page: DifferingPage, has_patterns: bool) -> str:
    more = len(page.differences) - MOST_ROWS
    return (f"<section>\n<h2>Page {page.number}</h2>\n<div>\n" + sheet_of(page, b"", has_patterns)
            + LIST_START + "".join(map(row_of, page.differences[:MOST_ROWS]))
            + (f'<tr><td colspan="5">and {more} more</td></tr>\n' if more > 0 else "")
            + "</tbody>\n</table>\n</div>\n</section>\n")


def document(pages: List[DifferingPage], undrawn: int, sentence: bytes) -> str:
    """The HTML of pages, with what comes of both jobs above them; so many more differ."""
    left = f"<p>Pages that differ, too, and are not drawn: {undrawn}</p>\n" if undrawn else ""
    return (HEAD + STYLE + BODY + FILTERS + "</svg>\n<p>" + sentence_text(sentence) + LEGEND
            + "".join(section(page, at == 0) for at, page in enumerate(pages)) + left
            + "</body>\n</html>\n")
