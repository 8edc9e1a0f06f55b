"""All that differs of two jobs on a printer, by the lines that `pages` writes of both.

Marks of a page are matched in their order, as a diff does, or in any order, and two of them are
near whose edges lie off by so many ticks at most.
"""

from typing import Callable, Iterator, List, NamedTuple, Optional, Tuple

TICKS_PER_7200TH = 5_080_000
MOST_LEFT_OUT = 64
LONGEST_RUN = 4096
# Of a line of `pages`: the words that say where a mark stands, and from which on these are edges.
PLACES = {"glyph": 9, "rect": 3, "row": 2, "line": 2}


class Made(NamedTuple):
    """A line of `pages`, and the byte of the item that makes it."""
    place: int
    line: str


class Page(NamedTuple):
    """The marks of a page, the line that ends it, if it ends, and the byte of what ends it."""
    marks: List[Made]
    end: Optional[str]
    place: int


class Difference(NamedTuple):
    """Where two pages differ, and how."""
    page: int
    old_mark: int
    new_mark: int
    old_place: int
    new_place: int
    change: str
    is_page: bool = False

    @property
    def mark(self) -> int:
        return self.new_mark if self.change == "only in NEW" else self.old_mark

    @property
    def listed(self) -> str:
        """What differs, as it is told beside a picture."""
        return f"page {self.change}" if self.is_page else self.change


class Manner(NamedTuple):
    """How near is the same, in ticks, and whether in any order."""
    any_order: bool
    within: int


def is_end(line: str) -> bool:
    return line.startswith("page ")


def shape(line: str) -> Tuple:
    """A mark without its place: what it is, and how far its edges are apart."""
    words = line.split(" ")
    kind = words[0]
    if kind == "row":
        return (kind, words[1], words[4])
    at = PLACES[kind]
    edges = [int(word) for word in words[at:]]
    if kind == "line":
        return (kind, words[1], edges[2] - edges[0], edges[3] - edges[1])
    left, top, right, bottom = edges
    what = tuple(words[1:at])
    if kind == "glyph":
        what = (*words[1:at - 1], int(words[at - 1]) - top)
    return (kind, what, right - left, bottom - top)


def change_of(old: str, new: str) -> str:
    return "moved" if shape(old) == shape(new) else "changed"


# ---- marks

def parts(line: str) -> Tuple[Tuple[str, ...], List[int]]:
    """What a mark is, and the numbers that say where it stands."""
    words = line.split(" ")
    kind = words[0]
    if kind == "row":
        return (kind, words[1], words[4]), [int(word) for word in words[2:4]]
    at = PLACES[kind] - (kind == "glyph")
    return tuple(words[:at]), [int(word) for word in words[at:]]


def is_near(within: int, old: Made, new: Made) -> bool:
    (what, one), (other_what, other) = parts(old.line), parts(new.line)
    return what == other_what and all(abs(a - b) <= within for a, b in zip(one, other))


def box(line: str) -> Tuple[int, int, int, int]:
    """The left, upper, right and lower edge of a mark."""
    what, at = parts(line)
    if what[0] == "row":
        pixel = 7200 * TICKS_PER_7200TH // int(what[1])
        pixels = f"{int(what[2], 16):0{4 * len(what[2])}b}"
        first, behind = pixels.index("1"), pixels.rindex("1") + 1
        return at[0] + first * pixel, at[1], at[0] + behind * pixel, at[1] + pixel
    if what[0] == "line":
        half = abs(int(what[1])) // 2
        (x0, y0, x1, y1) = at
        return (min(x0, x1) - half, min(y0, y1) - half, max(x0, x1) + half, max(y0, y1) + half)
    left, top, right, bottom = at[-4:]
    return left, top, right, bottom


def overlap(old: Made, new: Made) -> bool:
    (left, top, right, bottom) = box(old.line)
    (other_left, other_top, other_right, other_bottom) = box(new.line)
    return (left < other_right and other_left < right
            and top < other_bottom and other_top < bottom)


def hides(old: Made, new: Made) -> bool:
    """They overlap, and exactly one is white: the later one of them covers the other."""
    one, other = (mark.line.startswith("rect 1 ") for mark in (old, new))
    return one != other and overlap(old, new)


# ---- two pages

def place_behind(page: Page, at: int) -> int:
    return page.marks[at].place if at < len(page.marks) else page.place


def goes_alike(near: Callable, old: List[Made], new: List[Made], i: int, j: int) -> bool:
    """Both pages are at their ends there, or the next two marks of both are near."""
    if i == len(old) and j == len(new):
        return True
    if i >= len(old) or j >= len(new) or not near(old[i], new[j]):
        return False
    return i + 1 == len(old) or j + 1 == len(new) or near(old[i + 1], new[j + 1])


def left_out(near: Callable, old: List[Made], new: List[Made], i: int, j: int) -> Tuple[int, int]:
    """How many marks of both are left out, from these on."""
    if i == len(old) or j == len(new):
        return len(old) - i, len(new) - j
    for together in range(1, MOST_LEFT_OUT + 1):
        for of_old in range(together + 1):
            of_new = together - of_old
            if (i + of_old <= len(old) and j + of_new <= len(new)
                    and goes_alike(near, old, new, i + of_old, j + of_new)):
                return of_old, of_new
    for run in range(MOST_LEFT_OUT + 1, LONGEST_RUN + 1):
        if j + run <= len(new) and goes_alike(near, old, new, i, j + run):
            return 0, run
        if i + run <= len(old) and goes_alike(near, old, new, i + run, j):
            return run, 0
    return 1, 1


def in_order(manner: Manner, number: int, old: Page, new: Page) -> Iterator[Difference]:
    def near(one: Made, other: Made) -> bool:
        return is_near(manner.within, one, other)

    i = j = 0
    while i < len(old.marks) or j < len(new.marks):
        if i < len(old.marks) and j < len(new.marks) and near(old.marks[i], new.marks[j]):
            i, j = i + 1, j + 1
            continue
        of_old, of_new = left_out(near, old.marks, new.marks, i, j)
        old_end, new_end = place_behind(old, i + of_old), place_behind(new, j + of_new)
        pairs = min(of_old, of_new)
        for k in range(max(of_old, of_new)):
            at = (number, i + min(k, of_old) + 1, j + min(k, of_new) + 1)
            if k < pairs:
                one, other = old.marks[i + k], new.marks[j + k]
                if not near(one, other):
                    change = change_of(one.line, other.line)
                    yield Difference(*at, one.place, other.place, change)
            elif of_old > of_new:
                yield Difference(*at, old.marks[i + k].place, new_end, "only in OLD")
            else:
                yield Difference(*at, old_end, new.marks[j + k].place, "only in NEW")
        i, j = i + of_old, j + of_new


def in_any_order(manner: Manner, number: int, old: Page, new: Page) -> Iterator[Difference]:
    matched: List[Tuple[int, Made]] = []
    free = list(range(len(new.marks)))
    for at, mark in enumerate(old.marks, 1):
        found = next((j for j in free if is_near(manner.within, mark, new.marks[j])), None)
        if found is None:
            yield Difference(number, at, len(new.marks) + 1, mark.place, new.place, "only in OLD")
            continue
        free.remove(found)
        if any(found < later and hides(earlier, mark) for later, earlier in matched):
            yield Difference(number, at, found + 1, mark.place, new.marks[found].place,
                             "covered otherwise")
        matched.append((found, mark))
    for j in free:
        yield Difference(number, len(old.marks) + 1, j + 1, old.place, new.marks[j].place,
                         "only in NEW")


# ---- all pages

def end_change(old: Optional[str], new: Optional[str]) -> str:
    if old is None:
        return "only in NEW"
    return "only in OLD" if new is None else "page ends otherwise"


def pages_of(made: List[Made], end: int) -> List[Page]:
    """The pages of a job that ends at this byte; the last one may have no end."""
    pages: List[Page] = []
    marks: List[Made] = []
    for one in made:
        if is_end(one.line):
            pages.append(Page(marks, one.line, one.place))
            marks = []
        else:
            marks.append(one)
    return pages + ([Page(marks, None, end)] if marks else [])


def differences(manner: Manner, old: List[Page], new: List[Page], old_end: int,
                new_end: int) -> List[List[Difference]]:
    """What differs of each page."""
    found = []
    for at in range(max(len(old), len(new))):
        one = old[at] if at < len(old) else Page([], None, old_end)
        other = new[at] if at < len(new) else Page([], None, new_end)
        match = in_any_order if manner.any_order else in_order
        of_page = list(match(manner, at + 1, one, other))
        if one.end != other.end:
            of_page.append(Difference(at + 1, len(one.marks) + 1, len(other.marks) + 1, one.place,
                                      other.place, end_change(one.end, other.end),
                                      one.end is None or other.end is None))
        found.append(of_page)
    return found
