"""One printer with one panel setting: carries out items and gives marks and pages.

With `watched` it also answers 12 Unset where a step reads a field that the job has not
set since the last return to user defaults, and of which the profile allows two or more
values. Events are the lines that `pages` writes; a page is (None, its five values).
"""

import copy
from dataclasses import replace
from typing import Dict, List, Optional, Tuple

from commands import COMMANDS, FIELDS
from effects import EFFECTS
from items import ONE, Item, canon
from printer_profile import FontRequest, Profile
from state import (CHECK_ORDER, FONT_PARTS, INCH, PAGE_FIELDS, PER_7200, Finding, Level,
                   Plotter, Raster, State, default_settings, font_request)

ALWAYS_READ = {
    "G": ("Size", "Orientation"), "V": ("Vmi",), "F": ("Font",), "L": ("LineTerm",),
    "P": PAGE_FIELDS,
}
RASTER_FAMILIES = ("*t", "*r", "*b")


class Machine:
    def __init__(self, profile: Profile, panel: Dict[str, int], watched: bool):
        self.profile = profile
        self.panel = panel
        self.watched = watched
        self.state = State(default_settings(panel))
        self.level = Level()
        self.macros: Dict[int, List[Item]] = {}
        self.open_id: Optional[int] = None
        self.open_items: List[Item] = []
        self.events: List[Tuple] = []

    # Derived values: computed at each use and not stored

    @property
    def settings(self):
        return self.state.settings

    @property
    def geometry(self):
        values = self.settings.values
        return self.profile.geometries[values["Size"], values["Orientation"]]

    def page_width(self) -> int:
        """The logical page's width; the cursor's largest x."""
        return self.geometry.lw * PER_7200

    def page_height(self) -> int:
        return self.geometry.lh * PER_7200

    def bottom_margin(self) -> int:
        if self.settings.bottom is None:
            return self.page_height() - INCH // 2
        return self.settings.bottom

    def right_margin(self) -> int:
        return self.page_width() if self.settings.right is None else self.settings.right

    def cursor_y(self) -> int:
        """Home is the top margin plus three quarters of VMI, by the values of now."""
        if self.state.y is None:
            return self.settings.top + self.settings.vmi * 3 // 4
        return self.state.y

    def use_y(self) -> int:
        """Uses the vertical place: from here on it is a number."""
        self.state.y = self.cursor_y()
        return self.state.y

    def face(self):
        return self.profile.find_face(font_request(self.profile, self.panel, self.settings))

    def hmi(self) -> int:
        if self.settings.hmi is None:
            return self.face().advance * PER_7200
        return self.settings.hmi

    def reads_font_for_hmi(self) -> bool:
        return self.settings.hmi is None

    def frame_size(self) -> Tuple[int, int]:
        width, height = self.settings.frame_width, self.settings.frame_height
        return (self.page_width() if width is None else width,
                self.page_height() - INCH if height is None else height)

    def frame_origin(self) -> Tuple[int, int]:
        """The frame's lower left corner on the logical page."""
        left, top = self.settings.anchor or (0, INCH // 2)
        return left, top + self.frame_size()[1]

    # Checks

    def fields_read(self, reads: str, is_relative: bool) -> set:
        fields = set()
        for letter in reads:
            if letter in ALWAYS_READ:
                fields.update(ALWAYS_READ[letter])
            elif letter == "v" or (letter == "r" and is_relative):
                fields.update(["Vmi"] if self.state.y is None else [])
            elif letter == "f":
                fields.update(["Font"] if self.reads_font_for_hmi() else [])
        return fields

    def is_touched(self, field: str) -> bool:
        if field == "Font":
            return len(self.settings.font) == len(FONT_PARTS)
        return field in self.settings.touched

    def first_unset(self, reads: str, is_relative: bool) -> str:
        if not self.watched:
            return ""
        read = self.fields_read(reads, is_relative)
        for field in FIELDS:
            if field in read and not self.is_touched(field) and \
                    len(self.profile.allowed[field]) > 1:
                return field
        return ""

    def judge(self, reads: str, *checks, is_relative: bool = False,
              code: Optional[int] = None) -> None:
        """The checks of one step in their order; each is (number, is it a finding?)."""
        by_number = dict(checks)
        for number in CHECK_ORDER:
            if number == 12:
                field = self.first_unset(reads, is_relative)
                if field:
                    raise Finding(12, field)
            elif number in by_number and by_number[number]():
                raise Finding(number, code=code)

    # What is known whatever the panel has where the job has set nothing

    def known_spot(self) -> Optional[Tuple[int, int]]:
        """Where the cursor stands on the sheet."""
        if self.first_unset("Gv", False):
            return None
        row = self.geometry
        return row.lx * PER_7200 + self.state.x, row.ly * PER_7200 + self.cursor_y()

    def known_font(self) -> Optional[FontRequest]:
        """The font that is asked for."""
        if self.first_unset("F", False):
            return None
        return font_request(self.profile, self.panel, self.settings)

    def is_bad(self, item: Item) -> bool:
        command = COMMANDS[item.name]
        signs_count = command.is_move or command.may_be_negative
        if item.number.is_negative and not signs_count:
            return True
        return not command.is_right(item.number.size)

    def judge_item(self, item: Item, *checks) -> None:
        """The step of an item with a value: a bad value, its reads and further checks."""
        command = COMMANDS[item.name]
        relative = command.is_move and item.number.sign != ""
        self.judge(command.reads, (10, lambda: self.is_bad(item)), *checks,
                   is_relative=relative)

    def touch(self, field: str) -> None:
        self.settings.touched = self.settings.touched | {field}

    # Marks and pages

    def is_outside(self, x0: int, y0: int, x1: int, y1: int) -> bool:
        """Is a box (on the logical page) not inside the printable area?"""
        row = self.geometry
        dx, dy = row.lx * PER_7200, row.ly * PER_7200
        return not (row.left * PER_7200 <= x0 + dx and x1 + dx <= row.right * PER_7200
                    and row.top * PER_7200 <= y0 + dy and y1 + dy <= row.bottom * PER_7200)

    def on_page(self, *places: int) -> str:
        """Places x y x y .. of the logical page in page coordinates, as words."""
        row = self.geometry
        offsets = (row.lx * PER_7200, row.ly * PER_7200)
        return " ".join(str(place + offsets[index % 2]) for index, place in enumerate(places))

    def mark(self, line: str) -> None:
        self.events.append((line, None))
        self.state.is_marked = True

    def close_page(self) -> None:
        """A step of its own: checks, the overlay, then the page with its five values."""
        overlay = self.settings.overlay
        self.judge("P", (21, lambda: overlay is not None and self.profile.depth == 0),
                   (23, lambda: self.level.in_overlay))
        values = {name: self.settings.values[name] for name in PAGE_FIELDS}
        if overlay is not None:
            self.run_overlay(self.macros[overlay], values)
        self.events.append((None, tuple(values[name] for name in PAGE_FIELDS)))
        self.state.is_marked = False
        self.state.raster = None
        self.state.y = None

    def close_marked_page(self) -> None:
        if self.state.is_marked:
            self.close_page()

    # Macros

    def run_overlay(self, body: List[Item], values: Dict[str, int]) -> None:
        """From user defaults with the page's values; all of it is given up afterwards."""
        kept_state, kept_level = self.state, self.level
        fresh = State(default_settings(self.panel))
        fresh.settings.values.update(values)
        fresh.settings.touched = frozenset(PAGE_FIELDS)
        fresh.is_marked = kept_state.is_marked
        self.state = fresh
        self.level = Level(depth=1, in_overlay=True, in_call=True)
        self.run_body(body)
        self.state, self.level = kept_state, kept_level

    def run_macro(self, body: List[Item], is_call: bool) -> None:
        kept_settings, kept_plotter = copy.deepcopy((self.settings, self.state.plotter))
        kept_level = self.level
        self.level = replace(kept_level, depth=kept_level.depth + 1,
                             in_call=kept_level.in_call or is_call)
        self.run_body(body)
        self.level = kept_level
        if is_call:
            self.state.settings = kept_settings
            self.state.plotter = kept_plotter

    def run_body(self, body: List[Item]) -> None:
        for item in body:
            self.carry_out(item)
        self.state.raster = None

    def store_bytes(self) -> int:
        bodies = list(self.macros.values()) + [self.open_items]
        return sum(len(canon(item)) for body in bodies for item in body)

    def delete_macro(self, macro_id: int) -> None:
        self.macros.pop(macro_id, None)
        if self.settings.overlay == macro_id:
            self.settings.overlay = None

    def store(self, item: Item) -> None:
        """An item while a definition is open: it ends it, or it is kept and not run."""
        begins = item.name == "&fX" and item.number.size == 0
        if begins or item.name in ("E", "UEL"):
            raise Finding(24)
        if item.name == "&fX" and item.number.signed == ONE:
            self.macros[self.open_id] = self.open_items
            self.open_id, self.open_items = None, []
            return
        if self.store_bytes() + len(canon(item)) > self.profile.memory:
            raise Finding(22)
        self.open_items.append(item)

    # The job

    def reset(self) -> None:
        """ESC E, UEL and the end: close a marked page, forget all, user defaults."""
        self.close_marked_page()
        self.macros = {}
        self.state = State(default_settings(self.panel))

    def start_raster(self, left: int) -> None:
        self.state.raster = Raster(left)

    def reset_plotter(self) -> None:
        self.state.plotter = Plotter()

    def pen_to_origin(self) -> None:
        self.state.plotter.x = self.state.plotter.y = 0

    def carry_out(self, item: Item) -> None:
        if item.name[:2] not in RASTER_FAMILIES:
            self.state.raster = None
        EFFECTS[item.name](self, item)

    def step(self, item: Item) -> None:
        """One item of the job."""
        if self.open_id is not None:
            self.store(item)
        else:
            self.carry_out(item)

    def finish(self) -> None:
        """The end of the bytes acts as UEL."""
        if self.open_id is not None:
            raise Finding(24)
        self.state.raster = None
        self.reset()

