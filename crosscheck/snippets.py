"""Pieces of jobs: whole escape sequences and frames with values that suit the printer.

A maker looks at the first printer of the fleet to choose values at the edges that matter:
margins, page edges, the printable area, the frame, what is left of the macro memory.
"""

from random import Random

from commands import LINES_PER_INCH, RESOLUTIONS, UNITS
from items import ONE, spell_signed, spell_size
from state import DECIPOINT, INCH, PER_7200, PLOTTER_UNIT

ESC = b"\x1b"


def spell_value(random: Random, value: int, signed: bool = False) -> str:
    """A value in ten-thousandths, at times with odd but equal spelling."""
    text = spell_signed(value)
    chance = random.random()
    if chance < 0.85:
        return "+" + text if signed and value >= 0 else text
    sign, digits = ("-", text[1:]) if value < 0 else ("+" if signed else "", text)
    if chance < 0.9:
        digits = "0" * random.randint(1, 4) + digits
    elif chance < 0.94:
        digits += "0" if "." in digits else random.choice([".", ".0", ".0000"])
    elif value == 0:
        digits = random.choice(["", "0", "."])
    elif chance < 0.96 and not signed and value > 0:
        sign = "+"
    return (sign + digits)[:16]


def sequence(random: Random, group: str, parts) -> bytes:
    """Commands of one group as one escape sequence or as several; parts are (value, letter)."""
    if random.random() < 0.5:
        return b"".join(ESC + f"{group}{value}{letter}".encode() for value, letter in parts)
    text = "".join(value + letter.lower() for value, letter in parts)
    return ESC + group.encode() + text[:-1].encode() + text[-1].upper().encode()


class Snippets:
    def __init__(self, random: Random, machine):
        self.random = random
        self.machine = machine

    def pick(self, *values):
        return self.random.choice(values)

    def value(self, number, signed: bool = False) -> str:
        return spell_value(self.random, number, signed)

    def one(self, group: str, value: int, letter: str) -> bytes:
        return sequence(self.random, group, [(self.value(value), letter)])

    def near(self, ticks: int, unit: int) -> int:
        """A value in ten-thousandths of the unit at, before or past this length."""
        exact = ticks * ONE // unit
        step = self.pick(0, 0, 0, 1, -1, ONE, -ONE)
        if self.random.random() < 0.5:
            exact = exact // ONE * ONE
            step = step // ONE * ONE
        return max(-65535 * ONE, min(65535 * ONE, exact + step))

    # Text and fonts

    def codes(self, count: int) -> bytes:
        face = self.machine.face()
        known = sorted(face.codes) if face else [65]
        letters = bytes(self.random.choice(known) for _ in range(count))
        if self.random.random() < 0.4:
            letters = letters[:count // 2] + b" " + letters[count // 2 + 1:]
        return letters

    def text(self) -> bytes:
        return self.codes(self.pick(1, 1, 2, 3, 8))

    def transparent(self) -> bytes:
        data = self.codes(self.pick(0, 1, 2, 5))
        if self.random.random() < 0.05:
            data += bytes([self.random.randrange(256)])
        return ESC + b"&p%dX" % len(data) + data

    def whole_font(self) -> bytes:
        face = self.random.choice(list(self.machine.profile.faces.values()))
        font = face.request
        number, letter = font.symbol_set
        parts = [("0", "P"), (self.value(font.pitch), "H"), (self.value(font.height), "V"),
                 (self.value(font.style), "S"), (self.value(font.weight), "B"),
                 (self.value(font.typeface), "T")]
        if self.random.random() < 0.2:
            del parts[self.random.randrange(len(parts))]
        return ESC + f"({spell_size(number)}{letter}".encode() + \
            sequence(self.random, "(s", parts)

    def font_part(self) -> bytes:
        return self.pick(
            self.one("(s", self.pick(10 * ONE, 12 * ONE, 105000), "H"),
            self.one("(s", self.pick(10 * ONE, 12 * ONE), "V"),
            ESC + b"(s" + self.pick(b"0B", b"-3B", b"0S", b"3T", b"P", b"0P", b"1P"),
            ESC + self.pick(b"(10U", b"(8U", b"(3@", b"(03.0@", b"(-0U", b"(0.5A"))

    # Cursor

    def x_target(self) -> int:
        machine = self.machine
        row = machine.geometry
        left = (row.left - row.lx) * PER_7200
        right = (row.right - row.lx) * PER_7200
        face = machine.face()
        advance = face.advance * PER_7200 if face else 0
        hmi = machine.hmi() if face or machine.settings.hmi is not None else 0
        return self.pick(
            0, left, right, right - advance, machine.page_width(), machine.right_margin(),
            machine.settings.left, machine.right_margin() - hmi, machine.page_width() - hmi,
            self.random.randint(0, max(0, machine.page_width())),
            self.random.randint(0, max(0, machine.page_width())))

    def y_target(self) -> int:
        machine = self.machine
        row = machine.geometry
        top = (row.top - row.ly) * PER_7200
        bottom = (row.bottom - row.ly) * PER_7200
        face = machine.face()
        ascent, descent = (face.ascent * PER_7200, face.descent * PER_7200) if face else (0, 0)
        return self.pick(
            0, top, top + ascent, bottom, bottom - descent, machine.page_height(),
            machine.bottom_margin(), machine.bottom_margin() - machine.settings.vmi,
            machine.settings.top, machine.page_height() - machine.settings.vmi,
            machine.page_height() - INCH // machine.settings.resolution,
            self.random.randint(0, machine.page_height()),
            self.random.randint(0, machine.page_height()))

    def move_value(self, target: int, now: int, zero: int, unit: int) -> str:
        signed = self.random.random() < 0.3
        if unit == 0:
            return self.value(0, signed)
        value = self.near(target - (now if signed else zero), unit)
        if value < 0 and not signed:
            value = 0
        return self.value(value, signed)

    def move(self) -> bytes:
        machine = self.machine
        top = machine.settings.top
        unit = machine.settings.pcl_unit
        across = [("*p", "X", unit), ("&a", "H", DECIPOINT)]
        if machine.face() or machine.settings.hmi is not None:
            across.append(("&a", "C", machine.hmi()))
        group, letter, size = self.random.choice(across)
        parts = [(self.move_value(self.x_target(), machine.state.x, 0, size), letter)]
        down = {"*p": ("Y", unit, top), "&a": self.pick(
            ("V", DECIPOINT, top),
            ("R", machine.settings.vmi, top + machine.settings.vmi * 3 // 4))}
        letter, size, zero = down[group]
        second = (self.move_value(self.y_target(), machine.cursor_y(), zero, size), letter)
        parts = self.pick(parts, [second], parts + [second], [second] + parts)
        return sequence(self.random, group, parts)

    def spot(self) -> bytes:
        """A place well on the page."""
        machine = self.machine
        x = self.random.randint(machine.page_width() // 8, machine.page_width() // 2)
        y = self.random.randint(machine.page_height() // 8, machine.page_height() // 2)
        parts = [(str(x // machine.settings.pcl_unit), "X"),
                 (str(max(0, y - machine.settings.top) // machine.settings.pcl_unit), "Y")]
        return sequence(self.random, "*p", parts)

    def line_end(self) -> bytes:
        return self.pick(b"\r", b"\n", b"\r\n", b"\x0c", ESC + b"=", b"\n\n", ESC + b"9")

    def stack(self) -> bytes:
        if self.random.random() < 0.15:
            count = 20 - len(self.machine.state.stack) + self.pick(0, 0, 1)
            return ESC + b"&f" + b"0s" * max(0, count - 1) + b"0S"
        return self.pick(ESC + b"&f0S", ESC + b"&fS", ESC + b"&f1S", ESC + b"&f0s0S",
                         ESC + b"&f0s0s1S")

    # Settings

    def margin(self) -> bytes:
        machine = self.machine
        vmi = max(1, machine.settings.vmi)
        hmi = max(1, machine.hmi()) if machine.face() or machine.settings.hmi else INCH // 10
        rows = max(0, self.near(machine.page_height(), vmi)) // ONE
        columns = max(0, self.near(machine.page_width(), hmi)) // ONE
        height = max(0, machine.page_height() - machine.settings.top)
        choices = [
            ("&l", self.pick(0, 1, 2, 3, rows), "E"),
            ("&l", self.pick(1, 5, 10, 60, rows, height // vmi, height // vmi + 1), "F"),
            ("&l", self.pick(0, 1), "L"), ("&a", self.pick(0, 1, 5, columns), "L"),
            ("&a", self.pick(5, 20, columns, max(0, columns - 1), 0), "M"),
        ]
        group, value, letter = self.random.choice(choices)
        return self.one(group, min(value, 65535) * ONE, letter)

    def spacing(self) -> bytes:
        return self.pick(
            self.one("&l", self.pick(8 * ONE, 6 * ONE, 75000, 0, 335 * ONE, 1, 70005), "C"),
            self.one("&l", self.pick(*LINES_PER_INCH) * ONE, "D"),
            self.one("&k", self.pick(12 * ONE, 10 * ONE, 0, 840 * ONE, 1, 125001), "H"),
            self.one("&u", self.pick(*UNITS) * ONE, "D"),
            self.one("&k", self.pick(0, 0, 1, 2, 3) * ONE, "G"))

    def page_setting(self) -> bytes:
        profile = self.machine.profile
        size = self.random.choice(sorted(profile.sizes()))
        turn = self.random.choice(sorted(profile.orientations()))
        tray = self.pick(0, *profile.trays)
        side = self.pick(0, 1, 2) if profile.duplex else 0
        choices = [[(size, "A")], [(turn, "O")], [(size, "A"), (turn, "O")],
                   [(side, "S")], [(tray, "H")], [(self.pick(1, 2, 32767), "X")]]
        if self.random.random() < 0.04:
            choices = [[(self.pick(0, 4, 27, 256, 1000), self.pick(*"AOSHX"))]]
        parts = [(self.value(value * ONE), letter) for value, letter in
                 self.random.choice(choices)]
        return sequence(self.random, "&l", parts)

    def setting_for(self, field: str) -> bytes:
        """A command that sets this panel field."""
        profile = self.machine.profile
        if field == "Font":
            return self.whole_font()
        if field == "LineTerm":
            return self.one("&k", self.pick(0, 0, 1, 2, 3) * ONE, "G")
        letter = {"Size": "A", "Orientation": "O", "Vmi": "C", "Copies": "X", "Sides": "S",
                  "Tray": "H"}[field]
        scale = 1 if field == "Vmi" else ONE
        values = list(profile.allowed[field])
        if field in ("Size", "Orientation") and self.random.random() < 0.3:
            values = sorted(profile.sizes() if field == "Size" else profile.orientations())
        return self.one("&l", self.random.choice(values) * scale, letter)

    # Rectangles

    def side_value(self, edge: int, unit: int) -> int:
        return max(0, self.pick(self.near(edge, unit), self.random.randint(0, 300) * ONE,
                                self.random.randint(1, 50) * ONE))

    def rectangle(self) -> bytes:
        machine = self.machine
        row = machine.geometry
        right = (row.right - row.lx) * PER_7200 - machine.state.x
        bottom = (row.bottom - row.ly) * PER_7200 - machine.cursor_y()
        unit = machine.settings.pcl_unit
        width = self.pick(("A", unit), ("H", DECIPOINT))
        height = self.pick(("B", unit), ("V", DECIPOINT))
        parts = [(self.value(self.side_value(right, width[1])), width[0]),
                 (self.value(self.side_value(bottom, height[1])), height[0])]
        kind = self.pick(0, 0, 1, 2, 3)
        if kind >= 2:
            parts.append((self.value(self.pick(1, 2, 6, 50, 100, 0, 7, 101) * ONE), "G"))
        if self.random.random() < 0.2:
            del parts[self.random.randrange(2)]
        return sequence(self.random, "*c", parts + [(self.value(kind * ONE), "P")])

    # Rasters

    def raster_set(self) -> bytes:
        return self.pick(
            self.one("*t", self.pick(*RESOLUTIONS) * ONE, "R"),
            self.one("*r", self.pick(1, 7, 8, 9, 16, 17, 100) * ONE, "S"),
            self.one("*r", self.pick(1, 2, 3, 8, 100) * ONE, "T"),
            self.one("*r", self.pick(0, 0, 0, 3) * ONE, "F"))

    def row_data(self) -> bytes:
        width = self.machine.settings.raster_width
        size = self.pick(0, 1, 2, 3, (width + 7) // 8 if width and width < 800 else 1)
        data = bytes(self.pick(0, 0, 1, 128, 255, self.random.randrange(256))
                     for _ in range(size))
        return ESC + b"*b%s%dW" % (self.pick(b"", b"", b"0m", b"1y"), size) + data

    def raster_part(self) -> bytes:
        row = self.row_data()
        skip = self.one("*b", self.pick(0, 1, 2, 5, 100) * ONE, "Y")
        end = ESC + self.pick(b"*rB", b"*rC", b"*r0B")
        return self.pick(row, row, row, skip, end, ESC + b"*b0M")

    def raster(self) -> bytes:
        start = ESC + self.pick(b"*r0A", b"*r1A", b"*r1A", b"*rA")
        rows = b"".join(self.raster_part() for _ in range(self.pick(0, 1, 2)))
        settings = b"".join(self.raster_set() for _ in range(self.pick(0, 1, 2)))
        return settings + start + rows

    # Frames

    def frame_setting(self) -> bytes:
        width, height = self.pick(50, 72, 720, 1440, 0), self.pick(50, 72, 360, 720)
        return self.pick(
            ESC + b"*c0T", ESC + b"*c%dX" % width, ESC + b"*c%dY" % height,
            ESC + b"*c%dx%dY" % (width, height), ESC + b"*c0t%dx%dY" % (width, height),
            self.one("*c", self.random.randint(1, 3000) * 1000, "X"))

    def enter(self) -> bytes:
        return ESC + self.pick(b"%0B", b"%0B", b"%1B", b"%B", b"%00.0B", b"%-0B")

    def leave(self) -> bytes:
        return ESC + self.pick(b"%0A", b"%A", b"%1A", b"%1A", b"%01.A")

    def coordinate(self, size: int, edge: int) -> int:
        largest = 8388607
        return self.pick(
            0, size // PLOTTER_UNIT, size // PLOTTER_UNIT + 1, edge, edge + 1, edge - 1,
            self.random.randint(0, max(1, size // PLOTTER_UNIT)),
            self.random.randint(0, max(1, size // PLOTTER_UNIT)),
            self.random.randint(0, 500), self.random.randint(0, 500),
            self.pick(-1, largest, -largest) if self.random.random() < 0.05 else 1)

    def pair(self) -> str:
        machine = self.machine
        width, height = machine.frame_size()
        left, bottom = machine.frame_origin()
        row = machine.geometry
        half = machine.state.plotter.width // 2
        x_edge = self.pick((row.right - row.lx) * PER_7200 - half - left,
                           (row.left - row.lx) * PER_7200 + half - left) // PLOTTER_UNIT
        y_edge = self.pick(bottom - half - (row.top - row.ly) * PER_7200,
                           bottom + half - (row.bottom - row.ly) * PER_7200) // PLOTTER_UNIT
        x, y = self.coordinate(width, x_edge), self.coordinate(height, y_edge)
        if not machine.state.plotter.is_absolute and self.random.random() < 0.7:
            x, y = self.random.randint(-200, 200), self.random.randint(-200, 200)
        comma = self.pick(",", ",", ",", " ", " , ", "\n,")
        sign = "+" if x >= 0 and self.random.random() < 0.1 else ""
        return f"{sign}{x}{self.pick('', '', '', '.', '.0')}{comma}{y}"

    def frame_command(self) -> bytes:
        name = self.pick("PU", "PD", "PD", "PA", "PR")
        pairs = [self.pair() for _ in range(self.pick(0, 1, 1, 2))]
        other = self.pick("IN", "SP1", "SP1", "SP 1", "SP", "PW", "PW0.5", "PW1", "PW.3",
                          f"PW{self.random.randint(1, 9999) / 1000}")
        moves = name + self.pick("", " ") + self.pick(",", " ").join(pairs)
        text = self.pick(moves, moves, other)
        if self.random.random() < 0.3:
            text = text.lower()
        return (text + self.pick(";", ";", ";", " ;", ";\r\n")).encode()
