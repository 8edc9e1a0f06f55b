"""Pieces of jobs that bring the printer straight to an edge, or just past it."""

from items import ONE
from snippets import ESC, Snippets, sequence
from state import DECIPOINT, INCH, PER_7200, PLOTTER_UNIT


class Edges(Snippets):
    def exact(self, ticks: int, unit: int) -> int:
        """A value in ten-thousandths of the unit for this length, or one step off."""
        value = max(0, ticks) * ONE // unit
        return max(0, min(65535 * ONE, value + self.pick(0, 0, 0, 1, -1, 1000)))

    def place_x(self, ticks: int) -> bytes:
        value = self.exact(ticks, DECIPOINT)
        return sequence(self.random, "&a", [(self.value(value), "H")])

    def place_y(self, ticks: int) -> bytes:
        value = self.exact(ticks - self.machine.settings.top, DECIPOINT)
        return sequence(self.random, "&a", [(self.value(value), "V")])

    def line_edge(self) -> bytes:
        """A line feed that ends at the bottom margin or at the page's end."""
        machine = self.machine
        skip = self.pick(0, 1, machine.settings.perforation_skip)
        half = self.random.random() < 0.3
        step = machine.settings.vmi // (2 if half else 1)
        bottom = machine.bottom_margin()
        if skip != machine.settings.perforation_skip:
            bottom = machine.page_height() - INCH // 2
        edge = bottom if skip == 1 else machine.page_height()
        feed = ESC + b"=" if half else self.pick(b"\n", b"\r\n", b"\n\x1b*c9a9b0P")
        mark = self.pick(b"", b"\x1b*c9a9b0P")
        return ESC + b"&l%dL" % skip + mark + self.place_y(edge - step) + feed

    def text_edge(self) -> bytes:
        """A byte whose right end is at the right margin, the page's or the printable edge."""
        machine = self.machine
        face = machine.face()
        if not face:
            return self.text()
        right = (machine.geometry.right - machine.geometry.lx) * PER_7200
        target = self.pick(machine.right_margin() - machine.hmi(),
                           machine.page_width() - machine.hmi(),
                           machine.right_margin(), right - face.advance * PER_7200)
        code = self.pick(self.codes(1), b" ")
        if self.random.random() < 0.3:
            code = ESC + b"&p1X" + code
        return self.place_x(target) + code

    def glyph_edge(self) -> bytes:
        """A byte whose box meets the top or the bottom of the printable area."""
        machine = self.machine
        face, row = machine.face(), machine.geometry
        if not face:
            return self.text()
        target = self.pick(row.top - row.ly + face.ascent, row.bottom - row.ly - face.descent)
        return self.place_y(target * PER_7200) + self.codes(1)

    def rectangle_edge(self) -> bytes:
        """A rectangle that reaches to one edge of the printable area."""
        machine = self.machine
        row = machine.geometry
        right = (row.right - row.lx) * PER_7200 - machine.state.x
        bottom = (row.bottom - row.ly) * PER_7200 - machine.cursor_y()
        small = self.random.randint(1, 20) * ONE
        width, height = self.pick(
            (self.exact(right, DECIPOINT), small), (small, self.exact(bottom, DECIPOINT)))
        parts = [(self.value(width), "H"), (self.value(height), "V"), ("0", "P")]
        corner = b""
        if self.random.random() < 0.3:
            corner = self.place_x((row.left - row.lx) * PER_7200) + \
                self.place_y((row.top - row.ly) * PER_7200)
        return corner + sequence(self.random, "*c", parts)

    def row_edge(self) -> bytes:
        """Raster rows at the page's end, and rows as wide and high as they may be."""
        machine = self.machine
        row = machine.geometry
        resolution = machine.settings.resolution
        pixel = INCH // resolution
        pixels = self.pick(1, 7, 8, 9)
        data = self.pick(bytes([128 >> (pixels - 1) % 8]), bytes([1]), bytes([0]), b"\0\x80")
        target = self.pick(machine.page_height() - pixel,
                           (row.bottom - row.ly) * PER_7200 - pixel,
                           (row.top - row.ly) * PER_7200)
        settings = self.pick(b"", ESC + b"*r%dS" % pixels, ESC + b"*r%dT" % self.pick(1, 2))
        start = settings + ESC + b"*r0F" + self.place_y(target) + ESC + b"*r1A"
        skip = self.pick(b"", b"", ESC + b"*b%dY" % self.pick(0, 1, 2))
        return start + skip + (ESC + b"*b%dW" % len(data) + data) * self.pick(1, 1, 2)

    def margin_run(self) -> bytes:
        """Margins one after the other, then line feeds and a mark."""
        rows = self.pick(1, 2, 5)
        return b"".join([
            self.pick(b"", ESC + b"&l%dE" % rows), self.pick(b"", ESC + b"&l%dF" % rows),
            self.pick(b"", ESC + b"&l%dE" % rows, ESC + b"&l1L", ESC + b"&l0L"),
            b"\n" * self.pick(1, rows, rows + 1, rows + 2, 60),
            self.pick(b"", ESC + b"*c9a9b0P", self.codes(1))])

    def pen_edge(self) -> bytes:
        """A line along an edge of the frame, of the printable area, or from outside."""
        machine = self.machine
        width, height = machine.frame_size()
        across, up = width // PLOTTER_UNIT, height // PLOTTER_UNIT
        x, y = self.pick((0, 0), (across, 0), (0, up), (across, up))
        step = self.pick(0, 0, 1, -1)
        wide = self.pick("", "PW.05;", "PW1;", f"PW{self.random.randint(1, 9999) / 1000};")
        text = f"IN;SP1;{wide}PU{x + step},{y};PD{self.random.randint(0, 200)},{y};"
        return ESC + b"%0B" + text.encode() + ESC + self.pick(b"%0A", b"%1A")

    def pen_outside(self) -> bytes:
        """A lowered pen that is taken out of a small frame by the cursor, then goes back."""
        x, y = self.random.randint(20, 60) * 10, self.random.randint(20, 60) * 10
        frame = b"\x1b*p%dx%dY\x1b*c0t720x720Y" % (x, y)
        lower = b"\x1b%%0BIN;SP1;PD%d,%d;\x1b%%0A" % (x, y)
        move = b"\x1b*p+%dX" % self.pick(0, 100, 300, 301, 400)
        end = b"\x1b%%1BPA%d,%d;\x1b%%0A" % (self.random.randint(0, 1016), y)
        return frame + lower + move + end

    def in_transparent(self) -> bytes:
        """Spaces and letters as transparent data, after a spacing of their own."""
        spacing = self.pick(b"", ESC + b"&k12H", ESC + b"(3@", ESC + b"(8U\x1b&k12H")
        data = self.pick(b" ", b"  ", self.codes(1))
        return spacing + ESC + b"&p%dX" % len(data) + data
