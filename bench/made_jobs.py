"""The jobs that `run.py` measures: one function a kind, which makes a page by its number.

No two of the first thousands of pages of a kind are the same, so that neither a processor nor a
program can learn one page by heart. The pages are the same each time.
"""

RESET = b"\x1bE"
EXIT = b"\x1b%-12345X"
CR_LF = b"\r\n"
HALF_LINE_FEED = b"\x1b="
FORM_FEED = b"\f"
LABELS = (b"Order", b"Customer", b"Number of pieces", b"Unit price", b"Total", b"Remarks")
PUSH = b"\x1b&f0S"
POP = b"\x1b&f1S"


# The makers. Each yields the bytes of the page of a number, counted from 0; a job is a reset, pages
# and a reset. A new kind is one function, named in MAKERS.


def rectangles(number):
    """60 rectangles, each at a place of its own."""
    for i in range(60):
        yield to_units((37 * number + 29 * i) % 1800, (11 * number + 47 * i) % 2900)
        yield rectangle(20 + 13 * i % 400, 1 + 7 * i % 60)
    yield FORM_FEED


def lines(number):
    """A ruled list by lines and columns, whose last line ends the page."""
    if number == 0:
        yield b"\x1b&l2a0o6d4e56F\x1b&k0G\x1b&a5l74M"
    yield b"\x1b&k12H" + PUSH
    for column in (5, 15, 45, 60, 75):
        yield to_cell(column, 0) + rectangle(2, 2752)
    yield POP
    for line in range(56):
        yield from line_of_list(number, line)


def line_of_list(number, line):
    """A line of a list, ruled or empty, at times with cells, and a step to the next line."""
    if line % 8 != 7:
        yield rectangle(2100, 2)
    if line % 4 == 2:
        for column in (16, 46, 61):
            width = 30 + (7 * number + 13 * line) % 541
            yield b"\x1b&a%dC" % column + rectangle(width, 6 + number % 23)
    yield b"\r\x1b&a+1R" if line % 8 == 5 else CR_LF


def mix(number):
    """A form that takes every command but those of text, of rasters, of frames and of macros."""
    yield from settings_of_form(number)
    for line in range(12):
        yield rectangle(600 + 10 * line, 2)
        yield HALF_LINE_FEED if line % 4 == 3 else CR_LF
    for i in range(8):
        yield PUSH + to_cell(10 + i, 20 + 2 * i) + rectangle(3, 60 + number % 61)
        yield b"\x1b&a+3.5c-1R" + rectangle(40, 40) + POP
    for i in range(8):
        yield b"\x1b&a%dh%dV" % (400 + 100 * i, 3000 + 120 * i) + rectangle(90, 9)
        yield to_units((100 * i + 7 * number) % 1000, 1500 + 20 * i) + rectangle(50, 5)
        yield b"\x1b*p+40x-7Y\x1b*c0P"
    yield b"\x1b9\n" + FORM_FEED


def settings_of_form(number):
    """What a form sets before its first mark, which differs from page to page."""
    if number % 16 == 0:
        yield RESET
    yield b"\x1b&l%dx%ds2a%dh0O" % (1 + number % 9, number % 3, 1 + number % 2)
    yield b"\x1b&u%dD" % (300 + 300 * (number % 2))
    yield b"\x1b&l0l1l%s4e50F" % (b"8c", b"6d", b"8d")[number % 3]
    yield b"\x1b&k12h%dG\x1b&a5l74M" % (number % 4)


def wrapped(number):
    """The pages of that form in jobs of four, each wrapped as a spooler does it."""
    job = b'JOB NAME="form %d" DISPLAY="%d of the queue"' % (number // 4, number // 4)
    if number % 4 == 0:
        for line in (job, b"COMMENT Queue: forms. Host: works", b"ENTER LANGUAGE = PCL"):
            yield (EXIT if line is job else b"") + b"@PJL " + line + CR_LF
        yield RESET
    yield from mix(number)
    if number % 4 == 3:
        yield RESET + EXIT + b'@PJL EOJ NAME="form %d"' % (number // 4) + CR_LF


def text(number):
    """60 lines of 20 to 80 characters, words and columns of numbers, as a host prints a report."""
    for line in range(60):
        yield line_of_text(number, line) + CR_LF
    yield FORM_FEED


def line_of_text(number, line):
    """A line of so many characters, a sixth of them spaces."""
    length = 20 + (7 * line + 11 * number) % 61
    return bytes(32 if i % 6 == 5 else 33 + (number + line + i) % 94 for i in range(length))


def dense(number):
    """50 lines of 80 characters, none of them a space. The page stays open."""
    for line in range(50):
        yield bytes(33 + (number + line + i) % 94 for i in range(80)) + CR_LF


def raster(number):
    """600 rows of 40 to 300 bytes, as of a scanned form, a third of them blank at both ends."""
    yield b"\x1b*t300R\x1b*r0F" + to_units(0, 300) + b"\x1b*r1A"
    for row in range(600):
        data = row_of_raster(number, row)
        yield b"\x1b*b%dW" % len(data) + data
    yield b"\x1b*rB" + FORM_FEED


def row_of_raster(number, row):
    """A row of black and white pixels, black at both ends or with white bytes there."""
    length = 40 + (37 * row + 53 * number) % 261
    blank = length // 8 if row % 3 == 2 else 0
    bytes_between = bytes(1 + (number + 7 * row + 31 * i) % 255 for i in range(length - 2 * blank))
    return bytes(blank) + bytes_between + bytes(blank)


def plot(number):
    """Two drawings of a plot converter, a frame each, with lines through 1 to 40 places."""
    for drawing in (2 * number, 2 * number + 1):
        yield b"\x1b%0BIN;SP1;" + b"PW%s;" % (b"0.25", b"0.35", b"0.5")[drawing % 3]
        for count in range(1, 41):
            yield relative_line(drawing, count) if count % 3 == 0 else absolute_line(drawing, count)
        yield b"PU;SP0;\x1b%0A"
    yield FORM_FEED


def absolute_line(drawing, count):
    """A line through so many places, anywhere in the frame."""
    places = ((31 * (drawing + 7 * i) % 8129, 71 * (count + 3 * i) % 10161) for i in range(count))
    return b"PU%d,%d;" % (97 * count, 101 * (drawing % 90)) + b"PD" + coordinates(places) + b";"


def relative_line(drawing, count):
    """A line of so many steps, which stays near its begin: seven across, or five up, lead back."""
    steps = ((40 * (i % 7 - 3), 40 * (i % 5 - 2)) for i in range(count))
    x, y = 53 * (drawing + count) % 6000, 97 * (drawing + count) % 8000
    begin = b"PU%d,%d;" % (1000 + x, 1000 + y)
    return begin + b"PR;PD" + coordinates(steps) + b";PA;"


def coordinates(places):
    """Pairs of coordinates, as one command has them."""
    return b",".join(b"%d,%d" % place for place in places)


def report(number):
    """A page with some of everything: a logo, rectangles, lines of text and a drawing."""
    yield b"\x1b*t300R\x1b*r0F" + to_units(0, 150) + b"\x1b*r1A"
    for row in range(10):
        data = row_of_raster(number, row)
        yield b"\x1b*b%dW" % len(data) + data
    yield b"\x1b*rB"
    for i in range(60):
        yield to_units((37 * number + 29 * i) % 1800, 300 + 40 * i)
        yield rectangle(20 + 13 * i % 400, 1 + 7 * i % 60)
    yield to_units(0, 600)
    for line in range(40):
        yield line_of_text(number, line) + CR_LF
    yield b"\x1b%0BIN;SP1;PW0.35;"
    for count in range(1, 13):
        yield absolute_line(number, count)
    yield b"PU;SP0;\x1b%0A" + FORM_FEED


def words(number):
    """60 words, each put at a place of its own, as a driver prints a form or justified text."""
    for i in range(60):
        yield to_units((37 * number + 29 * i) % 1500, 100 + 45 * i) + word(number + i)
    yield FORM_FEED


def word(number):
    """A label of a form, with a number behind it."""
    return LABELS[number % len(LABELS)] + b" %d" % (number % 1000)


def outline(number):
    """A drawing of single lines, whose commands stand on lines of their own."""
    yield b"\x1b%0BIN;SP1;PW0.35;\n"
    for i in range(80):
        x, y = (53 * i + 7 * number) % 6000, (97 * i + 11 * number) % 8000
        yield b"PUPA%d,%d;\nPD%d,%d;\n" % (x, y, x + 400, y)
    yield b"PU;SP0;\x1b%0A" + FORM_FEED


def office(number):
    """A page of an office: a logo, words at their places, rules, short lines, and a drawing."""
    yield from small_logo(number)
    for i in range(12):
        yield to_units(150 * (i % 4) + number % 90, 300 + 60 * (i // 4)) + word(number + i)
    for i in range(16):
        yield to_units(0, 600 + 50 * i + number % 40) + rectangle(1800, 1 + (number + i) % 4)
    yield to_units(0, 620)
    for line in range(40):
        yield line_of_text(number, line)[: 12 + (7 * line + 11 * number) % 51] + CR_LF
    yield from small_drawing(number)
    yield FORM_FEED


def small_logo(number):
    """24 rows of a raster, of 32 bytes each."""
    yield b"\x1b*t300R\x1b*r0F" + to_units(0, 150) + b"\x1b*r1A"
    for row in range(24):
        yield b"\x1b*b32W" + bytes(1 + (number + 7 * row + 31 * i) % 255 for i in range(32))
    yield b"\x1b*rB"


def small_drawing(number):
    """A drawing with lines through 1 to 8 places, and 12 single ones."""
    yield b"\x1b%0BIN;SP1;PW0.35;"
    for count in range(1, 9):
        yield absolute_line(number, count)
    for i in range(12):
        x, y = (53 * i + 7 * number) % 6000, (97 * i + 11 * number) % 8000
        yield b"PU%d,%d;PD%d,%d;" % (x, y, x + 400, y)
    yield b"PU;SP0;\x1b%0A"


def macro(number):
    """A page of a macro, which the first page defines: 60 rectangles, and one before them."""
    if number == 0:
        yield b"\x1b&f1y0X"
        yield from rectangles_of_form()
        yield b"\x1b&f1X"
    yield mark_of_page(number) + b"\x1b&f2X" + FORM_FEED


def written_out(number):
    """The commands of that macro, written out on each page."""
    yield mark_of_page(number)
    yield from rectangles_of_form()
    yield FORM_FEED


def mark_of_page(number):
    """A rectangle by which pages that are else the same differ."""
    return to_units(37 * number % 1801, 11 * number % 2903) + rectangle(1 + number % 53, 1)


def rectangles_of_form():
    """60 rectangles, each at a place and of a size of its own, the same on all pages."""
    for i in range(60):
        yield to_units(7 + 29 * i % 1800, 11 + 47 * i % 2900)
        yield rectangle(20 + 13 * i % 400, 1 + 7 * i % 60)


def overlay(number):
    """40 lines of text, and the form of an overlay, which the first page defines and enables."""
    if number == 0:
        yield b"\x1b&f1y0X"
        yield from form_of_rules()
        yield b"\x1b&f1X\x1b&f1y4X"
    for line in range(40):
        yield line_of_text(number, line) + CR_LF
    yield FORM_FEED


def form_of_rules():
    """A frame, 20 rules and a heading, from user defaults."""
    yield to_units(0, 0) + rectangle(2250, 3) + rectangle(3, 3000)
    yield to_units(0, 2997) + rectangle(2250, 3) + to_units(2247, 0) + rectangle(3, 3000)
    for i in range(20):
        yield to_units(0, 250 + 130 * i) + rectangle(2250, 1 + i % 3)
    yield to_units(60, 100) + b"Stock of forms by shelf and by size"


def characters_of_page(count):
    """A page of so many characters in lines of 80, printed over and over from its top."""
    for line in range(count // 80):
        if line % 60 == 0:
            yield to_units(0, 0)
        yield bytes(33 + (line + i) % 94 for i in range(80)) + CR_LF


def rows_of_page(count):
    """A page of so many rows of 500 bytes of a raster of 600 pixels an inch."""
    yield b"\x1b*t600R\x1b*r0F" + to_units(0, 300) + b"\x1b*r1A"
    for row in range(count):
        yield b"\x1b*b500W" + bytes((1 + 7 * row + 31 * i) % 256 for i in range(500))
    yield b"\x1b*rB"


def rectangle(width, height):
    """A solid rectangle at the cursor, in PCL units."""
    return b"\x1b*c%da%db0P" % (width, height)


def to_units(x, y):
    """A move of the cursor to a place in PCL units."""
    return b"\x1b*p%dx%dY" % (x, y)


def to_cell(column, row):
    """A move of the cursor to a column and a row."""
    return b"\x1b&a%dc%dR" % (column, row)


MAKERS = (
    rectangles,
    lines,
    text,
    words,
    raster,
    mix,
    report,
    office,
    wrapped,
    plot,
    outline,
    macro,
    written_out,
    overlay,
)
KINDS = {maker.__name__: maker for maker in MAKERS}
