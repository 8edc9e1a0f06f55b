"""What page items do: text, fonts, settings, cursor moves.

Each function makes its item's checks in their steps, then has its effect on the printer.
"""

from items import ONE, Item
from state import DECIPOINT, HMI_UNIT, INCH, PER_7200, TEN_THOUSAND, VMI_UNIT, scaled

STACK_PLACES = 20


# Reset, line ends, text

def reset(machine, item: Item) -> None:
    machine.reset()


def no_effect(machine, item: Item) -> None:
    pass


def clear_side_margins(machine, item: Item) -> None:
    machine.settings.left = 0
    machine.settings.right = None


def line_down(machine, distance: int) -> None:
    """LF and ESC =: down by the distance, or to the next page past the bottom margin."""
    skips = machine.settings.perforation_skip == 1
    target = machine.cursor_y() + distance
    machine.judge("GV", (15, lambda: not skips and target > machine.page_height()))
    if skips and target > machine.bottom_margin():
        machine.close_marked_page()
        machine.state.y = None
    else:
        machine.state.y = target


def half_line_feed(machine, item: Item) -> None:
    line_down(machine, machine.settings.vmi // 2)


def carriage_return(machine) -> None:
    machine.state.x = machine.settings.left


def line_end(machine, item: Item) -> None:
    """CR, LF, FF: the reading of line termination is a step of its own, then the parts."""
    machine.judge("L")
    termination = machine.settings.values["LineTerm"]
    if item.name == "CR":
        carriage_return(machine)
        if termination in (1, 3):
            line_down(machine, machine.settings.vmi)
        return
    if termination in (2, 3):
        carriage_return(machine)
    if item.name == "LF":
        line_down(machine, machine.settings.vmi)
    else:
        machine.close_page()


def text_byte(machine, code: int, is_transparent: bool) -> None:
    is_space = code == 32
    reads = "Gvf" if is_space and not is_transparent else "GvF"
    uses_font = not is_space or is_transparent or machine.reads_font_for_hmi()
    face = machine.face()
    x, y = machine.state.x, machine.cursor_y()

    def after() -> int:
        return x + machine.hmi()

    def box():
        return (x, y - face.ascent * PER_7200, x + face.advance * PER_7200,
                y + face.descent * PER_7200)

    machine.judge(
        reads,
        (13, lambda: uses_font and face is None),
        (14, lambda: not is_space and code not in face.codes),
        (15, lambda: x >= machine.right_margin() and after() > machine.page_width()),
        (16, lambda: x < machine.right_margin() and after() > machine.right_margin()),
        (17, lambda: not is_space and machine.is_outside(*box())),
        code=code)
    if not is_space:
        height = y + machine.geometry.ly * PER_7200
        machine.mark(f"glyph {code} {face.words()} {height} {machine.on_page(*box())}")
    machine.state.x = after()
    machine.use_y()


def text(machine, item: Item) -> None:
    text_byte(machine, item.data[0], False)


def transparent_text(machine, item: Item) -> None:
    for code in item.data:
        text_byte(machine, code, True)


# Fonts

def set_font_part(part: str):
    def effect(machine, item: Item) -> None:
        machine.judge_item(item)
        value = item.number.signed
        if part == "symbol_set":
            value = (item.number.size, item.letter)
        machine.settings.font = {**machine.settings.font, part: value}
        machine.settings.hmi = None
    return effect


def default_font(machine, item: Item) -> None:
    machine.settings.font = {}
    machine.settings.hmi = None


# Page control

def set_field(machine, field: str, value: int) -> None:
    machine.settings.values = {**machine.settings.values, field: value}
    machine.touch(field)


def new_page_shape(machine, field: str, value: int) -> None:
    """Size and orientation also give up margins, frame, overlay and the cursor's place."""
    set_field(machine, field, value)
    settings = machine.settings
    settings.top, settings.bottom = INCH // 2, None
    settings.left, settings.right = 0, None
    settings.anchor = settings.frame_width = settings.frame_height = None
    settings.overlay = None
    machine.pen_to_origin()
    machine.state.x, machine.state.y = 0, None


def page_size(machine, item: Item) -> None:
    value = item.number.size // ONE
    machine.judge_item(item, (11, lambda: value not in machine.profile.sizes()),
                       (23, lambda: machine.level.in_call))
    machine.close_marked_page()
    new_page_shape(machine, "Size", value)


def orientation(machine, item: Item) -> None:
    """Also gives up VMI and HMI, even where the value is the one in force."""
    value = item.number.size // ONE
    machine.judge_item(item, (11, lambda: value not in machine.profile.orientations()),
                       (23, lambda: machine.level.in_call))
    machine.close_marked_page()
    new_page_shape(machine, "Orientation", value)
    machine.settings.vmi = scaled(VMI_UNIT, machine.panel["Vmi"])
    machine.settings.touched = machine.settings.touched - {"Vmi"}
    machine.settings.hmi = None


def copies(machine, item: Item) -> None:
    machine.judge_item(item)
    set_field(machine, "Copies", item.number.size // ONE)


def sides(machine, item: Item) -> None:
    value = item.number.size // ONE
    machine.judge_item(item, (11, lambda: value > 0 and not machine.profile.duplex),
                       (23, lambda: machine.level.in_call))
    machine.close_marked_page()
    set_field(machine, "Sides", value)
    machine.state.x, machine.state.y = 0, None


def source(machine, item: Item) -> None:
    """Source 0 sets nothing, but it closes the page and moves the cursor."""
    value = item.number.size // ONE
    machine.judge_item(item, (11, lambda: value > 0 and value not in machine.profile.trays),
                       (23, lambda: machine.level.in_call))
    machine.close_marked_page()
    if value > 0:
        set_field(machine, "Tray", value)
    machine.state.x, machine.state.y = 0, None


def vmi(machine, item: Item) -> None:
    machine.judge_item(item)
    machine.settings.vmi = scaled(VMI_UNIT, item.number.size)
    machine.touch("Vmi")


def lines_per_inch(machine, item: Item) -> None:
    machine.judge_item(item)
    machine.settings.vmi = INCH * ONE // item.number.size
    machine.touch("Vmi")


def hmi(machine, item: Item) -> None:
    machine.judge_item(item)
    machine.settings.hmi = scaled(HMI_UNIT, item.number.size)


def top_margin(machine, item: Item) -> None:
    top = item.number.size // ONE * machine.settings.vmi
    machine.judge_item(item, (32, lambda: machine.settings.vmi == 0
                              or top > machine.page_height()))
    machine.settings.top, machine.settings.bottom = top, None


def text_length(machine, item: Item) -> None:
    bottom = machine.settings.top + item.number.size // ONE * machine.settings.vmi
    machine.judge_item(item, (32, lambda: machine.settings.vmi == 0
                              or bottom > machine.page_height()))
    machine.settings.bottom = bottom


def perforation_skip(machine, item: Item) -> None:
    machine.judge_item(item)
    value = item.number.size // ONE
    if value != machine.settings.perforation_skip:
        machine.settings.perforation_skip = value
        machine.settings.top, machine.settings.bottom = INCH // 2, None


def line_termination(machine, item: Item) -> None:
    machine.judge_item(item)
    set_field(machine, "LineTerm", item.number.size // ONE)


def no_font_for_hmi(machine) -> bool:
    return machine.reads_font_for_hmi() and machine.face() is None


def left_margin(machine, item: Item) -> None:
    count = item.number.size // ONE

    def is_ignored() -> bool:
        left = count * machine.hmi()
        return left > machine.page_width() or left >= machine.right_margin()

    machine.judge_item(item, (13, lambda: no_font_for_hmi(machine)), (32, is_ignored))
    machine.settings.left = count * machine.hmi()
    machine.state.x = max(machine.state.x, machine.settings.left)


def right_margin(machine, item: Item) -> None:
    count = item.number.size // ONE + 1

    def is_ignored() -> bool:
        right = count * machine.hmi()
        return right > machine.page_width() or machine.settings.left >= right

    machine.judge_item(item, (13, lambda: no_font_for_hmi(machine)), (32, is_ignored))
    machine.settings.right = count * machine.hmi()
    machine.state.x = min(machine.state.x, machine.settings.right)


def pcl_unit(machine, item: Item) -> None:
    machine.judge_item(item)
    machine.settings.pcl_unit = INCH * ONE // item.number.size


# Cursor moves

def move_x(machine, item: Item, *checks, unit) -> None:
    """Horizontal zero is the logical page's left edge; `unit` gives the unit's ticks."""
    start = machine.state.x if item.number.sign else 0

    def is_off() -> bool:
        target = start + item.number.signed * unit() // TEN_THOUSAND
        return not 0 <= target <= machine.page_width()

    machine.judge_item(
        item, *checks, (31, lambda: item.number.size * unit() % TEN_THOUSAND != 0),
        (15, is_off))
    machine.state.x = start + item.number.signed * unit() // TEN_THOUSAND


def move_y(machine, item: Item, unit: int, zero: int) -> None:
    start = machine.cursor_y() if item.number.sign else zero
    product = item.number.signed * unit
    target = start + product // TEN_THOUSAND
    machine.judge_item(
        item, (31, lambda: product % TEN_THOUSAND != 0),
        (15, lambda: not 0 <= target <= machine.page_height()))
    machine.state.y = target


def columns(machine, item: Item) -> None:
    move_x(machine, item, (13, lambda: no_font_for_hmi(machine)), unit=machine.hmi)


def rows(machine, item: Item) -> None:
    """Rows count from the first line: the top margin plus three quarters of VMI."""
    line = machine.settings.vmi
    move_y(machine, item, line, machine.settings.top + line * 3 // 4)


def decipoints_x(machine, item: Item) -> None:
    move_x(machine, item, unit=lambda: DECIPOINT)


def decipoints_y(machine, item: Item) -> None:
    move_y(machine, item, DECIPOINT, machine.settings.top)


def units_x(machine, item: Item) -> None:
    move_x(machine, item, unit=lambda: machine.settings.pcl_unit)


def units_y(machine, item: Item) -> None:
    move_y(machine, item, machine.settings.pcl_unit, machine.settings.top)


def push_or_pop(machine, item: Item) -> None:
    stack = machine.state.stack
    is_push = item.number.size == 0
    is_pop = item.number.size == ONE
    reads = "v" if is_push else ""
    machine.judge(reads, (10, lambda: machine.is_bad(item)),
                  (18, lambda: is_push and len(stack) == STACK_PLACES),
                  (19, lambda: is_pop and not stack))
    if is_push:
        stack.append((machine.state.x, machine.use_y()))
    else:
        machine.state.x, machine.state.y = stack.pop()
