"""What the frame's settings and modes and the HP-GL/2 commands do."""

from items import ONE, Item
from state import DECIPOINT, MILLIMETRE, PLOTTER_UNIT, Finding, scaled

LARGEST_PEN_PLACE = 8388607


# HP-GL/2: the frame and its modes

def frame_anchor(machine, item: Item) -> None:
    machine.judge_item(item)
    machine.settings.anchor = (machine.state.x, machine.use_y())
    machine.pen_to_origin()


def frame_side(side: str):
    def effect(machine, item: Item) -> None:
        machine.judge_item(item)
        setattr(machine.settings, side, scaled(DECIPOINT, item.number.size))
        machine.pen_to_origin()
    return effect


def enter_frame(machine, item: Item) -> None:
    if item.number.size == ONE:
        machine.judge("Gv")
        left, bottom = machine.frame_origin()
        machine.state.plotter.x = machine.state.x - left
        machine.state.plotter.y = bottom - machine.use_y()
    machine.state.in_frame = True


def leave_frame(machine, item: Item) -> None:
    if item.number.size == ONE and machine.state.in_frame:
        left, bottom = machine.frame_origin()
        x = left + machine.state.plotter.x
        y = bottom - machine.state.plotter.y
        machine.judge("G", (15, lambda: not (0 <= x <= machine.page_width()
                                             and 0 <= y <= machine.page_height())))
        machine.state.x, machine.state.y = x, y
    machine.state.in_frame = False


# HP-GL/2: the commands

def initialize(machine, item: Item) -> None:
    machine.reset_plotter()


def select_pen(machine, item: Item) -> None:
    machine.judge_item(item)
    machine.state.plotter.pen = item.number.size // ONE


def pen_width(machine, item: Item) -> None:
    machine.judge_item(item)
    machine.state.plotter.width = scaled(MILLIMETRE, item.number.size)


def is_far(x: int, y: int) -> bool:
    return max(abs(x), abs(y)) > LARGEST_PEN_PLACE * PLOTTER_UNIT


def line_to(machine, x: int, y: int) -> None:
    """A mark from the pen's place to this one: both ends in the frame, pen 1."""
    plotter = machine.state.plotter
    left, bottom = machine.frame_origin()
    width, height = machine.frame_size()
    half = plotter.width // 2
    ends = [(plotter.x, plotter.y), (x, y)]
    xs = [left + end[0] for end in ends]
    ys = [bottom - end[1] for end in ends]

    def leaves_frame() -> bool:
        inside = all(0 <= end[0] <= width and 0 <= end[1] <= height for end in ends)
        return not inside or is_far(x, y)

    machine.judge(
        "G", (28, lambda: plotter.pen == 0),
        (17, lambda: machine.is_outside(min(xs) - half, min(ys) - half,
                                        max(xs) + half, max(ys) + half)),
        (29, leaves_frame))
    line = machine.on_page(xs[0], ys[0], xs[1], ys[1])
    machine.mark(f"line {plotter.width} {line}")


def move_pen(machine, pair) -> None:
    plotter = machine.state.plotter
    x, y = pair[0] * PLOTTER_UNIT, pair[1] * PLOTTER_UNIT
    if not plotter.is_absolute:
        x, y = plotter.x + x, plotter.y + y
    if plotter.is_down:
        line_to(machine, x, y)
    elif is_far(x, y):
        raise Finding(29)
    plotter.x, plotter.y = x, y


def pen_command(machine, item: Item) -> None:
    """Lowering a raised pen marks a line of no length, in a step before the move."""
    plotter = machine.state.plotter
    if item.name == "PD" and not plotter.is_down:
        line_to(machine, plotter.x, plotter.y)
    if item.name in ("PU", "PD"):
        plotter.is_down = item.name == "PD"
    else:
        plotter.is_absolute = item.name == "PA"
    if item.pair is not None:
        move_pen(machine, item.pair)
