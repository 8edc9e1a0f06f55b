"""What rectangles, rasters and macro commands do."""

from items import ONE, Item
from state import DECIPOINT, INCH, scaled


# Rectangles

def rect_side(side: str, unit: str):
    def effect(machine, item: Item) -> None:
        machine.judge_item(item)
        ticks = DECIPOINT if unit == "decipoint" else machine.settings.pcl_unit
        setattr(machine.settings, side, scaled(ticks, item.number.size))
    return effect


def fill_id(machine, item: Item) -> None:
    machine.judge_item(item)
    machine.settings.fill = item.number.size // ONE


def rectangle(machine, item: Item) -> None:
    """0 solid, 1 erase, 2 shade with an id of 1 to 100, 3 hatch with an id of 1 to 6."""
    settings = machine.settings
    kind = item.number.size // ONE
    largest_fill = {2: 100, 3: 6}
    x, y = machine.state.x, machine.cursor_y()
    box = (x, y, x + settings.rect_width, y + settings.rect_height)

    def is_bad() -> bool:
        if machine.is_bad(item):
            return True
        return kind in largest_fill and not 1 <= settings.fill <= largest_fill[kind]

    machine.judge("Gv", (10, is_bad),
                  (30, lambda: settings.rect_width == 0 or settings.rect_height == 0),
                  (17, lambda: machine.is_outside(*box)))
    fill = settings.fill if kind in largest_fill else 0
    machine.mark(f"rect {kind} {fill} {machine.on_page(*box)}")
    machine.use_y()


# Rasters

def is_started(machine) -> bool:
    return machine.state.raster is not None


def raster_setting(name: str):
    def effect(machine, item: Item) -> None:
        machine.judge_item(item, (26, lambda: is_started(machine)))
        setattr(machine.settings, name, item.number.size // ONE)
    return effect


def raster_start(machine, item: Item) -> None:
    machine.judge_item(
        item, (26, lambda: is_started(machine)),
        (34, lambda: machine.settings.presentation == 3
         and machine.settings.values["Orientation"] != 0))
    if item.number.size == 0:
        machine.state.x = 0
    machine.use_y()
    machine.start_raster(machine.state.x)


def raster_end(machine, item: Item) -> None:
    machine.judge_item(item)
    machine.state.raster = None


def raster_method(machine, item: Item) -> None:
    machine.judge_item(item)


def past_height(machine, rows_more: int) -> bool:
    height = machine.settings.raster_height
    return height is not None and machine.state.raster.rows + rows_more > height


def raster_skip(machine, item: Item) -> None:
    count = item.number.size // ONE
    pixel = INCH // machine.settings.resolution
    target = machine.cursor_y() + count * pixel
    machine.judge_item(
        item, (25, lambda: not is_started(machine)),
        (27, lambda: past_height(machine, count)),
        (15, lambda: target > machine.page_height()))
    machine.state.raster.rows += count
    machine.state.y = target


def black_pixels(data: bytes):
    return [8 * index + bit for index, byte in enumerate(data) for bit in range(8)
            if byte & (128 >> bit)]


def raster_row(machine, item: Item) -> None:
    """A row moves y down by one pixel, whether or not it marks."""
    resolution = machine.settings.resolution
    pixel = INCH // resolution
    black = black_pixels(item.data)
    width = machine.settings.raster_width
    y = machine.cursor_y()
    target = y + pixel

    def is_too_big() -> bool:
        too_wide = width is not None and bool(black) and black[-1] >= width
        return too_wide or past_height(machine, 1)

    def is_outside() -> bool:
        left = machine.state.raster.left
        return bool(black) and machine.is_outside(
            left + black[0] * pixel, y, left + (black[-1] + 1) * pixel, target)

    machine.judge("G", (25, lambda: not is_started(machine)), (27, is_too_big),
                  (15, lambda: target > machine.page_height()), (17, is_outside))
    if black:
        kept = item.data.rstrip(b"\0").lstrip(b"\0")
        leading = black[0] // 8
        place = machine.on_page(machine.state.raster.left + 8 * leading * pixel, y)
        machine.mark(f"row {resolution} {place} {kept.hex()}")
    machine.state.raster.rows += 1
    machine.state.y = target


# Macros

def macro_id(machine, item: Item) -> None:
    machine.judge_item(item)
    machine.settings.macro_id = item.number.size // ONE


def macro_control(machine, item: Item) -> None:
    settings = machine.settings
    kind = item.number.size // ONE
    current = settings.macro_id

    def is_missing() -> bool:
        return kind == 1 or (kind in (2, 3, 4, 8) and current not in machine.macros)

    machine.judge_item(
        item, (20, is_missing),
        (21, lambda: kind in (2, 3) and machine.level.depth + 1 > machine.profile.depth),
        (23, lambda: kind in (4, 5, 6, 7, 8) and machine.level.depth > 0))
    if kind == 0:
        machine.delete_macro(current)
        machine.open_id = current
    elif kind in (2, 3):
        machine.run_macro(machine.macros[current], is_call=kind == 3)
    elif kind == 4:
        settings.overlay = current
    elif kind == 5:
        settings.overlay = None
    elif kind in (6, 7):
        machine.macros = {}
        settings.overlay = None
    elif kind == 8:
        machine.delete_macro(current)
