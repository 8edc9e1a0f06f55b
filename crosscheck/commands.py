"""The one table of the commands with a value: which values are right, and what they read.

Reads are words of letters:
  G  Size and Orientation
  V  Vmi
  v  Vmi where the cursor's height is still home
  r  Vmi where it is home and the move is relative
  F  Font
  f  Font where HMI is not set
  L  LineTerm
  P  the five values of a page: Size, Orientation, Copies, Sides, Tray
"""

from dataclasses import dataclass
from typing import Callable, Dict

ONE = 10000

# The fields of the panel, in their order: the key of each, and its least and its greatest value.
FIELDS = {
    "Size": ("size", 1, 999), "Orientation": ("orientation", 0, 3), "Vmi": ("vmi", 0, 335),
    "Font": ("font", 1, 255), "Copies": ("copies", 1, 32767), "Sides": ("sides", 0, 2),
    "Tray": ("tray", 1, 255), "LineTerm": ("lineterm", 0, 3),
}
KEYS = {key: name for name, (key, _, _) in FIELDS.items()}


@dataclass(frozen=True)
class Command:
    is_right: Callable[[int], bool]     # of a size in ten-thousandths
    reads: str = ""
    is_move: bool = False               # a sign makes it relative
    may_be_negative: bool = False


def anything(size: int) -> bool:
    return True


def whole(low: int, high: int = 65535) -> Callable[[int], bool]:
    return lambda size: size % ONE == 0 and low * ONE <= size <= high * ONE


def up_to(high: int) -> Callable[[int], bool]:
    return lambda size: size <= high * ONE


def one_of(*values: int) -> Callable[[int], bool]:
    return lambda size: size in [value * ONE for value in values]


def above_zero(size: int) -> bool:
    return size > 0


UNITS = (96, 100, 120, 144, 150, 160, 180, 200, 225, 240, 288, 300, 360, 400, 450, 480,
         600, 720, 800, 900, 1200, 1440, 1800, 2400, 3600, 7200)
LINES_PER_INCH = (1, 2, 3, 4, 6, 8, 12, 16, 24, 48)
RESOLUTIONS = (75, 100, 150, 200, 300, 600)

COMMANDS: Dict[str, Command] = {
    "(set": Command(anything),
    "(sP": Command(one_of(0)),
    "(sH": Command(anything),
    "(sV": Command(anything),
    "(sS": Command(anything),
    "(sB": Command(anything, may_be_negative=True),
    "(sT": Command(anything),
    "&lA": Command(whole(1, 999)),
    "&lO": Command(whole(0, 3)),
    "&lX": Command(whole(1, 32767)),
    "&lS": Command(one_of(0, 1, 2)),
    "&lH": Command(whole(0, 255)),
    "&lC": Command(up_to(335)),
    "&lD": Command(one_of(*LINES_PER_INCH)),
    "&lE": Command(whole(0), "GV"),
    "&lF": Command(whole(1), "GV"),
    "&lL": Command(one_of(0, 1)),
    "&uD": Command(one_of(*UNITS)),
    "&kH": Command(up_to(840)),
    "&kG": Command(whole(0, 3)),
    "&aL": Command(whole(0), "Gf"),
    "&aM": Command(whole(0), "Gf"),
    "&aC": Command(anything, "Gf", is_move=True),
    "&aR": Command(anything, "GV", is_move=True),
    "&aH": Command(anything, "G", is_move=True),
    "&aV": Command(anything, "Gr", is_move=True),
    "&fS": Command(one_of(0, 1)),
    "&fY": Command(whole(0, 32767)),
    "&fX": Command(whole(0, 9)),
    "&pX": Command(anything),
    "*pX": Command(anything, "G", is_move=True),
    "*pY": Command(anything, "Gr", is_move=True),
    "*cA": Command(anything),
    "*cB": Command(anything),
    "*cH": Command(anything),
    "*cV": Command(anything),
    "*cG": Command(whole(0, 32767)),
    "*cP": Command(whole(0, 3), "Gv"),
    "*cT": Command(one_of(0), "v"),
    "*cX": Command(above_zero),
    "*cY": Command(above_zero),
    "*tR": Command(one_of(*RESOLUTIONS)),
    "*rA": Command(one_of(0, 1), "Gv"),
    "*rS": Command(whole(1)),
    "*rT": Command(whole(1)),
    "*rF": Command(one_of(0, 3)),
    "*rB": Command(one_of(0)),
    "*rC": Command(one_of(0)),
    "*bM": Command(one_of(0)),
    "*bY": Command(whole(0, 32767), "G"),
    "*bW": Command(anything, "G"),
    "SP": Command(one_of(0, 1)),
    "PW": Command(above_zero),
}


def letters_by_group() -> Dict[str, str]:
    groups: Dict[str, str] = {}
    for name in COMMANDS:
        if len(name) == 3 and name[0] in "&*(":
            groups[name[:2]] = groups.get(name[:2], "") + name[2]
    return groups


GROUPS = letters_by_group()
