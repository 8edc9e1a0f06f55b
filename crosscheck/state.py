"""What a printer holds while it carries out a job, as plain numbers.

Lengths are in ticks of 1/36,576,000,000 inch, so that every unit is a whole number.
"""

import re
from dataclasses import dataclass, field
from pathlib import Path
from typing import Dict, FrozenSet, List, Optional, Tuple

from commands import FIELDS
from printer_profile import FontRequest, Profile

INCH = 36_576_000_000
PER_7200 = INCH // 7200
DECIPOINT = INCH // 720
PLOTTER_UNIT = 36_000_000
MILLIMETRE = 1_440_000_000
VMI_UNIT = INCH // 48
HMI_UNIT = INCH // 120
TEN_THOUSAND = 10000

FONT_PARTS = ("symbol_set", "spacing", "pitch", "height", "style", "weight", "typeface")
PAGE_FIELDS = ("Size", "Orientation", "Copies", "Sides", "Tray")

# The rules that are read here, with the names of findings and the order of the checks of one step.
DOCUMENTS = Path(__file__).resolve().parent.parent / "docs"
RULES = (DOCUMENTS / "DEFINITIONS.md").read_text()
FINDINGS = {int(number): name for number, name in
            re.findall(r"(?m)^## (\d\d) (\w+)$", (DOCUMENTS / "FINDINGS.md").read_text())}
ORDER = re.search(r"(?m)^At one step the first finding in the order ([\d, ]+) is reported", RULES)
CHECK_ORDER = tuple(map(int, ORDER[1].split(", ")))


class Finding(Exception):
    def __init__(self, number: int, unset: str = "", code: Optional[int] = None):
        super().__init__(number)
        self.number = number
        self.unset = unset
        self.code = code                       # of the character that is printed

    def __str__(self) -> str:
        name = FINDINGS[self.number]
        return f"{self.number} {name}({self.unset})" if self.unset else f"{self.number} {name}"


def scaled(length: int, size: int) -> int:
    """The length times a value in ten-thousandths, where that is whole."""
    product = length * size
    assert product % TEN_THOUSAND == 0
    return product // TEN_THOUSAND


@dataclass
class Settings:
    """What a call puts back. Every part holds a plain value that is never changed inside."""
    values: Dict[str, int]                     # the panel fields but Vmi and Font
    vmi: int                                   # in ticks
    font: Dict[str, object]                    # the parts that the job has set
    touched: FrozenSet[str] = frozenset()      # the fields that the job has set
    pcl_unit: int = INCH // 300
    top: int = INCH // 2
    bottom: Optional[int] = None               # None: the default
    left: int = 0
    right: Optional[int] = None                # None: the logical page's width
    hmi: Optional[int] = None
    perforation_skip: int = 1
    rect_width: int = 0
    rect_height: int = 0
    fill: int = 0
    resolution: int = 75
    presentation: int = 3
    raster_width: Optional[int] = None
    raster_height: Optional[int] = None
    anchor: Optional[Tuple[int, int]] = None
    frame_width: Optional[int] = None
    frame_height: Optional[int] = None
    macro_id: int = 0
    overlay: Optional[int] = None


@dataclass
class Plotter:
    """The HP-GL/2 state: as after IN."""
    pen: int = 0
    is_down: bool = False
    x: int = 0                                 # from the frame's origin, upwards for y
    y: int = 0
    is_absolute: bool = True
    width: int = 35 * MILLIMETRE // 100


@dataclass
class Raster:
    """A started raster: its left edge and the rows and skips so far."""
    left: int
    rows: int = 0


@dataclass
class State:
    settings: Settings
    plotter: Plotter = field(default_factory=Plotter)
    x: int = 0
    y: Optional[int] = None                    # None: home
    stack: List[Tuple[int, int]] = field(default_factory=list)
    is_marked: bool = False
    raster: Optional[Raster] = None
    in_frame: bool = False


@dataclass(frozen=True)
class Level:
    """Where an item is carried out: by the job, or in a macro."""
    depth: int = 0                             # 0: by the job itself
    in_overlay: bool = False
    in_call: bool = False                      # in a call or an overlay, also deeper


def default_settings(panel: Dict[str, int]) -> Settings:
    values = {name: panel[name] for name in FIELDS if name not in ("Vmi", "Font")}
    return Settings(values=values, vmi=scaled(VMI_UNIT, panel["Vmi"]), font={})


def font_request(profile: Profile, panel: Dict[str, int], settings: Settings) -> FontRequest:
    """The parts that the job has set, the others those of the panel's font."""
    base = profile.faces[panel["Font"]].request
    parts = {part: getattr(base, part) for part in FONT_PARTS}
    parts.update(settings.font)
    return FontRequest(**parts)
