"""Items: the commands of a job after lexing, and their one canonical spelling.

An item is named by its command without the value: `&lA`, `*cP`, `(sB`, `%B`.
Other names: `E`, `9`, `=` (two-byte escape sequences), `(set` (a symbol set),
`(3@` (default font), `UEL`, `CR`, `LF`, `FF`, `Text`, `PJL`, and the two capitals
of a frame command.
"""

from dataclasses import dataclass
from typing import Optional, Tuple

ESC = b"\x1b"
ONE = 10000                     # a value of 1, in ten-thousandths

PCL, FRAME, PJL = "PCL", "Frame", "Pjl"


@dataclass(frozen=True)
class Number:
    """A value: its sign as written ('', '+' or '-') and its size in ten-thousandths."""
    sign: str
    size: int

    @property
    def signed(self) -> int:
        return -self.size if self.sign == "-" else self.size

    @property
    def is_negative(self) -> bool:
        return self.sign == "-" and self.size != 0


@dataclass(frozen=True)
class Item:
    name: str
    number: Optional[Number] = None
    letter: str = ""                          # of a symbol set
    data: bytes = b""                         # raster or transparent data; one text byte
    pair: Optional[Tuple[int, int]] = None    # of PU, PD, PA, PR
    word: str = ""                            # of a PJL line
    text: bytes = b""                         # of a PJL line


@dataclass(frozen=True)
class Fault:
    """What the lexer cannot read: number 1 to 6, its name with brackets, its place."""
    place: int
    number: int
    name: str


def spell_size(size: int) -> str:
    """A size in ten-thousandths: whole part, then decimals without trailing zeros."""
    whole, part = divmod(size, ONE)
    if part == 0:
        return str(whole)
    return f"{whole}." + f"{part:04d}".rstrip("0")


def spell_signed(value: int) -> str:
    return ("-" if value < 0 else "") + spell_size(abs(value))


def spell_number(number: Number) -> str:
    return number.sign + spell_size(number.size)


CONTROL_SPELLING = {"CR": b"\r", "LF": b"\n", "FF": b"\x0c"}
DATA_COMMANDS = ("*bW", "&pX")


def spell_frame_item(item: Item) -> bytes:
    if item.name in ("SP", "PW"):
        return f"{item.name}{spell_size(item.number.size)};".encode()
    if item.pair is not None:
        return f"{item.name}{item.pair[0]},{item.pair[1]};".encode()
    return f"{item.name};".encode()


def canon(item: Item) -> bytes:
    """The canonical spelling: one command a sequence, ended by its capital letter."""
    name = item.name
    if name == "Text":
        return item.data
    if name in CONTROL_SPELLING:
        return CONTROL_SPELLING[name]
    if name in ("E", "9", "="):
        return ESC + name.encode()
    if name == "UEL":
        return ESC + b"%-12345X"
    if name == "PJL":
        parts = [b"@PJL", item.word.encode(), item.text]
        return b" ".join(part for part in parts if part) + b"\n"
    if name == "(3@":
        return ESC + b"(3@"
    if name == "(set":
        return ESC + f"({spell_number(item.number)}{item.letter}".encode()
    if name in ("%A", "%B"):
        return ESC + f"%{spell_size(item.number.size)}{name[1]}".encode()
    if name in DATA_COMMANDS:
        return ESC + f"{name[:2]}{len(item.data)}{name[2]}".encode() + item.data
    if name[0] in "&*(":
        return ESC + f"{name[:2]}{spell_number(item.number)}{name[2]}".encode()
    return spell_frame_item(item)
