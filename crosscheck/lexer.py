"""A lexer over a whole job: its items with their places, and the fault that stops it.

It reads the bytes as one list; nothing here knows of pieces. The place of an item is
the number of bytes before its own first byte: ESC for the first command of an escape
sequence, the value field (or the letter, where the field is empty) for a later one.
"""

import re
from dataclasses import dataclass, field
from typing import List, Optional, Tuple

from commands import GROUPS
from items import DATA_COMMANDS, FRAME, ONE, PCL, PJL, Fault, Item, Number

BLANKS = b"\t\r "
FRAME_SPACE = b"\t\n\r "
NUMBER_SHAPE = re.compile(rb"[+-]?[0-9]*(?:\.[0-9]*)?")
LONGEST_NUMBER = 16
LARGEST_VALUE = 65535
LARGEST_DATA = 32767
LARGEST_COORDINATE = 8388607
LONGEST_PJL_LINE = 1024

NAMES = {1: "Syntax", 2: "Truncated", 4: "BadNumber", 5: "Pjl", 6: "EndInFrame"}


class Stopped(Exception):
    """Raised where the lexer stops; holds the fault."""

    def __init__(self, place: int, number: int, name: str = ""):
        super().__init__(number)
        shown = f"NotInProfile({name})" if number == 3 else NAMES[number]
        self.fault = Fault(place, number, shown)


@dataclass
class Lexed:
    items: List[Tuple[int, Item]] = field(default_factory=list)
    fault: Optional[Fault] = None
    mode: str = PCL


def byte_name(byte: int) -> str:
    return chr(byte) if 33 <= byte <= 126 else f"x{byte:02x}"


def is_letter(byte: int) -> bool:
    return 65 <= byte <= 90 or 97 <= byte <= 122


def split_number(text: bytes) -> Tuple[str, str, str]:
    """Sign, digits before the point, digits after it."""
    sign = text[:1].decode() if text[:1] in (b"+", b"-") else ""
    whole, _, part = text[len(sign):].decode().partition(".")
    return sign, whole, part


def value_of(text: bytes) -> Optional[Number]:
    """A value field's Number, or None past its limits: 65535 and four decimals."""
    sign, whole, part = split_number(text)
    if part[4:].strip("0"):
        return None
    size = int(whole or "0") * ONE + int((part[:4] + "0000")[:4])
    return None if size > LARGEST_VALUE * ONE else Number(sign, size)


def coordinate_of(text: bytes) -> Optional[int]:
    """A coordinate, or None where it is not whole or too large."""
    sign, whole, part = split_number(text)
    if part.strip("0"):
        return None
    value = int(whole or "0")
    if value > LARGEST_COORDINATE:
        return None
    return -value if sign == "-" else value


def pjl_item(line: bytes) -> Optional[Item]:
    """The item of a PJL line (without its LF), or None where it is none that is known."""
    blank = rb"[\t\r ]"
    part = rb'%s+(?:%%s)%s*=%s*"[^"]*"' % (blank, blank, blank)
    shapes = {
        "COMMENT": rb"(?:%s.*)?" % blank,
        "JOB": rb"(?:%s)*%s*" % (part % rb"NAME|DISPLAY", blank),
        "EOJ": rb"(?:%s)?%s*" % (part % rb"NAME", blank),
        "ENTER": rb"%s+LANGUAGE%s*=%s*PCL%s*" % (blank, blank, blank, blank),
    }
    if not line.startswith(b"@PJL"):
        return None
    rest = line[4:]
    if not rest.strip(BLANKS):
        return Item("PJL")
    if rest[:1] not in (b"\t", b"\r", b" "):
        return None
    rest = rest.lstrip(BLANKS)
    for word, shape in shapes.items():
        head, tail = rest[:len(word)], rest[len(word):]
        if head.upper() != word.encode():
            continue
        if not re.fullmatch(shape, tail, re.IGNORECASE | re.DOTALL):
            return None
        text = b"LANGUAGE=PCL" if word == "ENTER" else tail.strip(BLANKS)
        return Item("PJL", word=word, text=text)
    return None


class Lexer:
    def __init__(self, job: bytes, mode: str = PCL):
        self.job = job
        self.at = 0
        self.lexed = Lexed(mode=mode)

    def run(self) -> Lexed:
        readers = {PCL: self.read_pcl, PJL: self.read_pjl, FRAME: self.read_frame}
        try:
            while self.at < len(self.job):
                readers[self.lexed.mode]()
            if self.lexed.mode == FRAME:
                raise Stopped(len(self.job), 6)
        except Stopped as stopped:
            self.lexed.fault = stopped.fault
        return self.lexed

    def give(self, place: int, item: Item) -> None:
        self.lexed.items.append((place, item))

    def peek(self) -> Optional[int]:
        return self.job[self.at] if self.at < len(self.job) else None

    def take(self, place: int) -> int:
        """The next byte; where there is none, the item at the place is not whole."""
        byte = self.peek()
        if byte is None:
            raise Stopped(place, 2)
        self.at += 1
        return byte

    # Mode PCL

    def read_pcl(self) -> None:
        place = self.at
        byte = self.take(place)
        if byte >= 32:
            self.give(place, Item("Text", data=bytes([byte])))
        elif byte in (13, 10, 12):
            self.give(place, Item({13: "CR", 10: "LF", 12: "FF"}[byte]))
        elif byte == 27:
            self.read_escape(place)
        else:
            raise Stopped(place, 3, byte_name(byte))

    def read_escape(self, place: int) -> None:
        byte = self.take(place)
        if byte in b"E9=":
            self.give(place, Item(chr(byte)))
        elif byte in b"&*":
            group = self.take(place)
            if not 96 <= group <= 126:
                raise Stopped(place, 1)
            self.read_group(place, chr(byte) + chr(group))
        elif byte == ord("("):
            group = self.peek()
            if group is not None and 96 <= group <= 126:
                self.at += 1
                self.read_group(place, "(" + chr(group))
            else:
                self.read_font_set(place)
        elif byte == ord("%"):
            self.read_percent(place)
        elif 33 <= byte <= 126:
            raise Stopped(place, 3, byte_name(byte))
        else:
            raise Stopped(place, 1)

    def read_field(self, place: int) -> Tuple[bytes, Number]:
        """A value field and the judgement of its limits, which needs the byte after it."""
        text = NUMBER_SHAPE.match(self.job, self.at).group()
        if len(text) > LONGEST_NUMBER:
            raise Stopped(place, 4)
        self.at += len(text)
        if self.at == len(self.job):
            raise Stopped(place, 2)
        number = value_of(text)
        if number is None:
            raise Stopped(place, 4)
        return text, number

    def read_group(self, place: int, group: str) -> None:
        """The commands of one escape sequence with a group character."""
        if group not in GROUPS:
            raise Stopped(place, 3, group)
        while True:
            _, number = self.read_field(place)
            byte = self.take(place)
            if not (64 <= byte <= 94 or 96 <= byte <= 126):
                raise Stopped(place, 1)
            goes_on = byte >= 96
            letter = chr(byte - 32 if goes_on else byte)
            name = group + letter
            if letter not in GROUPS[group]:
                raise Stopped(place, 3, name)
            if name in DATA_COMMANDS:
                self.read_data(place, name, number, goes_on)
                return
            self.give(place, Item(name, number))
            if not goes_on:
                return
            place = self.at

    def read_data(self, place: int, name: str, number: Number, goes_on: bool) -> None:
        if goes_on:
            raise Stopped(place, 1)
        count, part = divmod(number.size, ONE)
        if part or number.is_negative or count > LARGEST_DATA:
            raise Stopped(place, 4)
        data = self.job[self.at:self.at + count]
        if len(data) < count:
            raise Stopped(place, 2)
        self.at += count
        self.give(place, Item(name, data=data))

    def read_font_set(self, place: int) -> None:
        _, number = self.read_field(place)
        byte = self.take(place)
        if not 64 <= byte <= 94:
            raise Stopped(place, 1)
        letter = chr(byte)
        if letter == "@" and number.signed == 3 * ONE:
            self.give(place, Item("(3@"))
        elif letter.isalpha() and letter != "X":
            self.give(place, Item("(set", number, letter))
        else:
            raise Stopped(place, 3, "(" + letter)

    def read_percent(self, place: int) -> None:
        in_frame = self.lexed.mode == FRAME
        text, number = self.read_field(place)
        byte = self.take(place)
        if not 64 <= byte <= 94:
            raise Stopped(place, 1)
        letter = chr(byte)
        if letter == "X" and text == b"-12345":
            self.give(place, Item("UEL"))
            self.lexed.mode = PJL
        elif letter in ("A" if in_frame else "AB") and number.signed in (0, ONE):
            self.give(place, Item("%" + letter, Number("", number.size)))
            self.lexed.mode = FRAME if letter == "B" else PCL
        else:
            raise Stopped(place, 3, "%" + letter)

    # Mode Pjl

    def read_pjl(self) -> None:
        if self.peek() != ord("@"):
            self.lexed.mode = PCL
            return
        place = self.at
        line = self.job[place:place + LONGEST_PJL_LINE]
        end = line.find(b"\n")
        if end < 0:
            raise Stopped(place, 5 if len(line) == LONGEST_PJL_LINE else 2)
        item = pjl_item(line[:end])
        if item is None:
            raise Stopped(place, 5)
        self.at += end + 1
        self.give(place, item)
        if item.word == "ENTER":
            self.lexed.mode = PCL

    # Mode Frame

    def skip_space(self) -> None:
        while self.at < len(self.job) and self.job[self.at] in FRAME_SPACE:
            self.at += 1

    def read_frame(self) -> None:
        place = self.at
        byte = self.take(place)
        if byte in FRAME_SPACE or byte == ord(";"):
            return
        if byte == 27:
            self.read_frame_escape(place)
        elif is_letter(byte):
            second = self.take(place)
            if not is_letter(second):
                raise Stopped(place, 1)
            self.read_frame_command(place, (chr(byte) + chr(second)).upper())
        else:
            raise Stopped(place, 1)

    def read_frame_escape(self, place: int) -> None:
        byte = self.take(place)
        if byte == ord("E"):
            self.give(place, Item("E"))
            self.lexed.mode = PCL
        elif byte == ord("%"):
            self.read_percent(place)
        else:
            raise Stopped(place, 3, byte_name(byte))

    def read_frame_command(self, place: int, name: str) -> None:
        if name == "IN":
            self.read_numbers(place, 0, None)
            self.give(place, Item(name))
        elif name in ("SP", "PW"):
            found = self.read_numbers(place, 1, self.pen_value)
            default = Number("", 0 if name == "SP" else 3500)
            self.give(place, Item(name, found[0] if found else default))
        elif name in ("PU", "PD", "PA", "PR"):
            self.read_pairs(place, name)
        else:
            raise Stopped(place, 3, name)

    @staticmethod
    def pen_value(text: bytes) -> Optional[Number]:
        number = value_of(text)
        if number is None or number.is_negative:
            return None
        return Number("", number.size)

    def next_begins_number(self) -> bool:
        byte = self.peek()
        return byte is not None and byte in b"0123456789+-."

    def command_ends(self) -> bool:
        byte = self.peek()
        return byte is None or byte in b";\x1b" or is_letter(byte)

    def between_numbers(self, after_number: bool) -> Tuple[bool, bool]:
        """Skips white space and one comma: was there a comma, does a number follow?

        Straight after a number only a sign begins the next one.
        """
        start = self.at
        self.skip_space()
        comma = after_number and self.peek() == ord(",")
        if comma:
            self.at += 1
            self.skip_space()
        follows = self.next_begins_number()
        if follows and after_number and self.at == start and self.peek() == ord("."):
            follows = False
        return comma, follows

    def frame_number(self, place: int, judge):
        """One number of a frame command, its limits judged at the byte after it."""
        text = NUMBER_SHAPE.match(self.job, self.at).group()
        if len(text) > LONGEST_NUMBER:
            raise Stopped(place, 4)
        self.at += len(text)
        ended = self.at == len(self.job)
        if not re.search(rb"[0-9]", text):
            raise Stopped(place, 2 if ended else 1)
        value = judge(text)
        if value is None:
            raise Stopped(place, 2 if ended else 4)
        return value

    def read_numbers(self, place: int, most: int, judge) -> list:
        """The numbers of a command that has no pairs; all faults stand at the command."""
        found = []
        while True:
            comma, follows = self.between_numbers(bool(found))
            if follows and len(found) == most:
                raise Stopped(place, 4)
            if follows:
                found.append(self.frame_number(place, judge))
            elif not self.command_ends():
                raise Stopped(place, 1)
            elif comma:
                raise Stopped(place, 2 if self.peek() is None else 1)
            else:
                return found

    def read_pairs(self, place: int, name: str) -> None:
        """Each pair is an item of its own; a later one stands at its first number."""
        first = None
        pairs = 0
        while True:
            comma, follows = self.between_numbers(first is not None or pairs > 0)
            if pairs and first is None:
                place = self.at
            if follows:
                value = self.frame_number(place, coordinate_of)
                if first is None:
                    first = value
                    continue
                self.give(place, Item(name, pair=(first, value)))
                pairs += 1
                first = None
            elif not self.command_ends():
                raise Stopped(place, 1)
            elif comma or first is not None:
                if self.peek() is None:
                    raise Stopped(place, 2)
                raise Stopped(place, 1 if comma else 4)
            else:
                break
        if not pairs:
            self.give(place, Item(name))


def lex(job: bytes, mode: str = PCL) -> Lexed:
    return Lexer(job, mode).run()
