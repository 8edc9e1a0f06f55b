"""A printer's profile text: its rows, or its first fault with line and cause."""

import re
from dataclasses import dataclass, field, fields
from typing import Dict, List, Optional, Tuple

from commands import FIELDS, ONE
from items import spell_signed, spell_size

LONGEST_TEXT = 65536
LARGEST_LENGTH = 720000
MOST_ROWS = 64
MOST_VALUES = 16

LIST_KEYS = {key: (name, least, most) for name, (key, least, most) in FIELDS.items()}
LIST_KEYS["trays"] = ("trays", 1, 255)
NUMBER_KEYS = {"duplex": 1, "depth": 8, "memory": 1048576}
ROW_KEYS = ("geometry", "face")


class ProfileFault(Exception):
    def __init__(self, line: int, cause: str):
        super().__init__(f"{line} {cause}")
        self.line = line
        self.cause = cause


@dataclass(frozen=True)
class Geometry:
    """Lengths in 1/7200 inch: page, logical page, printable area."""
    page_width: int
    page_height: int
    lx: int
    ly: int
    lw: int
    lh: int
    left: int
    top: int
    right: int
    bottom: int


@dataclass(frozen=True)
class FontRequest:
    """The seven parts; values in ten-thousandths."""
    symbol_set: Tuple[int, str]
    spacing: int
    pitch: int
    height: int
    style: int
    weight: int
    typeface: int

    def commands(self) -> str:
        """The commands that ask for it."""
        number, letter = self.symbol_set
        return (f"ESC ({spell_size(number)}{letter} ESC (s{spell_size(self.spacing)}p"
                f"{spell_size(self.pitch)}h{spell_size(self.height)}v{spell_size(self.style)}s"
                f"{spell_signed(self.weight)}b{spell_size(self.typeface)}T")


@dataclass(frozen=True)
class Face:
    request: FontRequest
    advance: int
    ascent: int
    descent: int
    codes: frozenset

    def words(self) -> str:
        parts = self.request
        number, letter = parts.symbol_set
        return " ".join([spell_size(number) + letter, spell_size(parts.pitch),
                         spell_size(parts.height), spell_size(parts.style),
                         spell_signed(parts.weight), spell_size(parts.typeface)])


@dataclass
class Profile:
    allowed: Dict[str, List[int]] = field(default_factory=dict)
    trays: List[int] = field(default_factory=list)
    duplex: int = 0
    depth: int = 0
    memory: int = 0
    geometries: Dict[Tuple[int, int], Geometry] = field(default_factory=dict)
    faces: Dict[int, Face] = field(default_factory=dict)

    def sizes(self):
        return {size for size, _ in self.geometries}

    def orientations(self):
        return {orientation for _, orientation in self.geometries}

    def find_face(self, request: FontRequest) -> Optional[Face]:
        for face in self.faces.values():
            if face.request == request:
                return face
        return None

    def nearest_face(self, request: FontRequest) -> Optional[Face]:
        """The face that meets most parts of a request, of several such the first."""
        parts = [part.name for part in fields(FontRequest)]
        return max(self.faces.values(), default=None, key=lambda face: sum(
            getattr(face.request, part) == getattr(request, part) for part in parts))

    def first_panel(self) -> Dict[str, int]:
        return {name: self.allowed[name][0] for name in FIELDS}


def whole_number(word: bytes) -> Optional[int]:
    """1 to 16 digits."""
    return int(word) if re.fullmatch(rb"[0-9]{1,16}", word) else None


def decimal_number(word: bytes) -> Optional[int]:
    """1 to 16 digits, perhaps a point and one to four digits; in ten-thousandths."""
    if not re.fullmatch(rb"[0-9]{1,16}(?:\.[0-9]{1,4})?", word):
        return None
    head, _, tail = word.partition(b".")
    return int(head) * ONE + int((tail + b"0000")[:4])


def weight_number(word: bytes) -> Optional[int]:
    minus = word.startswith(b"-")
    value = whole_number(word[1:] if minus else word)
    if value is None:
        return None
    return -value if minus else value


def symbol_set(word: bytes) -> Optional[Tuple[int, str]]:
    number, letter = whole_number(word[:-1]), word[-1:]
    if number is None or not re.fullmatch(rb"[A-WYZ]", letter):
        return None
    return number, letter.decode()


def code_set(word: bytes) -> Optional[frozenset]:
    """Ranges `a-b` parted by commas, 33 to 255, each after the end of the one before."""
    codes = set()
    last = 32
    for part in word.split(b","):
        ends = [whole_number(end) for end in part.split(b"-")]
        if len(ends) != 2 or None in ends:
            return None
        low, high = ends
        if not (last < low <= high <= 255):
            return None
        codes.update(range(low, high + 1))
        last = high
    return frozenset(codes)


def within(value: Optional[int], low: int, high: int) -> bool:
    return value is not None and low <= value <= high


def request_of(words: List[bytes]) -> Optional[FontRequest]:
    """The seven parts of the words symbol set to typeface, where all have their shape."""
    if len(words) < 6:
        return None
    parts = (symbol_set(words[0]), decimal_number(words[1]), decimal_number(words[2]),
             whole_number(words[3]), weight_number(words[4]), whole_number(words[5]))
    if None in parts:
        return None
    (number, letter), pitch, height, style, weight, typeface = parts
    return FontRequest((number * ONE, letter), 0, pitch, height, style * ONE, weight * ONE,
                       typeface * ONE)


class Reader:
    """Reads the lines after the first one, each judged by Unknown, Repeated, Range."""

    def __init__(self, version: int):
        self.version = version
        self.profile = Profile()
        self.seen = set()

    def read_line(self, number: int, words: List[bytes]) -> None:
        key = words[0].decode("latin-1")
        known = set(LIST_KEYS) | set(NUMBER_KEYS) | set(ROW_KEYS) | {"name"}
        if self.version == 1:
            known.discard("lineterm")
        if key not in known:
            raise ProfileFault(number, "Unknown")
        if key in self.seen and key not in ROW_KEYS:
            raise ProfileFault(number, "Repeated")
        self.seen.add(key)
        rest = words[1:]
        if key in LIST_KEYS:
            repeated, right = self.read_list(key, rest)
        elif key == "geometry":
            repeated, right = self.read_geometry(rest)
        elif key == "face":
            repeated, right = self.read_face(rest)
        else:
            repeated, right = False, self.read_single(key, rest)
        if repeated:
            raise ProfileFault(number, "Repeated")
        if not right:
            raise ProfileFault(number, "Range")

    def read_list(self, key: str, words: List[bytes]) -> Tuple[bool, bool]:
        """Is a value there twice, and is the line right?"""
        name, low, high = LIST_KEYS[key]
        scale = ONE if key == "vmi" else 1
        reader = decimal_number if key == "vmi" else whole_number
        values = [reader(word) for word in words]
        shaped = [value for value in values if value is not None]
        repeated = len(set(shaped)) < len(shaped)
        right = 1 <= len(values) <= MOST_VALUES and all(
            within(value, low * scale, high * scale) for value in values)
        if right and key == "trays":
            self.profile.trays = shaped
        elif right:
            self.profile.allowed[name] = shaped
        return repeated, right

    def read_single(self, key: str, words: List[bytes]) -> bool:
        if len(words) != 1:
            return False
        if key == "name":
            return re.fullmatch(rb"[!-~]{1,32}", words[0]) is not None
        value = whole_number(words[0])
        if not within(value, 0, NUMBER_KEYS[key]):
            return False
        setattr(self.profile, key, value)
        return True

    def read_geometry(self, words: List[bytes]) -> Tuple[bool, bool]:
        rows = self.profile.geometries
        values = [whole_number(word) for word in words]
        if tuple(values[:2]) in rows:
            return True, False
        if len(values) != 12 or None in values or len(rows) == MOST_ROWS:
            return False, False
        size, orientation, *lengths = values
        row = Geometry(*lengths)
        right = (
            1 <= size <= 999 and orientation <= 3
            and all(length <= LARGEST_LENGTH for length in lengths)
            and row.lx + row.lw <= row.page_width and row.ly + row.lh <= row.page_height
            and row.left < row.right <= row.page_width
            and row.top < row.bottom <= row.page_height
            and row.lh >= 7200)
        rows[size, orientation] = row
        return False, right

    def read_face(self, words: List[bytes]) -> Tuple[bool, bool]:
        faces = self.profile.faces
        face_id = whole_number(words[0]) if words else None
        request = request_of(words[1:7])
        if face_id in faces or (request and self.profile.find_face(request)):
            return True, False
        if len(words) != 11 or request is None or len(faces) == MOST_ROWS:
            return False, False
        advance, ascent, descent = [whole_number(word) for word in words[7:10]]
        codes = code_set(words[10])
        large = 65535 * ONE
        right = (
            within(face_id, 1, 255) and codes is not None
            and request.symbol_set[0] <= large and request.pitch <= large
            and request.height <= large and request.style <= large
            and abs(request.weight) <= 7 * ONE and request.typeface <= large
            and within(advance, 1, 50400) and within(ascent, 0, LARGEST_LENGTH)
            and within(descent, 0, LARGEST_LENGTH))
        faces[face_id] = Face(request, advance, ascent, descent, codes)
        return False, right

    def judge_whole(self) -> None:
        """The faults with line 0, in their order."""
        profile = self.profile
        due = set(LIST_KEYS) | set(NUMBER_KEYS) | set(ROW_KEYS) | {"name"}
        if self.version == 1:
            due.discard("lineterm")
            profile.allowed["LineTerm"] = [0]
        if not due <= self.seen:
            raise ProfileFault(0, "Missing")
        sizes, orientations = profile.sizes(), profile.orientations()
        complete = all((size, orientation) in profile.geometries
                       for size in sizes for orientation in orientations)
        if not (complete and set(profile.allowed["Size"]) <= sizes
                and set(profile.allowed["Orientation"]) <= orientations):
            raise ProfileFault(0, "NoGeometry")
        if not (set(profile.allowed["Font"]) <= set(profile.faces)
                and set(profile.allowed["Tray"]) <= set(profile.trays)
                and (profile.duplex or profile.allowed["Sides"] == [0])):
            raise ProfileFault(0, "Range")


def words_of(line: bytes) -> List[bytes]:
    return [word for word in line.split(b" ") if word]


def read_profile(text: bytes) -> Profile:
    if len(text) > LONGEST_TEXT:
        raise ProfileFault(0, "Range")
    pieces = text.split(b"\n")
    lines = [piece[:-1] if piece.endswith(b"\r") else piece for piece in pieces[:-1]]
    lines.append(pieces[-1])
    first = words_of(lines[0])
    if first not in ([b"pclprofile", b"1"], [b"pclprofile", b"2"]):
        raise ProfileFault(1, "Version")
    reader = Reader(int(first[1]))
    for number, line in enumerate(lines[1:], start=2):
        words = words_of(line)
        if words and not line.startswith(b"#"):
            reader.read_line(number, words)
    reader.judge_whole()
    return reader.profile
