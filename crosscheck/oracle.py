"""The answers that the program owes, from whole jobs and whole profile texts."""

from dataclasses import dataclass, field
from typing import Dict, List, Optional, Tuple

from items import ONE, Item, canon, spell_signed, spell_size
from lexer import Lexed, lex
from machine import Machine
from printer_profile import FontRequest, Profile, ProfileFault, read_profile
from state import Finding

PASS, FAILED, BAD_WORDS = 0, 1, 2


@dataclass
class Answer:
    status: int
    output: bytes = b""
    errors: List[str] = field(default_factory=list)
    written: Optional[bytes] = None           # what OUT holds; None: it is not made


def fail_line(place: int, profile: int, finding) -> bytes:
    return f"FAIL at={place} profile={profile} {finding}\n".encode()


def fault_line(lexed: Lexed) -> bytes:
    fault = lexed.fault
    return fail_line(fault.place, 0, f"{fault.number} {fault.name}")


def read_profiles(texts: List[bytes]) -> Tuple[List[Profile], Optional[Answer]]:
    profiles = []
    for number, text in enumerate(texts, start=1):
        try:
            profiles.append(read_profile(text))
        except ProfileFault as fault:
            error = f"ERROR profile {number} {fault.line} {fault.cause}"
            return profiles, Answer(BAD_WORDS, errors=[error])
    return profiles, None


def ended(events) -> int:
    """How many pages end by events."""
    return sum(1 for line, _ in events if line is None)


# Items that are more than one step on the page: these may close it, run macros, print data of
# several characters or move the pen.
MANY_STEPS = ("CR", "LF", "FF", "=", "E", "UEL", "&lS", "&lH", "&lA", "&lO", "&fX", "&pX",
              "PU", "PD", "PA", "PR")
HUNDREDTH_MILLIMETRE = 14_400_000


def millimetres(ticks: int) -> str:
    """A length, rounded down to hundredths."""
    hundredths = ticks // HUNDREDTH_MILLIMETRE
    whole, part = divmod(abs(hundredths), 100)
    return ("-" if hundredths < 0 else "") + (f"{whole}.{part:02d}" if part else str(whole))


@dataclass(frozen=True)
class Place:
    """Where a job fails: the page, and what was known before an item that is one step."""
    page: int = 0
    spot: Optional[Tuple[int, int]] = None       # of the cursor, in ticks on the sheet
    fonts: Tuple[str, ...] = ()                  # the font that is missing, and the nearest face
    character: str = ""                          # that the face lacks

    def phrase(self) -> str:
        """What stands behind the byte in a sentence."""
        if self.spot is None:
            return f" on page {self.page}"
        x, y = map(millimetres, self.spot)
        return f" on page {self.page}, {x} mm from the left and {y} mm from the top"

    def lacked(self) -> str:
        """What stands behind the words on what is wrong: the missing font, or the character."""
        if self.fonts:
            return ", " + "; the nearest is ".join(self.fonts)
        return self.character and " " + self.character

    def members(self) -> Dict[str, object]:
        """What an object has of it."""
        found = {"page": self.page, **dict(zip(("asked", "nearest"), self.fonts))}
        if self.character:
            found["character"] = self.character
        if self.spot is not None:
            found.update(zip(("x_mm", "y_mm"), map(millimetres, self.spot)))
        return found


class Fleet:
    """All printers in step: each item goes through every one before the next item.

    Where one has a finding, its pages are counted up to that, and its place is kept.
    """

    def __init__(self, profiles: List[Profile]):
        self.machines = [Machine(profile, profile.first_panel(), watched=True)
                         for profile in profiles]
        self.pages = 0
        self.marks = 0
        self.spot: Optional[Tuple[int, int]] = None
        self.fonts: Tuple[str, ...] = ()
        self.character = ""

    def step(self, item: Optional[Item]) -> Optional[Tuple[int, Finding]]:
        """One item, None for the end; the finding with its profile, if there is one."""
        for number, machine in enumerate(self.machines, start=1):
            machine.events = []
            spot, font = machine.known_spot(), machine.known_font()
            try:
                machine.finish() if item is None else machine.step(item)
            except Finding as finding:
                self.pages += ended(machine.events)
                if finding.number == 14:
                    self.character = shown(bytes([finding.code])).decode()
                if item is not None and item.name not in MANY_STEPS:
                    self.spot = spot
                    self.fonts = fonts(machine.profile, font) if finding.number == 13 else ()
                return number, finding
        events = self.machines[0].events
        for number, machine in enumerate(self.machines, start=1):
            if machine.events != events:
                return number, Finding(33)
        self.pages += ended(events)
        self.marks += len(events) - ended(events)
        return None


def fonts(profile: Profile, asked: Optional[FontRequest]) -> Tuple[str, ...]:
    """The commands that ask for a font and for the nearest face."""
    if asked is None:
        return ()
    nearest = profile.nearest_face(asked)
    return (asked.commands(),) + ((nearest.request.commands(),) if nearest else ())


def checked(fleet: Fleet, job: bytes) -> Optional[bytes]:
    """Executes a job; the line of its failure, if it has one."""
    lexed = lex(job)
    steps: List[Tuple[int, Optional[Item]]] = list(lexed.items)
    if lexed.fault is None:
        steps.append((len(job), None))
    for place, item in steps:
        found = fleet.step(item)
        if found:
            return fail_line(place, *found)
    return fault_line(lexed) if lexed.fault else None


def check(texts: List[bytes], job: bytes) -> Answer:
    profiles, error = read_profiles(texts)
    if error:
        return error
    fleet = Fleet(profiles)
    failure = checked(fleet, job)
    if failure:
        return Answer(FAILED, failure)
    return Answer(PASS, f"PASS pages={fleet.pages} marks={fleet.marks}\n".encode())


def failing_place(texts: List[bytes], job: bytes) -> Place:
    """Where a job fails for printers of these texts."""
    fleet = Fleet([read_profile(text) for text in texts])
    checked(fleet, job)
    return Place(fleet.pages + 1, fleet.spot, fleet.fonts, fleet.character)


def shown(data: bytes) -> bytes:
    """Bytes outside 33 to 126, and the backslash, as \\x and two hexadecimal digits."""
    return "".join(chr(byte) if 33 <= byte <= 126 and byte != 92 else f"\\x{byte:02x}"
                   for byte in data).encode()


def list_job(job: bytes) -> Answer:
    lexed = lex(job)
    lines = [b"%d %s\n" % (place, shown(canon(item))) for place, item in lexed.items]
    fault = lexed.fault
    if fault:
        lines.append(f"{fault.place} FAULT {fault.number} {fault.name}\n".encode())
    return Answer(FAILED if fault else PASS, b"".join(lines))


def plain_job(job: bytes) -> Answer:
    lexed = lex(job)
    written = b"".join(canon(item) for _, item in lexed.items)
    if lexed.fault:
        return Answer(FAILED, fault_line(lexed), written=written)
    return Answer(PASS, written=written)


def pages_at(profile: Profile, panel: Dict[str, int], job: bytes) -> Answer:
    """The text of the pages from one given panel; no field is watched."""
    lexed = lex(job)
    machine = Machine(profile, panel, watched=False)
    last = b""
    for place, item in lexed.items + ([] if lexed.fault else [(len(job), None)]):
        try:
            machine.finish() if item is None else machine.step(item)
        except Finding as finding:
            last = fail_line(place, 1, finding)
            break
    else:
        if lexed.fault:
            last = fault_line(lexed)
    return Answer(FAILED if last else PASS, events_text(machine.events) + last)


def events_text(events) -> bytes:
    lines = []
    page = 0
    for line, values in events:
        if line is None:
            page += 1
            size, orientation, copies, sides, tray = values
            line = (f"page {page} size={size} orientation={orientation} sides={sides} "
                    f"tray={tray} copies={copies}")
        lines.append(line + "\n")
    return "".join(lines).encode()


def pages(text: bytes, job: bytes) -> Answer:
    profiles, error = read_profiles([text])
    if error:
        return error
    return pages_at(profiles[0], profiles[0].first_panel(), job)


def vmi_command(panel: Dict[str, int]) -> bytes:
    return b"\x1b&l" + spell_size(panel["Vmi"]).encode() + b"C"


def prologue(profile: Profile, panel: Dict[str, int]) -> bytes:
    """Sets every panel field, in one fixed order."""
    font = profile.faces[panel["Font"]].request
    number, letter = font.symbol_set
    commands = [
        f"&l{panel['Size']}A", f"&l{panel['Orientation']}O", f"&l{panel['Copies']}X",
        f"&l{panel['Sides']}S", f"&l{panel['Tray']}H", f"&l{spell_size(panel['Vmi'])}C",
        f"({spell_size(number)}{letter}", "(s0P", f"(s{spell_size(font.pitch)}H",
        f"(s{spell_size(font.height)}V", f"(s{spell_size(font.style)}S",
        f"(s{spell_signed(font.weight)}B", f"(s{spell_size(font.typeface)}T",
        f"&k{panel['LineTerm']}G",
    ]
    return b"".join(b"\x1b" + command.encode() for command in commands)


def is_unpinnable(item: Item) -> bool:
    if item.name == "(3@":
        return True
    return item.name == "&fX" and item.number.signed == 4 * ONE


def pin_at(profile: Profile, panel: Dict[str, int], job: bytes) -> Answer:
    lexed = lex(job)
    written = b""
    is_due = True
    for place, item in lexed.items:
        if is_unpinnable(item):
            return Answer(FAILED, fail_line(place, 1, Finding(35)), written=written)
        if item.name in ("E", "UEL"):
            is_due = True
        elif item.name != "PJL" and is_due:
            written += prologue(profile, panel)
            is_due = False
        written += canon(item)
        if item.name == "&lO":
            written += vmi_command(panel)
    if lexed.fault:
        return Answer(FAILED, fault_line(lexed), written=written)
    return Answer(PASS, written=written)


def pin(text: bytes, job: bytes, named: Optional[Dict[str, int]] = None) -> Answer:
    """Pins to the first listed panel, but for the fields that are named."""
    profiles, error = read_profiles([text])
    if error:
        return error
    panel = {**profiles[0].first_panel(), **(named or {})}
    return pin_at(profiles[0], panel, job)
