"""Random jobs with their printers, from a seed: `random_case(seed, number)`.

Most jobs grow piece by piece: a piece that some printer would refuse is mostly left out,
and a field that is unset is mostly set first, so that jobs get far. Some are changed
afterwards in a few bytes, and some are strings of the characters that the grammar knows.
"""

import copy
import re
from dataclasses import dataclass, field
from random import Random
from typing import Dict, List, Optional, Tuple

import oracle
from commands import FIELDS
from edges import Edges
from examples import TABLES, profile_text, unescape
from items import FRAME, PCL, PJL, canon, spell_size
from lexer import lex
from printers import random_broken_fleet, random_fleet
from printer_profile import Profile, ProfileFault, read_profile
from snippets import ESC
from state import PAGE_FIELDS, Level, State, default_settings

# How often a piece that ends in a finding is kept, by the finding's number.
KEPT = {12: 0.1, 13: 0.06, 10: 0.03, 14: 0.03, 15: 0.05, 17: 0.05, 25: 0.04, 33: 0.05}
KEPT_ELSE = 0.2


@dataclass
class Case:
    printers: List[Tuple[str, bytes]]           # the word ('' for a file) and the text
    job: bytes = b""
    named: Dict[str, int] = field(default_factory=dict)   # fields of --panel

    def texts(self) -> List[bytes]:
        return [text for _, text in self.printers]


PIECES = (
    ("text", 10), ("transparent", 3), ("whole_font", 2), ("font_part", 2), ("move", 9),
    ("spot", 3), ("line_end", 6), ("stack", 3), ("margin", 4), ("spacing", 4),
    ("page_setting", 3), ("rectangle", 6), ("raster_set", 2), ("raster", 4),
    ("frame_setting", 2), ("frame", 4), ("macro", 5), ("reset", 1), ("wrapping", 1),
    ("line_edge", 2), ("text_edge", 2), ("glyph_edge", 1), ("rectangle_edge", 2),
    ("row_edge", 2), ("margin_run", 2), ("chain", 1), ("pen_edge", 2),
    ("in_transparent", 1), ("pen_outside", 1),
)
BODY_PIECES = tuple((name, weight) for name, weight in PIECES
                    if name not in ("reset", "wrapping", "macro", "chain")) + (("nested", 12),)
# A job with a theme has more of some pieces.
THEMES = (
    (), (), ("macro", "spot", "chain"), ("macro", "spot", "page_setting", "line_end"),
    ("frame", "frame_setting", "pen_edge"), ("raster", "raster_set", "move", "row_edge"),
    ("text", "margin", "line_end", "spacing", "text_edge", "in_transparent"),
    ("rectangle", "move", "rectangle_edge"), ("margin_run", "line_edge", "line_end"),
    ("page_setting", "reset", "wrapping", "line_end"),
)

PJL_LINES = (
    b'@PJL\n', b'@PJL \r\n', b'@PJL COMMENT\n', b'@PJL comment  a "b" \x1bE\n',
    b'@PJL JOB NAME="x"\n', b'@PJL JOB\n', b'@PJL job display = "a b" name="" \n',
    b'@PJL EOJ\r\n', b'@PJL EOJ NAME="x"\n', b'@PJL ENTER LANGUAGE=PCL\n',
    b'@PJL\tEnter\tlanguage = pcl\r\n', b'@PJL COMMENT ' + b"c" * 1010 + b"\n",
)
BAD_PJL_LINES = (
    b'@PJL SET COPIES=2\n', b'@pjl\n', b'@PJL JOB NAME=x\n', b'@PJL EOJ NAME="a" NAME="b"\n',
    b'@PJL ENTER LANGUAGE=PCLXL\n', b'@PJL COMMENT ' + b"c" * 1011 + b"\n", b'@PJLX\n',
    b'@PJL JOB NAME="a"DISPLAY="b"\n', b'@PJL ENTER LANGUAGE\n', b'@PJL COMMENT x', b'@',
)


def snapshot(machine):
    return (copy.deepcopy(machine.state), machine.level, dict(machine.macros),
            machine.open_id, list(machine.open_items))


def restore(machine, kept) -> None:
    (machine.state, machine.level, machine.macros, machine.open_id,
     machine.open_items) = kept


class JobMaker:
    def __init__(self, random: Random, profiles: List[Profile]):
        self.random = random
        self.fleet = oracle.Fleet(profiles)
        self.machine = self.fleet.machines[0]
        self.snippets = Edges(random, self.machine)
        self.mode = PCL
        self.in_body = False
        self.is_broken = False                  # a piece with a finding was kept
        self.theme = random.choice(THEMES)

    def chance(self, part: float) -> bool:
        return self.random.random() < part

    def run(self, piece: bytes):
        """Carries the piece out: None, a finding, or 'lexer'."""
        lexed = lex(piece, self.mode)
        if lexed.fault and lexed.fault.number != 6:
            return "lexer"
        for _, item in lexed.items:
            found = self.fleet.step(item)
            if found:
                return found[1]
        self.mode = lexed.mode
        return None

    def try_piece(self, piece: bytes) -> bytes:
        """The piece if all printers take it, with a setting before it where one is unset."""
        if self.is_broken:
            return piece
        before = b""
        for _ in range(4):
            kept = [snapshot(machine) for machine in self.fleet.machines]
            mode = self.mode
            found = self.run(piece)
            if found is None:
                return before + piece
            for machine, state in zip(self.fleet.machines, kept):
                restore(machine, state)
            self.mode = mode
            unset = getattr(found, "unset", "")
            if unset and not self.in_body and self.chance(0.03):
                self.is_broken = True
                return before + piece
            if not unset or mode == FRAME:
                break
            setting = self.snippets.setting_for(unset)
            if self.run(setting) is not None:
                break
            before += setting
        is_kept = found != "lexer" and self.chance(KEPT.get(found.number, KEPT_ELSE))
        if self.in_body:
            is_kept = is_kept and self.chance(0.5) and mode == lex(piece, mode).mode == PCL
        else:
            self.is_broken = is_kept
        return before + piece if is_kept else before

    def choose(self, pieces) -> bytes:
        names = [name for name, _ in pieces]
        weights = [weight * (6 if name in self.theme else 1) for name, weight in pieces]
        name = self.random.choices(names, weights)[0]
        if name in ("macro", "nested", "chain", "frame", "reset", "wrapping", "raster"):
            return getattr(self, name)()
        return self.try_piece(getattr(self.snippets, name)())

    def raster(self) -> bytes:
        job = self.try_piece(self.snippets.raster())
        for _ in range(self.random.choice([0, 1, 2, 4])):
            job += self.try_piece(self.snippets.raster_part())
        return job

    def reset(self) -> bytes:
        return self.try_piece(ESC + b"E")

    def wrapping(self) -> bytes:
        piece = ESC + b"%-12345X"
        for _ in range(self.random.choice([0, 1, 1, 2])):
            piece += self.random.choice(PJL_LINES)
            if lex(piece).mode != PJL:
                break
        if self.chance(0.05):
            piece += self.random.choice(BAD_PJL_LINES)
        return self.try_piece(piece)

    def frame(self) -> bytes:
        job = self.try_piece(self.snippets.enter())
        if self.mode != FRAME:
            return job
        if self.chance(0.7):
            job += self.try_piece(self.random.choice([b"SP1;", b"sp 1 ;", b"SP1PD;", b"IN;SP1;"]))
        for _ in range(self.random.choice([1, 2, 4, 7])):
            job += self.try_piece(self.snippets.frame_command())
        leave = self.snippets.leave()
        if self.chance(0.06) and not self.in_body:
            leave = ESC + self.random.choice([b"E", b"%-12345X"])
        job += self.try_piece(leave)
        if self.mode == FRAME and self.chance(0.97):
            end = ESC + (b"E" if self.chance(0.1) and not self.in_body else b"%0A")
            job += self.try_piece(end)
        return job

    # Macros

    def macro_id(self, known: float = 0.0) -> bytes:
        if self.machine.macros and self.chance(known):
            return b"%d" % self.random.choice(list(self.machine.macros))
        return b"%d" % self.random.choice([0, 1, 1, 2, 3, 4])

    def nested(self) -> bytes:
        kinds = [b"2X", b"2X", b"3X"] + ([b"4X", b"8X", b"9X", b"5X"] if self.chance(0.05)
                                         else [])
        piece = ESC + b"&f" + self.macro_id(0.9) + b"y" + self.random.choice(kinds)
        return self.try_piece(piece)

    def pretend(self) -> None:
        """Puts every printer where a body would be run."""
        kind = self.random.choice(["execute", "call", "overlay"])
        for machine in self.fleet.machines:
            if kind == "overlay":
                fresh = State(default_settings(machine.panel))
                fresh.settings.values = dict(machine.settings.values)
                fresh.settings.touched = frozenset(PAGE_FIELDS)
                machine.state = fresh
            machine.level = Level(1, kind == "overlay", kind != "execute")

    def body(self) -> bytes:
        """Pieces that could be run now, made without leaving a trace."""
        kept = [snapshot(machine) for machine in self.fleet.machines]
        self.pretend()
        self.in_body = True
        job = b""
        for _ in range(self.random.choice([0, 1, 2, 3, 5])):
            job += self.choose(BODY_PIECES)
        if self.mode == FRAME:
            job += ESC + b"%0A"
        self.in_body = False
        self.mode = PCL
        for machine, state in zip(self.fleet.machines, kept):
            restore(machine, state)
        return job

    def padding(self, body: bytes) -> bytes:
        """Transparent data that fills the macro memory up to its edge."""
        machine = self.machine
        used = machine.store_bytes() + sum(len(canon(item)) for _, item in lex(body).items)
        room = machine.profile.memory - used
        if not 10 < room < 400:
            return b""
        count = max(0, room - 5 - len(str(room))) + self.random.choice([0, 0, 1, -1, 2])
        return ESC + b"&p%dX" % count + b"A" * count

    def define(self) -> bytes:
        body = self.body()
        if self.chance(0.15):
            body += self.padding(body)
        if self.chance(0.04):
            body += ESC + self.random.choice([b"E", b"%-12345X", b"&f0X", b"&f-0X", b"&f-1X"])
        start = ESC + self.random.choice([b"&f%sy0X", b"&f%syX"]) % self.macro_id()
        end = ESC + self.random.choice([b"&f1X", b"&f1X", b"&f+1X", b"&f01.0X"])
        job = self.try_piece(start + body + end)
        if job and self.chance(0.6):
            run = self.random.choice([b"2X", b"3X", b"4X", b"4X"])
            job += self.try_piece(ESC + b"&f" + run)
        return job

    def chain(self) -> bytes:
        """Macros that run one another, down to an item that some macros may not hold."""
        pick = self.random.choice
        inner = [b"A", b"\x1b*p99x99Y\x1b*c9a9b0P", b"\x0c", b"\n", b"\x1b&l0L\n", b"\x1b=",
                 b"\x1b*r1A\x1b*b0W", b"\x1b&f1S", b"\x1b&f0S", b"\x1b(3@", b"\x1b&k0G\r",
                 b"\x1b&f5X", b"\x1b&f8X", b"\x1b&f9X", b"\x1b&f9y4X", b"\x1b&f9y2X",
                 b"\x1b&l7X", b"\x1b*c0T", b"\x1b%1B\x1b%1A", b"\x1b*p3000Y\x1b="]
        inner += [self.snippets.page_setting(), self.snippets.page_setting(),
                  self.snippets.spacing(), self.snippets.margin(), self.snippets.text()]
        length = pick([1, 2, 2, 3, self.machine.profile.depth, self.machine.profile.depth + 1])
        job = b"\x1b&f1y0X" + pick(inner) + pick([b"", pick(inner)]) + b"\x1b&f1X"
        for number in range(2, length + 1):
            call = b"\x1b&f%dy%s" % (number - 1, pick([b"2X", b"2X", b"3X"]))
            job += b"\x1b&f%dy0X" % number + pick([b"", pick(inner)]) + call + b"\x1b&f1X"
        run = pick([b"2X", b"3X", b"4XA\x0c", b"4X\x0c", b"4XA\x1bE", b"4X\x1b&l2A"])
        job += b"\x1b&f%dy%s" % (length, run)
        job += pick([b"", b"\x1b&f0S", b"A", b"\x1b*b0W", b"\x1b*p+0Y"])
        if not self.is_broken and self.chance(0.3):
            self.is_broken = self.run(job) is not None
            return job
        return self.try_piece(job)

    def macro(self) -> bytes:
        kind = self.random.randrange(10)
        if kind <= 3 or not self.machine.macros:
            return self.define()
        known = self.macro_id(0.95)
        action = {4: b"2X", 5: b"2X", 6: b"3X", 7: b"4X", 8: b"3X"}.get(kind)
        if action is None:
            action = self.random.choice([b"5X", b"6X", b"8X", b"9X", b"8X", b"7X", b"1X"])
        return self.try_piece(ESC + b"&f" + known + b"y" + action)

    def make(self) -> bytes:
        job = b"" if self.chance(0.2) else self.try_piece(ESC + b"E")
        if self.chance(0.2):
            job = self.wrapping() + job
        for _ in range(self.random.choice([3, 8, 15, 30, 60])):
            job += self.choose(PIECES)
            if len(job) > 2000 or (self.is_broken and self.chance(0.5)):
                break
        return job


ALPHABETS = (
    (b"", b"\x1b &&**((%%llacsrptbfuk0123456789.+-AaBbCcXxWwYyOoPpHhVv@=9E)\r\n\x0c_\x7f\x80"),
    (b"\x1b%0B", b"PPAAUUDDRRSSIINNWW0123456789..--++,,,;;;   \r\n\t\x1bE%AXx:*\x00pade"),
    (b"\x1b%0BPA", b"000123456789..-+,,,,;;   PDUR\x1b"),
    (b"\x1b%0BSP1PD", b"0011,, ;PDUAR\x1b"),
    (b"\x1b%0BSP", b"0019.-+, ;P\x1b"),
    (b"\x1b%-12345X@PJL ", b'@PJL  COMMENTJOBEOJNAMEDISPLAYENTERLANGUAGEPCL=""==""\r\n\t \x1b'),
    (b"\x1b&l", b"0011223344556677889900..+-aAoOxXcCeEfFlLhHsSdD@`_{[\x1b&l\x7f"),
    (b"\x1b*c", b"00112233..+-aAbBhHvVgGpPtTxXyY{`\x1b*c"),
    (b"\x1b&f0s", b"0011223344--sSyYxX\x1b&f"),
    (b"\x1b*b", b"0001122334455..-+wWWyYmM\x1b*b\x00\x80"),
    (b"\x1b*r1A\x1b*b", b"00123..-+wWWyYmM\x1b*b\x00\x80"),
    (b"\x1b&p", b"00112345..-+xXXAB \x1b"),
    (b"\x1b(", b"0133588..+-UuAaXx@s\x1b(s"),
)
GRAMMAR_WORDS = (
    b"\x1b&l", b"\x1b*p", b"\x1b*c", b"\x1b%0B", b"\x1b%0A", b"\x1b%1A", b"\x1b%-12345X",
    b"\x1bE", b"\x1b*b2W", b"\x1b&p3X", b"\x1b(s", b"\x1b(3@", b"\x1b&f", b"PA1,2", b"PD", b"SP1;",
    b"@PJL\n", b"@PJL ENTER LANGUAGE=PCL\n", b'@PJL JOB NAME="', b"65535", b"65536", b"0.0001",
    b"0.00001", b"8388607", b"8388608", b"0000000000000000", b"00000000000000000",
    b"1.00000000000000", b"32768", b"-0", b"COMMENT ", b"JOB ", b'NAME="x" ', b"EOJ ",
)


def random_characters(random: Random) -> bytes:
    start, letters = random.choice(ALPHABETS)
    job = start
    for _ in range(random.choice([1, 3, 6, 12, 25])):
        if random.random() < 0.2:
            job += random.choice(GRAMMAR_WORDS)
        else:
            job += bytes([random.choice(letters)])
    if start.startswith(b"\x1b%-") and random.random() < 0.7:
        job += b"\n"
    return job


def mutated(random: Random, job: bytes) -> bytes:
    """The job with a few bytes changed, cut off, inserted or moved."""
    for _ in range(random.choice([1, 1, 1, 2, 3])):
        place = random.randrange(len(job) + 1)
        other = min(len(job), place + random.randint(1, 6))
        odd = bytes([random.choice(b"\x1b\x1b0123456789.+-,;@EAXPWxaw \r\n\t\x00\x7f\xc8&*(%")])
        kind = random.randrange(7)
        if kind == 0:
            job = job[:place] + odd + job[place + 1:]
        elif kind == 1:
            job = job[:place] + odd + job[place:]
        elif kind == 2:
            job = job[:place] + job[other:]
        elif kind == 3:
            job = job[:place]
        elif kind == 4:
            job = job[:place] + random.choice(GRAMMAR_WORDS) + job[place:]
        elif kind == 5:
            job = job[:place] + job[place:other] * 2 + job[other:]
        else:
            job = job[:place] + bytes([random.randrange(256)]) + job[place + 1:]
    return job


EXAMPLES = [row for table in TABLES for row in table.ROWS if row[2]]
FLEETS = sorted({row[1] for row in EXAMPLES if row[1]})


def changed_number(random: Random, job: bytes) -> bytes:
    """The job with one of its numbers changed a little, or to an edge."""
    numbers = [match.span() for match in re.finditer(rb"[0-9]+", job)]
    if not numbers:
        return job
    start, end = random.choice(numbers)
    value = int(job[start:end])
    value = max(0, random.choice([value + 1, value - 1, value + 1, value - 1, 0, 1, 2, 3,
                                  value * 2, value // 2, value + 300]))
    return job[:start] + b"%d" % value + job[end:]


def from_examples(random: Random) -> Case:
    """Worked examples, one or some in a row, with small changes."""
    row = random.choice(EXAMPLES)
    spec = row[1] or "B"
    if random.random() < 0.25:
        spec = random.choice(FLEETS)
    case = Case([("", profile_text(part)) for part in spec.split(" & ")])
    if random.random() < 0.15:
        case.printers = random_fleet(random)
    case.job = unescape(row[2])
    for _ in range(random.choice([0, 0, 1, 2])):
        other = unescape(random.choice(EXAMPLES)[2])
        place = random.choice([0, len(case.job), random.randrange(len(case.job) + 1)])
        if random.random() < 0.7 and other[:2] == b"\x1bE":
            other = other[2:]
        case.job = case.job[:place] + other + case.job[place:]
    for _ in range(random.choice([0, 1, 1, 2, 3])):
        case.job = changed_number(random, case.job)
    if random.random() < 0.25:
        case.job = mutated(random, case.job)
    return case


def stretched(random: Random, job: bytes) -> bytes:
    """The job made long, so that some item lies across a multiple of 4096 bytes."""
    if random.random() < 0.4 and b"\x1b%0B" in job:
        place = job.index(b"\x1b%0B") + 4 + random.choice([0, 0, 2, 3, 5])
        count = 4096 - random.randrange(place, max(place + 1, min(len(job), 4096)))
        return job[:place] + random.choice([b" ", b"\r\n", b"\t"]) * count + job[place:]
    due = 4096 * random.choice([1, 1, 2]) - random.randrange(len(job) + 1)
    lines = b""
    while due - 9 - len(lines) > 1024:
        lines += b"@PJL COMMENT " + b"c" * 986 + b"\n"
    rest = due - 9 - len(lines) - 14
    if rest >= 0:
        lines += b"@PJL COMMENT " + b"d" * rest + b"\n"
    return b"\x1b%-12345X" + lines + job


def random_panel(random: Random, profile: Profile) -> Dict[str, int]:
    """Some fields, each with a value that the profile allows."""
    fields = [field for field in profile.allowed if random.random() < 0.5]
    random.shuffle(fields)
    return {field: random.choice(profile.allowed[field]) for field in fields}


def panel_words(named: Dict[str, int]) -> str:
    words = []
    for name, value in named.items():
        shown = spell_size(value) if name == "Vmi" else str(value)
        words.append(f"{FIELDS[name][0]}={shown}")
    return ",".join(words)


def good_profiles(printers) -> Optional[List[Profile]]:
    try:
        return [read_profile(text) for _, text in printers]
    except ProfileFault:
        return None


def random_profiled_case(random: Random) -> Case:
    """A fleet, with a broken profile at times, and a job that is made for it."""
    broken = random.random() < 0.25
    case = Case(random_broken_fleet(random) if broken else random_fleet(random))
    profiles = good_profiles(case.printers)
    chance = random.random()
    if profiles is None:
        case.job = random.choice([b"", b"\x1bE", b"\x1b)"])
    elif chance < 0.15:
        case.job = random_characters(random)
    else:
        case.job = JobMaker(random, profiles).make()
        if chance < 0.45:
            case.job = mutated(random, case.job)
    return case


def random_case(seed: str, number: int) -> Case:
    random = Random(f"{seed}/{number}")
    case = from_examples(random) if random.random() < 0.25 else random_profiled_case(random)
    profiles = good_profiles(case.printers)
    if profiles and case.job and random.random() < 0.08:
        case.job = stretched(random, case.job)
    if profiles and random.random() < 1 / 3:
        case.named = random_panel(random, profiles[0])
    return case
