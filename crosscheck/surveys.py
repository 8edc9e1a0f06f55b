#!/usr/bin/env python3
"""Compares surveys of jobs with a second reading that goes on behind faults.

    python3 crosscheck/surveys.py PROGRAM COUNT SEED
    python3 crosscheck/surveys.py PROGRAM --jobs JOB..

The jobs are random ones, broken here and there, or those that are named. Each is surveyed by
itself, and then all together, as `survey --format json` and as `survey` tell it. The second reading
is that of lexer.py, which stops at a fault; what is passed over behind that is found here by
regular expressions over the whole job. It is not told the names of commands: those of the lines
have to be those of the objects. Prints each difference and at last `N compared, M differ`. The exit
status is 0 where M is 0, else 1.
"""

import json
import random
import re
import subprocess
import sys
import tempfile
from pathlib import Path
from typing import Dict, Iterator, List, NamedTuple, Optional, Tuple

sys.dont_write_bytecode = True

from commands import GROUPS                                        # noqa: E402
from items import FRAME, PCL, PJL, Fault                           # noqa: E402
from lexer import NAMES, Lexed, Lexer, is_letter                   # noqa: E402

MOST_ROWS = 256
MOST_DATA = 32767
ESC = 27
TRUNCATED, NOT_IN_PROFILE, END_IN_FRAME = 2, 3, 6
# The commands behind which data stand, as HP's manuals have them.
WITH_DATA = {"&pX", "&bW", "&nW", "(fW", "(sW", ")sW", "*bV", "*bW", "*cW", "*gW", "*iW", "*lW",
             "*mW", "*oW", "*vW"}
NUMBER = re.compile(rb"[-+.0-9]*")
# Up to a letter, a semicolon or ESC, none of them between quotes; but ESC ends those, too.
NUMBERS = re.compile(rb'(?:[^A-Za-z;\x1b"]|"[^"\x1b]*(?:"|(?=\x1b)|\Z))*')
LABEL = re.compile(rb"[^\x03\x1b]*(\x03?)")
PACKED = re.compile(rb"[^;\x1b]*(;?)")
# Later commands of a combined sequence, such a sequence up to one, and a pair of coordinates with
# the letters or without.
INNER = re.compile(rb"(?:[-+.0-9]*[`-~])*")
LATER = re.compile(rb"\x1b([&*(][`-~])(?:[-+.0-9]*[`-~])+\Z")
PAIR = re.compile(rb"(?:[A-Za-z]{2})?[\t\n\r ]*[-+]?[0-9]*(?:\.[0-9]*)?[\t\n\r ]*,?[\t\n\r ]*"
                  rb"[-+]?[0-9]*(?:\.[0-9]*)?")
# The words of lines that are told by them, of which the first that a line has counts.
LANGUAGES = ("PCL3GUI", "PCLXL", "POSTSCRIPT")
WORDS = [f"ENTER LANGUAGE={language}" for language in LANGUAGES] + [
    "COMMENT", "DEFAULT", "DINQUIRE", "DMCMD", "DMINFO", "ECHO", "ENTER", "EOJ", "FSAPPEND",
    "FSDELETE", "FSDIRLIST", "FSDOWNLOAD", "FSINIT", "FSMKDIR", "FSQUERY", "FSUPLOAD", "INFO",
    "INITIALIZE", "INQUIRE", "JOB", "OPMSG", "RDYMSG", "RESET", "SET", "STMSG", "USTATUS",
    "USTATUSOFF"]
BLANK = r"[\t\r ]"
ENTERS = re.compile(rf"PJL{BLANK}+ENTER{BLANK}+LANGUAGE(?!{BLANK}*={BLANK}*PCL{BLANK}*\Z)"
                    .encode(), re.IGNORECASE)
EXIT = b"\x1b%-12345X"
SECONDS = 60


class Told(NamedTuple):
    place: int
    number: int
    spelled: str


class Stand(NamedTuple):
    """Where it is read on: in a mode, or within a combined sequence of a group."""
    at: int
    mode: str
    group: Optional[str] = None


class Reader(Lexer):
    """The lexer from a place on."""

    def __init__(self, job: bytes, stand: Stand):
        super().__init__(job, stand.mode)
        self.at = stand.at
        self.group = stand.group

    def read_pcl(self) -> None:
        if self.group is None:
            super().read_pcl()
            return
        group, self.group = self.group, None
        self.read_group(self.at, group)


def survey(job: bytes) -> List[Told]:
    """All that is refused of a job, in its order."""
    told: List[Told] = []
    stand: Optional[Stand] = Stand(0, PCL)
    while stand is not None:
        if stand.group is not None and stand.at == len(job):
            return told + cut(job, TRUNCATED)
        lexed = Reader(job, stand).run()
        if lexed.fault is None:
            break
        fault = lexed.fault
        if fault.number in (TRUNCATED, END_IN_FRAME):
            told.append(Told(fault.place, fault.number, "the end of the job"))
            break
        more, stand = behind(job, fault, lexed, stand)
        told += more
    return told


def behind(job: bytes, fault: Fault, lexed: Lexed,
           stand: Stand) -> Tuple[List[Told], Optional[Stand]]:
    """What is told of a fault, and where it is read on."""
    byte, place, number = job[fault.place], fault.place, fault.number
    if lexed.mode == PJL and byte == ord("@"):
        return behind_line(job, place, number)
    if lexed.mode == FRAME:
        motion = motion_before(job, place, lexed)
        if motion is not None:
            return behind_numbers(job, place, [Told(place, number, motion)])
        if byte != ESC:
            return behind_instruction(job, place, number)
    group = group_before(job, place, stand)
    if lexed.mode == PCL and group is not None:
        return behind_commands(job, place, place, number, group, PCL)
    if byte == ESC:
        return behind_escape(job, place, number, lexed.mode)
    return [Told(place, number, f"x{byte:02x}")], Stand(place + 1, PCL)


def group_before(job: bytes, place: int, stand: Stand) -> Optional[str]:
    """The group of the combined sequence of which a later command is due at a place."""
    if stand.group is not None and INNER.fullmatch(job, stand.at, place):
        return stand.group
    head = LATER.search(job, stand.at, place)
    return head[1].decode() if head else None


def motion_before(job: bytes, place: int, lexed: Lexed) -> Optional[str]:
    """The letters of the instruction among whose pairs a place stands, behind the first of them."""
    if not lexed.items or lexed.items[-1][1].pair is None:
        return None
    at, item = lexed.items[-1]
    pair = PAIR.match(job, at, place)
    if not pair:
        return None
    goes_on = job[pair.end():place]
    if goes_on.strip(b"\t\n\r ,"):
        return None
    ends = is_letter(job[place]) or job[place] in b";\x1b"
    return item.name if not ends or b"," in goes_on else None


def cut(job: bytes, number: int) -> List[Told]:
    return [Told(len(job), number, "the end of the job")]


def unended(place: int, number: int) -> List[Told]:
    return [Told(place, number, "ESC without an end")]


def line_called(line: bytes) -> str:
    """A line by its words: blanks count behind a word, and else not."""
    text = line.decode("latin-1")
    for words in WORDS:
        spelled = "".join(f"{BLANK}+" if character == " " else f"{BLANK}*{re.escape(character)}"
                          for character in f"PJL {words}")
        if re.match(rf"@{spelled}(?:{BLANK}|\Z)", text, re.IGNORECASE | re.ASCII):
            return f"@PJL {words}"
    return "a line of PJL"


def behind_line(job, place, number):
    end = job.find(b"\n", place)
    told = [Told(place, number, line_called(job[place:] if end < 0 else job[place:end]))]
    if end < 0:
        return told, None
    if not ENTERS.match(job[place + 1:end]):
        return told, Stand(end + 1, PJL)
    end = job.find(EXIT, end + 1)
    return told, None if end < 0 else Stand(end + len(EXIT), PJL)


def behind_instruction(job, place, number):
    letters = re.compile(rb"[A-Za-z]{2}").match(job, place)
    if not letters:
        return behind_numbers(job, place + 1, [Told(place, number, "bytes in a frame")])
    word = letters[0].decode().upper()
    told, at = [Told(place, number, word)], place + 2
    if number != NOT_IN_PROFILE:
        return behind_numbers(job, at, told)
    if word in ("LB", "BL", "PE"):
        text = (PACKED if word == "PE" else LABEL).match(job, at)
        if text.end() == len(job) and not text[1]:
            return told + cut(job, END_IN_FRAME), None
        return told, Stand(text.end(), FRAME)
    if word in ("DT", "SM") and job[at:at + 1] not in (b"", b";", b"\x1b"):
        at += 1
    return behind_numbers(job, at, told)


def behind_numbers(job, at, told):
    at = NUMBERS.match(job, at).end()
    if at == len(job):
        return told + cut(job, END_IN_FRAME), None
    return told, Stand(at, FRAME)


def behind_escape(job, place, number, mode):
    home = FRAME if mode == FRAME else PCL
    at = place + 1
    if at == len(job):
        return unended(place, number), None
    byte = job[at]
    if 48 <= byte <= 126:
        return [Told(place, number, "ESC " + chr(byte))], Stand(at + 1, home)
    if not 33 <= byte <= 47:
        return unended(place, number), Stand(at, home)
    at += 1
    if at < len(job) and 96 <= job[at] <= 126:
        group = chr(byte) + chr(job[at])
        return behind_commands(job, place, at + 1, number, group, mode)
    at = NUMBER.match(job, at).end()
    if at == len(job):
        return unended(place, number), None
    letter = job[at]
    if not 64 <= letter <= 94:
        return unended(place, number), Stand(at, home)
    name = f"ESC {chr(byte)}#{chr(letter)}"
    behind_it = {"%A": PCL, "%B": FRAME}.get(chr(byte) + chr(letter), home)
    return [Told(place, number, name)], Stand(at + 1, behind_it)


def behind_commands(job, place, at, number, group, mode):
    """Behind a command of a group, of which the value field stands at `at`."""
    home = FRAME if mode == FRAME else PCL
    told = []
    while True:
        field = NUMBER.match(job, at)
        digits = re.match(rb"[0-9]*", field[0].replace(b"+", b""))[0]
        count = min(int(digits or 0), MOST_DATA)
        at = field.end()
        if at == len(job):
            return told + unended(place, number), None
        letter = job[at]
        if 64 <= letter <= 94:
            told.append(Told(place, number, f"ESC {group}#{chr(letter)}"))
            if group + chr(letter) not in WITH_DATA:
                return told, Stand(at + 1, home)
            if at + 1 + count > len(job):
                return told + cut(job, TRUNCATED), None
            return told, Stand(at + 1 + count, home)
        if not 96 <= letter <= 126:
            return told + unended(place, number), Stand(at, home)
        command = group + chr(letter - 32)
        told.append(Told(place, number, f"ESC {group}#{chr(letter - 32)}"))
        at += 1 + (count if command in WITH_DATA else 0)
        if at > len(job):
            return told + cut(job, TRUNCATED), None
        if home == PCL and group in GROUPS:
            return told, Stand(at, PCL, group)
        place = at


# ---- what is counted


class Row(NamedTuple):
    """Those refusals of jobs that are alike."""
    first: Told
    job: int
    times: int
    jobs: int


def rows_of(surveys: List[List[Told]]) -> Tuple[List[Row], int]:
    """The rows of jobs, in the order of their first refusals, and how many others there are."""
    found: List[List[Tuple[int, Told]]] = []
    by_kind: dict = {}
    others = 0
    for number, told in enumerate(surveys):
        for one in told:
            kind = (one.number, one.spelled)
            if kind in by_kind:
                by_kind[kind].append((number, one))
            elif len(found) < MOST_ROWS:
                by_kind[kind] = [(number, one)]
                found.append(by_kind[kind])
            else:
                others += 1
    rows = [Row(alike[0][1], alike[0][0], len(alike), len({number for number, _ in alike}))
            for alike in found]
    return rows, others


def finding(number: int) -> str:
    return NAMES.get(number, "NotInProfile")


def lines_of(names: List[str], surveys: List[List[Told]], called: Dict[str, str]) -> str:
    """What `survey` writes of jobs, with these names of what is refused."""
    rows, others = rows_of(surveys)
    lines = [f"{row.times}x in {row.jobs} of {len(names)} jobs: {row.first.spelled}"
             f"{', ' * (row.first.spelled in called)}{called.get(row.first.spelled, '')}, first at "
             f"byte {row.first.place} of {names[row.job]} ({row.first.number} "
             f"{finding(row.first.number)})" for row in rows]
    lines.append(f"surveyed: jobs={len(names)} refused={len(rows)} others={others}; this is no "
                 "verdict, check gives one")
    return "".join(f"{line}\n" for line in lines)


def objects_of(names: List[str], surveys: List[List[Told]]) -> List[dict]:
    """What `survey --format json` tells of jobs."""
    rows, others = rows_of(surveys)
    objects = [{"refused": row.first.spelled, "code": row.first.number,
                "finding": finding(row.first.number), "times": row.times, "jobs": row.jobs,
                "job": names[row.job], "at": row.first.place} for row in rows]
    return objects + [{"verdict": "NONE", "jobs": len(names), "refused": len(rows),
                       "others": others}]


# ---- jobs

PIECES = (b"\x1bE", b"text", b"\r\n", b"\x08", b"\t", b"\x0c", b"\x0e\x0f", b"\x1b&l2A",
          b"\x1b&l2a66P", b"\x1b&l66p1O", b"\x1b&d0D", b"\x1b&d@", b"\x1b*c6W\x1b&l1O",
          b"\x1b)s4WABCD",
          b"\x1b(s3b2W\x07\x08", b"\x1b*v3W\x01\x02\x03", b"\x1b&p3X\x00\x01\x02", b"\x1b*b2Wxy",
          b"\x1b*b2V\x07\x07", b"\x1b*b2v\x07\x1b1vx3Wabc", b"\x1b*b1m3wxyz2v\x07\x07",
          b"\x1b&n2wxyA", b"\x1b*b1m2Wxy", b"\x1b*t300R", b"\x1b*r1A", b"\x1b*rB", b"\x1b(10U",
          b"\x1b(0@", b"\x1b(7X", b"\x1b)0@", b"\x1bZ", b"\x1bY", b"\x1b7", b"\x1b&z1a2B",
          b"\x1b&b5W12345",
          b"\x1b*b+3W123", b"\x1b*c3.5W123", b"\x1b*c-3W", b"\x1b*c99999W", b"\x1b&l1.123456F",
          b"\x1b&l1", b"\x1b&", b"\x1b", b"\x1b%0B", b"IN;SP1;", b"PU0,0;PD1,1,2,2;", b"PA1,2,3;",
          b"PA1,2,;", b"PA1,2:3;", b"SP1,2;", b"PW-1;", b"AA1,2,3;", b"LBtext\x03", b"LBtext",
          b"DT*;", b"PE<=>?;", b'CO"a;b";', b"SM*;", b"P;", b"5;", b"\x1b%0A", b"\x1b%1A",
          b"\x1b%-1B", b"\x1b%2A",
          b"\x1b&l1O", b"\x1b%-12345X", b"@PJL\n", b"@PJL SET COPIES=2\n", b"@PJL COMMENT a\n",
          b"@PJL INFO ID\n", b"@PJL USTATUSOFF\n", b"@pjl ustatus\tDEVICE=ON\n", b"@PJL A\n",
          b"@PJL ENTER LANGUAGE=PCL3GUI\n", b"@PJL ENTER LANGUAGE=PCL\r\n",
          b"@PJL enter  language = POSTSCRIPT\n", b"%!PS\n",
          b"\x00\x01")


def random_jobs(count: int, chance: random.Random) -> Iterator[bytes]:
    for _ in range(count):
        job = b"".join(chance.choice(PIECES) for _ in range(chance.randint(1, 12)))
        if chance.random() < 0.3 and job:
            at = chance.randrange(len(job))
            job = job[:at] + bytes([chance.randrange(256)]) + job[at + chance.randint(0, 2):]
        if chance.random() < 0.1:
            job = job[:chance.randint(0, len(job))]
        yield job


def told_by(program: str, folder: str, *words: str) -> str:
    run = subprocess.run([program, "survey", *words], cwd=folder, capture_output=True,
                         timeout=SECONDS, check=False)
    error = run.stderr.decode("utf-8", "replace")
    if run.returncode != 0:
        return f"status {run.returncode}: {error}"
    return run.stdout.decode("utf-8")


def differs(what: str, wanted, told) -> int:
    if wanted == told:
        return 0
    print(f"{what}:\n  wanted {wanted!r}\n  told   {told!r}")
    return 1


def compare(program: str, folder: str, names: List[str], surveys: List[List[Told]]) -> int:
    """How many of the two forms differ of these jobs."""
    what = " ".join(names[:3])
    text = told_by(program, folder, "--format", "json", *names)
    try:
        objects = [json.loads(line) for line in text.splitlines()]
    except ValueError:
        return 2 * differs(what, objects_of(names, surveys), text)
    called = {one["refused"]: one.pop("command_name") for one in objects if "command_name" in one}
    differ = differs(what, objects_of(names, surveys), objects)
    due = lines_of(names, surveys, called)
    return differ + differs(what, due, told_by(program, folder, *names))


def main(program: str, words: List[str]) -> int:
    program = str(Path(program).resolve())
    compared = differ = 0
    with tempfile.TemporaryDirectory() as folder:
        if words[0] == "--jobs":
            jobs = [Path(word).read_bytes() for word in words[1:]]
        else:
            jobs = list(random_jobs(int(words[0]), random.Random(words[1])))
        names, surveys = [], []
        for number, job in enumerate(jobs):
            names.append(f"job{number}")
            (Path(folder) / names[-1]).write_bytes(job)
            surveys.append(survey(job))
            differ += compare(program, folder, names[-1:], surveys[-1:])
            compared += 2
        for at in range(0, len(names), 100):
            differ += compare(program, folder, names[at:at + 100], surveys[at:at + 100])
            compared += 2
    print(f"{compared} compared, {differ} differ")
    return 1 if differ else 0


if __name__ == "__main__":
    if len(sys.argv) < 4:
        sys.exit(__doc__)
    sys.exit(main(sys.argv[1], sys.argv[2:]))
