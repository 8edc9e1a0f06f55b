#!/usr/bin/env python3
"""Compares what `compare` tells of pairs of jobs with a comparison of their lines of `pages`.

    python3 crosscheck/compares.py PROGRAM COUNT SEED

A pair is a random job and an edit of it: one of its numbers changed, two of its items swapped, one
left out or made twice, a page more, its bytes broken, or the job as `plain` and as `pin` write it.
Every third pair is mostly text (`text_pairs.py`), lines of which both jobs may print at once.
What is due is found here by the lines that the program's own `pages` writes of both jobs on each
printer, one behind another; the places of the items are those of `lexer.py` and of the machine of
`machine.py`, whose lines have to be the same. Of `plain` of a job that fails nowhere it has to be
SAME, and so of `pin`. Each pair is told as a line and as an object, and once more in a manner that
is chosen for it: in any order, within a length, with all differences, or as a golden job. Prints
each difference and at last `N compared, M differ`. The exit status is 0 where M is 0, else 1.
"""

import json
import subprocess
import sys
import tempfile
from pathlib import Path
from random import Random
from typing import Callable, Dict, List, NamedTuple, Optional, Tuple

sys.dont_write_bytecode = True

import jobs                                                        # noqa: E402
import oracle                                                      # noqa: E402
from items import FRAME, canon                                     # noqa: E402
from lexer import lex                                              # noqa: E402
from machine import Machine                                        # noqa: E402
from page_differences import (Made, Manner, TICKS_PER_7200TH, change_of, differences,  # noqa: E402
                              is_end, pages_of)
from pdf_jobs import PROFILE as RICH_PROFILE                       # noqa: E402
from printer_profile import Profile                                # noqa: E402
from state import Finding                                          # noqa: E402
from text_pairs import text_edit, text_job                         # noqa: E402

SECONDS = 60
MOST_PRINTERS = 3


class Asked(NamedTuple):
    """How a pair is compared, and the words that ask for it."""
    words: Tuple[str, ...]
    manner: Manner
    most: Optional[int]
    is_golden: bool = False


STRICT = Manner(False, 0)
USUAL = Asked((), STRICT, None)
# In ticks.
TENTH, INCH = 144_000_000, 7200 * TICKS_PER_7200TH
OTHERS = (
    Asked(("--any-order",), Manner(True, 0), None),
    Asked(("--within", "0.1mm"), Manner(False, TENTH), None),
    Asked(("--within", "1in", "--any-order"), Manner(True, INCH), None),
    Asked(("--within", "0mm", "--all"), STRICT, 1000),
    Asked(("--all",), STRICT, 1000),
    Asked(("--all", "--most", "2"), STRICT, 2),
    Asked(("--all", "--any-order", "--most", "3"), Manner(True, 0), 3),
    Asked(("--all", "--within", "0.1mm"), Manner(False, TENTH), 1000),
    Asked(("--golden", "kept"), STRICT, None, True),
    Asked(("--golden", "kept/", "--all"), STRICT, 1000, True),
)


class Run(NamedTuple):
    """What a job makes on a printer, why it fails, and where it ends."""
    made: List[Made]
    failure: str
    end: int


class Due(NamedTuple):
    """The exit status, the lines, and of each object some members."""
    status: int
    lines: List[str]
    members: List[Dict[str, object]]


def made_by(profile: Profile, job: bytes) -> List[int]:
    """The place of each event of a job."""
    lexed = lex(job)
    machine = Machine(profile, profile.first_panel(), watched=False)
    places: List[int] = []
    for place, item in lexed.items + ([] if lexed.fault else [(len(job), None)]):
        try:
            machine.finish() if item is None else machine.step(item)
        except Finding:
            places += [place] * (len(machine.events) - len(places))
            break
        places += [place] * (len(machine.events) - len(places))
    return places


def run_of(lines: List[str], profile: Profile, job: bytes) -> Run:
    """A job by the lines that `pages` writes of it."""
    failure = ""
    if lines and lines[-1].startswith("FAIL "):
        *lines, failure = lines
    places = made_by(profile, job)
    if len(places) != len(lines):
        raise ValueError(f"{len(lines)} lines, and {len(places)} events by the second reading")
    return Run([Made(*made) for made in zip(places, lines)], failure, len(job))


def change_between(old: str, new: str) -> str:
    if is_end(old) and is_end(new):
        return "page ends otherwise"
    if is_end(old):
        return "only in NEW"
    return "only in OLD" if is_end(new) else change_of(old, new)


def first_difference(old: Run, new: Run) -> Optional[Tuple[int, int, int, int, str]]:
    page = mark = 1
    for one, other in zip(old.made, new.made):
        if one.line != other.line:
            return page, mark, one.place, other.place, change_between(one.line, other.line)
        page, mark = (page + 1, 1) if is_end(one.line) else (page, mark + 1)
    common = min(len(old.made), len(new.made))
    if len(old.made) > common:
        return page, mark, old.made[common].place, new.end, "only in OLD"
    if len(new.made) > common:
        return page, mark, old.end, new.made[common].place, "only in NEW"
    return None


def failing(name: str, printer: str, failure: str) -> Due:
    """What is told of a job that fails, by the last line of `pages`, whose profile is 1 or 0."""
    _, at, profile, finding = failure.split(" ", 3)
    told = f" printer={printer}" if profile != "profile=0" else ""
    return Due(1, [f"FAIL {at}{told} {finding} {name}"],
               [{"job": name, "verdict": "FAIL", "at": int(at[3:])}])


class Names(NamedTuple):
    """The names of both jobs, and what stands at the end of a line."""
    old: str
    new: str
    end: str

    def members(self, verdict: str, **others: object) -> Dict[str, object]:
        return {"old": self.old, "new": self.new, "verdict": verdict, **others}


def difference(names: Names, printer: str, found: Tuple[int, int, int, int, str]) -> Tuple:
    """The line and the members of a difference."""
    page, mark, old_at, new_at, change = found
    line = (f"DIFFERS page={page} mark={mark} old={old_at} new={new_at} printer={printer} "
            f"{change}{names.end}")
    return line, names.members("DIFFERS", page=page, mark=mark, old_at=old_at, new_at=new_at,
                               printer=printer, change=change)


def differing(asked: Asked, names: Names, printer: str, old: Run, new: Run) -> Optional[Due]:
    """What is due of two jobs that differ on a printer."""
    if asked.manner == STRICT and asked.most is None:
        found = first_difference(old, new)
        told = [difference(names, printer, found)] if found else []
        return Due(1, *map(list, zip(*told))) if told else None
    by_page = differences(asked.manner, pages_of(old.made, old.end), pages_of(new.made, new.end),
                          old.end, new.end)
    every = [one for of_page in by_page for one in of_page]
    most = 1 if asked.most is None else asked.most
    told = [difference(names, printer, (one.page, one.mark, *one[3:6])) for one in every[:most]]
    if asked.most is not None and len(every) > most:
        pages = sum(map(bool, by_page))
        told.append((f"MORE pages={pages}{names.end}", names.members("MORE", pages=pages)))
    return Due(1, *map(list, zip(*told))) if told else None


def due_of(asked: Asked, names: Names, runs: List[Tuple[str, Run, Run]]) -> Due:
    """What is due of two jobs, OLD and NEW, by their runs on each printer."""
    for printer, old, new in runs:
        for name, run in ((names.old, old), (names.new, new)):
            if run.failure:
                return failing(name, printer, run.failure)
        due = differing(asked, names, printer, old, new)
        if due is not None:
            return due
    lines = [made.line for made in runs[0][1].made]
    pages = sum(map(is_end, lines))
    marks = len(lines) - pages
    return Due(0, [f"SAME pages={pages} marks={marks}{names.end}"],
               [names.members("SAME", pages=pages, marks=marks)])


# ---- pairs

Edit = Callable[[Random, bytes], bytes]


def spelled(items) -> bytes:
    return b"".join(canon(item) for item in items)


def items_of(job: bytes) -> List:
    return [item for _, item in lex(job).items]


def swapped(random: Random, job: bytes) -> bytes:
    items = items_of(job)
    if len(items) > 1:
        at = random.randrange(len(items) - 1)
        items[at], items[at + 1] = items[at + 1], items[at]
    return spelled(items)


def shortened(random: Random, job: bytes) -> bytes:
    items = items_of(job)
    if items:
        del items[random.randrange(len(items))]
    return spelled(items)


def doubled(random: Random, job: bytes) -> bytes:
    items = items_of(job)
    if items:
        at = random.randrange(len(items))
        items.insert(at, items[at])
    return spelled(items)


def with_page(_random: Random, job: bytes) -> bytes:
    return job + b"\x1bE\x1b*p300x300Yx\x0c"


def same(_random: Random, job: bytes) -> bytes:
    return job


EDITS: Tuple[Edit, ...] = (jobs.changed_number, jobs.changed_number, swapped, shortened, doubled,
                           with_page, jobs.mutated, same)


# ---- the program

class Tried:
    """A folder with the files of a case, in which the program runs."""

    def __init__(self, program: str, folder: Path):
        self.program = program
        self.folder = folder

    def run(self, *words: str) -> subprocess.CompletedProcess:
        return subprocess.run([self.program, *words], cwd=self.folder, capture_output=True,
                              timeout=SECONDS, check=False)

    def lines(self, job: str, printer: str) -> List[str]:
        return self.run("pages", job, printer).stdout.decode().splitlines()


def objects_in(text: bytes) -> List[Dict[str, object]]:
    try:
        return [json.loads(line) for line in text.splitlines()]
    except ValueError:
        return []


def told(tried: Tried, words: List[str], due: Due) -> int:
    """How many of the two forms differ from what is due."""
    run = tried.run("compare", *words)
    differ = 0
    if (run.returncode, run.stdout.decode().splitlines()) != (due.status, due.lines):
        print(f"compare {words}: due {due.status} {due.lines!r}\n  told {run.returncode} "
              f"{run.stdout!r} {run.stderr!r}")
        differ += 1
    run = tried.run("compare", "--format", "json", *words)
    objects = objects_in(run.stdout)
    if run.returncode != due.status or len(objects) != len(due.members) or not all(
            members.items() <= one.items() for members, one in zip(due.members, objects)):
        print(f"compare --format json {words}: due {due.members}\n  told {run.stdout!r}")
        differ += 1
    return differ


def compared(tried: Tried, profiles: List[Profile], words: List[str], names: List[str],
             manners: Tuple[Asked, ...] = (USUAL,)) -> int:
    """How many forms differ of the files `old` and `new`."""
    old_job, new_job = ((tried.folder / name).read_bytes() for name in ("old", "new"))
    runs = [(name, run_of(tried.lines("old", word), profile, old_job),
             run_of(tried.lines("new", word), profile, new_job))
            for profile, word, name in zip(profiles, words, names)]
    differ = 0
    for asked in manners:
        if asked.is_golden:
            (tried.folder / "kept").mkdir(exist_ok=True)
            (tried.folder / "kept" / "new").write_bytes(old_job)
            given = [*asked.words, *(f"-p{word}" for word in words), "new"]
            due = due_of(asked, Names("kept/new", "new", " new"), runs)
        else:
            given = [*asked.words, "old", "new", *words]
            due = due_of(asked, Names("old", "new", ""), runs)
        differ += told(tried, given, due)
    return differ


def respelled(tried: Tried, profiles: List[Profile], words: List[str], names: List[str]) -> int:
    """How many forms differ of a job and what `plain` and `pin` write of it."""
    differ = 0
    for command in (["plain", "old", "new"], ["pin", "old", words[0], "new"]):
        if tried.run(*command).returncode != 0:
            continue
        one = command[0] == "pin"
        few = (profiles[:1], words[:1], names[:1]) if one else (profiles, words, names)
        differ += compared(tried, *few)
        # A stored body may grow past the macro memory where it is pinned.
        told_first = tried.run("compare", "old", "new", words[0]).stdout
        if not told_first.startswith((b"SAME ", b"FAIL ")):
            print(f"{command[0]} of a job is not the same: {told_first!r}")
            differ += 1
    return differ


def name_in(text: bytes) -> str:
    """The name that a text gives its printer, as sentences have it."""
    for line in text.decode("utf-8", "replace").splitlines():
        words = line.split()
        if words[:1] == ["name"] and len(words) > 1:
            return words[1]
    return ""


def named(text: bytes, name: str) -> bytes:
    """The text with a name for its printer, unless it gives one."""
    first, end, rest = text.partition(b"\n")
    if name_in(text) or not end:
        return text
    return first + end + f"name {name}\n".encode() + rest


def far_enough(job: bytes, profile: Profile) -> bytes:
    """The items of a job before the one at which it fails."""
    answer = oracle.pages_at(profile, profile.first_panel(), job)
    if answer.status == oracle.PASS:
        return job
    at = int(answer.output.splitlines()[-1].split(b" ")[1][3:])
    items = [item for place, item in lex(job).items if place < at]
    return spelled(items) + (b"\x1b%0A" if lex(spelled(items)).mode == FRAME else b"")


class Pair(NamedTuple):
    """Two jobs, and the texts of their printers with what these say."""
    texts: List[bytes]
    profiles: List[Profile]
    old: bytes
    new: bytes


def pair_of(random: Random, seed: str, number: int) -> Optional[Pair]:
    """The pair of a number; none where the text of a printer is refused."""
    if number % 3 == 2:
        texts, job, edit = [RICH_PROFILE], text_job(random), text_edit
    else:
        case = jobs.random_case(seed, number)
        texts, job, edit = case.texts()[:MOST_PRINTERS], case.job, random.choice(EDITS)
    texts = [named(text, f"printer{at}") for at, text in enumerate(texts)]
    profiles, error = oracle.read_profiles(texts)
    if error or not texts:
        return None
    # Most random jobs fail, and would tell nothing.
    if random.random() < 0.8:
        job = far_enough(job, profiles[0])
    return Pair(texts, profiles, job, edit(random, job))


def differ_in(tried: Tried, random: Random, pair: Pair, manners: Tuple[Asked, ...]) -> int:
    """How many forms differ of a pair, and of some also of what `plain` and `pin` write."""
    words = [f"p{at}.profile" for at in range(len(pair.texts))]
    for word, text in zip(words, pair.texts):
        (tried.folder / word).write_bytes(text)
    (tried.folder / "old").write_bytes(pair.old)
    (tried.folder / "new").write_bytes(pair.new)
    names = [name_in(text) for text in pair.texts]
    differ = compared(tried, pair.profiles, words, names, manners)
    if random.random() < 0.25:
        differ += respelled(tried, pair.profiles, words, names)
    return differ


def main(program: str, count: int, seed: str) -> int:
    program = str(Path(program).resolve())
    done = differ = number = 0
    while done < 4 * count:
        random = Random(f"{seed}/edit/{number}")
        pair = pair_of(random, seed, number)
        number += 1
        if pair is None:
            continue
        manners = (USUAL, random.choice(OTHERS))
        with tempfile.TemporaryDirectory() as name:
            wrong = differ_in(Tried(program, Path(name)), random, pair, manners)
        done += 2 * len(manners)
        if wrong:
            print(f"  seed {seed}, pair {number - 1}: {pair.old!r} and {pair.new!r}")
        differ += wrong
    print(f"{done} compared, {differ} differ")
    return 1 if differ else 0


if __name__ == "__main__":
    if len(sys.argv) != 4:
        sys.exit(__doc__)
    sys.exit(main(sys.argv[1], int(sys.argv[2]), sys.argv[3]))
