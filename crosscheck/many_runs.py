"""Runs of a program over many random jobs, each in a folder of its own.

`Try` makes the jobs under random names, the printers and the words of one run.
"""

import itertools
import os
import subprocess
from dataclasses import dataclass
from random import Random
from typing import Iterator, List, Optional, Tuple

import jobs
from many_names import PROFILE_NAMES, escaped, fleet_text, random_name

SECONDS = 60
NO_TEXT = b"the name is not UTF-8 text"
# A fleet that names no printer: what its file holds, and what standard error says of it.
NO_FLEETS = ((b"", b"names no printer"), (b"# @A\n\r\n \t\n", b"names no printer"),
             (b"@A\n\xff\n", b"not UTF-8 text"), (b"@A\n" * 30000, b"more than 65536 bytes"))


@dataclass(frozen=True)
class Job:
    name: bytes
    data: Optional[bytes]                     # None: it cannot be read


@dataclass(frozen=True)
class Printer:
    path: str                                 # as seen from the folder of the run, or a sample
    text: bytes

    def name(self) -> bytes:
        """The name that the text gives."""
        words = (line.split() for line in self.text.splitlines())
        return next((line[1] for line in words if line[:1] == [b"name"]), b"")


@dataclass(frozen=True)
class Answer:
    status: int
    output: bytes
    errors: bytes


class Try:
    """One run over many jobs, in a folder of its own."""

    def __init__(self, program: str, folder: str, random: Random, case: jobs.Case):
        self.program, self.folder, self.random = program, folder, random
        for name in ("in", "alone"):
            os.mkdir(os.path.join(folder, name))
        self.is_each, self.exit_zero = random.random() < 0.4, random.random() < 0.3
        self.tells_notes = random.random() < 0.3
        self.printers = [self.printer(*printer) for printer in case.printers]
        self.is_behind = random.random() < 0.1          # one job, and printers behind it
        self.taken = {b""}                    # names that are given
        self.jobs = self.random_jobs(case)
        self.is_behind = self.is_behind and is_text(self.jobs[0].name)
        self.words: List = []
        self.printer_words: List[str] = []    # the words that name the printers, in order
        self.input = b""

    def chance(self, part: float) -> bool:
        return self.random.random() < part

    def path(self, name: bytes) -> bytes:
        return os.path.join(os.fsencode(self.folder), name)

    def put(self, name: bytes, data: bytes) -> None:
        with open(self.path(name), "wb") as file:
            file.write(data)

    def answer(self, words: List, command: str = "check") -> Answer:
        run = subprocess.run([self.program, command, *words], cwd=self.folder, timeout=SECONDS,
                             input=self.input, capture_output=True)
        return Answer(run.returncode, run.stdout, run.stderr)

    def printer(self, word: str, text: bytes) -> Printer:
        if word:
            return Printer(word, text)
        name = self.random.choice(PROFILE_NAMES) % len(os.listdir(self.folder))
        path = self.random.choice(["", "in/"]) + name
        while os.path.exists(self.path(path.encode())):
            path += "x"
        self.put(path.encode(), text)
        return Printer(path, text)

    # The jobs.

    def random_jobs(self, case: jobs.Case) -> List[Job]:
        profiles = jobs.good_profiles(case.printers)
        found = [self.job(case.job)]
        for _ in range(0 if self.is_behind else self.random.choice([0, 1, 2, 5, 9])):
            chance = self.random.random()
            if chance < 0.15:
                found.append(self.unreadable())
            elif chance < 0.25:
                found.append(self.random.choice(found))
            elif chance < 0.4 or profiles is None:
                found.append(self.job(jobs.mutated(self.random, case.job or b"\x1bE")))
            else:
                found.append(self.job(jobs.JobMaker(self.random, profiles).make()))
        self.random.shuffle(found)
        return found

    def fresh_name(self) -> bytes:
        while True:
            name = self.random.choice([b"", b"", b"in/"]) + random_name(self.random)
            if name not in self.taken and not os.path.lexists(self.path(name)):
                self.taken.add(name)
                return name

    def job(self, data: bytes) -> Job:
        name = self.fresh_name()
        self.put(name, data)
        return Job(name, data if is_text(name) else None)

    def unreadable(self) -> Job:
        """A job that is not there, that is a folder, or whose path leads through a file."""
        if self.chance(0.1):
            return Job(b"", None)
        name = self.fresh_name()
        if self.chance(0.4):
            os.mkdir(self.path(name))
        elif self.chance(0.3):
            self.put(name, b"")
            name += b"/x"
        return Job(name, None)

    # The words.

    def ask(self) -> None:
        """Writes the words, with the files that these name."""
        flags = ["--each"] * self.is_each + ["--exit-zero"] * self.exit_zero \
            + ["--notes"] * self.tells_notes
        if self.is_behind:
            self.printer_words = [printer.path for printer in self.printers]
            self.words = [*flags, "--", *self.job_words(True), *self.printer_words]
            return
        options = [[flag] for flag in flags] + list(self.printer_options())
        if self.chance(0.3):
            options.append(self.names_option())
            self.words = list(itertools.chain(*options))
        elif self.chance(0.5):
            self.words = [*itertools.chain(*options), "--", *self.job_words(True)]
        else:
            words = [[word] for word in self.job_words(False)]
            places = sorted(self.random.randint(0, len(words)) for _ in options)
            for place, option in zip(reversed(places), reversed(options)):
                words.insert(place, option)
            self.words = list(itertools.chain(*words))

    def job_words(self, behind_dashes: bool) -> List[bytes]:
        """The names; where no word `--` stands before them, none begins as an option does."""
        is_read_once = not self.tells_notes and (not self.is_each or len(self.printers) == 1)
        if self.chance(0.15) and is_read_once:
            self.take_from_input(self.random.randrange(len(self.jobs)))
        if not behind_dashes:
            self.jobs = [Job(b"./" + job.name, job.data)
                         if job.name[:1] == b"-" and job.name != b"-" else job
                         for job in self.jobs]
        return [job.name for job in self.jobs]

    def take_from_input(self, place: int) -> None:
        """Has the job of this place come by standard input."""
        data = self.jobs[place].data
        if data is not None:
            self.input = data
            self.jobs[place] = Job(b"-", data)

    def names_option(self) -> List[str]:
        names = b"\0".join(job.name for job in self.jobs)
        is_of_lines = b"\n" in names and b"\0" not in names
        if self.chance(0.8) or names.endswith(b"\0") or not names or is_of_lines:
            names += b"\0"
        if self.chance(0.4):
            self.input = names
            return ["--files0-from=-"]
        self.put(b"in/names", names)
        return ["--files0-from", "in/names"]

    def printer_options(self) -> Iterator[List[str]]:
        """The printers by `-p`, and behind these, as the program has them, those of fleets."""
        alone = self.random.choice([0, len(self.printers), self.random.randint(0, 4)])
        for printer in self.printers[:alone]:
            self.printer_words.append(printer.path)
            yield self.random.choice([["-p", printer.path], [f"--printer={printer.path}"]])
        rest = [printer.path for printer in self.printers[alone:]]
        cut = self.random.randint(0, len(rest)) if self.chance(0.3) else 0
        for number, part in enumerate((rest[:cut], rest[cut:])):
            if part:
                path = self.random.choice(["", "in/", self.folder + "/in/"]) + f"fleet{number}"
                text, words = fleet_text(self.random, path, part, self.folder)
                self.put(path.encode(), text)
                self.printer_words += words
                yield self.random.choice([["-f", path], [f"--fleet={path}"]])

    def forms(self) -> List[Tuple[str, bool]]:
        """The forms that a run is made in, each with or without explanations. An empty form is
        asked for by no word."""
        is_plain = not self.is_behind or self.is_each or self.exit_zero or self.tells_notes
        return [("" if is_plain and self.chance(0.7) else "line", self.chance(0.3)),
                ("words", self.chance(0.3)), ("json", self.chance(0.3))]

    def words_of(self, form: str, explains: bool) -> List:
        """The words that ask for a form."""
        asked = self.random.choice([["--format", form], [f"--format={form}"]]) if form else []
        return [*asked, *["--explain"] * explains, *self.words]

    # What is said of a part of it.

    def groups(self) -> List[List[Printer]]:
        return [[printer] for printer in self.printers] if self.is_each else [self.printers]

    def alone(self, data: bytes, printers: List[Printer]) -> Answer:
        """What is said of a job by itself."""
        self.put(b"alone/job", data)
        given, self.input = self.input, b""
        answer = self.answer(["alone/job", *(printer.path for printer in printers)])
        self.input = given
        return answer

    def notes(self, printer: Printer) -> bytes:
        """What `notes` tells of the job that was last looked at by itself."""
        given, self.input = self.input, b""
        answer = self.answer(["alone/job", printer.path], "notes")
        self.input = given
        return answer.output

    def listed(self, data: bytes) -> bytes:
        """What `list` tells of a job."""
        return self.told_alone(data, ["alone/job"], "list")

    def picture(self, data: bytes, printer: Printer, page: int) -> bytes:
        """What `picture` draws of a page of a job."""
        return self.told_alone(data, ["alone/job", printer.path, "--page", str(page)], "picture")

    def told_alone(self, data: bytes, words: List[str], command: str) -> bytes:
        self.put(b"alone/job", data)
        given, self.input = self.input, b""
        answer = self.answer(words, command)
        self.input = given
        return answer.output

    def explanation(self, code: int) -> bytes:
        return self.answer([str(code)], "explain").output

    def failure(self, name: bytes) -> bytes:
        """Why a file cannot be read."""
        if not is_text(name):
            return NO_TEXT
        try:
            with open(self.path(name) if name else b"", "rb") as file:
                file.read(1)
        except OSError as error:
            return os.strerror(error.errno).encode()
        return b"it can be read"

    def lost_printer(self) -> int:
        """The place of the first printer whose file is not there."""
        return next(number for number, printer in enumerate(self.printers)
                    if printer.path[:1] != "@"
                    and not os.path.exists(self.path(printer.path.encode())))

    # What stands in the way.

    def lose_printer(self) -> None:
        """A file of a profile is not there."""
        paths = [printer.path for printer in self.printers if printer.path[:1] != "@"]
        if paths:
            os.remove(self.path(self.random.choice(paths).encode()))

    def broken_fleet(self) -> Tuple[List, Answer]:
        """Words that name a fleet without printers, and what is due."""
        text, told = self.random.choice(NO_FLEETS)
        path = "in/broken " + random_name(self.random, is_path=False).decode("ascii", "ignore")
        place = self.random.randint(0, 1) * len(self.words)
        if self.is_behind or "--" in self.words:
            place = 0
        words = [*self.words[:place], f"--fleet={path}", *self.words[place:]]
        shown = escaped(path.encode())
        if self.chance(0.3):
            return words, Answer(2, b"", b"ERROR read fleet %s: %s\n" % (
                shown, self.failure(path.encode())))
        self.put(path.encode(), text)
        return words, Answer(2, b"", b"ERROR fleet %s: %s\n" % (shown, told))


def is_text(name: bytes) -> bool:
    try:
        name.decode()
    except UnicodeDecodeError:
        return False
    return True
