#!/usr/bin/env python3
"""Measures the built program on jobs that this script makes.

    python3 bench/run.py                     every kind of job, and the commands, as tables
    python3 bench/run.py --commands          the commands alone
    python3 bench/run.py --many              many jobs in one run alone
    python3 bench/run.py --pictures          pictures of pages of many marks alone
    python3 bench/run.py --reports           reports of many jobs alone
    python3 bench/run.py --library           checks by the library alone; they need cc
    python3 bench/run.py --only lines        one kind; the option may come often
    python3 bench/run.py --size 32           jobs of 32 MiB
    python3 bench/run.py --program PATH      another build of the program
    python3 bench/run.py --against PATH      beside it this checker, on the same jobs in turns
    python3 bench/run.py --profile           the functions that take most instructions

The same jobs are made each time (made_jobs.py), whose pages all differ. Each has to pass for each
fleet, of one, two and four printers that differ in what does not show on a page: name, trays, macro
depth and macro memory. The script stops where one does not.

- MB/s: a million bytes a second, by the wall clock of the fastest of some runs.
- Instructions a byte: what callgrind counts more on a longer job than on a shorter one, for each
  byte more, so that the start of the program is not in it. A dash where valgrind is not installed.
- The bytes of `macro` are those of `written_out`, which has the commands of the macro on each of as
  many pages: so the rows of the two are of equal pages, and their numbers may be compared.
- A further printer: how many of these instructions come with each printer after the first.
- cat, wc -l: MB/s of these on the same file, which no checker passes by much.
- With --against the same numbers of the other program stand in columns of their own. It has to take
  the words `check JOB PROFILE..` and to answer as pclcheck does.
- Peak memory: what the system says of the program while it runs.
- The commands are run on one kind of job, for one printer. What they write is thrown away: standard
  output, and the OUT of `plain` and `pin`. To check: by how many times their instructions a byte
  are those of `check`. Their peak memory is that on a job of an eighth of the size, and on one of
  the whole size.
- Pictures: the first page of a job, which has this many marks, is drawn and thrown away. Of each
  kind of page there is one with an eighth of the marks, so that it is seen that memory stays as it
  is.
- Many jobs: 2,000 jobs of the same kind, each of whole pages and at least 4,096 bytes, are checked
  in one run for two printers, and beside it one job that is their bytes one behind another. More a
  job: what the run over many takes longer, for each of its jobs.
- Reports: 200 jobs, each of whole pages and at least 4,096 bytes, are told in a document of HTML,
  each with the picture of its first page, or of the one on which it fails. All is given a job, and
  the document is thrown away.
- The library: a job of whole pages and at least 4,096 bytes is checked over and over by a caller in
  C, which reads the fleet once, and by a process each time; in processor time.
"""

import argparse
import itertools
import os
import re
import shutil
import subprocess
import sys
import tempfile
import time
from dataclasses import dataclass, replace
from pathlib import Path

sys.dont_write_bytecode = True

import library                                                     # noqa: E402
from made_jobs import KINDS, RESET, characters_of_page, dense, rows_of_page   # noqa: E402

ROOT = Path(__file__).resolve().parent.parent
PROGRAM = ROOT / "crates" / "pclcheck" / "out" / "pclcheck"
BUILD = "make build"

PRINTER = "@B"

# Sample @B but for what stands in NAMED, in which the printers of a fleet differ.
PRINTER_OF_FLEET = b"""\
pclprofile 1
name %(name)b
size 2
orientation 0
vmi 8
font 1
copies 1
sides 0
tray 1
trays %(trays)b
duplex 1
depth %(depth)d
memory %(memory)d
geometry 2 0 61200 79200 1800 0 57600 79200 1200 1200 60000 78000
geometry 2 1 79200 61200 1440 0 76320 61200 1200 1200 78000 60000
geometry 26 0 59520 84168 1704 0 56112 84168 1200 1200 58320 82968
geometry 26 1 84168 59520 1416 0 81336 59520 1200 1200 82968 58320
face 1 10U 10 12 0 0 3 720 900 300 33-126
face 2 10U 12 10 0 0 3 600 750 250 33-126
"""

NAMED = (
    {b"name": b"counter", b"trays": b"1 2", b"depth": 8, b"memory": 1 << 20},
    {b"name": b"office", b"trays": b"1 2 3", b"depth": 7, b"memory": 1000000},
    {b"name": b"dispatch", b"trays": b"1 2 4 5", b"depth": 6, b"memory": 900000},
    {b"name": b"cellar", b"trays": b"1 2 6", b"depth": 5, b"memory": 800000},
)

# How many printers the fleets have.
FLEETS = (1, 2, 4)
RUNS = 5
MEBIBYTE = 1 << 20

# The sizes of the two jobs whose instructions are compared.
COUNTED_SIZES = (MEBIBYTE // 4, MEBIBYTE // 2)

# The commands of the program, and the kind of job on which they are compared.
COMMANDS = ("check", "list", "plain", "pages", "picture", "pin")
KIND_OF_COMMANDS = "mix"

# How many jobs are checked in one run, of how many bytes each at least, and for how many printers.
MANY_JOBS = 2000
SIZE_OF_MANY = 4096
PRINTERS_OF_MANY = 2

# The kinds of jobs that are checked by the library.
KINDS_OF_LIBRARY = ("rectangles", "words", "mix", "report")

# How many jobs a report has. The jobs by what they are made of, how they end, and the status.
JOBS_OF_REPORT = 200
REPORTS = {
    "forms": (KINDS["mix"], b"", 0),
    "words": (KINDS["words"], b"", 0),
    "text": (dense, b"", 0),
    "text, failing": (dense, b"\x1b(s9Q", 1),
}

# How many marks the pages have that are drawn, an eighth and the whole of them.
CHARACTERS_OF_PAGE = (100_000, 800_000)
ROWS_OF_PAGE = (675, 5_400)

# So many functions of a profile are printed.
PROFILE_ROWS = 20


class BenchError(Exception):
    """Why there is no number to tell."""


# The pages that are drawn, and how many marks they have.
PAGES = {characters_of_page: CHARACTERS_OF_PAGE, rows_of_page: ROWS_OF_PAGE}

# The kind whose bytes are counted for another.
COUNTED_AS = {"macro": "written_out"}


@dataclass(frozen=True)
class Job:
    """A job in a file, and how many bytes are counted for it."""

    kind: str
    path: Path
    size: int


def write_job(folder, kind, size):
    """Writes a job of whole pages of a kind, as many as have so many bytes."""
    path = Path(folder) / f"{kind}_{size}.pcl"
    with path.open("wb") as file:
        file.write(RESET)
        counted = len(RESET)
        for number in itertools.count():
            if counted >= size:
                break
            page = b"".join(KINDS[kind](number))
            file.write(page)
            counted += len(b"".join(KINDS[COUNTED_AS.get(kind, kind)](number)))
        file.write(RESET)
        counted += len(RESET)
    write_fleet(folder)
    return Job(kind, path, counted)


def write_fleet(folder):
    """Writes the profiles of the fleet."""
    for path, named in zip(profiles_in(folder), NAMED):
        path.write_bytes(PRINTER_OF_FLEET % named)


def profiles_in(folder):
    """The files of the profiles of the fleet."""
    return [Path(folder) / f"printer_{number}.profile" for number in range(len(NAMED))]


@dataclass(frozen=True)
class Run:
    """A command on a job, for a fleet of so many printers where it is `check`."""

    job: Job
    printers: int = 1
    command: str = "check"

    def words(self):
        """The words behind the program's name."""
        fleet = [str(path) for path in profiles_in(self.job.path.parent)[: self.printers]]
        behind = {
            "check": fleet,
            "list": [],
            "plain": [os.devnull],
            "pages": fleet,
            "picture": [*fleet, "--all"],
            "pin": [*fleet, os.devnull],
        }
        return [self.command, str(self.job.path), *behind[self.command]]

    def stdout(self):
        """Where standard output goes: a verdict is read, a text is thrown away."""
        return subprocess.PIPE if self.command == "check" else subprocess.DEVNULL

    def require_pass(self, status, output):
        """Fails where the job does not pass."""
        if status == 0 and (self.command != "check" or output.startswith(b"PASS ")):
            return
        line = (output or b"").decode("utf-8", "replace").strip()
        raise BenchError(
            f"a job of kind {self.job.kind} does not pass {self.command}, printers {self.printers}:"
            f" status {status}, {line or 'no line'}"
        )


@dataclass(frozen=True)
class ManyRun:
    """A check of the jobs that a file of names has, in one run, and its status."""

    names: Path
    jobs: int
    size: int
    form: str = "line"
    status: int = 0

    def words(self):
        """The words behind the program's name."""
        printers = ["-p", PRINTER] * PRINTERS_OF_MANY
        return ["check", *printers, "--format", self.form, "--files0-from", str(self.names)]

    def stdout(self):
        """Where standard output goes."""
        return subprocess.DEVNULL

    def require_pass(self, status, _output):
        """Fails where a job is not judged as it should be."""
        if status != self.status:
            raise BenchError(f"one of {self.jobs} jobs is judged otherwise: status {status}")


def write_many(folder):
    """Writes jobs of one kind, one more with the bytes of all, and for each run a file of names."""
    jobs = small_jobs(KINDS[KIND_OF_COMMANDS], MANY_JOBS)
    return write_jobs(folder, "many", jobs), write_jobs(folder, "one", [b"".join(jobs)])


def small_jobs(maker, count, last=b""):
    """So many jobs of whole pages, each of so many bytes at least, with this behind its pages."""
    pages = itertools.count()
    jobs = []
    for _ in range(count):
        job = RESET
        while len(job) < SIZE_OF_MANY:
            job += b"".join(maker(next(pages)))
        jobs.append(job + last + RESET)
    return jobs


def write_jobs(folder, name, jobs):
    """Writes jobs and a file of their names: the run over them."""
    paths = [Path(folder) / f"{name}_{number}.pcl" for number in range(len(jobs))]
    for path, job in zip(paths, jobs):
        path.write_bytes(job)
    names = Path(folder) / f"{name}.names"
    names.write_bytes(b"".join(os.fsencode(path) + b"\0" for path in paths))
    return ManyRun(names, len(paths), sum(map(len, jobs)))


@dataclass(frozen=True)
class Picture:
    """The picture of the one page of a job, which has so many marks."""

    job: Path
    marks: int
    size: int

    def words(self):
        """The words behind the program's name."""
        return ["picture", str(self.job), PRINTER]

    def stdout(self):
        """Where standard output goes."""
        return subprocess.DEVNULL

    def require_pass(self, status, _output):
        """Fails where the page is not drawn."""
        if status != 0:
            raise BenchError(f"a page of {self.marks} marks is not drawn: status {status}")


def write_page(folder, maker, marks):
    """Writes a job of one page of so many marks."""
    page = RESET + b"".join(maker(marks)) + RESET
    path = Path(folder) / f"{maker.__name__}_{marks}.pcl"
    path.write_bytes(page)
    return Picture(path, marks, len(page))


@dataclass(frozen=True)
class Program:
    """The program that is measured."""

    path: Path

    def run(self, run, under=()):
        """Runs the program, under another one where its words are given."""
        words = [*under, str(self.path), *run.words()]
        done = subprocess.run(words, stdout=run.stdout(), stderr=subprocess.PIPE, check=False)
        run.require_pass(done.returncode, done.stdout)

    def best_seconds(self, run):
        """The wall clock's time of the fastest of some runs."""
        return best_in_turns([lambda: self.run(run)])[0]

    def peak_memory(self, run):
        """The most memory that the program was seen to have, in MiB.

        The system's account of a program that has ended also counts what Python had when it
        started the program, so the program is watched while it runs. One that ends before it was
        seen is started again.
        """
        peak = 0
        words = [str(self.path), *run.words()]
        while peak == 0:
            with subprocess.Popen(words, stdout=run.stdout()) as process:
                while process.poll() is None:
                    peak = max(peak, high_water(process.pid))
                    time.sleep(0.001)
                output = process.stdout.read() if process.stdout else None
                run.require_pass(process.returncode, output)
        return peak / 1024

    def bytes_written(self, run):
        """How many bytes the program writes on standard output."""
        words = [str(self.path), *run.words()]
        with subprocess.Popen(words, stdout=subprocess.PIPE) as process:
            return sum(map(len, iter(lambda: process.stdout.read(MEBIBYTE), b"")))

    def run_counted(self, run):
        """Runs the program under callgrind, and gives the file of what that counted."""
        counts = run.job.path.with_suffix(".counts")
        self.run(run, ("valgrind", "--tool=callgrind", f"--callgrind-out-file={counts}"))
        return counts

    def instructions(self, run):
        """How many instructions the program takes."""
        text = self.run_counted(run).read_text(encoding="utf-8", errors="replace")
        found = re.search(r"^(?:summary|totals): (\d+)", text, re.MULTILINE)
        if found is None:
            raise BenchError("callgrind wrote no total")
        return int(found.group(1))

    def instructions_a_byte(self, short, long):
        """What the longer of two runs takes more, for each byte that its job has more."""
        more = self.instructions(long) - self.instructions(short)
        return more / (long.job.size - short.job.size)


def best_in_turns(calls):
    """The wall clock's time of the fastest run of each of these calls, which are made in turns."""
    best = [float("inf")] * len(calls)
    for _ in range(RUNS):
        for number, call in enumerate(calls):
            start = time.perf_counter()
            call()
            best[number] = min(best[number], time.perf_counter() - start)
    return best


def read_by(*words):
    """Lets a command of the system read a file."""
    with open(os.devnull, "wb") as nothing:
        subprocess.run(words, stdout=nothing, check=True)


def high_water(pid):
    """The most memory that a running process had so far, in KiB; 0 where it has ended."""
    try:
        status = Path(f"/proc/{pid}/status").read_text(encoding="utf-8", errors="replace")
    except OSError:
        return 0
    found = re.search(r"^VmHWM:\s+(\d+) kB$", status, re.MULTILINE)
    return int(found.group(1)) if found else 0


def processor():
    """The name of this machine's processor."""
    try:
        text = Path("/proc/cpuinfo").read_text(encoding="utf-8", errors="replace")
    except OSError:
        return "unknown"
    found = re.search(r"^model name\s*:\s*(.+)$", text, re.MULTILINE)
    return found.group(1) if found else "unknown"


# The columns of the tables, and to which side and how wide they are written.
COLUMNS_OF_SPEED = {
    "MB/s": ">6",
    "Instructions a byte": ">19",
    "A further printer": ">17",
    "Peak memory": ">11",
}
COLUMNS_OF_LIMITS = {"cat": ">6", "wc -l": ">6"}
COLUMNS_OF_COMMANDS = {
    "Command": "<7",
    "MB/s": ">6",
    "Instructions a byte": ">19",
    "To check": ">8",
    "Peak memory, an eighth": ">22",
    "Peak memory": ">11",
}

COLUMNS_OF_PICTURES = {
    "Page": "<10",
    "Marks": ">7",
    "Bytes": ">9",
    "Seconds": ">7",
    "Peak memory": ">11",
}

COLUMNS_OF_MANY = {
    "Jobs": "<4",
    "Printers": ">8",
    "Bytes": ">9",
    "Seconds": ">7",
    "More a job": ">10",
    "Peak memory": ">11",
}

COLUMNS_OF_LIBRARY = {
    "Job": "<11",
    "Bytes": ">5",
    "Printers": ">8",
    "By the library": ">14",
    "By a process": ">12",
}

COLUMNS_OF_REPORTS = {
    "Jobs": "<13",
    "Bytes": ">5",
    "Milliseconds": ">12",
    "Bytes written": ">13",
    "Peak memory": ">11",
}


def print_head(columns):
    """Prints the head of a table."""
    print_row(columns, columns)
    print_row(columns, ["---"] + ["--:"] * (len(columns) - 1))


def print_row(columns, cells):
    """Prints a row of a table."""
    written = (f"{cell:{form}}" for cell, form in zip(cells, columns.values()))
    print("|", " | ".join(written), "|", flush=True)


def columns_of(programs):
    """The columns of the table of kinds, for so many programs."""
    columns = {"Job": "<11", "Printers": ">8", "Bytes": ">9"}
    for number in range(len(programs)):
        before = "Against: " if number else ""
        for name, form in COLUMNS_OF_SPEED.items():
            columns[before + name] = f">{max(int(form[1:]), len(before + name))}"
    return {**columns, **COLUMNS_OF_LIMITS}


def print_table(programs, folder, kinds, size):
    """Prints what each kind of job costs for each fleet."""
    columns = columns_of(programs)
    print_head(columns)
    for kind in kinds:
        print_rows_of_kind(programs, folder, kind, size, columns)


def print_rows_of_kind(programs, folder, kind, size, columns):
    """Prints what a kind of job costs for each fleet."""
    job = write_job(folder, kind, size)
    counted = [write_job(folder, kind, count) for count in COUNTED_SIZES]
    limits = [lambda: read_by("cat", str(job.path)), lambda: read_by("wc", "-l", str(job.path))]
    alone = {}
    for printers in FLEETS:
        calls = [lambda it=it: it.run(Run(job, printers)) for it in programs] + limits
        seconds = best_in_turns(calls)
        numbers = []
        for program, own in zip(programs, seconds):
            cost, further = None, None
            if shutil.which("valgrind"):
                cost = program.instructions_a_byte(*(Run(part, printers) for part in counted))
                first = alone.setdefault(program, cost)
                further = (cost - first) / (printers - 1) if printers > 1 else None
            memory = mebibytes(program.peak_memory(Run(job, printers)))
            numbers += [tenths(job.size / 1e6 / own), tenths(cost), tenths(further), memory]
        bytes_read = os.path.getsize(job.path)
        numbers += [f"{bytes_read / 1e6 / of_limit:.0f}" for of_limit in seconds[len(programs) :]]
        print_row(columns, [kind, printers, job.size, *numbers])


def print_commands(program, folder, size):
    """Prints what each command costs on one kind of job."""
    print_head(COLUMNS_OF_COMMANDS)
    jobs = [write_job(folder, KIND_OF_COMMANDS, part) for part in (size // 8, size)]
    counted = [write_job(folder, KIND_OF_COMMANDS, count) for count in COUNTED_SIZES]
    check = None
    for command in COMMANDS:
        small, large = (Run(job, command=command) for job in jobs)
        speed = large.job.size / 1e6 / program.best_seconds(large)
        cost, ratio = None, None
        if shutil.which("valgrind"):
            cost = program.instructions_a_byte(*(Run(job, command=command) for job in counted))
            check = check or cost
            ratio = cost / check
        memories = (mebibytes(program.peak_memory(run)) for run in (small, large))
        numbers = [tenths(speed), tenths(cost), hundredths(ratio), *memories]
        print_row(COLUMNS_OF_COMMANDS, [command, *numbers])


def print_many(program, folder):
    """Prints what many jobs cost in one run, and the same bytes in one job."""
    print_head(COLUMNS_OF_MANY)
    many, one = write_many(folder)
    alone = program.best_seconds(one)
    for run in (one, many):
        seconds = alone if run is one else program.best_seconds(run)
        more = "" if run is one else f"{1000 * (seconds - alone) / run.jobs:.3f} ms"
        memory = mebibytes(program.peak_memory(run))
        numbers = [run.size, f"{seconds:.2f}", more, memory]
        print_row(COLUMNS_OF_MANY, [run.jobs, PRINTERS_OF_MANY, *numbers])


def print_reports(program, folder):
    """Prints what reports of many jobs cost, for each job."""
    print_head(COLUMNS_OF_REPORTS)
    for name, (maker, last, status) in REPORTS.items():
        jobs = write_jobs(folder, name, small_jobs(maker, JOBS_OF_REPORT, last))
        run = replace(jobs, form="html", status=status)
        milliseconds = 1000 * program.best_seconds(run) / run.jobs
        written = program.bytes_written(run) // run.jobs
        numbers = [run.size // run.jobs, hundredths(milliseconds), written]
        print_row(COLUMNS_OF_REPORTS, [name, *numbers, mebibytes(program.peak_memory(run))])


def print_pictures(program, folder):
    """Prints what pictures of pages of many marks cost."""
    print_head(COLUMNS_OF_PICTURES)
    for maker, counts in PAGES.items():
        for picture in (write_page(folder, maker, marks) for marks in counts):
            seconds, memory = program.best_seconds(picture), program.peak_memory(picture)
            kind = maker.__name__.removesuffix("_of_page")
            numbers = [picture.marks, picture.size, f"{seconds:.2f}", mebibytes(memory)]
            print_row(COLUMNS_OF_PICTURES, [kind, *numbers])


def print_library(program, folder):
    """Prints what a check of a small job takes by the library, and by a process."""
    caller = library.built_caller(Path(folder))
    print_head(COLUMNS_OF_LIBRARY)
    write_fleet(folder)
    for name in KINDS_OF_LIBRARY:
        job = Path(folder) / f"library_{name}.pcl"
        job.write_bytes(small_jobs(KINDS[name], 1)[0])
        for count in FLEETS:
            fleet = profiles_in(folder)[:count]
            took = f"{library.by_library(caller, job, fleet):.3f} ms"
            process = f"{library.by_process(program.path, job, fleet):.2f} ms"
            print_row(COLUMNS_OF_LIBRARY, [name, job.stat().st_size, count, took, process])


def tenths(number):
    """A number with one decimal; a dash where there is none."""
    return "-" if number is None else f"{number:.1f}"


def hundredths(number):
    """A number with two decimals; a dash where there is none."""
    return "-" if number is None else f"{number:.2f}"


def mebibytes(number):
    """A number of MiB with one decimal."""
    return f"{number:.1f} MiB"


def print_profile(program, folder, kind):
    """Prints the functions that take most instructions themselves, for one printer."""
    if not shutil.which("valgrind"):
        raise BenchError("a profile needs valgrind, which is not installed")
    job = write_job(folder, kind, COUNTED_SIZES[-1])
    counts = program.run_counted(Run(job))
    words = ["callgrind_annotate", "--auto=no", "--threshold=100", str(counts)]
    done = subprocess.run(words, stdout=subprocess.PIPE, check=True)
    text = done.stdout.decode("utf-8", "replace")
    rows = re.findall(r"^\s*([\d,]+) *\(\s*([\d.]+)%\)\s+(.+)$", text, re.MULTILINE)
    print(f"{kind}: {job.size} bytes, one printer\n")
    print("  share   a byte  function")
    for total, share, function in rows[: PROFILE_ROWS + 1]:
        a_byte = int(total.replace(",", "")) / job.size
        print(f"{share:>5} % {a_byte:8.2f}  {short_name(function)}")
    print()


def short_name(function):
    """A function's name in a profile without its file's folders, its types and its program."""
    name = re.sub(r"\s*\[[^\]]*\]$", "", function)
    name = re.sub(r"::<#[0-9a-f]+>", "", name).removeprefix("???:")
    return re.sub(r"^\S*/([^/\s]+:)", r"\1", name)


def arguments():
    """What the words of this script ask for."""
    parser = argparse.ArgumentParser(
        description=__doc__, formatter_class=argparse.RawDescriptionHelpFormatter
    )
    parser.add_argument("--program", type=Path, default=PROGRAM, help="the built program")
    parser.add_argument("--against", type=Path, help="a checker that is measured beside it")
    parser.add_argument("--only", action="append", choices=KINDS, help="a kind of job")
    parser.add_argument("--size", type=float, default=8, help="the size of a job in MiB")
    parser.add_argument("--commands", action="store_true", help="the commands alone")
    parser.add_argument("--many", action="store_true", help="many jobs in one run alone")
    parser.add_argument("--pictures", action="store_true", help="pictures of full pages alone")
    parser.add_argument("--reports", action="store_true", help="reports of many jobs alone")
    parser.add_argument("--library", action="store_true", help="checks by the library alone")
    parser.add_argument("--profile", action="store_true", help="the functions that cost most")
    return parser.parse_args()


def print_all(program, folder, words):
    """Prints what the words ask for."""
    kinds = words.only or list(KINDS)
    size = int(words.size * MEBIBYTE)
    if words.profile:
        for kind in kinds:
            print_profile(program, folder, kind)
        return
    print(f"Processor: {processor()}\n")
    parts = (words.commands, words.many, words.pictures, words.reports, words.library, words.only)
    is_whole = not any(parts)
    tables = []
    if words.only or is_whole:
        programs = [program, Program(words.against.resolve())] if words.against else [program]
        tables.append(lambda: print_table(programs, folder, kinds, size))
    if words.commands or is_whole:
        tables.append(lambda: print_commands(program, folder, size))
    if words.many or is_whole:
        tables.append(lambda: print_many(program, folder))
    if words.pictures or is_whole:
        tables.append(lambda: print_pictures(program, folder))
    if words.reports or is_whole:
        tables.append(lambda: print_reports(program, folder))
    if words.library or (is_whole and shutil.which("cc")):
        tables.append(lambda: print_library(program, folder))
    for number, table in enumerate(tables):
        if number:
            print()
        table()


def main():
    words = arguments()
    try:
        if not words.program.is_file():
            raise BenchError(f"there is no program at {words.program}; build it: {BUILD}")
        if words.against and not words.against.is_file():
            raise BenchError(f"there is no program at {words.against}")
        with tempfile.TemporaryDirectory() as folder:
            print_all(Program(words.program.resolve()), folder, words)
    except (BenchError, OSError, subprocess.CalledProcessError) as error:
        print(f"bench: {error}", file=sys.stderr)
        return 1
    return 0


if __name__ == "__main__":
    sys.exit(main())
