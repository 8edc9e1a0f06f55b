#!/usr/bin/env python3
"""Checks each job that is put into a folder, and moves it to a folder of its verdict.

    hotfolder.py FOLDER FLEET --results RESULTS [OPTION..]

A job NAME goes to RESULTS/passed if it passes, else to RESULTS/refused, with a file NAME.txt that
says why. What lies there is a copy, and this copy is what pclcheck checked. A job without a verdict
stays in FOLDER. A file is taken when it is whole: not empty, unchanged for the quiet seconds, and
open for writing by no process of this machine. Names that begin with a dot or end with .part, .tmp
or .filepart are ignored, and so is everything that is no regular file.

RESULTS, and FOLDER too if it holds the results, must belong to the user who runs this, and nobody
else may write there.

The environment variable PCLCHECK names the program (default: pclcheck on the PATH). Exit status:

    0  nothing to complain about
    1  with --once: a job was refused
    2  wrong arguments
    3  trouble; with --once also: a job has no verdict
    4  another run holds the folder

SIGINT and SIGTERM end the program after the current job.
"""

import argparse
import bisect
import errno
import fcntl
import math
import mmap
import os
import re
import signal
import stat
import subprocess
import sys
import time
import traceback
from collections.abc import Iterator
from contextlib import contextmanager, suppress
from dataclasses import dataclass, field
from pathlib import Path
from types import FrameType
from typing import NamedTuple

sys.dont_write_bytecode = True

UNFINISHED = (".part", ".tmp", ".filepart")
PASSED, REFUSED, NO_VERDICT, HELD = 0, 1, 3, 4
FOLDERS = {PASSED: "passed", REFUSED: "refused"}    # by the exit status of pclcheck
WORK, LOCK, COPY, TEXT = ".hotfolder", "lock", "job", "text"
CLAIM = ".hf-"                              # no longer than the .txt of a name
RETRY_SECONDS = 30.0                        # until a job without a verdict is tried again
PIECE = 1 << 20
HOLE = bytes(PIECE)
# An overlay of 2,000 items on each of 10,000 pages; it takes some seconds for each printer.
MOST_ITEMS = 20_000_000
MOST_BYTES = 1 << 30
UNCHECKED = {"refuse": "fail", "pass": "pass"}      # what pclcheck is told about such jobs
TOO_MANY_ITEMS = b"(ERROR items)"           # ends the sentence of a job that would run for hours
OTHER_LANGUAGE = ("this job is PostScript, PDF or PCL XL, or turns to one of them, which pclcheck "
                  "does not check")
# No link, and no waiting at a pipe that came in place of the file.
READ = os.O_RDONLY | os.O_NOFOLLOW | os.O_NONBLOCK


class Trouble(Exception):
    """A sentence about why the program cannot go on."""


class TooLong(Exception):
    """A check takes more time than it may."""


# ---- what is printed

def shown(name: str) -> str:
    """A name in one line, whatever its bytes are."""
    text = os.fsencode(name).decode("utf-8", "backslashreplace")
    return "".join(sign if sign.isprintable() else sign.encode("unicode_escape").decode()
                   for sign in text)


def put(descriptor: int, line: str) -> None:
    """Writes a line at once, so that nothing is left to fail at the end of the program."""
    left = f"{line}\n".encode(getattr(sys.stdout, "encoding", "utf-8"), "backslashreplace")
    while left:
        left = left[os.write(descriptor, left):]


def tell(text: str) -> None:
    with suppress(OSError):
        put(2, f"hotfolder: {text}")


def reason(error: Exception) -> str:
    if isinstance(error, OSError) and error.strerror:
        file = error.filename
        return error.strerror if file is None else f"{shown(str(file))}: {error.strerror}"
    return str(error)


# ---- files and folders

class State(NamedTuple):
    """What changes when a file is written or replaced. `changed` changes with its name, too."""
    device: int
    inode: int
    size: int
    written: int
    changed: int


def state_of(found: os.stat_result) -> State:
    return State(found.st_dev, found.st_ino, found.st_size, found.st_mtime_ns, found.st_ctime_ns)


def state_at(folder: int, name: str) -> State | None:
    try:
        return state_of(os.stat(name, dir_fd=folder, follow_symlinks=False))
    except OSError:
        return None


@contextmanager
def created(name: str, folder: int, mode: int) -> Iterator[int]:
    flags = os.O_RDWR | os.O_CREAT | os.O_EXCL | os.O_NOFOLLOW
    descriptor = os.open(name, flags, mode, dir_fd=folder)
    try:
        yield descriptor
    finally:
        os.close(descriptor)


def open_folder(path: str | Path, above: int | None = None) -> int:
    return os.open(path, os.O_RDONLY | os.O_DIRECTORY | os.O_NOFOLLOW, dir_fd=above)


def demand_own(found: os.stat_result, path: Path, owners: tuple[int, ...]) -> None:
    if found.st_uid not in owners:
        raise Trouble(f"{path} belongs to another user")
    if found.st_mode & (stat.S_IWGRP | stat.S_IWOTH):
        raise Trouble(f"{path} can be written to by other users")


def real_path(given: Path) -> Path:
    """A path on which no other user can exchange a folder, or lay a link.

    In a sticky folder, like /tmp, others can exchange only what is theirs.
    """
    path, real = Path(os.path.abspath(given)), given.resolve()
    if path != real:
        raise Trouble(f"{given} leads through a symbolic link; name {real} instead")
    owners = 0, os.geteuid()
    for above in path.parents:
        found = above.lstat()
        if not (found.st_mode & stat.S_ISVTX and found.st_uid in owners):
            demand_own(found, above, owners)
    return path


def make_folder(above: int, name: str, path: Path, mode: int) -> int:
    with suppress(FileExistsError):
        os.mkdir(name, mode, dir_fd=above)
    try:
        folder = open_folder(name, above)
    except OSError as error:
        if error.errno in (errno.ELOOP, errno.ENOTDIR):
            raise Trouble(f"{path / name} is no folder") from error
        raise
    demand_own(os.fstat(folder), path / name, (os.geteuid(),))
    return folder


def write_all(descriptor: int, data: bytes) -> None:
    view = memoryview(data)
    while view:
        view = view[os.write(descriptor, view):]


def copy(source: int, target: int, size: int) -> None:
    """Copies so many bytes at most. Holes stay holes, so a copy takes no more room than its job."""
    left = size
    while left and (piece := os.read(source, min(PIECE, left))):
        left -= len(piece)
        if piece == HOLE[:len(piece)]:
            os.lseek(target, len(piece), os.SEEK_CUR)
        else:
            write_all(target, piece)
    os.ftruncate(target, size - left)


def is_being_written(descriptor: int) -> bool:
    """Whether a process of this machine has the file open for writing.

    The kernel gives a read lease on a file only if none has. If it gives no leases (for another
    user's file, or in a network folder), nothing is known, and only the quiet seconds count.
    """
    try:
        fcntl.fcntl(descriptor, fcntl.F_SETLEASE, fcntl.F_RDLCK)
        fcntl.fcntl(descriptor, fcntl.F_SETLEASE, fcntl.F_UNLCK)
    except OSError as error:
        return error.errno == errno.EAGAIN
    return False


# ---- the verdict

BLANKS = re.compile(rb"[\t\n\f\r \0\x04]*")
LANGUAGE = re.compile(rb"%!|%PDF-|[)('] HP-PCL XL")
JOB_LINE = re.compile(rb"@PJL")
SWITCH = re.compile(rb"\x1b(?:%-12345X|E)")
SWITCH_OR_LINE_END = re.compile(rb"\x1b(?:%-12345X|E)|\n")


def turns_to_language(job: bytes | mmap.mmap, end: float) -> bool:
    """Whether another language begins at the start of the job, after a universal exit or a reset.

    Blanks and PJL lines may come before it. An exit or a reset within a PJL line does not end the
    line for every printer, so both what follows it and the next line count. Each byte is passed
    once, however the job is made.
    """
    at, is_in_line = 0, False
    while time.monotonic() < end:
        start = BLANKS.match(job, at).end()
        is_in_line = is_in_line and job.find(b"\n", at, start) < 0
        if LANGUAGE.match(job, start):
            return True
        is_in_line = is_in_line or JOB_LINE.match(job, start) is not None
        stop = (SWITCH_OR_LINE_END if is_in_line else SWITCH).search(job, start)
        if stop is None:
            return False
        at = stop.end()
        is_in_line = is_in_line and job[at - 1:at] != b"\n"
    raise TooLong


def is_other_language(descriptor: int, end: float) -> bool:
    with mmap.mmap(descriptor, 0, access=mmap.ACCESS_READ) as job:
        return turns_to_language(job, end)


def run_program(words: list[str], job: int, end: float) -> tuple[int, bytes]:
    """The exit status of a program and what it prints.

    It is ended with all that it started if it takes too long. An INT of the terminal does not
    reach it.
    """
    with subprocess.Popen(words, stdin=job, stdout=subprocess.PIPE, stderr=subprocess.STDOUT,
                          process_group=0) as process:
        try:
            said, _ = process.communicate(timeout=end - time.monotonic())
        except subprocess.TimeoutExpired as error:
            os.killpg(process.pid, signal.SIGKILL)
            process.communicate()
            raise TooLong from error
    return process.returncode, said


@dataclass(frozen=True)
class Checker:
    program: str
    fleet: Path
    most_items: int
    unchecked: str
    timeout: float
    is_any_language: bool

    def check(self, name: str, job: int) -> tuple[int, bytes]:
        """The status of a job, and a text about it.

        What takes too long is refused, since another try would end in the same way.
        """
        end = time.monotonic() + self.timeout
        try:
            if not self.is_any_language and is_other_language(job, end):
                return REFUSED, f"{shown(name)}: {OTHER_LANGUAGE}\n".encode()
            os.lseek(job, 0, os.SEEK_SET)
            status, said = run_program(self.words(), job, end)
        except TooLong:
            return REFUSED, (f"{shown(name)}: the check of this job takes more than "
                             f"{self.timeout:g} seconds\n").encode()
        sentence = said.partition(b"\n")[0]
        if status > REFUSED and sentence.endswith(TOO_MANY_ITEMS):
            status = REFUSED
        if status < 0:
            return NO_VERDICT, f"signal {-status} ended pclcheck".encode()
        if status not in FOLDERS or not said.startswith(b"-: "):
            return NO_VERDICT, sentence or b"pclcheck printed nothing"
        return status, shown(name).encode() + said.removeprefix(b"-")

    def words(self) -> list[str]:
        return [self.program, "check", "--format", "words", "--explain",
                "--most-items", str(self.most_items), "--unchecked", UNCHECKED[self.unchecked],
                "-f", str(self.fleet), "-"]


# ---- the results

def numbered(name: str, number: int) -> str:
    path = Path(name)
    return name if number == 1 else f"{path.stem}.{number}{path.suffix}"


def is_there(folder: int, name: str) -> bool:
    with suppress(FileNotFoundError):
        os.stat(name, dir_fd=folder, follow_symlinks=False)
        return True
    return False


def free_name(folder: int, name: str, *ends: str) -> str:
    """The name, or one with a number, if no file has it, nor has it with one of the ends.

    Few names are tried, however many are taken.
    """
    def is_free(number: int) -> bool:
        return not any(is_there(folder, numbered(name, number) + end) for end in ("", *ends))

    bound = 1
    while not is_free(bound):
        bound *= 2
    least = bound // 2 + 1
    return numbered(name, least + bisect.bisect_left(range(least, bound), True, key=is_free))


class Results:
    """The folders of the results, opened once. Only this user can write there.

    Besides, a private folder has the lock, and a job and its text until they get their names.
    """

    def __init__(self, path: Path) -> None:
        self.path = real_path(path)
        above = open_folder(self.path)
        try:
            demand_own(os.fstat(above), self.path, (os.geteuid(),))
        except Trouble as error:
            raise Trouble(f"{error}; choose a folder of your own by --results") from error
        self.folders = {status: make_folder(above, name, self.path, 0o755)
                        for status, name in FOLDERS.items()}
        self.work = make_folder(above, WORK, self.path, 0o700)

    def lock(self) -> bool:
        """Whether no other run holds the folder; the lock ends with this process."""
        lock = os.open(LOCK, os.O_RDWR | os.O_CREAT | os.O_NOFOLLOW, 0o600, dir_fd=self.work)
        try:
            fcntl.flock(lock, fcntl.LOCK_EX | fcntl.LOCK_NB)
        except BlockingIOError:
            os.close(lock)
            return False
        self.clear()                        # what a run left that was killed
        return True

    def clear(self) -> None:
        for name in (COPY, TEXT):
            with suppress(FileNotFoundError):
                os.unlink(name, dir_fd=self.work)

    def keep_text(self, said: bytes) -> None:
        with created(TEXT, self.work, 0o644) as text:
            write_all(text, said)

    def publish(self, place: str, status: int) -> None:
        """The text comes first: whoever sees the job has its text, too."""
        folder = self.folders[status]
        text = f"{place}.txt"
        os.rename(TEXT, text, src_dir_fd=self.work, dst_dir_fd=folder)
        try:
            os.rename(COPY, place, src_dir_fd=self.work, dst_dir_fd=folder)
        except OSError:
            os.unlink(text, dir_fd=folder)
            raise
        with suppress(OSError):             # some network folders cannot
            os.fsync(folder)


# ---- the folder of jobs

@dataclass(frozen=True)
class Job:
    """A file of the folder, opened once: only what is read from here is checked and handed on."""
    folder: int
    name: str
    descriptor: int
    state: State

    def is_same(self) -> bool:
        """Whether nobody wrote the file or put another one in its place."""
        now = state_of(os.fstat(self.descriptor))
        return self.state == now == state_at(self.folder, self.name)

    def claim(self) -> bool:
        """Takes the name away, so that nobody takes it twice; whether this was still the job."""
        claimed = CLAIM + self.name
        os.rename(self.name, claimed, src_dir_fd=self.folder, dst_dir_fd=self.folder)
        now = state_of(os.fstat(self.descriptor))
        is_unwritten = (now.size, now.written) == (self.state.size, self.state.written)
        return is_unwritten and now == state_at(self.folder, claimed)

    def give_back(self) -> None:
        give_back(self.folder, self.name)

    def remove(self) -> None:
        with suppress(FileNotFoundError):
            os.unlink(CLAIM + self.name, dir_fd=self.folder)


def give_back(folder: int, name: str) -> None:
    """A claimed file gets its name again, with a number if another file has it by now."""
    try:
        os.rename(CLAIM + name, free_name(folder, name), src_dir_fd=folder, dst_dir_fd=folder)
    except OSError as error:
        tell(f"{shown(CLAIM + name)} keeps this name: {error.strerror}")


class Seen(NamedTuple):
    state: State | None
    when: float


@dataclass
class HotFolder:
    path: Path
    results: Results
    checker: Checker
    quiet: float
    most_bytes: int
    since: dict[str, Seen] = field(default_factory=dict)    # unchanged since when
    retry: dict[str, Seen] = field(default_factory=dict)    # not before when
    status: int = 0
    is_stopping: bool = False

    def open(self) -> int:
        """Opened for each look: a network folder may come and go."""
        return open_folder(real_path(self.path))

    def is_quiet(self, name: str, found: State) -> bool:
        now = time.monotonic()
        if name not in self.since or self.since[name].state != found:
            self.since[name] = Seen(found, now)
        return now - self.since[name].when >= self.quiet

    def is_due(self, name: str, found: State | None) -> bool:
        """Whether a job without a verdict has changed, or waited long enough."""
        last = self.retry.get(name)
        return last is None or last.state != found or time.monotonic() >= last.when

    def stay(self, folder: int, name: str, why: str) -> None:
        tell(f"{shown(name)} stays, without a verdict: {why}")
        self.retry[name] = Seen(state_at(folder, name), time.monotonic() + RETRY_SECONDS)
        self.status = NO_VERDICT

    def finish(self, job: Job, status: int, place: str) -> None:
        """What fails now changes nothing: the job has its place."""
        self.status = max(self.status, status)
        for what, step in (("its source cannot be removed", job.remove),
                           ("standard output cannot be written to",
                            lambda: put(1, f"{FOLDERS[status]} {shown(place)}"))):
            try:
                step()
            except OSError as error:
                tell(f"{shown(place)} is in {FOLDERS[status]}, but {what}: {error.strerror}")
                self.status = NO_VERDICT

    def move(self, job: Job, status: int, said: bytes) -> None:
        place = free_name(self.results.folders[status], job.name, ".txt")
        self.results.keep_text(said)
        try:
            is_claimed = job.claim()
        except OSError as error:
            raise Trouble(f"it cannot be taken out of the folder: {error.strerror}") from error
        if not is_claimed:
            job.give_back()
            return
        try:
            self.results.publish(place, status)
        except OSError:
            job.give_back()
            raise
        self.finish(job, status, place)

    def handle(self, job: Job) -> None:
        """Copies a job, checks the copy, and hands it on."""
        if job.state.size > self.most_bytes:
            raise Trouble(f"it has more than {self.most_bytes} bytes")
        if os.fstat(job.descriptor).st_nlink > 1:
            raise Trouble("it has a second name")   # it may be another user's file
        with created(COPY, self.results.work, 0o600) as kept:
            try:
                copy(job.descriptor, kept, job.state.size)
            except OSError as error:
                raise Trouble(f"it cannot be copied: {error.strerror}") from error
            if not job.is_same():
                return
            status, said = self.checker.check(job.name, kept)
            if not job.is_same():
                return                      # written meanwhile: it may be half a job
            if status not in FOLDERS:
                raise Trouble(said.decode(errors="replace"))
            os.fsync(kept)                  # before the source goes
        try:
            self.move(job, status, said)
        except OSError as error:
            raise Trouble(f"it cannot be moved to {FOLDERS[status]}: {error.strerror}") from error

    def consider(self, job: Job) -> bool:
        """Handles a job if it is whole; whether it may become so."""
        if not self.is_due(job.name, job.state):
            return False
        if not self.is_quiet(job.name, job.state) or is_being_written(job.descriptor):
            return True
        try:
            self.handle(job)
        except (OSError, Trouble) as error:
            self.stay(job.folder, job.name, reason(error))
        except MemoryError:                 # the other jobs go on
            self.stay(job.folder, job.name, "memory ran out")
        finally:
            self.results.clear()
        return False

    def look(self, folder: int, name: str) -> bool:
        """Opens a file, since only then does a network folder say how it is now."""
        try:
            if not stat.S_ISREG(os.stat(name, dir_fd=folder, follow_symlinks=False).st_mode):
                return False
            descriptor = os.open(name, READ, dir_fd=folder)
        except FileNotFoundError:
            return False
        except OSError as error:
            if self.is_due(name, state_at(folder, name)):
                self.stay(folder, name, error.strerror)
            return False
        try:
            found = os.fstat(descriptor)
            if not stat.S_ISREG(found.st_mode) or not found.st_size:
                return False
            return self.consider(Job(folder, name, descriptor, state_of(found)))
        finally:
            os.close(descriptor)

    def round(self) -> bool:
        """Handles all that is whole; whether files are left that may become so."""
        is_left = False
        folder = self.open()
        try:
            names = sorted(os.listdir(folder))
            for name in names:
                if self.is_stopping:
                    break
                if not name.startswith(".") and not name.endswith(UNFINISHED):
                    is_left = self.look(folder, name) or is_left
        finally:
            os.close(folder)
        for known in (self.since, self.retry):
            for name in set(known).difference(names):
                del known[name]
        return is_left

    def recover(self) -> None:
        """Files that a killed run had claimed get their names again."""
        folder = self.open()
        try:
            for name in os.listdir(folder):
                if name.startswith(CLAIM) and name != CLAIM:
                    give_back(folder, name.removeprefix(CLAIM))
        finally:
            os.close(folder)

    def pause(self, seconds: float) -> None:
        end = time.monotonic() + seconds
        while not self.is_stopping and (left := end - time.monotonic()) > 0:
            time.sleep(min(left, 0.2))

    def once(self) -> int:
        if not self.results.lock():
            tell(f"another run has {self.path}")
            return HELD
        self.recover()
        if self.round():
            self.pause(self.quiet)
            self.round()
        return self.status

    def wait_for_lock(self, every: float) -> bool:
        is_told = False
        while not self.results.lock():
            if self.is_stopping:
                return False
            if not is_told:
                tell(f"another run has {self.path}; this one waits for its end")
                is_told = True
            self.pause(every)
        return True

    def watch(self, every: float) -> int:
        if not self.wait_for_lock(every):
            return HELD
        told, is_recovered = "", False
        while not self.is_stopping:
            try:
                if not is_recovered:
                    self.recover()
                    is_recovered = True
                self.round()
                told = ""
            except (OSError, Trouble) as error:     # a network folder may be gone for a time
                if told != reason(error):
                    told = reason(error)
                    tell(told)
            self.pause(every)
        return 0

    def stop(self, number: int, frame: FrameType | None) -> None:
        """The current job is handled to its end."""
        self.is_stopping = True


# ---- arguments

def seconds(text: str) -> float:
    number = float(text)
    if not math.isfinite(number) or number < 0:
        raise ValueError
    return number


def parser_of_arguments() -> argparse.ArgumentParser:
    parser = argparse.ArgumentParser(description=__doc__,
                                     formatter_class=argparse.RawDescriptionHelpFormatter)
    add = parser.add_argument
    add("folder", type=Path, metavar="FOLDER", help="where jobs are put")
    add("fleet", type=Path, metavar="FLEET", help="a file that lists one profile per line")
    add("--results", type=Path, metavar="RESULTS",
        help="the folder of passed and refused (default: FOLDER)")
    add("--once", action="store_true", help="handle what is there, and exit")
    add("--quiet", type=seconds, default=2.0, metavar="SECONDS",
        help="how long a whole file has not changed (default: 2)")
    add("--every", type=seconds, default=1.0, metavar="SECONDS",
        help="how long to wait between two looks (default: 1)")
    add("--timeout", type=seconds, default=600.0, metavar="SECONDS",
        help="refuse a job whose check takes longer (default: 600)")
    add("--most-items", type=int, default=MOST_ITEMS, metavar="N",
        help=f"refuse a job whose macros carry out more items (default: {MOST_ITEMS})")
    add("--most-bytes", type=int, default=MOST_BYTES, metavar="N",
        help=f"leave a job alone that has more bytes (default: {MOST_BYTES})")
    add("--unchecked", choices=UNCHECKED, default="refuse",
        help="what to do with a job that pclcheck cannot judge (default: refuse); pass only if you "
             "trust the authors of all jobs")
    add("--any-language", action="store_true",
        help="do not refuse PostScript, PDF and PCL XL that pass as PCL")
    add("--allow-root", action="store_true", help="run although the user is root")
    return parser


def arguments() -> argparse.Namespace:
    parser = parser_of_arguments()
    given = parser.parse_args()
    given.results = given.results or given.folder
    for path in (given.folder, given.fleet, given.results):
        if not path.exists():
            parser.error(f"{path} does not exist")
    if os.geteuid() == 0 and not given.allow_root:
        parser.error("root need not run this: use a user of its own, or --allow-root")
    return given


def run() -> int:
    given = arguments()
    checker = Checker(os.environ.get("PCLCHECK", "pclcheck"), given.fleet.resolve(),
                      given.most_items, given.unchecked, given.timeout, given.any_language)
    folder = HotFolder(given.folder, Results(given.results), checker, given.quiet,
                       given.most_bytes)
    signal.signal(signal.SIGIO, signal.SIG_IGN)     # a writer that meets the lease
    for number in (signal.SIGINT, signal.SIGTERM):
        signal.signal(number, folder.stop)
    return folder.once() if given.once else folder.watch(given.every)


def open_standard() -> None:
    """No file gets the number of a standard stream that is closed, or lines would go there."""
    while (descriptor := os.open(os.devnull, os.O_RDWR)) <= 2:
        pass
    os.close(descriptor)


def main() -> int:
    """The status 1, which Python has for a crash, says that a job was refused."""
    open_standard()
    try:
        return run()
    except (OSError, Trouble) as error:
        tell(reason(error))
    except Exception:
        tell(traceback.format_exc())
    return NO_VERDICT


if __name__ == "__main__":
    sys.exit(main())
