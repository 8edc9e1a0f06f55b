"""Runs of the program on real files and streams, and what is due of them.

A `Due` says which statuses a run may end with, and what standard output, standard error and
the file OUT may hold then. `Tries` compares, counts, and keeps a line for each difference.
"""

import functools
import os
import re
import subprocess
from dataclasses import dataclass
from typing import Callable, Dict, List, Optional, Sequence, Tuple

import oracle
from samples import SAMPLES

SECONDS = 60
READ, WRITE, MEMORY = b"ERROR read\n", b"ERROR write\n", b"ERROR memory\n"
STOPPED = 3
# A file that is written beside OUT, and the first of these in a folder.
BESIDE = re.compile(r"\.pclcheck-(\d+|tried)\.out")
FIRST_BESIDE = ".pclcheck-0.out"
# The commands that are tried; those that write their text on standard output, those that take a
# PROFILE, and those that write to OUT.
TELLING = ("list", "pages")
WITH_OUT = ("plain", "pin")
COMMANDS = ("check", *TELLING, *WITH_OUT)
WITH_PROFILE = ("check", "pages", "pin")


@dataclass(frozen=True)
class Text:
    """What bytes may be; None stands for a file that is not there."""
    says: str
    holds: Callable[[Optional[bytes]], bool]


def shown(data: Optional[bytes]) -> str:
    """Bytes in one short line."""
    if data is None:
        return "no file"
    text = repr(data)[1:]
    if len(data) > 90:
        text = f"{len(data)} bytes {data[:40]!r}..{data[-40:]!r}"
    return text


def exactly(data: Optional[bytes]) -> Text:
    return Text(shown(data), lambda found: found == data)


def front_of(data: bytes) -> Text:
    return Text(f"a front of {shown(data)}",
                lambda found: found is not None and data.startswith(found))


def front_of_length(data: bytes, least: int, most: int) -> Text:
    return Text(f"{least} to {most} first bytes of {shown(data)}",
                lambda found: found is not None and data.startswith(found)
                and least <= len(found) <= most)


def one_of(*datas: Optional[bytes]) -> Text:
    return Text(" or ".join(map(shown, datas)), lambda found: found in datas)


def matching(pattern: bytes) -> Text:
    return Text(f"text like {pattern!r}",
                lambda found: found is not None and bool(re.fullmatch(pattern, found, re.S)))


NOTHING = exactly(b"")
NO_FILE = exactly(None)
SOME = matching(rb".+\n")
UNSEEN = Text("anything", lambda found: True)


@dataclass(frozen=True)
class Due:
    """What a run owes."""
    status: Tuple[int, ...]
    output: Text = NOTHING
    errors: Text = NOTHING
    written: Text = NO_FILE


@dataclass(frozen=True)
class Run:
    """What a run did."""
    status: int
    output: Optional[bytes]
    errors: Optional[bytes]
    written: Optional[bytes]


def due_of(answer: oracle.Answer) -> Due:
    """The whole answer of the second reading."""
    errors = "".join(line + "\n" for line in answer.errors).encode()
    return Due((answer.status,), exactly(answer.output), exactly(errors),
               exactly(answer.written))


def stopped_by(line: bytes, output: Text = NOTHING, written: Text = NO_FILE) -> Due:
    """What is due where the work stops with an error."""
    return Due((STOPPED,), output, exactly(line), written)


def text_of(word: str) -> bytes:
    return SAMPLES[word].encode()


@functools.lru_cache(maxsize=None)
def whole(command: str, job: bytes, words: Tuple[str, ...] = ("@B",)) -> oracle.Answer:
    """What the second reading owes for a job and samples."""
    texts = [text_of(word) for word in words]
    if command == "check":
        return oracle.check(texts, job)
    if command == "list":
        return oracle.list_job(job)
    if command == "pages":
        return oracle.pages(texts[0], job)
    if command == "plain":
        return oracle.plain_job(job)
    return oracle.pin(texts[0], job)


def asked(command: str, job: str, profile: str = "@B", out: str = "out") -> List[str]:
    """The words of a command."""
    words = [command, job]
    if command in WITH_PROFILE:
        words.append(profile)
    if command in WITH_OUT:
        words.append(out)
    return words


def read_bytes(path: str) -> Optional[bytes]:
    """What stands in a file; None where there is none, or no regular one."""
    if not os.path.isfile(path):
        return None
    with open(path, "rb") as file:
        return file.read()


def wrong_in(said: Text, found: Optional[bytes], name: str) -> List[str]:
    """What is wrong with bytes, in words, if something is."""
    return [] if said.holds(found) else [f"{name} {shown(found)}, due {said.says}"]


class Tries:
    """Counts tries, and keeps a line for each that differs and for what cannot be tried."""

    def __init__(self, program: str, folder: str):
        self.program = program
        self.folder = folder
        self.tried = 0
        self.differing = 0
        self.kind = ""
        self.lines: List[str] = []

    def path(self, name: str) -> str:
        return os.path.join(self.folder, name)

    def put(self, name: str, data: bytes) -> str:
        """Writes a file of the folder, and gives its name."""
        with open(self.path(name), "wb") as file:
            file.write(data)
        return name

    def remove(self, name: str) -> None:
        if os.path.lexists(self.path(name)):
            os.remove(self.path(name))

    def sweep(self) -> List[str]:
        """Removes what stands beside OUT, and gives its names."""
        left = [name for name in os.listdir(self.folder) if BESIDE.fullmatch(name)]
        for name in left:
            self.remove(name)
        return left

    def skip(self, what: str, why: str) -> None:
        self.lines.append(f"skipped: {self.kind}: {what}: {why}")

    def require(self, holds: bool, name: str, wrong: str) -> None:
        """Counts a try that is a single fact."""
        self.tried += 1
        if not holds:
            self.differing += 1
            self.lines.append(f"differs: {self.kind}: {name}: {wrong}")

    def compare(self, name: str, run: Run, due: Due, wrong: str = "") -> None:
        """Compares a run with what is due; `wrong` is what else went wrong."""
        parts = [wrong] if wrong else []
        if run.status not in due.status:
            parts.append(f"status {run.status}, due {' or '.join(map(str, due.status))}")
        parts += wrong_in(due.output, run.output, "output")
        parts += wrong_in(due.errors, run.errors, "errors")
        parts += wrong_in(due.written, run.written, "OUT")
        self.require(not parts, name, "; ".join(parts))

    def start(self, words: Sequence, setup: Optional[Callable[[], None]] = None,
              environment: Optional[Dict[str, str]] = None, **streams) -> subprocess.Popen:
        """Starts the program in the folder; `setup` runs in the new process before it."""
        given = {"stdin": subprocess.DEVNULL, "stdout": subprocess.PIPE,
                 "stderr": subprocess.PIPE, **streams}
        kept = {name: value for name, value in os.environ.items() if name != "LD_PRELOAD"}
        return subprocess.Popen([self.program, *words], cwd=self.folder, preexec_fn=setup,
                                env={**kept, **(environment or {})}, **given)

    def finish(self, process: subprocess.Popen, out: str = "out") -> Run:
        """Waits for the end of a run, and gathers what it did."""
        try:
            output, errors = process.communicate(timeout=SECONDS)
        except subprocess.TimeoutExpired:
            process.kill()
            output, errors = process.communicate()
            return Run(-1000, output, errors, None)
        left = self.sweep()
        if left and process.returncode >= 0:
            self.require(False, f"{process.args[1:]}", f"{left} stand beside OUT")
        return Run(process.returncode, output or b"", errors or b"",
                   read_bytes(self.path(out)))

    def run(self, words: Sequence, out: str = "out", **how) -> Run:
        return self.finish(self.start(words, **how), out)

    def fresh(self, words: Sequence, **how) -> Run:
        """A run with no OUT before it."""
        self.remove("out")
        return self.run(words, **how)

    def try_(self, name: str, words: Sequence, due: Due, **how) -> Run:
        """A run with no OUT before it, compared with what is due."""
        run = self.fresh(words, **how)
        self.compare(name, run, due)
        return run


class Shim:
    """A library of calls that fail, which the program loads."""

    def __init__(self, tries: Tries):
        self.tries = tries
        self.library = tries.path("failing_calls.so")
        self.missing = self.build() or self.probe()

    def build(self) -> str:
        """Why there is no library, or nothing."""
        source = os.path.join(os.path.dirname(os.path.abspath(__file__)), "failing_calls.c")
        words = ["cc", "-shared", "-fPIC", "-O1", "-o", self.library, source, "-ldl"]
        try:
            done = subprocess.run(words, stdin=subprocess.DEVNULL, capture_output=True,
                                  timeout=SECONDS)
        except (OSError, subprocess.TimeoutExpired):
            return "there is no cc that builds failing_calls.c"
        return "" if done.returncode == 0 else "cc does not build failing_calls.c"

    def probe(self) -> str:
        """Why the program does not load the library, or nothing."""
        self.run(["--version"])
        return "" if self.marks else "the program does not load libraries by LD_PRELOAD"

    def run(self, words: Sequence, out: str = "out", keep_out: bool = False, **failing) -> Run:
        """A run with calls that fail; `marks` is 1, and one more for each that did."""
        mark = self.tries.path("mark")
        self.tries.remove("mark")
        if not keep_out:
            self.tries.remove("out")
        environment = {"FAIL_" + name.upper(): str(value) for name, value in failing.items()}
        run = self.tries.run(words, out, environment={
            **environment, "FAIL_MARK": mark, "LD_PRELOAD": self.library})
        self.marks = len(read_bytes(mark) or b"")
        return run

    def try_(self, name: str, words: Sequence, due: Due, **failing) -> None:
        """A run in which a call has to fail, compared with what is due."""
        run = self.run(words, **failing)
        wrong = "" if self.marks > 1 else "no call of the program failed"
        self.tries.compare(name, run, due, wrong)
