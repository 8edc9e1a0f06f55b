"""Gives damaged jobs and damaged fleets to the callers of the library, which were built with the
sanitizers of the compiler.

    python3 try_damaged.py FOLDER EXAMPLES PROGRAM JOBS FLEETS CALLERS [PRINTER TEST]

FOLDER is a folder for files, CALLERS one with `check` and `pclfilter`. JOBS damaged jobs of
EXAMPLES go through both: a caller may end with its own statuses alone, without a word of a
sanitizer; what passes has to pass by PROGRAM, too, and is handed on as it is; of any other job no
byte is. FLEETS damaged fleets go through the filter, which opens those alone that PROGRAM opens.
With PRINTER, the URI of a printer application, each job is sent there, too, by ipptool and TEST.
Prints what went wrong, and at last how many were tried. The exit status is 0 where nothing did.
"""

import os
import subprocess
import sys
from pathlib import Path
from random import Random
from typing import Iterator, List

sys.dont_write_bytecode = True

SEED = 104
PIECES = (b"\x1b%-12345X", b"@PJL COMMENT ", b"\n", b"%!", b"%PDF-", b"\x1bE", b"\x1b&f1X", b"\0",
          b"\x1b&f0X", b"\x1b*b65535W", b"\x1b&p99999X", b"\x1b%0B", b"\f", b"\xff", b"\x1b&l2A")
LINES = (b"front_desk.profile", b"export_desk.profile", b"\0", b"# note", b"\xff", b"", b"gone",
         b"/", b"..", b"\xf0\x9f\x96\xa8", b"\xed\xa0\x80", b" front_desk.profile \r", b"x" * 5000,
         b"#" * 65000)
STATUSES = (0, 1, 2)
Done = subprocess.CompletedProcess


def damaged(random: Random, job: bytes) -> bytes:
    for _ in range(random.randint(1, 4)):
        at = random.randint(0, len(job))
        end = random.randint(at, min(len(job), at + 40))
        kind = random.randrange(4)
        piece = random.choice(PIECES) if kind else bytes([random.randrange(256)])
        job = job[:at] + (piece if kind < 3 else b"") + job[end if kind != 1 else at:]
    return job[:random.randint(0, len(job))] if random.random() < 0.2 else job


class Trial:
    def __init__(self, folder: Path, program: str, callers: Path, printer: List[str]) -> None:
        self.folder, self.program, self.callers = folder, program, callers
        self.printer = printer
        self.wrong = 0

    def tell(self, text: str, job: bytes) -> None:
        self.wrong += 1
        print(f"{text}: {job[:200]!r}")

    def run(self, words: List[str], job: bytes, queue: str = "front") -> Done:
        """Runs a caller on a job that comes by a pipe."""
        known = {**os.environ, "PRINTER": queue, "PCLCHECK_FLEETS": str(self.folder)}
        done = subprocess.run(words, input=job, capture_output=True, env=known)
        if done.returncode not in STATUSES or b"Sanitizer" in done.stderr \
                or b"runtime error" in done.stderr:
            self.tell(f"{words[0]} ends with {done.returncode}, {done.stderr[:2000]!r}", job)
        return done

    def passes(self, job: bytes, fleet: str) -> bool:
        words = [self.program, "check", "--most-items", "20000000", "-f", fleet, "-"]
        return subprocess.run(words, input=job, capture_output=True).returncode == 0

    def filter(self, job: bytes, queue: str) -> bool:
        """Whether the filter hands the job on, and then as it is."""
        words = [str(self.callers / "pclfilter"), "1", "user", "title", "1", ""]
        done = self.run(words, job, queue)
        if done.stdout != (job if done.returncode == 0 else b""):
            self.tell(f"pclfilter hands on {done.stdout[:200]!r}", job)
        return done.returncode == 0

    def try_job(self, job: bytes) -> None:
        fleet = str(self.folder / "front.fleet")
        is_due = self.passes(job, fleet)
        is_checked = self.run([str(self.callers / "check"), "/dev/stdin",
                               str(self.folder / "front_desk.profile")], job).returncode == 0
        if is_checked and not is_due or self.filter(job, "front") and not is_due:
            self.tell("it passes", job)
        if self.printer:
            path = self.folder / "damaged.pcl"
            path.write_bytes(job)
            subprocess.run(["ipptool", "-q", "-d", "copies=1", "-f", str(path), *self.printer])

    def try_fleet(self, random: Random, job: bytes) -> None:
        path = self.folder / "odd.fleet"
        text = b"\n".join(random.choices(LINES, k=random.randint(0, 4)))
        path.write_bytes(text if random.random() < 0.7 else damaged(random, text))
        if self.filter(job, "odd") and not self.passes(job, str(path)):
            self.tell("a fleet is opened", path.read_bytes())


def jobs(random: Random, examples: Path, count: int) -> Iterator[bytes]:
    whole = [path.read_bytes() for path in sorted(examples.glob("*.pcl"))]
    for _ in range(count):
        yield damaged(random, random.choice(whole))


def main() -> int:
    folder, examples, callers = (Path(sys.argv[at]) for at in (1, 2, 6))
    count, fleets = int(sys.argv[4]), int(sys.argv[5])
    random = Random(SEED)
    trial = Trial(folder, sys.argv[3], callers, sys.argv[7:])
    for path in examples.glob("*.profile"):
        (folder / path.name).write_bytes(path.read_bytes())
    (folder / "front.fleet").write_bytes(b"front_desk.profile\n")
    for job in jobs(random, examples, count):
        trial.try_job(job)
    for _ in range(fleets):
        trial.try_fleet(random, (examples / "letter.pcl").read_bytes())
    print(f"{count} jobs and {fleets} fleets, {trial.wrong} went wrong")
    return 1 if trial.wrong else 0


if __name__ == "__main__":
    sys.exit(main())
