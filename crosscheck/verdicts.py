#!/usr/bin/env python3
"""Checks jobs with a program as the row files in `crosscheck/verdicts/` say, and compares verdicts.

    python3 crosscheck/verdicts.py PROGRAM [FILE[:LINE] ..]     all rows of a FILE, or one

A row file has these lines:

    # A comment.
    printers NAME ..           the fleet of the rows behind it, by the names of PRINTERS
    area LEFT TOP RIGHT LOWER  a printer like sample B by its printable area, in 7200ths of an inch
    VERDICT | JOB              the line of `check`, and the job, where a byte that shows nothing, a
                               backslash and a last space are `\\x` and two digits

Prints what differs, and at last `N compared, M differ`; the exit status is 0 where M is 0, else 1.
"""

import multiprocessing
import re
import subprocess
import sys
import tempfile
from pathlib import Path
from typing import Dict, Iterator, List, Tuple

sys.dont_write_bytecode = True

from examples import many_panels                                   # noqa: E402
from samples import SAMPLE_A, SAMPLE_B, SAMPLE_C, SAMPLE_D, with_lines     # noqa: E402

ROWS = Path(__file__).resolve().parent / "verdicts"
ESCAPED = re.compile(rb"(?:[ -\[\]-~]|\\x[0-9a-f]{2})*")
# Lines that sample B has of a second orientation, size and face.
OTHERS = ("geometry 2 1", "geometry 26", "face 2")
ONE_PAGE = "".join(line for line in SAMPLE_B.splitlines(True) if not line.startswith(OTHERS))
PAGE = "geometry 2 0 61200 79200 1800 0 57600 79200 "
LATER = "pclprofile 2\nlineterm "
PRINTERS: Dict[str, str] = {
    "A": SAMPLE_A,
    "B": SAMPLE_B,
    "C": SAMPLE_C,
    "D": SAMPLE_D,
    # A logical page that begins 1/120 inch further right, and a printable area that ends 10000/7200
    # inch from the left edge of the page.
    "Moved": with_lines(ONE_PAGE, PAGE.replace(" 1800 ", " 1860 ") + "1200 1200 60000 78000"),
    "Narrow": with_lines(ONE_PAGE, PAGE + "1200 1200 10000 78000"),
    "EightLines": with_lines(ONE_PAGE, "vmi 6"),
    "OneSided": with_lines(ONE_PAGE, "duplex 0"),
    "SomeCopies": with_lines(ONE_PAGE, "copies 1 2"),
    "OtherPanel": with_lines(ONE_PAGE, "copies 2", "sides 1", "tray 2"),
    "OtherTray": with_lines(ONE_PAGE, "tray 2"),
    "NoMemory": with_lines(ONE_PAGE, "memory 0"),
    "MostMemory": with_lines(ONE_PAGE, "memory 1048576"),
    "NoLevels": with_lines(ONE_PAGE, "depth 0"),
    "EightLevels": with_lines(ONE_PAGE, "depth 8"),
    "NoLevelsOfA": with_lines(SAMPLE_A, "depth 0"),
    # The codes from 66 alone.
    "NoLetterA": with_lines(SAMPLE_B, "face 1 10U 10 12 0 0 3 720 900 300 66-126"),
    "K": with_lines(SAMPLE_B, LATER + "0 2"),
    "KOfA": with_lines(SAMPLE_A, LATER + "0 2"),
    "Returning": with_lines(SAMPLE_B, LATER + "3"),
    # 12,582,912 panel settings.
    "Many": many_panels(SAMPLE_B.encode()).decode(),
}

# The number of a line, the texts of the printers, the line that is due, and the job.
Row = Tuple[int, List[str], str, bytes]


class RowError(Exception):
    """A line of a row file that says nothing."""


def job_of(escaped: str) -> bytes:
    """The bytes that a job of a row stands for."""
    text = escaped.encode()
    if not ESCAPED.fullmatch(text):
        raise RowError(f"'{escaped}' is not escaped as it has to be")
    return re.sub(rb"\\x(..)", lambda found: bytes([int(found[1], 16)]), text)


def rows_of(path: Path) -> Iterator[Row]:
    """The rows of a file, each for the printers that the last line before it names."""
    fleet: List[str] = []
    for number, line in enumerate(path.read_text().splitlines(), 1):
        kind, _, words = line.partition(" ")
        if kind == "printers":
            fleet = [PRINTERS[name] for name in words.split()]
        elif kind == "area":
            fleet = [with_lines(ONE_PAGE, PAGE + words)]
        elif line and not line.startswith("#"):
            due, bar, escaped = line.partition(" |")
            if not bar or not fleet:
                raise RowError(f"{path.name}:{number}: '{line}' is no row, or has no printers")
            yield number, fleet, due, job_of(escaped[1:])


def answer(program: str, folder: Path, fleet: List[str], job: bytes) -> str:
    """What the program tells of a job."""
    names = [f"p{number}" for number in range(len(fleet))]
    (folder / "job").write_bytes(job)
    for name, text in zip(names, fleet):
        (folder / name).write_text(text)
    came = subprocess.run([program, "check", "job", *names], cwd=folder, capture_output=True,
                          stdin=subprocess.DEVNULL, check=False)
    is_as_told = came.returncode == came.stdout.startswith(b"FAIL")
    return (came.stdout + came.stderr).decode() if is_as_told else f"status {came.returncode}\n"


def compare_file(task: Tuple[str, Path, int]) -> Tuple[int, List[str]]:
    """How many rows a file has, or 1 where one is asked for by its line, and what differs."""
    program, path, line = task
    count, found = 0, []
    with tempfile.TemporaryDirectory(prefix="verdicts-") as folder:
        for number, fleet, due, job in rows_of(path):
            if line and line != number:
                continue
            came = answer(program, Path(folder), fleet, job)
            count += 1
            if came != due + "\n":
                found.append(f"{path.name}:{number}: {job!r}: {came!r}, due {due!r}")
    return count, found or ([] if count else [f"{path.name} has no row"])


def file_and_line(word: str) -> Tuple[Path, int]:
    """The row file of a word, and the line that follows a colon, or 0."""
    name, _, line = word.partition(":")
    return Path(name), int(line or 0)


def main() -> int:
    if len(sys.argv) < 2:
        print(__doc__.strip(), file=sys.stderr)
        return 2
    program = str(Path(sys.argv[1]).resolve())
    words = sys.argv[2:] or sorted(map(str, ROWS.glob("*.rows")))
    compared, differing = 0, []
    with multiprocessing.Pool(2) as pool:
        tasks = [(program, *file_and_line(word)) for word in words]
        for count, found in pool.imap(compare_file, tasks):
            compared, differing = compared + count, differing + found
    for line in differing:
        print("differs:", line)
    print(f"{compared} compared, {len(differing)} differ")
    return 1 if differing or not compared else 0


if __name__ == "__main__":
    sys.exit(main())
