"""Runs a program as the row files in `crosscheck/runs/` say, and compares what it answers.

    python3 crosscheck/runs.py PROGRAM [FILE[:LINE] ..]     all runs of a FILE, or one

A row file has these lines, with `\\n`, `\\r`, `\\t`, `\\e`, `\\\\` and `\\xHH` for bytes that it
cannot show, and with `\\.` for none, as behind a blank at the end of a line:

    # A comment.
    file NAME TEXT              a file of these bytes, for the runs behind it in this row file
    more NAME N TEXT            N times these bytes behind those of a file
    sample NAME @A              a file with the text of a sample profile,
    sample NAME @A N TEXT       with this line in place of its line N (or behind its last), or
    sample NAME OTHER N TEXT    another file with such a line
    $ WORDS                     a run, its words split as a shell does
    < NAME                      what the run reads on standard input, nothing else
    = STATUS                    its exit status, 0 where none is told
    > TEXT                      a line that it writes on standard output
    ! TEXT                      a line that it writes on standard error
    ~ TEXT                      a part of what it writes on standard output, behind the one before
    ? TEXT                      the same of standard error
    - TEXT                      the same as `>`, without the end of the line
    into NAME                   what it writes on standard output is this file for the runs behind
                                it, and only the parts of it that are told are compared
    same NAME                   it writes on standard output the bytes of this file;
    same                        what was due there last
    out NAME TEXT               the bytes of a file after the run; `out NAME` alone: it is not there
    like NAME OTHER             a file after the run has the bytes that the other had before it

The bytes stand so in names and in words, too, in words when these are split: '\\n' in quotes is
a word of one byte. All that a run writes is compared, to the byte, but where parts are told. Each
row file has a folder of its own, in which the files of `examples/` lie. Prints what differs, and at
last `N run, M differ`; the exit status is 0 where M is 0, else 1.
"""

import os
import re
import shlex
import shutil
import subprocess
import sys
import tempfile
from dataclasses import dataclass, field
from pathlib import Path

sys.dont_write_bytecode = True
from samples import SAMPLES

ROOT = Path(__file__).resolve().parent.parent
ROWS = Path(__file__).resolve().parent / "runs"
FILES = ("file", "more", "sample")
ESCAPES = {"n": b"\n", "r": b"\r", "t": b"\t", "e": b"\x1b", "\\": b"\\", ".": b""}


class RowError(Exception):
    """A line of a row file that says nothing."""


@dataclass
class Run:
    """A run of the program, and what is due."""
    words: list[bytes]
    row: int
    status: int = 0
    stdin: str | None = None
    stdout: bytes = b""
    stderr: bytes = b""
    parts: list[bytes] = field(default_factory=list)
    error_parts: list[bytes] = field(default_factory=list)
    into: str | None = None
    before: bytes = b""
    outs: list[tuple[str, bytes | None]] = field(default_factory=list)


def bytes_of(text: str) -> bytes:
    """The bytes that a text stands for."""
    parts = re.split(r"\\(x[0-9a-f]{2}|.)", text)
    found = parts[0].encode()
    for escape, plain in zip(parts[1::2], parts[2::2]):
        is_code = len(escape) == 3
        found += bytes([int(escape[1:], 16)]) if is_code else ESCAPES[escape]
        found += plain.encode()
    return found


def path_of(folder: Path, name: str) -> Path:
    """The path of a file by its name in a row file."""
    return folder / os.fsdecode(bytes_of(name))


def with_line(text: bytes, number: int, line: bytes) -> bytes:
    """A text with this line in place of one, counted from 1, or behind the last."""
    lines = text.splitlines(keepends=True)
    return b"".join(lines[:number - 1]) + line + b"\n" + b"".join(lines[number:])


def sample(folder: Path, words: str) -> None:
    """Makes a file of a sample, or of a file that is there."""
    name, of, *more = words.split(" ", 3)
    text = SAMPLES[of].encode() if of in SAMPLES else path_of(folder, of).read_bytes()
    if more:
        text = with_line(text, int(more[0]), bytes_of(more[1] if len(more) > 1 else ""))
    write_file(path_of(folder, name), text)


def write_file(path: Path, text: bytes) -> None:
    path.parent.mkdir(parents=True, exist_ok=True)
    path.write_bytes(text)


def is_due(have: bytes, due: bytes, parts: list[bytes]) -> bool:
    """Whether this is written; where parts are told, whether they stand one behind another."""
    if not parts:
        return have == due
    place = 0
    for part in parts:
        place = have.find(part, place)
        if place < 0:
            return False
        place += len(part)
    return True


def differences(program: Path, folder: Path, run: Run) -> list[str]:
    """What a run does otherwise than is due."""
    given = path_of(folder, run.stdin).read_bytes() if run.stdin else b""
    came = subprocess.run([program, *run.words], cwd=folder, input=given, capture_output=True)
    found = [f"{what}: {have!r}, due {parts or due!r}" for what, have, due, parts in (
        ("standard output", came.stdout, run.stdout, run.parts),
        ("standard error", came.stderr, run.stderr, run.error_parts))
        if not is_due(have, due, parts)]
    if run.into:
        write_file(path_of(folder, run.into), came.stdout)
    if came.returncode != run.status:
        found.insert(0, f"status: {came.returncode}, due {run.status}")
    for name, due in run.outs:
        path = path_of(folder, name)
        have = path.read_bytes() if path.is_file() else None
        if have != due:
            found.append(f"file {name}: {have!r}, due {due!r}")
    return found


def make(folder: Path, kind: str, words: str) -> None:
    """Makes a file for the runs behind it, or one that is longer."""
    if kind == "sample":
        sample(folder, words)
    elif kind == "more":
        name, times, text = words.split(" ", 2)
        with path_of(folder, name).open("ab") as file:
            file.write(bytes_of(text) * int(times))
    else:
        name, _, text = words.partition(" ")
        write_file(path_of(folder, name), bytes_of(text))


def due_out(folder: Path, kind: str, words: str) -> tuple[str, bytes | None]:
    """The file that a run writes, and what is due of it."""
    name, is_told, text = words.partition(" ")
    if kind == "like":
        return name, path_of(folder, text).read_bytes()
    return name, bytes_of(text) if is_told else None


def take(run: Run, folder: Path, kind: str, rest: str) -> bool:
    """Takes what is due of a run, and tells whether this is a line of that."""
    if kind == "<":
        run.stdin = rest
    elif kind == "=":
        run.status = int(rest)
    elif kind in (">", "-"):
        run.stdout += bytes_of(rest) + (b"\n" if kind == ">" else b"")
    elif kind == "!":
        run.stderr += bytes_of(rest) + b"\n"
    elif kind == "~":
        run.parts.append(bytes_of(rest))
    elif kind == "?":
        run.error_parts.append(bytes_of(rest))
    elif kind == "into":
        run.into = rest
        run.parts.append(b"")
    elif kind == "same":
        run.stdout += path_of(folder, rest).read_bytes() if rest else run.before
    elif kind in ("out", "like"):
        run.outs.append(due_out(folder, kind, rest))
    else:
        return False
    return True


def read_line(run: Run | None, folder: Path, line: str, row: int) -> Run | None:
    """Takes a line of a row file; gives the run that it begins."""
    kind, _, rest = line.partition(" ")
    if kind in FILES:
        make(folder, kind, rest)
    elif kind == "$":
        return Run([bytes_of(word) for word in shlex.split(rest)], row)
    elif run is None:
        raise RowError(f"'{line}' stands behind no run")
    elif not take(run, folder, kind, rest):
        raise RowError(f"'{line}' is no line of a row file")
    return None


def run_file(program: Path, rows: Path, line: int) -> tuple[int, list[str]]:
    """How many runs a row file has, or 1 where one is asked for by its line, and what differs.
    All are run, since one may read what another wrote."""
    count, found, run, before = 0, [], None, b""

    def end() -> None:
        nonlocal count, run, before
        if run is not None:
            before, differing = run.stdout or before, differences(program, folder, run)
            if line in (0, run.row):
                told = f"{rows.name}:{run.row}: {b' '.join(run.words)!r}"
                found.extend(f"{told}: {it}" for it in differing)
                count += 1
            run = None

    with tempfile.TemporaryDirectory(prefix="runs-") as name:
        folder = Path(name) / "examples"
        shutil.copytree(ROOT / "examples", folder)
        for row, text in enumerate(rows.read_text().splitlines(), 1):
            kind = text.split(" ")[0]
            if kind in ("$", *FILES):
                end()
            if text and not text.startswith("#"):
                run = read_line(run, folder, text, row) or run
            if kind == "$":
                run.before = before
        end()
    return count, found


def main() -> int:
    if len(sys.argv) < 2:
        print(__doc__.strip(), file=sys.stderr)
        return 2
    program = Path(sys.argv[1]).resolve()
    count, differing = 0, []
    for word in sys.argv[2:] or sorted(map(str, ROWS.glob("*.runs"))):
        name, _, line = word.partition(":")
        runs, found = run_file(program, Path(name), int(line or 0))
        count, differing = count + runs, differing + found
    for line in differing:
        print("differs:", line)
    print(f"{count} run, {len(differing)} differ")
    return 1 if differing or not count else 0


if __name__ == "__main__":
    sys.exit(main())
