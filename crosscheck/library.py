#!/usr/bin/env python3
"""Compares what the library answers, called from C, with what a program answers.

    python3 crosscheck/library.py PROGRAM COUNT SEED [--tried N] [--by-valgrind N] [--jobs N]

The header has to be C and C++, and the shared library to have the names of its calls alone. COUNT
random jobs and their printers, and each example, go through each call, whole and in pieces: the
numbers and the bytes of each text have to be those of the program's commands, and a room has to be
as long as the call said. Many jobs go through one process.
Of N random jobs (`--tried`, 300) and of the examples, where they are small, rooms are tried that
are too short or too long, each request for memory is refused in turn, and eight threads make the
calls side by side: as it is, and with the sanitizers of the compiler; and of N of them
(`--by-valgrind`, 20) by valgrind, where it is there.
What the program says of itself is trusted here; `run.py` compares that. Needs `cc`, make, binutils
and what `make build` built, and without cc compares nothing. `--jobs` is the number of processes
that compare (1). Prints each difference, what was tried, and at last `N compared, M differ`, where
N counts jobs. The exit status is 0 where M is 0 and nothing else is wrong, else 1.
"""

import argparse
import multiprocessing
import os
import re
import shutil
import subprocess
import sys
import tempfile
from pathlib import Path
from typing import Dict, Iterator, List, NamedTuple, Tuple, Union

sys.dont_write_bytecode = True

import library_cases                                               # noqa: E402
from library_cases import Case                                     # noqa: E402
from library_due import Answer, Due, Program                       # noqa: E402
from run import escaped                                            # noqa: E402

ROOT = Path(__file__).resolve().parent.parent
BUILT = ROOT / "crates" / "pclcheck_c" / "out" / "built"
CROSSCHECK = ROOT / "crosscheck"
SOURCES = (CROSSCHECK / "library.c", CROSSCHECK / "library_calls.c")
WRAPPED = "-Wl,--wrap=malloc,--wrap=realloc,--wrap=free"
SECONDS = 3600
# So many cases go through one process.
BATCH = 100
# Of what is tried each call is made once for each of its requests for memory, so jobs of more bytes
# are not tried.
MOST_TRIED = 800
# How callers are built. The sanitizers see the callers alone, and what the library asks C for;
# valgrind sees all.
BUILDS: Dict[str, Tuple[str, ...]] = {
    "plain": (),
    "address": ("-fsanitize=address,undefined", "-fno-sanitize-recover=all"),
    "thread": ("-fsanitize=thread",),
}
MODES = {"plain": ("rooms", "memory", "threads"), "thread": ("threads",),
         "address": ("answers", "rooms", "memory", "threads")}
VALGRIND = ("valgrind", "-q", "--error-exitcode=9")
UNDER_VALGRIND = {"rooms": ("--leak-check=full",), "memory": ("--leak-check=full",),
                  "threads": ("--tool=helgrind",)}


def told_by(*words) -> str:
    """What a command writes, and that it fails."""
    run = subprocess.run(words, capture_output=True, text=True, check=False)
    return run.stdout + run.stderr + (f"status {run.returncode}" if run.returncode else "")


def faults_of_built() -> Iterator[str]:
    """What is wrong with the header and with the shared library."""
    header = ROOT / "include" / "pclcheck.h"
    for compiler, *words in (("cc", "-x", "c", "-std=c11"), ("c++", "-x", "c++", "-std=c++11")):
        if shutil.which(compiler):
            told = told_by(compiler, *words, "-pedantic", "-Wall", "-fsyntax-only", header)
            if told:
                yield told
    shared = BUILT / "libpclcheck.so.0"
    due = re.findall(r"^ +(pclcheck_\w+);$", (ROOT / "include" / "pclcheck.map").read_text(), re.M)
    came = re.findall(r" T (\w+)", told_by("nm", "-D", "--defined-only", shared))
    if sorted(due) != sorted(came):
        yield f"{shared.name} has the names {came}"
    if "[libpclcheck.so.0]" not in told_by("readelf", "-d", shared):
        yield f"{shared.name} has another soname"


class Callers:
    """The callers in C, as the compiler builds them, in a folder, and what runs the program."""

    def __init__(self, folder: Path):
        self.batch = folder / "batch_of_runs.so"
        subprocess.run(["cc", "-shared", "-fPIC", "-O1", CROSSCHECK / "batch_of_runs.c", "-o",
                        self.batch], check=True)
        self.built = {}
        for name, words in BUILDS.items():
            path = folder / name
            run = subprocess.run(["cc", "-std=c11", "-O1", "-g", *words, "-I", ROOT / "include",
                                  *SOURCES, BUILT / "libpclcheck.a", WRAPPED, "-lpthread", "-o",
                                  path], capture_output=True, check=False)
            if run.returncode == 0:
                self.built[name] = path
            else:
                print(f"library: cc builds no caller of kind {name}")
                print(run.stderr.decode(errors="replace")[:500])

    def run(self, name: str, mode: str, cases: List[Case], by: Tuple[str, ...] = ()) -> bytes:
        """What a caller writes on cases; an error says what it found."""
        with tempfile.NamedTemporaryFile() as file:
            file.write(b"".join(case.packed() for case in cases))
            file.flush()
            run = subprocess.run([*by, self.built[name], mode, file.name], capture_output=True,
                                 timeout=SECONDS, check=False)
        if run.returncode != 0 or run.stderr:
            told = run.stderr.decode(errors="replace")
            raise ValueError(f"{' '.join(by)} {name} {mode}: status {run.returncode}: {told}")
        return run.stdout


def answers_in(output: bytes) -> List[Dict[str, Answer]]:
    """What the calls answered, by their names, of one case after another."""
    found: List[Dict[str, Answer]] = []
    at = 0
    while at < len(output):
        end = output.index(b"\n", at)
        name, *numbers = output[at:end].decode().split()
        number, length, *rows = map(int, numbers)
        at = end + 1 + length
        if name == "fleet":
            found.append({})
        found[-1][name] = Answer(number, tuple(rows[:6]), tuple(rows[6:]), output[end + 1:at])
    return found


def shown(answer: Answer) -> str:
    return f"{answer.number} {answer.verdict} {answer.refusal} {escaped(answer.text)}"


def differences(found: Dict[str, Answer], due: Dict[str, Answer]) -> List[str]:
    """In what the answers of the library differ from what is due."""
    return [f"{name}: due {shown(answer)}\n  came {shown(found[name])}"
            for name, answer in due.items() if answer is not None and found[name] != answer]


class Batch(NamedTuple):
    """Cases that are compared by one process: the examples, or random ones of these numbers."""
    program: str
    callers: Callers
    seed: str
    numbers: range

    def cases(self) -> List[Case]:
        if not self.numbers:
            return library_cases.examples()
        return [library_cases.random_case(self.seed, number) for number in self.numbers]


def answers_of(callers: Callers, cases: List[Case]) -> List[Union[Dict[str, Answer], str]]:
    """What the library answers: of all cases by one process, or each by its own where that fails.
    Of a case on which it fails then, what it says."""
    try:
        return answers_in(callers.run("plain", "answers", cases))
    except (ValueError, subprocess.TimeoutExpired) as fault:
        if len(cases) == 1:
            return [str(fault)]
    return [answers for case in cases for answers in answers_of(callers, [case])]


def compared(batch: Batch) -> Tuple[int, List[str]]:
    """How many cases were compared, and of each that differs in what."""
    cases = batch.cases()
    answers = answers_of(batch.callers, cases)
    wrong = []
    with tempfile.TemporaryDirectory(dir=quick_folder()) as folder:
        os.chdir(folder)
        with Program(batch.program, batch.callers.batch) as program:
            for case, found in zip(cases, answers):
                told = [found] if isinstance(found, str) else \
                    differences(found, Due(program, case).answers())
                if told:
                    wrong.append("\n".join([*told, f"  {case.told}: {escaped(case.job)}"]))
        os.chdir("/")
    return len(cases), wrong


def quick_folder() -> str:
    """Where files are kept in memory, if there is such a folder."""
    return "/dev/shm" if os.access("/dev/shm", os.W_OK) else tempfile.gettempdir()


def compare(batches: List[Batch], processes: int) -> Tuple[int, int]:
    """How many cases were compared, and how many differ."""
    done = differ = 0
    with multiprocessing.Pool(processes) as pool:
        for count, wrong in pool.imap(compared, batches):
            done += count
            differ += len(wrong)
            for told in wrong:
                print(told)
            print(f"library: {done} compared, {differ} differ so far", file=sys.stderr,
                  flush=True)
    return done, differ


def tried(callers: Callers, name: str, mode: str, cases: List[Case],
          by: Tuple[str, ...] = ()) -> bool:
    """Whether a caller finds nothing wrong with cases; else tells it."""
    try:
        callers.run(name, mode, cases, by)
    except (ValueError, subprocess.TimeoutExpired) as found:
        print(found)
        return False
    print(f"{len(cases)} tried: {' '.join([*by[:1], name, mode])}", flush=True)
    return True


def try_all(callers: Callers, cases: List[Case], by_valgrind: int) -> bool:
    """What the callers find wrong in rooms, with refused memory, and on threads."""
    runs = [(name, mode, cases, ()) for name in callers.built for mode in MODES[name]]
    if shutil.which(VALGRIND[0]):
        runs += [("plain", mode, cases[:by_valgrind], (*VALGRIND, *words))
                 for mode, words in UNDER_VALGRIND.items()]
    return all([tried(callers, *run) for run in runs if run[2]])


def main(words: argparse.Namespace) -> int:
    if shutil.which("cc") is None:
        print("library: there is no cc: nothing is compared")
        return 0
    subprocess.run(["make", "-s", "lib"], cwd=ROOT, check=True)
    wrong = list(faults_of_built())
    print("".join(f"{line}\n" for line in wrong), end="")
    with tempfile.TemporaryDirectory() as name:
        callers = Callers(Path(name))
        if "plain" not in callers.built:
            return 1
        parts = [range(start, min(start + BATCH, words.count))
                 for start in range(0, words.count, BATCH)]
        done, differ = compare([Batch(str(Path(words.program).resolve()), callers, words.seed, part)
                                for part in [range(0), *parts]], words.jobs)
        cases = [library_cases.random_case(words.seed, number)
                 for number in range(words.tried)] + library_cases.examples()
        is_right = try_all(callers, [case for case in cases if len(case.job) <= MOST_TRIED],
                           words.by_valgrind)
    print(f"{done} compared, {differ} differ")
    return 1 if differ or wrong or not is_right else 0


def words_given() -> argparse.Namespace:
    parser = argparse.ArgumentParser(description=__doc__.split("\n", maxsplit=1)[0])
    parser.add_argument("program", metavar="PROGRAM")
    parser.add_argument("count", metavar="COUNT", type=int)
    parser.add_argument("seed", metavar="SEED")
    parser.add_argument("--tried", metavar="N", type=int, default=300)
    parser.add_argument("--by-valgrind", metavar="N", type=int, default=20)
    parser.add_argument("--jobs", metavar="N", type=int, default=1)
    return parser.parse_args()


if __name__ == "__main__":
    os.environ["LC_ALL"] = "C.UTF-8"
    sys.exit(main(words_given()))
