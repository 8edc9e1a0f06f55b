"""Compares a program with the oracle over random jobs.

    python3 crosscheck/run.py PROGRAM COUNT SEED [--keep FOLDER] [--jobs N]

Prints each difference and at last `N compared, M differ`, where N counts jobs. The exit
status is 0 where M is 0, else 1. `--keep` puts the jobs that differ, with their profiles,
into a folder; `--jobs` is the number of processes (2).
"""

import argparse
import itertools
import multiprocessing
import os
import subprocess
import sys
import tempfile
from dataclasses import dataclass
from typing import List, Optional

sys.dont_write_bytecode = True

import jobs                                                        # noqa: E402
import oracle                                                      # noqa: E402
from printer_profile import read_profile                       # noqa: E402

SECONDS = 60


@dataclass
class Difference:
    command: str
    program: str
    due: str


def escaped_byte(byte: int) -> str:
    if byte == 27:
        return "^"
    return chr(byte) if 32 <= byte <= 126 and byte not in b"^\\" else f"\\x{byte:02x}"


def escaped(data: bytes) -> str:
    """`^` for ESC, `\\xNN` for other odd bytes, `<40:c>` for a long run of one byte."""
    words = []
    for byte, run in itertools.groupby(data):
        count = len(list(run))
        word = escaped_byte(byte)
        words.append(f"<{count}:{word}>" if count >= 20 else word * count)
    return "".join(words)


def shown(answer: oracle.Answer) -> str:
    written = "no OUT" if answer.written is None else f"OUT {escaped(answer.written)}"
    output = answer.output.decode("latin-1").rstrip("\n").replace("\n", " | ")
    return f"status {answer.status}; {output}; {' '.join(answer.errors)}; {written}"


class Comparison:
    """The commands of one job, in a temporary folder."""

    def __init__(self, program: str, case: jobs.Case, folder: str):
        self.program = program
        self.case = case
        self.folder = folder
        self.out = os.path.join(folder, "out")
        self.differences: List[Difference] = []
        self.job = self.put("job", case.job)
        self.words = [word or self.put(f"profile{number}", text) for number, (word, text)
                      in enumerate(case.printers, start=1)]

    def put(self, name: str, data: bytes) -> str:
        path = os.path.join(self.folder, name)
        with open(path, "wb") as file:
            file.write(data)
        return path

    def run(self, *words: str) -> oracle.Answer:
        if os.path.exists(self.out):
            os.remove(self.out)
        try:
            done = subprocess.run([self.program, *words], stdout=subprocess.PIPE,
                                  stderr=subprocess.PIPE, timeout=SECONDS, cwd=self.folder,
                                  stdin=subprocess.DEVNULL)
        except subprocess.TimeoutExpired:
            return oracle.Answer(-1, errors=["no answer in time"])
        errors = [line for line in done.stderr.decode("latin-1").splitlines()
                  if line.startswith("ERROR")]
        written = None
        if os.path.exists(self.out):
            with open(self.out, "rb") as file:
                written = file.read()
        return oracle.Answer(done.returncode, done.stdout, errors, written)

    def note(self, command: str, program: oracle.Answer, due: oracle.Answer) -> None:
        if program != due:
            self.differences.append(Difference(command, shown(program), shown(due)))

    def compare(self) -> None:
        case, texts = self.case, self.case.texts()
        self.note("check", self.run("check", self.job, *self.words),
                  oracle.check(texts, case.job))
        self.note("list", self.run("list", self.job), oracle.list_job(case.job))
        pages = self.run("pages", self.job, self.words[0])
        self.note("pages", pages, oracle.pages(texts[0], case.job))
        self.note("plain", self.run("plain", self.job, self.out), oracle.plain_job(case.job))
        pinned = self.run("pin", self.job, self.words[0], self.out)
        self.note("pin", pinned, oracle.pin(texts[0], case.job))
        self.compare_pinned("first panel", pinned, pages)
        if case.named:
            words = jobs.panel_words(case.named)
            pinned = self.run("pin", self.job, self.words[0], self.out, "--panel", words)
            self.note(f"pin --panel {words}", pinned,
                      oracle.pin(texts[0], case.job, case.named))
            profile = read_profile(texts[0])
            panel = {**profile.first_panel(), **case.named}
            self.compare_pinned(words, pinned, oracle.pages_at(profile, panel, case.job))

    def compare_pinned(self, name: str, pinned: oracle.Answer, due: oracle.Answer) -> None:
        """A pinned job prints what the job prints from that panel, and names no field.

        The place of a finding may differ, and a stored body may have grown too long.
        """
        if pinned.status != oracle.PASS or pinned.written is None:
            return
        path = self.put("pinned", pinned.written)
        pages = self.run("pages", path, self.words[0])
        self.note(f"pages of the job pinned to {name}", pages,
                  oracle.pages(self.case.texts()[0], pinned.written))
        *lines, last = pages.output.decode("latin-1").split("\n")[:-1] or [""]
        *due_lines, due_last = due.output.decode("latin-1").split("\n")[:-1] or [""]
        if last.startswith("FAIL") and due_last.startswith("FAIL"):
            last, due_last = last.split(" ", 2)[2], due_last.split(" ", 2)[2]
        if (lines, last) != (due_lines, due_last) and not last.endswith("22 MacroMemory"):
            self.differences.append(Difference(
                f"pages of the job pinned to {name}, against pages of the job",
                shown(pages), shown(due)))
        verdict = self.run("check", path, self.words[0])
        self.note(f"check of the job pinned to {name}", verdict,
                  oracle.check(self.case.texts()[:1], pinned.written))
        if b" 12 Unset" in verdict.output:
            self.differences.append(Difference(
                f"check of the job pinned to {name}", shown(verdict), "never 12 Unset"))


def keep(folder: str, name: str, case: jobs.Case, report: str) -> None:
    os.makedirs(folder, exist_ok=True)
    parts = [("job", case.job), ("report", report.encode())]
    parts += [(f"profile{number}", text) for number, text in enumerate(case.texts(), 1)]
    for part, data in parts:
        with open(os.path.join(folder, f"{name}.{part}"), "wb") as file:
            file.write(data)


def report_of(seed: str, number: int, case: jobs.Case, differences) -> str:
    lines = [f"seed {seed} job {number}: {escaped(case.job)}"]
    for count, (word, text) in enumerate(case.printers, start=1):
        lines.append(f"  profile {count}: {word or escaped(text)}")
    for difference in differences:
        lines.append(f"  {difference.command}")
        lines.append(f"    program: {difference.program}")
        lines.append(f"    due:     {difference.due}")
    return "\n".join(lines)


def compare_one(task) -> Optional[str]:
    program, seed, number, keep_folder = task
    case = jobs.random_case(seed, number)
    with tempfile.TemporaryDirectory(prefix="crosscheck-") as folder:
        comparison = Comparison(program, case, folder)
        comparison.compare()
    if not comparison.differences:
        return None
    report = report_of(seed, number, case, comparison.differences)
    if keep_folder:
        keep(keep_folder, f"{seed}-{number}", case, report)
    return report


def main() -> int:
    parser = argparse.ArgumentParser(description="compares a program with the oracle")
    parser.add_argument("program")
    parser.add_argument("count", type=int)
    parser.add_argument("seed")
    parser.add_argument("--keep", metavar="FOLDER")
    parser.add_argument("--jobs", type=int, default=2, metavar="N")
    words = parser.parse_args()
    program = os.path.abspath(words.program)
    keep_folder = os.path.abspath(words.keep) if words.keep else None
    tasks = [(program, words.seed, number, keep_folder) for number in range(words.count)]
    differing = 0
    with multiprocessing.Pool(max(1, words.jobs)) as pool:
        for report in pool.imap(compare_one, tasks, chunksize=8):
            if report:
                differing += 1
                print(report, flush=True)
    print(f"{words.count} compared, {differing} differ")
    return 1 if differing else 0


if __name__ == "__main__":
    sys.exit(main())
