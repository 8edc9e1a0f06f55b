"""Compares checks of many jobs with checks of one job each.

    python3 crosscheck/many.py PROGRAM COUNT SEED

Checks random jobs under random names for random fleets, by all forms of the words. Each run is made
for lines, for sentences, for objects of JSON and for a document of HTML, with and without
explanations and notes, and each line, sentence, object and row is compared with what
`check JOB PROFILE..` alone says of that job, its page, the place of the cursor and the missing font
or character with those of the second reading, its notes with what `notes JOB PROFILE` says, the
items and the picture in its row with `list` and `picture`, and the exit status with those. Prints
each difference
and at last `N compared, M differ`, where N counts jobs and printers that are told of, at least
COUNT. The exit status is 0 where M is 0, else 1.
"""

import itertools
import os
import re
import sys
import tempfile
from dataclasses import replace
from random import Random
from typing import Dict, List, Optional, Tuple

sys.dont_write_bytecode = True

import jobs                                                        # noqa: E402
from many_due import Told, told_of                                 # noqa: E402
from many_forms import command_in, command_of, cut_lines           # noqa: E402
from many_forms import line_differs, object_differs, sentence_differs       # noqa: E402
from many_html import Document, Further, row_differs               # noqa: E402
from many_names import cut, escaped, sentenced                     # noqa: E402
from many_notes import notes_in                                    # noqa: E402
from many_runs import Answer, Job, Printer, Try                    # noqa: E402
from oracle import failing_place                                   # noqa: E402

REFUSAL = re.compile(rb"ERROR profile (\d+) (\d+) (\w+)\n")


class Comparison:
    """A run in all forms, and what is due of it."""

    def __init__(self, run: Try):
        self.run = run
        self.wrong: List[str] = []
        self.asked = [(job, group) for job in run.jobs for group in run.groups()]
        self.due = [self.told(job, group) for job, group in self.asked]

    def require(self, holds: bool, told: str) -> None:
        if not holds:
            self.wrong.append(told)

    def told(self, job: Job, group: List[Printer]) -> Told:
        """What is due of a job for some printers."""
        names = [printer.name() for printer in group]
        if job.data is None:
            return Told(job.name, "ERROR", names[0] if self.run.is_each else b"",
                        cause=self.run.failure(job.name))
        answer = self.run.alone(job.data, group)
        told = told_of(job.name, answer.output, names, self.run.is_each)
        if told.verdict == "FAIL":
            place = failing_place([printer.text for printer in group], job.data)
            return replace(told, place=place)
        if told.verdict != "PASS" or not self.run.tells_notes:
            return told
        return replace(told, notes=notes_in(self.run.notes(group[0]), names[0]))

    def explanations(self) -> Dict[int, bytes]:
        """What `explain` tells of each number that a job fails by, and of each note."""
        codes = {told.code for told in self.due if told.verdict == "FAIL"}
        codes |= {note.code for told in self.due for note in told.notes}
        return {code: self.run.explanation(code) for code in codes}

    def status(self) -> int:
        codes = (told.status() for told in self.due)
        return max((0 if self.run.exit_zero and code == 1 else code for code in codes), default=0)

    def compare(self) -> None:
        commands = [self.compare_form(form, explains) for form, explains in self.run.forms()]
        known = [found for found in commands if found is not None]
        for found in known[1:]:
            self.require(found == known[0], f"commands {found}, and {known[0]}")
        self.compare_document(self.run.chance(0.3))

    def compare_document(self, explains: bool) -> None:
        """Compares a run in which all is told in one document."""
        answer = self.run.answer(self.run.words_of("html", explains))
        explanations = self.explanations() if explains else {}
        found = Document(answer.output.decode())
        names = [printer.name().decode() for printer in self.run.printers]
        self.require(not found.wrong and found.printers == names,
                     f"html: {found.wrong}, {found.printers}, due {names}")
        self.require(len(found.rows) == len(self.due),
                     f"html: {len(found.rows)} rows of {len(self.due)}")
        for (job, group), told, row in zip(self.asked, self.due, found.rows):
            further = self.further(job, group, told)
            self.require(not row_differs(told, row, explanations, further),
                         f"html: {row}, due {told}, {further}")
        self.require((answer.status, answer.errors) == (self.status(), b""),
                     f"html: status {answer.status}, {answer.errors!r}, due {self.status()}")

    def further(self, job: Job, group: List[Printer], told: Told) -> Further:
        """What further readings of a job give."""
        if told.verdict == "ERROR" or job.data is None:
            return Further()
        printer = group[max(told.profile, 1) - 1]
        page = told.place.page if told.verdict == "FAIL" else 1
        return Further(self.run.listed(job.data), self.run.picture(job.data, printer, page))

    def compare_form(self, form: str, explains: bool) -> Optional[List[Optional[str]]]:
        """Compares a run in a form, and gives the items that jobs fail at, where these are told."""
        answer = self.run.answer(self.run.words_of(form, explains))
        explanations = self.explanations() if explains else {}
        lines = cut_lines(answer.output, self.due, form, explanations)
        self.require(len(lines) == len(self.due), f"{form}: {len(lines)} lines of {len(self.due)}")
        for told, line in zip(self.due, lines):
            explanation = explanations.get(told.code, b"")
            differs = {"words": sentence_differs, "json": lambda told, line: object_differs(
                told, line, explanation)}.get(form, line_differs)
            self.require(not differs(told, line), f"{form}: {line!r}, due {told}")
        self.require((answer.status, answer.errors) == (self.status(), b""),
                     f"{form}: status {answer.status}, {answer.errors!r}, due {self.status()}")
        if form == "json":
            return [command_in(line) for line in lines]
        if form == "words":
            return [command_of(told, line) for told, line in zip(self.due, lines)]
        return None


# What stands in the way.

def refusal(run: Try) -> Optional[Tuple[Answer, re.Pattern]]:
    """What is due where a printer is refused, or cannot be read: as lines tell it, and the sentence
    of it."""
    answer = run.alone(b"", run.printers)
    found = REFUSAL.fullmatch(answer.errors)
    if found:
        number, line, cause = found.groups()
        word = run.printer_words[int(number) - 1].encode()
        place = b"line %s: " % line if int(line) else b""
        told = b"ERROR profile %s %s:%s %s\n" % (number, escaped(word), line, cause)
        return Answer(2, b"", told), re.compile(
            re.escape(cut(sentenced(word), 500) + b": " + place) + rb"[^:\n]+"
            + re.escape(b" (ERROR profile %s %s)\n" % (number, cause)))
    if answer.errors == b"ERROR read\n":
        word = run.printer_words[run.lost_printer()].encode()
        why = run.failure(word)
        told = b"ERROR read profile %s: %s\n" % (escaped(word), why)
        return Answer(3, b"", told), re.compile(re.escape(
            cut(sentenced(word), 500) + b": this profile cannot be read: " + why
            + b" (ERROR read)\n"))
    return None


def compare_refusal(run: Try, due: Tuple[Answer, re.Pattern]) -> List[str]:
    """What differs in a run that is refused."""
    told, sentence = due
    wrong = []
    for form, explains in run.forms():
        answer = run.answer(run.words_of(form, explains))
        is_told = answer == told
        if form == "words":
            is_told = (answer.status, answer.output) == (told.status, b"") \
                and bool(sentence.fullmatch(answer.errors))
        if not is_told:
            wrong.append(f"{form}: {answer}, due {told}")
    return wrong


def compare_one(program: str, seed: str, number: int) -> Tuple[int, List[str]]:
    case = jobs.random_case(seed, number)
    random = Random(f"{seed}/many/{number}")
    with tempfile.TemporaryDirectory(prefix="crosscheck-") as folder:
        run = Try(program, os.path.realpath(folder), random, case)
        run.ask()
        if run.chance(0.05):
            run.lose_printer()
        due = refusal(run)
        if due is not None:
            count, wrong = 1, compare_refusal(run, due)
        else:
            comparison = Comparison(run)
            comparison.compare()
            count, wrong = len(comparison.due), comparison.wrong
        if run.chance(0.1):
            words, told = run.broken_fleet()
            answer = run.answer(words)
            count += 1
            if answer != told:
                wrong.append(f"{words}: {answer}, due {told}")
        return count, [f"seed {seed} run {number}: {run.words}\n  {line}" for line in wrong]


def main() -> int:
    if len(sys.argv) != 4:
        print(__doc__.strip(), file=sys.stderr)
        return 2
    program, least, seed = os.path.abspath(sys.argv[1]), int(sys.argv[2]), sys.argv[3]
    compared, differing = 0, 0
    for number in itertools.count():
        if compared >= least:
            break
        count, wrong = compare_one(program, seed, number)
        compared, differing = compared + count, differing + len(wrong)
        for line in wrong:
            print(line, flush=True)
    print(f"{compared} compared, {differing} differ")
    return 1 if differing else 0


if __name__ == "__main__":
    sys.exit(main())
