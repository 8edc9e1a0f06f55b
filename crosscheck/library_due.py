"""What calls of the library have to answer: what a program writes on the same job and printers."""

import json
import os
import re
import subprocess
from pathlib import Path
from typing import Dict, List, NamedTuple, Optional, Tuple

from jobs import panel_words
from library_cases import Case

DONE, NO_PRINTER, REFUSED, NOT_ALLOWED, NO_FIELD, NO_PAGE, UNKNOWN, ITEMS = 0, 4, 6, 7, 8, 9, 10, 11
CAUSES = ("", "Version", "Unknown", "Repeated", "Range", "Missing", "NoGeometry")
REFUSAL = re.compile(rb"ERROR profile (\d+) \w+(?::(\d+))? (\w+)")
NO_VERDICT, NO_REFUSAL = (0,) * 6, (0,) * 3
# Calls for which no printer of the fleet is needed, and those for one that is there.
OF_FLEET = ("check", "tell", "tell-first", "tell-last", "second",
            "pieces-1", "pieces-7", "pieces-4096")
OF_PROFILE = ("limit-10", "notes", "pages", "picture-all", "picture-one", "pin", "pin-chosen")
NOT_COMPARED = ("printer-name", "unnamed", "pin-nothing")
MOST_CODE = 40


class Answer(NamedTuple):
    """What a call answers: its number, the numbers that it leaves, and its text."""
    number: int
    verdict: Tuple[int, ...] = NO_VERDICT     # pages, marks, place, printer, page, number
    refusal: Tuple[int, ...] = NO_REFUSAL     # number, line, cause
    text: bytes = b""


class Told(NamedTuple):
    """What the program writes."""
    status: int
    output: bytes
    errors: bytes


class Program:
    """A program on the files of the folder in which this runs, in one process for many runs, which
    `batch_of_runs.c` makes of it."""

    def __init__(self, path: str, batch: Path):
        self.kept: Dict[Tuple[str, ...], Told] = {}
        self.process = subprocess.Popen([path], env={**os.environ, "LD_PRELOAD": str(batch)},
                                        stdin=subprocess.PIPE, stdout=subprocess.PIPE)

    def __enter__(self) -> "Program":
        return self

    def __exit__(self, *_) -> None:
        self.process.communicate()

    def run(self, *words: str) -> Told:
        asked = f"{len(words)}\n" + "".join(f"{word}\0" for word in words)
        self.process.stdin.write(asked.encode())
        self.process.stdin.flush()
        status = int(self.process.stdout.readline())
        return Told(status, Path("output").read_bytes(), Path("errors").read_bytes())

    def once(self, *words: str) -> Told:
        """A run that answers the same for each case."""
        if words not in self.kept:
            self.kept[words] = self.run(*words)
        return self.kept[words]


def line_verdict(line: bytes) -> Tuple[int, ...]:
    """The numbers of a line FAIL, or of the line of a fault in a list."""
    words = line.decode(errors="replace").split()
    if words[:1] == ["FAIL"]:
        place, printer = (int(word.partition("=")[2]) for word in words[1:3])
        return (0, 0, place, printer, 0, int(words[3]))
    if words[1:2] == ["FAULT"]:
        return (0, 0, int(words[0]), 0, 0, int(words[2]))
    return NO_VERDICT


def object_verdict(line: bytes, most_printer: int) -> Tuple[int, ...]:
    """The numbers of an object of JSON; a printer by itself has the number 1."""
    found = json.loads(line)
    if found["verdict"] == "PASS":
        return (found["pages"], found["marks"], 0, 0, 0, 0)
    return (0, 0, found["at"], min(found["profile"], most_printer), found.get("page", 0),
            found["code"])


def last_line(output: bytes) -> bytes:
    return output.rstrip(b"\n").rpartition(b"\n")[2]


class Due:
    """What is due of the calls on one case, whose files it puts into the folder of the run."""

    def __init__(self, program: Program, case: Case):
        self.program, self.case, self.job = program, case, case.name
        names = [f"p{at}" for at in range(len(case.printers))]
        for name, data in zip([case.name, *names], [case.job, *case.printers]):
            Path(name).write_bytes(data)
        self.fleet = self.of_fleet(names)
        taken = self.fleet.refusal[0] - 1 if self.fleet.number == REFUSED else len(names)
        self.printers = names[:taken]
        self.words = [word for name in self.printers for word in ("-p", name)]

    def of_fleet(self, names: List[str]) -> Answer:
        """What adding these printers comes to."""
        words = [word for name in names for word in ("-p", name)]
        self.objects = self.program.run("check", "--format", "json", *words, self.job)
        if self.objects.status != 2:
            return Answer(DONE)
        return Answer(REFUSED, refusal=refusal_in(self.objects.errors))

    def answers(self) -> Dict[str, Optional[Answer]]:
        """Of each call its answer; of none, what is not compared."""
        refused = self.fleet._replace(refusal=(1, *self.fleet.refusal[1:]))
        due: Dict[str, Optional[Answer]] = {"fleet": self.fleet, **self.of_texts()}
        if self.printers:
            due.update(self.of_checks())
            due.update(self.of_first())
        else:
            due.update(dict.fromkeys(OF_FLEET, Answer(NO_PRINTER)))
            due.update(dict.fromkeys(OF_PROFILE, refused))
            due.update(dict.fromkeys(NOT_COMPARED))
        return due

    def of_texts(self) -> Dict[str, Answer]:
        """What needs no printer."""
        run, once = self.program.run, self.program.once
        return {
            "version": Answer(DONE, text=once("--version").output.split()[1]),
            "explain": self.explained(self.case.code),
            "unheard": self.explained(self.case.job),
            "faults": Answer(DONE, text=faults_in(run("profile", "lint", self.job))),
            "lint": Answer(DONE, text=faults_in(run("profile", "lint", "p0"))),
            "list": with_last_line(run("list", self.job)),
            "plain": with_line_behind(run("plain", self.job, "-")),
            "tell-none": Answer(NO_PRINTER),
        }

    def explained(self, code: bytes) -> Answer:
        """What is known of a code. Of what is no word for a program nothing is."""
        try:
            word = code.decode()
        except UnicodeDecodeError:
            return Answer(UNKNOWN)
        if "\0" in word or len(word) > MOST_CODE:
            return Answer(UNKNOWN)
        words = ["explain", "--", word] if word else ["explain"]
        told = self.program.once(*words)
        return Answer(UNKNOWN) if told.status == 2 else Answer(DONE, text=told.output)

    def of_checks(self) -> Dict[str, Answer]:
        """Checks for the whole fleet and for one printer."""
        run = self.program.run
        if self.fleet.number == REFUSED:
            self.objects = run("check", "--format", "json", *self.words, self.job)
        whole = object_verdict(self.objects.output, len(self.printers))
        one_each = self.objects.output.splitlines()
        if len(self.printers) > 1:
            one_each = run("check", "--format", "json", "--each", *self.words,
                           self.job).output.splitlines()
        sentence = run("check", "--format", "words", *self.words, self.job).output
        each = run("check", "--format", "words", "--each", *self.words,
                   self.job).output.splitlines(keepends=True)
        tell = Answer(DONE, whole, text=sentence)
        first = Answer(DONE, object_verdict(one_each[0], 1), text=each[0])
        last = Answer(DONE, object_verdict(one_each[-1], 1), text=each[-1])
        return {"check": Answer(DONE, whole), "tell": tell, "tell-first": first,
                "tell-last": last, "second": first, "pieces-1": tell, "pieces-7": tell,
                "pieces-4096": tell, "limit-10": self.limited(first.verdict)}

    def limited(self, verdict: Tuple[int, ...]) -> Answer:
        told = self.program.run("check", "--format", "words", "--most-items", "10", "-p", "p0",
                                self.job)
        return Answer(ITEMS) if told.status == 3 else Answer(DONE, verdict, text=told.output)

    def of_first(self) -> Dict[str, Answer]:
        """What is written for the first printer."""
        run = self.program.run
        panel, page = panel_words(self.case.panel), str(self.case.page)
        chosen = run("pin", self.job, "p0", "-", "--panel", panel)
        return {
            "printer-name": Answer(DONE, text=name_in(self.case.printers[0])),
            "notes": with_last_line(run("notes", self.job, "p0")),
            "pages": with_last_line(run("pages", self.job, "p0")),
            "picture-all": drawn(run("picture", self.job, "p0", "--all")),
            "picture-one": drawn(run("picture", self.job, "p0", "--page", page)),
            "unnamed": Answer(UNKNOWN),
            "pin": with_line_behind(run("pin", self.job, "p0", "-")),
            "pin-chosen": Answer(NOT_ALLOWED) if chosen.status == 2 else with_line_behind(chosen),
            "pin-nothing": Answer(NO_FIELD),
        }


def refusal_in(errors: bytes) -> Tuple[int, ...]:
    """Which profile is refused, in which line, and why."""
    found = REFUSAL.match(errors)
    if found is None:
        return (1, -1, -1)
    return (int(found[1]), int(found[2] or 0), CAUSES.index(found[3].decode()))


def faults_in(told: Told) -> bytes:
    """What is wrong with a profile: where nothing is, there are hints."""
    return told.output if told.status == 2 else b""


def name_in(profile: bytes) -> bytes:
    """The name that a profile which is taken has."""
    return next(line.split()[1] for line in profile.splitlines() if line.split()[:1] == [b"name"])


def with_last_line(told: Told) -> Answer:
    """A text whose last line tells the verdict."""
    return Answer(DONE, line_verdict(last_line(told.output)), text=told.output)


def with_line_behind(told: Told) -> Answer:
    """A text behind which a line tells the verdict, where it is no PASS."""
    if told.status == 0:
        return Answer(DONE, text=told.output)
    end = told.output.rindex(b"FAIL at=")
    return Answer(DONE, line_verdict(told.output[end:]), text=told.output[:end])


def drawn(told: Told) -> Answer:
    """A picture, or that there is no such page."""
    return Answer(DONE, text=told.output) if told.output else Answer(NO_PAGE)
