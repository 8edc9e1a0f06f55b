"""Compares the pictures of random jobs with a second drawing, and with the lines of `pages`.

    python3 crosscheck/pictures.py PROGRAM COUNT SEED

For each job and the first profile of its fleet, `picture` draws each page, and one more. Each is to
the byte what `drawing.py` draws, with the boxes of characters and without; it has the marks of its
page and no other, and is well formed; the page on which the job fails has one thing that fails and
the sentence of `check --format words`, where that finds the same; and of a page that the job does
not have standard error alone tells. A document of all pages has the same pictures, but for the
sentence, each behind the number of its page. Before the random jobs a page of each symbol set that
Python has, too, shows the codes from 33 on: its letters are those of Python's codec. Prints each
difference and at last `N compared, M differ`, where N counts pictures. The exit status is 0 where M
is 0, else 1.
"""

import os
import re
import subprocess
import sys
import tempfile
import xml.etree.ElementTree as xml
from dataclasses import dataclass, field
from html import unescape
from typing import Callable, Iterator, List, Optional, Tuple

sys.dont_write_bytecode = True

import jobs                                                        # noqa: E402
from drawing import ENCODINGS, draw                                # noqa: E402
from picture_marks import first_difference                         # noqa: E402
from printer_profile import read_profile                           # noqa: E402
from samples import SAMPLE_B, with_lines                           # noqa: E402

SECONDS = 60
MOST_PAGES = 12                                # of a job are drawn one by one
PICTURE = re.compile(r"<h2>Page (\d+)</h2>\n(<svg .*?</svg>\n)", re.DOTALL)
SENTENCE = re.compile(r'<text class="sentence"[^>]*>(.*?)</text>|<body>\n<p>(.*?)</p>')


@dataclass
class Answer:
    status: int
    output: str
    errors: str


@dataclass
class Due:
    """The pages of a job by the lines of `pages`: the marks of each, the line of its failure."""

    pages: List[List[str]] = field(default_factory=list)
    open_page: List[str] = field(default_factory=list)
    failure: Optional[str] = None


Run = Callable[..., Answer]

# Draws a page by its number, or without one all: with boxes, and with this sentence.
Draw = Callable[[Optional[int], bool, bytes], str]


def due_of(pages: Answer) -> Due:
    due = Due()
    for line in pages.output.splitlines():
        if line.startswith("page "):
            due.pages.append(due.open_page)
            due.open_page = []
        elif line.startswith("FAIL "):
            due.failure = line
        else:
            due.open_page.append(line)
    return due


def texts_of(picture: str, kind: str) -> List[str]:
    """The texts of the elements of a class."""
    return [element.text or "" for element in xml.fromstring(picture).iter()
            if element.get("class") == kind]


def reason_of(line: str) -> str:
    """The number and the name behind the place and the printer."""
    return line.split(" ", 3)[3]


def place_of(line: str) -> str:
    return line.split(" ", 2)[1].removeprefix("at=")


def failure_differs(picture: str, failure: str) -> str:
    """What is wrong with what fails and the sentence of a page on which a job fails, or nothing."""
    sentences = texts_of(picture, "sentence")
    if len(texts_of(picture, "failure")) != 1 or len(sentences) != 1:
        return "nothing that fails, or no sentence"
    wanted = (f" at byte {place_of(failure)}", f" ({reason_of(failure)})")
    if wanted[0] not in sentences[0] or not sentences[0].endswith(wanted[1]):
        return f"the sentence {sentences[0]!r} for {failure!r}"
    return ""


def text_differs(run: Run, draw_page: Draw, page: Optional[int]) -> str:
    """What is not as in the second drawing, which has the sentence of the first, or nothing."""
    words = ("--all",) if page is None else ("--page", str(page))
    for boxes in ((), ("--boxes",)):
        drawn = run("picture", *words, *boxes).output
        told = SENTENCE.search(drawn)
        sentence = unescape(told[1] or told[2]).encode("latin-1", "replace") if told else b""
        wanted = draw_page(page, bool(boxes), sentence)
        for have, due in zip(drawn.split("\n"), wanted.split("\n")):
            if have != due:
                return f"{have!r} is drawn for {due!r}"
        if drawn != wanted:
            return f"{len(drawn)} bytes are drawn for {len(wanted)}"
    return ""


def page_differs(answer: Answer, marks: List[str], failure: Optional[str]) -> str:
    """What is wrong with the picture of a page with these marks, or nothing."""
    if answer.status != (0 if failure is None else 1) or answer.errors:
        return f"status {answer.status}, {answer.errors!r}"
    try:
        different = first_difference(answer.output, marks)
    except (xml.ParseError, AssertionError) as error:
        return f"no picture: {error!r}"
    if different:
        return different
    if failure is None:
        return "a failure" if texts_of(answer.output, "failure") else ""
    return failure_differs(answer.output, failure)


def missing_differs(answer: Answer, number: int, count: int) -> str:
    """What is wrong with the answer on a page that the job does not have, or nothing."""
    line = f": there is no page {number} (pages={count})\n"
    if answer.status != 1 or answer.output or line not in answer.errors:
        return f"status {answer.status}, {answer.output!r}, {answer.errors!r}"
    return ""


def document_differs(answer: Answer, due: Due) -> str:
    """What is wrong with a document of all pages, or nothing."""
    pictures = PICTURE.findall(answer.output)
    wanted = due.pages + ([due.open_page] if due.failure else [])
    if answer.status != (1 if due.failure else 0) or len(pictures) != len(wanted):
        return f"status {answer.status}, {len(pictures)} pictures for {len(wanted)}"
    for number, ((label, picture), marks) in enumerate(zip(pictures, wanted), start=1):
        different = first_difference(picture, marks)
        if different or label != str(number):
            return f"picture {number}, labelled {label}: {different}"
    crosses = answer.output.count('class="failure"')
    verdict = unescape(re.search(r"<p>(.*?)</p>", answer.output)[1])
    told = f"({reason_of(due.failure)})" if due.failure else f"(pages={len(due.pages)} "
    if crosses != (1 if due.failure else 0) or told not in verdict:
        return f"{crosses} failures, {verdict!r}"
    return "" if PICTURE.sub("", answer.output).endswith("</ul>\n</body>\n</html>\n") else "its end"


def differences(run: Run, draw_page: Draw) -> Tuple[int, List[str]]:
    """How many pictures of a job were compared, and what is wrong with them."""
    pages = run("pages")
    if pages.status not in (0, 1):
        return 0, []
    due = due_of(pages)
    found = []
    for number, marks in enumerate(due.pages[:MOST_PAGES], start=1):
        answer = run("picture", "--page", str(number), "--boxes")
        found.append((number, page_differs(answer, marks, None)
                      or text_differs(run, draw_page, number)))
    last = len(due.pages) + 1
    if due.failure:
        answer = run("picture", "--page", str(last), "--boxes")
        found.append((last, page_differs(answer, due.open_page, due.failure)
                      or text_differs(run, draw_page, last)))
        last += 1
    answer = run("picture", "--page", str(last))
    found.append((last, missing_differs(answer, last, len(due.pages))))
    found.append((0, document_differs(run("picture", "--all", "--boxes"), due)
                  or text_differs(run, draw_page, None)))
    return len(found), [f"page {number}: {why}" for number, why in found if why]


def run_program(program: str, job: str, profile: str, command: str, *options: str) -> Answer:
    done = subprocess.run([program, command, job, profile, *options], capture_output=True,
                          timeout=SECONDS, stdin=subprocess.DEVNULL)
    return Answer(done.returncode, done.stdout.decode("latin-1"), done.stderr.decode("latin-1"))


def second_drawing(text: bytes, job: bytes, *wanted) -> str:
    printer = read_profile(text)
    return draw(printer, printer.first_panel(), job, *wanted)


def cases(count: int, seed: str) -> Iterator[Tuple[str, str, bytes, bytes]]:
    """The name of each job, the word for its printer, if there is one, the printer's text and the
    job: first those with all codes that a face may have, as data that is printed, 32 a line."""
    rows = [bytes(range(first, min(first + 32, 256))) for first in range(33, 256, 32)]
    codes = b"".join(b"\x1b&p%dX%b\r\n" % (len(row), row) for row in rows) + b"\f"
    for symbol_set in ENCODINGS:
        face = f"face 1 {symbol_set} 10 12 0 0 3 720 900 300 33-255"
        yield f"the codes of {symbol_set}", "", with_lines(SAMPLE_B, face).encode(), codes
    for number in range(count):
        case = jobs.random_case(seed, number)
        yield f"job {number} of {seed}", *case.printers[0], case.job


def main() -> int:
    program, count, seed = sys.argv[1], int(sys.argv[2]), sys.argv[3]
    compared, differ = 0, 0
    with tempfile.TemporaryDirectory() as folder:
        path, profile = os.path.join(folder, "job"), os.path.join(folder, "profile")
        for name, word, text, job in cases(count, seed):
            for place, data in ((path, job), (profile, text)):
                with open(place, "wb") as file:
                    file.write(data)
            pictures, found = differences(
                lambda *words: run_program(program, path, word or profile, *words),
                lambda *wanted: second_drawing(text, job, *wanted))
            compared, differ = compared + pictures, differ + len(found)
            for line in found:
                print(f"{name}: {line}")
    print(f"{compared} compared, {differ} differ")
    return 1 if differ else 0


if __name__ == "__main__":
    sys.exit(main())
