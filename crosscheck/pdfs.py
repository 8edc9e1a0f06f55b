"""Compares the PDF documents of random jobs with the lines of `pages`.

    python3 crosscheck/pdfs.py PROGRAM COUNT SEED

Every second job is full of marks (`pdf_jobs.py`), the others are those of `jobs.py`. For each and
the first profile of its fleet `pdf` writes all pages, with --proof and without, and one page alone.
Each document is read by its table (`pdf_objects.py`): every object stands where that says, and
nothing else. Each page has the marks of its lines at their places within 1/7200 inch and no other
(`pdf_marks.py`), and its label tells its number and how it is printed; the last one the failure of
a job that fails, whose line is written, in a sentence. Of a page that the job does not have, or of
a job without a page, there is no document: standard error tells it, and OUT is as it was.

Where these programs are there, qpdf has to find nothing wrong with a document, and the marks that
mutool sees are compared with the lines, too (`pdf_traces.py`); which are not there is told first.
Prints each difference and at last `N compared, M differ`, where N counts documents. The exit status
is 0 where M is 0, else 1.
"""

import os
import re
import shutil
import subprocess
import sys
import tempfile
from dataclasses import dataclass
from typing import Iterator, List, Tuple

sys.dont_write_bytecode = True

import jobs                                                        # noqa: E402
from pdf_jobs import rich_case                                     # noqa: E402
from pdf_marks import failure_differs, page_differs                # noqa: E402
from pdf_objects import Document, Unsound, document_of             # noqa: E402
from pdf_traces import traced_differs, traced_pages                # noqa: E402

SECONDS = 60


@dataclass
class Due:
    """A page by its lines: its number, its marks, its label, and how the job fails on it."""

    number: int
    lines: List[str]
    label: str
    failure: str


def due_of(output: str) -> Tuple[List[Due], str]:
    """The pages of a job, and the line of its failure."""
    pages, lines = [], []
    for line in output.splitlines():
        kind, *words = line.split()
        number = len(pages) + 1
        if kind == "page":
            end = dict(word.split("=") for word in words[1:])
            label = f"{number}: copies {end['copies']}, sides {end['sides']}, tray {end['tray']}"
            pages.append(Due(number, lines, label, ""))
            lines = []
        elif kind == "FAIL":
            return [*pages, Due(number, lines, f"{number}: fails", line)], line + "\n"
        else:
            lines.append(line)
    return pages, ""


def document_differs(document: Document, due: List[Due], is_proof: bool) -> str:
    """What is wrong with a document of these pages, or nothing."""
    if len(document.pages) != len(due):
        return f"{len(document.pages)} pages for {len(due)}"
    for page, wanted in zip(document.pages, due):
        if page.label != wanted.label:
            return f"the label {page.label!r} for {wanted.label!r}"
        why = page_differs(page, wanted.lines, wanted.failure, is_proof)
        if why:
            return f"page {wanted.number}: {why}"
    return verdict_differs(document.verdict.decode("latin-1"), due)


def verdict_differs(verdict: str, due: List[Due]) -> str:
    """What is wrong with the verdict at the foot of pages, or nothing."""
    failure = due[-1].failure if due else ""
    if failure:
        return failure_differs(verdict, failure)
    prints = r".*: .* prints (this job|page \d+) from this panel"
    return "" if re.fullmatch(prints, verdict) else f"the verdict {verdict!r}"


def qpdf_differs(path: str) -> str:
    """What qpdf finds wrong with a document, or nothing."""
    status, told, errors = run("qpdf", "--check", path)
    return "" if status == 0 and not errors else f"qpdf: {(told + errors)[-300:]!r}"


def mutool_differs(path: str, due: List[Due], is_proof: bool) -> str:
    """What is wrong with the marks that mutool sees, or nothing."""
    pages = traced_pages(path)
    if len(pages) != len(due):
        return f"mutool: {len(pages)} pages for {len(due)}"
    for page, wanted in zip(pages, due):
        why = traced_differs(page, wanted.lines, wanted.failure, is_proof)
        if why:
            return f"mutool: page {wanted.number}: {why}"
    return ""


def written_differs(path: str, due: List[Due], is_proof: bool) -> str:
    """What is wrong with a document at a path, or nothing."""
    with open(path, "rb") as file:
        data = file.read()
    try:
        why = document_differs(document_of(data), due, is_proof)
        if not why and shutil.which("qpdf"):
            why = qpdf_differs(path)
        if not why and shutil.which("mutool"):
            why = mutool_differs(path, due, is_proof)
        return why
    except Unsound as error:
        return str(error)


def run(program: str, *words: str) -> Tuple[int, bytes, bytes]:
    done = subprocess.run([program, *words], capture_output=True, timeout=SECONDS,
                          stdin=subprocess.DEVNULL)
    return done.returncode, done.stdout, done.stderr


def missing_differs(program: str, job: str, profile: str, out: str, due: List[Due]) -> str:
    """What is wrong where the page behind the last one is asked for, or any of a job without."""
    with open(out, "wb") as file:
        file.write(b"kept")
    fails = bool(due) and bool(due[-1].failure)
    number = len(due) + 1
    told = f"{job}: there is no page {number} (pages={len(due) - fails})\n".encode()
    for options in (("--page", str(number)), *([] if due else [()])):
        status, output, errors = run(program, "pdf", job, profile, out, *options)
        is_told = errors.startswith(told) and errors.count(b"\n") == 1 + fails
        if (status, output, is_told) != (1, b"", True):
            return f"{options}: {(status, output, errors)} for {told!r}"
    with open(out, "rb") as file:
        return "" if file.read() == b"kept" else "OUT is not as it was"


def differences(program: str, folder: str, job: str, profile: str) -> Iterator[str]:
    """What is told of each document of a job: nothing where it is right."""
    status, output, errors = run(program, "pages", job, profile)
    pages, failure = due_of(output.decode("latin-1"))
    out = os.path.join(folder, "out.pdf")
    if status < 2:
        yield missing_differs(program, job, profile, out, pages)
        if not pages:
            return
    one = max(1, len(pages))
    for options, due in (((), pages), (("--proof",), pages),
                         (("--page", str(one)), pages[-1:])):
        is_over = "--page" in options and bool(pages) and not pages[-1].failure
        line, wanted = ("", 0) if is_over or status == 0 else (failure, status)
        answer = run(program, "pdf", job, profile, out, *options)
        if status > 1:
            yield "" if (answer[0], answer[2]) == (status, errors) else f"{options}: {answer}"
            continue
        if answer != (wanted, line.encode("latin-1"), b""):
            yield f"{options}: {answer} for {line!r}"
            continue
        why = written_differs(out, due, "--proof" in options)
        yield f"{options}: {why}" if why else ""


def case_of(seed: str, number: int) -> Tuple[bytes, str, bytes]:
    """A job, and its printer: the word of a sample or nothing, and the text."""
    if number % 2:
        job, text = rich_case(seed, number)
        return job, "", text
    case = jobs.random_case(seed, number)
    return case.job, *case.printers[0]


def main() -> int:
    program, count, seed = sys.argv[1], int(sys.argv[2]), sys.argv[3]
    compared, differ = 0, 0
    for tool in ("qpdf", "mutool"):
        if shutil.which(tool) is None:
            print(f"{tool} is not there, and is asked about no document")
    with tempfile.TemporaryDirectory() as folder:
        for number in range(count):
            given, word, text = case_of(seed, number)
            job, profile = os.path.join(folder, "job"), os.path.join(folder, "profile")
            for path, data in ((job, given), (profile, text)):
                with open(path, "wb") as file:
                    file.write(data)
            for why in differences(program, folder, job, word or profile):
                compared += 1
                differ += bool(why)
                if why:
                    print(f"job {number} of {seed}: {why}")
    print(f"{compared} compared, {differ} differ")
    return 1 if differ else 0


if __name__ == "__main__":
    sys.exit(main())
