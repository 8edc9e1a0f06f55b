"""Many jobs in one run, on files and streams that fail."""

import errno
import os
from dataclasses import replace
from typing import List, Optional

from hostile_base import (MEMORY, NOTHING, SOME, STOPPED, WRITE, Due, Run, Shim, Tries, exactly,
                          matching, whole)
from hostile_jobs import BAD, GOOD, long_job
from hostile_limits import limiting
from hostile_reads import open_for, write_all
from hostile_writes import closing
from samples import SAMPLE_B

PRINTERS = ("-p", "@B", "-p", "printer")
NAMES = ("good", "gone", "bad", "long")
# How far a read goes before it fails: within the first piece, behind whole ones, and at the end.
COUNTS = (0, 1, 4095, 4096, 8192)


def job_of(name: str) -> Optional[bytes]:
    return {"good": GOOD, "bad": BAD, "long": long_job()}.get(name)


def unread(name: str, number: int) -> bytes:
    return f"ERROR read {name}: {os.strerror(number)}\n".encode()


def line_of(name: str) -> bytes:
    """The line of a job for like printers."""
    job = job_of(name)
    if job is None:
        return unread(name, errno.ENOENT)
    text = whole("check", job).output.replace(b" profile=0", b"")
    return text.replace(b"\n", b" " + name.encode() + b"\n")


LINES = [line_of(name) for name in NAMES]
ASKED = ["check", *PRINTERS, *NAMES]


def put_files(tries: Tries) -> None:
    for name in NAMES:
        if job_of(name) is not None:
            tries.put(name, job_of(name))
    tries.put("printer", SAMPLE_B.encode())


# Each form: its words, and how it tells of a job that there is no memory, and that it cannot be
# read without what the system says.
FORMS = (
    ((), "ERROR memory {}\n", "ERROR read {}\n"),
    (("--format=words", "--explain"), "{}: there is no memory to check this job (ERROR memory)\n",
     "{}: this job cannot be read (ERROR read)\n"),
    (("--format=json", "--explain"), '{{"error":"memory","job":"{}","verdict":"ERROR"}}\n',
     '{{"error":"read","job":"{}","verdict":"ERROR"}}\n'),
    (("--notes",), "ERROR memory {}\n", "ERROR read {}\n"),
)
# Forms whose writes fail, between how many bytes, and what is told then.
WRITTEN = (
    ((), 1, WRITE),
    (("--each", "--notes"), 13, WRITE),
    (("--format=words", "--each", "--explain"), 31,
     b"standard output cannot be written (ERROR write)\n"),
    (("--format=json", "--each", "--explain", "--notes"), 31, WRITE),
)


def requests_refused(tries: Tries, shim: Shim) -> None:
    """Each request for memory is refused in turn, by itself and with all behind it."""
    tries.kind = "many jobs, memory refused"
    if shim.missing:
        tries.skip("requests for memory that are refused", shim.missing)
        return
    for form, *instead in FORMS:
        texts = [tries.run(["check", *PRINTERS, *form, name]).output for name in NAMES]
        others = [instead_of(text, [told.format(name).encode() for told in
                                    instead[:2 if name == "gone" else 1]])
                  for name, text in zip(NAMES, texts)]
        told = 0
        for way in ({}, {"on": 1}):
            for number in range(1, 5000):
                run = shim.run([*ASKED, *form], request=number, **way)
                if shim.marks < 2:
                    break
                told += run.output != b"".join(texts) and not run.errors
                tries.require(is_right_without(run, texts, others),
                              f"{form} request {number}{' and on' if way else ''}",
                              f"status {run.status}, output {run.output!r}, errors {run.errors!r}")
        tries.require(told > 1, f"{form} jobs that tell it", f"{told}")


def instead_of(text: bytes, told: List[bytes]) -> List[bytes]:
    """What may stand in place of a job's text: what is told of it, or its verdict and that."""
    verdict = verdict_before_notes(text)
    return told + ([verdict + line for line in told] if verdict else [])


def verdict_before_notes(text: bytes) -> bytes:
    """The line of a job that passes and has notes; nothing of any other."""
    verdict, *notes = text.splitlines(keepends=True)
    return verdict if verdict.startswith(b"PASS") and notes else b""


def is_right_without(run: Run, texts: List[bytes], others: List[List[bytes]]) -> bool:
    """Whether a run is right that was refused a request: it stopped behind whole texts that are
    due, or before notes, or one of its jobs tells the refusal, or lacks what the system says."""
    if run.status != STOPPED or run.errors not in (b"", MEMORY):
        return False
    if run.errors == MEMORY:
        return any(run.output == b"".join(texts[:count]) + end for count, text in enumerate(texts)
                   for end in (b"", verdict_before_notes(text)))
    return run.output == b"".join(texts) or any(
        run.output == b"".join([*texts[:place], other, *texts[place + 1:]])
        for place in range(len(texts)) for other in others[place])


def reads_that_fail(tries: Tries, shim: Shim) -> None:
    """A read fails in the middle of a job, and the jobs behind it are checked."""
    tries.kind = "many jobs, reads that fail"
    if shim.missing:
        tries.skip("reads that fail", shim.missing)
        return
    for count in (*COUNTS, len(long_job())):
        due = unread("long", errno.EIO) + line_of("good")
        shim.try_(f"EIO behind {count} bytes", ["check", *PRINTERS, "long", "good"],
                  Due((STOPPED,), exactly(due)), read="long", at=count, errno=errno.EIO)


def writes_that_fail(tries: Tries, shim: Shim) -> None:
    """Standard output takes so many bytes: these stand there, and the run ends."""
    tries.kind = "many jobs, writes that fail"
    if shim.missing:
        tries.skip("writes that fail", shim.missing)
        return
    for form, step, line in WRITTEN:
        words = [*ASKED, *form]
        text = tries.run(words).output
        for count in range(0, len(text), step):
            shim.try_(f"{form} {count} bytes go", words, Due((STOPPED,), exactly(text[:count]),
                      exactly(line)), write=1, at=count, errno=errno.ENOSPC)


def streams(tries: Tries) -> None:
    """Streams that are closed or full, and a job on standard input."""
    tries.kind = "many jobs, streams"
    failed = Due((STOPPED,), NOTHING, exactly(WRITE))
    tries.try_("output closed", ASKED, failed, setup=closing((1,)))
    tries.try_("errors closed", ASKED, Due((STOPPED,), exactly(b"".join(LINES))),
               setup=closing((2,)))
    tries.try_("both closed", ASKED, Due((STOPPED,)), setup=closing((1, 2)))
    with open("/dev/full", "wb") as full:
        tries.try_("output full", ASKED, failed, stdout=full)
        line = b"standard output cannot be written (ERROR write)\n"
        tries.try_("output full, in words", [*ASKED, "--format=words"],
                   replace(failed, errors=exactly(line)), stdout=full)
        refused = ["check", "-p", "good", "good"]
        tries.try_("errors full, a bad profile", refused, Due((2,)), stderr=full)
    for job in ("good", "bad"):
        with open(tries.path(job), "rb") as file:
            due = line_of(job).replace(job.encode(), b"-")
            tries.try_(f"input has {job}", ["check", *PRINTERS, "-"],
                       Due((job == "bad",), exactly(due)), stdin=file)
    tries.try_("input closed", ["check", *PRINTERS, "-", "good"],
               Due((STOPPED,), matching(rb"ERROR read -: [^\n]+\n" + line_of("good"))),
               setup=closing((0,)))
    tries.put("input", b"-\0")
    for words in (["-", "-"], ["--each", "-"], ["--files0-from", "-"]):
        with open(tries.path("input"), "rb") as file:
            tries.try_(f"input twice, {words}", ["check", *PRINTERS, *words],
                       Due((2,), errors=SOME), stdin=file)
    tries.remove("fifo")
    os.mkfifo(tries.path("fifo"))
    for job in ("fifo", "/dev/stdin", "/dev/null"):
        tries.try_(f"read again, {job}", ["check", *PRINTERS, "--each", "good", job],
                   Due((2,), errors=SOME))


def files_are_closed(tries: Tries) -> None:
    """Of 300 jobs each is closed before the next is opened."""
    tries.kind = "many jobs, few open files"
    words = ["check", "-p", "@B", "-p", "printer", *["good"] * 300]
    for words, times in ((words, 1), ([*words, "--each"], 2)):
        line = line_of("good")
        if times == 2:
            line = line.replace(b" good", b" printer=B good")
        tries.try_(f"{times} printers apart", words, Due((0,), exactly(line * 300 * times)),
                   setup=limiting(nofile=8))


def lines_come_at_once(tries: Tries) -> None:
    """The line of a job stands there before the next job is read."""
    tries.kind = "many jobs, a line at once"
    tries.remove("fifo")
    os.mkfifo(tries.path("fifo"))
    process = tries.start(["check", *PRINTERS, "good", "fifo", "bad"])
    first = process.stdout.readline()
    file = open_for(process, tries.path("fifo"))
    write_all(file, GOOD)
    os.close(file)
    run = tries.finish(process)
    due = line_of("good") + line_of("good").replace(b"good", b"fifo") + line_of("bad")
    tries.compare("a FIFO", replace(run, output=first + run.output), Due((1,), exactly(due)))
    tries.require(first == line_of("good"), "the first line", repr(first))


def try_all(tries: Tries, shim: Shim) -> None:
    put_files(tries)
    requests_refused(tries, shim)
    reads_that_fail(tries, shim)
    writes_that_fail(tries, shim)
    streams(tries)
    files_are_closed(tries)
    lines_come_at_once(tries)
