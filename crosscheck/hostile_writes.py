"""Streams that are closed, full or have no reader, and an OUT that is a device or a FIFO."""

import errno
import os
from dataclasses import dataclass, replace
from typing import Callable, List, Tuple

from hostile_base import (COMMANDS, FIRST_BESIDE, NOTHING, NO_FILE, READ, SOME, STOPPED, TELLING,
                          UNSEEN, WITH_OUT, WRITE, Due, Shim, Tries, asked, due_of, exactly,
                          front_of_length, matching, read_bytes, stopped_by, whole)
from hostile_jobs import BAD, GOOD, LONGER, UNPINNABLE, long_job, put_files
from hostile_reads import pieces_of, through_fifo
from samples import SAMPLE_B


@dataclass(frozen=True)
class Situation:
    """Words, and what is due of them on sound streams."""
    name: str
    words: Tuple[str, ...]
    due: Due
    has_output: bool
    is_usage: bool = False


def of_job(command: str, name: str, job: bytes) -> Situation:
    """A command on the job in the file of a name."""
    answer = whole(command, job)
    return Situation(f"{command}, {name}", tuple(asked(command, name)), due_of(answer),
                     bool(answer.output))


def usage(name: str, *words: str) -> Situation:
    return Situation(name, words, Due((2,), errors=SOME), False, True)


def situations() -> List[Situation]:
    """Each kind of end of each command; the jobs and profiles are files of these names."""
    found = [of_job(command, name, job) for command in COMMANDS for name, job in
             (("good", GOOD), ("bad", BAD), ("unpinnable", UNPINNABLE), ("empty", b""))]
    for command in COMMANDS:
        found.append(Situation(f"{command}, a directory", tuple(asked(command, "directory")),
                               stopped_by(READ), False))
    refused = Due((2,), errors=exactly(b"ERROR profile 1 1 Version\n"))
    for command in ("check", "pages", "pin"):
        words = tuple(asked(command, "good", "version"))
        found.append(Situation(f"{command}, a bad profile", words, refused, False))
    found += [
        usage("no words"), usage("an unknown command", "frob"), usage("too few words", "check"),
        usage("OUT is JOB", "plain", "good", "./good"), usage("no code", "explain", "999"),
        usage("no model", "profile", "new", "laserjet"),
        usage("no panel", "pin", "--panel", "size", "good", "@B", "out"),
        usage("not allowed", "pin", "--panel", "size=3", "good", "@B", "out"),
    ]
    for words in (["--help"], ["--version"], ["explain"], ["explain", "12"], ["pin", "--help"],
                  ["profile", "list"], ["profile", "new", "generic"]):
        found.append(Situation(" ".join(words), tuple(words), Due((0,), SOME), True))
    return found


def on_streams(situation: Situation, takes_output: bool, takes_errors: bool) -> Due:
    """What is due where standard output or standard error take nothing.

    What cannot be written on standard output is a failed write, with its line and its status, and
    OUT is as it was. A line for standard error that cannot be written changes no status; but a
    usage error may also end as a failed write, since it is both.
    """
    due = situation.due
    if situation.has_output and not takes_output:
        due = replace(due, status=(STOPPED,), output=NOTHING, errors=exactly(WRITE),
                      written=NO_FILE)
    elif situation.is_usage and not takes_errors:
        due = replace(due, status=due.status + (STOPPED,))
    return due if takes_errors else replace(due, errors=NOTHING)


def closing(files: Tuple[int, ...]) -> Callable[[], None]:
    """Closes files in the new process."""
    def close() -> None:
        for file in files:
            os.close(file)
    return close


def closed_streams(tries: Tries) -> None:
    """Each of the three streams is open or closed. A file that is opened then has the number of
    the closed stream, and what is meant for the stream must not go into it."""
    tries.kind = "closed streams"
    for situation in situations():
        for closed in ((), (0,), (1,), (2,), (0, 1), (0, 2), (1, 2), (0, 1, 2)):
            due = on_streams(situation, 1 not in closed, 2 not in closed)
            tries.try_(f"{situation.name}, {closed} closed", situation.words, due,
                       setup=closing(closed))
    for name, data in (("good", GOOD), ("bad", BAD), ("printer", SAMPLE_B.encode())):
        tries.require(read_bytes(tries.path(name)) == data, name, "it has changed")


def full_streams(tries: Tries) -> None:
    """A device that takes nothing, for one stream and for both."""
    tries.kind = "streams on a full device"
    if not os.path.exists("/dev/full"):
        tries.skip("standard output and error", "there is no /dev/full")
        return
    for situation in situations():
        with open("/dev/full", "wb") as full:
            tries.try_(f"{situation.name}, output", situation.words,
                       on_streams(situation, False, True), stdout=full)
            tries.try_(f"{situation.name}, errors", situation.words,
                       on_streams(situation, True, False), stderr=full)
            tries.try_(f"{situation.name}, both", situation.words,
                       on_streams(situation, False, False), stdout=full, stderr=full)


def without_reader() -> int:
    """A pipe to which nobody listens."""
    reader, writer = os.pipe()
    os.close(reader)
    return writer


def streams_without_reader(tries: Tries) -> None:
    """A pipe whose reader has gone: a failed write, and no end by SIGPIPE."""
    tries.kind = "pipes without a reader"
    for situation in situations():
        gone = without_reader()
        tries.try_(f"{situation.name}, output", situation.words,
                   on_streams(situation, False, True), stdout=gone)
        tries.try_(f"{situation.name}, errors", situation.words,
                   on_streams(situation, True, False), stderr=gone)
        os.close(gone)
    for command in TELLING:
        process = tries.start(asked(command, "longer"))
        front = os.read(process.stdout.fileno(), 100)
        process.stdout.close()
        process.stdout = None
        run = tries.finish(process)
        due = stopped_by(WRITE, front_of_length(whole(command, LONGER).output, 1, 100))
        tries.compare(f"{command}, the reader goes away", replace(run, output=front), due)


def a_stream_that_does_not_wait(tries: Tries) -> None:
    """A full pipe that refuses what it has no room for: a failed write, and a front."""
    tries.kind = "pipes that do not wait"
    tries.remove("out")
    for command in TELLING:
        reader, writer = os.pipe()
        os.set_blocking(writer, False)
        run = tries.run(asked(command, "longer"), stdout=writer)
        os.close(writer)
        with open(reader, "rb") as file:
            output = file.read()
        due = stopped_by(WRITE, front_of_length(whole(command, LONGER).output, 1, 1 << 16))
        tries.compare(command, replace(run, output=output), due)


def outs_on_devices(tries: Tries) -> None:
    """What is written to OUT is lost there, or cannot be written."""
    tries.kind = "OUT is a device"
    if not os.path.exists("/dev/full"):
        tries.skip("OUT", "there is no /dev/full")
        return
    for command in WITH_OUT:
        for name, job in (("good", GOOD), ("bad", BAD), ("long", long_job())):
            due = stopped_by(WRITE)
            tries.try_(f"{command} {name}, /dev/full", asked(command, name, out="/dev/full"), due)
            due = replace(due_of(whole(command, job)), written=NO_FILE)
            tries.try_(f"{command} {name}, /dev/null", asked(command, name, out="/dev/null"), due)
        due = replace(due_of(whole(command, b"")), written=NO_FILE)
        tries.try_(f"{command} empty, /dev/full", asked(command, "empty", out="/dev/full"), due)
        answer = whole(command, BAD)
        run = tries.fresh(asked(command, "bad", out="/dev/stdout"))
        due = Due((answer.status,), exactly(answer.written + answer.output))
        tries.compare(f"{command}, standard output", run, due)
        with open(tries.path("output"), "ab") as file:
            run = tries.fresh(asked(command, "bad", out="/dev/stdout"), stdout=file)
        run = replace(run, output=read_bytes(tries.path("output")))
        tries.compare(f"{command}, standard output at the end of a file", run, due)
        tries.remove("output")


def outs_on_standard_output(tries: Tries) -> None:
    """With `-` the text goes to standard output, and behind it the line of a failure."""
    tries.kind = "OUT is standard output"
    for command in WITH_OUT:
        for name, job in (("good", GOOD), ("bad", BAD), ("empty", b"")):
            answer = whole(command, job)
            words, text = asked(command, name, out="-"), answer.written + answer.output
            due = Due((answer.status,), exactly(text))
            tries.try_(f"{command} {name}, -", words, due)
            for mode in ("wb", "ab"):
                with open(tries.path("output"), mode) as file:
                    run = tries.fresh(words, stdout=file)
                run = replace(run, output=read_bytes(tries.path("output")))
                tries.compare(f"{command} {name}, - into a file, {mode}", run, due)
                tries.remove("output")
            due = stopped_by(WRITE) if text else Due((answer.status,))
            tries.try_(f"{command} {name}, - closed", words, due, setup=closing((1,)))
        tries.require(not os.path.lexists(tries.path("-")), command, "there is a file '-'")
        tries.put("job", GOOD)
        with open(tries.path("job"), "ab") as file:
            run = tries.run(asked(command, "job", out="-"), stdout=file)
        wrong = "" if read_bytes(tries.path("job")) == GOOD else "JOB has changed"
        due = Due((2,), NOTHING, matching(rb"error: [^\n]*OUT[^\n]*JOB[^\n]*\n"), UNSEEN)
        tries.compare(f"{command}, - is JOB", run, due, wrong)


def outs_that_are_fifos(tries: Tries) -> None:
    """OUT may be a FIFO; so may JOB and OUT."""
    tries.kind = "OUT is a FIFO"
    os.mkfifo(tries.path("fifo_out"))
    for command in WITH_OUT:
        answer = whole(command, long_job())
        for job in ("long", "fifo"):
            reader = os.open(tries.path("fifo_out"), os.O_RDONLY | os.O_NONBLOCK)
            words = asked(command, job, out="fifo_out")
            run = (tries.fresh(words) if job == "long" else
                   through_fifo(tries, words, pieces_of(long_job(), 999)))
            due = replace(due_of(answer), written=NO_FILE)
            tries.compare(f"{command} {job}", run, due)
            taken = os.read(reader, 1 << 16)
            os.close(reader)
            tries.require(taken == answer.written, f"{command} {job}",
                          f"{len(taken)} bytes came, due {len(answer.written)}")


def writes_that_fail_late(tries: Tries, shim: Shim) -> None:
    """A device that is full after some bytes."""
    tries.kind = "late ENOSPC"
    if shim.missing:
        tries.skip("writes that fail late", shim.missing)
        return
    job = long_job()
    for command in COMMANDS:
        answer = whole(command, job)
        text = answer.written if command in WITH_OUT else answer.output
        for count in (0, 1, 4096, 8191, 8192, 8193, len(text) - 1):
            if count >= len(text):
                continue
            target, due = "1", stopped_by(WRITE, front_of_length(text, count, count))
            if command in WITH_OUT:
                target, due = FIRST_BESIDE, stopped_by(WRITE)
            shim.try_(f"{command}, {count} bytes go", asked(command, "long"), due,
                      write=target, at=count, errno=errno.ENOSPC)
    told = stopped_by(b"out: this file cannot be written (ERROR write)\n")
    for command in WITH_OUT:
        shim.try_(f"{command}, in words", ["--format=words", *asked(command, "long")], told,
                  write=FIRST_BESIDE, at=0, errno=errno.ENOSPC)
        answer = whole(command, BAD)
        due = stopped_by(WRITE, front_of_length(answer.output, 9, 9))
        shim.try_(f"{command}, the line of a fault", asked(command, "bad"), due,
                  write="1", at=9, errno=errno.ENOSPC)


def try_all(tries: Tries, shim: Shim) -> None:
    put_files(tries)
    closed_streams(tries)
    full_streams(tries)
    streams_without_reader(tries)
    a_stream_that_does_not_wait(tries)
    outs_on_devices(tries)
    outs_on_standard_output(tries)
    outs_that_are_fifos(tries)
    writes_that_fail_late(tries, shim)
