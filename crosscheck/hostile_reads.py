"""Reads that fail, that end early, and that give a job in pieces."""

import errno
import os
import signal
import socket
import subprocess
import threading
import time
from dataclasses import replace
from typing import Callable, Iterable, List

from hostile_base import (COMMANDS, FIRST_BESIDE, NOTHING, READ, SECONDS, STOPPED, TELLING,
                          WITH_OUT, WITH_PROFILE, Due, Run, Shim, Tries, asked, due_of, exactly,
                          front_of, stopped_by, text_of, whole)
from hostile_jobs import (BAD, FAULT, GOOD, UNPINNABLE, cuts, decided, long_job, put_files,
                          told_before)
from samples import SAMPLE_B

UNREADABLE = ("directory", "/proc/self/mem", "none", "", "loop")
PIECES = (1, 7, 4095, 4096, 4097)
# Fronts of jobs, how many items each decides, and whether a fault is decided behind these.
FRONTS = (
    # Letters are decided by what ends the command, and not by white space.
    (b"\x1b%0BIN", 1, False), (b"\x1b%0BIN ", 1, False), (b"\x1b%0BIN;", 2, False),
    (b"\x1b%0BIN,", 1, True), (b"\x1b%0BSP1", 1, False), (b"\x1b%0BSP1;", 2, False),
    # A pair is decided by the byte behind its second number, whatever it is.
    (b"\x1b%0BPA1,2", 1, False), (b"\x1b%0BPA1,2 ", 2, False), (b"\x1b%0BPA1,2:", 2, True),
    # Faults are decided by the byte at which they stand first.
    (b"\x1b%0BL", 1, False), (b"\x1b%0BLT", 1, True), (b"\x1b%0BPA8388608", 1, False),
    (b"\x1b%0BPA8388608,", 1, True),
    # In the other language each command of a combined sequence is decided by its letter.
    (b"\x1b%0B\x1b%0A\x1b&l2", 2, False), (b"\x1b%0B\x1b%0A\x1b&l2a", 3, False),
    # A line that is none is decided by its newline, and not before.
    (b"\x1b%-12345X@XYZ", 1, False), (b"\x1b%-12345X@XYZ\n", 1, True),
)
# Jobs that fail for the printers of these words, of which a sentence tells the item, the page, the
# cursor and the font.
FAILING = (
    (b"\x1bE\x1b&f1S\x1bE", ("@B",)), (b"\x1bE\x1b&l2a9O\x0c", ("@B",)),
    (b"\x1bE\x1b&l2a1.5o1X", ("@B",)), (b"\x1bE\x1b*b3Wabc\x1bE", ("@B",)),
    (b"\x1bE\x1b%0BSP1PD5,5,-1,7;", ("@B",)), (b"\x1bE\x1b%0BPD;", ("@B",)),
    (b"\x1bEA", ("@B", "@D")), (b"\x1bE\x0cA", ("@B", "@D")), (b"\x1bE\x01", ("@B",)),
    (b"\x1bE\x1b&f1", ("@B",)), (b"\x1bE\x1b&f0X", ("@B",)), (b"\x1bE\x0c\x1b&f1S", ("@B",)),
    (b"\x1b&f0X\x0c\x1b*p9999X\x1b&f1X\x1b&f2X", ("@B", "@D")),
    (b"\x1b&l2A\x1b*p300x300Y\x1b&f1S", ("@B",)),
    (b"\x1b&l2A\x1b(0N\x1b(s1p10v0s0b4101TA", ("@B",)),
)


def job_reads_that_fail(tries: Tries, shim: Shim) -> None:
    """A read of JOB fails in its middle: what the bytes before it decide is told, and no more."""
    tries.kind = "read of JOB"
    if shim.missing:
        tries.skip("reads that fail in the middle of JOB", shim.missing)
        return
    job = long_job()
    tries.put("job", job)
    for command in COMMANDS:
        for count in cuts(job):
            due = due_of(told_before(command, job, count))
            shim.try_(f"{command}, EIO behind {count} bytes", asked(command, "job"), due,
                      read="job", at=count, errno=errno.EIO)
    frame = job.index(b"PW0.5") + 3
    for command in COMMANDS:
        answer = whole(command, job)
        due = stopped_by(READ, front_of(answer.output if command in TELLING else b""))
        shim.try_(f"{command}, EIO in a frame", asked(command, "job"), due,
                  read="job", at=frame, errno=errno.EIO)


def reads_behind_a_verdict(tries: Tries, shim: Shim) -> None:
    """Nothing is read once a fault is certain, so a read that would fail behind it does not."""
    tries.kind = "read behind a fault"
    if shim.missing:
        tries.skip("reads that would fail behind a fault", shim.missing)
        return
    job = long_job()
    job = decided(job, 6000) + FAULT + job
    tries.put("job", job)
    for command in COMMANDS:
        run = shim.run(asked(command, "job"), read="job", at=8192, errno=errno.EIO)
        tries.compare(f"{command}, EIO behind 8192 bytes", run, due_of(whole(command, job)))
        shim.try_(f"{command}, EIO behind 4096 bytes", asked(command, "job"),
                  due_of(told_before(command, job, 4096)), read="job", at=4096, errno=errno.EIO)


def fronts_that_decide(tries: Tries, shim: Shim) -> None:
    """Each item of a job, and a fault, is told once the bytes before a failing read decide it."""
    tries.kind = "fronts of JOB"
    if shim.missing:
        tries.skip("fronts of jobs", shim.missing)
        return
    for front, count, is_fault in FRONTS:
        tries.put("job", front)
        run = shim.run(asked("list", "job"), read="job", at=len(front), errno=errno.EIO)
        told = (run.status, run.errors, run.output.count(b"\n"), b" FAULT " in run.output)
        due = (1, b"", count + 1, True) if is_fault else (STOPPED, READ, count, False)
        tries.require(told == due, f"{front!r}", f"{run}, due {due}")


def sentences_in_pieces(tries: Tries, shim: Shim) -> None:
    """However its bytes come, the same sentence is told of a job that fails."""
    tries.kind = "sentences of JOB in pieces"
    if shim.missing:
        tries.skip("reads that are cut short", shim.missing)
        return
    for job, printers in FAILING:
        tries.put("job", job)
        words = ["check", "--format=words", "job", *printers]
        whole = tries.run(words)
        tries.require(whole.status == 1, f"{job!r}", f"{whole}")
        for size in range(1, len(job)):
            shim.try_(f"{job!r}, pieces of {size}", words, Due((1,), exactly(whole.output)),
                      read="job", piece=size)


def jobs_that_cannot_be_read(tries: Tries) -> None:
    """A directory, memory that is not mapped, nothing at all, a socket; OUT is as it was."""
    tries.kind = "unreadable JOB"
    tries.remove("out")
    with socket.socket(socket.AF_UNIX) as listening:
        listening.bind(tries.path("socket"))
        for job in ("directory", "/proc/self/mem", "none", "file/job", "socket", "loop", ""):
            for command in COMMANDS:
                due = stopped_by(READ)
                if command in WITH_OUT:
                    due = replace(due, written=exactly(b"old"))
                    tries.put("out", b"old")
                run = tries.run(asked(command, job))
                tries.compare(f"{command} {job!r}", run, due)
                tries.remove("out")
    tries.remove("socket")


def profiles_that_cannot_be_read(tries: Tries, shim: Shim) -> None:
    """ERROR read; JOB is not opened, and OUT is as it was."""
    tries.kind = "unreadable PROFILE"
    tries.put("job", GOOD)
    refused = Due((2,), NOTHING, exactly(b"ERROR profile 1 1 Version\n"))
    for profile in UNREADABLE:
        for command in WITH_PROFILE:
            tries.put("out", b"old")
            kept = exactly(b"old")
            due = replace(stopped_by(READ), written=kept)
            name = f"{command} {profile!r}"
            tries.compare(name, tries.run(asked(command, "job", profile)), due)
            run = tries.run(asked(command, "none", profile))
            tries.compare(f"{name}, no JOB", run, due)
        for words, due in ((["@B", profile, "version"], stopped_by(READ)),
                           (["version", profile], refused)):
            tries.try_(f"check {words}", ["check", "job", *words], due)
    if shim.missing:
        tries.skip("reads that fail in the middle of PROFILE", shim.missing)
        return
    for count in (0, 1, len(SAMPLE_B) // 2, len(SAMPLE_B)):
        for command in WITH_PROFILE:
            shim.try_(f"{command}, EIO behind {count} bytes", asked(command, "good", "printer"),
                      stopped_by(READ), read="printer", at=count, errno=errno.EIO)


def pieces_of(data: bytes, size: int) -> List[bytes]:
    return [data[place:place + size] for place in range(0, len(data), size)]


class Writer(threading.Thread):
    """Writes pieces to a FIFO, as slowly as it is told to, until its reader has gone."""

    def __init__(self, path: str, pieces: Iterable[bytes], pause: Callable[[int], None]):
        super().__init__(daemon=True)
        self.path, self.pieces, self.pause = path, pieces, pause

    def run(self) -> None:
        try:
            with open(self.path, "wb", buffering=0) as file:
                for number, piece in enumerate(self.pieces):
                    self.pause(number)
                    file.write(piece)
        except OSError:
            pass


def no_pause(number: int) -> None:
    """Writes on at once."""


def short_pause(number: int) -> None:
    """Waits a little before each piece."""
    time.sleep(0.002)


def through_fifo(tries: Tries, words: List[str], pieces: Iterable[bytes],
                 pause: Callable[[int], None] = no_pause, path: str = "fifo") -> Run:
    """A run whose words name a FIFO, into which the pieces are written."""
    tries.remove("out")
    process = tries.start(words)
    writer = Writer(tries.path(path), pieces, pause)
    writer.start()
    run = tries.finish(process)
    release(writer, tries.path(path))
    return run


def release(writer: Writer, path: str) -> None:
    """Lets a writer end, also one that waits for a reader which never came."""
    writer.join(0.02)
    while writer.is_alive():
        os.close(os.open(path, os.O_RDONLY | os.O_NONBLOCK))
        writer.join(0.02)


def open_for(process: subprocess.Popen, path: str) -> int:
    """The end of a FIFO to which is written, once the program has opened the other; or, where it
    does not, a place where what is written goes nowhere."""
    end = time.monotonic() + SECONDS
    while process.poll() is None and time.monotonic() < end:
        try:
            file = os.open(path, os.O_WRONLY | os.O_NONBLOCK)
        except OSError:
            time.sleep(0.001)
            continue
        os.set_blocking(file, True)
        return file
    return os.open(os.devnull, os.O_WRONLY)


def write_all(file: int, data: bytes) -> None:
    """Writes at most what a pipe holds, unless the reader has gone."""
    try:
        os.write(file, data)
    except BrokenPipeError:
        pass


def jobs_in_pieces(tries: Tries) -> None:
    """However its bytes come, a job has one answer."""
    tries.kind = "JOB is a FIFO"
    job = long_job()
    for command in COMMANDS:
        due = due_of(whole(command, job))
        for size in PIECES:
            run = through_fifo(tries, asked(command, "fifo"), pieces_of(job, size))
            tries.compare(f"{command}, pieces of {size}", run, due)
        for name, short in (("passes", GOOD), ("fails", BAD), ("unpinnable", UNPINNABLE)):
            run = through_fifo(tries, asked(command, "fifo"), pieces_of(short, 1), short_pause)
            tries.compare(f"{command}, a slow job that {name}", run, due_of(whole(command, short)))
        for size in (0, 1, 5, 4090, 4096, 5000):
            run = through_fifo(tries, asked(command, "fifo"), [job[:size]])
            tries.compare(f"{command}, ends behind {size} bytes", run,
                          due_of(whole(command, job[:size])))


def profiles_in_pieces(tries: Tries) -> None:
    """However its bytes come, a profile is one printer."""
    tries.kind = "PROFILE is a FIFO"
    tries.put("job", GOOD)
    text = text_of("@B")
    for command in WITH_PROFILE:
        for size in (1, 100):
            run = through_fifo(tries, asked(command, "job", "fifo"), pieces_of(text, size))
            tries.compare(f"{command}, pieces of {size}", run, due_of(whole(command, GOOD)))
        run = through_fifo(tries, asked(command, "job", "fifo"), [])
        tries.compare(f"{command}, no bytes", run,
                      Due((2,), errors=exactly(b"ERROR profile 1 1 Version\n")))


def jobs_from_standard_input(tries: Tries) -> None:
    """A pipe and a file under the path of standard input."""
    tries.kind = "JOB is /dev/stdin"
    job = long_job()
    tries.put("job", job)
    for command in COMMANDS:
        with open(tries.path("job"), "rb") as file:
            tries.try_(f"{command}, a file", asked(command, "/dev/stdin"),
                       due_of(whole(command, job)), stdin=file)
        reader, writer = os.pipe()
        os.write(writer, GOOD)
        os.close(writer)
        tries.try_(f"{command}, a pipe", asked(command, "/dev/stdin"),
                   due_of(whole(command, GOOD)), stdin=reader)
        os.close(reader)


def told_as_it_comes(tries: Tries) -> None:
    """Before it reads on, the program tells what the bytes so far decide."""
    tries.kind = "a slow JOB is told"
    job = long_job()
    tries.remove("out")
    for command in TELLING:
        for count in (4096, 5000):
            due = told_before(command, job, count).output
            process = tries.start(asked(command, "fifo"))
            file = open_for(process, tries.path("fifo"))
            write_all(file, job[:count])
            seen = read_so_much(process.stdout.fileno(), len(due))
            write_all(file, job[count:])
            os.close(file)
            run = tries.finish(process)
            name = f"{command}, {count} bytes"
            tries.require(seen == due, name, f"{len(seen)} bytes told, due {len(due)}")
            tries.compare(name, replace(run, output=seen + run.output), due_of(whole(command, job)))


def read_so_much(file: int, count: int) -> bytes:
    """So many bytes of a pipe; fewer where they do not come in time."""
    os.set_blocking(file, False)
    data = b""
    end = time.monotonic() + SECONDS / 3
    while len(data) < count and time.monotonic() < end:
        try:
            piece = os.read(file, count - len(data))
        except BlockingIOError:
            time.sleep(0.002)
            continue
        if not piece:
            break
        data += piece
    os.set_blocking(file, True)
    return data


def stopped_and_continued(tries: Tries) -> None:
    """A program that is stopped while it reads goes on where it was."""
    tries.kind = "SIGSTOP, SIGCONT"
    job = long_job()
    for command in COMMANDS:
        tries.remove("out")
        process = tries.start(asked(command, "fifo"))
        file = open_for(process, tries.path("fifo"))
        write_all(file, job[:5000])
        has_stopped = all([stop_and_go_on(process) for _ in range(2)])
        write_all(file, job[5000:])
        os.close(file)
        tries.compare(command, tries.finish(process), due_of(whole(command, job)),
                      "" if has_stopped else "it did not stop")


def stop_and_go_on(process: subprocess.Popen) -> bool:
    """Stops a program that waits for bytes, and lets it go on; whether it stopped."""
    end = time.monotonic() + SECONDS / 3
    while not is_waiting(process) and time.monotonic() < end:
        time.sleep(0.001)
    process.send_signal(signal.SIGSTOP)
    has_stopped = None
    while has_stopped is None and process.poll() is None and time.monotonic() < end:
        has_stopped = os.waitid(os.P_PID, process.pid, os.WSTOPPED | os.WNOHANG)
        time.sleep(0.001)
    process.send_signal(signal.SIGCONT)
    return has_stopped is not None


def is_waiting(process: subprocess.Popen) -> bool:
    """Whether the system says that a program sleeps, or that it has ended."""
    try:
        with open(f"/proc/{process.pid}/stat", "rb") as file:
            return file.read().rsplit(b")", 1)[1].split()[0] in (b"S", b"Z")
    except OSError:
        return True


def short_calls(tries: Tries, shim: Shim) -> None:
    """Reads that give and writes that take less than they are asked change nothing."""
    tries.kind = "short reads and writes"
    if shim.missing:
        tries.skip("reads and writes that are cut short", shim.missing)
        return
    job = long_job()
    tries.put("job", job)
    for command in COMMANDS:
        for size in (1, 7, 4095):
            due = due_of(whole(command, job))
            shim.try_(f"{command}, reads of {size}", asked(command, "job"), due,
                      read="job", piece=size)
            if command != "check" or size < 10:
                target = FIRST_BESIDE if command in WITH_OUT else "1"
                shim.try_(f"{command}, writes of {size}", asked(command, "job"), due,
                          write=target, piece=size)


def try_all(tries: Tries, shim: Shim) -> None:
    put_files(tries)
    job_reads_that_fail(tries, shim)
    reads_behind_a_verdict(tries, shim)
    fronts_that_decide(tries, shim)
    sentences_in_pieces(tries, shim)
    jobs_that_cannot_be_read(tries)
    profiles_that_cannot_be_read(tries, shim)
    jobs_in_pieces(tries)
    profiles_in_pieces(tries)
    jobs_from_standard_input(tries)
    told_as_it_comes(tries)
    stopped_and_continued(tries)
    short_calls(tries, shim)
