"""Memory that is refused, and limits that the system sets."""

import os
import resource
import signal
from dataclasses import replace
from typing import Callable, Dict, List, Sequence, Tuple

import oracle
from hostile_base import (COMMANDS, MEMORY, READ, STOPPED, TELLING, WITH_OUT, WRITE, Due,
                          Run, Shim, Text, Tries, asked, due_of, exactly, front_of, one_of,
                          read_bytes, stopped_by, whole)
from hostile_jobs import GOOD, long_job, put_files
from hostile_reads import open_for, write_all
from samples import SAMPLE_B, with_lines

PAGE = 4096


def want_of_memory(command: str, answer: oracle.Answer) -> Due:
    """What is due where memory is refused, whenever that comes."""
    return stopped_by(MEMORY, front_of(answer.output if command in TELLING else b""))


def requests_refused(tries: Tries, shim: Shim) -> None:
    """Each request for memory is refused in turn, by itself and with all behind it. A run that
    comes to its end without what was refused is right, too."""
    tries.kind = "memory refused"
    if shim.missing:
        tries.skip("requests for memory that are refused", shim.missing)
        return
    job = long_job()[:9000]
    tries.put("job", job)
    tries.put("printer", SAMPLE_B.encode())
    for command in COMMANDS:
        answer = whole(command, job)
        refuse_each(tries, shim, asked(command, "job", "printer"),
                    want_of_memory(command, answer), due_of(answer), [{}, {"on": 1}])
    for words in (["--help"], ["frob"], ["explain"], ["pin", "job", "@B", "out", "--panel", "x=1"],
                  ["pin", "job", "@B", "out", "--panel", "size=3"], ["profile", "list"],
                  ["profile", "new", "generic", "--size", "a4"],
                  ["profile", "new", "generic", "--size", "folio"]):
        run = tries.fresh(words)
        sound = Due((run.status,), exactly(run.output), exactly(run.errors))
        refuse_each(tries, shim, words, stopped_by(MEMORY, front_of(run.output)), sound,
                    [{"on": 1}])


def refuse_each(tries: Tries, shim: Shim, words: List[str], stopped: Due, sound: Due,
                ways: List[Dict[str, int]]) -> None:
    """Refuses the first request of a run, the second, and so on, until it makes no more."""
    for way in ways:
        stops = 0
        for number in range(1, 2000):
            run = shim.run(words, request=number, **way)
            if shim.marks < 2:
                break
            is_sound = run.status in sound.status
            stops += not is_sound
            tries.compare(f"{' '.join(words)}, request {number}{' and on' if way else ''}", run,
                          sound if is_sound else stopped)
        tries.require(stops > 1, " ".join(words), f"{stops} requests were missed")


def limiting(ignored: Tuple[int, ...] = (), closed: Tuple[int, ...] = (),
             **limits: int) -> Callable[[], None]:
    """Sets limits in the new process, by their names without RLIMIT_; and before that ignores
    signals and closes files."""
    def limit() -> None:
        for number in ignored:
            signal.signal(number, signal.SIG_IGN)
        for file in closed:
            os.close(file)
        resource.setrlimit(resource.RLIMIT_CORE, (0, 0))
        for name, value in limits.items():
            resource.setrlimit(getattr(resource, "RLIMIT_" + name.upper()), (value, value))
    return limit


def has_started(run: Run) -> bool:
    """Whether it was the program that ended, and not what loads it."""
    return 0 <= run.status <= 3


def least_space(tries: Tries, words: Sequence[str], status: int) -> int:
    """The least address space, in pages, in which a run ends as with ample space."""
    low, high = 16, 1 << 16
    while high - low > 1:
        middle = (low + high) // 2
        run = tries.fresh(words, setup=limiting(**{"as": middle * PAGE}))
        if run.status == status:
            high = middle
        else:
            low = middle
    return high


def little_space(tries: Tries) -> None:
    """Address space for the program, and little or none for what it asks."""
    tries.kind = "RLIMIT_AS"
    job = long_job()[:9000]
    tries.put("job", job)
    refused = 0
    for command in COMMANDS:
        answer = whole(command, job)
        words = asked(command, "job", "printer")
        least = least_space(tries, words, answer.status)
        is_begun = False
        for pages in range(least - 40, least + 4):
            run = tries.fresh(words, setup=limiting(**{"as": pages * PAGE}))
            name = f"{command}, {pages} pages"
            is_begun = is_begun or has_started(run)
            if not is_begun:
                tries.require(not run.output and run.written is None, name, "it wrote")
            elif run.status == answer.status:
                tries.compare(name, run, due_of(answer))
            else:
                refused += 1
                tries.compare(name, run, want_of_memory(command, answer))
    if not refused:
        tries.skip("want of memory at the start", "no space lets it start and refuses it memory")


def big_macro() -> bytes:
    """A job that marks, and then stores a macro of nearly a mebibyte."""
    return long_job(4000) + b"\x1b&f1y0X" + (b"\x1b&p30000X" + b"A" * 30_000) * 34 + b"\x1b&f1X"


def nested_macros() -> bytes:
    """A job of macros that call one another, seven times each: 823,543 marks."""
    job = b"\x1bE\x1b*c9a9B"
    for level in range(7, 0, -1):
        body = b"\x1b*c0P" * 7 if level == 7 else b"\x1b&f%dY" % (level + 1) + b"\x1b&f3X" * 7
        job += b"\x1b&f%dy0X" % level + body + b"\x1b&f1X"
    return job + b"\x1b&f1y3X"


def much_memory(tries: Tries) -> None:
    """What takes memory of the job: macros, and the events of an item in a fleet."""
    tries.kind = "RLIMIT_AS, much memory"
    profile = with_lines(SAMPLE_B, "depth 8", "memory 1048576").encode()
    tries.put("large", profile)
    job = big_macro()
    tries.put("job", job)
    for command, answer in (("check", oracle.check([profile], job)),
                            ("pages", oracle.pages(profile, job))):
        words = asked(command, "job", "large")
        least = least_space(tries, asked(command, "good"), 0)
        for more in (16, 64, 128, 200, 100_000):
            due = want_of_memory(command, answer) if more < 1000 else due_of(answer)
            tries.try_(f"{command} of macros, {more} pages more", words, due,
                       setup=limiting(**{"as": (least + more) * PAGE}))
    tries.put("job", nested_macros())
    words = ["check", "job", "large", "large"]
    tries.try_("check of nested macros, 32 MiB", words, stopped_by(MEMORY),
               setup=limiting(**{"as": 32 << 20}))
    due = Due((0,), exactly(b"PASS pages=1 marks=823543\n"))
    tries.try_("check of nested macros, 1 GiB", words, due, setup=limiting(**{"as": 1 << 30}))


def short_files(tries: Tries) -> None:
    """A limit on the size of a file, which the write that passes it tells by EFBIG; or by a
    signal that ends the program, where that is not ignored."""
    tries.kind = "RLIMIT_FSIZE"
    job = long_job()
    tries.put("long", job)
    for command in COMMANDS:
        answer = whole(command, job)
        text = answer.written if command in WITH_OUT else answer.output
        for size in (0, 10, 8191, 8192, 10_000):
            if size >= len(text):
                continue
            front = Text(f"the first {size} bytes of what is due",
                         lambda found, cut=text[:size]: found == cut)
            words = asked(command, "long")
            due = stopped_by(WRITE) if command in WITH_OUT else stopped_by(WRITE, front)
            name = f"{command}, {size} bytes"
            limits = limiting((signal.SIGXFSZ,), fsize=size)
            tries.compare(name, into_file(tries, words, limits), due)
            killed = replace(due, status=(STOPPED, -signal.SIGXFSZ), errors=one_of(b"", WRITE))
            tries.compare(f"{name}, signal", into_file(tries, words, limiting(fsize=size)), killed)


def into_file(tries: Tries, words: Sequence[str], setup: Callable[[], None]) -> Run:
    """A run whose standard output is a file."""
    tries.remove("out")
    with open(tries.path("output"), "w+b") as file:
        run = tries.run(words, setup=setup, stdout=file)
    return replace(run, output=read_bytes(tries.path("output")))


def few_files(tries: Tries) -> None:
    """A limit on open files: what cannot be opened is told as what it is. Of PROFILE and JOB one
    is open at a time, and OUT beside JOB."""
    tries.kind = "RLIMIT_NOFILE"
    for command in COMMANDS:
        # With three files and none closed the program is not even loaded.
        for files, closed in ((4, ()), (5, ()), (3, (0,)), (4, (0,)), (5, (0,))):
            # A closed stream keeps its place, so three of the files are the streams'.
            room = files - 3
            line = READ if room < 1 else WRITE if room < 2 and command in WITH_OUT else None
            tries.try_(f"{command}, {files} files, {closed} closed",
                       asked(command, "good", "printer"),
                       stopped_by(line) if line else due_of(whole(command, GOOD)),
                       setup=limiting(closed=closed, nofile=files))
    for command, limit, line in (("check", 3, READ), ("pages", 3, READ), ("pin", 3, READ),
                                 ("pin", 4, WRITE), ("check", 4, None), ("pages", 4, None),
                                 ("pin", 5, None)):
        due = stopped_by(line) if line else due_of(whole(command, GOOD))
        tries.compare(f"{command}, {limit} files behind PROFILE",
                      limited_behind_profile(tries, command, limit), due)


def limited_behind_profile(tries: Tries, command: str, files: int) -> Run:
    """A run whose limit is set while it reads its PROFILE, from a FIFO."""
    tries.remove("out")
    process = tries.start(asked(command, "good", "fifo"))
    file = open_for(process, tries.path("fifo"))
    if process.poll() is None:
        resource.prlimit(process.pid, resource.RLIMIT_NOFILE, (files, files))
    write_all(file, SAMPLE_B.encode())
    os.close(file)
    return tries.finish(process)


def try_all(tries: Tries, shim: Shim) -> None:
    put_files(tries)
    requests_refused(tries, shim)
    little_space(tries)
    much_memory(tries)
    short_files(tries)
    few_files(tries)
