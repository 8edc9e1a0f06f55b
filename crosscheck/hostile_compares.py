"""Comparisons with a picture and with a folder, on memory, reads and writes that fail.

OUT is whole, or as it was. What is told and drawn is compared by `compares.py` and
`compared_pictures.py`; here it is what an undisturbed run writes.
"""

import errno
import os
from typing import List, Tuple

from hostile_base import (FIRST_BESIDE, MEMORY, NOTHING, STOPPED, WRITE, Due, Run, Shim, Tries,
                          exactly)

KEPT = b"kept"
OLD = b"\x1bE\x1b*p300x300YHi\x1b*c30a40b0P\x1b*t75R\x1b*r1A\x1b*b1W\x81\x1b*rB\x0c"
NEW = OLD.replace(b"Hi", b"Ho").replace(b"c30a", b"c31a") + b"next\x0c"
DRAWN = (("--picture", "out", "old", "new", "@B"),
         ("--all", "--picture", "out", "old", "new", "@B"))
GOLDEN = ("compare", "--golden", "folder", "-p", "@B", "old", "gone", "new")
READ_OF_GONE = b"ERROR read folder/gone: %b\n" % os.strerror(errno.ENOENT).encode()


def is_kept(run: Run, *errors: bytes) -> bool:
    """The work stopped with one of these, and OUT is as it was."""
    return (run.status, run.written) == (STOPPED, KEPT) and run.errors in errors


def drawn_without_memory(tries: Tries, shim: Shim, words: Tuple[str, ...], sound: Run) -> None:
    """Each request for memory is refused in turn, by itself and with all behind it."""
    for way in ({}, {"on": 1}):
        stops = 0
        for number in range(1, 2000):
            tries.put("out", KEPT)
            run = shim.run(words, keep_out=True, request=number, **way)
            if shim.marks < 2:
                break
            stops += run != sound
            tries.require(run == sound or is_kept(run, MEMORY) and run.output == b"",
                          f"{words}, request {number}{' and on' if way else ''}", f"{run}")
        tries.require(stops > 1, f"{words}", f"{stops} requests were missed")


def reads_that_fail(tries: Tries, shim: Shim, words: Tuple[str, ...]) -> None:
    for job, data in (("old", OLD), ("new", NEW)):
        told = f"ERROR read job {job}: {os.strerror(errno.EIO)}\n".encode()
        for count in (0, 1, len(data) // 2, len(data)):
            tries.put("out", KEPT)
            run = shim.run(words, keep_out=True, read=job, at=count, errno=errno.EIO)
            tries.require(is_kept(run, told) and run.output == b"",
                          f"{words}, EIO behind {count} bytes of {job}", f"{run}")


def writes_that_fail(tries: Tries, shim: Shim, words: Tuple[str, ...], sound: Run) -> None:
    """The file beside OUT takes so many bytes, and so does standard output."""
    for count in (0, 1, len(sound.written) // 2, len(sound.written) - 1):
        tries.put("out", KEPT)
        run = shim.run(words, keep_out=True, write=FIRST_BESIDE, at=count, errno=errno.ENOSPC)
        tries.require(is_kept(run, WRITE) and run.output == b"",
                      f"{words}, {count} bytes of the picture go", f"{run}")
    for count in (0, 1, len(sound.output) - 1):
        tries.put("out", KEPT)
        run = shim.run(words, keep_out=True, write=1, at=count, errno=errno.ENOSPC)
        tries.require(is_kept(run, WRITE) and run.output == sound.output[:count],
                      f"{words}, {count} bytes go to standard output", f"{run}")


def outs(tries: Tries, words: Tuple[str, ...]) -> None:
    """An OUT that cannot be written, and one that is a job or a profile by another path."""
    def with_out(out: str) -> List[str]:
        return [out if word == "out" else word for word in words]

    for out in ("folder", "none/out"):
        tries.try_(f"{words}, OUT {out}", with_out(out),
                   Due((STOPPED,), NOTHING, exactly(WRITE)))
    os.link(tries.path("old"), tries.path("link"))
    for out, job in (("./new", "new"), ("link", "old")):
        data = {"old": OLD, "new": NEW}[job]
        run = tries.run(with_out(out), out=job)
        tries.require(run.status == 2 and run.written == data and run.errors.startswith(b"error:"),
                      f"{words}, OUT {out}", f"{run}")
    tries.remove("link")


def golden(tries: Tries, shim: Shim) -> None:
    """Of many pairs each has its line, whatever comes of those before it."""
    tries.kind = "golden jobs"
    os.mkdir(tries.path("folder"))
    for job, data in (("old", OLD), ("new", OLD)):
        tries.put(f"folder/{job}", data)
    sound = tries.fresh(GOLDEN)
    lines = sound.output.splitlines(keepends=True)
    tries.require(len(lines) == 3 and lines[1] == READ_OF_GONE, "a line a pair", f"{sound}")
    if shim.missing:
        tries.skip("requests and reads that fail", shim.missing)
        return
    for job, at in (("old", 0), ("folder/new", 2), ("new", 2)):
        told = f"ERROR read {job}: {os.strerror(errno.EIO)}\n".encode()
        due = [*lines[:at], told, *lines[at + 1:]]
        shim.try_(f"EIO in {job}", GOLDEN, Due((STOPPED,), exactly(b"".join(due))), read=job,
                  at=len(OLD) // 2, errno=errno.EIO)
    for way in ({}, {"on": 1}):
        for number in range(1, 2000):
            run = shim.run(GOLDEN, request=number, **way)
            if shim.marks < 2:
                break
            tries.require(is_golden_without(run, lines),
                          f"request {number}{' and on' if way else ''}", f"{run}")


def is_golden_without(run: Run, lines: List[bytes]) -> bool:
    """Whether a run is right that was refused a request: it stopped behind whole lines, or one of
    its lines tells the refusal, or lacks what the system says."""
    if run.status != STOPPED:
        return False
    if run.errors == MEMORY:
        return run.output in [b"".join(lines[:count]) for count in range(len(lines))]
    told = [b"ERROR memory %b\n" % job for job in (b"old", b"folder/old", b"new", b"folder/new")]
    others = [*told, b"ERROR read folder/gone\n"]
    return run.errors == b"" and (run.output == b"".join(lines) or any(
        run.output == b"".join([*lines[:at], other, *lines[at + 1:]])
        for at in range(len(lines)) for other in others))


def try_all(tries: Tries, shim: Shim) -> None:
    tries.kind = "pictures of comparisons"
    for job, data in (("old", OLD), ("new", NEW)):
        tries.put(job, data)
    for given in DRAWN:
        words = ("compare", *given)
        sound = tries.fresh(words)
        tries.require(sound.status == 1 and sound.output and sound.written, f"{words}", f"{sound}")
        if shim.missing:
            tries.skip("requests, reads and writes that fail", shim.missing)
        else:
            drawn_without_memory(tries, shim, words, sound)
            reads_that_fail(tries, shim, words)
            writes_that_fail(tries, shim, words, sound)
    golden(tries, shim)
    tries.kind = "pictures of comparisons"
    outs(tries, ("compare", *DRAWN[0]))
