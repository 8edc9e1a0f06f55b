"""PDF documents of pages, on memory, reads and writes that fail: OUT is whole, or as it was.

What a document has is compared by `pdfs.py`; here it is what an undisturbed run writes.
"""

import errno
from typing import Tuple

from hostile_base import (FIRST_BESIDE, MEMORY, NOTHING, READ, STOPPED, WRITE, Due, Run, Shim,
                          Tries, exactly, front_of)
from hostile_jobs import BAD, long_job

KEPT = b"kept"
JOBS = (("job", long_job()[:9000]), ("bad", BAD))
WORDS = ("--proof", "--panel", "size=letter")


def asked(job: str, out: str = "out") -> Tuple[str, ...]:
    return ("pdf", job, "@B", out, *WORDS)


def is_kept(run: Run, line: bytes) -> bool:
    """The work stopped with this line, and OUT is as it was."""
    return (run.status, run.output, run.errors, run.written) == (STOPPED, b"", line, KEPT)


def requests_refused(tries: Tries, shim: Shim, job: str, sound: Run) -> None:
    """Each request for memory is refused in turn, by itself and with all behind it."""
    for way in ({}, {"on": 1}):
        stops = 0
        for number in range(1, 2000):
            tries.put("out", KEPT)
            run = shim.run(asked(job), keep_out=True, request=number, **way)
            if shim.marks < 2:
                break
            stops += run != sound
            tries.require(run == sound or is_kept(run, MEMORY),
                          f"{job}, request {number}{' and on' if way else ''}", f"{run}")
        tries.require(stops > 1, job, f"{stops} requests were missed")


def reads_that_fail(tries: Tries, shim: Shim, job: str, data: bytes) -> None:
    for count in sorted({0, 1, 7, len(data) // 2, len(data)}):
        tries.put("out", KEPT)
        run = shim.run(asked(job), keep_out=True, read=job, at=count, errno=errno.EIO)
        tries.require(is_kept(run, READ) if shim.marks > 1 else run.status < STOPPED,
                      f"{job}, EIO behind {count} bytes", f"{run}")


def writes_that_fail(tries: Tries, shim: Shim, job: str, sound: Run) -> None:
    """The file beside OUT takes so many bytes, and so does standard output."""
    document = sound.written
    for count in (0, 1, 15, len(document) // 2, len(document) - 1):
        tries.put("out", KEPT)
        run = shim.run(asked(job), keep_out=True, write=FIRST_BESIDE, at=count,
                       errno=errno.ENOSPC)
        tries.require(is_kept(run, WRITE), f"{job}, {count} bytes go", f"{run}")
        shim.try_(f"{job}, {count} bytes go to standard output", asked(job, "-"),
                  Due((STOPPED,), front_of(document), exactly(WRITE)), write=1, at=count,
                  errno=errno.ENOSPC)
    if sound.output:
        tries.put("out", KEPT)
        run = shim.run(asked(job), keep_out=True, write=1, at=0, errno=errno.ENOSPC)
        tries.require(is_kept(run, WRITE), f"{job}, no byte of its line goes", f"{run}")


def try_all(tries: Tries, shim: Shim) -> None:
    tries.kind = "PDF documents"
    if shim.missing:
        tries.skip("requests, reads and writes that fail", shim.missing)
        return
    for job, data in JOBS:
        tries.put(job, data)
        sound = tries.fresh(asked(job))
        tries.require(sound.status < 2 and sound.written.endswith(b"%%EOF\n"), job, f"{sound}")
        tries.try_(f"{job}, to standard output", asked(job, "-"),
                   Due((sound.status,), exactly(sound.written + sound.output), NOTHING))
        requests_refused(tries, shim, job, sound)
        reads_that_fail(tries, shim, job, data)
        writes_that_fail(tries, shim, job, sound)
