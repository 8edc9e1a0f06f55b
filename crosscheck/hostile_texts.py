"""Texts that have no second reading here, on memory, reads and writes that fail: notes, pictures,
explanations, models and fleets.

What they have is compared by others; here it is what an undisturbed run writes, or a front of it.
"""

import errno
import os
from typing import Tuple

from hostile_base import (MEMORY, NOTHING, READ, STOPPED, WRITE, Due, Run, Shim, Tries, exactly,
                          front_of, matching)
from samples import SAMPLE_B

BOX = b"\x1bE\x1b*c72a72b0P\x1bE"
# A rectangle, and on the next page a move that leads off the page.
BEYOND = b"\x1bE\x1b*c72a72b0P\x0c\x1b*p9999X\x1bE"
# The orientation that a printer may have already, where the HMI is set.
TURNED = b"\x1bE\x1b&k12H\x1b&l0O\x0c\x1bE"
FILES = (("box", BOX), ("beyond", BEYOND), ("turned", TURNED), ("fault", b"A\x1b)"), ("empty", b""),
         ("fleet", b"# the shop\nprinter\n@A\n./printer\n"), ("printer", SAMPLE_B.encode()),
         ("broken", b"@A\n\xff.profile\n"))
# Words, and the status of an undisturbed run. Those of READERS are also tried without memory.
READERS = (
    (("notes", "turned", "@B"), 1),
    (("picture", "box", "@B"), 0),
    (("picture", "--page", "2", "beyond", "@B"), 1),
    (("picture", "--page", "3", "beyond", "@B"), 1),
    (("picture", "--all", "beyond", "@B"), 1),
    (("check", "-f", "broken", "box"), 2),
)
OTHERS = (
    (("notes", "fault", "@B"), 1),
    (("explain", "30"), 0),
    (("profile", "list"), 0),
    (("profile", "new", "generic"), 0),
)
# How many tries an output has whose writes fail.
CUTS = 60
# No read of a file fails.
SOUND = 1 << 40
TWICE = exactly(b"job: the job is read twice, and was another at the second time\n")
AGAIN = b"it was another job when it was read again for its notes"
# Words, a job, what it is at its second reading, and what is due. What is drawn of the other job
# stands.
CHANGES = (
    (("picture", "job", "@B"), BOX, b"", Due((1,), NOTHING, TWICE)),
    (("picture", "job", "@B"), BOX, b"\x1bE\x1b*c72a72b0P\x1b*p9999X\x1bE",
     Due((1,), matching(rb'.*"area".*"failure".*</svg>\n'), TWICE)),
)


def requests_refused(tries: Tries, shim: Shim, words: Tuple[str, ...], sound: Run) -> None:
    """Each request for memory is refused in turn, by itself or with all behind it."""
    stops = 0
    for number in range(1, 5000):
        way = {"on": 1} if number % 2 else {}
        run = shim.run(words, request=number, **way)
        if shim.marks < 2:
            break
        stops += run != sound
        is_stopped = (run.status, run.errors) == (STOPPED, MEMORY)
        tries.require(run == sound or is_stopped and sound.output.startswith(run.output),
                      f"{words}, request {number}{' and on' if way else ''}", f"{run}")
    tries.require(stops > 1, f"{words}", f"{stops} requests were missed")


def writes_that_fail(tries: Tries, shim: Shim, words: Tuple[str, ...], text: bytes) -> None:
    """Standard output takes so many bytes: these stand there, and the run ends."""
    for count in range(0, len(text), len(text) // CUTS + 1):
        shim.try_(f"{words}, {count} bytes go", words,
                  Due((STOPPED,), exactly(text[:count]), exactly(WRITE)), write=1, at=count,
                  errno=errno.ENOSPC)


def errors_that_fail(tries: Tries, shim: Shim) -> None:
    """Standard error takes so many bytes of its line: these stand there, and the status is the
    same."""
    tries.kind = "lines on standard error"
    for words in (("plain", "box", "./box"), ("profile", "show", "box"), ("list", "gone"),
                  ("profile", "new", "laserjet"), ("check", "box", "fault")):
        whole = tries.run(words)
        for count in range(len(whole.errors)):
            shim.try_(f"{words}, {count} bytes go", words,
                      Due((whole.status,), NOTHING, exactly(whole.errors[:count])), write=2,
                      at=count, errno=errno.ENOSPC)


def reads_that_fail(tries: Tries, shim: Shim) -> None:
    """Of a job that cannot be read to its end there are no notes, and no picture; nor where its
    second reading fails, which comes behind all bytes of the first."""
    tries.kind = "notes and pictures, reads that fail"
    for count in range(len(TURNED) + 1):
        shim.try_(f"notes, EIO behind {count} bytes", ("notes", "turned", "@B"),
                  Due((STOPPED,), NOTHING, exactly(READ)), read="turned", at=count,
                  errno=errno.EIO)
    for words in (("picture", "box", "@B"), ("picture", "--all", "box", "@B")):
        whole = tries.run(words).output
        for count in range(2 * len(BOX)):
            shim.try_(f"{words}, EIO behind {count} bytes", words,
                      Due((STOPPED,), front_of(whole), exactly(READ)), read="box", at=count,
                      errno=errno.EIO)


def notes_due(told: bytes) -> Due:
    """What is due of two jobs whose notes are told, the first of which has this in their place."""
    return Due((STOPPED,), exactly(b"PASS pages=1 marks=0 job\nERROR read job: " + told + b"\n"
                                   b"PASS pages=1 marks=0 turned\n"
                                   b"NOTE at=8 printer=B 105 SameOrientation turned\n"))


def jobs_that_change(tries: Tries, shim: Shim) -> None:
    """A job that is another one at its second reading, or cannot be read then."""
    tries.kind = "jobs that are read twice"
    noting = ("check", "-p", "@B", "--notes", "job", "turned")
    changes = (*CHANGES, (noting, TURNED, b"\x0c\x1b&l66P", notes_due(AGAIN)))
    for words, job, other, due in changes:
        tries.put("job", job)
        tries.put("other", other)
        shim.try_(f"{words}, {job!r} becomes {other!r}", words, due, read="job", then="other",
                  at=SOUND)
    tries.put("job", TURNED)
    for count in range(len(TURNED), 2 * len(TURNED)):
        shim.try_(f"{noting}, EIO behind {count} bytes", noting,
                  notes_due(os.strerror(errno.EIO).encode()), read="job", at=count + 1,
                  errno=errno.EIO)


def try_all(tries: Tries, shim: Shim) -> None:
    for name, data in FILES:
        tries.put(name, data)
    tries.kind = "texts"
    if shim.missing:
        tries.skip("requests, reads and writes that fail", shim.missing)
        return
    for words, status in (*READERS, *OTHERS):
        sound = tries.run(words)
        tries.require(sound.status == status, f"{words}", f"{sound}")
        writes_that_fail(tries, shim, words, sound.output)
    for words, _ in READERS:
        requests_refused(tries, shim, words, tries.run(words))
    reads_that_fail(tries, shim)
    errors_that_fail(tries, shim)
    jobs_that_change(tries, shim)
