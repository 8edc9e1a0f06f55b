"""Random jobs that are mostly text, each with an edit of it.

    text_job(random)
    text_edit(random, job)

Words and lines of any length, behind one another and at columns of their own, to the margins and
past them, with changes of font, pitch, line termination and margins between them; some jobs have so
many commands before the text that it stands across two pieces of a job. An edit changes, adds or
takes away a letter, or has the same lines in other words. The printer is that of `pdf_jobs.py`.
"""

from random import Random
from typing import Callable, Tuple

ESC = b"\x1b"
START = ESC + b"E" + ESC + b"&l2a0O" + ESC + b"&k0G"
LETTERS = b"abcdefghijklmnopqrstuvwxyzABCDEFG 0123456789   .,;-\xe4\xf6\x7f\xa0!"
LENGTHS = (1, 2, 3, 8, 20, 60, 79, 80, 81, 120)
LINE_ENDS = (b"\r\n", b"\r\n", b"\n", b"\r", b"\n\r")
FONTS = (b"(8U", b"(10U", b"(0N", b"(s16.67H", b"(s5H", b"(s10H", b"(s3B", b"(s0B", b"(s1S",
         b"(s0S")
STILL = (b"&a+0C", b"*p+0X", b"(s0B", b"&f0S" + ESC + b"&f1S")
# As many pieces of text as one of these.
SIZES = (3, 8, 20, 60, 200)


def letters(random: Random, count: int) -> bytes:
    return bytes(random.choice(LETTERS) for _ in range(count))


def moved(random: Random) -> bytes:
    if random.random() < 0.5:
        return b"*p%d%s" % (random.randrange(2300), random.choice((b"X", b"Y")))
    return b"&a%d%s" % (random.randrange(80), random.choice((b"C", b"R", b"L", b"M")))


def setting(random: Random) -> bytes:
    return random.choice((b"&k%dG" % random.randrange(4), b"&s%dC" % random.randrange(2),
                          b"&l%dD" % random.choice((3, 4, 6, 8)),
                          b"&k%dH" % random.choice((6, 8, 12, 15)),
                          b"*c%da%db0P" % (random.randrange(1, 200), random.randrange(1, 50))))


def piece(random: Random) -> bytes:
    kind = random.random()
    if kind < 0.45:
        return letters(random, random.choice(LENGTHS))
    if kind < 0.62:
        return random.choice(LINE_ENDS)
    if kind < 0.76:
        return ESC + moved(random)
    if kind < 0.86:
        return ESC + setting(random)
    if kind < 0.92:
        return ESC + random.choice(FONTS)
    if kind < 0.95:
        return b"\x0c"
    return random.choice((b"\t", b"\x08", ESC + b"=", ESC + b"&p5X" + letters(random, 5)))


def text_job(random: Random) -> bytes:
    before = (ESC + b"*p100X") * random.randrange(400, 700) if random.random() < 0.15 else b""
    return START + before + b"".join(piece(random) for _ in range(random.choice(SIZES)))


# ---- edits

Edit = Callable[[Random, bytes], bytes]


def at_text(random: Random, job: bytes) -> int:
    """A place in the job, behind its start."""
    return random.randrange(len(START), len(job)) if len(job) > len(START) else len(job)


def changed(random: Random, job: bytes) -> bytes:
    at = at_text(random, job)
    return job[:at] + letters(random, 1) + job[at + 1:]


def with_more(random: Random, job: bytes) -> bytes:
    at = at_text(random, job)
    more = random.choice((letters(random, 1), *(ESC + words for words in STILL)))
    return job[:at] + more + job[at:]


def with_less(random: Random, job: bytes) -> bytes:
    at = at_text(random, job)
    return job[:at] + job[at + 1:]


def begun_later(random: Random, job: bytes) -> bytes:
    return job.replace(START, START + (ESC + b"&a0L") * random.randrange(900), 1)


def replaced(old: bytes, new: bytes) -> Edit:
    return lambda _random, job: job.replace(old, new)


EDITS: Tuple[Edit, ...] = (
    changed, changed, with_more, with_less, begun_later, replaced(b"\r\n", b"\n\r"),
    replaced(b"   ", ESC + b"&a+3C"), replaced(START, START + ESC + b"&a79M"),
    replaced(START, START))


def text_edit(random: Random, job: bytes) -> bytes:
    return random.choice(EDITS)(random, job)
