"""Jobs for tries: long ones, what a cut leaves decided of them, and short ones.

All but the frame of `long_job` is in mode PCL, where an item is decided at its last byte.
"""

import functools
import os
from typing import List

import oracle
from hostile_base import Tries, whole
from lexer import lex
from samples import SAMPLE_B

FAULT = b"\x1b)"
GOOD = b"\x1bE\x1b&l02a0O\x1b*p300x300Y\x1b*c30a+40b0P\x0c"
BAD = GOOD + FAULT
UNPINNABLE = b"\x1bE\x1b&l02a0O\x1b(3@"


def page_of(number: int) -> bytes:
    """One page with text, fills, a raster, a macro and spellings of several kinds."""
    parts = [b"\x1b&l02a0O\x1b&f1y0X\x1b*c9A\x1b&f1X" if number else
             b"\x1b&l2A\x1b%0BIN;SP1;PW0.5;PU100,100;PD900,900,100,900;\x1b%0A"]
    for row in range(20):
        place = b"\x1b*p%dx+%d.00Y" % (90 + 7 * row, 40)
        text = b"Row%dof%d" % (row, number)
        fill = b"\x1b*c0%da%db0P" % (20 + row, 9 + number % 20)
        parts.append(place + text + fill)
    parts.append(b"\x1b*p300x+60Y\x1b*t300R\x1b*r1A\x1b*b3W\x0f\x0f\xff\x1b*b2W\x01\x80\x1b*rB")
    parts.append(b"\x1b&p3X{}~" + (b"\x1b&f2X" if number else b"") + b"\x0c")
    return b"".join(parts)


@functools.lru_cache(maxsize=None)
def long_job(least: int = 12_000) -> bytes:
    """A job of whole pages, at least so long."""
    job = b"\x1bE"
    number = 0
    while len(job) < least:
        job += page_of(number)
        number += 1
    return job


# The list of this job, and its pages, are longer than what a pipe holds.
LONGER = long_job(40_000)


def decided(job: bytes, count: int) -> bytes:
    """The bytes of the items that the first bytes of a job decide, where these end in mode PCL."""
    front = job[:count]
    fault = lex(front).fault
    return front[:fault.place] if fault else front


def told_before(command: str, job: bytes, count: int, word: str = "@B") -> oracle.Answer:
    """What is told of a job of which so many bytes could be read: all that these decide."""
    answer = whole(command, decided(job, count) + FAULT, (word,))
    lines = answer.output.splitlines(keepends=True)
    output = b"" if command in ("check", "plain", "pin") else b"".join(lines[:-1])
    return oracle.Answer(3, output, ["ERROR read"])


def cuts(job: bytes) -> List[int]:
    """How many bytes are read before a read fails."""
    return [0, 1, 7, 4095, 4096, 4097, 8191, 8192, 8193, len(job) // 2, len(job) - 1, len(job)]


def sized(size: int) -> bytes:
    """A job of so many bytes, which mostly ends in a command; a long one begins with lines of the
    job language, which are quick to answer for."""
    line = b"@PJL COMMENT " + b"x" * 986 + b"\n"
    lines = size // len(line) - 1 if size > 10_000 else 0
    head = b"\x1b%-12345X" + line * lines + b"@PJL ENTER LANGUAGE=PCL\n" if lines else b""
    return (head + long_job())[:size]


def check_jobs() -> None:
    """The jobs are what their names say, by the second reading."""
    found = [whole("check", job).status for job in (GOOD, BAD, long_job())]
    found += [whole("pin", UNPINNABLE).status, whole("plain", UNPINNABLE).status]
    if found != [0, 1, 0, 1, 0]:
        raise ValueError(f"jobs of the tries answer {found}")


def put_files(tries: Tries) -> None:
    """Puts files of all kinds into a folder, under names that the tries know."""
    for name, data in (("good", GOOD), ("bad", BAD), ("unpinnable", UNPINNABLE), ("empty", b""),
                       ("long", long_job()), ("longer", LONGER), ("file", b"kept"),
                       ("printer", SAMPLE_B.encode()), ("version", b"pclprofile 3\n")):
        tries.put(name, data)
    os.mkdir(tries.path("directory"))
    os.symlink("loop", tries.path("loop"))
    os.mkfifo(tries.path("fifo"))
