"""Jobs and texts of profiles at their limits, and words of all kinds."""

import os
import re
from dataclasses import replace
from typing import Sequence, Tuple

from hostile_base import (COMMANDS, FIRST_BESIDE, READ, SOME, WITH_OUT, WITH_PROFILE, WRITE, Due,
                          Shim, Tries, asked, due_of, exactly, matching, stopped_by, text_of, whole)
from hostile_jobs import GOOD, put_files, sized
from hostile_reads import pieces_of, through_fifo
from many_names import escaped
from samples import SAMPLE_B, SAMPLE_D

SIZES = (0, 2, 4095, 4096, 4097, 8191, 8192, 8193, 65535, 65536, 65537)
MOST_OF_TEXT = 65_536
# The longest path of an OUT that is called `out`.
LONGEST_OUT = 4095 + len("out") - len(FIRST_BESIDE)


def jobs_of_sizes(tries: Tries) -> None:
    """Jobs of each single byte, of no byte, and of sizes about those of pieces."""
    tries.kind = "sizes of JOB"
    jobs = [(f"byte {byte}", bytes([byte])) for byte in range(256)]
    jobs += [(f"{size} bytes", sized(size)) for size in SIZES]
    for name, job in jobs:
        tries.put("job", job)
        for command in COMMANDS:
            tries.try_(f"{command}, {name}", asked(command, "job"), due_of(whole(command, job)))


def jobs_without_end(tries: Tries) -> None:
    """A fault ends the reading of a job that goes on for ever."""
    tries.kind = "JOB without end"
    for command in COMMANDS:
        tries.try_(command, asked(command, "/dev/zero"), due_of(whole(command, bytes(4096))))


def padded(size: int) -> bytes:
    """The text of sample B with comments before its last line, of so many bytes."""
    text = text_of("@B")
    head, last = text[:text.rindex(b"\nface 2") + 1], text[text.rindex(b"\nface 2") + 1:]
    left = size - len(text)
    lines, rest = divmod(left, 100)
    pad = b"#" * 99 + b"\n"
    return head + pad * (lines - 1) + b"#" * (rest + 99) + b"\n" + last


def texts_of_sizes(tries: Tries) -> None:
    """A text of 65,536 bytes is read, and a longer one is refused as a whole."""
    tries.kind = "sizes of PROFILE"
    tries.put("job", GOOD)
    refused = Due((2,), errors=exactly(b"ERROR profile 1 0 Range\n"))
    for command in WITH_PROFILE:
        due = due_of(whole(command, GOOD))
        for size in (MOST_OF_TEXT - 1, MOST_OF_TEXT, MOST_OF_TEXT + 1, 3 * MOST_OF_TEXT):
            tries.put("printer", padded(size))
            words = asked(command, "job", "printer")
            tries.try_(f"{command}, {size} bytes", words, due if size <= MOST_OF_TEXT else refused)
        run = through_fifo(tries, asked(command, "job", "fifo"),
                           pieces_of(padded(MOST_OF_TEXT + 1), 1000))
        tries.compare(f"{command}, a FIFO of {MOST_OF_TEXT + 1} bytes", run, refused)
        tries.try_(f"{command}, no end", asked(command, "job", "/dev/zero"), refused)
        tries.try_(f"{command}, no bytes", asked(command, "job", "/dev/null"),
                   replace(refused, errors=exactly(b"ERROR profile 1 1 Version\n")))


def many_profiles(tries: Tries) -> None:
    """The number of the printer that differs, is refused or cannot be read is told."""
    tries.kind = "many profiles"
    job = b"\x1bE\x1b&l2AABC"
    tries.put("job", job)
    tries.put("narrow", SAMPLE_D.encode())
    tries.put("version", b"pclprofile 3\n")
    for count in (299, 3000):
        same = ["@B"] * count
        short = whole("check", job, ("@B", "@D"))
        tries.try_(f"{count} alike", ["check", "job", *same], due_of(whole("check", job)))
        for last in ("narrow", "@D"):
            line = short.output.replace(b"profile=2", b"profile=%d" % (count + 1))
            tries.try_(f"{count} and one that differs", ["check", "job", *same, last],
                       Due((1,), exactly(line)))
        line = b"ERROR profile %d 1 Version\n" % (count + 1)
        tries.try_(f"{count} and one that is refused", ["check", "job", *same, "version", "none"],
                   Due((2,), errors=exactly(line)))
        tries.try_(f"{count} and one that is not there", ["check", "job", *same, "none"],
                   stopped_by(READ))


def dotted(name: str, length: int) -> str:
    """A path of so many bytes to a file of this folder."""
    left = length - len(name)
    return "./" * (left // 2 - 1) + "./" + "/" * (left % 2) + name


def long_paths(tries: Tries) -> None:
    """A path of 4095 bytes is one; a longer one, or a name of 256, leads nowhere. That of OUT has
    room for the name beside it."""
    tries.kind = "long paths"
    tries.put("job", GOOD)
    tries.put("printer", SAMPLE_B.encode())
    for command in COMMANDS:
        due = due_of(whole(command, GOOD))
        tries.try_(f"{command}, 4095 bytes", asked(command, dotted("job", 4095),
                   dotted("printer", 4095), dotted("out", LONGEST_OUT)), due)
        for long in (dotted("job", 4096), dotted("job", 100_000), "x" * 256, "x" * 5000):
            tries.try_(f"{command}, JOB of {len(long)}", asked(command, long), stopped_by(READ))
            if command in WITH_PROFILE:
                tries.try_(f"{command}, PROFILE of {len(long)}", asked(command, "job", long),
                           stopped_by(READ))
            if command in WITH_OUT:
                tries.try_(f"{command}, OUT of {len(long)}", asked(command, "job", out=long),
                           stopped_by(WRITE))


ODD_NAMES = ("a\nb", "\n", " ", "a b", "жoб", "-", "-x", "--", "--help", "-h", "@A", "@", "*",
             "%s", "a\x1b[31mb", "=", "\\", "'\"")


def odd_names(tries: Tries) -> None:
    """Any name is a path, behind `--` or with `./` where it begins as an option does."""
    tries.kind = "odd names"
    for name in ODD_NAMES:
        tries.put(name, GOOD)
        for command in COMMANDS:
            due = due_of(whole(command, GOOD))
            tries.try_(f"{command} ./{name!r}", asked(command, "./" + name), due)
            first, *words = asked(command, name)
            tries.try_(f"{command} -- {name!r}", [first, "--", *words], due)
            if not name.startswith("-") or name == "-":
                tries.try_(f"{command} {name!r}", asked(command, name), due)
            if command in WITH_OUT:
                words = [first, "--", *asked(command, "good", out=name + "o")[1:]]
                tries.compare(f"{words}", tries.run(words, out=name + "o"), due)
                tries.remove(name + "o")
        tries.remove(name)
        for command in COMMANDS:
            first, *words = asked(command, name)
            tries.try_(f"{command} -- {name!r}, no such file", [first, "--", *words],
                       stopped_by(READ))
    tries.put("@E", SAMPLE_B.encode())
    for command in WITH_PROFILE:
        for word in ("@E", "./@E"):
            tries.try_(f"{command}, PROFILE {word}", asked(command, "good", word),
                       due_of(whole(command, GOOD)))
        tries.put("@B", b"pclprofile 3\n")
        tries.try_(f"{command}, a file @B", asked(command, "good", "@B"),
                   due_of(whole(command, GOOD)))
        tries.try_(f"{command}, PROFILE ./@B", asked(command, "good", "./@B"),
                   Due((2,), errors=exactly(b"ERROR profile 1 1 Version\n")))
        tries.remove("@B")
    tries.remove("@E")


def showing(word: bytes) -> Due:
    """What a usage error owes that shows a word."""
    return Due((2,), errors=matching(rb"error: [^\n]*'" + re.escape(escaped(word)) + rb"'.*\n"))


def words_that_are_no_text(tries: Tries) -> None:
    """A word that is not UTF-8 is a usage error that shows it, before anything is done; behind -p
    it is a job that cannot be read, and the others are checked."""
    tries.kind = "no UTF-8"
    odd = b"a\xff\xc3b"
    due = showing(odd)
    for is_there in (False, True):
        if is_there:
            with open(os.path.join(os.fsencode(tries.folder), odd), "wb") as file:
                file.write(GOOD)
        for command in COMMANDS:
            words = asked(command, "good")
            for place in range(len(words) + 1):
                changed = [*words[:place], odd, *words[place + 1:]]
                tries.try_(f"{changed}, {'a' if is_there else 'no'} file", changed, due)
        lines = rb"[^\n]* good\nERROR read a\\xff\\xc3b: the name is not UTF-8 text\n"
        tries.try_("a job of many", ["check", "-p", "@B", "good", odd], Due((3,), matching(lines)))
    for odd in (b"\xc3", b"\xed\xa0\x80", b"\xc0\xaf", b"\xf4\x90\x80\x80"):
        tries.try_(f"list {odd!r}", ["list", odd], showing(odd))
        tries.try_(f"{odd!r}", [odd], showing(odd))


WRONG_WORDS: Sequence[Tuple[Sequence[str], bytes]] = (
    ([], b"Usage"), ([""], b"''"), (["frob"], b"frob"), (["Check", "good", "@B"], b"Check"),
    (["a\nb"], b"a\nb"), (["--"], b"Usage"), (["--", "list", "good"], b"list"), (["-"], b"'-'"),
    (["--frob"], b"--frob"), (["-q"], b"-q"), (["list", "-x"], b"-x"), (["list", "--x"], b"--x"),
    (["list"], b"JOB"), (["list", "--"], b"JOB"), (["list", "good", "more"], b"more"),
    (["check", "good"], b"PROFILE"), (["pages", "good"], b"PROFILE"),
    (["pages", "good", "@B", "@B"], b"@B"), (["plain", "good"], b"OUT"),
    (["plain", "good", "out", "more"], b"more"), (["pin", "good", "@B"], b"OUT"),
    (["pin", "good", "@B", "out", "--panel"], b"--panel"),
    (["pin", "good", "@B", "out", "--panel", "copies"], b"copies"),
    (["pin", "good", "@B", "out", "--panel", "copies=x"], b"copies=x"),
    (["pin", "good", "@B", "out", "--panel", "copies=2"], b"copies"),
    (["pin", "good", "@B", "out", "--panel", "copies=1,copies=1"], b"copies=1"),
    (["pin", "none", "@B", "out", "--panel", "size=3"], b"size"),
    (["list", "x" * 100_000, "y"], b"'y'"), (["y" * 100_000], b"yyy"),
    (["explain", "999"], b"999"), (["explain", ""], b"''"), (["explain", "1", "2"], b"2"),
    (["profile"], b"list, new"), (["profile", "list", "generic"], b"generic"),
    (["profile", "new"], b"MODEL"), (["profile", "new", "laserjet"], b"laserjet"),
    (["profile", "new", "generic", "--size", "a4,"], b"''"),
    (["profile", "new", "generic", "--panel", "open"], b"open"),
)


def wrong_words(tries: Tries) -> None:
    """A usage error names the word, writes on standard error alone, and makes no file."""
    tries.kind = "wrong words"
    for words, part in WRONG_WORDS:
        pattern = b".*" + re.escape(part) + b".*\n"
        tries.try_(f"{[word[:20] for word in words]}", words, Due((2,), errors=matching(pattern)))
    for words in (["--help"], ["-h"], ["help"], ["help", "pin"], ["check", "--help"], ["-V"],
                  ["list", "none", "-h"], ["plain", "good", "out", "--help"], ["explain"],
                  ["profile", "list"], ["profile", "new", "generic"]):
        tries.try_(f"{words}", words, Due((0,), SOME))


def try_all(tries: Tries, shim: Shim) -> None:
    put_files(tries)
    jobs_of_sizes(tries)
    jobs_without_end(tries)
    texts_of_sizes(tries)
    many_profiles(tries)
    long_paths(tries)
    odd_names(tries)
    words_that_are_no_text(tries)
    wrong_words(tries)
