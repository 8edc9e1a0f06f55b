"""The commands on profiles: texts and answers that are bad, files that fail, and limits."""

import errno
import os
import re
from typing import List, Tuple

from hostile_base import (FIRST_BESIDE, MEMORY, NOTHING, SOME, STOPPED, UNSEEN, WRITE, Due, Run,
                          Shim, Text, Tries, exactly, front_of, matching, read_bytes, stopped_by)
from hostile_jobs import GOOD, put_files
from hostile_outs import REFUSED_PROFILE, paths_of, put_links
from hostile_writes import closing
from samples import SAMPLE_B

ANSWER = (b"\x1b%-12345X@PJL INFO VARIABLES\r\nCOPIES=2 [2 RANGE]\r\n\t1\r\n\t999\r\n"
          b"PAPER=A4 [2 ENUMERATED]\r\n\tLETTER\r\n\tA4\r\nDUPLEX=OFF [2 ENUMERATED]\r\n\x0c")
# Each command by its words, where its text or its answer is named by the last but one.
ON_TEXTS = (("lint", ("{}",)), ("show", ("{}",)), ("sheet", ("{}", "out")),
            ("from-pjl", ("answer", "{}")))
TEN_MEGABYTES = 10 << 20


def asked(command: str, words: Tuple[str, ...], text: str) -> List[str]:
    return ["profile", command, *(word.format(text) for word in words)]


def bad_texts() -> List[Tuple[str, bytes]]:
    """Texts of no profile, by what is wrong with them."""
    text = SAMPLE_B.encode()
    return [("empty", b""), ("a line", b"\n"), ("binary", bytes(range(256)) * 40),
            ("zeros", bytes(1000)), ("a job", GOOD), ("UTF-16", SAMPLE_B.encode("utf-16")),
            ("other words", "größe A4\nмакет\n".encode()),
            ("10 MB", text * (TEN_MEGABYTES // 4000)),
            ("10 MB in one line", b"pclprofile 1\n" + b"x" * TEN_MEGABYTES),
            ("cut", text[:len(text) // 2]), ("a second text", text + text),
            ("a long line", text + b"name " + b"x" * 4000 + b"\n")]


def bad_answers() -> List[Tuple[str, bytes]]:
    """What no printer answers, by what it is."""
    return [("empty", b""), ("a line", b"\r\n"), ("binary", bytes(range(256)) * 40),
            ("zeros", bytes(1000)), ("a job", GOOD), ("other words", "ПАПКА=А4\n".encode()),
            ("web page", b"HTTP/1.1 400 Bad Request\r\n\r\n<html></html>\r\n"),
            ("10 MB", ANSWER * (TEN_MEGABYTES // len(ANSWER))),
            ("10 MB of zeros", bytes(TEN_MEGABYTES))]


def names_its_place(name: str) -> Text:
    """Lines that each begin with the name of a file, and its line where there is one."""
    return matching(rb"((error: ')?" + re.escape(name.encode()) + rb"[:'][^\n]+\n)+")


def texts_that_are_bad(tries: Tries) -> None:
    """All that is wrong is told, by file and line; nothing is written."""
    tries.kind = "bad texts of profiles"
    for name, text in bad_texts():
        tries.put("text", text)
        told = tries.run(["profile", "lint", "text"]).output
        for command, words in ON_TEXTS:
            due = Due((2,), NOTHING, exactly(told))
            if command == "lint":
                due = Due((2,), names_its_place("text"))
            tries.try_(f"{command}, {name}", asked(command, words, "text"), due)


def answers_that_are_bad(tries: Tries) -> None:
    """A line names the answer and what is wrong with it; nothing is written."""
    tries.kind = "bad answers"
    for name, answer in bad_answers():
        tries.put("text", answer)
        for base in ((), ("@B",)):
            tries.try_(f"{name} {base}", ["profile", "from-pjl", "text", *base],
                       Due((2,), NOTHING, names_its_place("text")))
    for count in range(len(ANSWER)):
        tries.put("text", ANSWER[:count])
        run = tries.fresh(["profile", "from-pjl", "text", "@B"])
        tries.require(is_whole(tries, run), f"cut behind {count} bytes",
                      f"status {run.status}, errors {run.errors!r}, output {run.output!r}")


def is_whole(tries: Tries, run: Run) -> bool:
    """Whether a run wrote a profile, or nothing and why."""
    if run.status == 2:
        return run.output == b"" and run.errors != b""
    tries.put("made", run.output)
    return run.status == 0 and tries.run(["profile", "lint", "made"]).status == 0


def files_that_cannot_be_read(tries: Tries) -> None:
    """Standard error is told which, and nothing is written."""
    tries.kind = "profiles that cannot be read"
    tries.put("answer", ANSWER)
    for path, number in (("gone", errno.ENOENT), ("directory", errno.EISDIR), ("loop", errno.ELOOP),
                         ("", errno.ENOENT), ("file/text", errno.ENOTDIR)):
        cause = f" {path}: {os.strerror(number)}\n".encode()
        for command, words in ON_TEXTS:
            tries.try_(f"{command} {path!r}", asked(command, words, path),
                       stopped_by(b"ERROR read profile" + cause))
        tries.try_(f"answer {path!r}", ["profile", "from-pjl", path, "@B"],
                   stopped_by(b"ERROR read answer" + cause))
    tries.try_("lint, the last of three", ["profile", "lint", "printer", "@B", "gone"],
               stopped_by(b"ERROR read profile gone: No such file or directory\n"))
    tries.try_("answer, input closed", ["profile", "from-pjl", "-", "@B"],
               Due((STOPPED,), NOTHING, matching(rb"ERROR read answer -: [^\n]+\n")),
               setup=closing((0,)))


def wholes(tries: Tries) -> List[Tuple[List[str], Run]]:
    """Each command with what it writes on sound streams."""
    tries.put("answer", ANSWER)
    found = [asked(command, words, "printer") for command, words in ON_TEXTS]
    return [(words, tries.fresh(words)) for words in found]


def writes_that_fail(tries: Tries, shim: Shim) -> None:
    """What could be written stands on standard output, and is no whole profile; OUT is as it
    was."""
    tries.kind = "commands on profiles, writes that fail"
    with open("/dev/full", "wb") as full:
        for words, run in wholes(tries):
            if run.output:
                tries.try_(f"{words}, full", words, Due((STOPPED,), NOTHING, UNSEEN), stdout=full)
    tries.try_("sheet, full", ["profile", "sheet", "printer", "/dev/full"], stopped_by(WRITE))
    if shim.missing:
        tries.skip("writes that fail", shim.missing)
        return
    for words, run in wholes(tries):
        whole = run.output or run.written
        for count in (0, 1, 100, len(whole) // 2, len(whole) - 1):
            errors = exactly(WRITE) if words[1] != "from-pjl" else SOME
            due = Due((STOPPED,), front_of(run.output), errors)
            path = 1 if run.output else FIRST_BESIDE
            shim.try_(f"{words}, {count} bytes go", words, due, write=path, at=count,
                      errno=errno.ENOSPC)


def requests_refused(tries: Tries, shim: Shim) -> None:
    """Each request for memory is refused in turn: nothing is written, or all."""
    tries.kind = "commands on profiles, memory refused"
    if shim.missing:
        tries.skip("requests for memory that are refused", shim.missing)
        return
    for words, due in wholes(tries):
        for number in range(1, 5000):
            run = shim.run(words, request=number)
            if shim.marks < 2:
                break
            stopped = run.status == STOPPED and run.errors == MEMORY
            tries.require(run == due or stopped and not run.output and not run.written,
                          f"{words}, request {number}",
                          f"status {run.status}, errors {run.errors!r}, output {run.output!r}")


def outs_that_are_the_profile(tries: Tries) -> None:
    """OUT is PROFILE by some path: it is refused, and the profile is as it was."""
    tries.kind = "OUT of a sheet is its profile"
    if not os.path.lexists(tries.path("directory/up")):
        os.symlink("..", tries.path("directory/up"))
    put_links(tries, "printer", SAMPLE_B.encode())
    with open(tries.path("printer"), "r+b") as file:
        for out in paths_of(tries, "printer", file.fileno()):
            run = tries.run(["profile", "sheet", "printer", out], pass_fds=(file.fileno(),))
            is_as_before = read_bytes(tries.path("printer")) == SAMPLE_B.encode()
            tries.compare(out, run, REFUSED_PROFILE, "" if is_as_before else "changed")
    for out in ("none/out", "directory", "", "file/out", "loop"):
        tries.try_(f"sheet in {out!r}", ["profile", "sheet", "printer", out], stopped_by(WRITE))


def try_all(tries: Tries, shim: Shim) -> None:
    put_files(tries)
    tries.put("answer", ANSWER)
    texts_that_are_bad(tries)
    answers_that_are_bad(tries)
    files_that_cannot_be_read(tries)
    writes_that_fail(tries, shim)
    requests_refused(tries, shim)
    outs_that_are_the_profile(tries)
