"""An OUT that is read, that cannot be created, or that held something before."""

import os
import pwd
import re
import shutil
import signal
import subprocess
import time
from dataclasses import replace
from typing import Callable, List, Optional, Tuple

from hostile_base import (COMMANDS, FIRST_BESIDE, NO_FILE, NOTHING, READ, SECONDS, SOME, UNSEEN,
                          WITH_OUT, WITH_PROFILE, WRITE, Due, Shim, Tries, asked, due_of, exactly,
                          matching, read_bytes, stopped_by, whole)
from hostile_jobs import BAD, GOOD, long_job, put_files
from hostile_reads import open_for, write_all
from hostile_writes import closing
from samples import SAMPLE_B

REFUSED_JOB = Due((2,), NOTHING, matching(rb"error: [^\n]*OUT[^\n]*JOB[^\n]*\n"), UNSEEN)
REFUSED_PROFILE = Due((2,), NOTHING, matching(rb"error: [^\n]*OUT[^\n]*PROFILE[^\n]*\n"), UNSEEN)
REFUSED_ANY = Due((2,), NOTHING, matching(rb"error: [^\n]*OUT[^\n]*\n"), UNSEEN)


def put_links(tries: Tries, name: str, data: bytes) -> None:
    """A file with links of all kinds that lead to it."""
    for link in (name, "soft_" + name, "softer_" + name, "hard_" + name):
        tries.remove(link)
    tries.put(name, data)
    os.symlink(name, tries.path("soft_" + name))
    os.symlink(tries.path("soft_" + name), tries.path("softer_" + name))
    os.link(tries.path(name), tries.path("hard_" + name))


def paths_of(tries: Tries, name: str, file: int) -> List[str]:
    """Paths to a file that is also open."""
    folder = os.path.basename(tries.folder)
    return [name, "./" + name, ".//" + name, "directory/../" + name, f"../{folder}/{name}",
            tries.path(name), "soft_" + name, "softer_" + name, "hard_" + name,
            "./directory/up/" + name, f"/proc/self/fd/{file}", f"/dev/fd/{file}",
            f"/proc/self/cwd/{name}"]


def outs_that_are_read(tries: Tries) -> None:
    """OUT is JOB or PROFILE by some path: it is refused, and the file is as it was."""
    tries.kind = "OUT is read"
    if not os.path.lexists(tries.path("directory/up")):
        os.symlink("..", tries.path("directory/up"))
    for command, name, data in (("plain", "job", GOOD), ("pin", "job", GOOD),
                                ("pin", "printer", SAMPLE_B.encode()), ("plain", "job", BAD),
                                ("plain", "job", b"")):
        put_links(tries, name, data)
        with open(tries.path(name), "r+b") as file:
            for path in (name, "soft_" + name, "hard_" + name, f"/proc/self/fd/{file.fileno()}"):
                for out in paths_of(tries, name, file.fileno()):
                    refuse_out(tries, command, name, data, path, out, (file.fileno(),))


def refuse_out(tries: Tries, command: str, name: str, data: bytes, path: str, out: str,
               files: Tuple[int, ...]) -> None:
    """One OUT that leads to JOB or PROFILE, which has these bytes before and after."""
    words, due = asked(command, path, out=out), REFUSED_JOB
    if name == "printer":
        words, due = asked(command, "good", path, out), REFUSED_PROFILE
    run = tries.run(words, pass_fds=files)
    found = read_bytes(tries.path(name))
    wrong = "" if found == data else f"{name} has {len(found or b'')} bytes, had {len(data)}"
    tries.compare(" ".join(words), run, due, wrong)
    if wrong:
        with open(tries.path(name), "r+b") as file:
            file.truncate(file.write(data))


def outs_that_are_streams(tries: Tries) -> None:
    """OUT is JOB by the path of a stream."""
    tries.kind = "OUT is read, by a stream"
    put_links(tries, "job", GOOD)
    for command in WITH_OUT:
        for words, mode, stream in (
                (asked(command, "/dev/stdin", out="job"), "rb", "stdin"),
                (asked(command, "job", out="/dev/stdin"), "r+b", "stdin"),
                (asked(command, "job", out="/dev/stdout"), "ab", "stdout"),
                (asked(command, "job", out="/dev/stderr"), "ab", "stdout")):
            with open(tries.path("job"), mode) as file:
                streams = {stream: file}
                if words[-1] == "/dev/stderr":
                    streams["stderr"] = streams.pop("stdout")
                run = tries.run(words, **streams)
            found = read_bytes(tries.path("job"))
            told = words[-1] == "/dev/stderr"
            due = replace(REFUSED_JOB, errors=NOTHING) if told else REFUSED_JOB
            is_kept = found is not None and found.startswith(GOOD) and (told or found == GOOD)
            tries.compare(" ".join(words), run, due, "" if is_kept else f"JOB has {found!r}")
            tries.put("job", GOOD)


def outs_that_are_closed(tries: Tries) -> None:
    """OUT is the path of a stream that is closed, which then leads to what was opened in its
    place: JOB. It is refused or cannot be created, and JOB is as it was."""
    tries.kind = "OUT is a closed stream"
    put_links(tries, "job", GOOD)
    for command in WITH_OUT:
        for stream, out in enumerate(("/dev/stdin", "/dev/stdout", "/dev/stderr")):
            run = tries.run(asked(command, "job", out=out), setup=closing((stream,)))
            found = read_bytes(tries.path("job"))
            due = Due((2, 3), NOTHING, NOTHING if stream == 2 else SOME, UNSEEN)
            tries.compare(f"{command} {out}", run, due,
                          "" if found == GOOD else f"JOB has {found!r}")
            tries.put("job", GOOD)


def both_are_read(tries: Tries) -> None:
    """JOB, PROFILE and OUT are one file; OUT is another file that looks the same."""
    tries.kind = "OUT is read, more"
    put_links(tries, "printer", SAMPLE_B.encode())
    for words in (["printer", "soft_printer", "hard_printer"], ["printer"] * 3,
                  ["printer", "./printer", "printer"], ["hard_printer", "printer", "printer"]):
        tries.compare(" ".join(words), tries.run(["pin", *words]), REFUSED_ANY,
                      "" if read_bytes(tries.path("printer")) == SAMPLE_B.encode() else "changed")
    tries.compare("no JOB", tries.run(["plain", "none", "none"], out="none"),
                  replace(REFUSED_JOB, written=NO_FILE))
    tries.put("copy", GOOD)
    for command in WITH_OUT:
        tries.put("copy", GOOD)
        run = tries.run(asked(command, "good", out="copy"), out="copy")
        tries.compare(f"{command}, OUT is a copy of JOB", run, due_of(whole(command, GOOD)))
    tries.remove("copy")


def outs_that_are_long(tries: Tries) -> None:
    """What OUT holds is due to its last byte, and nothing of what it held before is left."""
    tries.kind = "long OUT"
    for size in (20_000, 70_000):
        job = long_job(size)
        tries.put("job", job)
        for command in WITH_OUT:
            answer = whole(command, job)
            for old in (None, b"", b"old", b"x" * (2 * size)):
                tries.remove("out")
                if old is not None:
                    tries.put("out", old)
                name = f"{command}, {len(job)} bytes, {'no' if old is None else len(old)} old"
                tries.compare(name, tries.run(asked(command, "job")), due_of(answer))
        listed = tries.fresh(["list", "job"]).output
        plain = tries.run(["plain", "job", "out"]).written
        tries.require(spellings(listed) == plain, f"plain, {len(job)} bytes",
                      "it is not what list tells")
        os.rename(tries.path("out"), tries.path("again"))
        tries.try_(f"plain of plain, {len(job)} bytes", ["plain", "again", "out"],
                   Due((0,), written=exactly(plain)))
    for command in WITH_OUT:
        for name, job in (("bad", BAD), ("empty", b"")):
            tries.put("out", b"x" * 9999)
            tries.compare(f"{command} {name}, 9999 old", tries.run(asked(command, name)),
                          due_of(whole(command, job)))
    tries.remove("again")


def spellings(listed: bytes) -> bytes:
    """The spellings of a list, as bytes."""
    words = b"".join(line.split(b" ", 1)[1] for line in listed.splitlines())
    return re.sub(rb"\\x(..)", lambda found: bytes([int(found[1], 16)]), words)


def outs_that_cannot_be_created(tries: Tries) -> None:
    """No folder, a folder, no name: a failed write, and nothing is made or changed."""
    tries.kind = "OUT cannot be created"
    os.symlink("made", tries.path("dangling"))
    for command in WITH_OUT:
        for out in ("none/out", "directory", ".", "/", "file/out", "loop", "", "made/", "/proc/x"):
            for job in ("good", "bad"):
                tries.try_(f"{command} {job}, {out!r}", asked(command, job, out=out),
                           stopped_by(WRITE))
        tries.require(not os.path.lexists(tries.path("none")), f"{command} none/out",
                      "a folder was made")
        run = tries.run(asked(command, "good", out="dangling"), out="made")
        tries.compare(f"{command}, a link to nothing", run, due_of(whole(command, GOOD)))
        tries.remove("made")
        tries.put("out", b"old")
        due = replace(stopped_by(READ), written=exactly(b"old"))
        tries.compare(f"{command}, no JOB", tries.run(asked(command, "none")), due)
    tries.require(read_bytes(tries.path("file")) == b"kept", "file/out", "the file has changed")
    tries.remove("dangling")


def outs_that_are_links(tries: Tries) -> None:
    """A link stays, and the file that it leads to is replaced, or is as it was."""
    tries.kind = "OUT is a link"
    os.mkdir(tries.path("folder"))
    os.symlink("folder/far", tries.path("near"))
    os.symlink(tries.path("near"), tries.path("nearer"))
    for command in WITH_OUT:
        for name, job in (("good", GOOD), ("bad", BAD)):
            for old in (None, b"old"):
                tries.remove("folder/far")
                if old is not None:
                    tries.put("folder/far", old)
                due = due_of(whole(command, job))
                run = tries.run(asked(command, name, out="nearer"), out="folder/far")
                tries.compare(f"{command} {name}, {old}", run, due)
                for link in ("near", "nearer"):
                    tries.require(os.path.islink(tries.path(link)), f"{command} {link}",
                                  "it is no link any more")
        tries.put("folder/far", b"old")
        run = tries.run(asked(command, "directory", out="nearer"), out="folder/far")
        tries.compare(f"{command} of a directory", run,
                      replace(stopped_by(READ), written=exactly(b"old")))
    tries.require(os.listdir(tries.path("folder")) == ["far"], "folder", "more stands in it")
    for name in ("near", "nearer", "folder/far"):
        tries.remove(name)
    os.rmdir(tries.path("folder"))


def outs_with_modes(tries: Tries) -> None:
    """OUT keeps its mode, and a new one has that of the system; another name of it keeps the text
    that it had."""
    tries.kind = "mode of OUT"
    mask = os.umask(0o027)
    for command in WITH_OUT:
        for mode in (0o600, 0o640, 0o666, 0o755):
            tries.put("out", b"old")
            os.chmod(tries.path("out"), mode)
            os.link(tries.path("out"), tries.path("second"))
            run = tries.run(asked(command, "good"))
            tries.compare(f"{command}, {mode:o}", run, due_of(whole(command, GOOD)),
                          other_mode(tries, mode))
            tries.require(read_bytes(tries.path("second")) == b"old", f"{command}, {mode:o}",
                          "its other name has changed")
            tries.remove("second")
        run = tries.fresh(asked(command, "good"))
        tries.compare(f"{command}, a new file", run, due_of(whole(command, GOOD)),
                      other_mode(tries, 0o640))
    os.umask(mask)


def other_mode(tries: Tries, mode: int) -> str:
    """The mode of OUT in words, where it is another one."""
    found = os.stat(tries.path("out")).st_mode & 0o7777
    return "" if found == mode else f"its mode is {found:o}"


def outs_with_names_beside(tries: Tries) -> None:
    """The names of files beside OUT may be taken, by links that lead nowhere too."""
    tries.kind = "names beside OUT"
    for command in WITH_OUT:
        tries.put(".pclcheck-0.out", b"kept")
        os.symlink("nowhere", tries.path(".pclcheck-1.out"))
        tries.put("out", b"old")
        process = tries.start(asked(command, "fifo"))
        file = open_for(process, tries.path("fifo"))
        wait_for(lambda: os.path.lexists(tries.path(".pclcheck-2.out")))
        tries.require(read_bytes(tries.path("out")) == b"old", command, "OUT has changed too early")
        write_all(file, GOOD)
        os.close(file)
        process.wait(SECONDS)
        left = sorted(tries.sweep())
        tries.compare(command, tries.finish(process), due_of(whole(command, GOOD)))
        tries.require(left == [".pclcheck-0.out", ".pclcheck-1.out"], command,
                      f"{left} stand beside OUT")
        tries.require(not os.path.lexists(tries.path("nowhere")), command, "a link was followed")


def wait_for(holds: Callable[[], bool]) -> None:
    """Waits until something holds, but not for ever."""
    end = time.monotonic() + SECONDS
    while not holds() and time.monotonic() < end:
        time.sleep(0.002)


def has_text_beside(tries: Tries) -> bool:
    """Whether something is written beside OUT."""
    return bool(read_bytes(tries.path(FIRST_BESIDE)))


def outs_of_killed_runs(tries: Tries) -> None:
    """Where the program is killed OUT is as it was; what stands beside it is a front."""
    tries.kind = "killed"
    for command in WITH_OUT:
        for number in (signal.SIGINT, signal.SIGTERM, signal.SIGKILL):
            for old in (None, b"old"):
                tries.remove("out")
                if old is not None:
                    tries.put("out", old)
                process = tries.start(asked(command, "fifo"), setup=lambda: signal.signal(
                    signal.SIGINT, signal.SIG_DFL))
                file = open_for(process, tries.path("fifo"))
                write_all(file, long_job(20_000))
                wait_for(lambda: has_text_beside(tries))
                process.send_signal(number)
                run = tries.finish(process)
                os.close(file)
                tries.compare(f"{command}, signal {number}, {old}", run,
                              Due((-number,), NOTHING, NOTHING, exactly(old)))


def other_user() -> Optional[int]:
    """A user without rights, where this process may become one."""
    if os.geteuid() != 0:
        return None
    try:
        return pwd.getpwnam("nobody").pw_uid
    except KeyError:
        return 65534


def files_without_permission(tries: Tries) -> None:
    """Files and folders that a user without rights may not open."""
    tries.kind = "no permission"
    user = other_user()
    how = {} if user is None else {"user": user, "group": user, "extra_groups": []}
    shutil.copy(tries.program, tries.path("program"))
    os.chmod(tries.path("program"), 0o755)
    os.chmod(tries.folder, 0o755)
    kept, tries.program = tries.program, tries.path("program")
    if can_run(tries, how):
        without_permission(tries, how)
    else:
        tries.skip("files without permission", "root may open all, and no other user can run it")
    tries.program = kept
    os.chmod(tries.folder, 0o700)


def can_run(tries: Tries, how: dict) -> bool:
    """Whether another user may run the program in the folder."""
    try:
        return tries.run(["--version"], **how).status == 0
    except (OSError, subprocess.SubprocessError):
        return False


def without_permission(tries: Tries, how: dict) -> None:
    """The same, as a user that `how` names to the system."""
    os.mkdir(tries.path("locked"))
    for name, mode in (("unreadable", 0o222), ("read_only", 0o444), ("writable", 0o666)):
        tries.put(name, GOOD)
        os.chmod(tries.path(name), mode)
    tries.put("locked/job", GOOD)
    os.chmod(tries.path("locked"), 0o000)
    for command in COMMANDS:
        for job in ("unreadable", "locked/job"):
            tries.try_(f"{command} {job}", asked(command, job), stopped_by(READ), **how)
    for command in WITH_PROFILE:
        for profile in ("unreadable", "locked/job"):
            tries.try_(f"{command}, PROFILE {profile}", asked(command, "good", profile),
                       stopped_by(READ), **how)
    for command in WITH_OUT:
        for out in ("read_only", "writable", "locked/out", "locked/job"):
            tries.try_(f"{command}, OUT {out}", asked(command, "good", out=out),
                       stopped_by(WRITE), **how)
    os.chmod(tries.path("locked"), 0o700)
    for name in ("read_only", "writable", "locked/job"):
        tries.require(read_bytes(tries.path(name)) == GOOD, f"OUT {name}", "it has changed")


def try_all(tries: Tries, shim: Shim) -> None:
    put_files(tries)
    outs_that_are_read(tries)
    outs_that_are_streams(tries)
    outs_that_are_closed(tries)
    both_are_read(tries)
    outs_that_are_long(tries)
    outs_that_cannot_be_created(tries)
    outs_that_are_links(tries)
    outs_with_modes(tries)
    outs_with_names_beside(tries)
    outs_of_killed_runs(tries)
    files_without_permission(tries)
