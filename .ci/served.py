"""A program that was built without a proof, and answers run after run for as long as it is kept.

`rt try` builds a program, runs it once and removes it. So a copy of the program gets a `main` that
runs it again and again, .ci/served_runs.txt; and a script in the program's place hands over the
words, the folder and the streams of each run, and ends with its exit status.
"""

import contextlib
import os
import signal
import subprocess
import threading
import time
from pathlib import Path

import tree

CRATE = "crates/pclcheck"
MAIN = "fn main(rt: HostRuntime) -> ExitCode {\n"
SERVES = f"""mod served_runs;

{MAIN}    served_runs::serve(&rt)
}}

fn run_once(rt: HostRuntime) -> ExitCode {{
"""
# A run that takes the program down is answered by this status, and the next program goes on: so
# often, and each for so many seconds.
TAKEN_DOWN = 134
PROGRAMS = 40
SECONDS = "1800"
# One run at a time is asked for. The answer of one whose client was ended is passed over. They are
# read by a shell of their own, since the streams of this one are to stay as they are.
CLIENT = """\
#!/bin/sh
# Runs the program by the process that serves it.
exec 9> ROOM/lock
flock 9
echo $$ > ROOM/client
printf '%s\\0' "$$" "${PCLCHECK_FORMAT-}" "$0" "$@" > ROOM/requests
status=$(while read -r client status; do
    [ "$client" != $$ ] || break
done < ROOM/answers; echo "$status")
printf . >> ROOM/count
exit "$status"
"""


def serve_in_main(place: Path, room: Path) -> None:
    """Changes the program of a copy of the tree: its `main` serves runs."""
    source = place / CRATE / "src"
    text = (source / "main.rt").read_text()
    if text.count(MAIN) != 1:
        raise RuntimeError(f"{CRATE}/src/main.rt has another main than .ci/served.py looks for")
    (source / "main.rt").write_text(text.replace(MAIN, SERVES))
    module = (tree.ROOT / ".ci" / "served_runs.txt").read_text()
    (source / "served_runs.rt").write_text(module.replace("ROOM", str(room)))
    known = place / "crates.txt"
    known.write_text(known.read_text().replace("\npclcheck: ", "\npclcheck: os "))


class Served:
    """The program in a copy of the tree, and what it needs in a folder of its own; `failed` is
    called with what `rt try` said where it ends before it is told to."""

    def __init__(self, place: Path, room: Path, failed) -> None:
        self.room, self.failed, self.said, self.is_ending = room, failed, [], False
        for name in ("requests", "answers"):
            os.mkfifo(room / name)
        # It is open as long as there are answers, so that nobody waits to write one.
        self.answers = os.open(room / "answers", os.O_RDWR)
        self.client = room / "pclcheck"
        self.client.write_text(CLIENT.replace("ROOM", str(room)))
        self.client.chmod(0o755)
        serve_in_main(place, room)
        (room / "cases").mkdir()
        for number in range(PROGRAMS):
            (room / "cases" / f"{number:02}").write_text("a program\n")
        words = ["rt", "try", "--steps", "1", "--seconds", SECONDS, "--cases", room / "cases"]
        self.ran = subprocess.Popen(words, cwd=place / CRATE, stdin=subprocess.DEVNULL,
                                    stdout=subprocess.DEVNULL, stderr=subprocess.PIPE,
                                    env=os.environ | {"TMPDIR": str(room)}, text=True,
                                    errors="replace", start_new_session=True)
        self.reading = threading.Thread(target=self.read, daemon=True)
        self.reading.start()

    def runs(self) -> int:
        """How many runs were answered."""
        count = self.room / "count"
        return count.stat().st_size if count.exists() else 0

    def read(self) -> None:
        """Reads what `rt try` says: a line for each program that ended, by a run that it did not
        survive, which is answered here."""
        for line in self.ran.stderr:
            self.said.append(line)
            if line.startswith("case=") and not self.is_ending:
                client = self.room / "client"
                asked = client.read_text().strip() if client.exists() else ""
                os.write(self.answers, f"{asked} {TAKEN_DOWN}\n".encode())
        self.ran.wait()
        if not self.is_ending:
            self.failed("".join(self.said[-20:]))

    def end(self, others: list[subprocess.Popen]) -> None:
        """Ends the program, and others with it."""
        self.is_ending = True
        end_processes([self.ran, *others])
        os.close(self.answers)


def end_processes(ran: list[subprocess.Popen]) -> None:
    """Ends processes and those of their groups, which get a second to remove what they made."""
    until = time.monotonic() + 1
    for number in (signal.SIGTERM, signal.SIGKILL):
        left = [process for process in ran if process.poll() is None]
        for process in left:
            with contextlib.suppress(ProcessLookupError):
                os.killpg(process.pid, number)
        while time.monotonic() < until and any(process.poll() is None for process in left):
            time.sleep(0.02)


def end_all_in(room: Path) -> None:
    """Ends each process that works in a folder: `rt try` starts some in a group of their own."""
    for process in Path("/proc").glob("[0-9]*"):
        try:
            if process.joinpath("cwd").readlink().is_relative_to(room):
                os.kill(int(process.name), signal.SIGKILL)
        except OSError:
            pass
