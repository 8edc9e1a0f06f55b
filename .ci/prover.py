"""Checks of one crate of a copy of the tree with changed texts, over what a first check proved.

The words with which the prover is called come from the library of `rt`.
"""

import contextlib
import os
import re
import shutil
import subprocess
import sys
import tempfile
from collections.abc import Iterator
from dataclasses import dataclass
from pathlib import Path

import tree

sys.path.insert(0, str(Path(shutil.which("rt") or sys.exit("edits: rt is not on the PATH"))
                       .resolve().parent))
import rtlib

PARTS = ("src", "specs", "proofs")


@dataclass(frozen=True)
class Said:
    """What a check said, and whether it proved the crate, refused it, or came to no verdict."""
    lines: list[str]
    status: int

    @property
    def is_proved(self) -> bool:
        return self.status == 0

    @property
    def is_refused(self) -> bool:
        return self.status == 1 and self.lines[-1].startswith(("logic=not-proved", "only="))


class Crate:
    """A crate of a copy of the tree whose libraries stand in the copy, as `rt ci` leaves them."""

    def __init__(self, place: Path, name: str, room: Path) -> None:
        self.name, self.folder, self.room = name, place / "crates" / name, room
        found = next(it for it in rtlib.crates_below(str(place)) if it.name == name)
        self.words = [*rtlib.guarded(), rtlib.RATTLE, "check",
                      *found.words(["--jobs", "1"], keeps=False)]
        self.seed = room / name / "seed"

    def text(self, file: str) -> str:
        return (self.folder / file).read_text(encoding="utf-8")

    def check(self, texts: dict[str, str], over: Path, only: set[str]) -> Said:
        """Checks the crate with these texts in place of its own, over a folder of kept work: of its
        functions only these with those that they call, or all where none is named."""
        words = [*self.words, "--incremental", str(over)]
        words += [word for path in sorted(only) for word in ("--only", path)]
        with tempfile.TemporaryDirectory(dir=self.room) as name:
            for part in PARTS:
                if (self.folder / part).is_dir():
                    shutil.copytree(self.folder / part, Path(name) / part)
            for file, text in texts.items():
                (Path(name) / file).write_text(text, encoding="utf-8")
            ran = subprocess.run(words, cwd=name, text=True, errors="replace",
                                 stdin=subprocess.DEVNULL, stdout=subprocess.PIPE,
                                 stderr=subprocess.STDOUT)
        return Said(ran.stdout.rstrip("\n").split("\n"), ran.returncode)

    def prove(self, only: set[str]) -> bool:
        """Proves what the edits change as it stands, into the folder with which they begin; or the
        whole crate, where the prover does not know one of the names."""
        self.seed.mkdir(parents=True)
        return any(self.check({}, self.seed, paths).is_proved for paths in (only, set()))

    def check_edited(self, texts: dict[str, str], only: set[str]) -> Said:
        """Checks the crate with these texts, over a copy of what is proved of it."""
        over = Path(tempfile.mkdtemp(dir=self.room)) / "over"
        shutil.copytree(self.seed, over, copy_function=linked)
        try:
            return self.check(texts, over, only)
        finally:
            shutil.rmtree(over.parent)


def build_library(place: Path, name: str) -> int:
    """Builds the archive of a crate of a copy that `rt ci` proved, over the libraries that this
    left: the crate is proved once more, and nothing below it."""
    found = next(it for it in rtlib.crates_below(str(place)) if it.name == name)
    words = [*rtlib.guarded(), rtlib.RATTLE, "build",
             *found.words(["--jobs", os.environ.get("RT_JOBS") or "2"], keeps=False),
             "--toolchain", f"{rtlib.KIT}/toolchain", "--backend", "llvm",
             "-o", f"out/lib{name}.a"]
    Path(found.folder, "out").mkdir(exist_ok=True)
    ran = subprocess.run(words, cwd=found.folder, text=True, errors="replace",
                         stdin=subprocess.DEVNULL, stdout=subprocess.PIPE,
                         stderr=subprocess.STDOUT)
    if ran.returncode:
        print(ran.stdout[-3000:])
    return ran.returncode


@contextlib.contextmanager
def proved(names: list[str]) -> Iterator[tuple[Path, Path]]:
    """A copy of the tree in which these crates and all below them are proved, and a folder for
    checks. Both are removed in the end."""
    below = set().union(*map(tree.with_all_below, names))
    with tree.copy(only=below) as place, tempfile.TemporaryDirectory(prefix="edits-") as room:
        how = {"cwd": place, "env": tree.lanes(), "stdin": subprocess.DEVNULL, "text": True}
        ran = subprocess.run(["rt", "ci"], stdout=subprocess.PIPE, stderr=subprocess.STDOUT, **how)
        if ran.returncode:
            sys.exit(f"{ran.stdout[-3000:]}\nedits: the crates are not proved, so none was tried")
        yield place, Path(room)


def linked(one: str, other: str) -> str:
    """Copies a file of kept work; one of a checked module gets a second name, since a check puts
    a new file in the place of such a one and writes into none."""
    if one.endswith(".oantt"):
        os.link(one, other)
        return other
    return shutil.copy2(one, other)


# A name that a proof file cites and that the edit took away: that shows nothing of a clause.
GONE = re.compile(r"has no field|is not in scope|has no `|(was|were) not (admitted|checked)")
# A text of src/ or specs/ that cannot be read, or code that the front end refuses.
UNREAD = re.compile(r"\berror\[[\w-]+\]|^(\./)?(src|specs)/\S+:\d+:\d+: error")


def reason(said: Said) -> str | None:
    """The first line by which a check refuses a crate for a goal, if it does."""
    placed = [it for it in said.lines if re.match(r"(note: )?(\./)?(src|proofs)/\S+:\d+:\d+:", it)]
    return next((it for it in placed if "not proved that" in it or "error" in it
                 and not GONE.search(it)), None)
