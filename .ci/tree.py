"""What the scripts of the gate share: the crates, their edits, and copies of the tree for `rt ci`.

An edit is a file crates/CRATE/must-fail/NAME.edit: a wrong body that the prover has to refuse.
"""

import contextlib
import hashlib
import os
import re
import shutil
import signal
import subprocess
import sys
import tempfile
from collections.abc import Iterator
from pathlib import Path

ROOT = Path(__file__).resolve().parent.parent
TRIED = ROOT / ".ci" / "edits_tried.txt"
# What a copy of the tree is without.
LEFT_OUT = ("out", "dist", ".git", "__pycache__", "must-fail")
# With so much memory free, in KiB, rt's own estimate lets large crates be proved side by side: it
# is some three times what they take.
PLENTY = 40_000_000
# What an edit's verdict is kept for: what is stated and what is edited. Proofs may change below it.
JUDGED = ("src", "specs", "must-fail")


def crates() -> dict[str, list[str]]:
    """Each crate of crates.txt with the crates of this tree on which it stands itself."""
    lines = [line.partition(":") for line in (ROOT / "crates.txt").read_text().splitlines()
             if line.strip() and not line.startswith("#")]
    named = {name.split()[0]: words.split() for name, _, words in lines}
    return {name: [word for word in words if word in named] for name, words in named.items()}


def with_all_below(name: str) -> set[str]:
    """The crate and all on which it stands."""
    known, found, left = crates(), set(), [name]
    while left:
        crate = left.pop()
        if crate not in found:
            found.add(crate)
            left += known[crate]
    return found


def edits_of(crate: str) -> list[Path]:
    return sorted((ROOT / "crates" / crate / "must-fail").glob("*.edit"))


def size_of(crate: str) -> int:
    """How many bytes of sources and specs a crate has: the larger, the longer it takes. Proofs do
    not tell: a long answer is quickly read, and a search stands in a line."""
    folder = ROOT / "crates" / crate
    return sum(path.stat().st_size for part in ("src", "specs")
               for path in (folder / part).rglob("*") if path.is_file())


def sizes_behind(names: set[str]) -> dict[str, int]:
    """For each of these crates the size of the largest chain of them that begins with it, each
    crate standing on the one before."""
    known, behind = crates(), {}

    def measure(crate: str) -> int:
        if crate not in behind:
            above = (measure(it) for it in names if crate in known[it])
            behind[crate] = size_of(crate) + max(above, default=0)
        return behind[crate]

    for name in names:
        measure(name)
    return behind


def crates_with_edits() -> list[str]:
    return [crate for crate in sorted(crates()) if edits_of(crate)]


def checksum(crate: str) -> str:
    """A sum over the crate's sources, its specs and its edits."""
    total = hashlib.sha256()
    folder = ROOT / "crates" / crate
    for path in sorted(path for part in JUDGED for path in (folder / part).rglob("*")):
        if path.is_file():
            total.update(f"{path.relative_to(folder)}\n{path.stat().st_size}\n".encode())
            total.update(path.read_bytes())
    return total.hexdigest()[:32]


def release() -> str:
    """The release of the toolchain, as `rattle-kit-13f`."""
    said = subprocess.run(["rt", "version"], capture_output=True, text=True, check=True).stdout
    return re.search(r"rattle-kit-\S+", said)[0]


def tried() -> dict[str, str]:
    """What the record says of each crate: its line without the name."""
    lines = TRIED.read_text().splitlines() if TRIED.is_file() else []
    parts = [line.split(maxsplit=1) for line in lines if line and not line.startswith("#")]
    return {crate: said for crate, said in parts}


def stands(crate: str, said: str | None) -> bool:
    """Whether the record's line is of the crate as it is now."""
    return said is not None and said.split()[:2] == [checksum(crate), str(len(edits_of(crate)))]


def free_memory() -> int:
    """The memory that is free, in KiB."""
    return int(re.search(r"MemAvailable:\s+(\d+)", Path("/proc/meminfo").read_text())[1])


def most_checks() -> int:
    """How many checks run side by side: as many as RT_JOBS says, or else as there are processors
    and as memory holds, at 3 GB each."""
    said = os.environ.get("RT_JOBS")
    return int(said) if said else max(1, min(os.cpu_count() or 1, free_memory() // 3_000_000))


def lanes() -> dict[str, str]:
    """The environment of `rt ci`. Where no number is told to it, it gives more than one processor
    to a crate beside which no other is ready; but by its estimate of memory, where there is not
    plenty, the upper crates would wait until nothing else runs."""
    if os.environ.get("RT_JOBS") or free_memory() >= PLENTY:
        return dict(os.environ)
    return os.environ | {"RT_JOBS": str(most_checks())}


def list_crates(place: Path, only: set[str]) -> None:
    """Writes crates.txt of a copy that has only these crates."""
    lines = (ROOT / "crates.txt").read_text().splitlines(keepends=True)
    kept = [line for line in lines if re.match(r"\w*", line)[0] in only | {""}]
    (place / "crates.txt").write_text("".join(kept))


def copy_sources(place: Path, only: set[str]) -> None:
    """Copies of these crates what `rt try` reads, which is no spec and no proof."""
    for name in only:
        shutil.copytree(ROOT / "crates" / name / "src", place / "crates" / name / "src")
    shutil.copy(ROOT / "HANDLES", place)
    list_crates(place, only)


@contextlib.contextmanager
def copy(only: set[str] | None = None) -> Iterator[Path]:
    """A copy of the tree without edits, of all crates or `only` some.

    It lies outside the repository, as `rt ci` wants it, and is removed in the end."""
    def left_out(folder: str, names: list[str]) -> list[str]:
        path = Path(folder)
        out = [name for name in names if name in LEFT_OUT]
        if path == ROOT / "crates" and only is not None:
            out += [name for name in names if name not in only]
        return out

    signal.signal(signal.SIGTERM, lambda *_: sys.exit(143))
    with tempfile.TemporaryDirectory(prefix="pclcheck-") as room:
        place = Path(room) / "tree"
        shutil.copytree(ROOT, place, ignore=left_out, symlinks=True)
        if only is not None:
            list_crates(place, only)
        yield place
