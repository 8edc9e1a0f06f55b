#!/usr/bin/env python3
"""Where the processor minutes of a build or a gate go.

    python3 bench/minutes.py WORDS ..           runs these words, as `make build` or `.ci/run`
    python3 bench/minutes.py --functions CRATE [COUNT]

The first samples the processes of the toolchain while the words run, and prints a table on
standard error: for each crate the processor seconds of its proof, of its tests, of its second
proof (with which its edits begin), of its edits, and of LLVM, and the memory of its largest
process. At the end stand the sums, the minutes by the clock, and how long the proofs of the
language took (`pcl_items`, `pcl_lexer`, `pcl_spelling`), which tells how fast the machine was.
Nothing else of the toolchain may run beside it. The exit status is that of the words.

The second tells what the functions and lemmas of a crate take, by the times at which a check wrote
their modules: run `rt check --jobs 1` in the crate's folder first, with its out/incremental
removed. With COUNT the dearest so many are told, else thirty.
"""

import os
import re
import subprocess
import sys
import time
from collections import Counter, defaultdict
from pathlib import Path

ROOT = Path(__file__).resolve().parent.parent
KINDS = ("proof", "tests", "second proof", "edits", "LLVM")
LANGUAGE = ("pcl_items", "pcl_lexer", "pcl_spelling")
LLVM = re.compile(r"clang|ld\.lld|lld|ld-linux|rattle-link|opt|llc")
TICKS = os.sysconf("SC_CLK_TCK")
PAGE = os.sysconf("SC_PAGE_SIZE")
EVERY = 0.5


def kind_of(name: str, words: list[str]) -> str | None:
    """The kind of a process, if it is one of the toolchain."""
    if name != "rattle":
        return "LLVM" if LLVM.match(name) else None
    over = words[words.index("--incremental") + 1] if "--incremental" in words else ""
    if "edits-" in over:
        return "second proof" if over.endswith("/seed") else "edits"
    return "tests" if "--test" in words else "proof"


def crate_of(words: list[str], folder: str) -> str:
    """The crate that a process works on, by its words or by its folder."""
    if "--crate-name" in words:
        return words[words.index("--crate-name") + 1]
    found = re.search(r"/crates/(\w+)", folder)
    return found[1] if found else "(programs)"


def sample(seen: dict) -> None:
    """Notes what the processes of the toolchain in this session have taken so far."""
    session = str(os.getsid(0))
    for entry in os.listdir("/proc"):
        if not entry.isdigit():
            continue
        try:
            words = Path(f"/proc/{entry}/cmdline").read_bytes().decode(errors="replace").split("\0")
            kind = kind_of(os.path.basename(words[0]), words)
            if kind is None:
                continue
            # Behind the name in brackets: 3 is the session, 11 and 12 the times of the process.
            state = Path(f"/proc/{entry}/stat").read_text().rpartition(") ")[2].split()
            if state[3] != session:
                continue
            seconds = (int(state[11]) + int(state[12])) / TICKS
            key = entry, state[19]
            if key not in seen:
                seen[key] = [crate_of(words, os.readlink(f"/proc/{entry}/cwd")), kind, 0.0, 0]
            seen[key][2] = seconds
            seen[key][3] = max(seen[key][3], int(state[21]) * PAGE)
        except (OSError, IndexError, ValueError):
            # It ended meanwhile.
            continue


def told(seen: dict, minutes: float) -> str:
    """The table of what was seen."""
    spent, peak = defaultdict(Counter), Counter()
    for crate, kind, seconds, memory in seen.values():
        spent[crate][kind] += seconds
        peak[crate] = max(peak[crate], memory)
    lines = ["| Crate | " + " | ".join(KINDS) + " | GB |", "|---|" + "--:|" * (len(KINDS) + 1)]
    for crate in sorted(spent, key=lambda it: -sum(spent[it].values())):
        cells = [f"{spent[crate][kind]:.0f}" if spent[crate][kind] >= 0.5 else "" for kind in KINDS]
        lines.append(f"| {crate} | {' | '.join(cells)} | {peak[crate] / 1e9:.1f} |")
    sums = [sum(it[kind] for it in spent.values()) / 60 for kind in KINDS]
    language = sum(spent[crate]["proof"] for crate in LANGUAGE if crate in spent) / 60
    lines.append(f"| minutes | {' | '.join(f'{it:.1f}' for it in sums)} | |")
    lines.append(f"\n{sum(sums):.0f} processor minutes, {minutes:.1f} by the clock; "
                 f"largest process {max(peak.values(), default=0) / 1e9:.1f} GB; "
                 f"proofs of the language {language:.1f} minutes")
    return "\n".join(lines)


def run(words: list[str]) -> int:
    began, seen = time.monotonic(), {}
    with subprocess.Popen(words, cwd=ROOT) as ran:
        while ran.poll() is None:
            sample(seen)
            time.sleep(EVERY)
    print(told(seen, (time.monotonic() - began) / 60), file=sys.stderr)
    return ran.returncode


def functions(crate: str, count: int) -> int:
    """Tells the dearest functions and lemmas of a crate by the times of its modules."""
    folders = sorted((ROOT / "crates" / crate / "out" / "incremental").glob("*/"))
    if not folders:
        print(f"{crate}: no check of it is kept", file=sys.stderr)
        return 1
    files = sorted((path.stat().st_mtime, path.name) for path in folders[0].glob("*.oantt"))
    spent, parts, before = Counter(), defaultdict(Counter), files[0][0]
    own = re.compile(rf"Rattle-{crate}-(?:proofs|specs)\.(.*)\.oantt")
    for when, name in files:
        found = own.match(name)
        if found:
            subject, _, part = found[1].rpartition(".")
            # A lemma file stands for itself; a function's modules are summed up.
            subject, part = (subject, part) if subject else (part, "lemmas")
            spent[subject] += when - before
            parts[subject][part] += when - before
        before = when
    print(f"{sum(spent.values()):.0f} seconds in {len(spent)} functions, lemma files and specs")
    for subject, seconds in spent.most_common(count):
        most = " ".join(f"{part} {it:.1f}" for part, it in parts[subject].most_common(3))
        print(f"{seconds:6.1f}  {subject}  ({most})")
    return 0


def main() -> int:
    words = sys.argv[1:]
    if words[:1] == ["--functions"] and len(words) in (2, 3):
        return functions(words[1], int(words[2]) if len(words) == 3 else 30)
    if not words or words[0].startswith("-"):
        print(__doc__.strip(), file=sys.stderr)
        return 2
    return run(words)


if __name__ == "__main__":
    sys.exit(main())
