#!/usr/bin/env python3
"""Builds the module for a page from the proved crates.

    web/build.py FOLDER

In the tree the crate is a library, as the gate proves it; what an earlier run on this machine
proved of the same files is taken from it. A copy of the tree then has the crate as what the
toolchain builds for WebAssembly, for which it alone is proved once more. FOLDER gets module64.wasm,
for memories of 64 bits, and, where binaryen's wasm-opt is there, module.wasm, the same for those of
32 bits, which every browser has. The gate builds it likewise, over what it has proved.
"""

import re
import shutil
import subprocess
import sys
from pathlib import Path

ROOT = Path(__file__).resolve().parent.parent

sys.dont_write_bytecode = True
sys.path.insert(0, str(ROOT / ".ci"))
import prover
import tree

CRATE = "web_module"
# As much as programs have on Linux, under which the gate runs the same functions.
STACK = 8 << 20
LOWERED = ("--enable-memory64", "--enable-bulk-memory", "--enable-sign-ext",
           "--enable-mutable-globals", "--enable-nontrapping-float-to-int",
           "--memory64-lowering", "-O2")


def prove(place: Path) -> int:
    """Proves the crate and all on which it stands, as far as that is not done."""
    return subprocess.run(["rt", "ci"], cwd=place, env=tree.lanes(), stdin=subprocess.DEVNULL,
                          check=False).returncode


def aim_at_pages(place: Path) -> None:
    """Has the copy's crate built for WebAssembly."""
    listed = (place / "crates.txt").read_text(encoding="utf-8")
    changed, count = re.subn(rf"^{CRATE}:", f"{CRATE} wasm64:", listed, flags=re.MULTILINE)
    if count != 1:
        raise ValueError(f"crates.txt has to have {CRATE} once")
    (place / "crates.txt").write_text(changed, encoding="utf-8")


def link(place: Path, module: Path) -> int:
    toolchain = Path(shutil.which("rt")).resolve().parent.parent
    words = [toolchain / "bin/rattle-link", "--target", "wasm64-unknown-unknown",
             "--toolchain", toolchain / "toolchain", "--stack", str(STACK), "-o", module,
             place / "crates" / CRATE / "out" / f"lib{CRATE}.a"]
    return subprocess.run(words, check=False).returncode


def lower(module: Path, lowered: Path) -> int:
    """Makes a module for memories of 32 bits, where binaryen is there."""
    lowered.unlink(missing_ok=True)
    if shutil.which("wasm-opt") is None:
        print(f"build: there is no wasm-opt (Debian's package binaryen), so no {lowered.name}")
        return 0
    words = ["wasm-opt", *LOWERED, module, "-o", lowered]
    return subprocess.run(words, check=False).returncode


def build(place: Path, folder: Path) -> int:
    """Builds the module from a copy of the tree in which the crate is proved and aims at pages."""
    folder.mkdir(parents=True, exist_ok=True)
    module = folder / "module64.wasm"
    status = prover.build_library(place, CRATE) or link(place, module)
    return status or lower(module, folder / "module.wasm")


def main(arguments: list[str]) -> int:
    if len(arguments) != 1:
        print(__doc__, file=sys.stderr)
        return 2
    with tree.copy(only=tree.with_all_below(CRATE)) as place:
        status = prove(place)
        if status == 0:
            aim_at_pages(place)
            status = build(place, Path(arguments[0]))
    return status


if __name__ == "__main__":
    sys.exit(main(sys.argv[1:]))
