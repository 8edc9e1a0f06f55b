"""What a check by the library takes, beside a process for each job: a part of run.py."""

import os
import subprocess
from pathlib import Path
from typing import List

ROOT = Path(__file__).resolve().parent.parent
BUILT = ROOT / "crates" / "pclcheck_c" / "out" / "built"
STARTS = 200


def built_caller(folder: Path) -> Path:
    """The caller in C, as the compiler builds it over the library of `make lib`."""
    caller = folder / "checks"
    subprocess.run(["make", "-s", "lib"], cwd=ROOT, check=True)
    subprocess.run(["cc", "-O2", "-I", ROOT / "include", ROOT / "bench" / "checks.c",
                    BUILT / "libpclcheck.a", "-o", caller], check=True)
    return caller


def by_library(caller: Path, job: Path, profiles: List[Path]) -> float:
    """How many milliseconds of processor time a check takes, where the fleet is read once."""
    run = subprocess.run([caller, job, *profiles], check=True, capture_output=True, text=True)
    return int(run.stdout) / 1e6


def by_process(program: Path, job: Path, profiles: List[Path]) -> float:
    """How many milliseconds of processor time one of some processes takes for a check."""
    before = os.times()
    for _ in range(STARTS):
        subprocess.run([program, "check", job, *profiles], check=True,
                       stdout=subprocess.DEVNULL)
    after = os.times()
    took = sum(after[2:4]) - sum(before[2:4])
    return took * 1e3 / STARTS
