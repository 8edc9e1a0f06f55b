"""Tries a program on files and streams that fail, and on limits.

    python3 crosscheck/hostile.py PROGRAM

Prints a line for each try that differs from what is due, one for what cannot be tried here, and
at last `N tried, M differ`. The exit status is 0 where M is 0, else 1.
"""

import argparse
import multiprocessing
import os
import sys
import tempfile
from typing import List, Tuple

sys.dont_write_bytecode = True

import hostile_compares                                            # noqa: E402
import hostile_documents                                           # noqa: E402
import hostile_limits                                              # noqa: E402
import hostile_many                                                # noqa: E402
import hostile_outs                                                # noqa: E402
import hostile_pdfs                                                # noqa: E402
import hostile_profiles                                            # noqa: E402
import hostile_reads                                               # noqa: E402
import hostile_texts                                               # noqa: E402
import hostile_words                                               # noqa: E402
import hostile_writes                                              # noqa: E402
from hostile_base import Shim, Tries                               # noqa: E402
from hostile_jobs import check_jobs                                # noqa: E402

PARTS = (hostile_reads, hostile_writes, hostile_outs, hostile_words, hostile_limits, hostile_many,
         hostile_documents, hostile_pdfs, hostile_texts, hostile_profiles, hostile_compares)


def try_part(task: Tuple[str, int]) -> Tuple[List[str], int, int]:
    """The tries of one part, in a folder of their own: their lines, their number, and how many
    differ."""
    program, number = task
    with tempfile.TemporaryDirectory(prefix="hostile-") as folder:
        tries = Tries(program, folder)
        PARTS[number].try_all(tries, Shim(tries))
    return tries.lines, tries.tried, tries.differing


def main() -> int:
    parser = argparse.ArgumentParser(description="tries a program on files that fail")
    parser.add_argument("program")
    program = os.path.abspath(parser.parse_args().program)
    check_jobs()
    tried, differing = 0, 0
    with multiprocessing.Pool(2) as pool:
        for lines, some, wrong in pool.imap(try_part, [(program, number) for number in
                                                       range(len(PARTS))]):
            print("".join(line + "\n" for line in lines), end="", flush=True)
            tried, differing = tried + some, differing + wrong
    print(f"{tried} tried, {differing} differ")
    return 1 if differing else 0


if __name__ == "__main__":
    sys.exit(main())
