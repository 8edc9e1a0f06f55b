#!/usr/bin/env python3
"""Compares the pictures of what differs between random jobs with a second drawing.

    python3 crosscheck/compared_pictures.py PROGRAM COUNT SEED

The pairs are those of `compares.py`, on the first printer of each. `compare --picture` draws the
first page that differs, with `--all` all of them, in both orders and within a length; to the byte
that is what `comparison_drawing.py` draws of the differences that `page_differences.py` finds. Of
jobs that print the same, and of one that fails, the file is as it was. Prints each difference and
at last `N compared, M differ`. The exit status is 0 where M is 0, else 1.
"""

import sys
import tempfile
from itertools import zip_longest
from pathlib import Path
from random import Random
from typing import List, Optional, Tuple

sys.dont_write_bytecode = True

import compares                                                    # noqa: E402
from comparison_drawing import DifferingPage, document, paper, picture  # noqa: E402
from page_differences import Manner, Page, differences, pages_of   # noqa: E402
from printer_profile import Profile                                # noqa: E402

OUT = "picture"
BEFORE = b"as it was"
MOST_DRAWN = 100
NO_PAGE = Page([], None, 0)
MANNERS: Tuple[Tuple[Tuple[str, ...], Manner], ...] = (
    ((), compares.STRICT),
    (("--all",), compares.STRICT),
    (("--any-order",), Manner(True, 0)),
    (("--all", "--any-order"), Manner(True, 0)),
    (("--all", "--within", "0.1mm"), Manner(False, compares.TENTH)),
)


def pages_that_differ(profile: Profile, manner: Manner, old: compares.Run,
                      new: compares.Run) -> List[DifferingPage]:
    before, after = pages_of(old.made, old.end), pages_of(new.made, new.end)
    found = differences(manner, before, after, old.end, new.end)
    pages = zip_longest(before, after, fillvalue=NO_PAGE)
    return [DifferingPage(number, paper(profile, one.end, other.end), one.marks, other.marks, told)
            for number, ((one, other), told) in enumerate(zip(pages, found), start=1) if told]


def due_of(profile: Profile, words: Tuple[str, ...], manner: Manner, runs: List[compares.Run],
           sentence: bytes) -> Optional[str]:
    """The picture that is due, or none."""
    if any(run.failure for run in runs):
        return None
    pages = pages_that_differ(profile, manner, *runs)
    if not pages:
        return None
    if "--all" in words:
        return document(pages[:MOST_DRAWN], max(0, len(pages) - MOST_DRAWN), sentence)
    return picture(pages[0], sentence)


def first_line(text: bytes) -> bytes:
    return text.partition(b"\n")[0]


def differs(tried: compares.Tried, profile: Profile, word: str, words: Tuple[str, ...],
            manner: Manner) -> bool:
    """Whether the picture of the files `old` and `new` is another than is due."""
    runs = [compares.run_of(tried.lines(name, word), profile, (tried.folder / name).read_bytes())
            for name in ("old", "new")]
    out = tried.folder / OUT
    out.write_bytes(BEFORE)
    run = tried.run("compare", *words, "--format", "words", "--picture", OUT, "old", "new", word)
    due = due_of(profile, words, manner, runs, first_line(run.stdout))
    wanted = BEFORE if due is None else due.encode("latin-1")
    have = out.read_bytes()
    if have == wanted:
        return False
    for one, other in zip(have.split(b"\n"), wanted.split(b"\n")):
        if one != other:
            print(f"compare {words}: {one!r} is drawn for {other!r}")
            return True
    print(f"compare {words}: {len(have)} bytes are drawn for {len(wanted)}, {run.stderr!r}")
    return True


def main(program: str, count: int, seed: str) -> int:
    program = str(Path(program).resolve())
    done = differ = number = 0
    while done < count:
        random = Random(f"{seed}/edit/{number}")
        pair = compares.pair_of(random, seed, number)
        number += 1
        if pair is None:
            continue
        with tempfile.TemporaryDirectory() as name:
            tried = compares.Tried(program, Path(name))
            for file, data in (("p.profile", pair.texts[0]), ("old", pair.old), ("new", pair.new)):
                (tried.folder / file).write_bytes(data)
            words, manner = random.choice(MANNERS)
            if differs(tried, pair.profiles[0], "p.profile", words, manner):
                print(f"  seed {seed}, pair {number - 1}: {pair.old!r} and {pair.new!r}")
                differ += 1
            done += 1
    print(f"{done} compared, {differ} differ")
    return 1 if differ else 0


if __name__ == "__main__":
    if len(sys.argv) != 4:
        sys.exit(__doc__)
    sys.exit(main(sys.argv[1], int(sys.argv[2]), sys.argv[3]))
