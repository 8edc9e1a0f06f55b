"""Proves crates side by side, one `rt ci CRATE` each, first those that the longest chain waits for.

One `rt ci` for all gives each crate one processor while others are ready, and the largest crates
stand on one another: so here the crate with the largest chain behind it gets several processors,
also where one with a shorter chain still has them, and beside it others are proved, on one each.
"""

import os
import subprocess
from concurrent.futures import FIRST_COMPLETED, Future, ThreadPoolExecutor, wait
from pathlib import Path

import tree

# How many crates are proved beside the one of the chain, and for how many processors that is.
BESIDE = 2
PROCESSORS = 4
# How much memory they may need, in KiB.
MEMORY = 16_000_000
# What `rt` says where it can keep nothing: each run would prove all that lies below anew.
KEEPS_NOTHING = "so nothing is kept"


def is_for_this_machine() -> bool:
    """Whether nobody said how many checks may run, and there are processors and memory for it."""
    return (not os.environ.get("RT_JOBS") and (os.cpu_count() or 1) >= PROCESSORS
            and tree.free_memory() >= MEMORY)


class Proving:
    """Some crates of a copy of the tree, with all on which they stand; `told` gets the name of each
    that is proved, or what was said where one is not."""

    def __init__(self, place: Path, names: set[str], told) -> None:
        self.place, self.told = place, told
        self.below = {name: set(known) for name, known in tree.crates().items() if name in names}
        self.behind = tree.sizes_behind(names)
        self.left, self.running, self.proved = set(names), {}, set()
        self.keeps, self.refused = True, False
        # The crate that has several processors, while it runs.
        self.first = None

    def ready(self) -> list[str]:
        """The crates that can be begun, those with the largest chain behind them first."""
        found = (name for name in self.left if self.below[name] <= self.proved)
        return sorted(found, key=self.behind.get, reverse=True)

    def prove(self, name: str, gets_several: bool) -> str | None:
        """Proves a crate on one processor or several: what `rt` said, where it is not proved."""
        jobs = {} if gets_several else {"RT_JOBS": "1"}
        ran = subprocess.run(["rt", "ci", name], cwd=self.place, env=os.environ | jobs, text=True,
                             stdin=subprocess.DEVNULL, stdout=subprocess.PIPE)
        if KEEPS_NOTHING in ran.stdout:
            self.keeps = False
        return ran.stdout if ran.returncode else None

    def begin(self, pool: ThreadPoolExecutor) -> None:
        """Begins what can be begun."""
        for name in self.ready()[:1 + BESIDE - len(self.running)]:
            gets_several = (self.first not in self.running.values()
                            or self.behind[name] > self.behind[self.first])
            self.first = name if gets_several else self.first
            self.left.remove(name)
            self.running[pool.submit(self.prove, name, gets_several)] = name

    def end(self, ran: Future) -> None:
        """Tells of a crate that was tried."""
        name, refused = self.running.pop(ran), ran.result()
        if refused is None:
            self.proved.add(name)
        else:
            self.refused = True
        self.told(name, refused)

    def run(self) -> bool:
        """Proves crates until none is left, or those that are stand on one that is not proved, or
        `rt` can keep nothing; false where one was not proved."""
        with ThreadPoolExecutor(1 + BESIDE) as pool:
            self.begin(pool)
            while self.running:
                for ran in wait(self.running, return_when=FIRST_COMPLETED).done:
                    self.end(ran)
                if self.keeps:
                    self.begin(pool)
        return not self.refused
