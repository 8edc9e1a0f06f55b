"""Cases for the library: a job, its printers and what is asked of it, as `library.c` reads them."""

from pathlib import Path
from random import Random
from string import ascii_letters
from typing import Dict, List, NamedTuple, Tuple

import jobs
from commands import FIELDS
from examples import profile_text

ROOT = Path(__file__).resolve().parent.parent
# What they mean, `runs.py` has.
CODES = ("", "commands", "12", "Unset", "nopen", "36", "113", "OpenStart", "0", "&lP", "&l#P", "HT",
         "x09", "SC", "paper source (&l#H)", "no such code", "items", "12 Unset(Size)", "12 Unset",
         "Unset(Size)", "&f0S", "ESC &l66p", "\\x1b&f0S", "(s0p", "(8U", ")8U", "*b2m", "%0A", "  ")
# The parts of a command in a job, its letter behind them.
FRONTS = ("", "", "ESC ", "\\x1b", "\x1b")
INTRODUCERS = ("&", "*", "(", ")", "%", "!", "0")
GROUPS = ("", "a", "b", "c", "d", "f", "k", "l", "p", "r", "s", "t", "u", "v", "z")
VALUES = ("", "", "#", "0", "1", "2", "10", "66", "-1.5", "+3", "1x", "ü")
# Some have bytes that texts escape.
NAMES = ("job", "job", "a job.pcl", "#1", "Größe.pcl", "a\tb", "back\\slash", "a<b>&\"c\"")
# In the order of their numbers in `struct pclcheck_panel_value`.
FIELD_NAMES = tuple(FIELDS)
EXAMPLE_PRINTERS = ("front_desk", "back_office", "export_desk")


class Case(NamedTuple):
    number: int                               # by which `library.c` tells of it
    told: str                                 # how a difference is told
    job: bytes
    printers: Tuple[bytes, ...]               # the texts of their profiles
    code: bytes                               # that is explained
    name: str                                 # of the job
    page: int                                 # that is drawn beside all
    panel: Dict[str, int]                     # values that a job is pinned to

    def packed(self) -> bytes:
        """The case as `library.c` reads it."""
        values = [number for name, value in self.panel.items()
                  for number in (FIELD_NAMES.index(name) + 1, value)]
        texts = [self.code, self.name.encode(), self.job, *self.printers]
        numbers = [self.number, self.page, len(self.panel), *values, len(texts), *map(len, texts)]
        return b" ".join(b"%d" % number for number in numbers) + b"\n" + b"".join(texts)


def asked(number: int, told: str, job: bytes, printers: List[bytes],
          panel: Dict[str, int]) -> Case:
    """A case with a code, a name and a page that its number tells."""
    random = Random(number)
    code = CODES[number % len(CODES)] if random.random() < 0.6 else code_in_job(random)
    return Case(number, told, job, tuple(printers), code.encode(),
                NAMES[number % len(NAMES)], random.choice([1, 1, 1, 2, 3]),
                panel or panel_of(random, printers[0]))


def code_in_job(random: Random) -> str:
    """A command as people copy it from a job, if there is one."""
    parts = [random.choice(words) for words in (FRONTS, INTRODUCERS, GROUPS, VALUES)]
    return "".join(parts) + random.choice(ascii_letters + "@")


def panel_of(random: Random, profile: bytes) -> Dict[str, int]:
    """Values that the profile allows, as a rule."""
    profiles = jobs.good_profiles([("", profile)])
    if profiles is None or random.random() < 0.2:
        return {"Copies": 2}
    return jobs.random_panel(random, profiles[0]) or {"Copies": 2}


def random_case(seed: str, number: int) -> Case:
    """A random job with its printers, or with one where it has none."""
    case = jobs.random_case(seed, number)
    return asked(number, f"seed {seed}, job {number}", case.job,
                 case.texts() or [profile_text("B")], case.named)


def examples() -> List[Case]:
    """Each example, for the printers of the shop."""
    folder = ROOT / "examples"
    shop = [(folder / f"{name}.profile").read_bytes() for name in EXAMPLE_PRINTERS]
    return [asked(number, path.name, path.read_bytes(), shop, {})
            for number, path in enumerate(sorted(folder.glob("*.pcl")))]
