"""Compares the texts in profiles/ with what a program writes, and tries them on the examples.

    python3 crosscheck/profiles.py PROGRAM

Each model of `profile list` has the file `profiles/MODEL.profile`, which is the text of `profile
new MODEL`, and no other file is there. Each of these texts is accepted, and all as one fleet pass
each example that the sample B passes. Then follows what holds for the texts of all models
(profiles_models.py), for the sheets of all printers (profiles_sheets.py) and for printers' answers
(profiles_answers.py). Prints a line for each that differs, and at last `N compared, M differ`. The
exit status is 0 where M is 0, else 1.
"""

import sys
import tempfile
from pathlib import Path
from typing import List

sys.dont_write_bytecode = True
from profiles_answers import compare_answers
from profiles_base import Comparison
from profiles_models import compare_models
from profiles_sheets import compare_sheets

ROOT = Path(__file__).resolve().parent.parent
PROFILES = ROOT / "profiles"


def compare_texts(comparison: Comparison) -> None:
    """Each model has its text, and each text its model."""
    models = comparison.models()
    kept = {path.stem: path.read_bytes() for path in PROFILES.iterdir()}
    comparison.require(set(models) == set(kept) and len(models) > 0,
                       "the models and the files are not the same")
    for model in models:
        written = comparison.output("profile", "new", model)
        comparison.require(kept.get(model) == written,
                           f"profiles/{model}.profile is not what the program writes")


def compare_examples(comparison: Comparison) -> None:
    """Each text alone and all as one fleet pass what the sample B passes."""
    paths = [str(path) for path in sorted(PROFILES.iterdir())]
    passing = 0
    for job in sorted((ROOT / "examples").glob("*.pcl")):
        due = comparison.output("check", str(job), "@B")
        if not due.startswith(b"PASS"):
            continue
        passing += 1
        comparison.require(comparison.output("check", str(job), *paths) == due,
                           f"{job.name}: all texts as one fleet")
        for path in paths:
            comparison.require(comparison.output("check", str(job), path) == due,
                               f"{job.name}: {Path(path).name}")
    comparison.require(passing > 0, "no example passes")


def main(words: List[str]) -> int:
    if len(words) != 1:
        print(__doc__)
        return 2
    with tempfile.TemporaryDirectory(prefix="profiles-") as folder:
        comparison = Comparison(words[0], Path(folder))
        for compare in (compare_texts, compare_examples, compare_models, compare_sheets,
                        compare_answers):
            compare(comparison)
    for told in comparison.wrong:
        print(told)
    print(f"{comparison.compared} compared, {len(comparison.wrong)} differ")
    return 1 if comparison.wrong else 0


if __name__ == "__main__":
    sys.exit(main(sys.argv[1:]))
