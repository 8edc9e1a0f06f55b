"""Compares man/pclcheck-profile.5 with what a program says of texts of profiles.

The page's keys are those that the program misses in a text of the version alone, each in the same
words, with the rule that the program tells of a line with wrong words. The page's causes are those
of `check --help`; each has the program's sentence for it, and a text with that fault is tried. The
page's example has no fault, and is refused without any of its keys; its fleet is read.
"""

import re
import tempfile
from pathlib import Path
from typing import Dict, List, Tuple

from help_text import Program, words_of
from man_text import Section, read_page
from manual_base import Comparison

MISSING = re.compile(r"(?m): no line gives '(\w+)', (.*) \(Missing\)$")
# Words that stand behind a key in no text.
WRONG = "~ ~"


class Trial:
    """Texts of profiles that are tried with a program, in a folder."""

    def __init__(self, program: Program, folder: Path):
        self.program = program
        self.text = folder / "text.profile"

    def lint(self, text: str) -> str:
        """What is told of a text."""
        self.text.write_text(text)
        return self.program.output("profile", "lint", str(self.text))

    def told(self, text: str) -> Tuple[str, str]:
        """The cause and the sentence with which a check refuses a text."""
        self.text.write_text(text)
        told = self.program.output("check", "--format", "words", "-p", str(self.text), "/dev/null")
        refused = re.search(r": (?:line \d+: )?([^:]*) \(ERROR profile 1 (\w+)\)\n$", told)
        return (refused[2], refused[1]) if refused else ("", told)


def faulty_texts(text: str) -> Dict[str, List[str]]:
    """Texts with one fault each, made of one without, by the fault's cause."""
    def put(pattern: str, words: str) -> str:
        changed = re.sub(f"(?m)^{pattern}$", words, text)
        if changed == text:
            raise ValueError(f"the example has no line {pattern!r}")
        return changed

    return {
        "Version": [put("pclprofile 2", "pclprofile 3"), put("pclprofile 2", ""), ""],
        "Unknown": [text + "papers 3\n", put("pclprofile 2", "pclprofile 1")],
        "Repeated": [text + "name again\n", put("vmi 8 6", "vmi 8 8.0"),
                     text + re.search(r"(?m)^geometry.*\n", text)[0],
                     text + re.search(r"(?m)^face.*\n", text)[0]],
        "Range": [put("size 2", "size 0"), put("tray 1", "tray 2"), put("sides 0", "sides 1"),
                  put("font 1", "font 2"), text + "#" * 65536 + "\n"],
        "Missing": [re.sub(f"(?m)^{key} .*\n", "", text) for key in keys_of(text)],
        "NoGeometry": [put("size 2", "size 26"), put("orientation 0", "orientation 3")],
    }


def keys_of(text: str) -> List[str]:
    """The keys of a text, each once."""
    return list(dict.fromkeys(re.findall(r"(?m)^([a-z]+) ", text.split("\n", 1)[1])))


def compare_keys(comparison: Comparison, trial: Trial, page: Dict[str, Section]) -> None:
    """Each key of the program is in the page, with its words, its rule and its version."""
    entries = {tag.split()[0]: words_of(text) for tag, text in page["KEYS"].entries.items()}
    known = dict(MISSING.findall(trial.lint("pclprofile 2\n")))
    in_first = dict(MISSING.findall(trial.lint("pclprofile 1\n")))
    comparison.same("the keys", sorted(entries), sorted(known))
    for key, words in known.items():
        entry = entries.get(key, "")
        comparison.holds(f"{key}: the page does not say {words!r}", words in entry)
        comparison.same(f"{key}: in version 2 alone", "in version 2 alone" in entry,
                        key not in in_first)
        rule = re.search(f": '{key} {WRONG}': (.*) \\(Range\\)\n",
                         trial.lint(f"pclprofile 2\n{key} {WRONG}\n"))
        comparison.holds(f"{key}: the page does not have the rule of {rule and rule[1]!r}",
                         rule is not None and rule[1] in entry)


def compare_causes(comparison: Comparison, trial: Trial, page: Dict[str, Section],
                   example: str) -> None:
    """Each cause of the program is in the page with its sentence, and is that of texts with it."""
    named = re.search(r"CAUSE is (.*)", trial.program.output("check", "--help"))
    causes = re.split(", | or ", named[1]) if named else []
    texts = faulty_texts(example)
    entries = page["FAULTS"].entries
    comparison.same("the causes of the page", sorted(entries), sorted(causes))
    comparison.same("the causes that are tried", sorted(texts), sorted(causes))
    for cause, faulty in texts.items():
        for number, text in enumerate(faulty, 1):
            came, sentence = trial.told(text)
            comparison.same(f"{cause}, text {number}", came, cause)
            comparison.holds(f"{cause}: the page does not say {sentence!r}",
                             sentence in words_of(entries.get(cause, "")))
            comparison.holds(f"{cause}, text {number}: lint does not tell it",
                             f"({cause})\n" in trial.lint(text))


def compare_examples(comparison: Comparison, trial: Trial, examples: List[str],
                     folder: Path) -> None:
    """The example has no fault and each key, and the fleet of it is read."""
    example, fleet = examples
    told = trial.lint(example)
    comparison.same("faults of the example",
                    [line for line in told.splitlines() if ": hint: " not in line], [])
    comparison.same("keys of the example", sorted(keys_of(example)),
                    sorted(dict(MISSING.findall(trial.lint("pclprofile 2\n")))))
    name = re.search(r"(?m)^(\S+\.profile)$", fleet)
    (folder / (name[1] if name else "none")).write_text(example)
    (folder / "fleet").write_text(fleet)
    comparison.same("the fleet of the example",
                    trial.program.output("check", "-f", str(folder / "fleet"), "/dev/null"),
                    "PASS pages=0 marks=0 /dev/null\n")


def compare_profile_page(comparison: Comparison, program: Program, path: Path) -> None:
    """The page of the text of a profile."""
    page = read_page(path)
    examples = page["EXAMPLES"].examples
    comparison.same("the examples of a profile and a fleet", len(examples), 2)
    with tempfile.TemporaryDirectory(prefix="manual-") as name:
        folder = Path(name)
        trial = Trial(program, folder)
        compare_keys(comparison, trial, page)
        compare_causes(comparison, trial, page, examples[0])
        compare_examples(comparison, trial, examples, folder)
