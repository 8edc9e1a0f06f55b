"""What holds for the texts of profiles of all models of printers.

A text has four pages for each of its papers, those of letter and A4 as the samples have them, and
no fault. Of a fixed panel there is the one hint that nobody uses it, of a free one there are hints
on lists of several values alone. A text that is cut at its end is refused.
"""

import re

from profiles_base import Comparison
from samples import SAMPLE_A

PANELS = ("fixed", "free")
LOCKED = b"text: hint: each list has one value, which promises that nobody uses the panel\n"
SEVERAL = re.compile(rb"(text: hint: '\w+' has several values: each job has to send ESC &l#[A-Z], "
                     rb"and hardly any does\n)*")
# How many bytes at the end of a text are cut off one by one.
CUT = 300


def pages_of(text: bytes) -> list[bytes]:
    return [line for line in text.splitlines() if line.startswith(b"geometry ")]


def new_text(comparison: Comparison, model: str, panel: str, papers: list[str]) -> bytes:
    """The text of a model, which without papers has those that are usual."""
    sizes = ["--size", ",".join(papers)] if papers else []
    return comparison.output("profile", "new", model, "--panel", panel, *sizes)


def lint(comparison: Comparison, text: bytes) -> bytes:
    comparison.put("text", text)
    return comparison.output("profile", "lint", "text")


def compare_model(comparison: Comparison, model: str, papers: list[str]) -> None:
    """The texts of one model."""
    for panel in PANELS:
        for asked in ([], papers, *([paper] for paper in papers)):
            text = new_text(comparison, model, panel, asked)
            count = 4 * (len(asked) or 2)
            comparison.require(len(pages_of(text)) == count,
                               f"{model} {panel} {asked}: no text of {count} pages")
    usual = new_text(comparison, model, "fixed", [])
    comparison.require(set(pages_of(SAMPLE_A.encode())) <= set(pages_of(usual)),
                       f"{model}: the pages of the sample A")
    locked = lint(comparison, new_text(comparison, model, "fixed", ["a4"]))
    comparison.require(locked == LOCKED, f"{model}: lint of a fixed panel: {locked!r}")
    free = lint(comparison, new_text(comparison, model, "free", []))
    comparison.require(SEVERAL.fullmatch(free) is not None,
                       f"{model}: lint of a free panel: {free!r}")


def compare_cut_texts(comparison: Comparison) -> None:
    """A text may lack its last LF, and nothing more."""
    comparison.put("job", b"")
    for panel in PANELS:
        text = new_text(comparison, "generic", panel, [])
        for count in range(1, CUT + 2):
            comparison.put("text", text[:-count])
            status = comparison.run("check", "job", "text").returncode
            comparison.require(status == (0 if count == 1 else 2),
                               f"generic {panel} without {count} bytes: status {status}")


def compare_models(comparison: Comparison) -> None:
    for model, papers in comparison.models().items():
        compare_model(comparison, model, papers)
    compare_cut_texts(comparison)
