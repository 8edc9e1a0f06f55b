"""The clauses that edits of must-fail folders are for, and sources and answers without them."""

import re
from dataclasses import dataclass
from pathlib import Path

import tree
import wrong_bodies

CLAUSES = tree.ROOT / "docs" / "edit_clauses.txt"

ENSURES = re.compile(r"(?m)^ *ensures(\*)? *(\w+)? *\{")
TRAIT = re.compile(r"(?m)^(?:pub )?trait (\w+)|^\}")
# What a clause is replaced by: it always holds.
HOLDS = " Prim.Unit {0} "
# A line of a file of answers that begins no definition, but goes on with one.
GOES_ON = re.compile(r"unfolding |[\])}]")
# A line that imports goals, or branches of goals, by their names.
NAMED_GOALS = re.compile(r"^(use \S+\.Goals\.)\{([^}\n]*)\}\n", re.MULTILINE)
SIGNED = re.compile(r"(?:pub |abbrev )*(\S+) : (goal\.)?")


class ClauseError(Exception):
    """Why a clause cannot be taken away."""


@dataclass(frozen=True)
class Clause:
    """The clauses of one function, or the invariant of a type: the crate below in which they stand,
    or nothing; the file within src/; and their names."""
    below: str
    file: str
    function: str
    names: tuple[str, ...]

    def told(self) -> str:
        place = f"`{self.below}`, `{self.function}`" if self.below else f"`{self.function}`"
        if self.names in (("ensures",), ("ensures*",)):
            return place
        return f"{place}: {', '.join(f'`{name}`' for name in self.names)}"


def known_clauses() -> dict[tuple[str, str], list[Clause]]:
    """What the list says of each crate's edits."""
    found = {}
    for line in CLAUSES.read_text(encoding="utf-8").splitlines():
        if line and not line.startswith("#"):
            edit, _, rest = line.partition(": ")
            parts = [part.split() for part in rest.split(";")]
            found[tuple(edit.split("/"))] = [
                Clause(*file.rpartition(":")[::2], function, tuple(names))
                for file, function, *names in parts]
    return found


# ---- clauses in sources


def closing(text: str, start: int) -> int:
    """Where the brace closes that is open at a place."""
    depth = 1
    for it in re.compile(r"[{}]").finditer(text, start):
        depth += 1 if it[0] == "{" else -1
        if depth == 0:
            return it.start()
    raise ClauseError("a clause does not end")


def facts_of(text: str, head: re.Match[str]) -> dict[str, tuple[int, int]]:
    """Where the facts of a function's `ensures` stand, by their names."""
    end = wrong_bodies.OPENED.search(text, head.end()).end()
    return {it[2] or f"ensures{it[1] or ''}": (it.end(), closing(text, it.end()))
            for it in ENSURES.finditer(text, head.end(), end)}


def contract_of(text: str, clause: Clause) -> tuple[re.Match[str], list[tuple[int, int]]]:
    """The head of a function with these clauses, and where their facts stand."""
    for head in wrong_bodies.HEAD.finditer(text):
        if head[2] == clause.function:
            facts = facts_of(text, head)
            if facts.keys() >= set(clause.names):
                return head, [facts[name] for name in clause.names]
    raise ClauseError(f"{clause.file} has no `{clause.function}` with {' '.join(clause.names)}")


def without_facts(text: str, clause: Clause) -> str:
    """The text of a source with these facts replaced; each line stays where it is."""
    for start, end in sorted(contract_of(text, clause)[1], reverse=True):
        text = text[:start] + HOLDS + "\n" * text.count("\n", start, end) + text[end:]
    return text


def trait_of(text: str, clause: Clause) -> str | None:
    """The trait that declares the function, if one does."""
    before = list(TRAIT.finditer(text, 0, contract_of(text, clause)[0].start()))
    return before[-1][1] if before else None


# ---- answers


def went(goal: str, clause: Clause) -> bool:
    """Whether a goal of the function, or of a cycle with it, went with its clauses: one of these
    at a return, or all clauses there at once."""
    own = goal.removeprefix(f"{clause.function}-")
    is_whole = clause.names == ("ensures",) or "-clause-" not in own
    return own.startswith("returns") and (
        is_whole or own.endswith(tuple(f"-clause-{name}" for name in clause.names)))


def answer_files(folder: Path, text: str, clause: Clause) -> list[Path]:
    """The files that may prove these clauses: of the function, of each type that has it by the
    trait, or of a cycle."""
    module = folder / "proofs" / clause.file.removesuffix(".rt")
    trait = trait_of(text, clause)
    if trait:
        found = (folder / "proofs").rglob(f"*{trait}*/{clause.function}/Answers.antt")
    else:
        found = [*module.rglob(f"{clause.function}/Answers.antt"),
                 *(path for path in module.glob("+*/Answers.antt"))]
    return sorted(found)


def definitions(text: str) -> list[str]:
    """The definitions of a file of answers, and what stands between them."""
    found = []
    for part in re.split(r"(?m)^(?=\S)", text):
        signed = SIGNED.match(found[-1]) if found else None
        if found and (GOES_ON.match(part) or signed and part.startswith(f"{signed[1]} ")):
            found[-1] += part
        else:
            found.append(part)
    return found


def without_answers(text: str, clause: Clause, is_cycle: bool) -> str:
    """The answers without those to goals that went, and without those that cite one of these."""
    parts, gone = definitions(text), set()
    while True:
        kept = []
        for part in parts:
            signed = SIGNED.match(part)
            goal = signed[1] if signed and signed[2] else ""
            is_own = goal and (not is_cycle or goal.startswith(f"{clause.function}-"))
            cites = goal and any(re.search(rf"(?<![\w-]){re.escape(name)}(?![\w-])", part)
                                 for name in gone)
            if cites or is_own and went(goal, clause):
                gone.add(goal)
            else:
                kept.append(part)
        if len(kept) == len(parts):
            return with_used_goals("".join(kept))
        parts = kept


def with_used_goals(text: str) -> str:
    """The answers without names of goals, or of branches of goals, that none of them cites now."""
    def used(line: re.Match[str]) -> str:
        rest = text.replace(line[0], "")
        names = [name for name in line[2].split(", ")
                 if re.search(rf"(?<![\w+-]){re.escape(name)}(?![\w+-])", rest)]
        return f"{line[1]}{{{', '.join(names)}}}\n" if names else ""

    return NAMED_GOALS.sub(used, text)
