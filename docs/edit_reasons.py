#!/usr/bin/env python3
"""Tries each edit of must-fail folders with the clause taken away that it is for.

    python3 docs/edit_reasons.py [CRATE ..]     without names: of all crates with edits
    python3 docs/edit_reasons.py --list         tries none, and tells which clause each is for

Which clause that is stands in edit_clauses.txt. In a copy of the tree its fact is replaced by one
that always holds, and the answers that proved it are left out, with those that cite them. Then the
edit is made, and of what the prover refuses the goals of the edited function count; what refuses
those that call it does not. So an edit that proves now was refused by that clause alone.

What came of each edit is written into edit_outcomes.txt, a line an edit; `docs/make.py` makes of
the two files what PROOFS.md tells of them. The status is 1 where the edits, edit_clauses.txt and
the sources differ, or where an edit could not be tried.
"""

import argparse
import dataclasses
import re
import sys
from concurrent.futures import ThreadPoolExecutor
from pathlib import Path

ROOT = Path(__file__).resolve().parent.parent
sys.dont_write_bytecode = True
sys.path.insert(0, str(ROOT / ".ci"))
import prover
import tree
import wrong_bodies
from clauses import CLAUSES, Clause, ClauseError
from clauses import answer_files, contract_of, known_clauses, without_answers, without_facts

CAME = ROOT / "docs" / "edit_outcomes.txt"
HEAD = """\
# What came of each edit that was tried without its clause: CRATE/EDIT: OUTCOME. Written by
# docs/edit_reasons.py alone.
"""
UNTRIED = "not tried yet"
# By crate and edit: the clauses that it is for, and what came of it.
Known = dict[tuple[str, str], list[Clause]]
Came = dict[tuple[str, str], str]

NOT_PROVED = re.compile(r"note: (?:\./)?(\S+):(\d+):\d+: it is not proved .*\(`([^`]+)`\)")
# What is told of a function itself, and not only since it calls one that is not proved.
UNPROVED = re.compile(
    r"fn (\S+): ((?:not proved|no proof)(?!.*(?:it calls|it passes|a call of)).*)")
WRONG_ANSWER = re.compile(
    r"(?:note: )?(?:\./)?proofs/(\S+)/\w+\.antt:\d+:\d+: error: (?:`([^`]+)`)?")


# ---- tries


def tried_without(crate: prover.Crate, edit: wrong_bodies.Edit,
                  away: list[Clause]) -> dict[str, str]:
    """The texts of the edit with these clauses taken away."""
    texts = dict(edit.texts)
    for clause in away:
        if clause.below:
            raise ClauseError(f"the clause stands in `{clause.below}`")
        if clause.names == ("invariant",):
            raise ClauseError("each function of the type owes its invariant")
        if "ensures*" in clause.names:
            raise ClauseError("the clause holds what is said of loans, too")
        file = f"src/{clause.file}"
        source = texts.get(file) or crate.text(file)
        texts[file] = without_facts(source, clause)
        for path in answer_files(crate.folder, source, clause):
            name = str(path.relative_to(crate.folder))
            is_cycle = path.parent.name.startswith("+")
            texts[name] = without_answers(texts.get(name) or crate.text(name), clause, is_cycle)
    return texts


def with_functions(crate: prover.Crate, edit: wrong_bodies.Edit,
                   away: list[Clause]) -> wrong_bodies.Edit:
    """The edit with the functions in which a goal counts: those that it changes, or where it
    changes none, those of its clauses."""
    if edit.functions:
        return edit
    found = []
    for clause in away:
        file = f"src/{clause.file}"
        text = edit.texts.get(file) or crate.text(file)
        body = wrong_bodies.OPENED.search(text, contract_of(text, clause)[0].end()).end()
        found.append(wrong_bodies.function_at(text, file, body, body))
    return dataclasses.replace(edit, functions=tuple(it for it in found if it))


def is_proof_of(folder: str, goal: str, function: wrong_bodies.Changed) -> bool:
    """Whether a folder below proofs/ proves the function, or a cycle with it this goal of it."""
    module = function.file.removeprefix("src/").removesuffix(".rt")
    last = folder.rpartition("/")[2]
    is_own = last == function.name or last.startswith("+") and goal.startswith(f"{function.name}-")
    return folder.startswith(module) and is_own


def refused_goals(said: prover.Said, edit: wrong_bodies.Edit) -> list[str]:
    """The goals of the edited functions that a check refuses, each once; or those of functions in
    one cycle with them; or what it tells of these functions without a goal."""
    found, cycle = [], []
    for line in said.lines:
        if at := NOT_PROVED.match(line):
            is_own = any(it.file == at[1] and it.first <= int(at[2]) <= it.last
                         for it in edit.functions)
            found += [f"`{at[3]}`"] * is_own
        elif at := WRONG_ANSWER.match(line):
            goal = at[2] or ""
            is_own = any(is_proof_of(at[1], goal, it) for it in edit.functions)
            found += [f"`{goal}`" if goal else "an answer that names what is gone"] * is_own
            is_beside = goal and at[1].rpartition("/")[2].startswith("+")
            cycle += [f"`{goal}` of its cycle"] * bool(is_beside)
    names = {it.name for it in edit.functions}
    told = [at[2][:120].replace("|", "/") for at in map(UNPROVED.match, said.lines)
            if at and at[1].rpartition("::")[2] in names]
    return list(dict.fromkeys(found or (cycle if told else []) or told))


def outcome(said: prover.Said, edit: wrong_bodies.Edit) -> str:
    if not said.is_proved and not said.is_refused:
        told = next((it for it in said.lines if prover.UNREAD.search(it)), said.lines[-1])
        return f"not tried: {told[:120].replace('|', '/')}"
    goals = refused_goals(said, edit)
    return f"refused by {', '.join(goals)}" if goals else "proves"


def try_crate(crate: prover.Crate, known: Known) -> Came:
    """Tries the edits of a crate one by one, and tells what came of each."""
    edits, came = [], {}
    for path in tree.edits_of(crate.name):
        key = crate.name, path.stem
        try:
            read = wrong_bodies.read_edit(path, crate)
            edits.append((key, with_functions(crate, read, known[key])))
        except (wrong_bodies.EditError, ClauseError) as error:
            came[key] = f"not tried: {error}"
    is_proved = crate.prove(wrong_bodies.paths_of([edit for _, edit in edits], crate))
    for key, edit in edits:
        try:
            texts = tried_without(crate, edit, known[key])
            if is_proved:
                said = crate.check_edited(texts, wrong_bodies.paths_of([edit], crate))
                came[key] = outcome(said, edit)
            else:
                came[key] = "not tried: the crate is not proved as it stands"
        except ClauseError as error:
            came[key] = f"not taken away: {error}"
        print(f"{'/'.join(key)}: {came[key]}", flush=True)
    return came


def try_all(names: list[str], known: Known) -> Came:
    with prover.proved(names) as (place, room):
        crates = [prover.Crate(place, name, room) for name in
                  sorted(names, key=tree.size_of, reverse=True)]
        with ThreadPoolExecutor(tree.most_checks()) as pool:
            came = list(pool.map(lambda crate: try_crate(crate, known), crates))
    return {key: said for found in came for key, said in found.items()}


# ---- what came of them


def rows(known: Known, came: Came) -> str:
    """A line an edit: its clauses, and what came of it without them."""
    return "".join(f"{'/'.join(key)}: {'; '.join(it.told() for it in away)}: "
                   f"{came.get(key, UNTRIED)}\n" for key, away in sorted(known.items()))


def came_before() -> Came:
    lines = CAME.read_text(encoding="utf-8").splitlines() if CAME.is_file() else []
    parts = [line.partition(": ") for line in lines if not line.startswith("#")]
    return {tuple(edit.split("/")): said for edit, _, said in parts}


def keep(known: Known, came: Came) -> None:
    """Writes what came of the edits that there are."""
    lines = [f"{'/'.join(key)}: {said}\n" for key, said in sorted(came.items()) if key in known]
    CAME.write_text(HEAD + "".join(lines), encoding="utf-8")


def differences(known: Known) -> list[str]:
    """Where the edits, the list and the sources differ."""
    edits = {(crate, path.stem) for crate in tree.crates_with_edits()
             for path in tree.edits_of(crate)}
    said = [f"{'/'.join(key)} has no line in {CLAUSES.name}"
            for key in sorted(edits - known.keys())]
    said += [f"{'/'.join(key)} is no edit" for key in sorted(known.keys() - edits)]
    for (crate, edit), away in known.items():
        for clause in away:
            path = ROOT / "crates" / (clause.below or crate) / "src" / clause.file
            text = path.read_text(encoding="utf-8") if path.is_file() else ""
            try:
                if clause.names != ("invariant",):
                    contract_of(text, clause)
                elif not re.search(rf"\b(struct|enum) {clause.function}\b", text):
                    raise ClauseError(f"{clause.file} has no type `{clause.function}`")
            except ClauseError as error:
                said.append(f"{crate}/{edit}: {error}")
    return said


def main() -> int:
    parser = argparse.ArgumentParser(usage="edit_reasons.py [CRATE ..] | --list")
    parser.add_argument("crates", nargs="*")
    parser.add_argument("--list", action="store_true")
    asked = parser.parse_args()
    known, names = known_clauses(), tree.crates_with_edits()
    said, came = differences(known), came_before()
    if asked.list:
        print(rows(known, came), end="")
    elif said or not set(asked.crates) <= set(names):
        said = said or [f"crates with edits are {' '.join(names)}"]
    else:
        came |= try_all(list(dict.fromkeys(asked.crates or names)), known)
        keep(known, came)
    print("\n".join(said) or f"edit_reasons: {len(known)} edits have their clauses")
    return 1 if said or any(it.startswith("not tried:") for it in came.values()) else 0


if __name__ == "__main__":
    sys.exit(main())
