"""Makes what PROOFS and BELIEVE print of the theorem: the contract of `check_job`, the definitions
to which it unfolds, those where it stops, the spec files below it, the logic of the toolchain,
and how many edits there are and what came of them.
"""

import re
import shutil
import subprocess
from collections.abc import Iterable, Iterator
from functools import cache
from itertools import groupby
from typing import Optional

from spec_files import Definition, Specs, lines_of
from tree import Tree, Unreadable

CHECK = "crates/preflight/src/check.rt"
HEAD_OF_CHECK = "pub fn check_job<"
# The parts in which the definitions are printed: spec files, and names of each.
PARTS = {
    "theorem: reads": (("streams/Pieces", "ByReads MayBeBy"),),
    "theorem: a Pass": (
        ("judgement/Verdict", "VerdictHolds PrintsAlike RunsTo"),
        ("page_machine/Pages", "IsWithin IsPrintable IsInside"),
        ("page_machine/Job", "plain_run watched_run run_from")),
    "theorem: a Fail": (
        ("judgement/Failing", "FailSays SaysFound SaysUnset SaysDiffers FindsNothing"),),
    "theorem: exact": (
        ("judgement/Verdict", "IsExact verdict_of verdict_from verdict_by"),
        ("judgement/Wrong", "first_wrong all_wrong findings_in differences_in")),
    "theorem: open": (("judgement/Verdict", "NeedsEachRead LeavesOpen"),),
}
# What the clauses of `check_job` name, what a profile, its lists and its faces, and a source stand
# for in them, and the printer that a text describes.
ROOTS = (("judgement/Verdict", "VerdictHolds IsExact NeedsEachRead StaysOpen WasOpen"),
         ("streams/Pieces", "ByReads"), ("streams/Source", "Reads"),
         ("device_profile/Fields", "printer_of"),
         ("device_profile/ChoiceFields", "choices_of_fields"),
         ("device_profile/FaceFields", "face_of"))
ROOT_OF_TEXTS = ("device_profile/Text", "printer_of_text")
# Where it stops, and the name says enough.
PLAIN = """
IsNumbered AreAllowed events_by_item events_before events_behind runs_of runs_from failure_of
of_each first_run watched_items soonest fault_at capped finding_of row_at bounds_of
""".split()
DECLARED_TYPE = re.compile(r"(?ms)^(?:pub(?:\(crate\))? )?(?:struct|enum) \w+.*?(?:^\}|;$)")
# Of a file with fewer lines to read no sentence is told.
FEW = 7
CLAUSES = "docs/edit_clauses.txt"
CAME = "docs/edit_outcomes.txt"


@cache
def specs_of(tree: Tree) -> Specs:
    return Specs(tree)


def fenced(text: str) -> str:
    return f"```\n{text}\n```"


def crate_of(path: str) -> str:
    return path.split("/")[1]


def file_link(path: str, name: str) -> str:
    return f"[`{name}`](../{path})"


def short_name(path: str) -> str:
    """The name of a spec file within its crate."""
    return path.partition("/specs/")[2].removesuffix(".antt")


# ---- the theorem


def contract(tree: Tree) -> str:
    """The head and the clauses of `check_job`, without comments."""
    text = tree.text(CHECK)
    start = text.find(HEAD_OF_CHECK)
    end = text.find("\n{\n", start)
    if start < 0 or end < 0:
        raise Unreadable(f"{CHECK} has no `{HEAD_OF_CHECK}`")
    lines = [line for line in text[start:end].split("\n") if not line.startswith("    //")]
    return f"{file_link(CHECK, 'check.rt')} of `preflight`:\n\n{fenced(chr(10).join(lines))}"


def chosen(specs: Specs, rows: Iterable[tuple[str, str]]) -> Iterator[Definition]:
    for path, names in rows:
        yield from (specs.definition(path, name) for name in names.split())


def printed(tree: Tree, part: str) -> str:
    """The definitions of a part as they stand, without comments, each file with its link."""
    specs, said = specs_of(tree), []
    for row in PARTS[part]:
        path = specs.file(row[0]).path
        texts = [it.text() for it in chosen(specs, [row])]
        head = f"{file_link(path, short_name(path))} of `{crate_of(path)}`:"
        said.append(f"{head}\n\n{fenced((chr(10) * 2).join(texts))}")
    return "\n\n".join(said)


def stops(tree: Tree) -> str:
    """The definitions that the printed ones cite and that are not printed: by their comments, and
    types and those with a plain name by this alone."""
    specs = specs_of(tree)
    known = {it for rows in PARTS.values() for it in chosen(specs, rows)}
    cited = {it for definition in known for it in specs.cited_by(definition)}
    cited = cited.union(chosen(specs, ROOTS)) - known
    in_order = sorted(cited, key=lambda it: (place_of(tree, it.path), it.path, it.first))
    told = [it for it in in_order if it.name not in PLAIN and it.said()
            and (not it.is_type or it.name.startswith("Is"))]
    rows = [f"- {it.link()}: {it.said()}" for it in told]
    others = ", ".join(it.link() for it in in_order if it not in told)
    return "\n".join(rows) + f"\n\nTypes, and what shows in its name: {others}."


# ---- what has to be believed


@cache
def crates_downward(tree: Tree) -> list[str]:
    """The crates of crates.txt, the highest first."""
    names = re.findall(r"(?m)^(\w+):", tree.text("crates.txt"))
    return names[::-1]


def place_of(tree: Tree, path: str) -> int:
    return crates_downward(tree).index(crate_of(path))


def downward(specs: Specs, definitions: set[Definition]) -> list[str]:
    """The files of definitions of one crate, each before those that it cites."""
    paths = sorted({it.path for it in definitions})
    below = {path: {it.path for own in definitions if own.path == path
                    for it in specs.cited_by(own)} - {path} for path in paths}
    found: list[str] = []
    while left := [path for path in paths if path not in found]:
        free = [path for path in left if not any(path in below[it] for it in left)]
        found.append((free or left)[0])
    return found


def lines_in(path: str, definitions: set[Definition]) -> int:
    """The lines of those of these definitions that stand in a file."""
    return lines_of(it for it in definitions if it.path == path)


def below_theorem(specs: Specs) -> set[Definition]:
    return specs.all_below(chosen(specs, ROOTS))


def told_file(specs: Specs, path: str, lines: int) -> str:
    """A file with its first sentence, up to a colon where a title of some words stands before."""
    sentence = next(it.said for it in specs.files.values() if it.path == path)
    title = sentence.partition(": ")[0]
    said = title if len(title.split()) > 2 else sentence
    return f"- {file_link(path, short_name(path))} ({lines}): {said}"


def listed(specs: Specs, tree: Tree, definitions: set[Definition]) -> str:
    """The files of these definitions by crates, with the lines of the definitions in each and the
    first sentence of each file; of some lines the file alone, behind the others."""
    said, few = [], []
    by_crate = sorted(definitions, key=lambda it: place_of(tree, it.path))
    for crate, group in groupby(by_crate, key=lambda it: crate_of(it.path)):
        own = set(group)
        lines = {path: lines_in(path, own) for path in downward(specs, own)}
        rows = [told_file(specs, path, count) for path, count in lines.items() if count >= FEW]
        said += ["", f"**`{crate}`**", "", *rows] if rows else []
        few += [f"{file_link(path, f'{crate}/{short_name(path)}')} ({count})"
                for path, count in lines.items() if count < FEW]
    return "\n".join([*said[1:], "", f"And some lines of {', '.join(few)}."])


def files_to_believe(tree: Tree) -> str:
    specs = specs_of(tree)
    return listed(specs, tree, below_theorem(specs))


def files_of_texts(tree: Tree) -> str:
    """The files below the reading of a profile's text, without what the theorem stands on."""
    specs = specs_of(tree)
    root = specs.definition(*ROOT_OF_TEXTS)
    own = specs.all_below([root]) - below_theorem(specs)
    paths = [path for crate in crates_downward(tree)
             for path in downward(specs, {it for it in own if crate_of(it.path) == crate})]
    links = [f"{file_link(path, short_name(path))} ({lines_in(path, own)})" for path in paths]
    return f"{', '.join(links)}: {lines_of(own)} lines."


def lines_declared(text: str) -> list[int]:
    """The lines of each struct and each enum that a source declares, without comments."""
    found = [it[0].split("\n") for it in DECLARED_TYPE.finditer(text)]
    return [sum(1 for line in lines if not line.strip().startswith("//")) for lines in found]


def count_to_believe(tree: Tree) -> str:
    """How much that is, beside all spec files, with the types that it names and names of std."""
    specs = specs_of(tree)
    found = below_theorem(specs)
    sources = specs.sources_of_types(found)
    types = [count for path in sources for count in lines_declared(tree.text(path))]
    whole = lines_of(it for file in specs.files.values() for it in file.definitions.values())
    files = len({it.path for it in found})
    return (f"The theorem stands on {lines_of(found):,} lines of definitions in {files} spec "
            f"files, of {whole:,} in {len(specs.files)}; on the types of {len(sources)} sources "
            f"({len(types)} structs and enums, {sum(types)} lines); and on "
            f"{len(specs.names_of_std(found))} names of std, besides operators.")


def types_to_believe(tree: Tree) -> str:
    """The sources that declare the types which these definitions name."""
    specs = specs_of(tree)
    sources = sorted(specs.sources_of_types(below_theorem(specs)),
                     key=lambda it: (place_of(tree, it), it))
    links = [file_link(path, path.partition("/src/")[2]) for path in sources]
    return f"The types that they name are declared in {', '.join(links)}."


# ---- the toolchain


def toolchain(tree: Tree) -> Optional[str]:
    """The logic by which the proofs hold, which releases share, or None where there is no rt."""
    if shutil.which("rt") is None:
        return None
    said = subprocess.run(["rt", "version"], capture_output=True, text=True, check=True).stdout
    logic = re.search(r"logic (\w+)", said)[1]
    return f"`rt version` names the logic {logic}."


# ---- edits and their clauses


def lines_by_edit(text: str) -> Iterator[tuple[str, str]]:
    """The lines of a list of edits, CRATE/EDIT: .., without comments."""
    for line in text.splitlines():
        if line and not line.startswith("#"):
            edit, _, rest = line.partition(": ")
            yield edit, rest


def edits_of(crate: str, known: dict[str, str], came: dict[str, str]) -> tuple[int, int, int]:
    """How many edits a crate has, and how many prove and are refused without their clause."""
    own = [edit for edit in known if edit.startswith(f"{crate}/")]
    said = [came.get(edit, "") for edit in own]
    return (len(own), sum(it == "proves" for it in said),
            sum(it.startswith("refused") for it in said))


def edits(tree: Tree) -> str:
    """How many edits there are, and what came of those that were tried without their clauses."""
    known = dict(lines_by_edit(tree.text(CLAUSES)))
    crates = {edit.partition("/")[0] for edit in known}
    head = (f"[edit_clauses.txt](edit_clauses.txt) has {len(known)} edits of {len(crates)} crates, "
            "each with its file, function and clause.")
    if not (tree.root / CAME).is_file():
        return f"{head} What comes of them without their clause is to be tried."
    came = {edit: said for edit, said in lines_by_edit(tree.text(CAME)) if edit in known}
    counts = [edits_of(crate, known, came) for crate in sorted(crates)]
    proves, refused = (sum(each) for each in list(zip(*counts))[1:])
    return (f"{head} [edit_outcomes.txt](edit_outcomes.txt) has what came of {proves + refused} "
            f"without their clause: {proves} prove then, {refused} are refused still.")


MAKERS = {
    "theorem: contract": contract,
    **{part: lambda tree, part=part: printed(tree, part) for part in PARTS},
    "theorem: stops": stops,
    "believe: count": count_to_believe,
    "believe: types": types_to_believe,
    "believe: files": files_to_believe,
    "believe: profiles": files_of_texts,
    "toolchain": toolchain,
    "edits": edits,
}
