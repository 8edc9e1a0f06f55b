"""Makes what the documents say of findings and notes, of the texts that `explain` writes.

FINDINGS has a section for each finding: its kind, when it comes and what to change are made; from
the line that begins with `**At the printer**` on, a section is written by hand and stays. The
manual page has an entry for each finding and each note, and DEFINITIONS the order of the findings
of a step.
"""

import re
import textwrap
from dataclasses import dataclass

from tree import Tree, Unreadable

NUMBERS = ("crates/page_env/src/finding.rt", "crates/verdict/src/numbers.rt",
           "crates/verdict/src/reason.rt")
NAMES = "crates/line_words/src/words.rt"
NOTES = "crates/notes/src/note.rt"
KINDS = "crates/job_reports/src/kind.rt"
EXPLANATIONS = "crates/meanings/src/explanations.rt"
ORDER = "crates/page_env/specs/Order.antt"
DOCUMENT = "docs/FINDINGS.md"
# The kind of 10 goes by its value.
KIND_BY_VALUE = "value_kind"
BY_HAND = "**At the printer**"
COMMAND = re.compile(r"ESC (?:[&*(%][^\s,;:.)]*|[9=E](?!\w))")
ESCAPES = {"\\": r"\e", "-": r"\-", "'": r"\(aq", "^": r"\(ha", "~": r"\(ti", "`": r"\(ga"}


@dataclass(frozen=True)
class Explanation:
    """What `explain` writes: the second is of who says no, or of a note what a printer may do."""

    title: str
    when: str
    second: str
    change: str
    manual: str


def explanations(tree: Tree) -> tuple[list[Explanation], list[Explanation]]:
    """The explanations of faults and findings, and those of notes."""
    table = re.search(r"EXPLANATIONS: \[&str; (\d+)\] = \[\n(.*)\];", tree.text(EXPLANATIONS),
                      re.DOTALL)
    found = re.findall(r'^    "\\\n(\d+ \w+)\n'
                       r'  When: +(.*?)\n  (Kind|Printer): +(.*?)\n'
                       r'  Change: +(.*?)\n  Manual: +(.*?)\n",$',
                       table[2] if table else "", re.MULTILINE | re.DOTALL)
    if table is None or len(found) != int(table[1]):
        raise Unreadable(f"{EXPLANATIONS} has no explanations in the form that is read")
    plain: dict[str, list[Explanation]] = {"Kind": [], "Printer": []}
    for title, when, second, *texts in found:
        texts = (" ".join(text.replace(r'\"', '"').split()) for text in (when, *texts))
        plain[second].append(Explanation(title, *texts))
    return plain["Kind"], plain["Printer"]


def titles(tree: Tree) -> list[str]:
    """The numbers and names of faults and findings that the program writes, as `12 Unset`."""
    variant = r"((?:LexCause|Finding|Reason)::\w+)(?:\(_\))?"
    numbers = re.findall(rf"{variant} => (\d+),", "".join(map(tree.text, NUMBERS)))
    name_of = dict(re.findall(rf'{variant} => b"([A-Z]\w+)",', tree.text(NAMES)))
    if not numbers or sorted(one for one, _ in numbers) != sorted(name_of):
        raise Unreadable(f"{NAMES} has other findings than have numbers")
    by_number = sorted((int(number), name_of[one]) for one, number in numbers)
    return [f"{number} {name}" for number, name in by_number]


def note_titles(tree: Tree) -> list[str]:
    """The numbers and names of notes that the program writes, as `101 OpenStart`."""
    text = tree.text(NOTES)
    name_of = dict(re.findall(r'(Note::\w+) => b"([A-Z]\w+)",', text))
    return [f"{number} {name_of[one]}"
            for one, number in re.findall(r"(Note::\w+) => (\d+),", text)]


def kinds(tree: Tree) -> dict[str, str]:
    """The kind of each fault and finding, by its name."""
    found = re.findall(r"^ +(?:LexCause|Finding|Reason)::(\w+)(?:\(_\))? => (?:Kind::)?(\w+)"
                       r"(?:\(\w+\))?,$", tree.text(KINDS), re.MULTILINE)
    return {name: kind.lower() for name, kind in found}


def checked(tree: Tree) -> list[Explanation]:
    """The explanations of findings, which are those of the code and have its kinds."""
    known = explanations(tree)[0]
    if [one.title for one in known] != titles(tree):
        raise Unreadable(f"{EXPLANATIONS} explains other findings than {NAMES} names")
    kind_of = kinds(tree)
    for one in known:
        kind = kind_of.get(one.title.split()[1])
        if re.match(r"\w+", one.second)[0] != kind != KIND_BY_VALUE:
            raise Unreadable(f"{EXPLANATIONS} has another kind of {one.title} than {KINDS}")
    return known


def with_code(text: str) -> str:
    """A text with its commands as code."""
    return COMMAND.sub(lambda found: f"`{found[0]}`", text)


def by_hand(text: str, title: str) -> str:
    """What stands by hand in the section of a finding."""
    section = text.partition(f"\n## {title}\n")[2]
    section = re.split(r"(?m)^(?:## |<!-- end)", section, maxsplit=1)[0]
    _, begin, rest = section.partition(BY_HAND)
    if not begin:
        raise Unreadable(f"{DOCUMENT} has no line `{BY_HAND}` in the section `{title}`")
    return f"{begin}{rest}".strip()


def sections(tree: Tree) -> str:
    """The sections of the findings."""
    text = tree.text(DOCUMENT)
    return "\n\n".join(
        f"## {one.title}\n\n**When**: {with_code(one.when)} *{with_code(kind_words(one))}*\n\n"
        f"**Change**: {with_code(one.change)}\n\n{by_hand(text, one.title)}"
        for one in checked(tree))


def kind_words(one: Explanation) -> str:
    """Who says no: the kind alone, where the head of the document tells what it means."""
    kind, colon, rest = one.second.partition(":")
    is_usual = colon and " where " not in kind and "no pinned job" not in rest
    return f"({kind})" if is_usual else f"({one.second})"


def order(tree: Tree) -> str:
    """The sentence on the order of the findings of a step."""
    found = re.search(r"^report_order =\n(.*?)\[\]", tree.text(ORDER), re.MULTILINE | re.DOTALL)
    if found is None:
        raise Unreadable(f"{ORDER} has no order of findings as it is read")
    numbers = ", ".join(re.findall(r"\d+", found[1]))
    return f"At one step the first finding in the order {numbers} is reported (`report_order`)."


def filled(text: str) -> str:
    """A text in lines of the manual page."""
    shown = "".join(ESCAPES.get(character, character) for character in text)
    lines = textwrap.wrap(shown, 79, break_long_words=False, break_on_hyphens=False)
    return "\n".join(rf"\&{line}" if line.startswith(".") else line for line in lines)


def entries(known: list[Explanation], second: str) -> str:
    """The entries of the manual page."""
    parts = ((one.title, (one.when, second + one.second, "Change: " + one.change))
             for one in known)
    return "\n".join(f".TP\n.B {title}\n" + "\n.IP\n".join(map(filled, texts))
                     for title, texts in parts)


def note_entries(tree: Tree) -> str:
    """The entries of the notes, which are those of the code."""
    known = explanations(tree)[1]
    if [one.title for one in known] != note_titles(tree):
        raise Unreadable(f"{EXPLANATIONS} explains other notes than {NOTES} names")
    return entries(known, "Printer: ")


MAKERS = {
    "findings": sections,
    "order of findings": order,
    "entries of findings": lambda tree: entries(checked(tree), "Kind: "),
    "entries of notes": note_entries,
}
