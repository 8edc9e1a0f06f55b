"""Makes the tables of commands and of macro controls of DEFINITIONS, of the specs' table.

A row of the table of commands is a line of crates/page_env/specs/Table.antt. Its bytes are those
of the lexer's tables, its values, reads and findings those of the definitions that the line names,
and its words their comments.
"""

import re
from dataclasses import dataclass, field
from functools import cache

from tree import Tree, Unreadable

SPECS = "crates/page_env/specs"
TABLE = f"{SPECS}/Table.antt"
UNITS = "crates/tick_length/specs/UnitsPerInch.antt"
CODES = "crates/pcl_items/src/pcl/code.rt"
COMMANDS = "crates/pcl_items/src/pcl/command.rt"
FRAMES = "crates/pcl_items/src/frame.rt"
ITEMS = "crates/pcl_items/src/item.rt"
MACROS = "crates/page_env/src/macros.rt"
FINDINGS = "crates/page_env/src/finding.rt"

# The names of the control codes, by their bytes.
CONTROL_NAMES = ("NUL SOH STX ETX EOT ENQ ACK BEL BS HT LF VT FF CR SO SI "
                 "DLE DC1 DC2 DC3 DC4 NAK SYN ETB CAN EM SUB ESC FS GS RS US").split()
ESCAPES = {r"\n": 10, r"\r": 13, r"\t": 9, r"\0": 0, r"\\": 92}
# The kinds of items that stand in no table of bytes.
OTHERS = {"Text": "`32` to `255`", "SymbolSet": "`ESC (#`letter", "DefaultFont": "`ESC (3@`",
          "EnterFrame": "`ESC %#B`", "LeaveFrame": "`ESC %#A`",
          "ExitLanguage": "`ESC %-12345X`", "PjlLine": "`@PJL` line"}
# The kinds of items that stand in tables of their own.
TABLED = ("Parameterized", "Simple", "WithData", "Initialize", "Set", "Move")
FIELDS = ("Size", "Orientation", "Vmi", "LineTerm")
# What reads a field by how the settings stand.
READS_SOMETIMES = {"vertical_reads": "Vmi at home", "column_reads": "Font without HMI",
                   "font_reads": "Font"}
# The definitions of what an item does behind its line, and of its value.
BEHIND = {"TransparentText": ["print_transparent"], "Up": ["carry_pen"], "Down": ["draw"],
          "Absolute": ["move_pen"], "Relative": ["move_pen"],
          "MacroControl": ["control_of", "control_checks"], "Text": ["space", "character"]}
# What is found where macros are defined and run, beside what a line finds.
IN_A_JOB = {"Reset": {"24"}, "ExitLanguage": {"24"}, "MacroControl": {"21", "24"}}
# The definitions whose comment is about checks alone.
SAYS_NOTHING = ("control_checks", "move_pen")
# A finding that comes of this definition alone, and not of all that name its check.
COMES_OF = {"Inexact": "times"}
# The chapters of HP's manual, by the files of the definitions.
CHAPTERS = {
    "Text": "Fonts", "Motion": "Cursor Positioning; Page Control Commands",
    "JobControl": "PCL Job Control Commands", "PageControl": "Page Control Commands",
    "Margins": "Page Control Commands", "CursorPositioning": "Cursor Positioning",
    "Macros": "Macros", "Fonts": "PCL Font Selection",
    "Rectangles": "PCL Rectangular Area Fill Graphics", "Rasters": "Raster Graphics",
    "Frames": "The Picture Frame",
    "Pens": "The Configuration and Status Group; The Vector Group; "
            "The Line and Fill Attributes Group",
    "Effect": "Kernel Commands; Job Separation Commands, of the PJL manual"}


@dataclass
class Definition:
    """A definition of the specs: the comment above it, its text, and the file that has it."""

    name: str
    comment: str
    text: str
    file: str
    used: set[str] = field(default_factory=set)


def byte_of(literal: str) -> int:
    """The byte of what stands between the quotes of a byte literal."""
    if literal in ESCAPES:
        return ESCAPES[literal]
    return int(literal[2:], 16) if literal.startswith(r"\x") else ord(literal)


def arms(tree: Tree, path: str, head: str, pattern: str) -> list[tuple[str, ...]]:
    """What a pattern finds in the arms of a function, each of which has to be found."""
    body = tree.block(path, head)
    body = body.partition("pub fn of(")[2] or body
    found = re.findall(pattern, body, re.MULTILINE)
    if not found or len(found) != body.count("Some("):
        raise Unreadable(f"{path}: the arms of `{head}` have another form than is read")
    return found


def spellings(tree: Tree) -> dict[str, str]:
    """The bytes of each item that has a line of the table, by its kind."""
    literal = r"b'(\\?[^']+)'"
    known = {}
    single = rf"{literal} => Some\(SimpleItem::(\w+)\)"
    for code, name in arms(tree, CODES, "pub fn control_at", single):
        known[name] = f"`{CONTROL_NAMES[byte_of(code)]}` ({byte_of(code)})"
    for code, name in arms(tree, CODES, "pub fn sequence_at", single):
        known[name] = f"`ESC {chr(byte_of(code))}`"
    pair = rf"\({literal}, {literal}\) => Some"
    groups = {group: chr(byte_of(one)) + chr(byte_of(two)) for one, two, group
              in arms(tree, COMMANDS, "impl Group", rf"{pair}\(Group::(\w+)\)")}
    for kind in ("Command", "DataCommand"):
        of_group = rf"\(Group::(\w+), {literal}\) => Some\({kind}::(\w+)\)"
        for group, letter, name in arms(tree, COMMANDS, f"impl {kind}", of_group):
            known[name] = f"`ESC {groups[group]}#{chr(byte_of(letter))}`"
    of_frame = rf"{pair}\(Mnemonic::(?:\w+\(\w+::)?(\w+)\)"
    for one, two, name in arms(tree, FRAMES, "impl Mnemonic", of_frame):
        known[name] = f"`{chr(byte_of(one))}{chr(byte_of(two))}`"
    return known | {kind: OTHERS[kind] for kind in other_kinds(tree)}


def other_kinds(tree: Tree) -> list[str]:
    """The kinds of items that stand in no table of bytes."""
    kinds = []
    for head in ("pub enum SimpleItem", "pub enum Item<'a>"):
        kinds += re.findall(r"^    (\w+)(?:\(.*\))?,$", tree.block(ITEMS, head), re.MULTILINE)
    in_tables = re.findall(r"SimpleItem::(\w+)", tree.text(CODES))
    others = [kind for kind in kinds if kind not in in_tables and kind not in TABLED]
    if unknown := [kind for kind in others if kind not in OTHERS]:
        raise Unreadable(f"{ITEMS} has the kind of item `{unknown[0]}`, which has no bytes here")
    return others


@cache
def definitions(tree: Tree) -> dict[str, Definition]:
    """The definitions of the print environment by their names, with the ones that each names."""
    known = {}
    for path in sorted((tree.root / SPECS).glob("*.antt")):
        comment: list[str] = []
        name = ""
        for line in path.read_text(encoding="utf-8").split("\n"):
            head = re.match(r"(?:abbrev|unfoldable) pub (\w+) :", line)
            if head:
                name = head[1]
                said = " ".join(comment)
                known[name] = Definition(name, said, "", path.stem)
            elif line.startswith("--"):
                comment = comment if comment and not name else []
                name = ""
                comment.append(line[2:].strip())
                continue
            elif name and line:
                known[name].text += line + "\n"
            elif not line:
                name = ""
                comment = []
            if line and not head and not name:
                comment = []
    for one in known.values():
        one.used = {word for word in re.findall(r"\w+", one.text) if word in known} - {one.name}
    return known


def lines_of_table(tree: Tree) -> list[tuple[str, list[str]]]:
    """Each kind of item that has a line of the table, and the definitions that the line names."""
    known = definitions(tree)
    rows = []
    pattern = r"^(?:command_transition|transition_of) printer defaults s (.*?) =\s(.*(?:\n .*)*)"
    for left, right in re.findall(pattern, tree.text(TABLE), re.MULTILINE):
        named = [word for word in re.findall(r"\w+", right) if word in known]
        kinds = re.findall(r"commands\.(\w+)|^\(?(?:WithData )?(\w+)", left)[0]
        kind = kinds[0] or kinds[1]
        if kind in ("Set", "Move"):
            clauses = re.findall(rf"^{named[0]} .*?(\w+)(?: n)? = (\w+)", known[named[0]].text,
                                 re.MULTILINE)
            rows += [(one, [definition]) for one, definition in clauses]
        elif kind != "Parameterized":
            rows.append((kind, named))
    return rows


def closure(tree: Tree, names: list[str]) -> list[Definition]:
    """The definitions of these names and all that they name, but for what is read at times."""
    known, found, due = definitions(tree), [], list(names)
    while due:
        one = known[due.pop(0)]
        if one not in found:
            found.append(one)
            due += sorted(one.used - READS_SOMETIMES.keys())
    return found


def values_of(tree: Tree, text: str) -> str:
    """The values that the checks of a text want."""
    if "is_none (resolution_of n)" in text:
        dots = tree.text(f"{SPECS}/Mark.antt")
        return ", ".join(re.findall(r"pixels_per_inch \w+ = (\d+)", dots))
    for name, path in (("units_per_inch", UNITS), ("line_spacings", f"{SPECS}/Motion.antt")):
        if re.search(rf"list_any .* {name}\b", text):
            listed = re.search(rf"^{name} =(.*?)\[\]", tree.text(path), re.DOTALL | re.MULTILINE)
            return ", ".join(re.findall(r"\d+", listed[1]))
    bounds = re.findall(r"is_whole_between ([\d_]+) ([\d_]+) n\b", text)
    if bounds:
        ranges = ((int(low.replace("_", "")), int(high.replace("_", "")))
                  for low, high in dict.fromkeys(bounds))
        return ", ".join(f"whole, {low} to {high}" if high - low > 3 else
                         ", ".join(map(str, range(low, high + 1))) for low, high in ranges)
    if most := re.search(r"is_up_to (\S+) n\b", text):
        return f"0 to {int(most[1].replace('_', '')) // 10_000}"
    if low := re.search(r"is_whole_from (\S+) n\b", text):
        return "whole" if low[1] == "0" else f"whole, from {low[1]}"
    for pattern, words in (("is_negative n", "not negative"), ("is_positive n", "more than 0"),
                           ("n == 10_000", "0, 1"), (r"check \(n == 0\) BadValue", "more than 0")):
        if re.search(pattern, text):
            return words
    return ""


def reads_of(found: list[Definition], line: str) -> str:
    """The fields that definitions read, and whether their line closes the page."""
    text = re.sub(r"commands\.\w+", "", line) + "\n".join(one.text for one in found)
    reads = [name for name in FIELDS if re.search(rf"\b{name}\b", text)]
    reads += [words for name, words in READS_SOMETIMES.items() if re.search(rf"\b{name}\b", text)]
    if "Font" in reads and "Font without HMI" in reads:
        reads.remove("Font without HMI")
    if re.search(r"\b(?:Closes|Ends)\b", text):
        reads.append("closes")
    return ", ".join(reads)


def findings_of(tree: Tree, kind: str, text: str, reads: str) -> str:
    """The numbers of the findings that a text names, and of what may be unset."""
    numbers = {number for name, number in
               re.findall(r"Finding::(\w+)(?:\(_\))? => (\d+),", tree.text(FINDINGS))
               if re.search(rf"\b{name}\b", text)
               and re.search(rf"\b{COMES_OF.get(name, '')}\b", text)}
    numbers |= {"12"} if reads else set()
    if re.search(r"\bCloses \(.*\) true\b", text) and kind not in IN_A_JOB:
        numbers.add("23")
    return ", ".join(sorted(numbers | IN_A_JOB.get(kind, set()), key=int))


def words_of(tree: Tree, names: list[str], spelled: str) -> str:
    """The comments of definitions, without the bytes that begin them; or that of these bytes."""
    known = definitions(tree)
    comments = [known[name].comment for name in dict.fromkeys(names)]
    if not any(comments):
        spelled = spelled.replace("ESC ", "")
        comments = [one.comment for one in known.values() if spelled in one.comment][:1]
    said = []
    for comment in comments:
        words = re.sub(r"^(?:`[^`]*`(?:,| and)? ?)+:? ?", "", comment)
        if len(words) > 2:
            said.append(words[0].upper() + words[1:].rstrip("."))
    return ". ".join(said)


def table_line(tree: Tree, kind: str) -> str:
    """The line of the table of a kind of item."""
    found = re.search(rf"^\w+ printer defaults s \(?(?:commands\.|WithData )?{kind}\b.*(?:\n .*)*",
                      tree.text(TABLE), re.MULTILINE)
    return found[0] if found else ""


def commands(tree: Tree) -> str:
    """The table of commands, in the order of the files of their definitions."""
    bytes_of, known = spellings(tree), definitions(tree)
    by_file: dict[str, list[str]] = {name: [] for name in CHAPTERS}
    told: dict[str, str] = {}
    for kind, named in lines_of_table(tree):
        names = named + BEHIND.get(kind, [])
        own = [name for name in names if known[name].file != "Effect"]
        found = closure(tree, own)
        line = table_line(tree, kind)
        text = line + "".join(one.text for one in found)
        reads = reads_of(found, line)
        spelled = bytes_of.pop(kind, None)
        if spelled is None:
            raise Unreadable(f"{TABLE} has a line of `{kind}`, which the lexer does not know")
        says = [name for name in own if name not in SAYS_NOTHING]
        words = words_of(tree, says, spelled)
        first = told.setdefault(words, spelled)
        words = words if first == spelled or len(words) < 30 else f"As {first}"
        cells = (spelled, values_of(tree, text), words, reads,
                 findings_of(tree, kind, text, reads))
        file = known[own[0]].file if own else "Effect"
        by_file[file].append(" | ".join(cells).rstrip(" |"))
    if bytes_of:
        raise Unreadable(f"{TABLE} has no line of `{min(bytes_of)}`")
    rows = ["Bytes | Values | What it does | Reads | Findings", "---|---|---|---|---"]
    for file, lines in by_file.items():
        linked = f"[{file}](../{SPECS}/{file}.antt)"
        rows += [f"{linked} | | *{CHAPTERS[file]}*", *lines]
    return "\n".join(rows)


def controls(tree: Tree) -> str:
    """The table of macro controls: their values, names and words of the code, and findings."""
    values = arms(tree, MACROS, "pub fn control_of(", r"^ +([\d |]+) => Some\(Control::(\w+)\)")
    says = {name: told for told, name in
            re.findall(r"/// [\d and]+: (.*)\n    (\w+),", tree.block(MACROS, "pub enum Control"))}
    specs = tree.text(f"{SPECS}/Macros.antt")
    rows = ["Value | Control | What it does | Findings", "---|---|---|---"]
    for value, control in values:
        checks = re.search(rf"^control_checks .*\(Some {control}\) =(.*)", specs, re.MULTILINE)[1]
        found = findings_of(tree, "", checks, "")
        cells = (value.replace(" |", ","), control, says[control], found)
        rows.append(" | ".join(cells).rstrip(" |"))
    return "\n".join(rows)


MAKERS = {"commands": commands, "macro controls": controls}
