"""What the manual page of the library has from its header.

`MAKERS` has each part by its name. None needs the program.
"""

import re
import textwrap

import c_calls
from c_calls import Call

HEADER = "include/pclcheck.h"
COLUMNS = 79
# Prototypes are set in by seven columns.
PROTOTYPE_COLUMNS = 72
INDENT = "    "
NUMBER = re.compile(r"^#define PCLCHECK_(\w+) (\d+) +/\* (.*?) \*/", re.M)
FIELD = re.compile(r"^ +(\w[\w ]*?)(\*?)(\w+); +/\* (.*?) \*/", re.M | re.S)
STRUCT = re.compile(r"/\*((?:[^*]|\*[^/])*)\*/\n^struct (\w+) \{(.*?)^\};", re.M | re.S)


def escaped(text: str) -> str:
    """A text as the page spells it, its code in bold."""
    text = text.replace("\\", r"\e").replace("-", r"\-").replace("'", r"\(aq")
    text = re.sub(r"`([^`]+)`", r"\\fB\1\\fP", text)
    return re.sub(r"\b(pclcheck_\w+)\(\)", r"\\fB\1\\fP()", text)


def filled(text: str) -> list[str]:
    return textwrap.wrap(escaped(c_calls.one_line(text)), COLUMNS, break_long_words=False,
                         break_on_hyphens=False)


def text_of(tree) -> str:
    return (tree.root / HEADER).read_text(encoding="utf-8")


def calls_of(tree) -> list[Call]:
    return list(c_calls.of_header(tree.root / HEADER).calls.values())


# ---- prototypes

def lines_of(call: Call) -> list[str]:
    """A prototype in lines that are short enough."""
    rows, line = [], f"{call.gives} {call.name}("
    for at, parameter in enumerate(call.parameters):
        end = ");" if at + 1 == len(call.parameters) else ","
        if len(line) + len(parameter) + len(end) > PROTOTYPE_COLUMNS:
            rows.append(line.rstrip(" "))
            line = INDENT
        line += parameter + end + ("" if end == ");" else " ")
    return [*rows, line]


def bold_and_names(line: str) -> str:
    """A line of a prototype, in bold but for the names of its parameters."""
    parts = re.split(r"(?<=[ *])(\w+)(?=,|\);)", line)
    words = [f'"{part}"' if " " in part else part for part in parts if part]
    return ".BI " + " ".join(words)


def prototypes(tree) -> str:
    """The prototypes, one behind another."""
    rows = []
    for call in calls_of(tree):
        rows += [".PP", *(bold_and_names(line.rstrip(" ")) for line in lines_of(call))]
    return "\n".join(rows[1:])


# ---- what they do, answer and leave

def calls(tree) -> str:
    """A paragraph for each call, with what it answers."""
    rows = []
    for call in calls_of(tree):
        said, _, answers = call.comment.partition("Answers:")
        words = re.sub(r"\b(?!UTF|OUT)([A-Z][A-Z_]+)\b", r"`\1`", answers)
        rows += [".TP", f".BR {call.name} ()", *filled(said)]
        if words:
            rows += [".br", *filled(f"Answers: {words.strip()}")]
    return "\n".join(rows)


def answers(tree) -> str:
    """The numbers that calls answer."""
    rows = []
    for name, number, meaning in NUMBER.findall(text_of(tree)):
        rows += [".TP", f'.BR PCLCHECK_{name} " ({number})"', *filled(meaning)]
    return "\n".join(rows)


def structs(tree) -> str:
    """The structs, with their fields."""
    rows = []
    for comment, name, body in STRUCT.findall(text_of(tree)):
        said = c_calls.words_of_header(comment)
        rows += [".PP", f".B struct {name}", ".br", *filled(said)]
        if len(fields := FIELD.findall(body)) > 0:
            rows.append(".RS")
            for kind, star, field, meaning in fields:
                rows += [".TP", f'.BI "{kind.strip()} {star}" {field}', *filled(meaning)]
            rows.append(".RE")
    return "\n".join(rows[1:])


MAKERS = {"prototypes": prototypes, "calls": calls, "answers": answers, "structs": structs}
