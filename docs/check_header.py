#!/usr/bin/env python3
"""Compares the calls of the library as its source, its header, its manual page and their users have
them.

    python3 docs/check_header.py

The source has the calls that the crate exports, in their order, each with the numbers of which its
comment says that it may answer them. The header has the same calls in C, the same numbers and the
same structs, each call below a comment that names the same answers. The manual page has each
prototype and each number, the version script each name, and the module for Python its parameters.
Prints what differs, and the status is 1 where something does.
"""

import ctypes
import re
import sys
from collections.abc import Iterator
from pathlib import Path

sys.dont_write_bytecode = True

import c_calls                                                         # noqa: E402
from c_calls import Call, Calls                                        # noqa: E402

ROOT = Path(__file__).resolve().parent.parent
SOURCES = [ROOT / "crates" / name / "src" for name in ("pclcheck_c", "foreign_calls")]
HEADER = ROOT / "include" / "pclcheck.h"
EXPORTED = ROOT / "include" / "pclcheck.map"
PAGE = ROOT / "man" / "pclcheck.3"
MODULE = ROOT / "contrib" / "python"
# What stands in the module for a pointer to a struct of the header.
STRUCTS = {"pclcheck_fleet": "_Fleet", "pclcheck_session": "_Session",
           "pclcheck_verdict": "_Verdict", "pclcheck_refusal": "_Refusal",
           "pclcheck_panel_value": "_PanelValue"}
NUMBERS = {"uint32_t": ctypes.c_uint32, "uint64_t": ctypes.c_uint64, "size_t": ctypes.c_size_t}


def is_else(what: str, due: object, came: object) -> Iterator[str]:
    if due != came:
        yield f"{what}: due {due}\n  has {came}"


def all_answers(call: Call, calls: dict[str, Call]) -> set[str]:
    """The answers of a call, with those of the calls that its comment names for them."""
    return {name for answer in call.answers
            for name in (calls[answer].answers if answer in calls else (answer,))}


def of_header(source: Calls, header: Calls) -> Iterator[str]:
    """In what the header differs from the source."""
    yield from is_else("numbers of the header", source.numbers, header.numbers)
    yield from is_else("structs of the header", source.structs, header.structs)
    yield from is_else("order of the calls", list(source.calls), list(header.calls))
    for name in source.calls.keys() & header.calls.keys():
        due, came = source.calls[name], header.calls[name]
        yield from is_else("header", due.prototype(), came.prototype())
        yield from is_else(f"answers of {name}", sorted(all_answers(due, source.calls)),
                           sorted(came.answers))


# ---- the manual page

def words_of_macro(line: str) -> str:
    """What a line of the page shows: of a macro its words, one behind another."""
    if not line.startswith("."):
        return line
    words = re.findall(r'"([^"]*)"|(\S+)', line.partition(" ")[2])
    return "".join(quoted or plain for quoted, plain in words)


def shown(text: str) -> str:
    """The page as it is read, in one line."""
    text = text.replace(r"\-", "-").replace(r"\(aq", "'")
    return c_calls.one_line("\n".join(map(words_of_macro, text.splitlines())))


def of_page(header: Calls) -> Iterator[str]:
    """What the page lacks, or has in another order."""
    text = shown(PAGE.read_text(encoding="utf-8"))
    places = []
    for call in header.calls.values():
        if call.prototype() not in text:
            yield f"pclcheck.3 lacks {call.prototype()}"
        else:
            places.append(text.index(call.prototype()))
    if places != sorted(places):
        yield "pclcheck.3 has the calls in another order"
    for name, number in header.numbers.items():
        if f"PCLCHECK_{name} ({number})" not in text:
            yield f"pclcheck.3 lacks PCLCHECK_{name} ({number})"


# ---- names and types elsewhere

def of_exported(header: Calls) -> Iterator[str]:
    names = re.findall(r"^ +(pclcheck_\w+);$", EXPORTED.read_text(encoding="utf-8"), re.M)
    yield from is_else("pclcheck.map", list(header.calls), names)


def in_python(parameter: str, module) -> object:
    """The type that the module has for a parameter."""
    kind, pointed, _ = parameter.rpartition("*")
    if not pointed:
        return NUMBERS[parameter.split()[0]]
    if kind.strip() == "const uint8_t":
        return ctypes.c_char_p
    if kind.strip() == "uint8_t":
        return ctypes.POINTER(ctypes.c_char)
    inner = kind.removeprefix("const ").split()
    inside = getattr(module, STRUCTS[inner[1]]) if inner[0] == "struct" else NUMBERS[inner[0]]
    return ctypes.POINTER(inside)


def of_module(header: Calls) -> Iterator[str]:
    """In what the module for Python differs: calls, numbers and fields."""
    sys.path.insert(0, str(MODULE))
    import pclcheck as module                                  # pylint: disable=all
    yield from is_else("calls of pclcheck.py", list(header.calls), list(module._CALLS))
    for name in header.calls.keys() & module._CALLS.keys():
        due = [in_python(it, module) for it in header.calls[name].parameters]
        yield from is_else(f"{name} of pclcheck.py", due, list(module._CALLS[name]))
    yield from is_else("numbers of pclcheck.py", header.numbers,
                       {number.name: number.value for number in module._Number})
    for name, fields in header.structs.items():
        due = [(field.split()[-1].strip("*"), NUMBERS.get(field.split()[0], ctypes.c_void_p))
               for field in fields]
        yield from is_else(f"{STRUCTS[name]} of pclcheck.py", due,
                           list(getattr(module, STRUCTS[name])._fields_))


def main() -> int:
    source, header = c_calls.of_source(*SOURCES), c_calls.of_header(HEADER)
    wrong = [*of_header(source, header), *of_page(header), *of_exported(header),
             *of_module(header)]
    for line in wrong:
        print(line)
    print(f"header: {len(header.calls)} calls of the library, {len(wrong)} differences")
    return 1 if wrong or not header.calls else 0


if __name__ == "__main__":
    sys.exit(main())
