"""The calls of the library as files have them: its source in Rattle, and its header in C.

A call is its name, what it gives back and its parameters, each as C spells it. A slice of the
source is a pointer and a length in C, and the memory that a call asks for is nothing there.
"""

import re
from pathlib import Path
from typing import NamedTuple

# What a call asks for memory is nothing in C.
MEMORY = "Global"
NUMBERS = {"u8": "uint8_t", "u32": "uint32_t", "u64": "uint64_t", "usize": "size_t"}
EXPORT = re.compile(r'((?:^///[^\n]*\n)+)^#\[unsafe\(no_mangle\)\]\s*'
                    r'pub (?:unsafe )?extern "C" fn (\w+)\(([^)]*)\)(?: -> (\w+))?', re.M)
SOURCE_STRUCT = re.compile(r"((?:^///[^\n]*\n)+)^#\[repr\(C\)\]\s*(?:#\[[^\n]*\]\s*)*"
                           r"pub struct (\w+) \{(.*?)^\}", re.M | re.S)
SOURCE_FIELD = re.compile(r"^ +(?!ghost)(?:pub(?:\(crate\))? )?(\w+): ([^,\n]+),", re.M)
CALLED = re.compile(r"C calls it `struct (\w+)`")
PROTOTYPE = re.compile(r"/\*((?:[^*]|\*[^/])*)\*/\n((?:void|\w+_t)) (pclcheck_\w+)\(([^)]*)\);")
HEADER_STRUCT = re.compile(r"^struct (\w+) \{(.*?)^\};", re.M | re.S)
COMMENT = re.compile(r"/\*.*?\*/", re.S)


class Call(NamedTuple):
    """A call as C has it, what is said of it, and the numbers that it may answer."""
    name: str
    gives: str
    parameters: tuple[str, ...]
    comment: str
    answers: tuple[str, ...]

    def prototype(self) -> str:
        return f"{self.gives} {self.name}({', '.join(self.parameters)});"


class Calls(NamedTuple):
    """All that a file says: numbers with their names, the fields of structs, and calls."""
    numbers: dict[str, int]
    structs: dict[str, tuple[str, ...]]
    calls: dict[str, Call]


def pointer(kind: str, name: str) -> str:
    return f"{kind} *{name}"


# ---- the source

def type_in_c(kind: str, structs: dict[str, str]) -> str:
    """What a type of the source is in C, without the pointer that leads to it."""
    if kind in structs:
        return f"struct {structs[kind]}"
    if kind in NUMBERS:
        return NUMBERS[kind]
    raise ValueError(f"the source has a type that C has not: {kind}")


def parameters_in_c(text: str, structs: dict[str, str]) -> list[str]:
    """What a parameter of the source is in C: none, one or two."""
    name, _, kind = (part.strip() for part in text.partition(":"))
    if kind == MEMORY:
        return []
    if kind.startswith("*"):
        return [pointer("void", name)]
    is_lent, is_changed = kind.startswith("&"), kind.startswith("&mut ")
    inner = kind.removeprefix("&").removeprefix("mut ")
    if not is_lent:
        return [f"{type_in_c(kind, structs)} {name}"]
    inside = type_in_c(inner.strip("[]"), structs)
    lent = pointer(inside if is_changed else f"const {inside}", name)
    if not inner.startswith("["):
        return [lent]
    return [lent, "size_t room" if is_changed else f"size_t {name}_length"]


def words_of_comment(text: str) -> str:
    return re.sub(r"^/// ?", "", text, flags=re.M)


def answers_in_source(comment: str, numbers: dict[str, int]) -> tuple[str, ...]:
    """The numbers of which a comment says that a call answers them, and other calls do."""
    answer = comment.partition("The answer is")[2]
    return tuple(word for word in dict.fromkeys(re.findall(r"`(\w+)`", answer))
                 if word in numbers or word.startswith("pclcheck_"))


def field_in_c(name: str, kind: str, structs: dict[str, str]) -> str:
    if kind.startswith("*"):
        return pointer("void", name)
    return f"{type_in_c(kind, structs)} {name}"


def of_source(*folders: Path) -> Calls:
    """What the crate of the library and those that it hands on say; each root comes first."""
    paths = [path for folder in folders for path
             in sorted(folder.glob("*.rt"), key=lambda path: (path.name != "lib.rt", path.name))]
    text = "\n".join(path.read_text(encoding="utf-8") for path in paths)
    numbers = {name: int(number) for name, number
               in re.findall(r"^pub const ([A-Z_]+): u32 = (\d+);", text, re.M)}
    found = [(CALLED.search(comment), name, body)
             for comment, name, body in SOURCE_STRUCT.findall(text)]
    structs = {name: called[1] for called, name, _ in found if called}
    fields = {structs[name]: tuple(field_in_c(field, kind, structs)
                                   for field, kind in SOURCE_FIELD.findall(body)
                                   if kind != MEMORY)
              for called, name, body in found if called}
    calls = {}
    for comment, name, parameters, gives in EXPORT.findall(text):
        said = words_of_comment(comment)
        words = [part for part in re.split(r",\s*", parameters.strip()) if part]
        in_c = [part for word in words for part in parameters_in_c(word, structs)]
        calls[name] = Call(name, NUMBERS[gives] if gives else "void", tuple(in_c), said,
                           answers_in_source(said, numbers))
    return Calls(numbers, fields, calls)


# ---- the header

def one_line(text: str) -> str:
    return " ".join(text.split())


def answers_in_header(comment: str) -> tuple[str, ...]:
    answer = comment.partition("Answers:")[2]
    return tuple(dict.fromkeys(re.findall(r"\b(?!UTF|OUT)[A-Z][A-Z_]+\b", answer)))


def words_of_header(comment: str) -> str:
    """A comment of the header without its stars."""
    return re.sub(r"^ \* ?", "", comment, flags=re.M).strip()


def of_header(path: Path) -> Calls:
    """What the header says."""
    text = path.read_text(encoding="utf-8")
    numbers = {name: int(number)
               for name, number in re.findall(r"^#define PCLCHECK_(\w+) (\d+)", text, re.M)}
    structs = {name: tuple(one_line(field) for field in COMMENT.sub("", body).split(";")
                           if field.strip())
               for name, body in HEADER_STRUCT.findall(text)}
    calls = {}
    for comment, gives, name, parameters in PROTOTYPE.findall(text):
        said = words_of_header(comment)
        calls[name] = Call(name, gives, tuple(one_line(it) for it in parameters.split(",")), said,
                           answers_in_header(said))
    return Calls(numbers, structs, calls)
