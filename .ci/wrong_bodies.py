"""Edits of must-fail folders: what they change, and which can be tried in one check.

A function is proved against the contracts of those that it calls, whatever their bodies are. So
edits of the bodies of several functions can be tried at once: each is refused if a goal of its own
function is not proved. One edit of each file is tried at a time, since functions that call one
another are proved together. What is not refused so, and what changes more than bodies, is tried
alone: first the functions that it changes, and where these are still proved the whole crate.
"""

import re
from collections import Counter
from collections.abc import Iterable
from dataclasses import dataclass
from pathlib import Path

from prover import Crate, Said

HEAD = re.compile(r"(?m)^( *)(?:pub(?:\([^)]*\))? )?(?:const )?(?:extern \"C\" )?fn (\w+)")


# The end of a function's head: its body follows, which may be empty, or it has none.
OPENED = re.compile(r"(?m)(?:[{;]|^\{\})$")


class EditError(Exception):
    """Why an edit cannot be applied."""


@dataclass(frozen=True)
class Changed:
    """A function that is changed: its lines in the edited file, and whether only its body is."""
    file: str
    name: str
    first: int
    last: int
    is_body: bool


@dataclass(frozen=True)
class Edit:
    """An edit: its name, the texts that it makes, the functions that it changes, and whether it
    changes nothing but the bodies of these."""
    name: str
    texts: dict[str, str]
    functions: tuple[Changed, ...]
    is_of_bodies: bool


def function_at(text: str, file: str, start: int, end: int) -> Changed | None:
    """The function in which a part of a text lies; what a trait declares is none."""
    heads = [it for it in HEAD.finditer(text) if it.start() <= start]
    if not file.startswith("src/") or not heads:
        return None
    head = heads[-1]
    if OPENED.search(text, head.end())[0].endswith(";"):
        return None
    close = text.find(f"\n{head[1]}}}\n", head.start())
    if close < end:
        return None
    opened = OPENED.search(text, head.end(), start)
    lines = text.count("\n", 0, head.start()) + 1, text.count("\n", 0, close) + 2
    return Changed(file, head[2], *lines, opened is not None)


def read_edit(path: Path, crate: Crate) -> Edit:
    """Reads an edit, and applies it."""
    texts, functions, file, old = {}, [], None, None
    for line in path.read_text(encoding="utf-8").split("\n"):
        kind, _, rest = line.partition(":")
        rest = rest.removeprefix(" ")
        if kind == "file":
            file = rest.strip()
            texts.setdefault(file, crate.text(file))
        elif kind == "old":
            old = rest
        elif kind == "new":
            if file is None or not old or texts[file].count(old) != 1:
                raise EditError(f"its text {old!r} stands in {file} not once")
            start = texts[file].index(old)
            texts[file] = texts[file].replace(old, rest)
            functions.append(function_at(texts[file], file, start, start + len(rest)))
    if all(text == crate.text(file) for file, text in texts.items()):
        raise EditError("it changes nothing")
    is_of_bodies = all(it is not None and it.is_body for it in functions) and len(texts) == 1
    return Edit(path.stem, texts, tuple(it for it in functions if it), is_of_bodies)


def paths_of(edits: Iterable[Edit], crate: Crate) -> set[str]:
    """The functions that edits change, by names that the prover knows: where a crate has several
    of one name, by the module of their file."""
    sources = "".join(path.read_text(encoding="utf-8")
                      for path in (crate.folder / "src").rglob("*.rt"))
    counts = Counter(it[2] for it in HEAD.finditer(sources))
    found = set()
    for changed in (it for edit in edits for it in edit.functions):
        module = changed.file.removeprefix("src/").removesuffix(".rt").replace("/", "::")
        found.add(changed.name if counts[changed.name] == 1 else module)
    return found


def batches(edits: list[Edit]) -> list[list[Edit]]:
    """Puts the edits together that can be tried at once."""
    found = []
    for edit in edits:
        fits = (batch for batch in found if edit.is_of_bodies and batch[0].is_of_bodies
                and not any(other.texts.keys() & edit.texts.keys() for other in batch))
        batch = next(fits, None)
        if batch is None:
            found.append([edit])
        else:
            batch.append(edit)
    return found


def refusal_of(edit: Edit, said: Said) -> str | None:
    """The first line by which a check refuses a goal of a function that the edit changes."""
    for line in said.lines:
        at = re.match(r"note: (?:\./)?(\S+):(\d+):\d+: it is not proved", line)
        if at and any(it.file == at[1] and it.first <= int(at[2]) <= it.last
                      for it in edit.functions):
            return line
    return None
