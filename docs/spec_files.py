"""Reads the definitions of the specs/ folders of a tree, and which others each of them cites."""

import re
from collections.abc import Iterable, Iterator
from dataclasses import dataclass
from typing import Optional

from tree import Tree, Unreadable

# A definition begins at the edge, with marks, perhaps the kind of a type, and its name.
HEAD = re.compile(r"(?:(?:abbrev|unfoldable|pub) )*(record |data )?(\S+)")
NO_HEAD = ("use ", "pub use ", "pub mod ")
CONSTRUCTOR = re.compile(r"  (?:pub )?(\w+) :")
# What a file takes from another: single names, or the file itself under a name.
USE = re.compile(r"^(?:pub )?use (\S+?)(?:\.\{([^}]*)\})?(?: as (\w+))?$", re.MULTILINE)
WORD = re.compile(r"[^\s(){};,→×λ⊎]+")
STD = "Rattle.std."
# A type of a source, CRATE.specs.declared.FILE.TYPE, or what is within it.
DECLARED = re.compile(r"Rattle\.(\w+)\.specs\.declared\.([\w.]+?)\.\w+(?:\.The\w+)?")


@dataclass(frozen=True)
class Definition:
    """A definition of a spec file, where it stands there, counted from 0, and the lines on it."""

    path: str
    name: str
    first: int
    lines: tuple[str, ...]
    comment: tuple[str, ...]
    is_type: bool

    def text(self) -> str:
        return "\n".join(self.lines)

    def link(self) -> str:
        return f"[`{self.name}`](../{self.path})"

    def said(self) -> str:
        """The first sentence of the comment above it, without the point."""
        return first_sentence(self.comment)


@dataclass(frozen=True)
class SpecFile:
    """A spec file: its first sentence, its definitions, and what its names stand for."""

    path: str
    said: str
    definitions: dict[str, Definition]
    constructors: dict[str, str]
    names: dict[str, tuple[str, str]]
    modules: dict[str, str]


def first_sentence(comment: Iterable[str]) -> str:
    """The first sentence of the lines of a comment, without its point and what it has in
    parentheses."""
    text = " ".join(line.removeprefix("--").strip() for line in comment)
    sentence = re.split(r"\.(?: |$)", text)[0]
    return re.sub(r" \([^()]*\)", "", sentence)


def module_of(path: str) -> str:
    """The name by which other files cite a spec file."""
    return "Rattle." + path.removeprefix("crates/").removesuffix(".antt").replace("/", ".")


def used_by(text: str) -> tuple[dict[str, tuple[str, str]], dict[str, str]]:
    """The names that a file takes from others, and the files that it has under a name."""
    names, modules = {}, {}
    for module, listed, alias in USE.findall(text):
        for word in filter(None, (it.strip() for it in listed.split(","))):
            name, _, own = word.partition(" as ")
            names[own or name] = (module, name)
        if alias and not listed:
            modules[alias] = module
    return names, modules


def definitions_of(path: str, lines: list[str]) -> Iterator[Definition]:
    """The definitions of a file, each up to the empty line or the comment behind it."""
    at, comment = 0, []
    while at < len(lines):
        line = lines[at]
        end = at + 1
        if line.startswith("--"):
            comment.append(line)
        elif line and not line.startswith((" ", *NO_HEAD)):
            while end < len(lines) and lines[end] and not lines[end].startswith("--"):
                end += 1
            kind, name = HEAD.match(line).groups()
            yield Definition(path, name, at, tuple(lines[at:end]), tuple(comment), bool(kind))
        if not line.startswith("--"):
            comment = []
        at = end


def read_file(tree: Tree, path: str) -> SpecFile:
    text = tree.text(path)
    lines = text.splitlines()
    head = next((at for at, line in enumerate(lines) if not line.startswith("--")), len(lines))
    found = {it.name: it for it in definitions_of(path, lines)}
    made = {at[1]: it.name for it in found.values() if it.is_type
            for at in map(CONSTRUCTOR.match, it.lines) if at and "data " in it.lines[0]}
    return SpecFile(path, first_sentence(lines[:head]), found, made, *used_by(text))


class Specs:
    """All spec files of a tree, by the names by which they are cited."""

    def __init__(self, tree: Tree) -> None:
        paths = sorted(str(path.relative_to(tree.root))
                       for path in tree.root.glob("crates/*/specs/**/*.antt"))
        self.files = {module_of(path): read_file(tree, path) for path in paths}

    def file(self, path: str) -> SpecFile:
        """The file CRATE/NAME, as `judgement/Verdict`."""
        crate, _, name = path.partition("/")
        module = f"Rattle.{crate}.specs.{name.replace('/', '.')}"
        if module not in self.files:
            raise Unreadable(f"no crate has the spec file {path}")
        return self.files[module]

    def definition(self, path: str, name: str) -> Definition:
        known = self.file(path).definitions
        if name not in known:
            raise Unreadable(f"{path} defines no `{name}`")
        return known[name]

    def named(self, module: str, name: str, seen: int = 0) -> Optional[Definition]:
        """What a name of a module stands for, where this tree defines it."""
        file = self.files.get(module)
        if file is None:
            return None
        name = file.constructors.get(name, name)
        if name in file.definitions:
            return file.definitions[name]
        is_passed_on = name in file.names and seen < len(self.files)
        return self.named(*file.names[name], seen + 1) if is_passed_on else None

    def cited_by(self, definition: Definition) -> set[Definition]:
        """The definitions of this tree whose names stand in one."""
        module = module_of(definition.path)
        file = self.files[module]
        found = set()
        for word in WORD.findall(definition.text()):
            front, _, behind = word.partition(".")
            if behind and front in file.modules:
                found.add(self.named(file.modules[front], behind))
            found |= {self.named(module, word), self.named(module, front)}
        return found - {None, definition}

    def all_below(self, roots: Iterable[Definition]) -> set[Definition]:
        """These definitions, and all that they stand on."""
        found, left = set(), list(roots)
        while left:
            definition = left.pop()
            if definition not in found:
                found.add(definition)
                left += self.cited_by(definition)
        return found

    def sources_of_types(self, definitions: Iterable[Definition]) -> set[str]:
        """The source files that declare the types which these definitions name."""
        found = set()
        for it in definitions:
            file = self.files[module_of(it.path)]
            for word in WORD.findall(it.text()):
                front = word.partition(".")[0]
                found.add(file.names.get(front, ("",))[0] or file.modules.get(front, ""))
        declared = filter(None, map(DECLARED.fullmatch, found))
        return {f"crates/{at[1]}/src/{at[2].replace('.', '/')}.rt" for at in declared}

    def names_of_std(self, definitions: Iterable[Definition]) -> set[str]:
        """The names that these definitions take from std."""
        found = set()
        for it in definitions:
            names = self.files[module_of(it.path)].names
            used = {word.partition(".")[0] for word in WORD.findall(it.text())} & names.keys()
            found |= {names[word][1] for word in used if names[word][0].startswith(STD)}
        return found


def lines_of(definitions: Iterable[Definition]) -> int:
    return sum(len(it.lines) for it in definitions)
