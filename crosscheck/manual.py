"""Compares the manual pages, the completions and the version's other places with a program.

    python3 crosscheck/manual.py PROGRAM

man/pclcheck.1 has each command, option of all, exit status of `check` and line of each help in the
same words, and names no other option; what docs/make.py writes into it is not compared again. With
`-h` each command tells in fifteen lines at most what it does and how it is used; `explain` tells of
each number and each name what it tells of it among all, and of each command behind its line of the
list; man/pclcheck-profile.5 has what manual_profile.py says; each file in completions/ offers each
command and option, the fixed values of options, and no other; debian/changelog and CHANGELOG.md
begin with the program's version. Needs bash. Prints a line for each that differs, and at last `N
compared, M differ`. The exit status is 0 where M is 0, else 1.
"""

import re
import sys
from pathlib import Path
from typing import Dict, List, Tuple

sys.dont_write_bytecode = True

from completion_text import Offered, ask_bash, read_fish, read_zsh     # noqa: E402
from help_text import Command, Program, words_of                       # noqa: E402
from man_text import Section, read_page                                # noqa: E402
from manual_base import Comparison                                     # noqa: E402
from manual_profile import compare_profile_page                        # noqa: E402

ROOT = Path(__file__).resolve().parent.parent
PAGE = ROOT / "man" / "pclcheck.1"
PROFILE_PAGE = ROOT / "man" / "pclcheck-profile.5"
COMPLETIONS = ROOT / "completions"
# What -h writes has so many lines at most.
SHORT_LINES = 15
# The chapters of the table of commands.
CHAPTERS = 6


def compare_command(comparison: Comparison, command: Command, section: Section) -> None:
    """The part of the page on one command: its usage, and what it does."""
    name = command.name
    comparison.same(f"{name}: usage", section.bold[:1], [command.usage])
    comparison.holds(f"{name}: {command.about!r} is not in its part",
                     command.about in words_of(section.text))


def compare_page(comparison: Comparison, program: Program, commands: List[Command]) -> None:
    """The page of the program."""
    page = read_page(PAGE)
    titles = list(page)
    parts = titles[titles.index("COMMANDS") + 1:titles.index("VERDICTS")]
    top, *below = commands
    comparison.same("the commands of the page", parts, [one.name for one in below] + ["help"])
    comparison.same("the name", words_of(page["NAME"].text),
                    "pclcheck - " + top.about.removeprefix("A "))
    for command in below:
        compare_command(comparison, command, page.get(command.name, Section()))
    due = {re.sub("[<>]", "", option): told for option, told in top.options.items()}
    comparison.same_entries("an option of all", page["OPTIONS"], due)
    comparison.same_entries("an exit status", page["EXIT STATUS"], top.statuses)
    comparison.same("the exit statuses of check", commands[1].statuses, top.statuses)
    text = " ".join(words_of(section.text) for section in page.values())
    for command in commands:
        for cell in command.cells:
            comparison.holds(f"{command.name or 'pclcheck'}: {cell!r} is not in the page",
                             re.sub(":$", "", cell) in text)
    compare_mentions(comparison, text, commands)


def compare_short_helps(comparison: Comparison, program: Program, commands: List[Command]) -> None:
    """What `-h` tells: what the command does, and how it is used, in few lines."""
    for command in commands:
        about, blank, usage, *lines = program.output(*command.words, "-h").splitlines()
        comparison.same(f"{command.name} -h: what it does", (about, blank), (command.about, ""))
        comparison.holds(f"{command.name} -h: {usage!r} is no usage", usage.startswith("Usage:"))
        comparison.holds(f"{command.name} -h is long", len(lines) <= SHORT_LINES - 3)
        comparison.holds(f"{command.name} -h does not name the command",
                         f"pclcheck {command.name}".strip() in " ".join([usage, *lines]))


def compare_explanations(comparison: Comparison, program: Program) -> None:
    """What `explain` tells of a number or a name stands among all of them, by rising numbers."""
    parts = re.split(r"(?m)^(?=\d+ \w+$)", program.output("explain"))
    comparison.same("what stands before all explanations", parts[0], "")
    codes = [part.split("\n", 1)[0].split() for part in parts[1:]]
    numbers = [int(number) for number, _ in codes]
    comparison.same("the order of explanations", numbers, sorted(numbers))
    for part, code in zip(parts[1:], codes):
        for word in code:
            comparison.same(f"explain {word}", program.output("explain", word), part)


def compare_commands(comparison: Comparison, program: Program) -> None:
    """What `explain` tells of a command by its key, its spelling and its name is the same, behind
    its line of the list, which has each key once, by chapters, and in a chapter in their order."""
    lines = program.output("explain", "commands").splitlines()
    keys = [line.split(" ", 1)[0] for line in lines]
    comparison.same("the keys of commands", sorted(keys), sorted(set(keys)))
    turns = sum(key > behind for key, behind in zip(keys, keys[1:]))
    comparison.holds("the keys of commands are out of order", turns < CHAPTERS)
    for key, line in zip(keys, lines):
        name, _, state = line.split(" ", 1)[1].rpartition(": ")
        comparison.holds(f"{line!r} has no state", state in ("taken", "refused"))
        text = re.search(rf"{re.escape(line)}\n(?:  .*\n)+", program.output("explain", key))
        comparison.holds(f"explain {key} does not tell its line", text is not None)
        for word in (name, name[name.index("(") + 1:-1]):
            comparison.holds(f"explain {word} does not tell of {key}",
                             text is not None and text[0] in program.output("explain", word))


def compare_mentions(comparison: Comparison, text: str, commands: List[Command]) -> None:
    """Each long option that the page names somewhere is one of the program's."""
    known = {way for command in commands for way in command.short_and_long()}
    for way in sorted(set(re.findall(r"(?<![\w-])--[a-z][\w-]*", text))):
        comparison.holds(f"the page names {way}, the program not", way in known)


def offers_of(program: Program, commands: List[Command],
              values: Dict[Tuple[str, str], List[str]]) -> Dict[str, Offered]:
    """What each shell's file offers."""
    names = [command.name for command in commands]
    return {"bash": ask_bash(COMPLETIONS / "bash" / "pclcheck", program.path, names, list(values)),
            "zsh": read_zsh(COMPLETIONS / "zsh" / "_pclcheck"),
            "fish": read_fish(COMPLETIONS / "fish" / "pclcheck.fish", names)}


def compare_completions(comparison: Comparison, program: Program, commands: List[Command]) -> None:
    """The files of the shells: commands, options, what is told of them, and fixed values."""
    values = {(command.name, option): due for command in commands
              for option, due in command.values().items()}
    pin = next(command for command in commands if command.name == "pin")
    fields = re.search(r"The fields are (.*?), each", " ".join(pin.cells))
    values["pin", "--panel"] = re.split(", | and ", fields[1]) if fields else []
    for shell, offered in offers_of(program, commands, values).items():
        for command in commands:
            place = f"{shell}: {command.name or 'no command'}"
            comparison.same_words(f"{place}: options", offered.options.get(command.name, {}),
                                  command.short_and_long())
            comparison.same_words(f"{place}: commands", offered.commands.get(command.name, {}),
                                  command.commands)
        for (command, option), due in values.items():
            comparison.same(f"{shell}: {command} {option}",
                            offered.values.get((command, option)), due)


def compare_papers(comparison: Comparison, program: Program) -> None:
    """Bash offers the papers of the model that stands on the line."""
    script = COMPLETIONS / "bash" / "pclcheck"
    for model, papers in program.models().items():
        offered = ask_bash(script, program.path, [], [("profile new", "--size")], model)
        comparison.same(f"bash: papers of {model}",
                        sorted(offered.values["profile new", "--size"]), sorted(papers))


def compare_versions(comparison: Comparison, program: Program) -> None:
    """The places that repeat the version."""
    version = program.version()
    debian = (ROOT / "debian" / "changelog").read_text()
    comparison.same("the version of debian/changelog", re.findall(r"\(([^)]*)\)", debian)[:1],
                    [f"{version}-1"])
    changes = (ROOT / "CHANGELOG.md").read_text()
    comparison.same("the version of CHANGELOG.md", re.findall(r"(?m)^## ([\d.]+)", changes)[:1],
                    [version])


def main(words: List[str]) -> int:
    if len(words) != 1:
        print(__doc__.strip(), file=sys.stderr)
        return 2
    comparison, program = Comparison(), Program(words[0])
    commands = list(program.commands())
    compare_page(comparison, program, commands)
    compare_short_helps(comparison, program, commands)
    compare_explanations(comparison, program)
    compare_commands(comparison, program)
    compare_profile_page(comparison, program, PROFILE_PAGE)
    compare_completions(comparison, program, commands)
    compare_papers(comparison, program)
    compare_versions(comparison, program)
    return comparison.ended()


if __name__ == "__main__":
    sys.exit(main(sys.argv[1:]))
