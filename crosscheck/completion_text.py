"""What the files in completions/ offer: that of bash is asked, those of zsh and fish are read."""

import re
import shlex
import subprocess
from dataclasses import dataclass, field
from pathlib import Path
from typing import Dict, Iterator, List, Optional, Tuple

# Words that are offered, each with what is told of it; nothing is told in bash.
Told = Dict[str, Optional[str]]


@dataclass
class Offered:
    """What is offered, by the words of the command that it stands behind."""
    commands: Dict[str, Told] = field(default_factory=dict)
    options: Dict[str, Told] = field(default_factory=dict)
    values: Dict[Tuple[str, str], List[str]] = field(default_factory=dict)


def lines_of(path: Path) -> List[str]:
    """The lines of a file, those that go on as one."""
    return path.read_text().replace("\\\n", "").splitlines()


def ask_bash(path: Path, program: str, commands: List[str], valued: List[Tuple[str, str]],
             model: str = "") -> Offered:
    """What the functions of bash's file say of some commands, and of some options with values."""
    def asked(*words: str) -> List[str]:
        script = f'. {shlex.quote(str(path))}; "$@"'
        ran = subprocess.run(["bash", "-c", script, "bash", *words], capture_output=True, text=True,
                             check=True)
        return ran.stdout.split()

    offered = Offered()
    for command in commands:
        offered.commands[command] = dict.fromkeys(asked("_pclcheck_commands", command))
        offered.options[command] = dict.fromkeys(asked("_pclcheck_options", command))
    for command, option in valued:
        words = asked("_pclcheck_values", program, command, option, model)
        offered.values[command, option] = [word.rstrip("=") for word in words]
    return offered


def zsh_specs(words: List[str]) -> Iterator[Tuple[List[str], str, str]]:
    """The options of a call of _arguments: their ways, what is told of them, what they take."""
    for word in words:
        spec = re.match(r"(?:\*|\([^)]*\))?(\{[^}]*\}|--[\w-]+=?)\[(.*?)\](.*)$", word)
        if spec:
            ways = [way.rstrip("+=") for way in spec[1].strip("{}").split(",")]
            yield ways, spec[2], spec[3]


def read_zsh(path: Path) -> Offered:
    """The lists of commands of zsh's file, and the options behind each command."""
    offered = Offered()
    text = "\n".join(lines_of(path))
    lists = re.findall(r"(?ms)^    commands=\(\n(.*?)^    \)", text)
    for command, rows in zip(("", "profile"), lists):
        offered.commands[command] = dict(row.split(":", 1) for row in shlex.split(rows))
    shared = shlex.split(re.search(r"(?m)^    help=\((.*)\)$", text)[1])
    branches = re.findall(r"(?ms)^    ([\w-]+)\)(.*?);;", text)
    top = re.search(r"(?ms)^    _pclcheck_level '' (.*?)$", text)[1]
    for name, body in [("", top), *branches]:
        command = re.sub("^profile-", "profile ", name)
        words = shlex.split(body)
        told = offered.options.setdefault(command, {})
        for ways, about, takes in zsh_specs(words + (shared if "$help" in words else [])):
            told.update(dict.fromkeys(ways, about))
            values = re.match(r":\w+:\((.*)\)$", takes)
            if values:
                offered.values[command, ways[-1]] = values[1].split()
    offered.values["pin", "--panel"] = re.findall(r"'(\w+):value'", text)
    return offered


def fish_lines(path: Path) -> Iterator[List[str]]:
    """The calls of complete in fish's file, those of a loop for each of its places."""
    places = [""]
    for line in lines_of(path):
        loop = re.match(r"for place in (.*)$", line)
        if loop:
            places = shlex.split(loop[1])
        elif line == "end":
            places = [""]
        elif line.lstrip().startswith("complete "):
            yield from (shlex.split(line.replace("$place", place)) for place in places)


def read_fish(path: Path, commands: List[str]) -> Offered:
    """What the calls of complete offer: commands, options and values by their place."""
    offered = Offered({name: {} for name in commands}, {name: {} for name in commands})
    for words in fish_lines(path):
        given = {word: words[at + 1] for at, word in enumerate(words[:-1]) if word.startswith("-")}
        condition = shlex.split(given.get("-n", ""))
        places = [condition[1]] if condition[0] == "__pclcheck_at" else commands
        for place in places:
            if "-l" in given:
                told = offered.options.setdefault(place, {})
                told["--" + given["-l"]] = given["-d"]
                if "-s" in given:
                    told["-" + given["-s"]] = given["-d"]
                if not given.get("-a", "(").startswith("("):
                    offered.values[place, "--" + given["-l"]] = given["-a"].split()
            elif "-d" in given and not given["-a"].startswith("("):
                offered.commands.setdefault(place, {})[given["-a"]] = given["-d"]
    fields = re.search(r"\{([\w,]+)\}=", path.read_text())
    offered.values["pin", "--panel"] = fields[1].split(",") if fields else []
    return offered
