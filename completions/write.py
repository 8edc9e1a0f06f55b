#!/usr/bin/env python3
"""Writes into the completions what they repeat of the program's commands and of the panel.

    python3 completions/write.py [--check]

The commands, with what each does, are those of the rows in crates/command_line/src, in the order of
the lists of commands.rt there, and the fields of the panel those of device_profile. Each shell's
file gets its lists of them; that of zsh also a line for each command that has none and takes single
words alone, and that of fish one for each that takes a PROFILE. Options are written by hand, and
crosscheck/manual.py compares all with the program. With --check nothing is written, and the status
is 1 where a file would change.
"""

import re
import sys
from pathlib import Path

sys.dont_write_bytecode = True

FOLDER = Path(__file__).resolve().parent
sys.path.append(str(FOLDER.parent / "docs"))

import command_rows                                                    # noqa: E402

FIELDS = FOLDER.parent / "crates" / "device_profile" / "src" / "field.rt"
BASH, ZSH, FISH = FOLDER / "bash/pclcheck", FOLDER / "zsh/_pclcheck", FOLDER / "fish/pclcheck.fish"
HELP = command_rows.Row("help", "Print this message or the help of the given subcommand(s)", [])
# What zsh calls the words that commands take, and what it offers for them.
OFFERED = {"JOB": "job:_files", "OUT": "file to write:_files",
           "PROFILE": "profile:_pclcheck_profiles"}
COLUMNS = 100


def keys_of_fields():
    """The keys of the panel's fields, in their order."""
    text = FIELDS.read_text(encoding="utf-8")
    return re.findall(r'Field::\w+ => b"(\w+)"', text.partition("pub fn name")[0])


def wrapped(lead, words, inset):
    """Words behind a lead, in lines that go on at an inset."""
    lines = [lead]
    for word in words:
        if len(f"{lines[-1]} {word}") > COLUMNS:
            lines[-1] += " \\"
            lines.append(" " * (inset - 1))
        lines[-1] += f" {word}"
    return "\n".join(lines) + "\n"


def quoted(text):
    return f'"{text}"' if "'" in text else f"'{text}'"


def replaced(text, begin, end, bodies):
    """The text with these in place of what stands between each begin and the next end."""
    pattern = re.compile(rf"(?s)({begin}).*?({end})")
    if len(pattern.findall(text)) != len(bodies):
        raise SystemExit(f"write.py: `{begin}` does not stand {len(bodies)} times")
    rest = iter(bodies)
    return pattern.sub(lambda found: found[1] + next(rest) + found[2], text)


def in_bash(text, top, profile):
    names, below = (" ".join(row.name for row in rows) for rows in (top, profile))
    for begin, words in ((r"''\) echo '(?=check)", names), (r"'help'\) echo '", names),
                         (r"'profile'\) echo '", below), (r"'profile help'\) echo '", below)):
        text = replaced(text, begin, "'", [words])
    fields = "= ".join(keys_of_fields())
    return replaced(text, r"'picture --panel'\)\n            echo '", "='", [fields])


def in_zsh(text, top, profile):
    lists = ["".join(f"        {quoted(f'{name}:{about}')}\n" for name, about, _ in rows)
             for rows in (top, profile)]
    text = replaced(text, r"    commands=\(\n", r"    \)\n", lists)
    for before, rows in (("", top), ("profile-", profile)):
        for name, _, words in rows:
            if words is not None and f"\n    {before}{name})" not in text:
                offered = "".join(f" '{at}:{OFFERED[word]}'" for at, word in enumerate(words, 1))
                line = f"    {before}{name}) _arguments -s -S $help{offered} ;;\n"
                text = text.replace("    explain) _arg", line + "    explain) _arg")
    fields = [f"'{key}:value'" for key in keys_of_fields()]
    lead = "    _values -s , field"
    return replaced(text, r"\n_pclcheck_panel\(\) \{\n", r"\}", [wrapped(lead, fields, 8)])


def case_of_fish(top, profile):
    """The words of the commands, in lines."""
    words = [f" {row.name}" for row in top] + [f"profile {row.name}" for row in profile]
    return wrapped("            case", [f"'{word}'" for word in words + ["help profile"]], 16)


def in_fish(text, top, profile):
    case = r"switch \"\$found \$word\"\n"
    text = replaced(text, case, r"                set found", [case_of_fish(top, profile)])
    bodies = []
    for rows in (top, profile):
        lines = ["    complete -c pclcheck -n \"__pclcheck_at '$place'\" -f\n"]
        for name, about, _ in rows:
            line = f"    complete -c pclcheck -n \"__pclcheck_at '$place'\" -a {name}"
            told = f"-d {quoted(about)}"
            is_short = len(f"{line} {told}") <= COLUMNS
            lines.append(f"{line} {told}\n" if is_short else f"{line} \\\n        {told}\n")
        bodies.append("".join(lines))
    text = replaced(text, r"\(__pclcheck_before\)\{", r"\}=", [",".join(keys_of_fields())])
    text = replaced(text, r"\nfor place in [^\n]*(?:help|help profile')\n", r"end\n", bodies)
    for name, _, words in top:
        line = f"complete -c pclcheck -n '__pclcheck_at {name}' -a '(__pclcheck_samples)' -d sample"
        if words is not None and "PROFILE" in words and line not in text:
            text = text.rstrip("\n") + f"\n\n{line}\n"
    return text


def main():
    top, profile = ([*rows, HELP] for rows in command_rows.commands())
    changed = []
    for path, write in ((BASH, in_bash), (ZSH, in_zsh), (FISH, in_fish)):
        text = path.read_text(encoding="utf-8")
        new = write(text, top, profile)
        if new != text:
            changed.append(path)
            if "--check" not in sys.argv:
                path.write_text(new, encoding="utf-8")
    told = "is not as the code says" if "--check" in sys.argv else "is written"
    for path in changed:
        print(f"write.py: completions/{path.relative_to(FOLDER)} {told}")
    return 1 if changed and "--check" in sys.argv else 0


if __name__ == "__main__":
    sys.exit(main())
