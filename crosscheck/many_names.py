"""Random names of jobs, fleets that name printers, and names as the lines of jobs show them."""

import os
import re
from random import Random
from typing import List, Tuple

# What names are made of. The last ones are no UTF-8.
PARTS = (b"job", b"4711", b".pcl", b" ", b"  ", b"'", b'"', b"\n", b"\r", b"\t", b"\\", b"\\x41",
         b"\\n", b"-", b"--", b"-p", b"@A", b"#", b":", b"=", b"%s", b"*", b"$HOME", b"~", b"\x7f",
         b"\x01", b"\x1b[31m", b"printer=B", "ä".encode(), "漢字".encode(), "\u2028".encode(),
         b"\xff", b"\xc3")
TEXT_PARTS = PARTS[:-2]
# What makes the name of a job too long for a sentence, where it is shown.
LONG = "漢字".encode() * 30
# Characters that end a line or turn the direction of a text.
STEERING = "\u200e\u200f\u2028\u2029\u202a\u202b\u202c\u202d\u202e\u2066\u2067\u2068\u2069"
PROFILE_NAMES = ("p%d.profile", "front desk %d", "Büro %d.profile", "it's\\%d", "%d\u00a0x", "%d")


def random_name(random: Random, is_path: bool = True) -> bytes:
    """A name of a file; one in twenty is no UTF-8. It may begin as an option does."""
    parts = PARTS if is_path and random.random() < 0.05 else TEXT_PARTS
    name = b"".join(random.choice(parts) for _ in range(random.randint(1, 5)))
    if random.random() < 0.05:
        name += LONG
    return name if name != b"-" else b"--"


def escaped(name: bytes) -> bytes:
    """A name as a line shows it."""
    return b"".join(bytes([byte]) if 32 <= byte <= 126 and byte != 92 else b"\\x%02x" % byte
                    for byte in name)


def sentenced(name: bytes) -> bytes:
    """A name as a sentence shows it: the letters of a text as they are."""
    try:
        text = name.decode()
    except UnicodeDecodeError:
        return escaped(name)
    return b"".join(letter.encode() if ord(letter) >= 160 and letter not in STEERING
                    else escaped(letter.encode()) for letter in text)


def cut(text: bytes, most: int) -> bytes:
    """The last so many bytes of a text, but no part of a letter, behind points."""
    if len(text) <= most:
        return text
    end = text[-most:]
    while end and 128 <= end[0] < 192:
        end = end[1:]
    return b"..." + end


def unescaped(shown: bytes) -> bytes:
    """The name that a line shows."""
    return re.sub(rb"\\x([0-9a-f]{2})", lambda found: bytes([int(found[1], 16)]), shown)


def undone(text: str) -> bytes:
    """The name that the text of an object stands for."""
    return re.sub(rb"\\(?:x([0-9a-f]{2})|\\)", lambda found: b"\\" if found[1] is None
                  else bytes([int(found[1], 16)]), text.encode())


def fleet_text(random: Random, path: str, printers: List[str], folder: str) -> Tuple[bytes,
                                                                                     List[str]]:
    """The text of a fleet at a path, with lines between its printers, and the words that it names.

    The printers are samples, or paths as seen from a folder.
    """
    lines, words = [], []
    place = os.path.dirname(path)
    for printer in printers:
        while random.random() < 0.4:
            lines.append(random.choice(["", "#", "# @A", "  ", "\t# front desk", "#\u00e4"]))
        line = printer
        if printer[:1] != "@" and random.random() < 0.2:
            line = os.path.join(folder, printer)
        elif printer[:1] != "@":
            line = os.path.relpath(os.path.join(folder, printer), os.path.join(folder, place))
        words.append(line if printer[:1] == "@" else os.path.join(place, line))
        lines.append(random.choice(["", "", " ", "\t"]) + line + random.choice(["", "", " "]))
    end = random.choice(["\n", "\n", "\r\n"])
    return (end.join(lines) + random.choice([end, ""])).encode(), words
