"""The worked examples: their tables, and what their short forms stand for.

A row is (command, profiles, job, what is printed) and, for `plain` and `pin`, what is
written. In jobs and in what is written `^` is ESC, `\\r \\n \\f \\t \\xNN` are bytes,
`<81:A>` is 81 times `A`, and `<B>` and `<C>` stand for the commands by which `pin` sets
the whole panel of B and of C. Printed lines are parted by ` | `, and `P1` is the line of
a page with the first values of B.

A profile is a sample's letter (or E, G, H, K, M, made of B below) and changes of its
text, parted by ` | `: a line stands in place of the line of its key (and of its size and
orientation, or its id), `+LINE` is added, `-KEY` is taken away, `N=LINE` stands in place
of line N and before all for N = 0, and `!word` is one of the changes named in CHANGES.
A fleet's profiles are parted by ` & `.
"""

import re

import rows_fleet
import rows_frame
import rows_macro
import rows_page
import rows_profile
import rows_syntax
from samples import SAMPLES

TABLES = (rows_syntax, rows_frame, rows_profile, rows_page, rows_macro, rows_fleet)

PANEL = "^&l2A^&l0O^&l1X^&l0S^&l1H^&l%dC^(10U^(s0P^(s10H^(s12V^(s0S^(s0B^(s3T^&k0G"

FROM_B = {
    "E": ["name E", "face 1 10U 10 12 0 0 3 720 900 300 66-126"],
    "G": ["name G", "geometry 2 0 61200 79200 1860 0 57600 79200 1200 1200 60000 78000"],
    "H": ["name H", "depth 8"],
    "K": ["1=pclprofile 2", "name K", "+lineterm 0 2"],
    "M": ["!many"],
}


def add_faces(text: bytes, count: int) -> bytes:
    rows = [b"face %d 10U 10 12 0 0 %d 720 900 300 33-126\n" % (number, number + 100)
            for number in range(3, count + 1)]
    return text + b"".join(rows)


def many_panels(text: bytes) -> bytes:
    """16 sizes, VMIs, fonts, copies and trays, 4 orientations, 3 kinds of sides."""
    numbers = " ".join(str(number) for number in range(1, 17)).encode()
    lines = [line for line in text.split(b"\n") if not line.startswith(b"geometry")]
    for key in (b"size", b"vmi", b"font", b"copies", b"tray", b"trays"):
        lines = [key + b" " + numbers if line.split()[:1] == [key] else line
                 for line in lines]
    lines = [{b"orientation 0": b"orientation 0 1 2 3", b"sides 0": b"sides 0 1 2"}
             .get(line, line) for line in lines]
    shape = b"61200 79200 1800 0 57600 79200 1200 1200 60000 78000"
    rows = [b"geometry %d %d %s\n" % (size, orientation, shape)
            for size in range(1, 17) for orientation in range(4)]
    return add_faces(b"\n".join(lines) + b"".join(rows), 16)


CHANGES = {
    "crlf": lambda text: text.replace(b"\n", b"\r\n"),
    "cut": lambda text: text[:-2] if text.endswith(b"\r\n") else text[:-1],
    "cr": lambda text: text[:-1] + b"\r",
    "empty": lambda text: b"",
    "faces 64": lambda text: add_faces(text, 64),
    "faces 65": lambda text: add_faces(text, 65),
    "many": many_panels,
}
KEY_WORDS = {b"geometry": 3, b"face": 2}


def unescape(text: str) -> bytes:
    for letter, vmi in (("B", 8), ("C", 6)):
        text = text.replace(f"<{letter}>", PANEL % vmi)
    text = re.sub(r"<(\d+):(.*?)>", lambda m: m[2] * int(m[1]), text, flags=re.DOTALL)
    plain = {"r": "\r", "n": "\n", "f": "\f", "t": "\t"}
    text = text.replace("^", "\x1b")
    text = re.sub(r"\\(x[0-9a-f]{2}|[rnft])",
                  lambda m: plain.get(m[1]) or chr(int(m[1][1:], 16)), text)
    return text.encode("latin-1")


def changed(text: bytes, change: str) -> bytes:
    if change.startswith("!"):
        return CHANGES[change[1:]](text)
    line = unescape(change.lstrip("+"))
    if change.startswith("+"):
        return text + line + b"\n"
    lines = text.split(b"\n")
    numbered = re.match(r"(\d+)=", change)
    if numbered:
        number = int(numbered[1])
        body = line[len(numbered[0]):]
        return b"\n".join([body] + lines if number == 0
                          else lines[:number - 1] + [body] + lines[number:])
    if change.startswith("-"):
        return b"\n".join(old for old in lines if old.split()[:1] != [line[1:]])
    count = KEY_WORDS.get(line.split()[0], 1)
    head = line.split()[:count]
    return b"\n".join(line if old.split()[:count] == head else old for old in lines)


def profile_text(spec: str) -> bytes:
    base, *changes = re.split(r" *\| ", spec)
    if base in FROM_B:
        changes = FROM_B[base] + changes
        base = "B"
    text = SAMPLES["@" + base].encode()
    for change in changes:
        text = changed(text, change)
    return text
