"""The lines, sentences and objects of jobs, against what is due of them."""

import json
import re
from typing import Dict, List, Optional, Tuple

from kinds import BAD_VALUE, UNCHECKED, WRONG, kind_of
from many_due import Told
from many_names import cut, escaped, sentenced, undone, unescaped
from many_notes import note_text

MOST_OF_NAME, MOST_OF_CAUSE, MOST = 500, 200, 1200
PLAIN = re.compile(rb"[ -~]*")
SHOWN = re.compile("[ -~\u00a0-\U0010ffff]*")
# A sentence behind who says no: the item that a job fails at, and what is wrong in words.
REFUSED = re.compile(rb" at byte (\d+) on page \d+"
                     rb"(?:, [-\d.]+ mm from the left and [-\d.]+ mm from the top)?"
                     rb"(?:, ([ -~]+))?: ([^:]+:?) \(([^:]+)\)")
# Who says no, where it is no printer.
CLAIMS = {UNCHECKED: b"pclcheck cannot judge this job", WRONG: b"this job is wrong"}
# What is missing of a sentence or an object that is not as it should be.
NO_COMMAND = "?"
NOT_IN_PROFILE = 3
# The control codes that HP's manual has, and some that it has not, by their keys.
CONTROLS = {"x00": "NUL", "x04": "EOT", "x07": "BEL", "x08": "BS", "x09": "HT", "x0b": "VT",
            "x0e": "SO", "x0f": "SI", "x1a": "SUB"}


def line_differs(told: Told, line: bytes) -> bool:
    """Whether a line is not that of a job, by the name that its escapes stand for."""
    head, tail = told.head() + b" ", told.tail()
    if not (line.startswith(head) and line.endswith(tail) and PLAIN.fullmatch(line)):
        return True
    return unescaped(line[len(head):len(line) - len(tail)]) != told.job


def claim(told: Told, command: Optional[str]) -> bytes:
    """Who says no to a job that fails at this item."""
    kind = kind_of(told.code, command)
    if kind in CLAIMS:
        return CLAIMS[kind] + (b" for " + told.printer if told.is_each else b"")
    return (told.printer or b"each printer") + b" refuses this job"


def phrase(told: Told, command: Optional[str]) -> Tuple[bytes, bytes]:
    """What stands behind the name in the sentence of a job, up to the item that it fails at, and
    behind what is wrong in words."""
    subject = told.printer or b"each printer"
    if told.verdict == "PASS":
        return subject + b" prints this job (pages=%d marks=%d)" % (told.pages, told.marks), b""
    if told.verdict == "FAIL":
        place = b" at byte %d" % told.at + told.place.phrase().encode()
        lacked = told.place.lacked().encode()
        return claim(told, command) + place, lacked + b" (%s)" % told.reason()
    printer = b" for " + told.printer if told.printer else b""
    cause = escaped(told.cause)
    cause = cause if len(cause) <= MOST_OF_CAUSE else cause[:MOST_OF_CAUSE] + b"..."
    return b"this job cannot be read" + printer + b": " + cause, b" (ERROR read)"


def sentence_differs(told: Told, line: bytes) -> bool:
    """Whether a line is not the sentence of a job."""
    head, tail = phrase(told, command_of(told, line))
    front = cut(sentenced(told.job), MOST_OF_NAME) + b": " + head
    if not (line.startswith(front) and line.endswith(tail) and SHOWN.fullmatch(line.decode())):
        return True
    between = line[len(front):len(line) - len(tail)]
    is_bare = told.verdict != "FAIL"
    return len(line) > MOST or bool(between) == is_bare or name_differs(told, *called(told, line))


def command_of(told: Told, line: bytes) -> Optional[str]:
    """The item that a job fails at, by its sentence."""
    return called(told, line)[0]


def called(told: Told, line: bytes) -> Tuple[Optional[str], Optional[str]]:
    """The item that a job fails at and the name of what is not checked, by its sentence."""
    found = REFUSED.search(line, len(cut(sentenced(told.job), MOST_OF_NAME)))
    if found is None:
        return (NO_COMMAND if told.verdict == "FAIL" else None), None
    if found[2] is None or told.code == NOT_IN_PROFILE:
        return None, found[2] and found[2].decode()
    item, _, name = found[2].decode().partition(", ")
    return item, name or None


def name_differs(told: Told, command: Optional[str], name: Optional[str]) -> bool:
    """Whether a name is none of what is not checked, by the spelling at its end."""
    if name is None:
        return False
    spelling = re.sub("#|ESC ", "", name[name.find("(") + 1:-1])
    if told.code == BAD_VALUE:
        return command != "ESC " + spelling
    field = told.field.decode()
    bare = re.sub(r"\d", "", spelling)
    return told.code != NOT_IN_PROFILE or CONTROLS.get(field) != spelling \
        and not bare.startswith(field)


def members(line: bytes) -> Dict[str, object]:
    """The members of an object, which stand in the order of their names and close together."""
    found = json.loads(line)
    written = json.dumps(found, ensure_ascii=False, separators=(",", ":"), sort_keys=True)
    return found if written.encode() == line else {}


def due_members(told: Told, command: Optional[str], explanation: bytes) -> Dict[str, object]:
    """The members of the object of a job, but its name and the item that it fails at."""
    due = {"verdict": told.verdict}
    if told.printer:
        due["printer"] = told.printer.decode()
    if told.verdict == "PASS":
        due.update(pages=told.pages, marks=told.marks)
    elif told.verdict == "FAIL":
        due.update(at=told.at, profile=told.profile, code=told.code,
                   finding=told.finding.decode(), kind=kind_of(told.code, command))
        due.update(told.place.members())
        due.update({"field": told.field.decode()} if told.field else {})
        due.update({"explanation": explanation.decode()} if explanation else {})
    else:
        due.update(error="read", cause=told.cause.decode().replace("\\", "\\\\"))
    return due


def object_differs(told: Told, line: bytes, explanation: bytes) -> bool:
    """Whether a line is not the object of a job."""
    try:
        found = members(line)
    except ValueError:
        return True
    command = found.pop("command", None)
    if name_differs(told, command, found.pop("command_name", None)):
        return True
    name = found.pop("job", None)
    return not isinstance(name, str) or undone(name) != told.job \
        or found != due_members(told, command, explanation)


def command_in(line: bytes) -> Optional[str]:
    """The item that a job fails at, by its object."""
    try:
        return members(line).get("command")
    except ValueError:
        return NO_COMMAND


def below(told: Told, form: str, explanations: Dict[int, bytes]) -> bytes:
    """What stands below the line of a job: the explanation of what is wrong, but in an object, or
    its notes."""
    if told.verdict == "FAIL":
        return b"" if form == "json" else explanations.get(told.code, b"")
    return b"".join(note_text(form, told.job, note, explanations.get(note.code, b""))
                    for note in told.notes)


def cut_lines(output: bytes, due: List[Told], form: str,
              explanations: Dict[int, bytes]) -> List[bytes]:
    """The lines of jobs, without what stands below each."""
    lines = []
    for told in due:
        line, end, output = output.partition(b"\n")
        behind = below(told, form, explanations)
        if not end or not output.startswith(behind):
            break
        lines.append(line)
        output = output[len(behind):]
    return lines + [output] if output else lines
