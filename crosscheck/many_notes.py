"""The notes of a job in a run over many: as `notes` alone tells them, and as they stand below its
line."""

import json
import re
from dataclasses import dataclass
from typing import Tuple

from many_names import cut, escaped, sentenced

NOTE = re.compile(rb"(\d+) (\d+) (\w+)\n")
MOST_OF_NAME = 500
SHORT = {
    101: b"something prints, moves or sets before the first reset",
    102: b"something prints, moves or sets behind the last reset",
    103: b"the job closes no page",
    104: b"a line of the job language is printed as text",
    105: b"the orientation is set again where spacing or a margin is set",
    106: b"a column is used that is no whole number of PCL units",
    107: b"a move has a fraction of a PCL unit",
    108: b"printers before PCL 5e pass over this command",
    109: b"a raster ends before the last row of its height",
    110: b"a line feed leads past the bottom margin of a blank page",
    111: b"a tray or sides are chosen where the left margin is not 0",
    112: b"macros carry out more than a million items",
    113: b"this looks like PostScript, PDF, PCL XL or an image, and is no PCL",
}


@dataclass(frozen=True)
class Note:
    """A note at its place, and the name of the printer that it is told for."""
    at: int
    code: int
    name: bytes
    printer: bytes


def notes_in(output: bytes, printer: bytes) -> Tuple[Note, ...]:
    """The notes that `notes` has told of a job that passes."""
    if NOTE.sub(b"", output):
        raise ValueError(f"no notes: {output!r}")
    return tuple(Note(int(at), int(code), name, printer)
                 for at, code, name in NOTE.findall(output))


def note_text(form: str, job: bytes, note: Note, explanation: bytes) -> bytes:
    """What is told of a note of the job of this name, which passes and so is text."""
    words = b"%d %s" % (note.code, note.name)
    if form == "words":
        return b"%s: %s has a note at byte %d: %s (%s)\n" % (
            cut(sentenced(job), MOST_OF_NAME), note.printer, note.at, SHORT[note.code],
            words) + explanation
    if form != "json":
        return b"NOTE at=%d printer=%s %s %s\n" % (note.at, note.printer, words,
                                                   escaped(job)) + explanation
    members = {"job": job.decode().replace("\\", "\\\\"), "printer": note.printer.decode(),
               "at": note.at, "code": note.code, "note": note.name.decode()}
    if explanation:
        members["explanation"] = explanation.decode()
    return json.dumps(members, ensure_ascii=False, separators=(",", ":"),
                      sort_keys=True).encode() + b"\n"
