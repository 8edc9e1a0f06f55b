"""What is due of a job in a run over many: what a check of that job alone says."""

import re
from dataclasses import dataclass
from typing import List, Tuple

from many_names import escaped
from many_notes import Note
from oracle import Place

VERDICT = re.compile(rb"PASS pages=(\d+) marks=(\d+)\n"
                     rb"|FAIL at=(\d+) profile=(\d+) (\d+) (\w+)(?:\((.*)\))?\n")
NO_PLACE = Place()


@dataclass(frozen=True)
class Told:
    """What is to be told of a job: its verdict, or why it has none."""
    job: bytes                                # its name
    verdict: str                              # PASS, FAIL or ERROR
    printer: bytes = b""                      # its name, where one printer is told of
    pages: int = 0
    marks: int = 0
    at: int = 0
    place: Place = NO_PLACE                   # its page, and where the cursor stood
    profile: int = 0
    code: int = 0                             # the number of what is wrong, its name,
    finding: bytes = b""
    field: bytes = b""                        # and what stands behind that in brackets
    cause: bytes = b""                        # what the system says of a read that failed
    notes: Tuple[Note, ...] = ()              # what stands below a PASS
    is_each: bool = False                     # each printer is told of by itself

    def status(self) -> int:
        return {"PASS": 0, "FAIL": 1, "ERROR": 3}[self.verdict]

    def reason(self) -> bytes:
        return b"%d %s" % (self.code, self.finding) + (b"(%s)" % self.field if self.field else b"")

    def head(self) -> bytes:
        """What stands before the name in a line."""
        printer = b" printer=" + self.printer if self.printer else b""
        if self.verdict == "PASS":
            return b"PASS pages=%d marks=%d" % (self.pages, self.marks) + printer
        if self.verdict == "FAIL":
            return b"FAIL at=%d" % self.at + printer + b" " + self.reason()
        return b"ERROR read" + printer

    def tail(self) -> bytes:
        """What stands behind it."""
        return b": " + escaped(self.cause) if self.verdict == "ERROR" else b""


def told_of(job: bytes, output: bytes, printers: List[bytes], is_each: bool) -> Told:
    """What the line of a job alone has told of it for printers of these names."""
    found = VERDICT.fullmatch(output)
    each = printers[0] if is_each else b""
    if found is None:
        return Told(job, "ERROR", each, cause=b"no line of a verdict: " + output)
    pages, marks, at, profile, code, finding, field = found.groups()
    if pages is not None:
        return Told(job, "PASS", each, pages=int(pages), marks=int(marks))
    named = printers[int(profile) - 1] if int(profile) else each
    return Told(job, "FAIL", named, at=int(at), profile=int(profile), code=int(code),
                finding=finding, field=field or b"", is_each=is_each)
