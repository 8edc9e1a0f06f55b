"""Documents of many jobs, on memory, reads and writes that fail."""

import errno
import os
import re
from typing import List, Tuple

from hostile_base import MEMORY, NOTHING, STOPPED, WRITE, Due, Run, Shim, Tries, exactly
from hostile_limits import limiting
from hostile_many import ASKED, NAMES, PRINTERS, put_files
from hostile_writes import closing

FORM = ("--format", "html")
ROWS, END = b"<main>\n", b"</main>\n"
ROW = re.compile(rb"<details .*?</details>\n", re.DOTALL)
# What a row has of further readings, and what it says where these fail for want of memory. The text
# of a picture has a limit, and tells the one as the other.
NEAR, PAGE = (re.compile(rb"<%b>.*?</%b>\n" % (tag, tag), re.DOTALL) for tag in (b"pre", b"figure"))
LOST = b"<p>%b could not be had when the job was read again (ERROR memory).</p>\n"
TOO_LARGE = b"<p>The picture of the page is too large for this document; the command picture of " \
    b"pclcheck draws it.</p>\n"
CAUSE = f": {os.strerror(errno.ENOENT)} (ERROR read)".encode()


def parts_of(document: bytes) -> Tuple[bytes, List[bytes], bytes]:
    """What stands before the rows, these, and what stands behind them."""
    before, start, rest = document.partition(ROWS)
    rows, end, behind = rest.partition(END)
    return before + start, ROW.findall(rows), end + behind


def without_memory(name: str, row: bytes) -> List[bytes]:
    """What a row may be where one request was refused."""
    refused = b'<details class="error" data-printer="">\n<summary><b>ERROR</b> <span>%b: there ' \
        b"is no memory to check this job (ERROR memory)\n</span></summary>\n</details>\n"
    return [refused % name.encode(), row.replace(CAUSE, b" (ERROR read)"),
            NEAR.sub(LOST % b"The items near the place", row),
            PAGE.sub(LOST % b"The page", row), PAGE.sub(TOO_LARGE, row)]


def is_right_without(run: Run, document: bytes) -> bool:
    """Whether a run is right that was refused a request: it stopped behind whole rows, or one of
    them says what is missing."""
    before, rows, behind = parts_of(document)
    if run.status != STOPPED or run.errors not in (b"", MEMORY):
        return False
    if run.errors == MEMORY:
        return run.output in [b"", *(before + b"".join(rows[:count])
                                     for count in range(len(rows) + 1))]
    return run.output == document or any(
        run.output == before + b"".join([*rows[:place], other, *rows[place + 1:]]) + behind
        for place, name in enumerate(NAMES) for other in without_memory(name, rows[place]))


def requests_refused(tries: Tries, shim: Shim, document: bytes) -> None:
    """Each request for memory is refused in turn, by itself and with all behind it."""
    tries.kind = "documents, memory refused"
    told = 0
    for way in ({}, {"on": 1}):
        for number in range(1, 5000):
            run = shim.run([*ASKED, *FORM], request=number, **way)
            if shim.marks < 2:
                break
            told += run.output != document and not run.errors
            tries.require(is_right_without(run, document),
                          f"request {number}{' and on' if way else ''}",
                          f"status {run.status}, output {run.output!r}, errors {run.errors!r}")
    tries.require(told > 1, "rows that tell it", f"{told}")


def writes_that_fail(tries: Tries, shim: Shim, document: bytes) -> None:
    """Standard output takes so many bytes: these stand there, and the run ends."""
    tries.kind = "documents, writes that fail"
    before, rows, _ = parts_of(document)
    ends = [0, len(before), len(before) + len(rows[0]), len(document) - 1]
    for count in sorted({*ends, *range(1, len(document), 997)}):
        shim.try_(f"{count} bytes go", [*ASKED, *FORM],
                  Due((STOPPED,), exactly(document[:count]), exactly(WRITE)),
                  write=1, at=count, errno=errno.ENOSPC)


def streams(tries: Tries) -> None:
    """An output that is closed, and jobs of which each is closed before the next is opened."""
    tries.kind = "documents, streams"
    tries.try_("output closed", [*ASKED, *FORM], Due((STOPPED,), NOTHING, exactly(WRITE)),
               setup=closing((1,)))
    words = ["check", *PRINTERS, *FORM]
    before, rows, behind = parts_of(tries.run([*words, "good"]).output)
    due = before + b"".join(rows * 300) + behind
    tries.try_("300 jobs", [*words, *["good"] * 300], Due((0,), exactly(due)),
               setup=limiting(nofile=8))


def try_all(tries: Tries, shim: Shim) -> None:
    put_files(tries)
    document = tries.run([*ASKED, *FORM]).output
    tries.kind = "documents"
    tries.require(len(parts_of(document)[1]) == len(NAMES), "a row for each job", repr(document))
    if shim.missing:
        tries.skip("requests and writes that fail", shim.missing)
    else:
        requests_refused(tries, shim, document)
        writes_that_fail(tries, shim, document)
    streams(tries)
