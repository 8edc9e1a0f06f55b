"""Checks print jobs of PCL 5 for printers, before a sheet is printed.

    import pclcheck

    with pclcheck.Fleet.of_files("front_desk.profile", "back_office.profile") as fleet:
        verdict = fleet.check(job, name="invoice.pcl")
        if not verdict:
            print(verdict.sentence)

A job and the text of a profile are bytes. What a call cannot do it raises: an `Error`, or a
`MemoryError`. The calls are those of the library libpclcheck, which pclcheck(3) describes; the
variable PCLCHECK_LIBRARY names another file of it than libpclcheck.so.0. Needs Python 3.9.
"""

from __future__ import annotations

import ctypes
import enum
import functools
import os
import threading
from collections.abc import Mapping
from dataclasses import dataclass
from fractions import Fraction
from pathlib import Path
from types import TracebackType
from typing import Any, NamedTuple, NoReturn, Optional, Union

__all__ = ["Cause", "Error", "Fleet", "JobText", "NoPage", "PanelRefused", "ProfileRefused",
           "Session", "TooManyItems", "Unknown", "Verdict", "explain", "list_items", "notes",
           "pages", "picture", "pin", "plain", "printer_name", "version"]

_FIRST_ROOM = 4096
_FIELDS = ("size", "orientation", "vmi", "font", "copies", "sides", "tray", "lineterm")
# The library counts a VMI in ten-thousandths of 1/48 inch.
_PARTS_OF_VMI = 10000


class _Number(enum.IntEnum):
    """What calls answer."""

    DONE = 0
    ROOM = 1
    MEMORY = 2
    LONG = 3
    NO_PRINTER = 4
    STOPPED = 5
    REFUSED = 6
    NOT_ALLOWED = 7
    NO_FIELD = 8
    NO_PAGE = 9
    UNKNOWN = 10
    ITEMS = 11
    JUDGED = 12


class Cause(enum.IntEnum):
    """What is wrong with the text of a profile."""

    VERSION = 1
    UNKNOWN = 2
    REPEATED = 3
    RANGE = 4
    MISSING = 5
    NO_GEOMETRY = 6


class Error(Exception):
    """A call that gives nothing."""


class ProfileRefused(Error):
    """The text of a profile is refused.

    `number` counts the profiles of a fleet from 1, and `line` the lines of the text, where 0 is
    the text as a whole. `profile_faults` tells in words what is wrong.
    """

    def __init__(self, number: int, line: int, cause: Cause) -> None:
        super().__init__(f"profile {number}, line {line}: {cause.name}")
        self.number, self.line, self.cause = number, line, cause


class PanelRefused(Error):
    """The panel of the printer may not have a value that is chosen."""


class NoPage(Error):
    """The job does not have the page."""


class Unknown(Error):
    """Nothing has this number or name."""


class TooManyItems(Error):
    """Macros would carry out more items of the job than the fleet allows."""


@dataclass(frozen=True)
class Verdict:
    """What came of a job; it is true where nothing is wrong.

    Where the job fails, `place` counts the bytes before the failure, `printer` the printers of the
    fleet from 1, and is 0 where the bytes themselves are wrong, `page` is the page that is open
    there, of which `picture` makes a drawing, and `number` is that of the fault or finding, of
    which `explain` tells more. `sentence` is what a check says of the job.
    """

    pages: int
    marks: int
    place: int
    printer: int
    page: int
    number: int
    sentence: str = ""

    @property
    def passes(self) -> bool:
        return self.number == 0

    def __bool__(self) -> bool:
        return self.passes


class JobText(NamedTuple):
    """What is written of a job, and by what it ends too early; that of a verdict which passes says
    that it was gone through to its end. It has no counts and no page."""

    text: bytes
    verdict: Verdict


# ---- the library

class _Fleet(ctypes.Structure):
    _fields_ = [("at", ctypes.c_void_p)]


class _Session(ctypes.Structure):
    _fields_ = [("at", ctypes.c_void_p)]


class _Verdict(ctypes.Structure):
    _fields_ = [("pages", ctypes.c_uint64), ("marks", ctypes.c_uint64),
                ("place", ctypes.c_uint64), ("printer", ctypes.c_uint64),
                ("page", ctypes.c_uint64), ("number", ctypes.c_uint32)]

    def told(self, sentence: str = "") -> Verdict:
        return Verdict(self.pages, self.marks, self.place, self.printer, self.page, self.number,
                       sentence)


class _Refusal(ctypes.Structure):
    _fields_ = [("number", ctypes.c_uint64), ("line", ctypes.c_uint64),
                ("cause", ctypes.c_uint32)]


class _PanelValue(ctypes.Structure):
    _fields_ = [("field", ctypes.c_uint32), ("value", ctypes.c_uint32)]


# Numbers of printers and of pages are below it.
_BEHIND_NUMBERS = 2 ** 64
# How names have bytes that are no UTF-8, as os.fsdecode has them.
_OTHER_BYTES = "surrogateescape"
_BYTES = (ctypes.c_char_p, ctypes.c_size_t)
_TEXT = (ctypes.POINTER(ctypes.c_char), ctypes.c_size_t, ctypes.POINTER(ctypes.c_size_t))
_OF_FLEET = ctypes.POINTER(_Fleet)
_OF_SESSION = ctypes.POINTER(_Session)
_OF_VERDICT = ctypes.POINTER(_Verdict)
_OF_REFUSAL = ctypes.POINTER(_Refusal)
_VALUES = (ctypes.POINTER(_PanelValue), ctypes.c_size_t)
# The parameters of each call, as pclcheck.h has them.
_CALLS: dict[str, tuple[Any, ...]] = {
    "pclcheck_version": _TEXT,
    "pclcheck_explain": (*_BYTES, *_TEXT),
    "pclcheck_printer_name": (*_BYTES, *_TEXT),
    "pclcheck_faults": (*_BYTES, *_BYTES, *_TEXT),
    "pclcheck_fleet_new": (_OF_FLEET,),
    "pclcheck_fleet_limit": (_OF_FLEET, ctypes.c_uint64),
    "pclcheck_fleet_add": (_OF_FLEET, *_BYTES, _OF_REFUSAL),
    "pclcheck_fleet_free": (_OF_FLEET,),
    "pclcheck_check": (_OF_FLEET, ctypes.c_size_t, *_BYTES, _OF_VERDICT),
    "pclcheck_tell": (_OF_FLEET, ctypes.c_size_t, *_BYTES, *_BYTES, _OF_VERDICT, *_TEXT),
    "pclcheck_session_new": (_OF_FLEET, ctypes.c_size_t, _OF_SESSION),
    "pclcheck_session_feed": (_OF_FLEET, _OF_SESSION, *_BYTES),
    "pclcheck_session_end": (_OF_FLEET, _OF_SESSION, _OF_VERDICT),
    "pclcheck_session_tell": (_OF_FLEET, _OF_SESSION, *_BYTES, _OF_VERDICT, *_TEXT),
    "pclcheck_session_free": (_OF_SESSION,),
    "pclcheck_list": (*_BYTES, _OF_VERDICT, *_TEXT),
    "pclcheck_plain": (*_BYTES, _OF_VERDICT, *_TEXT),
    "pclcheck_notes": (*_BYTES, *_BYTES, _OF_REFUSAL, _OF_VERDICT, *_TEXT),
    "pclcheck_pages": (*_BYTES, *_BYTES, _OF_REFUSAL, _OF_VERDICT, *_TEXT),
    "pclcheck_picture": (*_BYTES, *_BYTES, ctypes.c_uint64, *_BYTES, _OF_REFUSAL, *_TEXT),
    "pclcheck_pin": (*_BYTES, *_VALUES, *_BYTES, _OF_REFUSAL, _OF_VERDICT, *_TEXT),
}


# The calls that answer nothing.
_SILENT = ("pclcheck_fleet_limit", "pclcheck_fleet_free", "pclcheck_session_free")


@functools.lru_cache(maxsize=None)
def _library() -> ctypes.CDLL:
    library = ctypes.CDLL(os.environ.get("PCLCHECK_LIBRARY", "libpclcheck.so.0"))
    for name, parameters in _CALLS.items():
        call = getattr(library, name)
        call.argtypes = parameters
        call.restype = None if name in _SILENT else ctypes.c_uint32
    return library


def _call(name: str, *words: Any) -> int:
    answer = getattr(_library(), name)(*words)
    return 0 if answer is None else int(answer)


def _fail(answer: int, refusal: Optional[_Refusal] = None) -> NoReturn:
    """Raises what an answer stands for."""
    if answer == _Number.MEMORY:
        raise MemoryError
    if answer == _Number.REFUSED and refusal is not None:
        raise ProfileRefused(refusal.number, refusal.line, Cause(refusal.cause))
    if answer == _Number.NO_PRINTER:
        raise IndexError("the fleet has no printer, or none of this number")
    if answer == _Number.NOT_ALLOWED:
        raise PanelRefused("the panel may not have a value that is chosen")
    if answer == _Number.NO_PAGE:
        raise NoPage("the job does not have this page")
    if answer == _Number.UNKNOWN:
        raise Unknown("nothing has this number or name")
    if answer == _Number.ITEMS:
        raise TooManyItems("macros would carry out more items than the fleet allows")
    raise Error(f"the library answers {_Number(answer).name}")


def _text(name: str, *words: Any, refusal: Optional[_Refusal] = None) -> bytes:
    """The text that a call puts, whose last parameters are the room for it; of the profile that it
    refuses, `refusal` tells, which is one of its words."""
    needed = ctypes.c_size_t(_FIRST_ROOM)
    answer = int(_Number.ROOM)
    while answer == _Number.ROOM:
        room = ctypes.create_string_buffer(max(needed.value, 1))
        answer = _call(name, *words, room, len(room), ctypes.byref(needed))
    if answer != _Number.DONE:
        _fail(answer, refusal)
    return room.raw[:needed.value]


def _bytes(data: bytes) -> tuple[bytes, int]:
    """The two words that stand for bytes; what is like bytes is copied, and nothing else taken."""
    kept = bytes(memoryview(data))
    return kept, len(kept)


# ---- fleets

class Fleet:
    """Printers, whose profiles are read once. A fleet may be used by several threads, one after
    another; who wants checks side by side makes a fleet for each thread."""

    def __init__(self, *profiles: bytes, most_items: Optional[int] = None) -> None:
        """A fleet of the printers that these texts describe. Checks of a job whose macros carry out
        more than so many items raise TooManyItems. Raises ProfileRefused."""
        self._held = _Fleet()
        # A session that is forgotten may be freed within another call.
        self._lock = threading.RLock()
        self._count = self._sessions = 0
        if answer := _call("pclcheck_fleet_new", ctypes.byref(self._held)):
            _fail(answer)
        if most_items is not None:
            _call("pclcheck_fleet_limit", ctypes.byref(self._held), most_items)
        try:
            for profile in profiles:
                self.add(profile)
        except BaseException:
            self.close()
            raise

    @classmethod
    def of_files(cls, *paths: Union[str, os.PathLike[str]]) -> Fleet:
        """A fleet of the printers that the texts at these paths describe."""
        return cls(*(Path(path).read_bytes() for path in paths))

    def add(self, profile: bytes) -> None:
        """Adds the printer that a text describes. Raises ProfileRefused, and then the fleet is as
        it was. While jobs come in pieces there is none added."""
        refusal = _Refusal()
        with self._lock:
            if self._sessions:
                raise ValueError("a session of the fleet is open")
            answer = _call("pclcheck_fleet_add", self._open(), *_bytes(profile),
                           ctypes.byref(refusal))
            if answer:
                _fail(answer, refusal)
            self._count += 1

    def check(self, job: bytes, name: str = "job", printer: int = 0) -> Verdict:
        """The verdict on a job for all printers, or for the one of this number, from 1, alone. The
        sentence has this name of the job."""
        if not 0 <= printer < _BEHIND_NUMBERS:
            raise IndexError(f"the fleet has no printer {printer}")
        told = _Verdict()
        with self._lock:
            text = _text("pclcheck_tell", self._open(), printer,
                         *_bytes(name.encode(errors=_OTHER_BYTES)), *_bytes(job),
                         ctypes.byref(told))
        return told.told(text.decode(errors=_OTHER_BYTES).rstrip("\n"))

    def check_each(self, job: bytes, name: str = "job") -> list[Verdict]:
        """The verdict for each printer alone. Raises IndexError where there is none."""
        if not len(self):
            raise IndexError("the fleet has no printer")
        return [self.check(job, name, number + 1) for number in range(len(self))]

    def session(self, printer: int = 0) -> Session:
        """A check of a job that comes in pieces, for all printers or the one of this number."""
        return Session(self, printer)

    def close(self) -> None:
        """Frees the fleet, which is not used any more. A second time it does nothing."""
        with self._lock:
            if self._held.at is not None:
                _call("pclcheck_fleet_free", ctypes.byref(self._held))

    def _open(self) -> Any:
        if self._held.at is None:
            raise ValueError("the fleet is closed")
        return ctypes.byref(self._held)

    def __len__(self) -> int:
        return self._count

    def __enter__(self) -> Fleet:
        return self

    def __exit__(self, kind: Optional[type[BaseException]], error: Optional[BaseException],
                 trace: Optional[TracebackType]) -> None:
        self.close()

    def __del__(self) -> None:
        if hasattr(self, "_lock"):
            self.close()


class Session:
    """A check of a job that comes in pieces, which are not kept.

        with fleet.session() as session:
            for piece in pieces:
                if session.feed(piece):
                    break
            verdict = session.end(name="invoice.pcl")
    """

    def __init__(self, fleet: Fleet, printer: int = 0) -> None:
        self._held = _Session()
        self._fleet = fleet
        with fleet._lock:
            answer = _call("pclcheck_session_new", fleet._open(), printer,
                           ctypes.byref(self._held))
            if answer:
                _fail(answer)
            fleet._sessions += 1

    def feed(self, piece: bytes) -> bool:
        """Takes the next piece, and tells whether the verdict is certain, whatever follows."""
        with self._fleet._lock:
            answer = _call("pclcheck_session_feed", self._fleet._open(), self._open(),
                           *_bytes(piece))
        if answer not in (_Number.DONE, _Number.JUDGED):
            _fail(answer)
        return answer == _Number.JUDGED

    def end(self, name: str = "job") -> Verdict:
        """The verdict on what was fed, whole; the sentence has this name of the job. A second time
        it is the same, and pieces change nothing."""
        told = _Verdict()
        with self._fleet._lock:
            text = _text("pclcheck_session_tell", self._fleet._open(), self._open(),
                         *_bytes(name.encode()), ctypes.byref(told))
        return told.told(text.decode().rstrip("\n"))

    def close(self) -> None:
        """Frees the session, which is not used any more. A second time it does nothing."""
        with self._fleet._lock:
            if self._held.at is not None:
                _call("pclcheck_session_free", ctypes.byref(self._held))
                self._fleet._sessions -= 1

    def _open(self) -> Any:
        if self._held.at is None:
            raise ValueError("the session is closed")
        return ctypes.byref(self._held)

    def __enter__(self) -> Session:
        return self

    def __exit__(self, kind: Optional[type[BaseException]], error: Optional[BaseException],
                 trace: Optional[TracebackType]) -> None:
        self.close()

    def __del__(self) -> None:
        if hasattr(self, "_fleet"):
            self.close()


# ---- texts

def version() -> str:
    """The version of the library."""
    return _text("pclcheck_version").decode()


def explain(code: Union[int, str] = "") -> str:
    """What a number or a name of a finding or a note, or a command of printers, means, as a line
    or a job has it; of `commands` the list of these, and of nothing all that findings and notes
    mean. Raises Unknown.
    """
    return _text("pclcheck_explain", *_bytes(str(code).encode())).decode()


def printer_name(profile: bytes) -> str:
    """The name that the text of a profile gives its printer, or nothing."""
    return _text("pclcheck_printer_name", *_bytes(profile)).decode(errors=_OTHER_BYTES)


def profile_faults(profile: bytes, name: str = "profile") -> str:
    """All that is wrong with the text of a profile, a line for each fault, which begins with this
    name of the text; nothing where it describes a printer."""
    return _text("pclcheck_faults", *_bytes(name.encode(errors=_OTHER_BYTES)),
                 *_bytes(profile)).decode(errors=_OTHER_BYTES)


def list_items(job: bytes) -> JobText:
    """A line for each item of a job."""
    told = _Verdict()
    text = _text("pclcheck_list", *_bytes(job), ctypes.byref(told))
    return JobText(text, told.told())


def plain(job: bytes) -> JobText:
    """The job with each item in its one spelling."""
    told = _Verdict()
    text = _text("pclcheck_plain", *_bytes(job), ctypes.byref(told))
    return JobText(text, told.told())


def notes(job: bytes, profile: bytes) -> JobText:
    """What a job leaves to the printer of a profile, a line for each note."""
    return _on_printer("pclcheck_notes", job, profile)


def pages(job: bytes, profile: bytes) -> JobText:
    """A line for each mark, and for each end of a page, of a job on the printer of a profile."""
    return _on_printer("pclcheck_pages", job, profile)


def _on_printer(name: str, job: bytes, profile: bytes) -> JobText:
    told, refusal = _Verdict(), _Refusal()
    text = _text(name, *_bytes(profile), *_bytes(job), ctypes.byref(refusal), ctypes.byref(told),
                 refusal=refusal)
    return JobText(text, told.told())


def picture(job: bytes, profile: bytes, page: Optional[int] = 1, name: str = "job") -> str:
    """The picture of a page on the printer of a profile, as SVG, or without a page all of them in a
    document of HTML. Raises NoPage."""
    if page is not None and not 1 <= page < _BEHIND_NUMBERS:
        raise ValueError("pages count from 1")
    refusal = _Refusal()
    return _text("pclcheck_picture", *_bytes(profile), *_bytes(name.encode()), page or 0,
                 *_bytes(job), ctypes.byref(refusal), refusal=refusal).decode()


def pin(job: bytes, profile: bytes,
        panel: Optional[Mapping[str, Union[int, Fraction]]] = None) -> JobText:
    """The job pinned to the panel of the printer of a profile: from its first values, but for those
    that are named, as {"size": 26, "vmi": 8}; a VMI counts in 1/48 inch. Raises PanelRefused."""
    chosen = panel or {}
    values = (_PanelValue * max(len(chosen), 1))(
        *(_PanelValue(*_value_of(field, value)) for field, value in chosen.items()))
    told, refusal = _Verdict(), _Refusal()
    text = _text("pclcheck_pin", *_bytes(profile), values, len(chosen), *_bytes(job),
                 ctypes.byref(refusal), ctypes.byref(told), refusal=refusal)
    return JobText(text, told.told())


def _value_of(field: str, value: Union[int, Fraction]) -> tuple[int, int]:
    """The numbers of a field and its value."""
    if field not in _FIELDS:
        raise PanelRefused(f"the panel has no field {field}")
    number = Fraction(value) * (_PARTS_OF_VMI if field == "vmi" else 1)
    if number.denominator != 1 or not 0 <= number < 2 ** 32:
        raise PanelRefused(f"{field} cannot be {value}")
    return _FIELDS.index(field) + 1, int(number)
