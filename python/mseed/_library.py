"""The shared library, as ctypes sees it: what include/mseed.h declares."""

import ctypes
import os
from ctypes import POINTER, c_char, c_int16, c_int64, c_size_t, c_uint8, c_uint16, c_uint32, c_uint64, c_void_p
from pathlib import Path
from typing import Any, Iterator

NAME = "libmseed_c.so"

OK, BROKEN, FAULT, NO_MEMORY, NO_ROW, NO_ROOM, TRUNCATED = range(7)
LENGTH = 20
SAMPLE_TOO_LARGE, DIFFERENCE_TOO_LARGE = 51, 52

# The words of mseed_why.
WORDS = {
    0: "ok", 1: "broken", 2: "fault", 3: "no memory", 4: "no row left", 5: "no room", 6: "truncated",
    16: "notdata", 17: "order", 18: "chain", 19: "no1000", 20: "length", 21: "outside", 22: "version3",
    32: "blockette100", 33: "encoding", 34: "littlesteim", 35: "dataoffset", 36: "short", 37: "badword", 38: "overflow",
    39: "lastdiffers",
    48: "does not fit 1", 49: "does not fit 2", 50: "does not fit 3", 51: "does not fit 4", 52: "does not fit 5",
    64: "bad length", 65: "bad encoding", 66: "bad sequence number", 67: "bad rate", 68: "bad start",
    69: "bad leap second", 80: "bad time", 81: "bad patterns", 82: "bad window",
}


class Totals(ctypes.Structure):
    """What an audit says in numbers."""

    _fields_ = [("records", c_uint64), ("channels", c_uint64), ("broken", c_uint64), ("length", c_uint64)]


class Row(ctypes.Structure):
    """One record of an archive."""

    _fields_ = [
        ("offset", c_uint64), ("length", c_uint64), ("first", c_uint64), ("samples", c_uint64), ("start", c_int64),
        ("num", c_uint32), ("den", c_uint32), ("code", c_uint32), ("factor", c_int16), ("multiplier", c_int16),
        ("encoding", c_uint8), ("quality", c_uint8), ("time", c_uint8), ("leap", c_uint8), ("key", c_uint8 * 12),
    ]


class Progress(ctypes.Structure):
    """How far an archive was read."""

    _fields_ = [("rows", c_uint64), ("offset", c_uint64), ("filled", c_uint64), ("needed", c_uint64)]


class Heading(ctypes.Structure):
    """What a series has besides its samples, and how it is packed."""

    _fields_ = [
        ("start", c_int64), ("leap_after", c_uint64), ("sequence", c_uint32), ("length", c_uint16),
        ("factor", c_int16), ("multiplier", c_int16), ("encoding", c_uint8), ("leap", c_uint8), ("key", c_char * 12),
    ]


class Packed(ctypes.Structure):
    """What packing came to."""

    _fields_ = [("records", c_uint64), ("index", c_uint64)]


class TimeWindow(ctypes.Structure):
    """A window of time."""

    _fields_ = [("start", c_int64), ("end", c_int64), ("has_start", c_uint8), ("has_end", c_uint8)]


class Selected(ctypes.Structure):
    """What a selection came to."""

    _fields_ = [
        ("records", c_uint64), ("asked_for", c_uint64), ("without_time", c_uint64), ("length", c_uint64),
        ("offset", c_uint64), ("needed", c_uint64),
    ]


def _places() -> Iterator[str]:
    """Where the library is looked for: MSEED_LIBRARY, the package, the folders lib above it, and the system's."""
    named = os.environ.get("MSEED_LIBRARY")
    if named:
        yield named
        return
    here = Path(__file__).resolve().parent
    yield str(here / NAME)
    for above in here.parents:
        if above.name == "lib":
            yield str(above / NAME)
    yield str(here.parents[1] / "crates" / "mseed_c" / "out" / "lib" / NAME)
    yield NAME


_TEXT = [c_void_p, c_size_t, c_void_p, c_size_t, POINTER(Totals)]
_CALLS = {
    "mseed_audit": _TEXT,
    "mseed_audit_each": _TEXT,
    "mseed_part": _TEXT,
    "mseed_rows": [c_void_p, c_size_t, c_size_t, c_void_p, c_size_t, POINTER(Progress)],
    "mseed_read": [c_void_p, c_size_t, c_size_t, c_void_p, c_size_t, c_void_p, c_size_t, POINTER(Progress)],
    "mseed_pack": [POINTER(Heading), c_void_p, c_size_t, c_void_p, c_size_t, POINTER(Packed)],
    "mseed_select": [c_void_p, c_size_t, c_void_p, c_size_t, POINTER(TimeWindow), c_void_p, c_size_t,
                     POINTER(Selected)],
}


def _load() -> ctypes.CDLL:
    """The library, with the types of its calls."""
    refused = []
    for place in _places():
        if os.sep in place and not os.path.exists(place):
            continue
        try:
            library = ctypes.CDLL(place)
        except OSError as error:
            refused.append(str(error))
            continue
        break
    else:
        why = "".join(f"; {reason}" for reason in refused)
        raise ImportError(f"{NAME} isn't found: 'make lib' builds it, and MSEED_LIBRARY may name it{why}")
    for name, types in _CALLS.items():
        call = getattr(library, name)
        call.argtypes, call.restype = types, c_uint32
    return library


class _Library:
    """The calls of the library, which is loaded at the first of them.

    ImportError where it isn't found.
    """

    def __getattr__(self, name: str) -> Any:
        if name not in _CALLS:
            raise AttributeError(name)
        library = _load()
        self.path = library._name
        for call in _CALLS:
            setattr(self, call, getattr(library, call))
        return getattr(library, name)


LIBRARY = _Library()


def fault_of(code: int, needed: int, there: int) -> str:
    """Why no record begins at a place, in the words of the program: with how much is needed, and how much is there."""
    words = WORDS[code]
    return f"{words} {needed}" if code == LENGTH else f"{words} {there}" if code == TRUNCATED else words
