"""Packing traces into records."""

import ctypes
import os
from fractions import Fraction
from typing import Any, Iterable, Optional, Tuple, Union

from mseed._files import write_whole
from mseed._library import DIFFERENCE_TOO_LARGE, LIBRARY, OK, SAMPLE_TOO_LARGE, WORDS, Heading, Packed
from mseed._memory import address_in, named, samples_from, whole
from mseed._trace import Trace

ENCODINGS = {"int16": 1, "int32": 3, "steim1": 10, "steim2": 11}


class PackError(ValueError):
    """A series that can't be packed."""

    def __init__(self, reason: str, index: Optional[int] = None) -> None:
        """The reason, and the sample's index, if it is about one."""
        super().__init__(reason if index is None else f"{reason}: sample {index}")
        self.reason = reason
        """Why, in the words of the program."""
        self.index = index
        """The index of the first sample that the encoding doesn't hold, if that's why."""

    def __reduce__(self) -> Tuple[Any, ...]:
        """What it is made of anew in another process."""
        return PackError, (self.reason, self.index)


def rate_fields(rate: Union[int, float, Fraction]) -> Tuple[int, int]:
    """The factor and the multiplier of a rate in samples a second.

    ValueError where no two fields of 16 bits give it.
    """
    if not isinstance(rate, (int, float, Fraction)):
        raise TypeError(f"a rate is an int, a float or a Fraction, not {named(rate)}")
    exact = Fraction(rate) if isinstance(rate, (int, Fraction)) else Fraction(rate).limit_denominator(0x7FFF)
    if exact <= 0 or exact.numerator > 0x7FFF or exact.denominator > 0x7FFF or float(exact) != float(rate):
        raise ValueError(f"no factor and multiplier give {rate} samples a second")
    return (exact.numerator, 1) if exact.denominator == 1 else (exact.numerator, -exact.denominator)


def make(samples: Any, *, network: str, station: str, location: str = "", channel: str, start_ns: int,
         rate: Union[int, float, Fraction]) -> Trace:
    """A trace of samples that the caller has.

    samples: integers, in counts.
    network, station, location, channel: codes of up to 2, 5, 2 and 3 letters.
    start_ns: the time of the first sample in nanoseconds since 1970-01-01T00:00:00; whole microseconds.
    rate: samples a second.
    """
    if whole("start_ns", start_ns) % 1000:
        raise ValueError("the start isn't a whole number of microseconds")
    key = b""
    for code, size in ((network, 2), (station, 5), (location, 2), (channel, 3)):
        if not isinstance(code, str):
            raise TypeError(f"a code is a str, not {named(code)}")
        raw = code.encode("ascii")
        if len(raw) > size:
            raise ValueError(f"the code {code} has more than {size} letters")
        key += raw.ljust(size)
    factor, multiplier = rate_fields(rate)
    return Trace(network, station, location, channel, start_ns, factor, multiplier, samples_from(samples), 0, key)


def pack(trace: Trace, *, length: int = 512, encoding: str = "steim2", sequence: int = 1,
         leap: Optional[Tuple[int, int]] = None) -> bytes:
    """The records that a trace is packed into, one after another.

    length: that of a record in bytes: 128, 256, 512, 1024, 2048 or 4096.
    encoding: "int16", "int32", "steim1" or "steim2".
    sequence: the first record's sequence number, 0 to 999,999.
    leap: a leap second, as the number of samples before it and 1 for one that was inserted, -1 for one left out.

    PackError where it can't be packed, and why.
    """
    if not isinstance(trace, Trace):
        raise TypeError(f"what is packed is a mseed.Trace, not {named(trace)}")
    if encoding not in ENCODINGS:
        raise ValueError(f"no encoding {encoding}: it is one of {', '.join(ENCODINGS)}")
    if whole("length", length) not in (128, 256, 512, 1024, 2048, 4096):
        raise ValueError(f"no record has {length} bytes")
    if leap is not None and leap[1] not in (1, -1):
        raise ValueError("a leap second is 1 or -1")
    if leap is not None and not 0 < leap[0] <= len(trace.samples):
        raise ValueError(f"a leap second has 1 to {len(trace.samples)} samples before it, not {leap[0]}")
    if not 0 <= whole("sequence", sequence) <= 999_999:
        raise ValueError("a sequence number is 0 to 999,999")
    if trace.start_ns % 1000:
        raise ValueError("the start isn't a whole number of microseconds")
    samples = samples_from(trace.samples)
    count = len(samples)
    heading = Heading(
        start=trace.start_ns // 1000, leap_after=leap[0] if leap else 0, sequence=sequence, length=length,
        factor=trace.factor, multiplier=trace.multiplier, encoding=ENCODINGS[encoding],
        leap={None: 0, 1: 1, -1: 2}[leap[1] if leap else None], key=trace.key,
    )
    packed = Packed()
    # Few records more than most series need; where that isn't enough, the first try says how many there are.
    room = (4 * count // (length - 64) + 2) * length
    place = address_in(samples, 0) if count else address_in(samples_from([0]), 0)
    while True:
        records = ctypes.create_string_buffer(room)
        code = LIBRARY.mseed_pack(ctypes.byref(heading), place, count, records, room, ctypes.byref(packed))
        if code in (SAMPLE_TOO_LARGE, DIFFERENCE_TOO_LARGE):
            raise PackError(WORDS[code], packed.index)
        if code != OK:
            raise PackError(WORDS.get(code, "unknown"))
        size = packed.records * length
        if size <= room:
            return records.raw[:size]
        room = size


def write(path: Union[str, "os.PathLike[str]"], traces: Union[Trace, Iterable[Trace]], *, length: int = 512,
          encoding: str = "steim2", sequence: int = 1) -> int:
    """Writes traces to a file, one after another, as pack packs them, and returns how many records there are. Nothing
    is written where one of them can't be packed.

    path: a file that is there already has its old content or the new one, whenever it is read, and keeps its mode;
    of a symbolic link it is the link's target. What is no file, as a FIFO or a device, is written into.
    """
    if not isinstance(path, (str, os.PathLike)):
        raise TypeError(f"a path is a str or an os.PathLike, not {named(path)}")
    if not isinstance(traces, (Trace, Iterable)):
        raise TypeError(f"what is written is a mseed.Trace, or some of them, not {named(traces)}")
    each = [traces] if isinstance(traces, Trace) else list(traces)
    records = [pack(trace, length=length, encoding=encoding, sequence=sequence) for trace in each]
    write_whole(os.fspath(path), records)
    return sum(len(part) for part in records) // length
