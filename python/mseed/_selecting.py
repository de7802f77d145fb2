"""The records of an archive that are asked for, byte for byte."""

import ctypes
import io
import re
import warnings
from datetime import datetime, timedelta, timezone
from typing import BinaryIO, Iterable, Iterator, List, NamedTuple, Optional, Tuple, Union

from mseed._library import LIBRARY, OK, TRUNCATED, WORDS, Selected, TimeWindow, fault_of
from mseed._memory import Archive, address_of, named, opened, read_from
from mseed._records import Cutter, RecordError

# A time (UTC): a datetime, which is in UTC where it says no zone; a text such as "2024-05-14T03:20"; or nanoseconds
# since 1970-01-01T00:00:00, whole microseconds.
Time = Union[datetime, str, int]

# The channels of which records are asked for: patterns, or one text of them.
Channels = Union[str, Iterable[str], None]

BAD_TIME, BAD_PATTERNS, BAD_WINDOW = 80, 81, 82
# How much of an archive is in memory at once, besides the rest of its last record.
AT_ONCE = 1 << 21
# What a code may have and a pattern may not.
OTHERS = re.compile(r"(?=[!-~])[^A-Za-z0-9*?-]")

EPOCH = datetime(1970, 1, 1, tzinfo=timezone.utc)
TEXT = re.compile(r"(\d{4})-(?:(\d{2})-(\d{2})|(\d{3}))(?:T(\d{2})(?::(\d{2})(?::(\d{2})(?:\.(\d{1,6}))?)?)?)?Z?")


class Part(NamedTuple):
    """Some bytes of an archive, and what is asked for of them."""

    code: int
    found: Selected
    records: bytes


class Asked:
    """What is asked for: records of some channels, in a window of time."""

    def __init__(self, channels: Channels, start: Optional[Time], end: Optional[Time]) -> None:
        """ValueError where a pattern, a time or the window is none."""
        self._text = _text_of(channels)
        self._window = TimeWindow(
            start=0 if start is None else micros_of("start", start), has_start=start is not None,
            end=0 if end is None else micros_of("end", end), has_end=end is not None,
        )
        self._room = ctypes.create_string_buffer(1)
        code = self.of(b"").code
        if code == BAD_PATTERNS:
            raise ValueError(f"no patterns of channels: {self._text.decode('ascii', 'replace')}")
        if code == BAD_TIME:
            raise ValueError("a time is in the years 1800 to 2199")
        if code == BAD_WINDOW:
            raise ValueError("the end isn't after the start")

    def of(self, data: bytes) -> Part:
        """What is asked for of some bytes, up to where no whole record begins."""
        found = Selected()
        if len(self._room) < len(data):
            self._room = ctypes.create_string_buffer(len(data))
        code = LIBRARY.mseed_select(address_of(data), len(data), address_of(self._text), len(self._text),
                                    ctypes.byref(self._window), self._room, len(self._room), ctypes.byref(found))
        return Part(code, found, memoryview(self._room).cast("B")[: found.length].tobytes())


class Selection(io.RawIOBase):
    """The records of an archive that are asked for, as a file of them alone, of which no more is in memory than is read
    at once."""

    def __init__(self, file: BinaryIO, asked: Asked, skip: bool) -> None:
        """Of a file from where it stands. With `skip` bytes that begin no record are passed over."""
        self.holes: List[RecordError] = []
        """What was passed over so far, with its place in the archive."""
        self.without_time = 0
        """The records of channels that are asked for whose start isn't known."""
        self._asked = asked
        self._error: Optional[RecordError] = None
        self._parts = self._around(file) if skip else self._up_to_fault(file)

    def read(self, size: int = -1) -> bytes:
        """The next records: about so many bytes, all with -1, and none at the end. RecordError, once all before it were
        read, where the archive doesn't end where a record ends."""
        some: List[bytes] = []
        length = 0
        if self._error is None:
            try:
                for part in self._parts:
                    some.append(part)
                    length += len(part)
                    if 0 <= size <= length:
                        break
            except RecordError as error:
                self._error = error
        if self._error is not None and not length:
            raise self._error
        return b"".join(some)

    def parts(self) -> Iterator[bytes]:
        """The records, some at a time."""
        return self._parts

    def warn(self, level: int) -> None:
        """Warns of records whose start isn't known, if there were some, where so many calls before this one began."""
        if self.without_time:
            warnings.warn(f"{self.without_time} records without a time", stacklevel=level + 1)

    def _taken(self, data: bytes) -> Part:
        """What is asked for of some bytes, which is counted."""
        part = self._asked.of(data)
        self.without_time += part.found.without_time
        return part

    def _up_to_fault(self, file: BinaryIO) -> Iterator[bytes]:
        """The records up to where none begins."""
        rest, chunk, offset, count = b"", b"-", 0, 0
        while chunk:
            chunk = read_from(file, AT_ONCE)
            rest += chunk
            code, found, records = self._taken(rest)
            yield records
            rest = rest[found.offset :]
            offset, count = offset + found.offset, count + found.records
            if code != OK and (code != TRUNCATED or not chunk):
                why = fault_of(code, found.needed, len(rest)) if code in WORDS else "unknown"
                raise RecordError(count + 1, offset, why)

    def _around(self, file: BinaryIO) -> Iterator[bytes]:
        """The records, those after bytes that begin none too."""
        cutter = Cutter()
        for data, spans in _spans(file, cutter):
            for begin, end in spans:
                yield self._taken(data[begin:end]).records
            self.holes += cutter.holes
            cutter.holes.clear()


def _spans(file: BinaryIO, cutter: Cutter) -> Iterator[Tuple[bytes, List[Tuple[int, int]]]]:
    """The bytes of a file, as many at once as are read at once, and where records follow one another in them."""
    rest, chunk = b"", b"-"
    while chunk:
        chunk = read_from(file, AT_ONCE)
        rest += chunk
        before = cutter.offset
        yield rest, cutter.cut(rest, not chunk).spans
        rest = rest[cutter.offset - before :]


def select(archive: Archive, *, channels: Channels = None, start: Optional[Time] = None,
           end: Optional[Time] = None) -> bytes:
    """The records of an archive that are asked for, in their order, as `mseed select` writes them: none where nothing
    is. What they hold isn't judged. `mseed.read` and `mseed.audit` take them as an archive. Besides them 2 MiB of the
    archive are in memory.

    archive: a path, bytes, or a binary file that is open.
    channels: patterns as "XX_STA__BH?" with commas between them, or a list of such: network, station, location and
    channel, where * takes any characters and ? takes one. Dots may part them too, as in a trace's `id`. Without it,
    every channel.
    start, end: a window of time (UTC), of which `end` isn't part. A record is asked for where it doesn't end before
    `start`, and begins before `end`. Each is a datetime, a text as "2024-05-14T03:20", or nanoseconds since 1970.

    RecordError where the archive doesn't end where a record ends, ValueError where a pattern, a time or the window is
    none. A warning says how many records aren't asked for since their start isn't known.
    """
    asked, out = Asked(channels, start, end), io.BytesIO()
    with opened(archive) as file:
        selection = Selection(file, asked, False)
        for records in selection.parts():
            out.write(records)
    selection.warn(2)
    # Python hands over the bytes in which it wrote them.
    return out.getvalue()


def _text_of(channels: Channels) -> bytes:
    """Patterns as one text, with underscores between their fields: none at all for every channel."""
    if channels is None:
        return b""
    each = [channels] if isinstance(channels, str) else list(channels)
    for one in each:
        if not isinstance(one, str):
            raise TypeError(f"a pattern is a str, not {named(one)}")
    if not any(each):
        raise ValueError("no patterns of channels: there is none")
    return ",".join(map(_with_underscores, each)).encode("utf-8")


def _with_underscores(text: str) -> str:
    """Patterns with underscores between their fields. Where a text is none with commas between them, it may be the one
    name of a channel that has a comma in a code."""
    each = text.split(",")
    if len(text.split(".")) == 4 and not all(len(one.split(".")) == 4 or one.count("_") == 3 for one in each):
        each = [text]
    return ",".join(map(_with_underscore, each))


def _with_underscore(pattern: str) -> str:
    """A pattern whose fields have dots between them, with underscores in their place; what a code may have and a
    pattern may not is any character there. Another pattern stays as it is."""
    fields = pattern.split(".")
    return "_".join(OTHERS.sub("?", field) for field in fields) if len(fields) == 4 else pattern


def micros_of(what: str, time: Time) -> int:
    """The microseconds from 1970-01-01T00:00:00 to a time.

    TypeError or ValueError where it is none.
    """
    if isinstance(time, datetime):
        at = time if time.tzinfo is not None else time.replace(tzinfo=timezone.utc)
        return (at - EPOCH) // timedelta(microseconds=1)
    if isinstance(time, str):
        return _micros_in(time)
    if isinstance(time, int):
        if time % 1000:
            raise ValueError(f"{what} isn't a whole number of microseconds")
        return time // 1000
    raise TypeError(f"{what} is a datetime, a str or an int, not {named(time)}")


def _micros_in(text: str) -> int:
    """The microseconds to a time that is written out. Second 60 is the next minute's first."""
    found = TEXT.fullmatch(text)
    if found is None:
        raise ValueError(f"no time: {text}")
    year, month, day, ordinal, hour, minute, second, part = found.groups()
    try:
        first = datetime(int(year), int(month or 1), int(day or 1), int(hour or 0), int(minute or 0),
                         tzinfo=timezone.utc)
        date = first + timedelta(days=int(ordinal) - 1 if ordinal else 0)
    except ValueError:
        raise ValueError(f"no time: {text}") from None
    seconds = int(second or 0)
    if not 1900 <= int(year) <= 2100 or date.year != int(year) or ordinal == "000" or seconds > 60:
        raise ValueError(f"no time: {text}")
    return (date + timedelta(seconds=seconds) - EPOCH) // timedelta(microseconds=1) + int((part or "0").ljust(6, "0"))
