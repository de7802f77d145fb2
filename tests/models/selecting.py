"""Records that are asked for, in Python, from docs/format.md and docs/texts.md alone: patterns and times as texts, what
`select` writes, and what an audit, a list and packings say of these records; and in which file a fault lies."""

from __future__ import annotations

import datetime
import functools
import re
from fractions import Fraction
from typing import NamedTuple, Optional, Sequence

from models.auditing import (Channel, Record, audited, by_channel, codes_of, cut, name_of, numbered, repacked,
                             start_of)
from models.packing import EPOCH, SECOND
from models.stretches import restretched_channels

FIELD = re.compile(r"[A-Za-z0-9*?-]*")
TIME = re.compile(r"(\d{4})-(?:(\d{2})-(\d{2})|(\d{3}))(?:T(\d{2})(?::(\d{2})(?::(\d{2})(?:\.(\d{1,6}))?)?)?)?Z?",
                  re.ASCII)


def patterns_of(word: str) -> Optional[list[list[str]]]:
    """The four fields of each pattern; nothing where the word isn't patterns."""
    patterns = [pattern.split("_") for pattern in word.split(",")]
    are_good = all(len(fields) == 4 and all(FIELD.fullmatch(field) for field in fields) for fields in patterns)
    return patterns if are_good else None


@functools.lru_cache(maxsize=4096)
def fits(field: str, code: str) -> bool:
    """Whether a field of a pattern takes the whole of a code."""
    wanted = "".join({"*": ".*", "?": "."}.get(character, re.escape(character)) for character in field)
    return re.fullmatch(wanted, code, re.DOTALL) is not None


def matches(fields: Sequence[str], key: bytes) -> bool:
    """Whether a pattern matches a channel."""
    codes = codes_of(key)
    return all(fits(field, code) or at == 2 and field == "--" and not code
               for at, (field, code) in enumerate(zip(fields, codes)))


def instant_of(word: str) -> Optional[int]:
    """The instant of a time, what is left out being its first; nothing where the word isn't one."""
    found = TIME.fullmatch(word)
    if not found:
        return None
    year, month, day, of_year, hour, minute, second = (int(digits or 0) for digits in found.groups()[:7])
    try:
        if found[2]:
            date = datetime.date(year, month, day)
        else:
            date = datetime.date(year, 1, 1) + datetime.timedelta(days=of_year - 1)
    except (ValueError, OverflowError):
        return None
    if not 1900 <= year <= 2100 or date.year != year or hour > 23 or minute > 59 or second > 60:
        return None
    days = (date - EPOCH.date()).days
    return (((days * 24 + hour) * 60 + minute) * 60 + second) * SECOND + int((found[8] or "").ljust(6, "0"))


class Selection(NamedTuple):
    """What is asked for, by the words of the three options; without a word nothing is bounded."""

    channels: Optional[str] = None
    start: Optional[str] = None
    end: Optional[str] = None

    def words(self) -> list[str]:
        """The options."""
        options = [("--channels", self.channels), ("--from", self.start), ("--until", self.end)]
        return [f"{option}={word}" for option, word in options if word is not None]

    def bounds(self) -> tuple[Optional[int], Optional[int]]:
        """The instants of the window."""
        start, end = (None if word is None else instant_of(word) for word in (self.start, self.end))
        return start, end

    def is_good(self) -> bool:
        """Whether the arguments mean something, and the window's end is after its beginning."""
        if self.channels is not None and patterns_of(self.channels) is None:
            return False
        start, end = self.bounds()
        if (start is None) != (self.start is None) or (end is None) != (self.end is None):
            return False
        return start is None or end is None or start < end

    def is_of_channel(self, record: Record) -> bool:
        """Whether a record is of a channel that is asked for."""
        return self.channels is None or any(matches(fields, record.key) for fields in patterns_of(self.channels))

    def lacks_time(self, record: Record) -> bool:
        """Whether nobody can say if a record of such a channel is in the window."""
        is_bounded = self.start is not None or self.end is not None
        return is_bounded and isinstance(record.start(), str) and self.is_of_channel(record)

    def asks_for(self, record: Record) -> bool:
        """Whether a record is asked for."""
        if not self.is_of_channel(record) or self.lacks_time(record):
            return False
        start, end = self.bounds()
        return (start is None or last_of(record) >= start) and (end is None or record.start() < end)


def last_of(record: Record) -> Fraction:
    """The instant of a record's last sample, or its start where it has no sample or no rate."""
    rate = record.rate()
    if rate is None or record.count == 0:
        return Fraction(record.start())
    return record.start() + Fraction((record.count - 1) * rate[1] * SECOND, rate[0])


class Selected(NamedTuple):
    """The records that are asked for, how many lack a time, and how the input ended."""

    records: Channel
    untimed: int
    end: int
    fault: Optional[str]

    def errors(self, lines: bytes = b"") -> bytes:
        """What stands on standard error: how many records lack a time, and these lines."""
        return (f"mseed: {self.untimed} records without a time\n".encode() if self.untimed else b"") + lines


def chosen(archive: bytes, selection: Selection) -> Selected:
    """The records of an archive that are asked for."""
    records, end, fault = cut(archive)
    asked = [one for one in numbered(records) if selection.asks_for(one[2])]
    return Selected(asked, sum(selection.lacks_time(record) for _, record in records), end, fault)


# What came of a run: the output, the standard error, and the status.
Ended = tuple[bytes, bytes, int]


def select(archive: bytes, selection: Selection = Selection()) -> Ended:
    """The records that are asked for, as they are."""
    found = chosen(archive, selection)
    errors = f"mseed: fault at {found.end} {found.fault}\n".encode() if found.fault else b""
    return b"".join(record.bytes for _, _, record in found.records), found.errors(errors), 2 if found.fault else 0


def audit(archive: bytes, selection: Selection = Selection(), each: bool = False) -> Ended:
    """Their audit, or one that reports each finding."""
    found = chosen(archive, selection)
    text, status = audited(found.records, found.end, found.fault, each)
    return text, found.errors(), status


def show(archive: bytes, selection: Selection = Selection()) -> Ended:
    """Their list."""
    found = chosen(archive, selection)
    lines = [line_of(offset, record) for _, offset, record in found.records] + [f"records {len(found.records)}"]
    lines += [f"fault at {found.end} {found.fault}"] if found.fault else []
    return "".join(line + "\n" for line in lines).encode(), found.errors(), 2 if found.fault else 0


def line_of(offset: int, record: Record) -> str:
    """The line of a record in a list."""
    rate = record.rate()
    return " ".join([
        f"{offset} {name_of(record.key)} {chr(record.bytes[6])} length {len(record.bytes)} samples {record.count}",
        f"start {start_of(record.start())} rate {'{}/{}'.format(*rate) if rate else 'none'}",
        f"encoding {record.encoding} {'big' if record.is_big else 'little'}",
        *["blockette100"] * record.has_rate])


def repack(archive: bytes, selection: Selection = Selection(), stretches: bool = False, leave: bool = False) -> Ended:
    """Packing their channels anew into Steim-2, 512 bytes a record. Of an archive with a fault nothing is taken, but how
    many records before it lack a time is reported."""
    found = chosen(archive, selection)
    if found.fault:
        return b"", found.errors(f"mseed: fault at {found.end} {found.fault}\n".encode()), 2
    channels = by_channel(found.records)
    output, errors, status = restretched_channels(channels, leave=leave) if stretches else repacked(channels)
    return output, found.errors(errors), status


def place_of(offset: int, sizes: Sequence[int]) -> tuple[int, int]:
    """In which of the files with these sizes a byte of the input lies, and where in it."""
    for at, size in enumerate(sizes):
        if offset < size:
            return at, offset
        offset -= size
    raise ValueError("after the last file")


def fault_place(archive: bytes, sizes: Sequence[int]) -> Optional[tuple[int, int]]:
    """Which of the files with these sizes has the archive's fault, and where in it: the file in which its offset lies,
    or, where the record before it reaches over the end of the file in which it begins, that file and record."""
    records, end, fault = cut(archive)
    if not fault:
        return None
    place = place_of(end, sizes)
    if not records:
        return place
    before = place_of(records[-1][0], sizes)
    return before if before[0] != place_of(end - 1, sizes)[0] else place


def fault_line(archive: bytes, files: Sequence[tuple[bytes, int]]) -> bytes:
    """The line of an archive's fault, by the arguments and the sizes of its files."""
    place = fault_place(archive, [size for _, size in files])
    if place is None:
        return b""
    word = bytes(b if 32 <= b <= 126 else ord("?") for b in files[place[0]][0])
    return b"mseed: fault in " + word + b" at %d\n" % place[1]
