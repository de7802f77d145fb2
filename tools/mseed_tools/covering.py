"""The days of which a file has records of its channel, and the time that these cover."""

from __future__ import annotations

import datetime
import os
from fractions import Fraction
from typing import Iterable, Iterator, NamedTuple, Optional, Sequence, Union

from mseed_tools.instants import DAY, EPOCH, SECOND, day_at, micros_of
from mseed_tools.program import Program
from mseed_tools.texts import CHANNEL, STEPS, Found, Kept, Shown, shown_in

# The years in which the program takes a day, and the one after it, as times.
YEARS = range(1900, 2100)
# What is found of a record of which the record before it says where it is due.
BREAKS = ("gap", "overlap")


# Microseconds, exactly.
Micros = Union[int, Fraction]


class Span(NamedTuple):
    """Records of which each begins where the one before it ends: from their first sample to the end of the last, in
    microseconds, and half of a sample period. An end may lie between two microseconds."""

    begin: int
    end: Micros
    half: Micros


class Covered(NamedTuple):
    """The days of some records, ascending, and the time that they cover."""

    days: list[datetime.date]
    spans: list[Span]


class Dated(NamedTuple):
    """The day of a file. A record in it is of that day where any of its samples is, so that one that begins before
    midnight and runs over it is. A leap second stands in the first second after the day: a record that begins there is
    of the day too. Any other record is of the day in which it begins."""

    day: datetime.date

    @property
    def begin(self) -> int:
        """The first instant of the day."""
        return (self.day - EPOCH.date()).days * DAY

    @property
    def end(self) -> int:
        """Where records of later days begin."""
        return self.begin + DAY + SECOND

    def day_of(self, record: Shown) -> Optional[datetime.date]:
        """The day of a record, where its start is known."""
        start = micros_of(record.start)
        if start is None or self.begin <= start < self.end:
            return None if start is None else self.day
        last = start + lasting(record.samples - 1, record.rate)
        return self.day if start < self.end and last >= self.begin else day_at(start)


def lasting(samples: int, rate: Optional[Fraction]) -> Micros:
    """How long so many sample periods last; nothing without a rate. It is a whole number, which is quick, if it can be
    one."""
    if not rate:
        return 0
    whole, rest = divmod(samples * rate.denominator * SECOND, rate.numerator)
    return whole + Fraction(rest, rate.numerator) if rest else whole


def merged(spans: Iterable[Span]) -> list[Span]:
    """Spans by time, as few as there can be: those with no more than half a sample period between them are one."""
    found: list[Span] = []
    for span in sorted(spans):
        if not found or span.begin - found[-1].end > found[-1].half:
            found.append(span)
        elif span.end >= found[-1].end:
            found[-1] = span._replace(begin=found[-1].begin)
    return found


def absent(spans: Sequence[Span]) -> int:
    """The microseconds between merged spans."""
    return sum(int(after.begin - before.end) for before, after in zip(spans, spans[1:]))


def half_of(rate: Optional[Fraction]) -> Micros:
    """Half of a sample period."""
    return lasting(1, 2 * rate) if rate else 0


def tail_of(kept: Kept) -> Optional[tuple[int, Micros, Micros]]:
    """Where the last record of a channel begins and ends, with the leap second that it has after it, and half of its
    sample period; nothing where its time or rate isn't known."""
    line = CHANNEL.match(kept.line)
    if line is None or not line["last"]:
        return None
    rate, last = Fraction(int(line["num"]), int(line["den"])), int(line["last"])
    return last, last + STEPS[line["leap"]] + lasting(int(line["held"]), rate), half_of(rate)


def plain_spans(start: int, end: Micros, half: Micros, found: Sequence[Found]) -> list[Span]:
    """The spans of a channel, from its first sample to the end of its last, of which nothing is found but gaps and
    overlaps."""
    begins = [start, *(micros_of(one.start) or 0 for one in found)]
    ends = [*(due_at(begin, one) for begin, one in zip(begins[1:], found)), end]
    return [Span(begin, end, half) for begin, end in zip(begins, ends)]


def due_at(start: int, found: Found) -> int:
    """Where a record was due that begins late or early."""
    return start - (found.micros("gap") or 0) + (found.micros("overlap") or 0)


class OwnPiece(NamedTuple):
    """What the program keeps of a channel from an offset of a file on, by each key that has its name, and what it finds
    of it."""

    at: int
    kept: list[Kept]
    found: list[Found]

    def is_single(self) -> bool:
        """Whether one key alone has the channel's name."""
        return len(self.kept) == 1

    def is_plain(self) -> bool:
        """Whether the spans can be told by what is found."""
        return self.is_single() and all(one.why.split()[0] in BREAKS for one in self.found)


def listed_spans(records: Sequence[Shown], piece: OwnPiece) -> Iterator[Span]:
    """A span for each record. Of a channel of one key, a record of which none, or a gap or an overlap, is found says
    where the one before it ends, which may have a leap second after it; so does the tail of the last one."""
    found = {one.offset: one for one in piece.found}
    tail = tail_of(piece.kept[0]) if piece.is_single() else None
    for record, after in zip(records, [*records[1:], None]):
        start, rate = micros_of(record.start), record.rate
        if start is None:
            continue
        end = start + lasting(record.samples, rate)
        if after is None:
            end = tail[1] if tail and rate else end
        elif piece.is_single() and rate:
            one, then = found.get(after.offset), micros_of(after.start)
            if then is not None and (one is None or one.why.split()[0] in BREAKS):
                end = then if one is None else due_at(then, one)
        yield Span(start, end, half_of(rate))


class Listing:
    """The records of a channel in a file, as the program lists them."""

    def __init__(self, program: Program, file: int, name: str):
        self.program, self.file, self.name = program, file, name

    def records(self, at: int, *window: str) -> list[Shown]:
        """Those with samples from an offset on, in a window of time where one is given."""
        os.lseek(self.file, at, os.SEEK_SET)
        text = self.program.run(["show", *window], self.file).out
        return [record for record in shown_in(text) if record.name == self.name and record.samples]


def covered_by(listing: Listing, pieces: Iterable[OwnPiece], day: datetime.date) -> Covered:
    """What the records of a channel cover in the file of a day. The records are listed where what is found of them
    doesn't say it."""
    dated, days, spans = Dated(day), set(), []
    for piece in pieces:
        start, tail = piece.kept[0].start, tail_of(piece.kept[0])
        if piece.is_plain() and start is not None and tail is not None and day.year in YEARS:
            last, end, half = tail
            some = plain_spans(start, end, half, piece.found)
            days |= plain_days(listing, piece, dated, some, last)
            spans += some
        else:
            records = listing.records(piece.at)
            days |= {one for one in map(dated.day_of, records) if one is not None}
            spans += listed_spans(records, piece)
    return Covered(sorted(days), merged(spans))


def plain_days(listing: Listing, piece: OwnPiece, dated: Dated, spans: Sequence[Span], last: int) -> set[datetime.date]:
    """The days of the records of these spans, of which the last begins there. Only those that begin before the file's
    day, or after it, are listed."""
    ends = [*(span.end for span in spans[:-1]), last + 1]
    others: list[Shown] = []
    if min(span.begin for span in spans) < dated.begin:
        others += listing.records(piece.at, "--until", dated.day.isoformat())
    if max(ends) > dated.end:
        after = (dated.day + datetime.timedelta(days=1)).isoformat()
        others += [record for record in listing.records(piece.at, "--from", after)
                   if (micros_of(record.start) or 0) >= dated.end]
    days = {dated.day_of(record) or dated.day for record in others}
    return days | ({dated.day} if len(others) < piece.kept[0].records else set())
