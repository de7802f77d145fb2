"""Gaps and overlaps, with the samples before and after them."""

from __future__ import annotations

from fractions import Fraction
from typing import Iterator, NamedTuple

from mseed_tools.sources import Source
from mseed_tools.instants import SECOND, micros_of, seconds_of, time_of

HEADS = ("source", "last sample", "next sample", "delta", "samples")


class Break(NamedTuple):
    """A gap, or an overlap where the delta is below 0; times and the delta in microseconds."""

    source: str
    last_sample: int
    next_sample: int
    delta: int
    samples: int


def breaks_of(source: Source) -> Iterator[Break]:
    """The gaps and overlaps of channels, in the order in which their records stand."""
    found = sorted((at.file, at.found.offset, at.found) for channel in source.channels for at in channel.found)
    for file, offset, one in found:
        gap, overlap = one.micros("gap"), one.micros("overlap")
        start = micros_of(one.start)
        if start is None or gap is None and overlap is None:
            continue
        delta = gap if gap is not None else -(overlap or 0)
        rates = [record.rate for record in source.files.shown(file) if record.offset == offset]
        rate = rates[0] if rates and rates[0] else Fraction(0)
        period = int(SECOND / rate) if rate else 0
        yield Break(one.name, start - delta - period, start, delta, round(delta * rate / SECOND))


def break_in_words(one: Break) -> list[str]:
    """Its columns."""
    return [one.source, time_of(one.last_sample), time_of(one.next_sample), seconds_of(one.delta), str(one.samples)]
