"""What a drawing shows of channels: segments without a break, and marks."""

from __future__ import annotations

from typing import NamedTuple, Optional, Sequence

from mseed_tools.instants import micros_of, seconds_of
from mseed_tools.joining import Channel
from mseed_tools.sources import Source


class Mark(NamedTuple):
    """A gap, an overlap, or where a record has another finding; in microseconds."""

    kind: str
    begin: int
    end: int
    text: str


class Row(NamedTuple):
    """What is shown of a channel: its segments, each from an instant to another, and its marks, by time."""

    name: str
    state: str
    segments: list[tuple[int, int]]
    marks: list[Mark]

    def within(self, begin: int, end: int) -> Row:
        """What is shown of it from an instant on, up to another, which isn't shown."""

        def is_seen(left: int, right: int) -> bool:
            return left < end and max(right, left + 1) > begin

        return self._replace(
            segments=[(max(left, begin), min(right, end)) for left, right in self.segments if is_seen(left, right)],
            marks=[mark._replace(begin=max(mark.begin, begin), end=min(mark.end, end)) for mark in self.marks
                   if is_seen(mark.begin, mark.end)])


def row_of(channel: Channel, files: list[tuple[Optional[int], Optional[int]]]) -> Row:
    """The row of a channel. A segment ends where a gap or an overlap begins. Of a channel that isn't decoded nobody
    says what goes on where: each file is a segment."""
    marks: list[Mark] = []
    if not channel.is_decoded:
        known = [(begin, max(begin, begin if end is None else end)) for begin, end in files if begin is not None]
        return Row(channel.name, channel.state, sorted(known), [])
    segments, begin = [], channel.start
    for at in channel.found:
        start, gap, overlap = micros_of(at.found.start), at.found.micros("gap"), at.found.micros("overlap")
        if start is None:
            continue
        if gap is None and overlap is None:
            marks.append(Mark("finding", start, start, f"{at.found.why} at {at.found.start}"))
            continue
        end = start - (gap or 0) + (overlap or 0)
        if begin is not None:
            segments.append((begin, end))
        length = (gap if gap is not None else overlap) or 0
        kind = "gap" if gap is not None else "overlap"
        marks.append(Mark(kind, min(start, end), max(start, end),
                          f"{kind} of {seconds_of(length)} s before {at.found.start}"))
        begin = start
    if begin is not None and channel.end is not None:
        segments.append((begin, max(begin, channel.end)))
    return Row(channel.name, channel.state, sorted(segments), sorted(marks, key=lambda mark: (mark.begin, mark.end)))


def ends_of(source: Source, channel: Channel) -> list[tuple[Optional[int], Optional[int]]]:
    """Where the records of a channel begin and end in each file that holds some."""
    return [(source.files.first_start(channel.name, [file]), source.files.last_end(channel.name, [file]))
            for file in channel.files]


def rows_of(sources: Sequence[Source]) -> list[Row]:
    """The rows of all channels."""
    return [row_of(channel, [] if channel.is_decoded else ends_of(source, channel))
            for source in sources for channel in source.channels]
