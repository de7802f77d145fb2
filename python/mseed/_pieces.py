"""The traces of an archive, piece by piece."""

from bisect import bisect_right
from dataclasses import dataclass
from itertools import accumulate
from operator import attrgetter, itemgetter
from typing import Any, Dict, Generator, Iterator, List, Optional, Sequence, Tuple

from mseed._memory import Archive, Samples, joined, whole
from mseed._records import RecordError, Stretch, Window, codes_of
from mseed._selecting import Asked, Channels, Time
from mseed._trace import Trace
from mseed._windows import Windows, asked_for


@dataclass(frozen=True, eq=False)
class Piece(Trace):
    """Some samples of a trace. Its start is by the record in which the first of them stands, `first_record`: so it is
    right also where the records drift, one against the other, by less than the audit finds."""

    index: int = 0
    """How many samples of its trace stand before it: 0 where a trace begins."""
    goes_on: bool = False
    """Whether another piece of its trace follows."""


class Pieces(Iterator[Piece]):
    """The pieces of an archive's traces, as they come. Once all are taken, or `close` was called, a path's file is
    closed."""

    def __init__(self, archive: Archive, samples: int, skip: bool, asked: Optional[Asked]) -> None:
        """Of pieces of at most so many samples; of the records alone that are asked for, where some are."""
        self._windows = Windows(archive, skip, asked)
        self.skipped: List[RecordError] = self._windows.skipped
        """What was left out so far: the records that can't be read, and the bytes that begin none."""
        self._pieces = _pieces(self._windows, samples)

    def __next__(self) -> Piece:
        """The next piece."""
        try:
            return next(self._pieces)
        except StopIteration:
            self._windows.warn(2)
            raise

    def close(self) -> None:
        """Reads no further."""
        self._pieces.close()
        self._windows.close()


class _Firsts(Sequence[int]):
    """The indexes of rows' first samples, as they are counted in the rows."""

    def __init__(self, rows: Any) -> None:
        self._rows = rows

    def __len__(self) -> int:
        return len(self._rows)

    def __getitem__(self, index: Any) -> Any:
        return int(self._rows[index].first)


class _Open:
    """A trace that is being read: what it has of its next piece, and the number of the record in which it began."""

    def __init__(self, key: bytes) -> None:
        self.key, self.index, self.size = key, 0, 0
        self.parts: List[Samples] = []
        self.views: List[Samples] = []
        self.start_ns = self.factor = self.multiplier = self.first_record = self.begun = 0

    def add(self, window: Window, stretch: Stretch, samples: Samples, most: int) -> Iterator[Tuple[int, Piece]]:
        """Adds the samples of a stretch. The pieces of so many that are whole, each with the first row of the run in
        which its trace goes on."""
        places, at = [0, *accumulate(window.runs.sizes[stretch.runs.start : stretch.runs.stop])], 0
        while at < stretch.size:
            index = bisect_right(places, at) - 1
            if self.size == most:
                yield window.runs.firsts[stretch.runs[index]], self.piece(True)
            if self.size == 0:
                self._begin(window, stretch.runs[index], at - places[index])
            taken = min(most - self.size, stretch.size - at)
            self.views.append(samples[at : at + taken])
            self.size, at = self.size + taken, at + taken

    def _begin(self, window: Window, run: int, at: int) -> None:
        """Begins a piece with the sample at an index of a run."""
        rows = window.runs.rows(run)
        at += window.rows[rows.start].first
        index = bisect_right(_Firsts(window.rows), at, rows.start, rows.stop) - 1
        row = window.rows[index]
        self.start_ns = row.start * 1000 + (at - row.first) * row.den * 10**9 // row.num
        self.factor, self.multiplier, self.first_record = row.factor, row.multiplier, window.before + index + 1
        self.begun = self.begun or self.first_record

    def keep(self) -> None:
        """Keeps at a place of its own what it has of samples that go."""
        if self.views:
            self.parts.append(joined(self.views))
            self.views = []

    def piece(self, goes_on: bool) -> Piece:
        """The next piece."""
        self.keep()
        samples = self.parts[0] if len(self.parts) == 1 else joined(self.parts)
        made = Piece(*codes_of(self.key), self.start_ns, self.factor, self.multiplier, samples, self.first_record,
                     self.key, self.index, goes_on)
        self.index, self.size, self.parts = self.index + self.size, 0, []
        return made


def iterate(archive: Archive, *, samples: int = 1 << 14, skip: bool = False, channels: Channels = None,
            start: Optional[Time] = None, end: Optional[Time] = None) -> Pieces:
    """The traces of an archive in pieces, each of which says whether its trace goes on after it. In memory are 2 MiB of
    the archive at once, with their samples, and of each channel its last record and the samples of its next piece.

    archive: a path, bytes, or a binary file that is open.
    samples: how many each piece has; the last one of a trace has those that are left.
    skip: as of read; what is left out is listed in `skipped` of what is returned, as it is met. Without it the first
    of these is raised.
    channels, start, end: as of read.
    """
    if whole("samples", samples) < 1:
        raise ValueError(f"a piece has 1 sample or more, not {samples}")
    return Pieces(archive, whole("samples", samples), skip, asked_for(channels, start, end))


def _pieces(windows: Windows, samples: int) -> Generator[Piece, None, None]:
    """The pieces."""
    going: Dict[bytes, _Open] = {}
    for window in windows:
        yield from _whole_pieces(window, samples, going)
        for trace in going.values():
            trace.keep()
    for trace in sorted(going.values(), key=attrgetter("begun")):
        yield trace.piece(False)


def _whole_pieces(window: Window, samples: int, going: Dict[bytes, _Open]) -> List[Piece]:
    """The pieces that are whole once some records are added to the traces that go on, in the order of the runs after
    which they are."""
    read, place = window.read(), 0
    made: List[Tuple[int, Piece]] = []
    for stretch in window.stretches():
        if stretch.is_found and stretch.key in going:
            made.append((window.runs.firsts[stretch.runs.start], going.pop(stretch.key).piece(False)))
        if stretch.size:
            trace = going.setdefault(stretch.key, _Open(stretch.key))
            made += trace.add(window, stretch, read[place : place + stretch.size], samples)
            place += stretch.size
    return [piece for _, piece in sorted(made, key=itemgetter(0))]
