"""The traces of an archive."""

from typing import Dict, List, Optional, Sequence

from mseed._memory import Archive, Grown
from mseed._records import RecordError, Stretch, Window, codes_of
from mseed._selecting import Channels, Time
from mseed._trace import Trace
from mseed._windows import Windows, asked_for


class Traces(List[Trace]):
    """The traces of an archive, in the order in which they begin in it."""

    def __init__(self, traces: Sequence[Trace], skipped: Sequence[RecordError]) -> None:
        """The traces, and what was left out."""
        super().__init__(traces)
        self.skipped: List[RecordError] = list(skipped)
        """The records that were left out, and the bytes that begin none, in their order."""


def read(archive: Archive, *, skip: bool = False, channels: Channels = None, start: Optional[Time] = None,
         end: Optional[Time] = None) -> Traces:
    """Reads the traces of an archive. A trace ends where the audit finds a gap, an overlap, a leap second that nobody
    can place, or another rate. Besides the samples 2 MiB of the archive are in memory, and the samples of these.

    archive: a path, bytes, or a binary file that is open.
    skip: records that can't be read, and bytes that begin none, are left out and listed in `skipped`; without it the
    first of them is raised as a RecordError. After a record that is left out a new trace begins. After bytes that
    begin none, reading goes on at the next multiple of 64 bytes at which a record is framed, and so does a trace whose
    next record meets its last one.
    channels, start, end: the records that `mseed.select` writes alone, as if no others were there: whole records, of
    which no sample is cut off, and whose numbers and offsets are counted among them; bytes that begin no record have
    their number and offset in the archive.
    """
    windows = Windows(archive, skip, asked_for(channels, start, end))
    going: Dict[bytes, _Growing] = {}
    begun: List[_Growing] = []
    for window in windows:
        for stretch in window.stretches():
            if stretch.is_found:
                going.pop(stretch.key, None)
            if stretch.size:
                if stretch.key not in going:
                    going[stretch.key] = _Growing(window, stretch)
                    begun.append(going[stretch.key])
                window.read_to(going[stretch.key].samples.place_for(stretch.size), stretch)
    windows.warn(2)
    return Traces(sorted((trace.whole() for trace in begun), key=lambda trace: trace.first_record), windows.skipped)


class _Growing:
    """A trace that is being read: how it begins, and its samples so far."""

    def __init__(self, window: Window, stretch: Stretch) -> None:
        """Without samples yet, from a stretch on."""
        index = window.first_with_samples(stretch)
        row = window.rows[index]
        self._key, self._first_record = stretch.key, window.before + index + 1
        self._start_ns, self._factor, self._multiplier = row.start * 1000, row.factor, row.multiplier
        self.samples = Grown()

    def whole(self) -> Trace:
        """The trace, once it has all its samples."""
        return Trace(*codes_of(self._key), self._start_ns, self._factor, self._multiplier, self.samples.samples(),
                     self._first_record, self._key)
