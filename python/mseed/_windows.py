"""The records of an archive, as many at once as are read at once, with what is found of them."""

from typing import BinaryIO, Dict, Generator, Iterator, List, Optional, cast

from mseed._memory import Archive, opened, read_from
from mseed._records import Cutter, RecordError, Window
from mseed._selecting import Asked, Channels, Selection, Time

# How much of an archive is in memory at once, besides the rest of its last record, which is at most 1 MiB.
AT_ONCE = 1 << 21


def asked_for(channels: Channels, start: Optional[Time], end: Optional[Time]) -> Optional[Asked]:
    """What is asked for; nothing where all is."""
    return None if channels is None and start is None and end is None else Asked(channels, start, end)


class Windows(Iterator[Window]):
    """Some records of an archive after others. Once all are taken, or `close` was called, a path's file is closed."""

    def __init__(self, archive: Archive, skip: bool, asked: Optional[Asked]) -> None:
        """Of the records alone that are asked for, where some are. Without `skip` the first record that can't be read,
        or the first bytes that begin none, are raised."""
        self.skipped: List[RecordError] = []
        """What was left out so far: the records that can't be read, and the bytes that begin none."""
        self._skip, self._asked = skip, asked
        self._selection: Optional[Selection] = None
        self._cutter = Cutter()
        self._found = self._all(archive)
        # So that what can't be opened is refused at once.
        next(self._found)

    def __next__(self) -> Window:
        """The next records, until those after them are taken."""
        found = next(self._found)
        assert found is not None
        return found

    def close(self) -> None:
        """Reads no further."""
        self._found.close()

    def warn(self, level: int) -> None:
        """Warns once of records whose start isn't known, if there were some, where so many calls before this one
        began."""
        if self._selection is not None:
            self._selection.warn(level + 1)
            self._selection = None

    def _all(self, archive: Archive) -> Generator[Optional[Window], None, None]:
        """Nothing, once the archive is open, and then all of them."""
        with opened(archive) as file:
            yield None
            source, size = file, AT_ONCE
            if self._asked is not None:
                # Of few records that are asked for less is in memory, besides what they are taken from.
                self._selection = Selection(file, self._asked, self._skip)
                source, size = cast(BinaryIO, self._selection), AT_ONCE // 4
            for window in self._cut(source, size):
                self._leave_out(window)
                yield window

    def _cut(self, file: BinaryIO, size: int) -> Iterator[Window]:
        """The records of a file, as many at once as are read at once: so many bytes."""
        rest, chunk = b"", b"-"
        tails: Dict[bytes, bytes] = {}
        while chunk:
            chunk = read_from(file, size)
            data, begin = rest + chunk, self._cutter.offset
            window = Window(data, self._cutter.cut(data, not chunk), tails)
            tails.update(window.tails)
            rest = data[self._cutter.offset - begin :]
            yield window

    def _leave_out(self, window: Window) -> None:
        """Notes what can't be read of some records, or raises it."""
        left_out = sorted([*self._cutter.holes, *window.errors()], key=lambda error: error.offset)
        self._cutter.holes.clear()
        if self._selection is not None:
            # These have their places in the archive, and not among the records that are asked for.
            self.skipped += self._selection.holes
            self._selection.holes.clear()
        if left_out and not self._skip:
            raise left_out[0]
        self.skipped.extend(left_out)
