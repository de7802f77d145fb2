"""Where records stand in an archive, and which of them go on with one another."""

import ctypes
import re
import struct
from itertools import chain, compress, count
from operator import ne
from typing import Any, Collection, Dict, Iterator, List, NamedTuple, Optional, Tuple

from mseed._auditing import Finding, findings_in
from mseed._library import LIBRARY, TRUNCATED, Progress, Row, fault_of
from mseed._memory import Samples, address_in, address_of, numpy, room_for, zeros

# After bytes that begin no record, one is looked for at each multiple of so many bytes from the archive's beginning.
STEP = 64
# No record is shorter.
SHORTEST = 128
# How the first eight bytes of a record look, and the seventh alone, which few others are.
HEAD, QUALITY = re.compile(rb"[0-9 \0]{6}[DRQM][ \0]"), re.compile(rb"[DRQM]")
# The bytes in which one is looked for at once: few at first, since most holes are small.
FEW, MANY = 1 << 12, 1 << 20

# Of a row its offset, its length, its samples and its key, by which runs are found in all rows at once.
_COLUMNS, _KEY = struct.Struct("=QQ8xQ28x12s"), struct.Struct("12s")
_TABLE: Any = None
if numpy is not None:
    _TABLE = numpy.dtype({"names": ["offset", "length", "samples", "key"], "formats": ["u8", "u8", "u8", "S12"],
                          "offsets": [0, 8, 24, 60], "itemsize": _COLUMNS.size})


class RecordError(ValueError):
    """A record that can't be read, or bytes that begin none."""

    def __init__(self, number: int, offset: int, reason: str, name: str = "", length: int = 0) -> None:
        """The record's number, its offset, the reason, the channel's name, and the bytes that are left out for it."""
        of = f" of {name}" if name else ""
        super().__init__(f"record {number}{of} at offset {offset}: {reason}")
        self.number = number
        """The record's number among all of the archive, from 1; that of the next one, where none begins."""
        self.offset = offset
        """Where it begins, in bytes from the archive's beginning."""
        self.reason = reason
        """Why, in the words of the program."""
        self.name = name
        """The channel's name; empty where no record begins."""
        self.length = length
        """How many bytes are left out: those of the record, or those up to the next one."""

    def __reduce__(self) -> Tuple[Any, ...]:
        """What it is made of anew in another process."""
        return RecordError, (self.number, self.offset, self.reason, self.name, self.length)


class Cut(NamedTuple):
    """The records in some bytes, which begin at an offset of the archive: from where to where they follow one another,
    their rows, until more bytes are cut, how many they are, and how many are before."""

    base: int
    spans: List[Tuple[int, int]]
    rows: Any
    records: int
    before: int


class Cutter:
    """Cuts bytes, which may come in pieces, into records. Where no record begins, it goes on at the next multiple of 64
    bytes, from the beginning of all, at which a whole record is framed."""

    def __init__(self) -> None:
        self.offset = 0
        """Up to where it came, in bytes from the beginning of all."""
        self.count = 0
        """The records so far."""
        self.holes: List[RecordError] = []
        """The bytes that begin none, as far as it is known where the next one stands."""
        self._open: Optional[RecordError] = None
        self._rows, self._progress = (Row * 1)(), Progress()

    def cut(self, data: bytes, is_last: bool) -> Cut:
        """The records in the bytes from `offset` on. Those from where `offset` then is are wanted again, with more
        after them, unless these are the last."""
        if len(self._rows) <= len(data) // SHORTEST:
            # Of which those alone take memory that are filled.
            room = zeros((len(data) // SHORTEST + 1) * ctypes.sizeof(Row))
            self._rows = (Row * (len(data) // SHORTEST + 1)).from_buffer(room)
        cut, at = Cut(self.offset, [], self._rows, 0, self.count), 0
        while True:
            if self._open is not None:
                at, is_framed = self._framed_after(data, at, is_last, self._open.offset - cut.base)
                if not is_framed and not is_last:
                    break
                self._open.length = cut.base + at - self._open.offset
                self.holes.append(self._open)
                self._open = None
            begin = at
            code = rows_into(self._rows, data, len(data), at, self._progress, self.count - cut.before)
            self.count, at = self.count + self._progress.rows, self._progress.offset
            if at > begin:
                cut.spans.append((begin, at))
            if at == len(data) or code == TRUNCATED and not is_last:
                break
            why = fault_of(code, self._progress.needed, len(data) - at)
            self._open = RecordError(self.count + 1, cut.base + at, why)
        self.offset += at
        return cut._replace(records=self.count - cut.before)

    def _framed_after(self, data: bytes, at: int, is_last: bool, fault: int) -> Tuple[int, bool]:
        """Where a record is framed next, from a place on but after that of a fault, and whether one is; else up to
        where none is."""
        place, size, one = at + -(self.offset + at) % STEP, FEW, (Row * 1)()
        if place == fault:
            place += STEP
        while place + 8 <= len(data):
            for hit in QUALITY.finditer(data[place + 6 : place + size : STEP]):
                begin = place + hit.start() * STEP
                if HEAD.match(data, begin):
                    code = rows_into(one, data, len(data), begin, self._progress)
                    if self._progress.rows or code == TRUNCATED and not is_last:
                        return begin, self._progress.rows == 1
            place, size = place + size, min(2 * size, MANY)
        # A place that is too near to the end isn't judged yet.
        near = max(len(data) - 7, at)
        return len(data) if is_last else min(near + -(self.offset + near) % STEP, len(data)), False


class Runs(NamedTuple):
    """Runs of records: of one channel after another, in an archive's order. The records of a run are of one channel and
    stand one after another, and nothing is found of any but the first. Of each run the channel, its first row and the
    one after its last, where its bytes begin and end, and how many samples can be read of it."""

    keys: List[bytes]
    firsts: List[int]
    ends: List[int]
    begins: List[int]
    stops: List[int]
    sizes: List[int]

    def rows(self, run: int) -> range:
        """The rows of a run."""
        return range(self.firsts[run], self.ends[run])

    def of_channels(self) -> List[int]:
        """The first run of each channel."""
        return [*range(len(self.keys[:1])), *compress(count(1), map(ne, self.keys[1:], self.keys))]


class Stretch(NamedTuple):
    """Runs of one channel of which each goes on with the one before it: the channel, the runs, whether something is
    found of their first record, where their bytes begin in the window, and how many rows and samples they have."""

    key: bytes
    runs: range
    is_found: bool
    place: int
    rows: int
    size: int


class Window:
    """Some records of an archive, and what is found of them. The bytes of each channel are put one after another, so
    that a stretch is read at once, to where its samples stay."""

    def __init__(self, data: bytes, cut: Cut, tails: Dict[bytes, bytes]) -> None:
        """The records in some bytes, where the last record with samples of each channel before these is given."""
        self.rows, self.before, self._count, self._base = cut.rows, cut.before, cut.records, cut.base
        self.runs = runs_of(self.rows, self._count)
        self._starts = self.runs.of_channels()
        before = [tails[key] for key in map(self.runs.keys.__getitem__, self._starts) if key in tails]
        parts = map(memoryview(data).__getitem__, map(slice, self.runs.begins, self.runs.stops))
        self._bytes, self._place = b"".join([*before, *parts]), sum(map(len, before))
        self.tails = self._last_records(data)
        """The last record with samples of each channel."""
        self.found = self._find(len(before))
        """What is found of which row."""
        if self.found:
            self._cut_where_found()
        self._read_rows, self._progress = (Row * 1)(), Progress()

    def _last_records(self, data: bytes) -> Dict[bytes, bytes]:
        """The last record with samples of each channel that has some."""
        last: Dict[bytes, bytes] = {}
        for runs in self._ranges():
            run = next((run for run in reversed(runs) if self.runs.sizes[run]), None)
            if run is not None:
                row = next(self.rows[row] for row in reversed(self.runs.rows(run)) if self.rows[row].samples)
                last[self.runs.keys[run]] = data[row.offset : row.offset + row.length]
        return last

    def _find(self, before: int) -> Dict[int, Finding]:
        """What an audit finds of each row, where so many records stand before those of the rows."""
        findings = findings_in(self._bytes, len(self._starts)) if self._count else []
        if not findings:
            return {}
        rows = list(chain.from_iterable(map(range, self.runs.firsts, self.runs.ends)))
        return {rows[one.number - 1 - before]: one for one in findings if one.number > before}

    def _cut_where_found(self) -> None:
        """Has a stretch begin with each row of which something is found, and after each that can't be read."""
        after = {index + 1 for index in self.found if self._is_left_out(index)}
        self.runs = runs_of(self.rows, self._count, self.found.keys() | after)
        found = [run for run, first in enumerate(self.runs.firsts) if first in self.found]
        left_out = [run for run in found if self._is_left_out(self.runs.firsts[run])]
        for run in left_out:
            self.runs.sizes[run] = 0
        starts = {*self.runs.of_channels(), *found, *(run + 1 for run in left_out)}
        self._starts = sorted(starts - {len(self.runs.keys)})

    def _is_left_out(self, index: int) -> bool:
        """Whether a row is that of a record that can't be read."""
        return index in self.found and self.found[index].is_own

    def errors(self) -> List[RecordError]:
        """The records that can't be read."""
        return [self._error(index, one) for index, one in self.found.items() if one.is_own]

    def _error(self, index: int, one: Finding) -> RecordError:
        """What is found of a row, where it stands in the archive."""
        row = self.rows[index]
        return RecordError(self.before + index + 1, self._base + row.offset, one.reason, one.name, row.length)

    def _ranges(self) -> Iterator[range]:
        """The runs of each stretch."""
        return map(range, self._starts, [*self._starts[1:], len(self.runs.keys)])

    def stretches(self) -> Iterator[Stretch]:
        """Of one channel after another the runs that go on with one another."""
        keys, firsts, ends, begins, stops, sizes = self.runs
        place = self._place
        for runs in self._ranges():
            each = slice(runs.start, runs.stop)
            yield Stretch(keys[runs.start], runs, firsts[runs.start] in self.found, place,
                          sum(ends[each]) - sum(firsts[each]), sum(sizes[each]))
            place += sum(stops[each]) - sum(begins[each])

    def first_with_samples(self, stretch: Stretch) -> int:
        """The first row of a stretch that has samples."""
        run = next(run for run in stretch.runs if self.runs.sizes[run])
        return next(row for row in self.runs.rows(run) if self.rows[row].samples)

    def read(self) -> Samples:
        """The samples of all runs, in their order."""
        samples, place = room_for(sum(self.runs.sizes)), 0
        for stretch in self.stretches():
            if stretch.size:
                self.read_to(address_in(samples, place), stretch)
                place += stretch.size
        return samples

    def read_to(self, address: int, stretch: Stretch) -> None:
        """Reads the samples of a stretch to an address at which there is room for them."""
        if len(self._read_rows) < stretch.rows:
            self._read_rows = (Row * stretch.rows)()
        LIBRARY.mseed_read(address_of(self._bytes), len(self._bytes), stretch.place, self._read_rows, stretch.rows,
                           address, stretch.size, ctypes.byref(self._progress))
        if (self._progress.rows, self._progress.filled) != (stretch.rows, stretch.size):
            raise RuntimeError(f"of {stretch.rows} records with {stretch.size} samples {self._progress.rows} with "
                               f"{self._progress.filled} are read")


def runs_of(rows: Any, size: int, begins: Collection[int] = ()) -> Runs:
    """The runs of so many rows, some of which begin at given rows; what is found of rows isn't looked at."""
    if numpy is None:
        return _runs_by_row(rows, size, begins)
    table = numpy.frombuffer(rows, _TABLE, size)
    keys, offsets, stops = table["key"], table["offset"], table["offset"] + table["length"]
    is_begin = numpy.ones(size + 1, bool)
    is_begin[1:-1] = (keys[1:] != keys[:-1]) | (offsets[1:] != stops[:-1])
    is_begin[list(begins)] = True
    borders = numpy.flatnonzero(is_begin)
    order = numpy.argsort(keys[borders[:-1]], kind="stable")
    firsts, ends = borders[:-1][order], borders[1:][order]
    sizes = numpy.add.reduceat(table["samples"], borders[:-1])[order]
    return Runs(list(chain.from_iterable(_KEY.iter_unpack(keys[firsts].tobytes()))), firsts.tolist(), ends.tolist(),
                offsets[firsts].tolist(), stops[ends - 1].tolist(), sizes.tolist())


def _runs_by_row(rows: Any, size: int, begins: Collection[int]) -> Runs:
    """The same, row by row."""
    runs: List[List[Any]] = []
    raw = ctypes.string_at(rows, size * ctypes.sizeof(Row))
    for index, (offset, length, samples, key) in enumerate(_COLUMNS.iter_unpack(raw)):
        if index in begins or not runs or (runs[-1][0], runs[-1][4]) != (key, offset):
            runs.append([key, index, index, offset, offset, 0])
        last = runs[-1]
        last[2], last[4], last[5] = index + 1, offset + length, last[5] + samples
    runs.sort()
    return Runs(*([run[column] for run in runs] for column in range(6)))


def rows_into(rows: Any, data: bytes, size: int, at: int, progress: Progress, first: int = 0) -> int:
    """Fills rows, from one of them on, with those of the records from a place on; why it stopped."""
    place = ctypes.byref(rows, first * ctypes.sizeof(Row))
    code: int = LIBRARY.mseed_rows(address_of(data), size, at, place, len(rows) - first, ctypes.byref(progress))
    return code


def code_of(field: bytes) -> str:
    """A code of a header without the spaces and NULs after it; "?" for a byte that isn't printed."""
    return "".join(chr(byte) if 33 <= byte <= 126 else "?" for byte in field.rstrip(b" \0"))


def codes_of(key: bytes) -> Tuple[str, str, str, str]:
    """Network, station, location and channel."""
    return code_of(key[:2]), code_of(key[2:7]), code_of(key[7:9]), code_of(key[9:])
