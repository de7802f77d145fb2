"""A file of records that were fetched: what it holds of each place, and the number that is wanted next."""

from __future__ import annotations

import json
import os
import stat
from collections import Counter
from typing import IO, Iterator, NamedTuple, Optional, Protocol

from mseed_tools.files import content_of, locked, write_whole
from mseed_tools.program import ToolError

LENGTH = 512
# Numbers go round.
ROUND = 2**24
FORM = 1
AT_ONCE = 2**20


class Mark(NamedTuple):
    """The number of a place's record, which so many of that place stand before. The next ones are numbered on from it,
    up to the next mark."""

    before: int
    number: int


def place_of(record: bytes) -> str:
    """The place of a record, as `NET_STA`."""
    network, station = record[18:20].rstrip(b" "), record[8:13].rstrip(b" ")
    return f"{network.decode('latin-1')}_{station.decode('latin-1')}"


def records_in(content: bytes) -> Iterator[bytes]:
    """The whole records of some bytes."""
    for at in range(0, len(content) // LENGTH * LENGTH, LENGTH):
        yield content[at : at + LENGTH]


class Numbers:
    """The numbers of records that are held, by how many of each place came before."""

    def __init__(self, counts: Counter[str], marks: dict[str, list[Mark]]):
        self.counts, self.marks, self.is_new = counts, marks, False

    def begin(self) -> None:
        """A run begins. What one before it has said of records that it didn't bring counts for nothing."""
        for place, some in list(self.marks.items()):
            reached = [mark for mark in some if mark.before <= self.counts[place]]
            if len(reached) < len(some):
                self.marks.update({place: reached})
                self.is_new = True
            if not reached:
                del self.marks[place]

    def next(self, place: str) -> Optional[int]:
        """The number of the next record of a place, where it is known."""
        if place not in self.marks:
            return None
        mark = self.marks[place][-1]
        return (mark.number + self.counts[place] - mark.before) % ROUND

    def reached(self, place: str) -> int:
        """The number after that of the last record of a place that came."""
        mark = [mark for mark in self.marks[place] if mark.before <= self.counts[place]][-1]
        return (mark.number + self.counts[place] - mark.before) % ROUND

    def first(self, place: str, number: int) -> None:
        """The next record of a place has this number."""
        if self.next(place) != number:
            self.mark(place, Mark(self.counts[place], number))

    def hole(self, place: str, want: int, got: int) -> None:
        """In the place of the record with one number comes the one with another."""
        if place not in self.marks:
            self.first(place, got)
        elif self.marks[place][-1].number != got:
            last = self.marks[place][-1]
            self.mark(place, Mark(last.before + (want - last.number) % ROUND, got))

    def mark(self, place: str, mark: Mark) -> None:
        """Numbers a place's records on from here."""
        self.marks.setdefault(place, []).append(mark)
        self.is_new = True

    def drop_past(self) -> None:
        """Drops marks that are past, but for the last of each place."""
        for place, some in self.marks.items():
            past = [mark for mark in some if mark.before <= self.counts[place]]
            self.marks[place] = [*past[-1:], *(mark for mark in some if mark.before > self.counts[place])]

    def places_in(self, content: bytes) -> Counter[str]:
        """How many whole records of each place come. Raises ToolError where a place has no number."""
        places = Counter(map(place_of, records_in(content)))
        for place in places:
            if place not in self.marks:
                raise ToolError(f"{place}: a record without a number")
        return places


class Holder(Protocol):
    """What holds the records that are fetched, with their numbers."""

    path: str
    numbers: Numbers

    def keep(self) -> None:
        """Keeps new marks, before the records that they number come."""

    def append(self, content: bytes) -> None:
        """Takes whole records."""

    def patience(self) -> Optional[int]:
        """For how many milliseconds more may be waited before `settle` is called; none for as long as it takes."""

    def settle(self) -> None:
        """Writes what was taken."""


class Held:
    """A file to which records are appended by this process alone, and the numbers of what it holds, which are kept
    beside it before the records themselves are written. So the two agree whenever the process is killed."""

    def __init__(self, path: str):
        self.path, self.beside = path, f"{path}.numbers"
        try:
            self.file: IO[bytes] = locked(path)
            status = os.fstat(self.file.fileno())
            if not stat.S_ISREG(status.st_mode):
                raise ToolError(f"{path}: is no file that can be cut")
            # What a run that was killed has begun to write.
            os.ftruncate(self.file.fileno(), status.st_size // LENGTH * LENGTH)
            counts = self.counted()
            self.numbers = Numbers(counts, self.kept(counts))
        except OSError as error:
            raise ToolError(f"{error.filename or path}: {error.strerror}") from error

    def counted(self) -> Counter[str]:
        """How many records of each place the file holds."""
        counts: Counter[str] = Counter()
        with open(self.path, "rb") as file:
            while content := file.read(AT_ONCE):
                counts.update(map(place_of, records_in(content)))
        return counts

    def kept(self, counts: Counter[str]) -> dict[str, list[Mark]]:
        """The marks of each place that the file has reached."""
        try:
            text = json.loads(content_of(self.beside))
            if text["form"] != FORM:
                raise ValueError("another form")
            marks = {place: [Mark(*map(int, mark)) for mark in some] for place, some in text["places"].items()}
        except FileNotFoundError:
            marks = {}
        except (ValueError, KeyError, TypeError, AttributeError) as error:
            raise ToolError(f"{self.beside}: doesn't say what {self.path} holds: {error}") from error
        reached = {place: [mark for mark in some if mark.before <= counts[place]] for place, some in marks.items()}
        for place in counts:
            if not reached.get(place):
                raise ToolError(f"{self.path}: holds records of {place}, whose numbers {self.beside} doesn't say")
        return {place: some for place, some in reached.items() if some}

    def keep(self) -> None:
        """Keeps new marks beside the file. Those that the file is past aren't needed any more, but for the last."""
        if not self.numbers.is_new:
            return
        self.numbers.drop_past()
        try:
            write_whole(self.beside, json.dumps({"form": FORM, "places": self.numbers.marks}).encode("ascii"))
        except OSError as error:
            raise ToolError(f"{self.beside}: {error.strerror}") from error
        self.numbers.is_new = False

    def append(self, content: bytes) -> None:
        """Writes whole records, whose marks are kept. Raises ToolError where the file can't be written, or a record is
        of a place that has no number."""
        places = self.numbers.places_in(content)
        view = memoryview(content)
        try:
            while view:
                view = view[os.write(self.file.fileno(), view):]
        except OSError as error:
            raise ToolError(f"{self.path}: {error.strerror}") from error
        self.numbers.counts.update(places)

    def patience(self) -> Optional[int]:
        """Nothing waits."""
        return None

    def settle(self) -> None:
        """Nothing waits."""
