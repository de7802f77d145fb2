"""Records that are listed as they come over a pipe that stays open: the line of each record is there before the next
record comes, and nothing is written of a record that isn't whole. The words of the lines are those of docs/texts.md."""

from __future__ import annotations

import os
import select
import subprocess

from driver.program import LIMIT, PROGRAM
from driver.records import next_record, record
from driver.rows import Cases, Fact

# A line that is to come is awaited for so many seconds, and none is seen where none came in so many.
LONG, SHORT = 30, 0.5
SIZE = 128


def line_of(offset: int, start: str) -> bytes:
    """The line of a record at an offset, so many seconds into 2024."""
    return (f"{offset} XX_STA__BHZ D length {SIZE} samples 16 start 2024-01-01T00:00:{start} rate 20/1 "
            "encoding 3 big\n").encode()


class Listing:
    """`mseed show` over a pipe."""

    def __init__(self) -> None:
        self.process = subprocess.Popen([str(PROGRAM), "show"], stdin=subprocess.PIPE, stdout=subprocess.PIPE,
                                        stderr=subprocess.PIPE, bufsize=0)

    def send(self, bytes: bytes) -> None:
        """Writes to its input."""
        self.process.stdin.write(bytes)

    def read(self, size: int, seconds: float = LONG) -> bytes:
        """The next bytes of the output: so many, or those that came up to a time in which none came."""
        bytes = b""
        while len(bytes) < size and select.select([self.process.stdout], [], [], seconds)[0]:
            more = os.read(self.process.stdout.fileno(), size - len(bytes))
            if not more:
                break
            bytes += more
        return bytes

    def end(self) -> tuple[int, bytes, bytes]:
        """The status, the rest of the output, and the standard error."""
        output, errors = self.process.communicate(timeout=LIMIT)
        return self.process.returncode, output, errors


def one_by_one() -> Cases:
    """Four records, two of them whole, and two in pieces."""
    listing = Listing()
    records = [record(), next_record(), record(second=1, fraction=6000), record(second=2, fraction=4000)]
    starts = ["00.000000", "00.800000", "01.600000", "02.400000"]
    lines = [line_of(SIZE * index, start) for index, start in enumerate(starts)]
    for index in range(2):
        listing.send(records[index])
        yield Fact(f"the line of record {index + 1} before the next one comes", lines[index],
                   listing.read(len(lines[index])))
    for index, name, pieces in [(2, "its header, then the rest", [48, SIZE]),
                                (3, "five pieces", [1, 47, 60, 100, SIZE])]:
        for begin, end in zip([0] + pieces, pieces):
            yield Fact(f"{name}: nothing before byte {begin} of the record", b"", listing.read(1, SHORT))
            listing.send(records[index][begin:end])
        yield Fact(f"{name}: then its line", lines[index], listing.read(len(lines[index])))
    yield Fact("and their number at the end", (0, b"records 4\n", b""), listing.end())


def with_half() -> Cases:
    """Many records at once, and half a one after them."""
    listing, count = Listing(), 300
    lines = b"".join(line_of(SIZE * index, "00.000000") for index in range(count))
    listing.send(record() * count + record()[: SIZE // 2])
    yield Fact("all lines before half a record", lines, listing.read(len(lines)))
    listing.send(record()[SIZE // 2 :])
    wanted = line_of(SIZE * count, "00.000000")
    yield Fact("its line once it is whole", wanted, listing.read(len(wanted)))
    listing.send(record()[:60])
    yield Fact("a record that is cut off", (2, b"records 301\nfault at 38528 truncated 60\n", b""), listing.end())


def rows() -> Cases:
    """All of them."""
    yield from one_by_one()
    yield from with_half()
