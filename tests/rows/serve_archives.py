"""Damaged archives for `serve`: by tables of what other bytes make of a record, and at random. The first thing that is
wrong decides, as docs/texts.md says. Where nothing is wrong, the port is found to be taken."""

from __future__ import annotations

import random
from typing import Iterator

from driver.links import listening, port_of
from driver.records import FRAMING, TELLING, changed, next_record, record
from driver.rows import Cases, Fact, Row, holds
from driver.texts import foreign, place_of, unlistened
from models.auditing import cut
from models.seedlink import Place, record_of

PLACES = [Place("XX_STA"), Place("n_A1b2C"), Place("XX_STB")]
FIRST, NEXT = record(exponent=9), next_record(exponent=9)
SERVED = "link failed"

# What 255 in the place of one byte of the second record does: the fault there, or that it is of no place. Where it
# stands elsewhere, the record is of its place as before.
BYTES = [
    (range(8), "fault at 512 notdata"),
    ((8,), foreign(2, "XX_?TA", 512)),
    ((9,), foreign(2, "XX_S?A", 512)),
    ((10,), foreign(2, "XX_ST?", 512)),
    ((11,), foreign(2, "XX_STA?", 512)),
    ((12,), foreign(2, "XX_STA ?", 512)),
    ((18,), foreign(2, "?X_STA", 512)),
    ((19,), foreign(2, "X?_STA", 512)),
    ((20, 22), "fault at 512 order"),
    ((46,), "fault at 512 truncated 512"),
    ((47, 48, 49), "fault at 512 no1000"),
    ((54,), "fault at 512 length 255"),
]
LINES_OF_BYTES = {offset: line for offsets, line in BYTES for offset in offsets}


def odd_record(source: random.Random) -> bytes:
    """A record that isn't of the feed, or looks as if it weren't."""
    stations = [b"STA  ", b"ABC  ", b"sta  ", b"STA\0\0", b"STAXY", b"A1b2C"]
    codes = source.choice(stations) + b"  BHZ" + source.choice([b"XX", b"XX", b"YY", b"n ", b"n\0"])
    return record(codes=codes, exponent=source.choice([7, 8, 9, 9, 9, 10, 12]))


def archive_at_random(source: random.Random) -> bytes:
    """An archive of some records, and some damage."""
    records = [record_of(source.choice(PLACES), index) for index in range(source.randrange(12))]
    for _ in range(source.choice([0, 0, 0, 1, 2])):
        records.insert(source.randrange(len(records) + 1), odd_record(source))
    archive = bytearray(b"".join(records))
    for _ in range(source.choice([0, 0, 1, 1, 3])):
        if archive:
            # Damage is most telling in a header.
            at = source.randrange(len(archive) // 512 + 1) * 512 + source.randrange(64)
            archive[min(at, len(archive) - 1)] = source.randrange(256)
    if source.random() < 0.3:
        archive = archive[: source.randrange(len(archive) + 1)]
    return bytes(archive)


def refusal_of(archive: bytes) -> str:
    """What `serve` writes of an archive whose places these are."""
    records, end, fault = cut(archive)
    for number, (_, one) in enumerate(records, 1):
        if len(one.bytes) != 512 or not any(place.bears(one.bytes) for place in PLACES):
            return foreign(number, place_of(one.bytes), len(one.bytes))
    return f"fault at {end} {fault}" if fault else SERVED


def rows_of_tables() -> Iterator[tuple[str, bytes, str]]:
    """Archives by name, each with the line that is written of it."""
    for size in range(1025):
        line = f"fault at {size // 512 * 512} truncated {size % 512}" if size % 512 else SERVED
        yield f"the first {size} bytes", (FIRST + NEXT)[:size], line
    for offset in range(128):
        yield f"255 at {offset}", FIRST + changed(NEXT, [(offset, b"\xff")]), LINES_OF_BYTES.get(offset, SERVED)
    for parts, fault in FRAMING:
        yield f"{parts}", changed(FIRST, parts) + NEXT, f"fault at 0 {fault}"
        yield f"{parts} of the second record", FIRST + changed(NEXT, parts), f"fault at 512 {fault}"
    for exponent in range(7, 21):
        parts = [(54, bytes([exponent]))]
        # A shorter record is none of the feed's, nor is one of 1,024 bytes. A longer one lacks bytes.
        line = SERVED if exponent == 9 else foreign(2, "XX_STA", 2**exponent)
        line = line if exponent < 10 else "fault at 512 truncated 512"
        yield f"exponent {exponent} of the second record", FIRST + changed(NEXT, parts), line
        line = SERVED if exponent == 9 else foreign(1, "XX_STA", 2**exponent)
        line = line if exponent < 11 else "fault at 0 truncated 1024"
        yield f"exponent {exponent}", changed(FIRST, parts) + NEXT, line


def refused(name: str, archive: bytes, line: str, port: int) -> Row:
    """A `serve` at a port that is taken, and what it writes of an archive: where nothing is wrong, of the port."""
    words = ["serve", "--port", str(port), "--station", "STA", "--network", "XX", "n_A1b2C", "XX_STB"]
    return Row(name, archive, words, 2, b"", unlistened(port) if line == SERVED else f"mseed: {line}\n".encode())


def at_random(port: int) -> Cases:
    """Archives at random, of all kinds."""
    source = random.Random(1)
    seen: dict[str, int] = {}
    for number in range(400):
        archive = archive_at_random(source)
        line = refusal_of(archive)
        yield refused(f"archive {number} at random: {line!r}", archive, line, port)
        seen[line.split()[0]] = seen.get(line.split()[0], 0) + 1
    yield Fact("archives at random are of three kinds", ["fault", "link", "record"], sorted(seen))
    yield holds("archives at random: each kind comes often", min(seen.values()) > 50, seen)


def rows() -> Cases:
    """All of them."""
    with listening() as taken:
        port = port_of(taken)
        for name, archive, line in rows_of_tables():
            yield refused(f"serve of {name}", archive, line, port)
        # Each byte of a header and its blockettes in the place of which another stands that means something somewhere.
        for offset in range(64):
            for byte in TELLING:
                archive = FIRST + changed(NEXT, [(offset, bytes([byte]))])
                yield refused(f"serve of {byte} at {offset}", archive, refusal_of(archive), port)
        yield from at_random(port)
