"""Damaged archives, audited and packed anew by the program and in Python (models/auditing.py): the same bytes and
statuses.

Sound archives of a few channels, of all encodings and byte orders, are cut, and their bytes set, dropped and doubled,
mostly those of headers and of the first frames. And each byte of a record's header and blockettes in turn is set to
each value that means something somewhere.
"""

from __future__ import annotations

from random import Random
from typing import Iterator

from driver.records import TELLING, changed, next_record, record
from driver.rows import Cases, Row, holds
from models.auditing import audit, repack
from models.series import interleaved, records_for, series_for

SEED = 20260101
COUNT = 3000

# What byte damage seldom brings: leap flags, a factor of 0, little-endian Steim, another encoding, day 0 and day 366.
SELDOM = [(36, 0x30), (36, 0x10), (36, 0x20), (33, 0), (35, 0), (53, 0), (52, 10), (52, 11), (23, 0), (22, 1),
          (49, 0x64)]


def sound(source: Random) -> list[bytes]:
    """The records of a few short series, those of one channel in their order."""
    names = [b"STA%02d00BHZXX" % n for n in range(source.randrange(1, 4))]
    lists = []
    for name in names:
        series = series_for(source, name, 7, source.choice([1, 3, 10, 11]))
        lists.append(records_for(source, series)[: source.randrange(1, 6)])
    return list(interleaved(source, lists))


def offset_in(source: Random, record: bytes) -> int:
    """An offset, mostly one of the header, of the blockettes, or of the first frame."""
    first, end = source.choice([(0, len(record)), (0, 48), (44, 64), (64, 128)])
    return source.randrange(min(first, len(record) - 1), min(end, len(record)))


def with_byte(record: bytes, offset: int, value: int) -> bytes:
    """A record with another byte at an offset."""
    return changed(record, [(offset, bytes([value]))])


def harm(source: Random, records: list[bytes]) -> None:
    """Harms some records, or their order."""
    manner = source.randrange(10)
    at = source.randrange(len(records))
    if manner == 0:
        found = [(offset, value) for offset, value in SELDOM if offset < len(records[at])] or [(0, 0)]
        records[at] = with_byte(records[at], *source.choice(found))
    elif manner < 6:
        offset = offset_in(source, records[at])
        values = [source.randrange(256), source.choice(TELLING), records[at][offset] ^ 1 << source.randrange(8)]
        records[at] = with_byte(records[at], offset, source.choice(values))
    elif manner == 6:
        records.insert(at, records[at])
    elif manner == 7:
        records.pop(at)
    elif manner == 8:
        offset = offset_in(source, records[at])
        records[at] = records[at][:offset] + records[at][offset + source.choice([0, 1, 64]) :]
    else:
        other = source.randrange(len(records))
        records[at], records[other] = records[other], records[at]


def damaged(source: Random) -> bytes:
    """An archive with some damage, or none."""
    records = sound(source)
    for _ in range(source.choice([0, 1, 1, 1, 2, 5])):
        if records and all(records):
            harm(source, records)
    archive = b"".join(records)
    return archive[: source.randrange(len(archive) + 1)] if source.randrange(6) == 0 else archive


def as_in_python(kind: str, archives: Iterator[tuple[str, bytes]], each: int) -> Cases:
    """All archives are audited, and of one of so many each finding is listed and the channels are packed anew, as in
    Python;
    and they are of all kinds."""
    seen = {0: 0, 1: 0, 2: 0}
    for number, (name, archive) in enumerate(archives):
        text, status = audit(archive)
        seen[status] += 1
        yield Row(f"{name}, audited", archive, ["audit"], status, text)
        if number % each == 0:
            output, errors, status = repack(archive)
            yield Row(f"{name}, packed anew", archive, ["repack"], status, output, errors)
            text, status = audit(archive, each=True)
            yield Row(f"{name}, each finding", archive, ["audit", "--each"], status, text)
    # Each kind has to come often, or the archives are no test.
    yield holds(f"{kind} are of all kinds: continuous, broken and with a fault",
                min(seen.values()) > sum(seen.values()) // 20, seen)


def archives_at_random() -> Iterator[tuple[str, bytes]]:
    """Each by a seed of its own."""
    for seed in range(COUNT):
        yield f"the damaged archive of seed {SEED + seed}", damaged(Random(SEED + seed))


def damaged_headers() -> Iterator[tuple[str, bytes]]:
    """The second of two records with another byte in its header or its blockettes."""
    for offset in range(64):
        for byte in TELLING:
            yield f"two records, {byte} at {offset}", record() + with_byte(next_record(), offset, byte)


def rows() -> Cases:
    """All of them."""
    yield from as_in_python("damaged archives", archives_at_random(), 3)
    yield from as_in_python("damaged headers", damaged_headers(), 1)
