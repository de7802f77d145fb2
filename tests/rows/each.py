"""Audits that report each record with a finding, before their text: the output and the status, byte for byte; outputs
that fail at each byte, and allocations that are refused, after which a prefix of the text stands there.
"""

from __future__ import annotations

from typing import Iterator

from driver.helpers import COMPILER, library, preloaded
from driver.program import SAMPLES
from driver.records import next_record, record
from driver.rows import Cases, Row, Skipped, both
from driver.texts import WRITE_FAILED
from rows.memory import refuses

BHZ = "XX_STA__BHZ"
FIRST, LATE = record(), record(fraction=8250, micros=1)
GAP = f"128 {BHZ} record 2 start 2024-01-01T00:00:00.825001 gap 25001\n"
FOUND = f"{BHZ} broken findings 1 first record 2 offset 128 gap 25001\n"
TEXT = f"{GAP}{FOUND}records 2 channels 1\n"


def reports(name: str, status: int, archive: bytes, *lines: str) -> Iterator[Row]:
    """These lines, whether the archive is a file or comes through a pipe."""
    yield from both(Row(name, archive, ["audit", "--each"], status, "".join(lines).encode()))


def findings() -> Cases:
    """Records with findings, of one channel and of two, and what ends an archive."""
    yield from reports("nothing", 0, b"", "records 0 channels 0\n")
    yield from reports("nothing to report", 0, FIRST + next_record(),
                     f"{BHZ} continuous 2024-01-01T00:00:00.000000 rate 20/1 records 2 samples 32\n",
                     "records 2 channels 1\n")
    yield from reports("a gap", 1, FIRST + LATE, TEXT)
    yield Row("the sample with a gap", (SAMPLES / "gap.mseed").read_bytes(), ["audit", "--each"], 1, TEXT.encode())
    yield from reports("a gap and an overlap", 1, FIRST + LATE + record(second=1, fraction=6000), GAP,
                     f"256 {BHZ} record 3 start 2024-01-01T00:00:01.600000 overlap 25001\n",
                     f"{BHZ} broken findings 2 first record 2 offset 128 gap 25001\n", "records 3 channels 1\n")
    yield from reports("a start that is no time", 1, FIRST + next_record(year=2023, day=366),
                     f"128 {BHZ} record 2 start fault day time day\n",
                     f"{BHZ} broken findings 1 first record 2 offset 128 time day\n", "records 2 channels 1\n")
    yield from reports("a gap and a fault", 2, FIRST + LATE + FIRST[:10], GAP, FOUND,
                     "records 2 channels 1\nfault at 256 truncated 10\n")
    other = {"codes": b"STA    BHNXX"}
    yield from reports("two channels, in the order of the archive", 1,
                     FIRST + record(**other) + LATE + record(fraction=8250, micros=1, **other),
                     f"256 {BHZ} record 3 start 2024-01-01T00:00:00.825001 gap 25001\n",
                     "384 XX_STA__BHN record 4 start 2024-01-01T00:00:00.825001 gap 25001\n",
                     "XX_STA__BHN broken findings 1 first record 4 offset 384 gap 25001\n",
                     f"{BHZ} broken findings 1 first record 3 offset 256 gap 25001\n", "records 4 channels 2\n")


def many() -> Cases:
    """More lines than are gathered before they are written."""
    count, gaps = 2000, (FIRST + record(hour=1)) * 1000
    lines = "".join(
        f"{128 * index} {BHZ} record {index + 1} start 2024-01-01T0{index % 2}:00:00.000000 "
        + (f"overlap {3600 * 10**6 + 800000}\n" if index % 2 == 0 else f"gap {3600 * 10**6 - 800000}\n")
        for index in range(1, count))
    first = f"{BHZ} broken findings {count - 1} first record 2 offset 128 gap {3600 * 10**6 - 800000}\n"
    yield from reports("many findings", 1, gaps, lines, first, f"records {count} channels 1\n")


def devices() -> Cases:
    """Outputs that fail at each byte, and refused allocations."""
    failing, refusing = library("failing_devices"), library("refuse_memory")
    if failing is None or refusing is None:
        yield Skipped("audits of each finding with failing devices", COMPILER)
        return
    for room in range(len(TEXT)):
        yield Row(f"onto an output that takes {room} bytes", FIRST + LATE, ["audit", "--each"], 2,
                  TEXT[:room].encode(), WRITE_FAILED, env=preloaded(failing, WRITE_ROOM=room, PIECE=65536))
    yield from refuses("each finding", Row("", FIRST + LATE, ["audit", "--each"], 1), refusing, is_listing=True)


def rows() -> Cases:
    """All of them."""
    yield from findings()
    yield from many()
    yield from devices()
