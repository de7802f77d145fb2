"""Records that are listed, each the first one of the samples but for some of its bytes: the text is what the manual's
tables of the fixed section, of BTIME and of the blockettes make of those bytes."""

from __future__ import annotations

import struct
from datetime import datetime, timedelta

from driver.records import FRAMING, Part, at, chain_of_500, changed, record
from driver.rows import Cases, Row, both

FIRST = record()


def lists(name: str, *parts: Part, samples: int = 16, start: str = "2024-01-01T00:00:00.000000", rate: str = "20/1",
          encoding: int = 3, order: str = "big", end: str = "") -> Cases:
    """What a listing says of the record with these bytes."""
    text = f"0 XX_STA__BHZ D length 128 samples {samples} start {start} rate {rate} encoding {encoding} {order}{end}\n"
    yield from both(Row(name, changed(FIRST, parts), ["show"], 0, f"{text}records 1\n".encode()))


def refuses(name: str, archive: bytes, fault: str) -> Cases:
    """Bytes that are no record: the fault is the same whoever reads."""
    yield from both(Row(name, archive, ["show"], 2, f"records 0\nfault at 0 {fault}\n".encode()))
    yield Row(f"{name}, packed anew", archive, ["repack"], 2, b"", f"mseed: fault at 0 {fault}\n".encode())


def later(micros: int) -> str:
    """The instant so many microseconds into 2024."""
    return (datetime(2024, 1, 1) + timedelta(microseconds=micros)).isoformat(timespec="microseconds")


# The times of BTIMEs: the ends of what one here may say, an unused byte, the last day of a leap year, a leap second
# and the second that it is counted as.
TIMES = [
    ([7, 108, 0, 1, 0, 0, 0, 0, 0, 0], "1900-01-01T00:00:00.000000"),
    ([8, 52, 1, 109, 23, 59, 59, 0, 39, 15], "2100-12-31T23:59:59.999900"),
    ([7, 232, 0, 60, 1, 2, 3, 255, 17, 215], "2024-02-29T01:02:03.456700"),
    ([7, 232, 1, 110, 0, 0, 0, 0, 0, 0], "2024-12-31T00:00:00.000000"),
    ([7, 224, 1, 110, 23, 59, 60, 0, 0, 0], "2017-01-01T00:00:00.000000"),
    ([7, 225, 0, 1, 0, 0, 0, 0, 0, 0], "2017-01-01T00:00:00.000000"),
]
# Samples, factor and multiplier; the rate is factor times multiplier.
RATES = [(1, 1, 1, 1), (15, 4, 5, 20), (16, 200, 1, 200), (2, 258, 772, 199176), (3, 32767, 32767, 1073676289)]
# Activity, correction and microseconds, and what they add; activity 2 says that the correction is in the time already.
CORRECTIONS = [
    (0, 0, 0, 0), (0, 5000, 0, 500_000), (2, 5000, 0, 0), (253, 1, 0, 100), (2, -1, -50, -50), (0, -1, -128, -228),
    (0, 0, 127, 127), (0, 2_147_483_647, 0, 214_748_364_700), (0, -2_147_483_648, 0, -214_748_364_800),
]


def fields() -> Cases:
    """The fields of the fixed section."""
    for time, start in TIMES:
        yield from lists(f"the time {time}", at(20, *time), start=start)
    for samples, factor, multiplier, rate in RATES:
        yield from lists(f"{factor} times {multiplier}", (30, struct.pack(">Hhh", samples, factor, multiplier)),
                         samples=samples, rate=f"{rate}/1")
    for activity, correction, micros, added in CORRECTIONS:
        yield from lists(f"activity {activity}, correction {correction}, microseconds {micros}", at(36, activity),
                         (40, struct.pack(">i", correction)), (61, struct.pack("b", micros)), start=later(added))


def orders() -> Cases:
    """Byte orders of the header."""
    yield from lists("a little-endian header over big-endian words", at(20, 232, 7, 60, 0, 1, 2, 3, 0, 215, 17),
                     at(30, 44, 1, 246, 255, 1, 0), at(36, 0, 0, 0, 2, 254, 255, 255, 255, 64, 0, 48, 0),
                     at(48, 232, 3, 56, 0, 11, 1, 7, 0), at(56, 233, 3, 0, 0, 0, 246, 0, 0),
                     samples=300, start="2024-02-29T01:02:03.456490", rate="1/10", encoding=11)
    # Year 2056 has one value in both orders: big-endian where the day is then from 1 to 366.
    yield from lists("day 1 of 2056", at(20, 8, 8, 0, 1), start="2056-01-01T00:00:00.000000")
    yield from lists("day 256 of 2056", at(20, 8, 8, 1, 0), start="2056-09-12T00:00:00.000000")
    yield from lists("day 10 of 2056, little-endian", at(20, 8, 8, 10, 0), at(30, 16, 0, 20, 0, 1, 0),
                     at(44, 64, 0, 48, 0), at(48, 232, 3, 56, 0, 3, 0, 7, 0), at(56, 233, 3, 0, 0),
                     start="2056-01-10T00:00:00.000000", order="little")


# Bytes of the chain of blockettes; the encoding, the microseconds and the end of the line that they lead to.
CHAINS: list[tuple[str, list[Part], int, int, str]] = [
    ("no other bytes", [], 3, 0, ""),
    ("a 1001", [at(61, 5)], 3, 5, ""),
    ("a 1001 that names one before it", [at(58, 0, 48), at(61, 5)], 3, 5, ""),
    ("a 1000 that names one before it", [at(50, 0, 4)], 3, 0, ""),
    ("a 1001 before the 1000", [at(48, 3, 233, 0, 56, 0, 9, 0, 0, 3, 232, 0, 0, 10, 1, 7, 0)], 10, 9, ""),
    ("the next blockette 4 bytes after a 1001", [at(48, 3, 233, 0, 52, 3, 232, 0, 0, 11, 1, 7, 0)], 11, -24, ""),
    ("the first of two 1001", [at(58, 0, 64), at(61, 5), at(64, 3, 233, 0, 0, 0, 6)], 3, 5, ""),
    ("the first of two 1000", [at(56, 3, 232, 0, 64, 10, 0, 8, 0, 3, 233, 0, 0, 0, 7)], 3, 7, ""),
    ("a 100 after the 1000", [at(56, 0, 100, 0, 0)], 3, 0, " blockette100"),
    ("a 100 before the 1000", [at(48, 0, 100, 0, 52, 3, 232, 0, 0, 3, 1, 7, 0)], 3, 0, " blockette100"),
    ("a 100 in the last 4 bytes", [at(50, 0, 124), at(124, 0, 100, 0, 0)], 3, 0, " blockette100"),
    ("a 100 in the last 3 bytes", [at(50, 0, 125), at(125, 0, 100, 0)], 3, 0, ""),
    ("a 1001 in the last 7 bytes", [at(50, 0, 121), at(121, 3, 233, 0, 0, 0, 8, 0)], 3, 0, ""),
    ("a 1001 in the last 8 bytes", [at(50, 0, 120), at(120, 3, 233, 0, 0, 0, 8, 0, 0)], 3, 8, ""),
    ("a 1000 in the last 8 bytes", [at(46, 0, 120), at(120, 3, 232, 0, 0, 3, 1, 7, 0)], 3, 0, ""),
]


def faults() -> Cases:
    """What no bytes that may come can mend."""
    room = FIRST.ljust(132, b"\0")
    for parts, fault in FRAMING:
        name = " ".join(f"{list(part)} at {offset}" for offset, part in parts)
        yield from refuses(name, changed(room, parts), fault)
    longer = [at(46, 0, 124), at(124, 3, 232, 0, 0, 3, 1, 8, 0)]
    yield from refuses("a longer record's 1000", changed(room, longer), "truncated 132")
    yield from refuses("the longest record cut", changed(FIRST, [at(54, 20)]), "truncated 128")
    chain = FIRST[:48] + chain_of_500(0)[:-4]
    yield from refuses("the longest chain without its last blockette", chain, f"truncated {len(chain)}")


def rows() -> Cases:
    """All of them."""
    yield from fields()
    yield from orders()
    for name, parts, encoding, micros, end in CHAINS:
        yield from lists(name, *parts, encoding=encoding, start=later(micros), end=end)
    yield from faults()
