"""Archives that are packed anew by stretches: rows by hand, and archives at random beside a second program."""

from __future__ import annotations

import random
from dataclasses import replace

from driver.batches import Batch
from driver.records import integers, payload, record
from driver.rows import Cases, Fact, Row, both
from driver.texts import BAD_VALUE, About, high_rate, large_difference, large_sample, time_outside
from models.series import CODES
from models.stretch_archives import archive_at_random
from models.stretches import restretched

SHORT = ["--encoding", "int32", "--length", "128"]
LONG = ["--encoding", "int32", "--length", "512"]
LEAVE = ["--leave", *SHORT]
ARCHIVES = 2000

FIRST = record()
BHE, BHN = {"codes": b"STA    BHEXX"}, {"codes": b"STA    BHNXX"}
WIDE = record(samples=2, data=integers([0, 2**29]), fraction=9000)
LOG = record(codes=b"STA    LOGXX", encoding=0, factor=0, data=b"started" + b" " * 9)


def sixteen(of: int, **changes) -> bytes:
    """A record of sixteen samples, so many further than the first."""
    return record(data=integers(range(16 * of, 16 * of + 16)), **changes)


def many(records: int, **changes) -> bytes:
    """One record with the samples of several of those."""
    return record(samples=16 * records, exponent=9, data=integers(range(16 * records)), **changes)


def packs(name: str, archive: bytes, packed: bytes, *words: str) -> Cases:
    """The whole output, nothing on standard error, and status 0."""
    yield from both(Row(name, archive, ["repack", "--stretches", *words], 0, packed))


def reports(name: str, status: int, lines: list[str], archive: bytes, packed: bytes, *words: str) -> Cases:
    """Lines on standard error, and what is written beside."""
    errors = "".join(f"mseed: {line}\n" for line in lines).encode()
    yield from both(Row(name, archive, ["repack", "--stretches", *words], status, packed, errors))


def gaps() -> Cases:
    """Records that begin another stretch, each at its own time."""
    yield from packs("a gap", FIRST + sixteen(1, fraction=8250, micros=1),
                     FIRST + sixteen(1, fraction=8250, micros=1, sequence=2), *SHORT)
    yield from packs("an overlap", FIRST + sixteen(1, fraction=7749),
                     FIRST + sixteen(1, fraction=7749, sequence=2), *SHORT)
    yield from packs("another rate", FIRST + sixteen(1, fraction=8000, factor=40),
                     FIRST + sixteen(1, fraction=8000, factor=40, sequence=2), *SHORT)
    yield from packs("both leap flags", sixteen(0, activity=48) + sixteen(1, fraction=8000),
                     FIRST + sixteen(1, fraction=8000, sequence=2), *SHORT)
    yield from packs("both leap flags of the last record", FIRST + sixteen(1, fraction=8000, activity=48),
                     many(2), *LONG)
    yield from packs("a record without samples between two",
                     FIRST + record(samples=0, activity=48, fraction=8000) + sixteen(1, fraction=8000), many(2), *LONG)


def clocks() -> Cases:
    """Records that begin near where their stretch has its next sample: a quarter of 50 ms is 12.5 ms."""
    yield from packs("a quarter of a period late", FIRST + sixteen(1, fraction=8125), many(2), *LONG)
    yield from packs("a quarter of a period early", FIRST + sixteen(1, fraction=7875), many(2), *LONG)
    yield from packs("a microsecond later", FIRST + sixteen(1, fraction=8125, micros=1),
                     FIRST + sixteen(1, fraction=8125, micros=1, sequence=2), *SHORT)
    yield from packs("a microsecond earlier", FIRST + sixteen(1, fraction=7875, micros=-1),
                     FIRST + sixteen(1, fraction=7875, micros=-1, sequence=2), *SHORT)
    # each record a tenth of a period further from the clock of the first: the fourth is too far
    late = FIRST + sixteen(1, fraction=8050) + sixteen(2, second=1, fraction=6100)
    last = {"second": 2, "fraction": 4150}
    yield from packs("a clock that is slow", late + sixteen(3, **last), many(3) + record(
        samples=16, exponent=9, data=integers(range(48, 64)), sequence=2, **last), *LONG)
    early = FIRST + sixteen(1, fraction=7950) + sixteen(2, second=1, fraction=5900)
    last = {"second": 2, "fraction": 3850}
    yield from packs("a clock that is fast", early + sixteen(3, **last), many(3) + record(
        samples=16, exponent=9, data=integers(range(48, 64)), sequence=2, **last), *LONG)
    # 16 periods of 13 Hz are 1.230769 s, and a quarter of one is 0.019231 s
    thirteen = {"samples": 1, "factor": 13, "second": 1, "data": integers([16])}
    yield from packs("13 Hz", record(factor=13, data=integers(range(16))) + record(fraction=2500, **thirteen),
                     record(factor=13, data=integers(range(16)))
                     + record(fraction=2308, micros=-31, sequence=2, **thirteen), *SHORT)


def leap_seconds() -> Cases:
    """A leap second within a stretch stays where it is."""
    before = {"year": 2016, "day": 366, "hour": 23, "minute": 59, "factor": 1}
    first = record(samples=10, second=50, activity=16, data=integers(range(10)), **before)
    after = record(samples=6, second=59, data=integers(range(10, 16)), **before)
    yield from packs("a leap second", first + after, first + record(
        samples=6, second=59, sequence=2, data=integers(range(10, 16)), **before), *SHORT)
    yield from packs("a leap second that nothing says", record(samples=10, second=50, data=integers(range(10)), **before)
                     + after, record(samples=10, second=50, data=integers(range(10)), **before)
                     + record(samples=6, second=59, sequence=2, data=integers(range(10, 16)), **before), *SHORT)


def unfit(channel: str, stretch: int, why: tuple[int, str]) -> list[str]:
    """The lines about a channel of which a stretch can't be packed: the number of the reason, and the reason."""
    number, more = why
    return [f"XX_STA__{channel} does not fit {number} stretch {stretch}", more]


def misfits() -> Cases:
    """Stretches that can't be packed, whether or not their channels are left out: which sample of the stretch, and what
    the encoding holds."""
    fast = record(samples=1, factor=500001 // 20 + 1, multiplier=20)
    late = record(samples=2, year=2100, day=365, hour=23, minute=59, second=59, fraction=9999, factor=1)
    loud = sixteen(1, fraction=8000) + record(samples=3, data=integers([32, 2**15 - 1, 2**15]), second=1, fraction=6000)
    for name, archive, stretch, why, words in (
        ("a difference past 30 bits", FIRST + WIDE, 2, large_difference(2, 2**29), []),
        ("a difference past 30 bits between two records",
         FIRST + record(samples=1, data=integers([15 - 2**29 - 1]), fraction=8000), 1,
         large_difference(17, -2**29 - 1), []),
        ("a difference past 32 bits", record(samples=2, data=integers([2**31 - 1, -2])), 1,
         large_difference(2, -2**31 - 1, "steim1"), ["--encoding", "steim1"]),
        ("a sample past 16 bits", FIRST + loud, 1, large_sample(35, 2**15), ["--encoding", "int16"]),
        ("a sample past 16 bits behind a gap", record(second=5) + record(second=7) + loud, 3, large_sample(19, 2**15),
         ["--encoding", "int16"]),
        ("a rate past 500,000", FIRST + fast, 2, high_rate("500020/1"), []),
        ("a time past 2100", FIRST + late, 2, time_outside(2, "2101-01-01T00:00:00.999900"), []),
    ):
        lines = unfit("BHZ", stretch, why)
        yield from reports(name, 2, lines, archive, b"", *words)
        yield from reports(f"{name}, left out", 2, lines, archive, b"", "--leave", *words)
    # two that are left out, and one that is written
    archive = record(samples=2, data=integers([0, -2**15 - 1]), **BHN) + FIRST + record(**BHE) + late
    lines = unfit("BHN", 1, large_sample(2, -2**15 - 1))
    lines += unfit("BHZ", 2, time_outside(2, "2101-01-01T00:00:00.999900"))
    packed = record(encoding=1, data=b"".join(number.to_bytes(2, "big") for number in range(16)), **BHE)
    yield from reports("two left out", 2, lines, archive, packed, "--leave", "--encoding", "int16", "--length", "128")
    yield from reports("the first of two", 2, lines[:2], archive, b"", "--encoding", "int16")


def refused() -> Cases:
    """What can't be packed, and what is written of the rest."""
    differs = record(encoding=10, frames=1, samples=2, data=payload("01000000 00000000 00000009 00010000"))
    lines = ["XX_STA__BHZ is broken", "record 1 offset 0 lastdiffers 1 9"]
    yield from reports("a wrong constant", 1, lines, differs, b"", *SHORT)
    yield from reports("a wrong constant, left out", 1, lines[:1], differs + record(**BHN), record(**BHN), *LEAVE)
    # a gap is no finding of its own
    lines[1] = "record 3 offset 256 lastdiffers 1 9"
    yield from reports("a wrong constant behind a gap", 1, lines, FIRST + record(second=5) + differs, b"", *SHORT)
    lines = ["XX_STA__LOG is broken", "record 1 offset 0 norate"]
    yield from reports("a log channel", 1, lines, LOG + FIRST, b"", *SHORT)
    yield from reports("a log channel, left out", 1, lines[:1], LOG + FIRST, FIRST, *LEAVE)
    lines = ["XX_STA__BHN is broken", "record 2 offset 128 encoding 4"]
    archive = FIRST + record(encoding=4, **BHN) + WIDE
    yield from reports("a broken channel and one that does not fit", 1, lines, archive, b"")
    lines[1:] = unfit("BHZ", 2, large_difference(2, 2**29))
    yield from reports("both left out", 2, lines, archive, b"", "--leave")
    yield from reports("a cut archive", 2, ["fault at 128 truncated 9"], FIRST + FIRST[:9], b"", "--leave")


def words() -> Cases:
    """Options that there aren't, or not together."""
    bad = Row("", FIRST, [], 3, b"", BAD_VALUE)
    for line in ("repack --leave", "repack --stretches --length 500", "repack --stretches - -"):
        yield from both(replace(bad, name=line, words=line.split()))
    for line, about in (("audit --stretches", "--stretches"), ("repack --stretches --port 1", "--port"),
                        ("show --leave", "--leave")):
        yield from both(replace(bad, name=line, words=line.split(), err=About(about)))


def at_random() -> Cases:
    """Archives at random."""
    source, wrong, seen = random.Random(20240229), [], set()
    with Batch() as batch:
        for number in range(ARCHIVES):
            archive = archive_at_random(source)
            exponent, encoding, leave = source.randrange(7, 13), source.choice(list(CODES)), source.random() < 0.5
            words = ["repack", "--stretches", "--length", str(2**exponent), "--encoding", encoding]
            came = batch.run(words + ["--leave"] * leave, archive)
            out, err, status = restretched(archive, exponent, CODES[encoding], leave)
            seen.add((status, leave))
            if (came.status, came.out, came.err) != (status, out, err):
                wrong.append((number, words, leave, status, err))
    yield Fact(f"{ARCHIVES} archives at random", [], wrong)
    yield Fact("ends of each kind", {(status, leave) for status in range(3) for leave in (False, True)}, seen)


def rows() -> Cases:
    """All of them."""
    for part in (gaps, clocks, leap_seconds, misfits, refused, words, at_random):
        yield from part()
