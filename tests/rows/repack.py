"""Archives that are packed anew: the output, the standard error and the status, byte for byte."""

from __future__ import annotations

from dataclasses import replace

from driver.program import SAMPLES
from driver.records import integers, next_record, payload, record
from driver.rows import Cases, Row, both
from driver.texts import BAD_VALUE, About, broken, high_rate, large_difference, large_sample, time_outside

FIRST, NEXT = record(), next_record(data=integers(range(16, 32)))
TWO = FIRST + NEXT
TWO_PACKED = record(samples=32, encoding=11, exponent=9, frames=1, data=payload(
    "03FD0000 00000000 0000001F 80111111 81111111 81111111 81111111 01010101"))
TWO_AGAIN = FIRST + record(fraction=8000, sequence=2, data=integers(range(16, 32)))
SHORT_INTEGERS = ["--encoding", "int32", "--length", "128"]


def packs(name: str, archive: bytes, packed: bytes, *words: str) -> Row:
    """The whole output, nothing on standard error, and status 0."""
    return Row(name, archive, ["repack", *words], 0, packed)


def zeros(count: int, **changes) -> bytes:
    """A record of so many zeros in Steim-2: their words of seven stand in the first frame, and in those after it."""
    words = -(-count // 7)
    data = b""
    for held in [min(words, 13)] + [min(words - at, 15) for at in range(13, words, 15)]:
        first = not data
        codes = ("00" * (3 if first else 1) + "11" * held).ljust(32, "0")
        frame = int(codes, 2).to_bytes(4, "big") + b"\0" * (8 if first else 0) + bytes.fromhex("80000000") * held
        data += frame.ljust(64, b"\0")
    return record(samples=count, encoding=11, exponent=9, data=data, **changes)


def two_records() -> Cases:
    """Two records, in several forms."""
    yield packs("nothing", b"", b"")
    yield packs("a silent record", record(samples=0, encoding=4), b"")
    yield packs("two records", TWO, TWO_PACKED)
    yield packs("what was packed", TWO_PACKED, TWO_PACKED)
    sample = (SAMPLES / "two_records.mseed").read_bytes()
    yield packs("the sample records", sample, TWO_AGAIN, "--length", "128", "--encoding", "int32")
    yield packs("the same", TWO_PACKED, TWO_AGAIN, *SHORT_INTEGERS)
    yield packs("a length with leading zeros", TWO, TWO_AGAIN, "--length", "0000128", "--encoding=int32")


def steim_words() -> Cases:
    """Words that are as full as can be."""
    # 722 zeros: 103 words of seven, and one more
    last = record(samples=1, second=36, fraction=500, sequence=2, encoding=11, exponent=9, frames=1,
                  data=payload("02000000 00000000 00000000 40000000"))
    yield packs("722 zeros", zeros(361) + zeros(361, second=18, fraction=500), zeros(721, frames=7) + last)
    # differences 300 1 1 1 1 after a word of seven zeros, and after two of four
    from_300 = [300, 301, 302, 303, 304]
    yield packs("differences 300 1 1 1 1 in Steim-2", record(samples=12, data=integers([0] * 7 + from_300)),
                record(samples=12, encoding=11, frames=1, data=payload(
                    "03A00000 00000000 00000130 80000000 D2C00401 80008001")), "--length", "128")
    yield packs("differences 300 1 1 1 1 in Steim-1", record(samples=13, data=integers([0] * 8 + from_300)),
                record(samples=13, encoding=10, frames=1, data=payload(
                    "016B0000 00000000 00000130 00000000 00000000 012C0001 00010001 00000001")),
                "--length", "128", "--encoding", "steim1")


def times() -> Cases:
    """Where samples stand, record by record."""
    # rounded down
    third = {"factor": 3}
    yield packs("thirds of a second", record(samples=33, exponent=8, data=integers(range(33)), **third),
                record(data=integers(range(16)), **third)
                + record(data=integers(range(16, 32)), sequence=2, second=5, fraction=3333, micros=33, **third)
                + record(samples=1, data=integers([32]), sequence=3, second=10, fraction=6667, micros=-34, **third),
                *SHORT_INTEGERS)
    # a leap second after the tenth of 32 samples
    before = {"year": 2016, "day": 366, "hour": 23, "minute": 59, "factor": 1}
    first = record(samples=10, second=50, activity=16, data=integers(range(10)), **before)
    leap = first + record(samples=22, second=59, exponent=8, data=integers(range(10, 32)), **before)
    packed = first + record(samples=16, second=59, sequence=2, data=integers(range(10, 26)), **before) \
        + record(samples=6, year=2017, second=15, factor=1, sequence=3, data=integers(range(26, 32)))
    yield packs("a leap second", leap, packed, *SHORT_INTEGERS)
    yield packs("what was packed over a leap second", packed, packed, *SHORT_INTEGERS)


BHN = {"codes": b"STA    BHNXX"}
LATE = record(fraction=8250, micros=1)
WIDE = record(samples=2, data=integers([0, 2**29]))
WIDE_BHN = record(samples=2, data=integers([0, 2**29]), **BHN)


def channels() -> Cases:
    """Channels, in the order of their keys."""
    second = {"fraction": 8000, "sequence": 2, "data": integers(range(16, 32))}
    archive = FIRST + record(samples=0, encoding=4) + record(**BHN) + NEXT + next_record(data=second["data"], **BHN)
    packed = record(**BHN) + record(**second, **BHN) + FIRST + record(**second)
    yield packs("two channels", archive, packed, *SHORT_INTEGERS)


def refuses(name: str, status: int, line: str, archive: bytes, *words: str) -> Cases:
    """A line on standard error, and nothing on the output."""
    yield from both(Row(name, archive, ["repack", *words], status, b"", f"mseed: {line}\n".encode()))


def is_broken(name: str, archive: bytes, channel: str, record: int, why: str) -> Cases:
    """A channel that is broken, and its first finding: where it is and why. Each record has 128 bytes."""
    yield from both(Row(name, archive, ["repack"], 1, b"", broken(channel, record, 128 * (record - 1), why)))


def misfits(name: str, archive: bytes, channel: str, why: tuple[int, str], *words: str) -> Cases:
    """A channel that can't be packed: the number of the reason, and the reason."""
    number, more = why
    yield from refuses(name, 2, f"{channel} does not fit {number}\nmseed: {more}", archive, *words)


def unpacked() -> Cases:
    """What can't be packed, and why."""
    late = record(**BHN) + FIRST + LATE + next_record(codes=b"STA    BHEXX", second=9)
    gap = (SAMPLES / "gap.mseed").read_bytes()
    yield from is_broken("a gap", gap, "XX_STA__BHZ", 2, "gap 25001")
    yield from is_broken("the first broken channel", late, "XX_STA__BHZ", 3, "gap 25001")
    yield from is_broken("the first of two by its key", record(encoding=4) + record(encoding=4, **BHN), "XX_STA__BHN",
                         2, "encoding 4")
    yield from is_broken("the first of two findings", FIRST + record(**BHN) + LATE + record(encoding=4), "XX_STA__BHZ",
                         3, "gap 25001")
    yield from is_broken("behind a record without samples", record(samples=0, encoding=4) + record(hour=24),
                         "XX_STA__BHZ", 2, "time hour")
    yield from is_broken("without a rate", record(factor=0), "XX_STA__BHZ", 1, "norate")
    yield from refuses("a fault before a broken channel", 2, "fault at 128 truncated 9",
                       record(encoding=4) + FIRST[:9])
    yield from refuses("a cut archive", 2, "fault at 128 truncated 72", TWO[:200])
    yield from refuses("bytes that are no record", 2, "fault at 128 notdata", FIRST + b"\0" * 128)
    yield from is_broken("a broken channel before one that does not fit", WIDE_BHN + record(encoding=4), "XX_STA__BHZ",
                         2, "encoding 4")


def unfit() -> Cases:
    """Channels that can't be packed: which sample, and what the encoding holds."""
    yield from misfits("a sample past 16 bits", record(samples=2, data=integers([0, 2**15])), "XX_STA__BHZ",
                       large_sample(2, 2**15), "--encoding", "int16")
    yield from misfits("a sample below 16 bits", record(samples=2, data=integers([-2**15 - 1, -2**15])), "XX_STA__BHZ",
                       large_sample(1, -2**15 - 1), "--encoding", "int16")
    yield from misfits("the first of two samples past 16 bits, in a later record",
                       FIRST + next_record(data=integers([*range(15), 2**15])) + next_record(
                           second=1, fraction=6000, data=integers([2**15 + 1] * 16)), "XX_STA__BHZ",
                       large_sample(32, 2**15), "--encoding", "int16")
    yield packs("samples of 16 bits", record(samples=2, data=integers([-2**15, 2**15 - 1])),
                record(samples=2, encoding=1, data=bytes.fromhex("80007FFF")), "--encoding", "int16", "--length", "128")
    yield from misfits("a difference past 30 bits", WIDE, "XX_STA__BHZ", large_difference(2, 2**29))
    yield from misfits("a difference below 30 bits", record(samples=3, data=integers([7, 7, 6 - 2**29])), "XX_STA__BHZ",
                       large_difference(3, -2**29 - 1))
    yield from misfits("a difference past 30 bits between two records",
                       FIRST + next_record(data=integers([2**29 + 15] * 16)), "XX_STA__BHZ",
                       large_difference(17, 2**29))
    yield from misfits("a difference past 32 bits", record(samples=2, data=integers([-(2**31), 2**31 - 1])),
                       "XX_STA__BHZ", large_difference(2, 2**32 - 1, "steim1"), "--encoding", "steim1")
    yield from misfits("a difference below 32 bits", record(samples=2, data=integers([2**31 - 1, -(2**31)])),
                       "XX_STA__BHZ", large_difference(2, 1 - 2**32, "steim1"), "--encoding", "steim1")
    yield from misfits("the first that does not fit", WIDE + WIDE_BHN, "XX_STA__BHN", large_difference(2, 2**29))
    yield from misfits("a rate past 500,000", record(samples=1, factor=500001 // 20 + 1, multiplier=20), "XX_STA__BHZ",
                       high_rate("500020/1"))


def late() -> Cases:
    """Channels of which a sample lies in no year from 1900 to 2100: the first such sample, and its instant."""
    last = {"year": 2100, "day": 365, "hour": 23, "minute": 59, "second": 59, "fraction": 9999}
    for name, archive, number, instant in (
        ("a time past 2100", record(samples=2, factor=1, **last), 2, "2101-01-01T00:00:00.999900"),
        # half of a ten-thousandth is rounded up
        ("a time that is rounded past 2100", record(samples=3, factor=25000, **last), 3, "2100-12-31T23:59:59.999980"),
        ("a time at the end of 2100", record(samples=3, factor=20000, **last), 2, "2100-12-31T23:59:59.999950"),
        # from the first of December on, a day a sample
        ("the 32nd of 40 samples", record(samples=40, exponent=8, factor=-21600, multiplier=-4, year=2100, day=335,
                                          data=integers(range(40))), 32, "2101-01-01T00:00:00.000000"),
        ("a time in the second record", record(factor=-21600, multiplier=-4, year=2100, day=335)
         + record(factor=-21600, multiplier=-4, year=2100, day=351, data=integers(range(16, 32))), 32,
         "2101-01-01T00:00:00.000000"),
        # three periods of 2^30 seconds
        ("a sample in 34 years", record(samples=16, factor=-32768, multiplier=-32768), 4, "2126-01-28T16:51:12.000000"),
        # a time correction that hasn't been applied
        ("a time before 1900", record(samples=2, year=1900, correction=-2), 1, "1899-12-31T23:59:59.999800"),
    ):
        yield from misfits(name, archive, "XX_STA__BHZ", time_outside(number, instant))


def words() -> Cases:
    """Lengths, encodings and other options that there aren't."""
    bad = Row("", TWO, [], 3, b"", BAD_VALUE)
    for length in ("500", "64", "8192", "0", "", "00000128", "+128", "128x", "512.0", "-128", " 512"):
        yield from both(replace(bad, name=f"length '{length}'", words=["repack", f"--length={length}"]))
    for encoding in ("steim3", "Steim2", "int", "", "11"):
        yield from both(replace(bad, name=f"encoding '{encoding}'", words=["repack", f"--encoding={encoding}"]))
    yield from both(replace(bad, name="an option of another command", words=["repack", "--port", "1"],
                            err=About("--port")))
    yield from both(replace(bad, name="a file without a name", words=["repack", ""]))
    yield from both(replace(bad, name="a length for the audit", words=["audit", "--length", "512"],
                            err=About("--length")))
    yield from both(replace(bad, name="an encoding for the listing", words=["show", "--encoding", "steim2"],
                            err=About("--encoding")))


def rows() -> Cases:
    """All of them."""
    for part in (two_records, steim_words, times, channels, unpacked, unfit, late, words):
        yield from part()
