"""Archives that are audited, and packed anew: the output, the standard error and the status, byte for byte.

What a continuous archive is packed into is what models/packing.py makes of it by the rules of docs/format.md.
"""

from __future__ import annotations

import struct
from typing import Iterable, Iterator

from driver.program import ROOT
from driver.records import blockette_1000, chain_of_500, frame, next_record, record
from driver.rows import Cases, Row, both
from driver.texts import BAD_VALUE, IS_DIRECTORY, WRITE_FAILED, About
from models.auditing import repack

START = "2024-01-01T00:00:00.000000"
SECOND_START = "2024-01-01T00:00:00.800000"
BHZ = "XX_STA__BHZ"
FIRST, NEXT = record(), next_record()
TWO = FIRST + NEXT
BHN = {"codes": b"STA    BHNXX"}
SILENT = record(samples=0, encoding=4)
LATE = record(fraction=8250, micros=1)


def continuous(name: str, records: int, samples: int, start: str = START, rate: str = "20/1") -> str:
    """The line of a channel that is continuous."""
    return f"{name} continuous {start} rate {rate} records {records} samples {samples}\n"


ONE_TEXT = continuous(BHZ, 1, 16) + "records 1 channels 1\n"
TWO_TEXT = continuous(BHZ, 2, 32) + "records 2 channels 1\n"


def audits(name: str, status: int, archive: bytes, *lines: str) -> Iterator[Row]:
    """These lines, whether the archive is a file or comes through a pipe; and packing it anew says what they say."""
    text = "".join(lines)
    yield from both(Row(name, archive, ["audit"], status, text.encode()))
    yield packs_anew(name, status, archive, text)


def audits_file(name: str, status: int, archive: bytes, *lines: str) -> Iterator[Row]:
    """The same, through no pipe."""
    text = "".join(lines)
    yield Row(name, archive, ["audit"], status, text.encode())
    yield packs_anew(name, status, archive, text)


def packs_anew(name: str, status: int, archive: bytes, text: str) -> Row:
    """An archive of which an audit writes this text is packed anew. Where it can't be, the standard error names the
    fault, else the first channel that is broken, with its first finding."""
    name = f"{name}, packed anew"
    if status == 0:
        packed = repack(archive)
        return Row(name, archive, ["repack"], packed[2], packed[0], packed[1])
    line = "fault at" + text.rpartition("fault at")[2]
    if status == 1:
        before, _, behind = text.partition(" broken ")
        found = behind.partition(" first ")[2].partition("\n")[0]
        line = before.rpartition("\n")[2] + f" is broken\nmseed: {found}\n"
    return Row(name, archive, ["repack"], status, b"", f"mseed: {line}".encode())


def finds(name: str, archive: bytes, why: str, count: int = 1, record: int = 2, of: int = 2) -> Iterator[Row]:
    """So many findings of an archive's records, all of one channel, the first of them of this record."""
    line = f"{BHZ} broken findings {count} first record {record} offset {128 * (record - 1)} {why}\n"
    yield from audits(name, 1, archive, line, f"records {of} channels 1\n")


def finds_of_one(name: str, archive: bytes, why: str) -> Iterator[Row]:
    """A finding of the only record."""
    yield from finds(name, archive, why, record=1, of=1)


def joins() -> Cases:
    """Records that follow one another, or nearly."""
    yield from audits("nothing", 0, b"", "records 0 channels 0\n")
    yield from audits("two records", 0, TWO, TWO_TEXT)
    yield from audits("half a sample late", 0, FIRST + record(fraction=8250), TWO_TEXT)
    yield from audits("half a sample early", 0, FIRST + record(fraction=7750), TWO_TEXT)
    yield from finds("a microsecond more late", FIRST + LATE, "gap 25001")
    yield from finds("a microsecond more early", FIRST + record(fraction=7750, micros=-1), "overlap 25001")
    line = f"{BHZ} broken findings 1 first record 2 offset 128 gap 25001\n"
    yield from audits("a broken channel and a fault", 2, FIRST + LATE + FIRST[:10], line,
                      "records 2 channels 1\nfault at 256 truncated 10\n")


def cuts() -> Cases:
    """The first bytes of two records, as many as there are."""
    for size in range(1, 128):
        yield from audits_file(f"the first {size} bytes", 2, TWO[:size], "records 0 channels 0\n",
                               f"fault at 0 truncated {size}\n")
        yield from audits_file(f"the first {128 + size} bytes", 2, TWO[: 128 + size], ONE_TEXT,
                               f"fault at 128 truncated {size}\n")
    yield from audits("no bytes of them", 0, TWO[:0], "records 0 channels 0\n")
    yield from audits("the first of them", 0, TWO[:128], ONE_TEXT)
    yield from audits("both of them", 0, TWO[:256], TWO_TEXT)
    longer = record(samples=48, exponent=8)
    yield from audits("the first 300 bytes of longer ones", 2, (longer + longer)[:300], continuous(BHZ, 1, 48),
                      "records 1 channels 1\nfault at 256 truncated 44\n")


# Codes of a record, and the name of its channel.
ODD_CODES = [
    (b"S\0A \0  BHZXX", "XX_S?A__BHZ"),
    (b"     00   XX", "XX__00_"),
    (bytes(12), "___"),
    (b"ST  A L\x7fH\xff~!", "~!_ST??A_?L_?H?"),
    (b"\x20\x21\x1f\x7e\x7f\0 \0 \0 \0", "_?!?~?__"),
]


def channels() -> Cases:
    """What a channel is called, and which records are of it."""
    yield from audits("two channels, and a silent record", 0,
                      FIRST + record(**BHN) + SILENT + NEXT + next_record(**BHN),
                      continuous("XX_STA__BHN", 2, 32), continuous(BHZ, 2, 32), "records 5 channels 2\n")
    codes = [b"AAA  00BHZBB", b"ZZZ  10BHEAA", b"ZZZ  00BHZAA", b"ZZZ  00BHEAA", b"ZZ   10BHZAA"]
    yield from audits("the order of channels", 0, b"".join(record(codes=each) for each in codes),
                      *[continuous(name, 1, 16) for name in ("AA_ZZ_10_BHZ", "AA_ZZZ_00_BHE", "AA_ZZZ_00_BHZ",
                                                             "AA_ZZZ_10_BHE", "BB_AAA_00_BHZ")],
                      "records 5 channels 5\n")
    yield from audits("two channels of one name", 0, FIRST + next_record(codes=b"STA\0\0  BHZXX"),
                      continuous(BHZ, 1, 16, SECOND_START), continuous(BHZ, 1, 16), "records 2 channels 2\n")
    yield from audits("odd codes", 0, record(codes=b"S\0A \0 0\x7fH\xff~!"), continuous("~!_S?A_?0_?H?", 1, 16),
                      "records 1 channels 1\n")
    for codes_of, name in ODD_CODES:
        yield from audits(f"the name {name}", 0, record(codes=codes_of), continuous(name, 1, 16),
                          "records 1 channels 1\n")
    yield from audits("two channels", 0, FIRST + next_record(**BHN), continuous("XX_STA__BHN", 1, 16, SECOND_START),
                      continuous(BHZ, 1, 16), "records 2 channels 2\n")
    yield from audits("other qualities", 0,
                      FIRST + next_record(quality=b"R") + record(second=1, fraction=6000, quality=b"Q"),
                      continuous(BHZ, 3, 48), "records 3 channels 1\n")
    yield from audits("one of two channels broken", 1, record(**BHN) + FIRST + LATE + next_record(**BHN),
                      continuous("XX_STA__BHN", 2, 32),
                      f"{BHZ} broken findings 1 first record 3 offset 256 gap 25001\n", "records 4 channels 2\n")


def findings() -> Cases:
    """What is found of a record by itself, and which of several things comes first."""
    steim = "01000000 00000064 00000067 00010101"
    bad_word = "01800000 00000064 00000067 00010101 00000000"
    third = record(second=1, fraction=6000, factor=40)
    rate_100 = blockette_1000() + struct.pack(">HH", 100, 0) + b"\0" * 8
    yield from finds_of_one("another encoding", record(encoding=4), "encoding 4")
    yield from audits("another encoding, and no samples", 0, SILENT, "records 1 channels 0\n")
    yield from finds("day 366 of 2023", FIRST + next_record(year=2023, day=366), "time day")
    yield from finds("no rate", FIRST + next_record(factor=0), "norate")
    yield from finds_of_one("no rate of the first", record(factor=0), "norate")
    yield from finds_of_one("a blockette 100", record(blockettes=rate_100, data=b"\0" * 60), "blockette100")
    yield from finds_of_one("little-endian frames", frame(steim, 4, word_order=0), "littlesteim")
    yield from finds_of_one("another last sample", frame("01000000 00000064 00000068 00010101", 4),
                            "lastdiffers 103 104")
    yield from finds_of_one("another last sample below 0", frame("01000000 FFFFFF9C FFFFFF98 00FFFFFF", 4),
                            "lastdiffers -103 -104")
    yield from audits("four samples of a frame", 0, frame(steim, 4), continuous(BHZ, 1, 4), "records 1 channels 1\n")
    yield from finds_of_one("five of four samples", frame(steim, 5), "short 4")
    yield from finds_of_one("a word that means nothing", frame(bad_word, 5, encoding=11), "badword 0 4")
    yield from audits("such a word after the samples", 0, frame(bad_word, 4, encoding=11), continuous(BHZ, 1, 4),
                      "records 1 channels 1\n")
    yield from finds_of_one("a sum past 32 bits", frame("01000000 7FFFFFFF 7FFFFFFF 00010000", 2), "overflow 1")
    yield from finds("no time before all else",
                     FIRST + next_record(year=2023, day=366, factor=0, encoding=4, second=9), "time day")
    yield from finds("no rate before no samples", FIRST + next_record(factor=0, encoding=4, second=9), "norate")
    yield from finds("no samples before another rate", FIRST + next_record(factor=40, encoding=4, second=9),
                     "encoding 4")
    yield from finds("another rate", TWO + third, "ratechange", 1, 3, 3)
    yield from finds("another rate before a gap", TWO + record(second=9, factor=40), "ratechange", 1, 3, 3)


def corrections_and_rates() -> Cases:
    """Where a record follows, by corrections, rates, and what stands between."""
    third = record(second=1, fraction=6000)
    yield from finds("a correction", FIRST + next_record(correction=500), "gap 50000")
    yield from audits("one that is applied already", 0, FIRST + next_record(correction=500, activity=2), TWO_TEXT)
    yield from audits("a correction below 0", 0, FIRST + record(second=1, fraction=8000, correction=-10000), TWO_TEXT)
    yield from audits("a 1001 that points back", 0, record(next=48) + next_record(next=48), TWO_TEXT)
    same = FIRST + next_record(factor=40, multiplier=-2) + record(second=1, fraction=6000, factor=10, multiplier=2)
    yield from audits("a rate spelled otherwise", 0, same, continuous(BHZ, 3, 48), "records 3 channels 1\n")
    yield from audits("a rate that is not reduced", 0, record(factor=40, multiplier=-2) + next_record(),
                      continuous(BHZ, 2, 32, START, "40/2"), "records 2 channels 1\n")
    fast = {"factor": 3000, "multiplier": 1000}
    yield from finds("late by less than a microsecond", record(**fast) + record(micros=6, **fast), "gap 0")
    yield from finds("early by less than a microsecond", record(**fast) + record(micros=5, **fast), "overlap 0")
    yield from finds("two findings", FIRST + LATE + third, "gap 25001", 2, 2, 3)
    yield from finds("after a record without a time", FIRST + next_record(year=2023, day=366) + record(hour=9),
                     "time day", 1, 2, 3)
    yield from finds("after a record that is not read", FIRST + next_record(encoding=4) + third, "encoding 4", 1, 2, 3)
    yield from finds("late after one", FIRST + next_record(encoding=4) + record(second=1, fraction=6250, micros=1),
                     "encoding 4", 2, 2, 3)
    yield from audits("a silent record between", 0, FIRST + record(samples=0, hour=9, factor=40, activity=48) + NEXT,
                      continuous(BHZ, 2, 32), "records 3 channels 1\n")


def over_new_year(activity: int, second: int) -> bytes:
    """The last ten seconds of 2016, and six more samples; and what comes so many seconds into the next year."""
    return record(factor=1, year=2016, day=366, hour=23, minute=59, second=50, activity=activity) \
        + record(factor=1, year=2017, second=second)


def leap_seconds() -> Cases:
    """Records over a leap second, by the flags of the first."""
    text = continuous(BHZ, 2, 32, "2016-12-31T23:59:50.000000", "1/1") + "records 2 channels 1\n"
    yield from audits("over a leap second", 0, over_new_year(16, 5), text)
    yield from finds("a second late after one", over_new_year(16, 6), "gap 1000000")
    yield from finds("no word of one", over_new_year(0, 5), "overlap 1000000")
    yield from finds("both leap flags", over_new_year(48, 5), "leap")
    yield from audits("over a leap second that is left out", 0, over_new_year(32, 7), text)
    yield from audits("a leap second in the last record", 0, FIRST + next_record(activity=16), TWO_TEXT)
    before = {"factor": 1, "year": 2016, "day": 366, "hour": 23, "minute": 59}
    yield from audits("second 60", 0, record(second=44, **before) + record(second=60, **before),
                      continuous(BHZ, 2, 32, "2016-12-31T23:59:44.000000", "1/1"), "records 2 channels 1\n")


def other_bytes() -> Cases:
    """Bytes of other kinds."""
    no_1000 = record(blockettes=b"", data=b"")[:48] + chain_of_500(0)
    yield from audits("no 1000 in the longest chain", 2, no_1000, "records 0 channels 0\nfault at 0 no1000\n")
    yield from audits("a little-endian record", 0, record(order="<", factor=-10, encoding=1, word_order=0),
                      continuous(BHZ, 1, 16, START, "1/10"), "records 1 channels 1\n")
    # Some hundred records are longer than one read of the program.
    many = [record(minute=n // 75, second=n * 8 // 10 % 60, fraction=n * 8 % 10 * 1000) for n in range(700)]
    yield from audits("many records", 0, b"".join(many), continuous(BHZ, 700, 11200), "records 700 channels 1\n")


# Which bytes of the second record are no record where they are 255, and what is found where they are.
FAULTS_OF_255 = [("notdata", range(8)), ("order", (20, 22)), ("truncated 128", (46, 47)), ("no1000", (48, 49)),
                 ("length 255", (54,))]
FINDINGS_OF_255 = [
    ("gap 725846400000000", (21,)), ("gap 21945600000000", (23,)), ("time hour", (24,)), ("time minute", (25,)),
    ("time second", (26,)), ("time fraction", (28,)), ("short 16", (30, 31)), ("ratechange", (32, 33, 34, 35)),
    ("overlap 1677721600", (40,)), ("gap 1671168000", (41,)), ("gap 6528000", (42,)), ("gap 25500", (43,)),
    ("dataoffset", (44, 45)), ("encoding 255", (52,)),
]
NAMES_OF_255 = ["XX_?TA__BHZ", "XX_S?A__BHZ", "XX_ST?__BHZ", "XX_STA?__BHZ", "XX_STA??__BHZ", "XX_STA_?_BHZ",
                "XX_STA_??_BHZ", "XX_STA__?HZ", "XX_STA__B?Z", "XX_STA__BH?", "?X_STA__BHZ", "X?_STA__BHZ"]
NOTHING_OF_255 = [27, 29, 36, 37, 38, 39, 50, 51, 53, *range(55, 128)]


def bytes_of_255() -> Cases:
    """One byte of the second record is 255."""

    def with_255(offset: int) -> tuple[str, bytes]:
        return f"255 at {offset}", FIRST + NEXT[:offset] + b"\xff" + NEXT[offset + 1 :]

    def rows(offsets: Iterable[int], status: int, text: str) -> Iterator[Row]:
        for offset in offsets:
            name, archive = with_255(offset)
            yield from audits_file(name, status, archive, text)

    for fault, offsets in FAULTS_OF_255:
        yield from rows(offsets, 2, f"{ONE_TEXT}fault at 128 {fault}\n")
    for why, offsets in FINDINGS_OF_255:
        line = f"{BHZ} broken findings 1 first record 2 offset 128 {why}\n"
        yield from rows(offsets, 1, line + "records 2 channels 1\n")
    for offset, name in enumerate(NAMES_OF_255, 8):
        other = continuous(name, 1, 16, SECOND_START)
        yield from rows([offset], 0, continuous(BHZ, 1, 16) + other + "records 2 channels 2\n")
    yield from rows(NOTHING_OF_255, 0, TWO_TEXT)


def words() -> Cases:
    """How much of the input is read; and other arguments, for which nothing is read."""
    yield Row("an audit, and leaves 0 bytes", TWO, ["audit"], 0, TWO_TEXT.encode(), left=0)
    broken = f"{BHZ} broken findings 1 first record 2 offset 128 gap 25001\nrecords 2 channels 1\n"
    yield Row("an audit with a fault, and leaves 0 bytes", FIRST + LATE + FIRST[:10], ["audit"], 2,
              f"{broken}fault at 256 truncated 10\n".encode(), left=0)
    refused: list[tuple] = [
        ("no word", About("Commands:")),
        ("another word", BAD_VALUE, "unpack"),
        ("an option of another command", About("--port"), "audit", "--port", "18000"),
        ("an option and no command", About("--length"), "--length=512"),
        ("a capital letter", BAD_VALUE, "Audit"),
        ("a space after", BAD_VALUE, "audit "),
        ("an empty word", BAD_VALUE, ""),
        ("a word that is not UTF-8", BAD_VALUE, b"audit\xff"),
    ]
    for name, err, *given in refused:
        yield from both(Row(name, TWO, given, 3, b"", err))
        yield Row(f"{name}, and leaves 256 bytes", TWO, given, 3, b"", err, left=256)


def devices() -> Cases:
    """An output, an input and a standard error that fail."""
    yield Row("a full output", TWO, ["audit"], 2, b"", WRITE_FAILED, out_to="/dev/full")
    yield Row("an input that cannot be read", ROOT, ["audit"], 2, b"records 0 channels 0\nfault at 0 read\n",
              IS_DIRECTORY)
    yield Row("full standard error", TWO, ["audit"], 2, out_to="/dev/full", err_to="/dev/full")
    yield Row("full standard error for other words", TWO, [], 3, err_to="/dev/full")


def rows() -> Cases:
    """All of them."""
    for part in (joins, cuts, channels, findings, corrections_and_rates, leap_seconds, other_bytes, bytes_of_255, words,
                 devices):
        yield from part()
