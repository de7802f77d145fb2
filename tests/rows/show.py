"""Archives that are listed: the output, the standard error and the status, byte for byte."""

from __future__ import annotations

import struct
from typing import Sequence

from driver.program import ROOT
from driver.records import blockette_1000, blockette_1001, chain_of_500, record
from driver.rows import Cases, Row, both
from driver.texts import IS_DIRECTORY, WRITE_FAILED, About

START = "2024-01-01T00:00:00.000000"
LONGER = record(samples=48, exponent=8, data=b"")
LONGER_TEXT = f"XX_STA__BHZ D length 256 samples 48 start {START} rate 20/1 encoding 3 big\n"
STEIM = blockette_1000(next=0, encoding=10)


def chained(blockettes: bytes, **changes) -> bytes:
    """A record of one sample and no data, with these blockettes."""
    return record(samples=1, blockettes=blockettes, data=b"", **changes)


def lists(name: str, archive: bytes, *lines: str, fault: str = "") -> Cases:
    """The lines of the records, whose count is written after them; and the fault, if any."""
    text = "".join(lines) + f"records {len(lines)}\n" + (f"fault at {fault}\n" if fault else "")
    yield from both(Row(name, archive, ["show"], 2 if fault else 0, text.encode()))


def archives() -> Cases:
    """Archives of sound records."""
    yield from lists("nothing", b"")
    yield from lists("two records", LONGER + LONGER, f"0 {LONGER_TEXT}", f"256 {LONGER_TEXT}")
    yield from lists("the first 300 bytes", (LONGER + LONGER)[:300], f"0 {LONGER_TEXT}", fault="256 truncated 44")
    between = record(order="<", samples=300, quality=b"R", factor=-10, activity=2, correction=7, encoding=11,
                     word_order=0, exponent=9, micros=-10, data=b"")
    yield from lists("little-endian headers between", LONGER + between + LONGER, f"0 {LONGER_TEXT}",
                     "256 XX_STA__BHZ R length 512 samples 300 start 2023-12-31T23:59:59.999990 rate 1/10 "
                     "encoding 11 little\n", f"768 {LONGER_TEXT}")
    little = record(order="<", year=2024, day=60, hour=1, minute=2, second=3, fraction=4567, samples=300, quality=b"R",
                    factor=-10, correction=-2, encoding=11, word_order=0, micros=-10, data=b"")
    yield from lists("a little-endian record", little, "0 XX_STA__BHZ R length 128 samples 300 "
                     "start 2024-02-29T01:02:03.456490 rate 1/10 encoding 11 little\n")
    longest = record(samples=65535, exponent=20, blockettes=blockette_1000(next=0, exponent=20), data=b"")
    yield from lists("the longest record", longest,
                     f"0 XX_STA__BHZ D length 1048576 samples 65535 start {START} rate 20/1 encoding 3 big\n")


def blockettes() -> Cases:
    """What the blockettes of a record of one sample say."""

    def says(name: str, archive: bytes, start: str = START, rate: str = "20/1", end: str = "") -> Cases:
        line = f"0 XX_STA__BHZ D length 128 samples 1 start {start} rate {rate} encoding 10 big{end}\n"
        yield from lists(name, archive, line)

    micros = "2024-01-01T00:00:00.0000"
    yield from says("a 1001 before the 1000", chained(blockette_1001(next=56, micros=49) + STEIM), f"{micros}49")
    yield from says("a blockette 100", chained(struct.pack(">HH", 100, 60) + b"\0" * 8 + STEIM), end=" blockette100")
    back = blockette_1000(encoding=10) + blockette_1001(next=48, micros=1)
    yield from says("a 1001 that points back", chained(back), f"{micros}01")
    yield from says("no rate", chained(STEIM, factor=0), rate="none")
    yield from says("a refused day", chained(STEIM, year=2023, day=366), "fault day")
    yield from lists("day 367", chained(STEIM, day=367), fault="0 order")
    yield from lists("no order", chained(STEIM, year=1899), fault="0 order")
    swapped = chained(blockette_1000(next=0, encoding=10, order="<"), order="<", year=2056, day=10)
    yield from says("year 2056, little-endian", swapped, "2056-01-10T00:00:00.000000")


def faults() -> Cases:
    """Bytes that are no record."""
    yield from lists("miniSEED 3", LONGER + b"MS\x03" + b"\0" * 40, f"0 {LONGER_TEXT}", fault="256 version3")
    yield from lists("the first bytes of miniSEED 3 alone", b"MS\x03", fault="0 version3")
    yield from lists("two bytes of it", b"MS", fault="0 truncated 2")
    yield from lists("another quality", chained(STEIM, quality=b"X"), fault="0 notdata")
    yield from lists("other bytes", LONGER + b"x" * 48, f"0 {LONGER_TEXT}", fault="256 notdata")
    yield from lists("a 1000 outside", chained(b"\0" * 76 + STEIM, first=124), fault="0 outside")
    for exponent in (6, 21):
        blockette = blockette_1000(next=0, encoding=10, exponent=exponent)
        yield from lists(f"an exponent of {exponent}", chained(blockette), fault=f"0 length {exponent}")
    yield from lists("no blockette", chained(STEIM, first=0), fault="0 no1000")
    yield from lists("no 1000 in the longest chain", chained(b"")[:48] + chain_of_500(0), fault="0 no1000")
    yield from lists("a chain that overlaps", chained(struct.pack(">HH", 500, 51)), fault="0 chain")


def devices() -> Cases:
    """A long listing, and devices that fail."""
    text = "".join(f"{256 * n} {LONGER_TEXT}" for n in range(3000)) + "records 3000\n"
    yield Row("many records", LONGER * 3000, ["show"], 0, text.encode())
    yield Row("a full output", LONGER * 3000, ["show"], 2, b"", WRITE_FAILED, out_to="/dev/full")
    yield Row("an input that cannot be read", ROOT, ["show"], 2, b"records 0\nfault at 0 read\n", IS_DIRECTORY)
    two = f"0 {LONGER_TEXT}256 {LONGER_TEXT}records 2\n"
    yield Row("a listing, and leaves 0 bytes", LONGER + LONGER, ["show"], 0, two.encode(), left=0)


def parsed() -> Cases:
    """Arguments that are refused in the parser's own text, before a byte is read."""
    refused: Sequence[tuple[str, str, str]] = [
        ("help", "Usage", "--help"),
        ("an unknown option", "bogus", "show --bogus"),
        ("a port out of range", "port", "serve --port 65536"),
        ("tries out of range", "tries", "fetch --tries 0"),
        ("an option given twice", "first", "serve --first 1 --first 2"),
        ("an unknown option and no command", "bogus", "--bogus"),
        ("a port of 0", "port", "audit --port 0"),
        ("more than a million tries", "tries", "show --tries 1000001"),
        ("an option given twice, of another command", "first", "show --first 1 --first 2"),
    ]
    for name, about, words in refused:
        row = Row(name, LONGER + LONGER, words.split(), 3, b"", About(about))
        yield row
        yield Row(f"{name}, and leaves 512 bytes", row.input, row.words, 3, b"", row.err, left=512)


def rows() -> Cases:
    """All of them."""
    for part in (archives, blockettes, faults, devices, parsed):
        yield from part()
