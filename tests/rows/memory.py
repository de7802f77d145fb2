"""Each of the program's allocations refused in turn, alone and with all after it: each such run writes
`mseed: no memory` to its standard error and ends with status 2. An audit writes nothing then, and a listing a prefix of
its text. An audit of many records allocates as often as one of four, and no more. Heaps that are bounded suffice.
"""

from __future__ import annotations

from dataclasses import replace
from typing import Generator

from driver.helpers import COMPILER, library, preloaded, refused_in_turn
from driver.links import free_port
from driver.program import SAMPLES
from driver.records import record
from driver.rows import Case, Cases, Fact, Result, Row, Skipped, holds
from driver.texts import NO_MEMORY, Expected, PrefixOf, matches

TWO = (SAMPLES / "two_records.mseed").read_bytes()
# The first of them, and the same of another channel, over and over.
PAIR = TWO[:128] + TWO[:128].replace(b"BHZ", b"BHN")
FOUR, MANY = PAIR * 2, PAIR * 5000
# Records of Steim frames.
FRAMES = (SAMPLES / "steim2.mseed").read_bytes()
# More memory than four records need.
ENOUGH = 16777216
# The memory for the sample network's records, and less than a list of one channel's samples takes beside them.
FOR_FRAMES = 300_000


def refuses(name: str, row: Row, refusing: str, is_listing: bool = False) -> Generator[Case, None, int]:
    """A run with each allocation refused in turn, until there is none to refuse; then all is as without. How many runs
    that needed."""
    whole = replace(row, env=preloaded(refusing, REFUSE=0)).run()
    out: Expected = PrefixOf(whole.out) if is_listing else b""
    yield Fact(f"{name} with all its memory", row.status, whole.status)
    for number, came in refused_in_turn(row, refusing):
        if came.status == row.status:
            break
        yield refused(f"{name} with allocation {number} refused", came, out)
        came = replace(row, env=preloaded(refusing, REFUSE_FROM=number)).run()
        yield refused(f"{name} with all allocations from {number} on refused", came, out)
    yield Fact(f"{name} with no allocation refused at {number}", whole, came)
    yield holds(f"{name} allocates", number > 5, number)
    return number


def refused(name: str, came: Result, out: Expected) -> Fact:
    """A run that ended for want of memory, with this output."""
    return Fact(name, (2, True, NO_MEMORY), (came.status, matches(out, came.out) or came.out, came.err))


def least(refusing: str) -> Cases:
    """The least memory that an audit of four records can do with, to a byte: less is refused, and many need no more."""
    four, many = (Row("", archive, ["audit"], 1) for archive in (FOUR, MANY))
    too_few, enough = 0, ENOUGH
    while enough - too_few > 1:
        heap = (too_few + enough) // 2
        if replace(four, env=preloaded(refusing, HEAP=heap)).run().status == 1:
            enough = heap
        else:
            too_few = heap
    yield Row(f"four records in {too_few} bytes", FOUR, ["audit"], 2, b"", NO_MEMORY,
              env=preloaded(refusing, HEAP=too_few))
    for name, row in (("four", four), ("many", many)):
        whole = replace(row, env=preloaded(refusing, REFUSE=0)).run()
        yield Row(f"{name} records in {enough} bytes", row.input, row.words, 1, whole.out, whole.err,
                  env=preloaded(refusing, HEAP=enough))


def bounded(refusing: str) -> Cases:
    """Heaps that suffice. The text of 600 lines of up to 101 bytes takes 65,536: a text has room for the first word of
    its first line, and doubles. What is kept of 9,000 channels takes no more than an eighth beyond what they need.
    Steim frames that are packed anew as Steim frames take no memory for their samples, which as integers are a list."""
    frames = (SAMPLES / "network.mseed").read_bytes()
    many = b"".join(record(codes=b"S%04d  %sXX" % (number // 3, (b"BHZ", b"BHN", b"BHE")[number % 3]))
                    for number in range(9000))
    for name, archive, command, heap in (
        ("a listing of 600 records", TWO[:128] * 600, "show", 200_000),
        ("an audit of 9,000 channels", many, "audit", 3_900_000),
        ("frames packed anew as frames", frames, "repack", FOR_FRAMES),
        ("frames packed anew as frames by stretches", frames, "repack --stretches", FOR_FRAMES),
    ):
        row = Row(f"{name} in {heap} bytes", archive, command.split(), 0)
        whole = replace(row, env=preloaded(refusing, REFUSE=0)).run()
        yield replace(row, out=whole.out, err=whole.err, env=preloaded(refusing, HEAP=heap))
    yield Row(f"frames packed anew as integers in {FOR_FRAMES} bytes", frames, ["repack", "--encoding", "int32"], 2,
              b"", NO_MEMORY, env=preloaded(refusing, HEAP=FOR_FRAMES))


def rows() -> Cases:
    """All of them."""
    refusing = library("refuse_memory")
    if refusing is None:
        yield Skipped("commands with allocations refused", COMPILER)
        return
    for name, archive, words, status in (
        ("two audit", TWO, "audit", 0),
        ("two audit in files", b"", f"audit {SAMPLES}/two_records.mseed {SAMPLES}/two_records.mseed", 1),
        ("two repack", TWO, "repack", 0),
        ("four repack", FOUR, "repack", 1),
        ("four repack --stretches", FOUR, "repack --stretches", 0),
        ("frames repack", FRAMES, "repack", 0),
        ("frames repack --stretches", FRAMES, "repack --stretches", 0),
        ("two repack --length 500", TWO, "repack --length 500", 3),
        ("two show", TWO, "show", 0),
        ("two show --bogus", TWO, "show --bogus", 3),
        ("two show --length", TWO, "show --length 512", 3),
        ("an ended serve --live", b"", f"serve --live --port {free_port()} --station STA --network XX", 0),
    ):
        yield from refuses(name, Row(name, archive, words.split(), status), refusing, is_listing=words == "show")
    of_four = yield from refuses("four audit", Row("", FOUR, ["audit"], 1), refusing)
    of_many = yield from refuses("many audit", Row("", MANY, ["audit"], 1), refusing)
    yield Fact("as many allocations for many records as for four", of_four, of_many)
    yield from least(refusing)
    yield from bounded(refusing)
