"""Records that are asked for by channel and by time: what `select` writes, and what audits, lists and packings say of
them, against a second program in Python (models/selecting.py). The rows before were worked out by hand."""

from __future__ import annotations

import os
import select as ready
import subprocess
import tempfile
from pathlib import Path
from random import Random
from typing import IO, Callable, Iterator, Sequence

from driver.batches import Batch
from driver.program import LIMIT, PROGRAM, SAMPLES
from driver.records import next_record, record
from driver.rows import Cases, Fact, Row, both, holds, started
from driver.texts import BAD_VALUE, IS_DIRECTORY, WRITE_FAILED, About, broken
from models.selecting import Ended, Selection, audit, chosen, repack, select, show
from models.windows import archive_for, selection_for

SEED = 20260527
ARCHIVES, WINDOWS = 400, 8

# The commands that take a selection besides, and what comes of each.
OVER_SELECTIONS: list[tuple[list[str], Callable[[bytes, Selection], Ended]]] = [
    (["audit"], audit),
    (["audit", "--each"], lambda archive, asked: audit(archive, asked, True)),
    (["show"], show),
    (["repack"], repack),
    (["repack", "--stretches"], lambda archive, asked: repack(archive, asked, True)),
    (["repack", "--stretches", "--leave"], lambda archive, asked: repack(archive, asked, True, True)),
]

# The samples of the first stand from 00:00:00 to 00:00:00.75, those of the second from 00:00:00.8 to 00:00:01.55.
FIRST, SECOND = record(), next_record()
TWO = FIRST + SECOND
UNTIMED = record(hour=24)
DAY = "2024-01-01"


def selects(name: str, words: Sequence[str], out: bytes, err: bytes = b"", archive: bytes = TWO,
            status: int = 0) -> Iterator[Row]:
    """What comes of `select` over an archive, as a file and through a pipe."""
    yield from both(Row(f"select {' '.join(words)}: {name}", archive, ["select", *words], status, out, err))


def windows() -> Cases:
    """A microsecond before a bound, at it, and after it."""
    yield from selects("all", [], TWO)
    yield from selects("nothing of nothing", [], b"", archive=b"")
    for name, words, out in [
            ("at the last sample of the first", [f"--from={DAY}T00:00:00.75"], TWO),
            ("after it", [f"--from={DAY}T00:00:00.750001"], SECOND),
            ("before it", [f"--from={DAY}T00:00:00.749999"], TWO),
            ("at the last sample of all", [f"--from={DAY}T00:00:01.55"], SECOND),
            ("after it", [f"--from={DAY}T00:00:01.550001"], b""),
            ("at the first sample of the second", [f"--until={DAY}T00:00:00.8"], FIRST),
            ("after it", [f"--until={DAY}T00:00:00.800001"], TWO),
            ("before it", [f"--until={DAY}T00:00:00.799999"], FIRST),
            ("at the first sample of all", [f"--until={DAY}"], b""),
            ("after it", [f"--until={DAY}T00:00:00.000001"], FIRST),
            ("in between", [f"--from={DAY}T00:00:00.75", f"--until={DAY}T00:00:00.8"], FIRST),
            ("a window without a sample", [f"--from={DAY}T00:00:00.76", f"--until={DAY}T00:00:00.79"], b""),
            ("a window between two samples", [f"--from={DAY}T00:00:00.01", f"--until={DAY}T00:00:00.02"], FIRST),
            ("the day", [f"--from={DAY}", "--until=2024-01-02"], TWO),
            ("the day of the year", ["--from=2024-001", "--until=2024-002"], TWO),
            ("second 60 is the next minute's first", ["--from=2023-12-31T23:59:60.75"], TWO),
            ("a microsecond after", ["--from=2023-12-31T23:59:60.750001Z"], SECOND),
            ("second 60 in any minute", ["--from=2023-12-31T11:22:60", "--until=2023-12-31T23:59:60.000001Z"], FIRST),
            ("day 366 of the year before the next", ["--from=2024-366"], b""),
            ("an hour", [f"--until={DAY}T00Z"], b"")]:
        yield from selects(name, words, out)


def headers() -> Cases:
    """A record stands by its header alone."""
    at, after = [f"--from={DAY}"], [f"--from={DAY}T00:00:00.000001"]
    for name, changes in [("no samples", {"samples": 0}), ("no rate", {"factor": 0}), ("one sample", {"samples": 1})]:
        yield from selects(f"{name}, at its start", at, record(**changes), archive=record(**changes))
        yield from selects(f"{name}, after it", after, b"", archive=record(**changes))
    hourly = record(factor=-3600, samples=3)
    yield from selects("three samples an hour apart", [f"--from={DAY}T02"], hourly, archive=hourly)
    yield from selects("after them", [f"--from={DAY}T02:00:00.000001"], b"", archive=hourly)
    leap = record(factor=1, activity=16)
    yield from selects("no leap second is put in", [f"--from={DAY}T00:00:15"], leap, archive=leap)
    yield from selects("after the last sample before one", [f"--from={DAY}T00:00:15.000001"], b"", archive=leap)
    # Two samples at 3 a second: the second is at 333,333 and a third microseconds.
    third = record(factor=3, samples=2)
    yield from selects("within the last microsecond", [f"--from={DAY}T00:00:00.333333"], third, archive=third)
    yield from selects("after it", [f"--from={DAY}T00:00:00.333334"], b"", archive=third)
    bad = record(data=b"\xff" * 64, encoding=99)
    yield from selects("what it holds isn't judged", [f"--until={DAY}T01"], bad, archive=bad)
    untimed = b"mseed: %d records without a time\n"
    yield from selects("no time", at, FIRST, untimed % 1, UNTIMED + FIRST)
    yield from selects("no time, twice", [f"--until={DAY}T01"], FIRST, untimed % 2, UNTIMED + FIRST + UNTIMED)
    yield from selects("no time, but no window", ["--channels=*_*_*_*"], UNTIMED + FIRST, archive=UNTIMED + FIRST)
    yield from selects("no time, of another channel", ["--channels=*_*_*_BHN", *at], b"", archive=UNTIMED + FIRST)
    yield from selects("no time, and a fault", at, FIRST, untimed % 1 + b"mseed: fault at 256 truncated 5\n",
                       UNTIMED + FIRST + FIRST[:5], 2)


def channels() -> Cases:
    """Patterns that match a channel, and others."""
    for pattern in ["*_*_*_*", "XX_STA__BHZ", "XX_STA_--_BHZ", "?X_S*A_*_???", "*_*STA*_**_B*Z", "XX_STB__BHZ,*_*__*Z"]:
        yield from selects("matches", ["--channels", pattern], TWO)
    for pattern in ["___", "XX_STA_00_BHZ", "XX_STA_?_BHZ", "xx_sta__bhz", "XX_ST__BHZ", "X_STA__BHZ", "XX_STA?__BHZ",
                    "XX_STA__BHZ*?", "XX_--__BHZ", "*_*_---_*", "*_*_-_*"]:
        yield from selects("matches nothing", ["--channels", pattern], b"")
    both_dashes = record(codes=b"STA  --BHZXX")
    yield from selects("two hyphens are themselves too", ["--channels=XX_*_--_*"], both_dashes, archive=both_dashes)
    marks = record(codes=b"A_B  ,_B ZX ")
    for pattern in ["X_*_*_*", "X_???_??_???", "?_A?B_*_B?Z"]:
        yield from selects("codes that no pattern spells", ["--channels", pattern], marks, archive=marks)


def faults() -> Cases:
    """A record before a fault is written before the fault is reported."""
    yield from selects("a fault", [], FIRST, b"mseed: fault at 128 truncated 5\n", FIRST + FIRST[:5], 2)
    junk = b"no record" * 10
    yield from selects("no record", [], TWO, b"mseed: fault at 256 notdata\n", TWO + junk, 2)
    yield from selects("a fault, and nothing asked for", ["--channels=___"], b"", b"mseed: fault at 0 notdata\n",
                       junk, 2)
    yield Row("select of a folder", SAMPLES, ["select"], 2, b"", b"mseed: fault at 0 read\n" + IS_DIRECTORY)
    yield Row("select onto a full disk", TWO, ["select"], 2, b"", WRITE_FAILED, out_to="/dev/full")
    yield Row("a full disk, and nothing asked for", TWO, ["select", "--channels=___"], 0, out_to="/dev/full")
    with tempfile.TemporaryDirectory() as folder:
        path = Path(folder) / "a.mseed"
        path.write_bytes(TWO)
        with path.open("ab") as out:
            ran = subprocess.run([PROGRAM, "select", str(path)], stdout=out, stderr=subprocess.PIPE, check=False,
                                 stdin=subprocess.DEVNULL, timeout=LIMIT)
        yield Fact("select of its own output", (2, b"mseed: cannot read %b: is the output\n" % os.fsencode(path), TWO),
                   (ran.returncode, ran.stderr, path.read_bytes()))


GOOD_TIMES = ["1900-01-01", "2100-12-31T23:59:60.999999Z", "2024-366", "2024-02-29", "2000-02-29", "2024-135T03",
              "2024-05-14T03:20", "2024-05-14T03:20:00", "2024-05-14T03:20:00.1", "2024-001Z", "2024-05-14T23:59:60"]
BAD_TIMES = ["", "Z", "2024", "2024-05", "24-05-14", "2024-5-14", "2024-05-1", "2024-05-14T", "2024-05-14T3",
             "2024-05-14T03:", "2024-05-14T03:2", "2024-05-14T03:20:", "2024-05-14T03:20:00.", "2024-05-14T0320",
             "2024-05-14T03:20:00.1234567", "2024-05-14t03", "2024-05-14T03z", "2024-05-14 03", "2024-05-14T03ZZ",
             "1899-12-31", "2101-01-01", "2024-00-01", "2024-13-01", "2024-01-00", "2024-01-32", "2023-02-29",
             "1900-02-29", "2024-000", "2023-366", "2024-367", "2024-01-01T24", "2024-01-01T00:60",
             "2024-01-01T00:00:61", "2024-05-14T03.5", "2024-05-14T03:20.5", "+024-05-14", "2024-0514", "20240514",
             "2024-135T03:20:00,5", " 2024-05-14", "2024-05-14 ", "2024-05-14T-3", "2024-05-14T03:20:00+00", "1", "0",
             "２024-05-14"]
BAD_PATTERNS = ["", ",", "_", "__", "____", "XX_STA__BHZ,", ",XX_STA__BHZ", "XX_STA_BHZ", "XX_STA___BHZ", "XX STA__BHZ",
                "XX_STA__BH.", "XX_STA__BHZ ", " XX_STA__BHZ", "XX.STA..BHZ", "XX_STA__BH[ZN]", "XX_STÄ__BHZ",
                "XX_STA__BHZ,,*_*_*_*", "XX_STA__BHZ;XX_STA__BHN", "XX_STA__BH\\Z", "XX_STA__BHZ\n", "*"]


def words(taking: Sequence[str]) -> Cases:
    """Which arguments mean something, and which commands take them."""
    for command in [["select"], *(command for command, _ in OVER_SELECTIONS if command[0] in taking)]:
        for option, bad in [("--from", BAD_TIMES), ("--until", BAD_TIMES), ("--channels", BAD_PATTERNS)]:
            chosen_words = bad if command == ["select"] else bad[:3]
            for word in chosen_words:
                yield Row(f"{command} {option}={word!r}", TWO, [*command, f"{option}={word}"], 3, b"", BAD_VALUE,
                          left=len(TWO))
        for window in (["--from=2024-01-02", "--until=2024-01-01"], ["--from=2024-001", "--until=2024-01-01T00:00"],
                       ["--from=2023-12-31T23:59:60", "--until=2024-01-01"]):
            yield Row(f"{command} {window}: until isn't after from", TWO, [*command, *window], 3, b"", BAD_VALUE)
        yield Row(f"{command} --channels twice", TWO, [*command, "--channels=*_*_*_*", "--channels=*_*_*_*"], 3, b"",
                  About("--channels"))
        yield Row(f"{command} a bad value before a file that isn't there", TWO, [*command, "--from=1", "none"], 3, b"",
                  BAD_VALUE)
    for word in GOOD_TIMES:
        yield Row(f"select --until {word!r}", b"", ["select", f"--until={word}"], 0)
    yield Row("select from and until", b"", ["select", "--from=2024-01-01", "--until=2024-01-01T00:00:00.000001"], 0)
    for option in ("--channels=*_*_*_*", "--from=2024-01-01", "--until=2024-01-01"):
        for command in (["join"], ["audit", "--part"], ["audit", "--part", "--each"], ["join", "--each"]):
            err = BAD_VALUE if command[0] == "audit" else About(option.partition("=")[0])
            yield Row(f"{command} {option}", TWO, [*command, option], 3, b"", err, left=len(TWO))
    feed = ["--port=1", "--network=XX", "--station=STA"]
    for command in ("serve", "fetch"):
        for option in ("--channels=*_*_*_*", "--until=2024-01-01", "--from=2024-01-01"):
            name = option.partition("=")[0]
            err = BAD_VALUE if (command, name) == ("fetch", "--from") else About(name)
            yield Row(f"{command} {option}", TWO, [command, *feed, option], 3, b"", err)
    for option in (["--each"], ["--part"], ["--length=512"], ["--encoding=steim2"], ["--stretches"], ["--leave"],
                   ["--past-faults"], ["--expect=1"], ["--station=STA"], ["--tell-next"], ["--live"]):
        yield Row(f"select {option}", TWO, ["select", *option], 3, b"", About(option[0].partition("=")[0]),
                  left=len(TWO))
    yield Row("select --from as of fetch", TWO, ["select", "--from=00A3F1"], 3, b"", BAD_VALUE)


def as_they_come() -> Cases:
    """A record is written before the input is waited for."""
    process = started(["select", f"--until={DAY}T00:00:00.8"], stdin=subprocess.PIPE, stdout=subprocess.PIPE,
                      stderr=subprocess.PIPE, bufsize=0)
    process.stdin.write(TWO)
    yield Fact("a record, while the input stands open", FIRST, awaited(process.stdout))
    process.stdin.write(FIRST + UNTIMED[:60])
    yield Fact("and a later one", FIRST, awaited(process.stdout))
    process.stdin.write(UNTIMED[60:])
    out, err = process.communicate(timeout=LIMIT)
    yield Fact("then its end", (0, b"", b"mseed: 1 records without a time\n"), (process.returncode, out, err))


def awaited(stream: IO[bytes]) -> bytes:
    """The next bytes of an output, a record at most; none where none came in half a minute."""
    return os.read(stream.fileno(), len(FIRST)) if ready.select([stream], [], [], 30)[0] else b""


def others(taking: Sequence[str]) -> Cases:
    """What the other commands say of the records that are asked for."""
    for row in worked_out():
        if row.words[0] in taking:
            yield row


def worked_out() -> Iterator[Row]:
    """The same, by hand."""
    late = record(codes=b"STA    BHNXX", second=5)
    archive = late + FIRST + late + SECOND + record(second=3)
    words = ["--channels", "XX_*__BHZ", "--from", f"{DAY}T00:00:00.8"]
    gap = "512 XX_STA__BHZ record 5 start 2024-01-01T00:00:03.000000 gap 1400000\n"
    line = "XX_STA__BHZ broken findings 1 first record 5 offset 512 gap 1400000\n"
    yield from both(Row("an audit of a selection, by numbers and offsets of the whole", archive, ["audit", *words], 1,
                        f"{line}records 2 channels 1\n".encode()))
    yield from both(Row("each finding of it", archive, ["audit", "--each", *words], 1,
                        f"{gap}{line}records 2 channels 1\n".encode()))
    yield from both(Row("the list of it", archive, ["show", *words], 0, (
        "384 XX_STA__BHZ D length 128 samples 16 start 2024-01-01T00:00:00.800000 rate 20/1 encoding 3 big\n"
        "512 XX_STA__BHZ D length 128 samples 16 start 2024-01-01T00:00:03.000000 rate 20/1 encoding 3 big\n"
        "records 2\n").encode()))
    yield Row("packing it anew", archive, ["repack", *words], 1, b"",
              broken("XX_STA__BHZ", 5, 512, "gap 1400000"))
    yield Row("an audit of nothing", archive, ["audit", "--channels=___"], 0, b"records 0 channels 0\n")
    yield Row("an audit of nothing, and a fault", archive + b"junk", ["audit", "--channels=___"], 2,
              b"records 0 channels 0\nfault at 640 truncated 4\n")
    yield Row("packing nothing, and a fault", archive + b"junk", ["repack", "--channels=___"], 2, b"",
              b"mseed: fault at 640 truncated 4\n")
    yield Row("packing what is sound", archive, ["repack", "--channels=*_*_*_*", f"--until={DAY}T00:00:03"], 0,
              repack(FIRST + SECOND)[0])


def as_in_python(taking: Sequence[str]) -> Cases:
    """Made archives, by windows on both sides of their records and by patterns."""
    seen = {"all": 0, "some": 0, "none": 0, "untimed": 0, "fault": 0}
    with Batch() as batch:
        for seed in range(SEED, SEED + ARCHIVES):
            source = Random(seed)
            archive = archive_for(source)
            for _ in range(WINDOWS):
                asked = selection_for(source, archive)
                yield compared(batch, f"seed {seed}", ["select"], asked, archive, select(archive, asked))
                note(seen, archive, asked)
            for command, of_records in OVER_SELECTIONS:
                if command[0] in taking:
                    ended = of_records(archive, asked)
                    yield compared(batch, f"seed {seed}", command, asked, archive, ended)
    yield holds("windows ask for all, some and none, and count records without a time, and faults",
                min(seen.values()) > ARCHIVES * WINDOWS // 40, seen)


def compared(batch: Batch, name: str, command: list[str], asked: Selection, archive: bytes,
             ended: Ended) -> Fact:
    """A run, and what must come of it."""
    came = batch.run([*command, *asked.words()], archive)
    return Fact(f"{name}: {' '.join([*command, *asked.words()])}", ended, (came.out, came.err, came.status))


def note(seen: dict[str, int], archive: bytes, asked: Selection) -> None:
    """Counts of what kind a selection is."""
    found, whole = chosen(archive, asked), chosen(archive, Selection())
    count = len(found.records)
    seen["none" if not count else "all" if count == len(whole.records) else "some"] += 1
    seen["untimed"] += found.untimed > 0
    seen["fault"] += found.fault is not None


def rows() -> Cases:
    """All of them. A command that isn't there, or takes no selection, is one failure, and not thousands."""
    there = Row("select of nothing", b"", ["select"], 0)
    yield there
    if there.run().status != 0:
        return
    taking = []
    for command, ended in [("audit", audit(b"")), ("show", show(b"")), ("repack", repack(b""))]:
        row = Row(f"{command} takes a selection", b"", [command, "--channels=___"], 0, ended[0])
        yield row
        taking += [command] * (row.run().status == 0)
    for make in (windows, headers, channels, faults, as_they_come):
        yield from make()
    for make_with in (words, others, as_in_python):
        yield from make_with(taking)
