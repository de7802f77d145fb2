"""Records as they are: `select`, by channels and by a window of time, and what is said beside them."""

from __future__ import annotations

import os
import subprocess
import tempfile
from pathlib import Path
from typing import Iterator, Sequence

from driver.program import LIMIT, PROGRAM, SAMPLES
from driver.records import changed, integers, next_record, record
from driver.rows import Cases, Fact, Row, Word, both
from driver.texts import BAD_VALUE, IS_DIRECTORY, About, broken

# The record's first instant, and its last sample's: 16 samples at 20 a second.
FIRST, LAST = "2024-01-01", "2024-01-01T00:00:00.75"


def coded(network: bytes, station: bytes, location: bytes, channel: bytes, **changes) -> bytes:
    """The record of a channel."""
    return record(codes=station.ljust(5) + location.ljust(2) + channel.ljust(3) + network.ljust(2), **changes)


IU = [coded(b"IU", b"ANMO", b"00", code) for code in (b"BHZ", b"BHN", b"LHZ")]
II = [coded(b"II", b"KEV", b"", code) for code in (b"BHZ", b"BHN")]
SMALL = coded(b"iu", b"ANMO", b"00", b"BHZ")
UNDERSCORE = coded(b"I_", b"A,B", b"00", b"BHZ")
NULS = record(codes=b"KEV\0\0\0\0BH\0II")
ALL = [*IU, *II, SMALL, UNDERSCORE, NULS]
ARCHIVE = b"".join(ALL)


def untimed(count: int) -> bytes:
    """The line of records whose start isn't known."""
    return b"mseed: %d records without a time\n" % count


def selected(name: str, archive: Sequence[bytes], words: Sequence[Word], kept: Sequence[bytes],
             errors: bytes = b"") -> Iterator[Row]:
    """A selection, of a file and through a pipe."""
    yield from both(Row(name, b"".join(archive), ["select", *words], 0, b"".join(kept), errors))


PATTERNS: list[tuple[str, list[bytes]]] = [
    ("*_*_*_*", ALL), ("IU_*_*_*", IU), ("*_ANMO_*_*", [*IU, SMALL]), ("IU_ANMO_00_BHZ", IU[:1]),
    ("IU_ANMO_00_BH?", IU[:2]), ("?U_*_*_*", IU), ("?u_*_*_*", [SMALL]), ("iu_anmo_00_bhz", []),
    ("II_KEV__BHZ", II[:1]), ("II_KEV_--_BHZ", II[:1]), ("II_KEV_*_BHZ", II[:1]), ("II_KEV_?_BHZ", []),
    ("II_KEV_-?_BHZ", []), ("IU_ANMO_--_*", []), ("--_*_*_*", []), ("*_*_00_BHZ", [IU[0], SMALL, UNDERSCORE]),
    ("I?_A?B_00_BHZ", [UNDERSCORE]), ("I*_A*_*_*", [*IU, UNDERSCORE]), ("*_*_*_BH", [NULS]), ("*_*_*_BH?", ALL[:2]
     + II + [SMALL, UNDERSCORE]), ("*_*_*_**H**", ALL), ("*_*_*_*?*?*?*?*", []), ("*_*_*_L*,II_*_*_*",
     [IU[2], *II, NULS]), ("II_*_*_*,II_*_*_*", [*II, NULS]), ("___", []), ("**_**_**_???", ALL[:-1])]

NO_PATTERNS = ["", ",", "IU", "IU_ANMO_00", "IU_ANMO_00_BHZ_", "IU_ANMO_00_BHZ_x", "IU.ANMO.00.BHZ", "IU_ANMO_00_BH Z",
               "IU_ANMO_00_BHZ,", ",IU_ANMO_00_BHZ", "IU_ANMO_00_BHZ,,II_*_*_*", "IU_ANMO_00_B[HL]Z", "IU_ANMO_00_BHÉ",
               "IU_ANMO_00_BHZ\n", "IU_ANMO_00_+", "I\\U_*_*_*", "!IU_*_*_*", b"IU_ANMO_00_\xff", b"\xff"]


def by_channels() -> Cases:
    """By patterns of channels."""
    for text, kept in PATTERNS:
        yield from selected(f"channels {text}", ALL, [f"--channels={text}"], kept)
    yield from selected("channels as a word of its own", ALL, ["--channels", "IU_*_*_*"], IU)
    for text in NO_PATTERNS:
        yield Row(f"channels {text!r}", ARCHIVE, ["select", "--channels", text], 3, b"", BAD_VALUE, left=len(ARCHIVE))
    yield Row("channels twice", ARCHIVE, ["select", "--channels", "*_*_*_*", "--channels", "*_*_*_*"], 3, b"",
              About("channels"))
    yield Row("channels without a value", ARCHIVE, ["select", "--channels"], 3, b"", About("channels"))
    yield from selected("nothing is asked for", ALL, [], ALL)
    yield from selected("an empty archive", [], [], [])
    silent = [coded(b"XX", b"STA", b"", b"LOG", samples=0, factor=0, encoding=0, data=b"text"), record()]
    yield from selected("a log channel", silent, ["--channels", "*_*_*_LOG"], silent[:1])


# Times, and the microseconds from the record's first instant to each.
TIMES: list[tuple[str, int]] = [
    ("2024-01-01", 0), ("2024-001", 0), ("2024-01-01Z", 0), ("2024-001T00", 0), ("2024-01-01T00Z", 0),
    ("2024-01-01T00:00", 0), ("2024-001T00:00Z", 0), ("2024-01-01T00:00:00", 0), ("2024-01-01T00:00:00.0", 0),
    ("2024-01-01T00:00:00.75", 750000), ("2024-001T00:00:00.750000Z", 750000), ("2024-01-01T00:00:00.750001", 750001),
    ("2024-01-01T00:01", 60000000), ("2024-01-01T00:00:60", 60000000), ("2024-01-01T01", 3600000000),
    ("2024-01-02", 86400000000), ("2024-002", 86400000000), ("2023-12-31", -86400000000), ("2023-365", -86400000000),
    ("2023-12-31T23:59:60", 0), ("2023-12-31T23:59:60.5", 500000), ("2024-02-29", 59 * 86400000000),
    ("2024-366", 365 * 86400000000), ("2024-12-31", 365 * 86400000000), ("1900-01-01", -3913056000000000),
    ("2100-12-31T23:59:60.999999", 2430000000999999 - 0)]

NO_TIMES = ["", "2024", "2024-1-1", "2024-01", "2024-13-01", "2024-00-01", "2024-01-00", "2024-01-32", "2024-02-30",
            "2023-02-29", "2100-02-29", "2023-366", "2024-000", "2024-367", "2024-1", "2024-12", "1899-12-31",
            "2101-001", "24-01-01", "02024-01-01", "2024-01-01T", "2024-01-01T24", "2024-01-01T0", "2024-01-01T00:60",
            "2024-01-01T00:0", "2024-01-01T00:00:61", "2024-01-01T00:00:00.", "2024-01-01T00:00:00.0000000",
            "2024-01-01T00.5", "2024-01-01T00:00.5", "2024-01-01t00", "2024-01-01 00:00", "2024-01-01z",
            "2024-01-01ZZ", "2024-01-01T00:00:00+00:00", "2024-01-01T00:00:00,5", "2024/01/01", "20240101",
            "2024-01-01T00:00:00Z ", " 2024-01-01", "+024-01-01", "2024-01-01T-1", "now", "A3", "2024-01-01T00:00:0x",
            b"2024-01-01\xff"]


def by_time() -> Cases:
    """By a window: from its first instant up to its last, which isn't part of it."""
    one = [record()]
    for word, micros in TIMES:
        yield from selected(f"from {word}", one, ["--from", word], one if micros <= 750000 else [])
        yield from selected(f"until {word}", one, ["--until", word], one if micros > 0 else [])
    for word in NO_TIMES:
        for option in ("--from", "--until"):
            yield Row(f"{option} {word!r}", ARCHIVE, ["select", f"{option}={word}"] if isinstance(word, str) else
                      ["select", option, word], 3, b"", BAD_VALUE, left=len(ARCHIVE))
    for begin, end in [("2024-01-02", "2024-01-02"), ("2024-01-02", "2024-002T00:00:00Z"), ("2024-01-02", "2024-01-01"),
                       ("2023-12-31T23:59:60", "2024-01-01")]:
        yield Row(f"no window from {begin} until {end}", ARCHIVE, ["select", "--from", begin, "--until", end], 3, b"",
                  BAD_VALUE, left=len(ARCHIVE))
    yield from selected("a window of a microsecond", one, ["--from", LAST, "--until", LAST + "0001"], one)
    for option in ("--from", "--until"):
        yield Row(f"{option} twice", ARCHIVE, ["select", option, FIRST, option, FIRST], 3, b"", About(option[2:]))


def bounds() -> Cases:
    """Records that a bound parts: by the header's rate and number of samples, exactly, and no leap second put in."""
    hour = [record(factor=-3600, multiplier=1, samples=2, data=integers([1, 2]))]
    yield from selected("an hour a sample, at the last", hour, ["--from", "2024-01-01T01"], hour)
    yield from selected("an hour a sample, after", hour, ["--from", "2024-01-01T01:00:00.000001"], [])
    third = [record(factor=3, multiplier=1, samples=2)]  # the second sample a third of a second after the first
    yield from selected("a third of a second, before", third, ["--from", "2024-01-01T00:00:00.333333"], third)
    yield from selected("a third of a second, after", third, ["--from", "2024-01-01T00:00:00.333334"], [])
    single = [record(samples=1)]
    yield from selected("one sample", single, ["--from", FIRST], single)
    yield from selected("one sample, after", single, ["--from", "2024-01-01T00:00:00.000001"], [])
    for name, bare in [("no samples", record(samples=0)), ("no rate", record(factor=0))]:
        yield from selected(f"{name}, at its start", [bare], ["--from", FIRST], [bare])
        yield from selected(f"{name}, after", [bare], ["--from", "2024-01-01T00:00:00.000001"], [])
        yield from selected(f"{name}, until", [bare], ["--until", "2024-01-01T00:00:00.000001"], [bare])
    leap = [record(activity=16)]
    yield from selected("a leap second isn't put in", leap, ["--from", "2024-01-01T00:00:00.750001"], [])
    micros = [record(micros=-50)]
    yield from selected("microseconds count", micros, ["--until", "2024-01-01"], micros)
    corrected = [record(correction=10000, activity=0)]
    yield from selected("a correction counts", corrected, ["--until", "2024-01-01T00:00:01"], [])
    days = [record(day=day) for day in (1, 2, 3)]
    yield from selected("a day", days, ["--from", "2024-01-02", "--until", "2024-01-03"], days[1:2])
    yield from selected("a day of a channel", [*days, *ALL], ["--from", "2024-01-02", "--until", "2024-01-03",
                                                              "--channels", "XX_*_*_*"], days[1:2])


def without_time() -> Cases:
    """Records whose start isn't known: not asked for with a window, and counted."""
    bad = changed(record(), [(24, bytes([24]))])  # hour 24
    other = changed(IU[0], [(24, bytes([24]))])
    archive = [record(), bad, other, record(), bad]
    yield from selected("no window", archive, [], archive)
    yield from selected("no window of a channel", archive, ["--channels", "IU_*_*_*"], [other])
    yield from selected("a window", archive, ["--from", "2000-01-01"], [record()] * 2, untimed(3))
    yield from selected("an end alone", archive, ["--until", "2100-001"], [record()] * 2, untimed(3))
    yield from selected("a window of a channel", archive, ["--from", "2000-01-01", "--channels", "IU_*_*_*"], [],
                        untimed(1))
    yield from selected("a window of another channel", archive, ["--from", "2000-01-01", "--channels", "__*_*"], [])


def faults() -> Cases:
    """A fault of the input: what comes before it is written, and then it is reported."""
    two = record() + record(codes=b"STB    BHZXX")
    for name, end, fault in [("junk", b"x" * 48, b"notdata"), ("a piece", record()[:100], b"truncated 100"),
                             ("a header", record()[:10], b"truncated 10")]:
        line = b"mseed: fault at 256 " + fault + b"\n"
        for words, kept in [([], two), (["--channels", "*_STB_*_*"], two[128:]), (["--from", "2030-001"], b"")]:
            yield from both(Row(f"{name} after {words}", two + end, ["select", *words], 2, kept, line))
    bad = changed(record(), [(24, bytes([24]))])
    yield from both(Row("a record without a time, and junk", bad + b"x" * 48, ["select", "--from", "2000-001"], 2, b"",
                        untimed(1) + b"mseed: fault at 128 notdata\n"))
    # The payload isn't judged.
    worst = [record(encoding=11, data=b"\xff" * 64), record(encoding=99)]
    yield from selected("a payload isn't judged", worst, [], worst)
    yield Row("a full device", record() * 2000, ["select"], 2, b"", b"mseed: write failed\n", out_to="/dev/full")
    yield Row("a folder", SAMPLES, ["select"], 2, b"", b"mseed: fault at 0 read\n" + IS_DIRECTORY)


OTHERS = [["--each"], ["--part"], ["--past-faults"], ["--expect", "1"], ["--length", "512"],
          ["--encoding", "steim2"], ["--stretches"], ["--leave"], ["--station", "STA"], ["--network", "XX"],
          ["--capacity", "1"], ["--first", "0"], ["--address", "127.0.0.1"], ["--timeout", "1"], ["--port", "1"],
          ["--connections", "1"], ["--tries", "1"],
          ["--tell-next"], ["--holes"], ["--live"], ["--clients", "1"]]
SELECTIONS = [["--channels", "*_*_*_*"], ["--from", FIRST], ["--until", "2025-001"]]
FEED = ["--port", "1", "--station", "STA", "--network", "XX"]


def refused() -> Cases:
    """No other option is taken, and no command takes the three that doesn't know them."""
    for option in OTHERS:
        yield Row(f"select {option}", ARCHIVE, ["select", *option], 3, b"", About(option[0]), left=len(ARCHIVE))
    for option in SELECTIONS:
        for command in NOT_TAKING:
            err = BAD_VALUE if command[0] in ("audit", "repack") else About(option[0])
            yield Row(f"{command} {option}", ARCHIVE, [*command, *option], 3, b"", err, left=len(ARCHIVE))
    for option in (SELECTIONS[0], SELECTIONS[2]):
        yield Row(f"fetch {option}", ARCHIVE, ["fetch", *FEED, *option], 3, b"", About(option[0]), left=len(ARCHIVE))
    yield Row("fetch from a time", ARCHIVE, ["fetch", *FEED, "--from", FIRST], 3, b"", BAD_VALUE, left=len(ARCHIVE))
    yield Row("select from a number", ARCHIVE, ["select", "--from", "00000A"], 3, b"", BAD_VALUE, left=len(ARCHIVE))


NOT_TAKING: list[list[str]] = [
    ["audit", "--part"], ["audit", "--part", "--each"], ["join"], ["join", "--each"], ["join", "--part"],
    ["join", "--past-faults"], ["join", "--expect", "1"], ["serve", *FEED], ["serve", "--live", *FEED],
    ["repack", "--leave"]]


def of_files(folder: Path) -> Cases:
    """Files as arguments: pipes, folders, and what isn't there."""
    names = []
    for index, piece in enumerate((ARCHIVE[:100], b"", ARCHIVE[100:])):
        path = folder / str(index)
        path.write_bytes(piece)
        names.append(str(path))
    words = ["select", "--channels", "IU_*_*_*"]
    expected = b"".join(IU)
    yield Row("three files", b"", [*words, *names], 0, expected)
    yield Row("options after the files", b"", ["select", *names, *words[1:]], 0, expected)
    yield Row("standard input among them", ARCHIVE[100:], [*words, names[0], "-"], 0, expected)
    for bad, reason in ((folder / "none", "not found"), (folder, "is a directory")):
        yield Row(f"{bad}", ARCHIVE, [*words, names[0], str(bad)], 2, b"",
                  f"mseed: cannot read {bad}: {reason}\n".encode(), left=len(ARCHIVE))
    script = '"$0" select --channels "IU_*_*_*" <(head -c 300 "$1") <(tail -c +301 "$1")'
    whole = folder / "whole"
    whole.write_bytes(ARCHIVE)
    ran = subprocess.run(["bash", "-c", script, PROGRAM, whole], capture_output=True, timeout=LIMIT, check=False,
                         stdin=subprocess.DEVNULL)
    yield Fact("pipes", (0, expected, b""), (ran.returncode, ran.stdout, ran.stderr))
    with open(whole, "ab") as out:
        ran = subprocess.run([PROGRAM, "select", whole], stdout=out, stderr=subprocess.PIPE, timeout=LIMIT, check=False,
                             stdin=subprocess.DEVNULL)
    yield Fact("its own output", (2, f"mseed: cannot read {whole}: is the output\n".encode(), ARCHIVE),
               (ran.returncode, ran.stderr, whole.read_bytes()))


def as_it_comes() -> Cases:
    """What is asked for is written before the input is waited for."""
    process = subprocess.Popen([PROGRAM, "select", "--channels", "IU_*_*_*"], stdin=subprocess.PIPE,
                               stdout=subprocess.PIPE)
    process.stdin.write(IU[0] + II[0])
    process.stdin.flush()
    yield Fact("a record as it comes", IU[0], process.stdout.read(128))
    process.stdin.write(IU[1][:127])
    process.stdin.flush()
    process.stdin.write(IU[1][127:])
    process.stdin.flush()
    yield Fact("the next one", IU[1], process.stdout.read(128))
    process.stdin.close()
    yield Fact("nothing more", (b"", 0), (process.stdout.read(), process.wait(LIMIT)))


def lengths() -> Cases:
    """Records of every length, among them longer ones than what is gathered, and many small ones."""
    mixed = [record(codes=b"STA    BHZXX" if exponent % 2 else b"STB    BHZXX", exponent=exponent)
             for exponent in range(7, 21)]
    odd = [one for one in mixed if one[8:11] == b"STA"]
    yield Row("records of every length", b"".join(mixed), ["select", "--channels", "XX_STA_*_*"], 0, b"".join(odd))
    many = [IU[number % 3] for number in range(3000)]
    yield Row("many records", b"".join(many), ["select", "--channels", "*_*_*_LHZ"], 0, b"".join(many[2::3]))
    yield Row("all of many records", b"".join(many), ["select"], 0, b"".join(many))
    little = [record(order="<", word_order=0)]
    yield from selected("a little-endian header", little, ["--from", FIRST, "--until", "2024-002"], little)


# Two channels by turns, one with a gap; the second record of each follows its first.
TURNS = [record(), coded(b"XX", b"STB", b"", b"BHZ"), next_record(),
         coded(b"XX", b"STB", b"", b"BHZ", fraction=8000), coded(b"XX", b"STB", b"", b"BHZ", second=5)]
STA = b"XX_STA__BHZ continuous 2024-01-01T00:00:00.000000 rate 20/1 records 2 samples 32\n"
STB = b"XX_STB__BHZ broken findings 1 first record 5 offset 512 gap 3400000\n"
GAP = b"512 XX_STB__BHZ record 5 start 2024-01-01T00:00:05.000000 gap 3400000\n"


def by_other_commands() -> Cases:
    """An audit and a listing of the records that are asked for, as if no others were there; numbers and offsets are
    those of the whole input."""
    whole = b"".join(TURNS)
    sta, stb = ["--channels", "*_STA_*_*"], ["--channels", "*_STB_*_*"]
    yield from both(Row("audit of one", whole, ["audit", *sta], 0, STA + b"records 2 channels 1\n"))
    yield from both(Row("audit of the other", whole, ["audit", *stb], 1, STB + b"records 3 channels 1\n"))
    yield from both(Row("each of one", whole, ["audit", "--each", *sta], 0, STA + b"records 2 channels 1\n"))
    yield from both(Row("each of the other", whole, ["audit", *stb, "--each"], 1, GAP + STB
                        + b"records 3 channels 1\n"))
    yield from both(Row("audit of both", whole, ["audit", "--channels", "*_*_*_*"], 1, STA + STB
                        + b"records 5 channels 2\n"))
    yield from both(Row("audit of none", whole, ["audit", "--channels", "YY_*_*_*"], 0, b"records 0 channels 0\n"))
    # The gap is at the window's border, of which nothing is said.
    later = b"XX_STB__BHZ continuous 2024-01-01T00:00:05.000000 rate 20/1 records 1 samples 16\nrecords 1 channels 1\n"
    yield from both(Row("audit of a window", whole, ["audit", "--from", "2024-01-01T00:00:05"], 0, later))
    lines = Row("", whole, ["show"], 0).run().out.splitlines(keepends=True)
    for words, kept in [(sta, [0, 2]), (stb, [1, 3, 4]), (["--from", "2024-01-01T00:00:01"], [2, 3, 4]),
                        ([*stb, "--until", "2024-01-01T00:00:05"], [1, 3]), (["--from", "2025-001"], [])]:
        listing = b"".join(lines[index] for index in kept) + b"records %d\n" % len(kept)
        yield from both(Row(f"show {words}", whole, ["show", *words], 0, listing))
    fault = b"fault at 640 truncated 7\n"
    yield from both(Row("audit up to a fault", whole + b"0000010", ["audit", *sta], 2, STA + b"records 2 channels 1\n"
                        + fault))
    yield from both(Row("show up to a fault", whole + b"0000010", ["show", "--from", "2025-001"], 2, b"records 0\n"
                        + fault))
    bad = changed(record(), [(24, bytes([24]))])
    for command, out in [("audit", STA + b"records 2 channels 1\n"), ("show", None)]:
        timed = Row("", whole, [command, *sta], 0).run().out if out is None else out
        yield from both(Row(f"{command}, records without a time", whole + bad * 2, [command, *sta, "--from", FIRST], 0,
                            timed, untimed(2)))


def repacked() -> Cases:
    """Packing anew those that are asked for is packing what is selected, but that a finding's number and offset are
    those in the whole input."""
    bad = changed(record(), [(24, bytes([24]))])
    archive = b"".join([*TURNS, bad])
    alone_at, whole_at = b"mseed: record 3 offset 256 gap 3400000\n", b"mseed: record 5 offset 512 gap 3400000\n"
    for words in (["--channels", "*_STA_*_*", "--until", "2025-001"], ["--channels", "*_STB_*_*"],
                  ["--from", "2024-01-01T00:00:01"], ["--from", "2024-01-01T00:00:05"], ["--channels", "YY_*_*_*"]):
        chosen = Row("", archive, ["select", *words], 0).run()
        for options in ([], ["--length", "128", "--encoding", "int32"], ["--stretches"], ["--stretches", "--leave"]):
            alone = Row("", chosen.out, ["repack", *options], 0).run()
            yield Row(f"repack {options} {words}", archive, ["repack", *options, *words], alone.status, alone.out,
                      chosen.err + alone.err.replace(alone_at, whole_at))
        for options in ([], ["--stretches"], ["--stretches", "--leave"]):
            yield Row(f"a fault anywhere {options} {words}", archive + b"x" * 48, ["repack", *options, *words], 2, b"",
                      chosen.err + b"mseed: fault at %d notdata\n" % len(archive))
    yield Row("repack of one that is not asked for", archive, ["repack"], 1, b"",
              broken("XX_STA__BHZ", 6, 640, "time hour"))
    of_stb = ["repack", "--channels", "*_STB_*_*"]
    yield Row("a gap of what is asked for", archive, of_stb, 1, b"", broken("XX_STB__BHZ", 5, 512, "gap 3400000"))
    worse = TURNS[0] + archive + changed(TURNS[1], [(24, bytes([24]))]) + archive
    found = broken("XX_STB__BHZ", 8, 896, "time hour")
    for leave, lines in (([], found), (["--leave"], found[: found.index(b"\n") + 1])):
        yield Row(f"a finding of its own of what is asked for {leave}", worse, [*of_stb, "--stretches", *leave], 1, b"",
                  lines)


def rows() -> Cases:
    """All of them."""
    for make in (by_channels, by_time, bounds, without_time, faults, refused, as_it_comes, lengths, by_other_commands,
                 repacked):
        yield from make()
    with tempfile.TemporaryDirectory() as folder:
        yield from of_files(Path(folder))
