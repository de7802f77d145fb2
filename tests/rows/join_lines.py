"""The lines of parts: those that no part has, each refused by its number; those that are believed, and come back as
they are; and sums that pass what a part can hold."""

from __future__ import annotations

from typing import Iterator, Sequence

from driver.rows import Cases, Row
from models.parts import flaw
from rows.join import BHN_KEY, FIRST_INSTANT, LAST_INSTANT, LATE, NEXT, ONE, begins, channel, counts
from rows.parts import KEY, OF_FIRST, OF_LATE, START, part

LARGEST = 2**63 - 1
OPTIONS = [[], ["--part"], ["--past-faults"], ["--part", "--past-faults"]]

# A part with each line that there may be.
LINES = ["mseed part 1", channel(BHN_KEY), channel(findings="2 first 1 0 short 4"), counts(2, 256), "faults 7",
         "fault at 256 truncated 5"]
# Parts before it, with borders that have no finding.
IN_FRONT = LATE.replace(OF_LATE, OF_FIRST) + NEXT


def text_of(lines: Sequence[str]) -> str:
    """Lines as a text."""
    return "".join(f"{line}\n" for line in lines)


def bad(name: str, text: str, line: int) -> Iterator[Row]:
    """A text of which this line is bad: by itself with each of the options in turn, and after other parts. A fault
    before it, which is of the first part, is reported."""
    before = [f"mseed: part 1 {one}\n" for one in text.split("\n")[: line - 1] if one.startswith("fault at ")]
    for words in OPTIONS[:3]:
        reported = "".join(before) if "--past-faults" in words else ""
        yield Row(f"{name}: join {' '.join(words)}", text.encode(), ["join", *words], 2, b"",
                  f"{reported}mseed: bad part at line {line}\n{flaw(text.encode(), *words)}".encode())
    yield Row(f"{name}, after other parts", (IN_FRONT + text).encode(), ["join"], 2, b"",
              f"mseed: bad part at line {line + 6}\n{flaw((IN_FRONT + text).encode())}".encode())


def bad_line(number: int, line: str) -> Iterator[Row]:
    """A line that is bad in the place of the one with this number."""
    yield from bad(f"line {number} as {line[:300]!r}", text_of([*LINES[: number - 1], line, *LINES[number:]]), number)


def lines_that_lack() -> Cases:
    """Lines that lack, that are there twice, or in another order; and texts that end too soon."""
    begin, bhn, bhz, records, faults, fault = LINES
    for name, lines, bad_at in (
        ("the first line alone", [begin], 2),
        ("no line of counts", [begin, bhn, bhz], 4),
        ("no first line", LINES[1:], 1),
        ("no counts before the faults", [begin, bhn, bhz, faults, fault], 4),
        ("no counts before the fault", [begin, fault], 2),
        ("no counts before the next part", [begin, bhn, begin, bhz, records], 3),
        ("two first lines", [begin, *LINES], 2),
        ("channels out of order", [begin, bhz, bhn, records], 3),
        ("a channel twice", [begin, bhn, bhn, records], 3),
        ("a channel after the counts", [begin, bhn, records, bhz], 4),
        ("counts twice", [begin, bhn, bhz, records, records], 5),
        ("faults twice", [*LINES[:5], faults], 6),
        ("the fault before the faults", [*LINES[:4], fault, faults], 6),
        ("the fault twice", [*LINES, fault], 7),
        ("a part without a first line after another", [*LINES, bhn, records], 7),
        ("an empty line", [""], 1),
        ("an empty line before it", ["", *LINES], 1),
        ("an empty line within", [begin, "", *LINES[1:]], 2),
        ("an empty line after the counts", [*LINES[:4], ""], 5),
        ("an empty line after", [*LINES, ""], 7),
        ("the text of an audit", ["records 0 channels 0"], 1),
        ("a finding before the part", ["0 XX_STA__BHZ record 1 start 2024-01-01T00:00:00.000000 norate", *LINES], 1),
    ):
        yield from bad(name, text_of(lines), bad_at)
    for number in range(1, len(LINES) + 1):
        yield from bad(f"line {number} without its end", text_of(LINES[:number])[:-1], number)
    yield from bad("no end of a line at all", "x", 1)
    yield from bad("a line of a million digits", text_of([begin, "0" * 10**6]), 2)
    for end in ("\r\n", "\r", "\0", " \n", "\n\n"):
        text = text_of(LINES).replace("\n", end)
        yield from bad(f"lines that end in {end!r}", text, 2 if end == "\n\n" else 1)


def flaws() -> Cases:
    """What is said of a bad line, of each kind."""
    begin, bhn, bhz, records, faults, fault = LINES
    no_key = ("bad key in the line of a channel; it is 24 digits 0-9A-F, or the counts are as records 2 bytes 256")
    no_number = "bad number in the head of a channel; it is as head 1 0 1704067200000000 20/1, or head none"
    no_start = "bad start in the tail of a channel; it is as tail 1704067200000000 16 20/1 none, or tail none"
    of_years = "it is as 1704067200000000, microseconds from 1970, of the years 1800 to 2199"
    as_rate = "it is as 20/1, each from 1 to 1073741824"
    no_findings = ("bad findings in the line of a channel; they are as findings 1, and 0 only with a head and a tail")
    no_first = "bad first in the line of a channel; where findings are not 0 it ends the line, as first 2 128 gap 25001"
    no_bytes = "bad bytes in the line of the counts; they end it, as bytes 256, from 0 to 9223372036854775807"
    no_faults = "bad faults after the counts; they come once, as faults 2, from 1 to 9223372036854775807"
    no_fault = "bad fault at after the counts; it is as fault at 256 notdata, and has the bytes of the counts"
    to_most = "from 0 to 9223372036854775807"
    no_ending = "neither faults of this part nor the beginning of the next; that is mseed part 1"
    passes_most = "a sum passes 9223372036854775807, the most that a number can be"
    for name, text, line, why in (
        ("the first line", "mseed part 2\n", 1, "no beginning of a part; that is mseed part 1"),
        ("the line after a fault", text_of([*LINES, records]), 7, "no beginning of a part; that is mseed part 1"),
        ("a key of 23 digits", text_of([begin, bhn[1:], records]), 2, no_key),
        ("a key of 25 digits", text_of([begin, f"0{bhn}", records]), 2, no_key),
        ("a key in small letters", text_of([begin, bhn.replace(BHN_KEY, BHN_KEY.lower())]), 2, no_key),
        ("neither a channel nor the counts", text_of([begin, bhn, faults]), 3, no_key),
        ("an empty line within", text_of([begin, ""]), 2, no_key),
        ("a channel's key alone", text_of([begin, BHN_KEY]), 2,
         f"bad records in the line of a channel; they are as records 2, {to_most}"),
        ("a channel's records", text_of([begin, bhn.replace("1 samples 16", "01 samples x"), records]), 2,
         f"bad records in the line of a channel; they are as records 2, {to_most}"),
        ("a channel's samples", text_of([begin, channel(samples=LARGEST + 1, head="x"), records]), 2,
         f"bad samples in the line of a channel; they are as samples 32, {to_most}"),
        ("a channel's samples misspelt", text_of([begin, bhn.replace("samples", "sample")]), 2,
         f"bad samples in the line of a channel; they are as samples 32, {to_most}"),
        ("a head without a rate", text_of([begin, channel(head=f"1 0 {START}", tail="x")]), 2,
         f"bad rate in the head of a channel; {as_rate}"),
        ("a head with a rate of 0", text_of([begin, channel(head=f"1 0 {START} 0/1", tail="x")]), 2,
         f"bad rate in the head of a channel; {as_rate}"),
        ("a head with more behind it", text_of([begin, channel(head=f"1 0 {START} 20/1 x", tail="x")]), 2, no_start),
        ("a head with more at it", text_of([begin, channel(head="nonex", findings="1 first 1 0 leap")]), 2, no_number),
        ("a head's number", text_of([begin, channel(head=f"01 0 {START} 20/1", tail="x")]), 2, no_number),
        ("a head's offset", text_of([begin, channel(head=f"1 {LARGEST + 1} {START} 20/1", tail="x")]), 2,
         f"bad offset in the head of a channel; it is {to_most}"),
        ("a head's start", text_of([begin, channel(head=f"1 0 {LAST_INSTANT + 1} 20/1", tail="x")]), 2,
         f"bad start in the head of a channel; {of_years}"),
        ("a tail's start", text_of([begin, channel(tail=f"{FIRST_INSTANT - 1} 16 20/1 none", findings="x")]), 2,
         no_start),
        ("a tail of no samples", text_of([begin, channel(tail=f"{START} 0 20/1 none", findings="x")]), 2,
         "bad samples in the tail of a channel; they are from 1 to 65535"),
        ("a tail's rate", text_of([begin, channel(tail=f"{START} 16 20 none", findings="x")]), 2,
         f"bad rate in the tail of a channel; {as_rate}"),
        ("a tail and its leap second", text_of([begin, channel(tail=f"{START} 16 20/1 leap", findings="x")]), 2,
         "bad leap in the tail of a channel; it is none, positive, negative or both"),
        ("a number of findings", text_of([begin, channel(findings="-1 first")]), 2, no_findings),
        ("no findings, and no head", text_of([begin, channel(head="none")]), 2, no_findings),
        ("no findings, and no tail", text_of([begin, channel(tail="none", findings="0 first")]), 2, no_findings),
        ("a finding, and no first", text_of([begin, channel(findings="1")]), 2, no_first),
        ("no findings, and a first", text_of([begin, channel(findings="0 first 1 0 leap")]), 2, no_first),
        ("a first finding's reason", text_of([begin, channel(findings="1 first 1 0 slip")]), 2, no_first),
        ("a first finding, and more", text_of([begin, channel(findings="1 first 1 0 leap 2")]), 2, no_first),
        ("the records of the counts", text_of([begin, "records -1 bytes -1"]), 2,
         f"bad records in the line of the counts; they are as records 2, {to_most}"),
        ("the bytes of the counts", text_of([begin, "records 2 bytes -1"]), 2, no_bytes),
        ("the counts, and more", text_of([begin, bhn, f"{records} "]), 3, no_bytes),
        ("511 bytes and an LF", text_of([begin, "0" * 511]), 2, no_key),
        ("512 bytes and an LF", text_of([begin, "0" * 512]), 2, "no LF within 512 bytes; no line is longer"),
        ("512 bytes", text_of([begin])[:-1].ljust(512), 1, "no LF within 512 bytes; no line is longer"),
        ("511 bytes", text_of([begin])[:-1].ljust(511), 1, "no LF at the end of the input; each line ends with one"),
        ("the order of channels", text_of([begin, bhz, bhn, records]), 3,
         "XX_STA__BHN is out of order; channels ascend by their keys"),
        ("a channel twice", text_of([begin, bhz, bhz, records]), 3,
         "XX_STA__BHZ is out of order; channels ascend by their keys"),
        ("no faults", text_of([*LINES[:4], "faults 0"]), 5, no_faults),
        ("the faults twice", text_of([*LINES[:5], faults]), 6, no_faults),
        ("the fault's place", text_of([*LINES[:4], fault.replace("256", "128")]), 5, no_fault),
        ("the fault", text_of([*LINES[:5], "fault at 256 slip"]), 6, no_fault),
        ("the counts after the counts", text_of([*LINES[:4], records]), 5, no_ending),
        ("fault without a place", text_of([*LINES[:4], "fault 256 read"]), 5, no_ending),
        ("a channel's sum", part(bhz, ONE) + part(channel(samples=LARGEST), ONE), 5, passes_most),
        ("the sum of the counts", NEXT + part(counts(0, LARGEST)), 5, passes_most),
        ("the sum of the faults", part(ONE, f"faults {LARGEST}") + part(ONE, "faults 1"), 6, passes_most),
        ("the last LF", text_of(LINES)[:-1], 6, "no LF at the end of the input; each line ends with one"),
        ("the end", text_of([begin, bhn]), 3,
         "the input ends within a part; the counts are missing, as records 2 bytes 256"),
    ):
        for words in (["join"], ["join", "--each"], ["join", "--part"]):
            yield Row(f"what is said of {name}: {' '.join(words)}", text.encode(), words, 2, b"",
                      f"mseed: bad part at line {line}\nmseed: {why}\n".encode())


NOT_NUMBERS = ["", "-1", "+1", "01", "00", "1.0", "1e3", "0x1", "1,000", "one", " 1", "1 ", "\u0661", "1\0",
               str(LARGEST + 1), str(2**64), "9" * 39, "1" + "0" * 39, "9" * 400]


def numbers() -> Cases:
    """What stands in the place of a number that is none, or is too large."""
    head, tail = f"7 8 {START} 5/3", f"{START} 9 5/3 none"
    line = channel(records=4, samples=6, head=head, tail=tail, findings="2 first 10 11 gap 12")
    places = [("records 4", "records {}"), ("samples 6", "samples {}"), ("head 7 8 ", "head {} 8 "),
              ("head 7 8 ", "head 7 {} "), (" 5/3 tail", " {}/3 tail"), (" 5/3 tail", " 5/{} tail"),
              (f"{START} 9 5/3", f"{START} {{}} 5/3"), ("5/3 none", "{}/3 none"), ("5/3 none", "5/{} none"),
              ("findings 2", "findings {}"), ("first 10", "first {}"), (" 11 gap", " {} gap")]
    for old, new in places:
        for number in NOT_NUMBERS:
            yield from bad_line(3, line.replace(old, new.format(number), 1))
    for number in [*NOT_NUMBERS[:-5], str(2**128), "9" * 39, "9" * 400]:
        yield from bad_line(3, line.replace("gap 12", f"gap {number}"))
    for number in NOT_NUMBERS:
        yield from bad_line(4, f"records {number} bytes 256")
        yield from bad_line(4, f"records 2 bytes {number}")
        yield from bad_line(5, f"faults {number}")
        yield from bad_line(6, f"fault at {number} truncated 5")
        yield from bad_line(6, f"fault at 256 truncated {number}")


def channel_lines() -> Cases:
    """Lines of channels that no part has."""
    one = channel(findings="1 first 1 0 short 4")
    for key in (KEY.lower(), KEY[:-1] + "a", KEY[:-1], KEY + "0", "0x" + KEY[2:], KEY[:-1] + "G", "", "XX_STA__BHZ"):
        yield from bad_line(3, one.replace(KEY, key))
    for old, new in ((" records", "  records"), ("records", "record"), ("records", "Records"),
                     (" 1 samples", " samples"), ("records 1 samples 16", "samples 16 records 1"),
                     ("samples", "sample"), ("head", "heads"), (" head", " "), ("tail", "tails"),
                     ("findings", "finding"), ("findings 1 ", ""),
                     ("first", "First"), (" short 4", ""), (" 1 0 short 4", ""), (" first", "first"), (" ", "\t"),
                     ("20/1 tail", "20 tail"), ("20/1 tail", "20/1/1 tail"), ("20/1 tail", "20 /1 tail"),
                     ("20/1 tail", "none tail"), ("head 1 0", "head 1"), ("head 1 0", "head none 0"),
                     ("20/1 none", "20/1"), ("20/1 none", "20/1 "), ("20/1 none", "20/1 None"),
                     ("20/1 none", "20/1 leap"), ("20/1 none", "20/1 positive negative"), ("20/1 none", "20/1 0")):
        yield from bad_line(3, one.replace(old, new))
    yield from bad_line(3, one + " ")
    yield from bad_line(3, " " + one)
    yield from bad_line(3, one + " gap 5")
    # What stands exactly where there are findings.
    good = channel()
    yield from bad_line(3, channel(head="none"))
    yield from bad_line(3, channel(tail="none"))
    yield from bad_line(3, channel(head="none", tail="none"))
    yield from bad_line(3, f"{good} first 1 0 norate")
    yield from bad_line(3, channel(findings="1"))
    yield from bad_line(3, f"{good} ")
    yield from bad_line(3, channel(findings="0 first"))
    # The ranges of ratios, of a tail's samples, and of instants.
    for ratio in ("0/1", "1/0", "0/0", f"{2**30 + 1}/1", f"1/{2**30 + 1}", "-1/1", "1/-1", "01/1", "1/01", "20.0/1"):
        yield from bad_line(3, channel(head=f"1 0 {START} {ratio}"))
        yield from bad_line(3, channel(tail=f"{START} 16 {ratio} none"))
    for samples in (0, 65536, -1, 2**32 + 1):
        yield from bad_line(3, channel(tail=f"{START} {samples} 20/1 none"))
    for start in (FIRST_INSTANT - 1, LAST_INSTANT + 1, "-0", "+1", "01", "-01", "--1", "- 1", "-", 2**63, -2**63, 2**64,
                  "2024-01-01T00:00:00.000000"):
        yield from bad_line(3, channel(head=f"1 0 {start} 20/1"))
        yield from bad_line(3, channel(tail=f"{start} 16 20/1 none"))


# The words of findings and of faults: those that there are, at the ends of their ranges, and such as aren't.
REASONS = [
    *(f"time {field}" for field in ("year", "day", "hour", "minute", "second", "fraction")),
    "norate", "blockette100", "encoding 0", "encoding 255", "littlesteim", "dataoffset", "short 0", f"short {LARGEST}",
    "badword 0 0", f"badword {LARGEST} {LARGEST}", "overflow 0", f"overflow {LARGEST}", "lastdiffers 0 0",
    f"lastdiffers {-2**31} {2**31 - 1}", f"lastdiffers {2**31 - 1} {-2**31}", "ratechange", "leap", "gap 0",
    f"gap {2**128 - 1}", "overlap 0", f"overlap {2**128 - 1}", f"gap {2**64}"]
NO_REASONS = [
    "", "time", "time month", "time 5", "time Year", "fault year", "year", "norate 1", "Norate", "rate none",
    "blockette 100", "blockette101", "encoding", "encoding 256", "encoding -1", "encoding 03", "littlesteim 1",
    "bigsteim", "dataoffset 0", "short", "short -1", f"short {LARGEST + 1}", "badword 0", "badword 0 0 0",
    f"badword {LARGEST + 1} 0", f"badword 0 {LARGEST + 1}", "badword -1 0", "overflow", "overflow 01",
    f"overflow {LARGEST + 1}", "lastdiffers 0", "lastdiffers 0 0 0", f"lastdiffers {-2**31 - 1} 0",
    f"lastdiffers 0 {2**31}", f"lastdiffers {2**31} 0", f"lastdiffers 0 {-2**31 - 1}", "lastdiffers -0 0",
    "lastdiffers 0 -0", "lastdiffers +1 0", "lastdiffers 01 0", "ratechange 1", "leap 1", "leap positive", "gap",
    "gap -1", f"gap {2**128}", f"overlap {2**128}", "overlap", "overlap 0 ", "gap  0", "notdata", "truncated 5", "none"]
FAULTS = ["notdata", "order", "chain", "no1000", "length 0", "length 255", "outside", "version3", "truncated 0",
          f"truncated {LARGEST}", "read", "turns"]
NO_FAULTS = ["", "memory", "nodata", "Notdata", "notdata 1", "order ", "chains", "no1001", "no 1000", "length",
             "length 256", "length -1", "length 06", "length 6 6", "outside 1", "version2", "version 3", "truncated",
             "truncated -1", f"truncated {LARGEST + 1}", "truncated 5 ", "read 1", "turn", "turns 1", "norate", "none"]


def reasons() -> Cases:
    """Words of findings and of faults that there aren't, and other words in the last lines."""
    for why in NO_REASONS:
        yield from bad_line(3, channel(findings=f"1 first 1 0 {why}"))
    for fault in NO_FAULTS:
        yield from bad_line(6, f"fault at 256 {fault}")
    # The offset of a fault is the bytes of the part.
    for offset in (0, 255, 257, 2560):
        yield from bad_line(6, f"fault at {offset} truncated 5")
    for line in ("records 2", "records 2 bytes", "records 2 bytes 256 ", "records  2 bytes 256", "bytes 256 records 2",
                 "records 2 channels 2", "Records 2 bytes 256", "records 2 bytes 256 faults 7", "record 2 bytes 256"):
        yield from bad_line(4, line)
    for line in ("faults", "faults 7 ", "faults  7", "Faults 7", "fault 7", "faults 0", "faults 7 8"):
        yield from bad_line(5, line)
    for line in ("fault", "fault at", "fault at 256", "Fault at 256 read", "fault  at 256 read", "fault at 256  read",
                 "mseed: fault at 256 read", "end"):
        yield from bad_line(6, line)
    for line in ("mseed part 2", "mseed part 0", "mseed part 01", "mseed part 10", "mseed part", "mseed part 1 ",
                 " mseed part 1", "Mseed part 1", "mseed  part 1", "mseed parts 1", "mseed: part 1",
                 "\ufeffmseed part 1"):
        yield from bad_line(1, line)


def comes_back(name: str, status: int, *lines: str) -> Iterator[Row]:
    """A part that is believed: its joint part is itself."""
    text = part(*lines).encode()
    yield Row(f"{name} comes back", text, ["join", "--part"], status, text)


def believed() -> Cases:
    """Lines that a part may have, whatever they say."""
    for why in REASONS:
        yield from comes_back(why, 1, channel(head="none", tail="none", findings=f"1 first 1 0 {why}"), ONE)
    for fault in FAULTS:
        yield from comes_back(fault, 2, OF_FIRST, ONE, f"fault at 128 {fault}")
    limits = channel(records=LARGEST, samples=LARGEST, head=f"{LARGEST} {LARGEST} {LAST_INSTANT} {2**30}/{2**30}",
                     tail=f"{FIRST_INSTANT} 65535 {2**30}/{2**30} both",
                     findings=f"{LARGEST} first {LARGEST} {LARGEST} gap {LARGEST}")
    yield from comes_back("a part of the largest numbers", 2, limits, counts(LARGEST, LARGEST), f"faults {LARGEST}",
                          f"fault at {LARGEST} truncated {LARGEST}")
    zeros = channel(records=0, samples=0, head=f"0 0 {FIRST_INSTANT} 1/1", tail="0 1 1/1 negative")
    yield from comes_back("a part of the smallest numbers", 2, zeros, counts(0, 0), "faults 1",
                          "fault at 0 truncated 0")
    yield from comes_back("a start of -1", 0, begins(-1), ONE)
    yield from comes_back("a part of no channel", 0, counts(700, 89600))
    yield from comes_back("more findings than records", 1, channel(findings="9 first 5 0 gap 1"), counts(0, 0))
    yield from comes_back("another rate in the tail", 0, channel(tail=f"{START} 16 40/1 none"), ONE)
    yield from comes_back("a part with each line", 2, *LINES[1:])


def passes(name: str, texts: Sequence[str], line: int, words: Sequence[str] = (), reported: str = "") -> Iterator[Row]:
    """Parts of which this line has a number that passes."""
    text = "".join(texts).encode()
    for option in ([], ["--part"]):
        yield Row(f"{name} passes: join {' '.join([*option, *words])}", text, ["join", *option, *words], 2, b"",
                  f"{reported}mseed: bad part at line {line}\n{flaw(text, *words)}".encode())


def holds_all(name: str, texts: Sequence[str], status: int, *lines: str, words: Sequence[str] = ()) -> Iterator[Row]:
    """Parts of which no number passes, and their joint part."""
    yield Row(f"{name} doesn't pass", "".join(texts).encode(), ["join", "--part", *words], status,
              part(*lines).encode())


LATE_TAIL = f"{START + 800000} 16 20/1 none"


def channel_sums() -> Cases:
    """What is summed of a channel, to the largest number and past it."""
    for name, least in (("records", 1), ("samples", 16)):
        sums = {"records": 2, "samples": 32, name: LARGEST}
        yield from holds_all(f"the sum of {name}", [part(channel(**{name: LARGEST - least}), ONE), NEXT], 0,
                             channel(tail=LATE_TAIL, **sums), counts(2, 256))
        most = channel(**{name: LARGEST - least + 1})
        yield from passes(f"the sum of {name}", [part(most, ONE), NEXT], 5)
        yield from holds_all(f"the {name} of two channels", [part(most, ONE), NEXT.replace(KEY, BHN_KEY)], 0,
                             channel(BHN_KEY, head=f"2 128 {START + 800000} 20/1", tail=LATE_TAIL), most,
                             counts(2, 256))


def findings() -> Cases:
    """Findings are summed, with that of the border and without it."""
    found = "first 1 0 norate"

    def prefix(count: int) -> str:
        return part(channel(findings=f"{count} {found}"), ONE)

    unread = part(channel(head="none", tail=LATE_TAIL, findings="1 first 1 0 encoding 4"), ONE)
    two = LATE.replace("findings 0", "findings 1 first 1 0 gap 5")
    yield from passes("a finding of the border", [prefix(LARGEST), LATE], 5)
    yield from passes("a finding of the second part", [prefix(LARGEST), unread], 5)
    yield from passes("a finding of each", [prefix(LARGEST - 1), two], 5)
    most, joined = f"{LARGEST} {found}", {"records": 2, "samples": 32}
    yield from holds_all("no finding of the border", [prefix(LARGEST), NEXT], 1,
                         channel(tail=LATE_TAIL, findings=most, **joined), counts(2, 256))
    late_tail = f"{START + 825001} 16 20/1 none"
    yield from holds_all("a finding of the border", [prefix(LARGEST - 1), LATE], 1,
                         channel(tail=late_tail, findings=most, **joined), counts(2, 256))
    yield from holds_all("a finding of each", [prefix(LARGEST - 2), two], 1,
                         channel(tail=late_tail, findings=most, **joined), counts(2, 256))


def goes_up() -> Cases:
    """Numbers and offsets of the second part go up, and may not pass, whether or not the joint part keeps them: nothing
    of them is kept after a channel that has a head and a finding already."""
    many = LARGEST - 16
    lines = [channel(head=f"17 16 {START} 20/1"), channel(head="none", findings="1 first 17 16 norate")]
    up = [channel(head=f"{LARGEST} {LARGEST} {START} 20/1"),
          channel(head="none", findings=f"1 first {LARGEST} {LARGEST} norate")]
    kept, other = channel(findings="1 first 1 0 leap"), channel(BHN_KEY)
    for status, (line, risen) in enumerate(zip(lines, up)):
        name = ["the head", "the first finding"][status]
        for prefix, is_kept in ((kept, "not kept"), (other, "kept")):
            yield from passes(f"the number of {name}, {is_kept}", [part(prefix, counts(many, 0)),
                                                                  part(line, counts(0, 0))], 5)
            yield from passes(f"the offset of {name}, {is_kept}", [part(prefix, counts(0, LARGEST - 15)),
                                                                  part(line, counts(0, 0))], 5)
        # 17 and LARGEST - 17, and 16 and LARGEST - 16.
        yield from holds_all(f"{name}, kept", [part(other, counts(many - 1, many)), part(line, counts(1, 16))], status,
                             other, risen, counts(many, LARGEST))


def counts_and_faults() -> Cases:
    """The counts of all records and of bytes, and of faults. What isn't counted passes nothing."""
    for records, bytes, line in ((LARGEST, 0, counts(1, 0)), (0, LARGEST, counts(0, 1)),
                                 (LARGEST, LARGEST, counts(1, 1))):
        yield from passes(f"{records} records and {bytes} bytes", [part(counts(records, bytes)), part(line)], 4)
    yield from holds_all("all records and bytes", [part(counts(LARGEST - 1, 1)), part(counts(1, LARGEST - 1))], 0,
                         counts(LARGEST, LARGEST))
    nothing, fault = counts(0, 0), "fault at 0 read"
    many = part(nothing, f"faults {LARGEST}")
    yield from passes("the sum of faults", [many, part(nothing, "faults 1")], 6)
    yield from holds_all("the sum of faults", [part(nothing, f"faults {LARGEST - 5}"), part(nothing, "faults 5")], 2,
                         nothing, f"faults {LARGEST}")
    yield from passes("one fault more", [many, part(nothing, fault)], 6, ["--past-faults"])
    yield from passes("one fault more of the same part", [part(nothing, f"faults {LARGEST}", fault)], 4,
                      ["--past-faults"])
    yield from holds_all("one fault that ends all", [many, part(nothing, fault)], 2, nothing, f"faults {LARGEST}",
                         fault)
    reported = f"mseed: part 1 {fault}\n"
    yield from passes("faults after one that was reported", [part(nothing, fault), many], 6, ["--past-faults"],
                      reported)
    # After a fault.
    prefix = part(channel(records=LARGEST), counts(LARGEST, LARGEST), f"faults {LARGEST}", f"fault at {LARGEST} read")
    yield from holds_all("what isn't counted", [prefix, LATE, part(*LINES[1:])], 2, *prefix.splitlines()[1:])
    yield from passes("what isn't counted, and a bad line", [prefix, LATE, part("none")], 10)
    yield from passes("what isn't counted, and a channel out of order", [prefix, part(OF_FIRST, OF_FIRST, ONE)], 8)
    yield from passes("what isn't counted, and an end within a part", [prefix, LATE, part(OF_FIRST)], 11)
    yield from passes("what is counted past a fault", [prefix.replace(f"faults {LARGEST}", "faults 1"), LATE], 7,
                      ["--past-faults"], f"mseed: part 1 fault at {LARGEST} read\n")


def rows() -> Cases:
    """All of them."""
    for some in (flaws, lines_that_lack, numbers, channel_lines, reasons, believed, channel_sums, findings, goes_up,
                 counts_and_faults):
        yield from some()
