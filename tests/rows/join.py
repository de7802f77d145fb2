"""Parts that are joined: the output, the standard error and the status, byte for byte."""

from __future__ import annotations

from typing import Iterator, List, Sequence, Tuple

from driver.program import SAMPLES
from driver.rows import Cases, Row, both
from driver.texts import BAD_VALUE, About
from models.parts import NO_COUNTS, NO_ENDING, NO_LF, TOO_LARGE, flaw
from rows.parts import BHZ, KEY, LATER, OF_BOTH, OF_FIRST, OF_LATE, OVERLAP, START, part

# The keys of two more channels, one before and one after.
BHN_KEY, LAST_KEY = "58585354412020202042484E", "58585354412020202042485B"
BHN = "XX_STA__BHN"
NONE = "continuous 2024-01-01T00:00:00.000000 rate 20/1"
SECOND = 10**6
FIRST_INSTANT, LAST_INSTANT = -5364662400000000, 7258118399999999
# The most parts that can be expected, and what the border of the sample with a gap in two is reported by.
MOST_PARTS = 999999999
GAP = "record 2 start 2024-01-01T00:00:00.825001 gap 25001\n"


def channel(key: str = KEY, records: int = 1, samples: int = 16, head: str = f"1 0 {START} 20/1",
            tail: str = f"{START} 16 20/1 none", findings: str = "0") -> str:
    """The line of a channel; that of one sound record where nothing is named."""
    return f"{key} records {records} samples {samples} head {head} tail {tail} findings {findings}"


def counts(records: int, bytes: int) -> str:
    """The line after the channels."""
    return f"records {records} bytes {bytes}"


def begins(start: int, rate: str = "20/1", samples: int = 16, leap: str = "none", **more) -> str:
    """The line of a channel of one record, which begins at this instant."""
    return channel(samples=samples, head=f"1 0 {start} {rate}", tail=f"{start} {samples} {rate} {leap}", **more)


ONE = counts(1, 128)
FIRST, LATE, NEXT = (part(line, ONE) for line in (OF_FIRST, OF_LATE, begins(START + 800000)))
NOTHING = part(counts(0, 0))
FOUND = f"{BHZ} broken findings 1 first record 2 offset 128 gap 25001\n"
TWO = f"{BHZ} {NONE} records 2 samples 32\nrecords 2 channels 1\n"


def joins(name: str, status: int, parts: Sequence[str], lines: str, joint: str = "",
          errors: str = "", more: Sequence[str] = ()) -> Iterator[Row]:
    """These parts give this text, and with `--part` this part, where one is given. More arguments are given besides."""
    text = "".join(parts).encode()
    outputs = [([], lines), *([(["--part"], joint)] if joint else [])]
    for words, output in outputs:
        words = ["join", *words, *more]
        yield from both(Row(f"{name}: {' '.join(words)}", text, words, status, output.encode(), errors.encode()))


def worked() -> Cases:
    """The sample with a gap in two; nothing; and parts of nothing."""
    joint = part(OF_BOTH, counts(2, 256))
    text = f"{FOUND}records 2 channels 1\n"
    yield from joins("a gap at a border", 1, [FIRST, LATE], text, joint)
    yield from joins("the joint part alone", 1, [joint], text, joint)
    yield from joins("no part at all", 0, [], "records 0 channels 0\n", NOTHING)
    yield from joins("nothing", 0, [NOTHING], "records 0 channels 0\n", NOTHING)
    yield from joins("nothing, three times", 0, [NOTHING] * 3, "records 0 channels 0\n", NOTHING)
    for place in range(3):
        parts = [FIRST, LATE]
        parts.insert(place, NOTHING)
        yield from joins(f"nothing in place {place}", 1, parts, text, joint)
    yield from joins("nothing around the joint part", 1, [NOTHING, joint, NOTHING], text, joint)
    two = part(channel(records=2, samples=32, tail=f"{START + 800000} 16 20/1 none"), counts(2, 256))
    yield from joins("one record after another", 0, [FIRST, NEXT], TWO, two)
    yield from joins("the other way", 1, [NEXT, FIRST],
                     f"{BHZ} broken findings 1 first record 2 offset 128 overlap 1600000\nrecords 2 channels 1\n")
    yield Row("all of the input is read", f"{FIRST}{LATE}".encode(), ["join"], 1, text.encode(), left=0)
    sample = (SAMPLES / "gap.mseed").read_bytes()
    yield Row("the sample with a gap, audited", sample, ["audit"], 1, text.encode())


def border(name: str, before: str, after: str, why: str = "", first: str = NONE) -> Iterator[Row]:
    """What is found of the border between two channels of one record, if anything."""
    parts = [part(before, ONE), part(after, ONE)]
    if why:
        yield from joins(name, 1, parts,
                         f"{BHZ} broken findings 1 first record 2 offset 128 {why}\nrecords 2 channels 1\n")
    else:
        yield from joins(name, 0, parts, f"{BHZ} {first} records 2 samples 32\nrecords 2 channels 1\n")


def borders() -> Cases:
    """What is found of a border, by the definition of an audit."""
    first = OF_FIRST
    for micros, why in ((25000, ""), (25001, "gap 25001"), (-25000, ""), (-25001, "overlap 25001"), (0, "")):
        yield from border(f"{micros} microseconds late", first, begins(START + 800000 + micros), why)
    late = START + 800000
    yield from border("another rate", first, begins(late, "40/1"), "ratechange")
    yield from border("another rate, and a gap", first, begins(LATER, "19/1"), "ratechange")
    yield from border("the same rate, otherwise", first, begins(late, "40/2"))
    yield from border("the largest ratio", begins(START, f"{2**30}/{2**30}"), begins(START + 16 * SECOND, "1/1"),
                      first="continuous 2024-01-01T00:00:00.000000 rate 1073741824/1073741824")
    yield from border("both leap seconds", begins(START, leap="both"), begins(late), "leap")
    yield from border("both, and another rate", begins(START, leap="both"), begins(late, "40/1"), "ratechange")
    yield from border("both, and a gap", begins(START, leap="both"), begins(LATER), "leap")
    slow = "continuous 2024-01-01T00:00:00.000000 rate 1/1"
    for leap, seconds, why in (("none", 16, ""), ("positive", 15, ""), ("positive", 16, "gap 1000000"),
                               ("none", 15, "overlap 1000000"), ("negative", 17, ""),
                               ("negative", 16, "overlap 1000000")):
        yield from border(f"{seconds} seconds, leap {leap}", begins(START, "1/1", leap=leap),
                          begins(START + seconds * SECOND, "1/1"), why, slow)
    fast = "3000000/1"
    for micros, why in ((6, "gap 0"), (5, "overlap 0")):
        yield from border(f"{micros} microseconds at 3 MHz", begins(START, fast), begins(START + micros, fast), why)
    yield from border("the leap seconds of the first record alone count", first, begins(late, leap="both"))


def far_borders() -> Cases:
    """Gaps and overlaps as long as a part can give: the microseconds are more than 63 bits hold."""
    slow = [part(channel(samples=8590, head=f"1 0 {start} 1/1073741824", tail=f"{start} 8590 1/1073741824 none"),
                 counts(1, 32768)) for start in (START, START + SECOND)]
    line = f"{BHZ} broken findings 1 first record 2 offset 32768 {OVERLAP}\n"
    joint = part(f"{KEY} records 2 samples 17180 head 1 0 {START} 1/1073741824 tail {START + SECOND} 8590 1/1073741824 "
                 f"none findings 1 first 2 32768 {OVERLAP}", counts(2, 65536))
    text = f"{line}records 2 channels 1\n"
    yield from joins("two records of the longest period", 1, slow, text, joint)
    yield from joins("their joint part", 1, [joint], text, joint)
    # 65,535 periods of 2^30 seconds, and from the first instant to the last 12,622,780,799.999999 seconds.
    yield from border("the longest overlap", begins(LAST_INSTANT, "1/1073741824", 65535),
                      begins(FIRST_INSTANT, "1/1073741824", 65535), "overlap 70380293216639999999")
    yield from border("the longest gap", begins(FIRST_INSTANT, "1073741824/1"), begins(LAST_INSTANT, "1073741824/1"),
                      "gap 12622780799999998")
    whole = "continuous 1800-01-01T00:00:00.000000 rate 20/1"
    yield from joins("the first instant", 0, [part(begins(FIRST_INSTANT), ONE)],
                     f"{BHZ} {whole} records 1 samples 16\nrecords 1 channels 1\n", part(begins(FIRST_INSTANT), ONE))


# A record of an encoding that isn't read, and one without a valid time.
UNREAD = channel(head="none", tail=f"{START + 800000} 16 20/1 none", findings="1 first 1 0 encoding 4")
TIMELESS = channel(head="none", tail="none", findings="1 first 1 0 time day")


def firsts() -> Cases:
    """Which finding of a channel is reported first, and how many there are."""
    # A head that has a finding of its own isn't joined, and a tail without a valid rate isn't either.
    yield from joins("a head with a finding of its own", 1, [FIRST, part(UNREAD, ONE)],
                     f"{BHZ} broken findings 1 first record 2 offset 128 encoding 4\nrecords 2 channels 1\n",
                     part(channel(records=2, samples=32, tail=f"{START + 800000} 16 20/1 none",
                                  findings="1 first 2 128 encoding 4"), counts(2, 256)))
    yield from joins("a tail without a time", 1, [part(TIMELESS, ONE), LATE],
                     f"{BHZ} broken findings 1 first record 1 offset 0 time day\nrecords 2 channels 1\n",
                     part(channel(records=2, samples=32, head="none", tail=f"{LATER} 16 20/1 none",
                                  findings="1 first 1 0 time day"), counts(2, 256)))
    yield from joins("a tail of a record with a finding of its own", 1, [part(UNREAD, ONE), LATE],
                     f"{BHZ} broken findings 2 first record 1 offset 0 encoding 4\nrecords 2 channels 1\n",
                     part(channel(records=2, samples=32, head="none", tail=f"{LATER} 16 20/1 none",
                                  findings="2 first 1 0 encoding 4"), counts(2, 256)))
    yield from joins("a tail without a time after one with a time", 1, [FIRST, part(TIMELESS, ONE), LATE],
                     f"{BHZ} broken findings 1 first record 2 offset 128 time day\nrecords 3 channels 1\n",
                     part(channel(records=3, samples=48, tail=f"{LATER} 16 20/1 none",
                                  findings="1 first 2 128 time day"), counts(3, 384)))
    yield from joins("a part that ends without a time", 1, [FIRST, part(TIMELESS, ONE)],
                     f"{BHZ} broken findings 1 first record 2 offset 128 time day\nrecords 2 channels 1\n",
                     part(channel(records=2, samples=32, tail="none", findings="1 first 2 128 time day"),
                          counts(2, 256)))
    # The border comes before what is found within the second part, and after what is found within the first.
    within = part(channel(records=3, samples=48, head=f"1 0 {LATER} 20/1", tail=f"{START + 9 * SECOND} 16 20/1 none",
                          findings="2 first 2 128 norate"), counts(3, 384))
    yield from joins("a border before other findings", 1, [FIRST, within],
                     f"{BHZ} broken findings 3 first record 2 offset 128 gap 25001\nrecords 4 channels 1\n",
                     part(channel(records=4, samples=64, tail=f"{START + 9 * SECOND} 16 20/1 none",
                                  findings="3 first 2 128 gap 25001"), counts(4, 512)))
    yield from joins("a border after other findings", 1, [within, FIRST],
                     f"{BHZ} broken findings 3 first record 2 offset 128 norate\nrecords 4 channels 1\n",
                     part(channel(records=4, samples=64, head=f"1 0 {LATER} 20/1",
                                  findings="3 first 2 128 norate"), counts(4, 512)))
    yield from joins("a finding after a sound border", 1,
                     [FIRST, within.replace(str(LATER), str(START + 800000))],
                     f"{BHZ} broken findings 2 first record 3 offset 256 norate\nrecords 4 channels 1\n")
    year = part(channel(head="none", tail="none", findings="1 first 1 0 time year"), ONE)
    yield from joins("a year", 1, [year, year],
                     f"{BHZ} broken findings 2 first record 1 offset 0 time year\nrecords 2 channels 1\n",
                     part(channel(records=2, samples=32, head="none", tail="none",
                                  findings="2 first 1 0 time year"), counts(2, 256)))
    longest = channel(findings=f"1 first 1 0 gap {2**128 - 1}")
    yield from joins("the longest gap that a part gives", 1, [part(longest, ONE)],
                     f"{BHZ} broken findings 1 first record 1 offset 0 gap 340282366920938463463374607431768211455\n"
                     "records 1 channels 1\n", part(longest, ONE))


def channels() -> Cases:
    """Parts of several channels."""
    bhn, last = channel(BHN_KEY, head=f"2 128 {START} 20/1"), channel(LAST_KEY, head=f"3 256 {START} 20/1")
    both_parts = [part(bhn, OF_FIRST, counts(2, 256)), part(OF_LATE, last, counts(3, 384))]
    yield from joins("a channel in one part alone", 1, both_parts,
                     f"{BHN} {NONE} records 1 samples 16\n"
                     f"{BHZ} broken findings 1 first record 3 offset 256 gap 25001\n"
                     f"XX_STA__BH[ {NONE} records 1 samples 16\nrecords 5 channels 3\n",
                     part(bhn, channel(records=2, samples=32, tail=f"{LATER} 16 20/1 none",
                                       findings="1 first 3 256 gap 25001"),
                          channel(LAST_KEY, head=f"5 512 {START} 20/1"), counts(5, 640)))
    second = part(channel(BHN_KEY, head=f"2 128 {LATER} 20/1", tail=f"{LATER} 16 20/1 none"), OF_LATE, counts(2, 256))
    yield from joins("two borders of a part, and two of the next", 1, [both_parts[0], second, both_parts[0]],
                     f"{BHN} broken findings 2 first record 4 offset 384 gap 25001\n"
                     f"{BHZ} broken findings 2 first record 3 offset 256 gap 25001\nrecords 6 channels 2\n")
    absent = [FIRST, part(channel(BHN_KEY), ONE), LATE.replace("head 1 0", "head 3 512").replace(ONE, counts(4, 640))]
    yield from joins("a channel that a part between hasn't", 1, absent,
                     f"{BHN} {NONE} records 1 samples 16\n"
                     f"{BHZ} broken findings 1 first record 5 offset 768 gap 25001\nrecords 6 channels 2\n")
    names = "58585354410000202042485A", KEY
    yield from joins("two channels of one name", 0, [part(channel(key), ONE) for key in names],
                     f"{BHZ} {NONE} records 1 samples 16\n" * 2 + "records 2 channels 2\n",
                     part(channel(names[0]), channel(head=f"2 128 {START} 20/1"), counts(2, 256)))
    keys = ["0" * 24, "00FF0A0D20200000002D0A7F", "F" * 24]
    yield from joins("keys of any bytes", 0, [part(*map(channel, keys), counts(3, 384))],
                     "".join(f"{name} {NONE} records 1 samples 16\n"
                             for name in ("___", "??_??__-??", "??_?????_??_???")) + "records 3 channels 3\n",
                     part(*map(channel, keys), counts(3, 384)))


def faults() -> Cases:
    """Parts after one that ends by a fault are read, and not counted."""
    cut = part(OF_FIRST, ONE, "fault at 128 truncated 10")
    text = f"{BHZ} {NONE} records 1 samples 16\nrecords 1 channels 1\nfault at 128 truncated 10\n"
    yield from joins("a fault", 2, [cut], text, cut)
    yield from joins("a part after a fault", 2, [cut, LATE], text, cut)
    yield from joins("a fault after a fault", 2, [cut, part(OF_LATE, ONE, "fault at 128 notdata"), LATE], text, cut)
    joint = part(OF_BOTH, counts(2, 256), "fault at 256 length 6")
    faulty = part(OF_LATE, ONE, "fault at 128 length 6")
    text = f"{FOUND}records 2 channels 1\nfault at 256 length 6\n"
    yield from joins("a gap and a fault", 2, [FIRST, faulty], text, joint)
    yield from joins("a gap and a fault, and a part after", 2, [FIRST, faulty, FIRST], text, joint)
    yield from joins("a fault and no record", 2, [FIRST, part(counts(0, 0), "fault at 0 read"), LATE],
                     f"{BHZ} {NONE} records 1 samples 16\nrecords 1 channels 1\nfault at 128 read\n",
                     part(OF_FIRST, ONE, "fault at 128 read"))
    # Faults that were passed are summed; those of a part that isn't counted aren't.
    some = part(OF_FIRST, ONE, "faults 3")
    yield from joins("faults that were passed", 2, [some, NEXT],
                     f"{BHZ} {NONE} records 2 samples 32\nrecords 2 channels 1\nfaults 3\n",
                     part(channel(records=2, samples=32, tail=f"{START + 800000} 16 20/1 none"), counts(2, 256),
                          "faults 3"))
    all_of = [some, part(begins(START + 800000), ONE, "faults 40", "fault at 128 order"), some]
    yield from joins("faults that were passed, and one", 2, all_of,
                     f"{BHZ} {NONE} records 2 samples 32\nrecords 2 channels 1\nfaults 43\nfault at 256 order\n",
                     part(channel(records=2, samples=32, tail=f"{START + 800000} 16 20/1 none"), counts(2, 256),
                          "faults 43", "fault at 256 order"))


def past_faults() -> Cases:
    """With `--past-faults` each part counts, and each fault is reported."""
    past = ["--past-faults"]
    joint = part(OF_BOTH, counts(2, 256))
    yield from joins("no fault", 1, [FIRST, LATE], f"{FOUND}records 2 channels 1\n", joint, more=past)
    yield from joins("no part at all", 0, [], "records 0 channels 0\n", NOTHING, more=past)
    cut, order = "fault at 128 truncated 10", "fault at 128 order"
    two = part(channel(records=2, samples=32, tail=f"{START + 800000} 16 20/1 none"), counts(2, 256), "faults 1")
    text = f"{BHZ} {NONE} records 2 samples 32\nrecords 2 channels 1\nfaults 1\n"
    yield from joins("a fault of the first part", 2, [part(OF_FIRST, ONE, cut), NEXT], text, two,
                     errors=f"mseed: part 1 {cut}\n", more=past)
    yield from joins("a fault of the last part", 2, [FIRST, part(begins(START + 800000), ONE, cut)], text, two,
                     errors=f"mseed: part 2 {cut}\n", more=past)
    yield from joins("the joint part of these", 2, [two], text, two, more=past)
    yield from joins("three faults and two more", 2,
                     [part(OF_FIRST, ONE, "faults 1", cut), NOTHING, part(OF_LATE, ONE, order),
                      part(counts(0, 0), "faults 1", "fault at 0 turns")],
                     f"{FOUND}records 2 channels 1\nfaults 5\n", part(OF_BOTH, counts(2, 256), "faults 5"),
                     f"mseed: part 1 {cut}\nmseed: part 3 {order}\nmseed: part 4 fault at 0 turns\n", past)
    # Each fault has the offset of its own part.
    many = [part(begins(START + 800000 * index), counts(1, 128), f"fault at 128 length {index}") for index in range(5)]
    yield from joins("faults of each part", 2, many,
                     f"{BHZ} {NONE} records 5 samples 80\nrecords 5 channels 1\nfaults 5\n",
                     part(channel(records=5, samples=80, tail=f"{START + 3200000} 16 20/1 none"), counts(5, 640),
                          "faults 5"),
                     errors="".join(f"mseed: part {index + 1} fault at 128 length {index}\n" for index in range(5)),
                     more=past)


# Two channels in one part, and a gap of each at the border to the next.
BHN_FIRST, BHN_LATE = OF_FIRST.replace(KEY, BHN_KEY), OF_LATE.replace(KEY, BHN_KEY)


# The lines of these borders, where each part has two records of 128 bytes.
BHN_BORDER, BHZ_BORDER = (f"256 {name} record 3 start 2024-01-01T00:00:00.825001 gap 25001\n" for name in (BHN, BHZ))


def bad_after_borders() -> Cases:
    """Of a text with a bad line nothing is written, or with `--each` the lines of the borders before it; and the faults
    before it are all that is reported."""
    first, two = part(BHN_FIRST, OF_FIRST, counts(2, 256)), counts(2, 256)
    one, all_of = BHN_BORDER, BHN_BORDER + BHZ_BORDER
    for name, second, line, lines in (
        ("the first line", "mseed part 2\n", 5, ""),
        ("a first channel", part("none", OF_LATE, two), 6, ""),
        ("a second channel", part(BHN_LATE, "none", two), 7, one),
        ("a channel again", part(BHN_LATE, BHN_LATE, two), 7, one),
        ("a sum that passes", part(BHN_LATE, OF_LATE.replace("samples 16", f"samples {2**63 - 1}"), two), 7, one),
        ("a sum of counts that passes", part(BHN_LATE, OF_LATE, counts(2**63 - 1, 0)), 8, all_of),
        ("no counts", part(BHN_LATE, OF_LATE), 8, all_of),
        ("a last line without its end", part(BHN_LATE, OF_LATE)[:-1], 7, one),
        ("the counts", part(BHN_LATE, OF_LATE, "records 2 bytes -1"), 8, all_of),
        ("the faults", part(BHN_LATE, OF_LATE, two, "faults 0"), 9, all_of),
        ("a fault", part(BHN_LATE, OF_LATE, two, "faults 1", "fault at 256 nodata"), 10, all_of),
        ("a line after", part(BHN_LATE, OF_LATE, two, "fault at 256 order") + "end\n", 10, all_of),
    ):
        text, error = (first + second).encode(), f"mseed: bad part at line {line}\n"
        for words in (["--past-faults"], ["--part"], [], ["--each"], ["--each", "--past-faults"]):
            reported = "mseed: part 2 fault at 256 order\n" if "order" in second and "--past-faults" in words else ""
            yield Row(f"{name} is bad: join {' '.join(words)}", text, ["join", *words], 2,
                      lines.encode() if "--each" in words else b"",
                      (reported + error + flaw(text, *words)).encode())


def reports(name: str, status: int, parts: Sequence[str], lines: str, text: str, errors: str = "",
          more: Sequence[str] = ()) -> Iterator[Row]:
    """With `--each` these parts give these lines of borders, and then this text."""
    words = ["join", "--each", *more]
    yield from both(Row(f"{name}: {' '.join(words)}", "".join(parts).encode(), words, status, (lines + text).encode(),
                        errors.encode()))


def each_border() -> Cases:
    """A line for each border with a finding."""
    one = f"128 {BHZ} record 2 start 2024-01-01T00:00:00.825001 gap 25001\n"
    text = f"{FOUND}records 2 channels 1\n"
    yield from reports("a gap at a border", 1, [FIRST, LATE], one, text)
    yield from reports("a sound border", 0, [FIRST, NEXT], "", TWO)
    yield from reports("a gap within a part", 1, [part(OF_BOTH, counts(2, 256))], "", text)
    yield from reports("no part at all", 0, [], "", "records 0 channels 0\n")
    first, second = part(BHN_FIRST, OF_FIRST, counts(2, 256)), part(BHN_LATE, OF_LATE, counts(2, 256))
    yield from reports("two channels", 1, [first, second], BHN_BORDER + BHZ_BORDER,
                     f"{BHN} broken findings 1 first record 3 offset 256 gap 25001\n"
                     f"{BHZ} broken findings 1 first record 3 offset 256 gap 25001\nrecords 4 channels 2\n")
    # The channels ascend within a part, wherever their records lie.
    after = part(BHN_LATE.replace("head 1 0", "head 2 128"), OF_LATE, counts(2, 256))
    yield from reports("the second channel first", 1, [first, after],
                     BHN_BORDER.replace("256 XX_STA__BHN record 3", "384 XX_STA__BHN record 4") + BHZ_BORDER,
                     f"{BHN} broken findings 1 first record 4 offset 384 gap 25001\n"
                     f"{BHZ} broken findings 1 first record 3 offset 256 gap 25001\nrecords 4 channels 2\n")
    back = "start 2024-01-01T00:00:00.000000 overlap 1625001\n"
    yield from reports("part after part", 1, [first, second, first],
                     f"{BHN_BORDER}{BHZ_BORDER}512 {BHN} record 5 {back}512 {BHZ} record 5 {back}",
                     f"{BHN} broken findings 2 first record 3 offset 256 gap 25001\n"
                     f"{BHZ} broken findings 2 first record 3 offset 256 gap 25001\nrecords 6 channels 2\n")
    yield from reports("a channel that a part between hasn't", 1, [FIRST, part(channel(BHN_KEY), ONE), LATE],
                     f"256 {BHZ} record 3 start 2024-01-01T00:00:00.825001 gap 25001\n",
                     f"{BHN} {NONE} records 1 samples 16\n"
                     f"{BHZ} broken findings 1 first record 3 offset 256 gap 25001\nrecords 3 channels 2\n")
    yield from reports("a finding of its own is no border's", 1, [FIRST, part(UNREAD, ONE)], "",
                     f"{BHZ} broken findings 1 first record 2 offset 128 encoding 4\nrecords 2 channels 1\n")
    yield from reports("a tail without a time", 1, [part(TIMELESS, ONE), LATE], "",
                     f"{BHZ} broken findings 1 first record 1 offset 0 time day\nrecords 2 channels 1\n")
    yield from reports("a tail with a finding of its own", 1, [part(UNREAD, ONE), LATE],
                     f"128 {BHZ} record 2 start 2024-01-01T00:00:00.825001 overlap 774999\n",
                     f"{BHZ} broken findings 2 first record 1 offset 0 encoding 4\nrecords 2 channels 1\n")
    late = begins(START + 800000, "40/1")
    yield from reports("another rate", 1, [FIRST, part(late, ONE)],
                     f"128 {BHZ} record 2 start 2024-01-01T00:00:00.800000 ratechange\n",
                     f"{BHZ} broken findings 1 first record 2 offset 128 ratechange\nrecords 2 channels 1\n")
    yield from reports("both leap seconds", 1, [part(begins(START, leap="both"), ONE), NEXT],
                     f"128 {BHZ} record 2 start 2024-01-01T00:00:00.800000 leap\n",
                     f"{BHZ} broken findings 1 first record 2 offset 128 leap\nrecords 2 channels 1\n")
    yield from reports("the first instant", 1, [part(begins(LAST_INSTANT), ONE), part(begins(FIRST_INSTANT), ONE)],
                     f"128 {BHZ} record 2 start 1800-01-01T00:00:00.000000 overlap 12622780800799999\n",
                     f"{BHZ} broken findings 1 first record 2 offset 128 overlap 12622780800799999\n"
                     "records 2 channels 1\n")


def each_after_faults() -> Cases:
    """Borders after a part that ends by a fault: none, but with `--past-faults`."""
    cut = "fault at 128 truncated 10"
    faulty, one = part(OF_FIRST, ONE, cut), f"128 {BHZ} record 2 start 2024-01-01T00:00:00.825001 gap 25001\n"
    yield from reports("a part after a fault", 2, [faulty, LATE], "",
                     f"{BHZ} {NONE} records 1 samples 16\nrecords 1 channels 1\n{cut}\n")
    yield from reports("a gap and a fault after it", 2, [FIRST, part(OF_LATE, ONE, cut), FIRST], one,
                     f"{FOUND}records 2 channels 1\nfault at 256 truncated 10\n")
    past = ["--past-faults"]
    yield from reports("no fault", 1, [FIRST, LATE], one, f"{FOUND}records 2 channels 1\n", more=past)
    yield from reports("a fault between", 2, [faulty, LATE], one, f"{FOUND}records 2 channels 1\nfaults 1\n",
                     f"mseed: part 1 {cut}\n", past)
    yield from reports("a fault at the end", 2, [FIRST, part(OF_LATE, ONE, cut)], one,
                     f"{FOUND}records 2 channels 1\nfaults 1\n", f"mseed: part 2 {cut}\n", past)


# What is written of some parts with one of these forms, and of the borders before it.
Written = Tuple[List[str], str, str]


def expecting(parts: Sequence[str], more: Sequence[str], status: int, written: Sequence[Written],
              errors: str = "") -> Iterator[Row]:
    """With `--expect` the parts are counted. Where they are as many, all is as without it; where they aren't, nothing
    is written but the lines of the borders, and both numbers are reported after the faults."""
    count, text = len(parts), "".join(parts).encode()
    for expected in sorted({1, count - 1, count, count + 1, 10 * count, MOST_PARTS} - {-1, 0}):
        refused = "" if expected == count else f"mseed: {count} parts, not {expected}\n"
        for form, whole, borders in written:
            words = ["join", *form, *more, "--expect", str(expected)]
            out = borders if refused else borders + whole
            yield from both(Row(f"{count} parts: {' '.join(words)}", text, words, 2 if refused else status,
                                out.encode(), (errors + refused).encode()))


def counted() -> Cases:
    """None, one, two and more parts, those that aren't counted in too."""
    def of(text: str, joint: str, borders: str = "") -> list[Written]:
        return [([], text, ""), (["--part"], joint, ""), (["--each"], text, borders)]

    past, cut = ["--past-faults"], "fault at 128 truncated 10"
    faulty, passed = part(OF_FIRST, ONE, cut), f"mseed: part 1 {cut}\n"
    yield from expecting([], [], 0, of("records 0 channels 0\n", NOTHING))
    yield from expecting([], past, 0, of("records 0 channels 0\n", NOTHING))
    yield from expecting([NOTHING] * 3, [], 0, of("records 0 channels 0\n", NOTHING))
    yield from expecting([FIRST], [], 0, of(f"{BHZ} {NONE} records 1 samples 16\nrecords 1 channels 1\n", FIRST))
    joint, border = part(OF_BOTH, counts(2, 256)), f"128 {BHZ} {GAP}"
    gapped = of(f"{FOUND}records 2 channels 1\n", joint, border)
    yield from expecting([FIRST, LATE], [], 1, gapped)
    yield from expecting([FIRST, LATE], past, 1, gapped)
    yield from expecting([FIRST, NOTHING, LATE], [], 1, gapped)
    yield from expecting([joint], [], 1, of(f"{FOUND}records 2 channels 1\n", joint))
    # After a fault parts are counted, though nothing in them is.
    ended = of(f"{BHZ} {NONE} records 1 samples 16\nrecords 1 channels 1\n{cut}\n", faulty)
    yield from expecting([faulty], [], 2, ended)
    yield from expecting([faulty, LATE], [], 2, ended)
    yield from expecting([faulty, LATE, faulty, NOTHING], [], 2, ended)
    yield from expecting([faulty, LATE], past, 2,
                         of(f"{FOUND}records 2 channels 1\nfaults 1\n", part(OF_BOTH, counts(2, 256), "faults 1"),
                            border), passed)
    yield from expecting([NEXT] * 40, [], 1, of(*overlaps(40)))


def overlaps(count: int) -> tuple[str, str, str]:
    """The audit of so many parts of the same record, their joint part, and the lines of their borders."""
    at, why = START + 800000, "overlap 800000"
    borders = "".join(f"{128 * number} {BHZ} record {number + 1} start 2024-01-01T00:00:00.800000 {why}\n"
                      for number in range(1, count))
    joint = channel(records=count, samples=16 * count, head=f"1 0 {at} 20/1", tail=f"{at} 16 20/1 none",
                    findings=f"{count - 1} first 2 128 {why}")
    return (f"{BHZ} broken findings {count - 1} first record 2 offset 128 {why}\nrecords {count} channels 1\n",
            part(joint, counts(count, 128 * count)), borders)


def counted_after_others() -> Cases:
    """A bad line comes before the number of parts, and a number is read as those of lengths are."""
    for words in ([], ["--part"], ["--each"], ["--past-faults"], ["--each", "--past-faults"]):
        borders = f"128 {BHZ} {GAP}".encode() if "--each" in words else b""
        for name, after, error in (("a bad line", "none\n", f"bad part at line 7\nmseed: {NO_ENDING}"),
                                    ("no counts", "mseed part 1\n", f"bad part at line 8\nmseed: {NO_COUNTS}"),
                                    ("no end of a line", "mseed part 1", f"bad part at line 7\nmseed: {NO_LF}"),
                                    ("a sum that passes", part(counts(2**63 - 1, 0)),
                                     f"bad part at line 8\nmseed: {TOO_LARGE}"),
                                    ("a part more", NOTHING, "3 parts, not 5")):
            yield Row(f"{name}, and other parts than expected: join {' '.join(words)}",
                      f"{FIRST}{LATE}{after}".encode(), ["join", *words, "--expect", "5"], 2, borders,
                      f"mseed: {error}\n".encode())
    text = f"{FIRST}{LATE}".encode()
    for number in ("2", "02", "000000002"):
        for given in (["join", "--expect", number], ["join", f"--expect={number}"]):
            yield Row(" ".join(given), text, given, 1, f"{FOUND}records 2 channels 1\n".encode())
    for number in ("", "0", "000000000", "1000000000", "0000000002", "9999999999", "18446744073709551618", "+2", "2.0",
                   "0x2", "2 ", " 2", "1e1", "two", "--", "\u0662", "-1"):
        yield Row(f"join, of which '{number}' are expected", text, ["join", f"--expect={number}"], 3, b"", BAD_VALUE,
                  left=len(text))


def words() -> Cases:
    """Which arguments go together, and which are refused. Nothing is read then."""
    text = f"{FIRST}{LATE}".encode()
    for given in ("join --each --part", "join --part --each", "join --each --part --past-faults",
                  "join --each --part --expect 2", "Join"):
        yield Row(given, text, given.split(), 3, b"", BAD_VALUE, left=len(text))
    for given in ("audit --expect 2", "audit --part --expect 2", "show --expect 2",
                  "repack --expect 2", "--expect 2", "serve --port 1 --station STA --network XX --expect 2",
                  "fetch --port 1 --station STA --network XX --expect 2",
                  "audit --past-faults", "audit --part --past-faults", "audit --each --past-faults", "show --part",
                  "show --past-faults", "repack --part", "repack --past-faults", "--part", "--past-faults",
                  "join --length 512", "join --encoding int32",
                  "join --port 18000", "join --station STA", "join --network XX", "join --capacity 1", "join --first 0",
                  "join --from 0", "join --connections 1", "join --tries 1",
                  "serve --port 1 --station STA --network XX --part",
                  "fetch --port 1 --station STA --network XX --part",
                  "serve --port 1 --station STA --network XX --past-faults",
                  "fetch --port 1 --station STA --network XX --past-faults"):
        last = [word for word in given.split() if word.startswith("--")][-1]
        yield Row(given, text, given.split(), 3, b"", About(last), left=len(text))
    yield Row("an option before the command", text, ["--each", "join", "--part"], 3, b"", About("--each"),
              left=len(text))
    for given, about in (("join --part --part", "part"), ("join --each --each", "each"),
                         ("join --expect 2 --expect 2", "expect"), ("join --expect", "expect"),
                         ("join --past-faults --past-faults", "past-faults"), ("join --past-faults=1", "past-faults")):
        yield Row(given, text, given.split(), 3, b"", About(about), left=len(text))
    lines, joint = f"{FOUND}records 2 channels 1\n", part(OF_BOTH, counts(2, 256))
    each = f"128 {BHZ} record 2 start 2024-01-01T00:00:00.825001 gap 25001\n{lines}"
    for given, out in (("join --part", joint), ("join --past-faults", lines), ("join --past-faults --part", joint),
                       ("join --each", each), ("join --past-faults --each", each)):
        yield Row(given, text, given.split(), 1, out.encode())
    for given in ("--part join", "--past-faults join", "--past-faults --part join", "--each join",
                  "--past-faults join --each"):
        yield Row(f"{given}: an option before the command", text, given.split(), 3, b"", About(given.split()[0]))
    yield Row("help: join", b"", ["--help"], 3, b"", About("join"))
    for word in ("--part", "--past-faults", "--expect"):
        yield Row(f"help of join: {word}", b"", ["join", "--help"], 3, b"", About(word))


def rows() -> Cases:
    """All of them."""
    for some in (worked, borders, far_borders, firsts, channels, faults, past_faults, bad_after_borders, each_border,
                 each_after_faults, counted, counted_after_others, words):
        yield from some()
