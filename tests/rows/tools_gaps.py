"""What `tools/gaps` lists: of the archive with whatever goes wrong with one (driver/tools.py) and of samples, worked
out by hand; as text, with commas and as JSON, in the order of the input and of time."""

from __future__ import annotations

import csv
import io
import json
import re
import tempfile
from pathlib import Path

from driver.program import SAMPLES
from driver.rows import Cases, Fact, holds
from driver.tools import DAYS, make_tree, place, outcome, tool

HEADS = ["source", "last sample", "next sample", "delta", "samples"]
# The last sample stands a second before the end, from which the next record is so many seconds away.
BREAKS = [
    ["XX_AAA__BHE", "2016-12-30T10:00:49.000000", "2016-12-30T10:12:51.000000", "721.000000", "721"],
    ["XX_AAA__BHE", "2017-01-02T06:12:30.000000", "2017-01-02T06:00:30.000000", "-721.000000", "-721"],
    ["XX_BBB__BHN", "2016-12-31T23:59:59.000000", "2017-01-02T00:00:00.000000", "86400.000000", "86400"],
    ["XX_BBB__BHN", "2017-01-02T23:59:59.000000", "2017-01-01T00:00:00.000000", "-172800.000000", "-172800"],
    ["XX_BBB__BHN", "2017-01-01T23:59:59.000000", "2017-01-03T00:00:00.000000", "86400.000000", "86400"],
    ["XX_BBB__BHZ", "2017-01-01T23:59:59.000000", "2017-01-01T00:00:00.000000", "-86400.000000", "-86400"],
    ["XX_CCC__BHN", "2016-12-31T23:49:58.000000", "2017-01-01T00:00:00.000000", "601.000000", "601"],
    ["XX_CCC__BHZ", "2016-12-30T23:59:59.000000", "2017-01-03T00:00:00.000000", "259200.000000", "259200"],
]
BY_TIME = [BREAKS[number] for number in (0, 3, 5, 6, 2, 1, 4, 7)]
FAULTS = [(place("CCC", "BHN", DAYS[1]), "fault at 60928 truncated 412, 412 bytes skipped"),
          (place("CCC", "BHN", DAYS[2]), "fault at 30720 notdata, 512 bytes skipped"),
          (place("CCC", "BHN", DAYS[3]), "fault at 30720 notdata, 4096 bytes skipped"),
          (place("CCC", "BHZ", DAYS[3]), "fault at 0 read"),
          (place("AAA", "BHZ", DAYS[4], folder="CCC"), "misplaced")]


def in_csv(text: bytes) -> list[list[str]]:
    """The rows of a text with commas."""
    return list(csv.reader(io.StringIO(text.decode())))


def of_tree(root: Path) -> Cases:
    """The archive, in each form."""
    reported = "".join(f"{root / path}: {what}\n" for path, what in FAULTS).encode()
    for words, wanted in (([], BREAKS), (["--by-time"], BY_TIME)):
        came = tool("gaps", "--csv", *words, str(root))
        yield Fact(f"the sample tree, {' '.join(['--csv', *words])}", (2, [HEADS, *wanted], reported),
                   (came.status, in_csv(came.out), came.err))
    status, lines, _ = outcome(tool("gaps", str(root)))
    yield Fact("the sample tree, as text", (2, [HEADS, *BREAKS]),
               (status, [re.split("  +", line) for line in lines]))
    yield holds("the columns are as wide as they have to be", len({line.index("2", 12) for line in lines[1:]}) == 1
                and len({len(line) for line in lines}) == 1, lines)
    told_of = json.loads(tool("gaps", "--json", str(root)).out)
    yield Fact("a gap in JSON", {"source": "XX_CCC__BHN", "last sample": 1483228198 * 10**6,
                                 "next sample": 1483228800 * 10**6, "delta": 601 * 10**6, "samples": 601}, told_of[6])
    yield Fact("the gaps in JSON", len(BREAKS), len(told_of))
    by_keys = json.loads(tool("gaps", "--json-keys", str(root)).out or "[]")
    names = ("source", "last_sample", "next_sample", "delta", "samples")
    yield Fact("the gaps in JSON, by keys without blanks", [dict(zip(names, one.values())) for one in told_of], by_keys)


def of_files() -> Cases:
    """Samples: one file, and two one after another, which are one archive."""
    gap = ["XX_KILN__BHZ", "2024-05-14T03:23:53.200000", "2024-05-14T03:25:05.350000", "72.100000", "1442"]
    one, two = str(SAMPLES / "network_gap.mseed"), str(SAMPLES / "two_records.mseed")
    yield Fact("a sample with a gap", (0, [HEADS, gap]), (lambda came: (came.status, in_csv(came.out)))(
        tool("gaps", "--csv", one)))
    # Two records of 16 samples at 20 a second end 1.6 s after where they began.
    twice = ["XX_STA__BHZ", "2024-01-01T00:00:01.550000", "2024-01-01T00:00:00.000000", "-1.600000", "-32"]
    yield Fact("a sample twice and another one", (0, [HEADS, twice, gap]),
               (lambda came: (came.status, in_csv(came.out)))(tool("gaps", "--csv", two, two, one)))
    yield Fact("files before and after an option", (0, [HEADS, twice, gap]),
               (lambda came: (came.status, in_csv(came.out)))(tool("gaps", two, two, "--csv", one)))
    yield Fact("a sample without a gap", (0, ["source  last sample  next sample  delta  samples"], ""),
               outcome(tool("gaps", two)))
    junk = str(SAMPLES / "network_junk.mseed")
    yield Fact("a sample with junk", (2, f"{junk}: fault at 14336 notdata, 512 bytes skipped\n"),
               (lambda came: (came[0], came[2]))(outcome(tool("gaps", junk))))
    yield Fact("no such file", 2, tool("gaps", "/no/such/file").status)
    # The last sample is 2024-05-14T03:23:53.2, and the delta 72.1 seconds.
    json_of = ('[\n {{\n  "source": "XX_KILN__BHZ",\n  "last{0}sample": 1715657033200000,\n  "next{0}sample": '
               '1715657105350000,\n  "delta": 72100000,\n  "samples": 1442\n }}\n]\n')
    for word, blank in (("--json", " "), ("--json-keys", "_")):
        yield Fact(f"a sample with a gap, {word}", (0, json_of.format(blank).encode(), b""),
                   tool("gaps", word, one)[:3])
    for words in ([], ["--csv", "--json", one], ["--json", "--json-keys", one], ["--state", "/tmp/state", one],
                  [str(SAMPLES), one]):
        yield Fact(f"gaps {' '.join(words)}", 3, tool("gaps", *words).status)
    yield holds("the help has an example", b"example" in tool("gaps", "--help").out)


def rows() -> Cases:
    """All of them."""
    yield from of_files()
    with tempfile.TemporaryDirectory() as name:
        root = Path(name) / "archive"
        make_tree(root)
        yield from of_tree(root)
