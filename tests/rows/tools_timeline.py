"""The parts of what `tools/timeline` draws: of the archive with whatever goes wrong with one (driver/tools.py), worked
out by hand; of the sample network; and of 1, 30 and 500 channels that are made up here."""

from __future__ import annotations

import os
import subprocess
import sys
import tempfile
import xml.etree.ElementTree as ElementTree
from pathlib import Path
from random import Random
from typing import Iterator, NamedTuple

from driver.program import PROGRAM, ROOT, SAMPLES
from driver.rows import Cases, Fact, holds
from driver.tools import TOOLS, make_tree, outcome, tool

SPACE = "{http://www.w3.org/2000/svg}"
# Of names with eleven letters the axis begins here; it has five days, of 199 pixels each.
LEFT, DAY = 107.0, 199.0
# So many pixels a mark is wide at least.
LEAST = {"gap": 4.0, "overlap": 6.0, "finding": 4.0}
ZOOM = "narrow marks are drawn wider; zoom by --from and --until"


class Part(NamedTuple):
    """A rectangle of a channel: its class, where it begins, how wide it is, and what it stands for."""

    kind: str
    left: float
    width: float
    count: int


def parts_of(text: bytes) -> dict[str, list[Part]]:
    """The rectangles of each channel, in the order in which they are drawn."""
    return {group.get("data-name"): [
        Part(one.get("class"), float(one.get("x")), float(one.get("width")), int(one.get("data-count")))
        for one in group.iter(f"{SPACE}rect")] for group in ElementTree.fromstring(text).iter(f"{SPACE}g")}


def bar(kind: str, begin: float, end: float, count: int = 1) -> Part:
    """A rectangle from a day to another."""
    return Part(kind, LEFT + DAY * begin, DAY * (end - begin), count)


def mark(kind: str, day: float) -> Part:
    """A mark that is as narrow as marks are."""
    return Part(kind, LEFT + DAY * day - LEAST[kind] / 2, LEAST[kind], 1)


def is_drawn(wanted: list[Part], drawn: list[Part]) -> bool:
    """Whether rectangles stand where they should, to half a pixel and a half more for those that are a pixel wide."""
    return len(wanted) == len(drawn) and all(
        (one.kind, one.count) == (other.kind, other.count) and abs(one.left - other.left) < 1.0
        and abs(one.left + one.width - other.left - other.width) < 1.0 for one, other in zip(wanted, drawn))


def of_tree(folder: Path) -> Cases:
    """The archive: what is drawn of each channel."""
    root, file = folder / "archive", folder / "drawn.svg"
    make_tree(root)
    came = tool("timeline", "--output", str(file), "--title", "a < b", str(root))
    yield Fact("the sample tree is drawn", (2, b""), (came.status, came.out))
    second = 1 / 86400
    wanted = {
        # The gap of 721 s is 1.66 pixels wide, and so is the overlap: both are marked wider.
        "XX_AAA__BHE": [bar("broken", 0, 36050 * second), bar("broken", 36771 * second, 5, 2),
                        mark("gap", (36050 + 360.5) * second), mark("overlap", 3 + (21630 + 360.5) * second)],
        "XX_AAA__BHN": [bar("continuous", 0, 5)],
        "XX_AAA__BHZ": [bar("continuous", 0, 5)],
        # Two days changed places: all is there, and the overlap says so.
        "XX_BBB__BHN": [bar("gap", 2, 3), bar("gap", 3, 4), bar("broken", 0, 5, 4), bar("overlap", 2, 4)],
        "XX_BBB__BHZ": [bar("broken", 0, 5, 2), bar("overlap", 2, 3)],
        "XX_BBB__LOG": [Part("undecoded", LEFT + DAY * (day + 0.5), 1.0, 1) for day in range(5)],
        "XX_CCC__BHE": [bar("broken", 0, 5), mark("finding", 0), mark("finding", 4 + 6489 * second)],
        "XX_CCC__BHN": [bar("broken", 0, 2 - 601 * second), bar("broken", 2, 5), mark("gap", 2 - 300.5 * second)],
        "XX_CCC__BHZ": [bar("gap", 1, 4), bar("broken", 0, 1), bar("broken", 4, 5)],
    }
    came_of = parts_of(file.read_bytes())
    yield Fact("the channels that are drawn", list(wanted), list(came_of))
    for name, parts in wanted.items():
        drawn = came_of.get(name, [])
        yield holds(f"what is drawn of {name}", is_drawn(parts, drawn), (parts, drawn))
    picture = ElementTree.fromstring(file.read_bytes())
    words = words_of(file.read_bytes())
    days = ["2016-12-30", "2016-12-31", "2017-01-01", "2017-01-02", "2017-01-03"]
    yield Fact("the words of the axis", [word for day in days for word in (day, "12:00")] + ["2017-01-04"],
               words["tick"])
    yield Fact("the legend", ["continuous", "with findings", "not decoded", "gap", "overlap", "other finding"],
               words["legend"])
    yield Fact("the title", (["a < b"], ["2016-12-30T00:00:00 to 2017-01-04T00:00:00 UTC"]),
               (words["title"], words["when"]))
    reported = [one.text for one in picture.iter(f"{SPACE}title")]
    yield holds("a mark says what it is",
                "XX_CCC__BHN gap of 601.000000 s before 2017-01-01T00:00:00.000000" in reported
                and "XX_CCC__BHE lastdiffers 0 1 at 2017-01-03T01:48:09.000000" in reported, reported)


def words_of(text: bytes) -> dict[str, list[str]]:
    """The words of a drawing, by what they are."""
    texts = list(ElementTree.fromstring(text).iter(f"{SPACE}text"))
    return {kind: [one.text for one in texts if one.get("class") == kind]
            for kind in ("tick", "legend", "title", "when", "zoom")}


def windows(folder: Path) -> Cases:
    """Windows of time over the archive: a quarter of a day with the overlap, a gap alone, time with nothing in it."""
    root = str(folder / "archive")
    came = tool("timeline", "--from", "2017-01-02T06", "--until", "2017-01-02T12:00:00Z", root)
    hour = 4 * DAY * 5 / 24
    # From 06:00:30 to 06:12:31 there are two records; one mark of 33 pixels says so. Bars end at the window's edges.
    minutes = [hour / 60 * at for at in (0, 0.5, 12 + 31 / 60, 360)]
    wanted = {
        "XX_AAA__BHE": [Part("broken", LEFT, minutes[3], 2),
                        Part("overlap", LEFT + minutes[1], minutes[2] - minutes[1], 1)],
        "XX_AAA__BHN": [Part("continuous", LEFT, minutes[3], 1)],
        "XX_BBB__LOG": [],
        "XX_CCC__BHZ": [Part("gap", LEFT, minutes[3], 1)],
    }
    drawn = parts_of(came.out)
    yield Fact("a window's channels are all channels", 9, len(drawn))
    for name, parts in wanted.items():
        came_of = drawn.get(name, [])
        yield holds(f"a window: what is drawn of {name}", is_drawn(parts, came_of), (parts, came_of))
    words = words_of(came.out)
    yield Fact("a window: its times", (["2017-01-02T06:00:00 to 2017-01-02T12:00:00 UTC"], []),
               (words["when"], words["zoom"]))
    # 36,050 seconds after midnight the gap of 721 begins.
    for until, parts in (("2016-365T10:00:50", []), ("2016-12-30T10:12:51", [Part("gap", LEFT, 5 * DAY, 1)])):
        begin = "2016-12-30T10:00:49.5" if not parts else "2016-12-30T10:00:50"
        drawn = parts_of(tool("timeline", "--from", begin, "--until", until, root).out)
        yield Fact(f"a window up to {until}", parts, [part for part in drawn["XX_AAA__BHE"] if part.kind != "broken"])
    for given, when in ((["--from", "2020-01-01"], "2020-01-01T00:00:00 to 2020-01-01T00:00:01 UTC"),
                        (["--until", "2016-12-30"], "2016-12-29T23:59:59 to 2016-12-30T00:00:00 UTC"),
                        (["--from", "2017-01-02"], "2017-01-02T00:00:00 to 2017-01-04T00:00:00 UTC"),
                        (["--until", "2017-002"], "2016-12-30T00:00:00 to 2017-01-02T00:00:00 UTC")):
        text = tool("timeline", *given, root).out
        yield Fact(f"timeline {' '.join(given)}", [when], words_of(text)["when"])
    for given in (["--from", "2017-01-02", "--until", "2017-002"], ["--from", "yesterday"], ["--until", "2017-1-2"],
                  ["--from", "2017-02-30"], ["--from", "2017-366"], ["--from", "2017-01-02T24"], ["--until", ""]):
        yield Fact(f"timeline {' '.join(given)}", 3, tool("timeline", *given, root).status)
    yield Fact("timeline: why no window", b"timeline: --until is not after --from\n",
               tool("timeline", "--from", "2017-01-02", "--until", "2017-002", root).err)


def short(minutes: int = 34, days: int = 31) -> Cases:
    """An overlap of some minutes in a month is seen, and the drawing says how to see more; closer, it has its width."""
    sys.path.insert(0, str(TOOLS))
    from mseed_tools.drawing import drawing
    from mseed_tools.segments import Mark, Row
    second = 10**6
    begin = 1714521600 * second
    at, end = begin + 13 * 86400 * second, begin + days * 86400 * second
    last = at + minutes * 60 * second
    row = Row("XX_KILN__BHZ", "broken", [(begin, last), (at, end)], [Mark("overlap", at, last, "an overlap")])
    month = drawing("a month", [row]).encode()
    part = next(part for part in parts_of(month)["XX_KILN__BHZ"] if part.kind == "overlap")
    height = next(float(one.get("height")) for one in ElementTree.fromstring(month).iter(f"{SPACE}rect")
                  if one.get("class") == "overlap")
    yield holds("a short overlap in a month is seen", part.width >= 6 and height >= 8, (part, height))
    yield Fact("how to see more is said", [ZOOM], words_of(month)["zoom"])
    yield holds("it is said in the help", "--from" in "".join(outcome(tool("timeline", "--help"))[1]))
    hour = drawing("an hour", [row], (at - 600 * second, at + 3000 * second)).encode()
    part = next(part for part in parts_of(hour)["XX_KILN__BHZ"] if part.kind == "overlap")
    # Names of twelve letters leave 1,120 - 18 - 114 pixels, of which 34 minutes of an hour are so many.
    yield holds("closer, it is as long as it is", abs(part.width - 988 * 34 / 60) < 0.1, part)
    yield Fact("and nothing more is to be seen", [], words_of(hour)["zoom"])


def made_up(count: int) -> Iterator[tuple]:
    """The rows of so many channels over ten years, some with many gaps."""
    from mseed_tools.segments import Mark, Row
    source, begin, length = Random(count), 1356998400 * 10**6, 3652 * 86400 * 10**6
    for number in range(count):
        ends = sorted(source.randrange(begin, begin + length) for _ in range(2 * source.choice([0, 1, 3, 300])))
        edges = [begin, *ends, begin + length]
        marks = [Mark("gap", left, right, "gap") for left, right in zip(edges[1::2], edges[2::2])]
        yield Row(f"XX_S{number:03}_00_BHZ", "broken" if marks else "continuous",
                  list(zip(edges[::2], edges[1::2])), marks)


def many() -> Cases:
    """Drawings of more and more channels stay readable: no row lies on another, no word on its neighbour."""
    sys.path.insert(0, str(TOOLS))
    from mseed_tools.drawing import drawing
    for count in (0, 1, 30, 500):
        picture = ElementTree.fromstring(drawing("made up", list(made_up(count))))
        width, height = (float(picture.get(word)) for word in ("width", "height"))
        groups = list(picture.iter(f"{SPACE}g"))
        names = [float(group.find(f"{SPACE}text").get("y")) for group in groups]
        yield Fact(f"the rows of {count} channels", count, len(groups))
        yield holds(f"the rows of {count} channels are apart", all(b - a >= 16 for a, b in zip(names, names[1:])),
                    names)
        boxes = [tuple(float(one.get(word, 0)) for word in ("x", "y", "width", "height"))
                 for one in picture.iter(f"{SPACE}rect")]
        yield holds(f"all of {count} channels is within the drawing",
                    all(left >= -0.01 and left + wide <= width + 0.01 and top >= 0 and top + high <= height
                        for left, top, wide, high in boxes), (width, height))
        ticks = [float(one.get("x")) for one in picture.iter(f"{SPACE}text") if one.get("class") == "tick"]
        yield holds(f"the words of the axis of {count} channels are apart",
                    len(ticks) >= 3 and all(b - a >= 50 for a, b in zip(ticks, ticks[1:])), ticks)
        again = [one for one in picture.iter(f"{SPACE}text") if one.get("class") == "tick again"]
        # After each forty rows, and below the last ones.
        yield Fact(f"the words of the axis of {count} channels come again", len(ticks) * (13 if count == 500 else 0),
                   len(again))
    long = ElementTree.fromstring(drawing("an archive " * 20, list(made_up(1))))
    title, when = (next(one for one in long.iter(f"{SPACE}text") if one.get("class") == kind)
                   for kind in ("title", "when"))
    # Letters of the title are 8.5 pixels wide at most, and those beside it 7.3.
    yield holds("a long title ends before the times", title.text.endswith("\u2026") and float(title.get("x"))
                + 8.5 * len(title.text) < float(when.get("x")) - 7.3 * len(when.text), title.text)
    yield Fact("a long title stands in the drawing as a whole", "an archive " * 20, long.find(f"{SPACE}title").text)


def of_files() -> Cases:
    """The sample network; the picture of the documents is what is drawn."""
    came = tool("timeline", "--title", "The sample network", str(SAMPLES / "network.mseed"))
    names = [f"XX_{station}__BH{channel}" for station in ("KILN", "MOOR", "TARN") for channel in "ENZ"]
    yield Fact("the sample network", (0, names, b""), (came.status, list(parts_of(came.out)), came.err))
    with tempfile.NamedTemporaryFile() as file:
        run = subprocess.run([sys.executable, str(ROOT / "docs" / "timeline.py"), file.name], check=False,
                             env={**os.environ, "MSEED": str(PROGRAM)})
        drawn = Path(file.name).read_bytes()
    yield Fact("docs/timeline.py", 0, run.returncode)
    yield holds("docs/timeline.svg is what is drawn", drawn == (ROOT / "docs" / "timeline.svg").read_bytes())
    kinds = {part.kind for parts in parts_of(drawn).values() for part in parts}
    yield Fact("what docs/timeline.svg shows", {"continuous", "broken", "gap", "overlap", "finding"}, kinds)
    yield Fact("no such file", 2, tool("timeline", "/no/such/file").status)
    yield Fact("no words", 3, tool("timeline").status)
    yield holds("the help has an example", "example" in "".join(outcome(tool("timeline", "--help"))[1]))


def rows() -> Cases:
    """All of them."""
    yield from many()
    yield from short()
    yield from of_files()
    with tempfile.TemporaryDirectory() as name:
        yield from of_tree(Path(name))
        yield from windows(Path(name))
