"""What `tools/sds` says of the days of which a file has records, and of the time that none covers: of trees of a few
records, worked out by hand, and of records at random that stand before, in and after their day's file, against the
second program (models/covering.py). And what `gaps` and `timeline` say of folders that are no trees."""

from __future__ import annotations

import datetime
import json
import tempfile
from pathlib import Path
from random import Random
from typing import Sequence

from driver.program import SAMPLES
from driver.records import integers, record
from driver.rows import Cases, Fact
from driver.tools import outcome, rest, tool, write_tree
from models.covering import day_of
from rows.tools_sds import day_in, days_in_words, expected_of, misdated_in, records_in

SEED, COUNT = 20270914, 60
EPOCH, SECOND = datetime.datetime(1970, 1, 1), 10**6
KEY = b"XXSTA    BHZ"
MIDDAY = datetime.timedelta(hours=12)
NOTHING = "overlaps 0 0.000000 s findings 0"


def path_of(day: datetime.date) -> str:
    """The file of a day."""
    return f"{day:%Y}/XX/STA/BHZ.D/XX.STA..BHZ.D.{day:%Y.%j}"


def of_time(start: datetime.datetime, samples: int = 12, period: int = 3600, **changes: object) -> bytes:
    """A record that begins then, of so many samples; half a day, where nothing else is said."""
    values = {"codes": b"STA    BHZXX", "year": start.year, "day": start.timetuple().tm_yday, "hour": start.hour,
              "minute": start.minute, "second": start.second, "fraction": start.microsecond // 100, "factor": -period,
              "samples": samples, "data": integers(range(16)), **changes}
    return record(**values)


def halves(day: datetime.date) -> list[bytes]:
    """The two records of a day."""
    begin = datetime.datetime.combine(day, datetime.time())
    return [of_time(begin), of_time(begin + MIDDAY)]


def lines_of(root: Path, files: dict[str, Sequence[bytes]], status: int, *lines: str) -> Fact:
    """What is said of a tree, but for the last line. It is the same where what was read is kept."""
    write_tree(root / "tree", {path: b"".join(records) for path, records in files.items()})
    rest()
    words = ["--state", str(root / "state"), str(root / "tree")]
    first, again = (outcome(tool("sds", *words)) for _ in range(2))
    came = (first[0], first[1][:-1], first[2])
    return Fact(root.name, (status, list(lines), "", True), (*came, first == again))


def by_hand(folder: Path) -> Cases:
    """Days and hours, by hand. A record has half a day."""
    days = [datetime.date(2024, 5, 13) + datetime.timedelta(days=number) for number in range(4)]
    paths = [path_of(day) for day in days]
    whole = {path: halves(day) for path, day in zip(paths, days)}
    span = "from 2024-05-13T00:00:00.000000 to 2024-05-17T00:00:00.000000"
    half_day = 43200 * SECOND
    yield lines_of(folder / "four days", whole, 0,
                   f"XX_STA__BHZ days 4 records 8 samples 96 {span} gaps 0 0.000000 s absent 0.000000 s {NOTHING}")
    yield lines_of(folder / "a day whose halves are swapped", {**whole, paths[1]: whole[paths[1]][::-1]}, 1,
                   f"XX_STA__BHZ days 4 records 8 samples 96 {span} gaps 2 86400.000000 s absent 0.000000 s "
                   f"overlaps 1 86400.000000 s findings 3 first record 1 offset 0 gap {half_day} in {paths[1]}")
    other = path_of(datetime.date(2024, 7, 18))
    yield lines_of(folder / "a file of records of another day", {other: halves(days[0])}, 1,
                   "XX_STA__BHZ days 1 records 2 samples 24 from 2024-05-13T00:00:00.000000 to "
                   f"2024-05-14T00:00:00.000000 gaps 0 0.000000 s absent 0.000000 s {NOTHING}",
                   f"  misdated {other} 2024-05-13")
    yield lines_of(folder / "a file that holds the day before once more", {**whole, paths[2]: whole[paths[1]]}, 1,
                   f"XX_STA__BHZ days 3 records 8 samples 96 {span} gaps 1 86400.000000 s absent 86400.000000 s "
                   f"overlaps 1 86400.000000 s findings 2 first record 1 offset 0 overlap {2 * half_day} in {paths[2]}",
                   "  missing 2024-05-15", f"  misdated {paths[2]} 2024-05-14")
    several = [*whole[paths[0]], *whole[paths[1]], *whole[paths[3]]]
    yield lines_of(folder / "a file of several days", {paths[0]: several}, 1,
                   f"XX_STA__BHZ days 3 records 6 samples 72 {span} gaps 1 86400.000000 s absent 86400.000000 s "
                   f"overlaps 0 0.000000 s findings 1 first record 5 offset 512 gap {2 * half_day} in {paths[0]}",
                   "  missing 2024-05-15", f"  misdated {paths[0]} 2024-05-14 2024-05-16")


def at_midnight(folder: Path) -> Cases:
    """Records that begin before midnight, and in a leap second."""
    first, second = datetime.date(2024, 5, 14), datetime.date(2024, 5, 15)
    late = datetime.datetime(2024, 5, 14, 23, 59, 50)
    # Two seconds a sample: the third one's last stands at midnight, and the second one's before it.
    begin = of_time(late - datetime.timedelta(seconds=8), 4, 2)
    whole = "records 2 samples {} from 2024-05-14T23:59:42.000000 to 2024-05-15T00:00:{:02}.000000 gaps 0 0.000000 s " \
            f"absent 0.000000 s {NOTHING}"
    for name, count, is_of in (("at midnight", 6, True), ("before midnight", 5, False)):
        files = {path_of(first): [begin], path_of(second): [of_time(late, count, 2)]}
        line = f"XX_STA__BHZ days {1 + is_of} {whole}".format(4 + count, 2) if is_of else \
            f"XX_STA__BHZ days 1 {whole}".format(4 + count, 0)
        yield lines_of(folder / f"in the next day's file, a record of which the last sample stands {name}", files,
                       int(not is_of), line, *([] if is_of else [f"  misdated {path_of(second)} 2024-05-14"]))
    over = {path_of(first): [begin, of_time(late, 16, 2)]}
    yield lines_of(folder / "in its own day's file, a record that runs over midnight", over, 0,
                   f"XX_STA__BHZ days 1 {whole}".format(20, 22))
    # The day before has the leap second 23:59:60, which stands where the next day's first second does.
    leap, after = datetime.date(2016, 12, 31), datetime.date(2017, 1, 1)
    last = of_time(datetime.datetime(2016, 12, 31, 23, 59, 59), 1, 1, second=60, fraction=3000)
    next_one = of_time(datetime.datetime(2017, 1, 1, 0, 0, 1), 1, 1, fraction=3000)
    for file in (leap, after):
        yield lines_of(folder / f"a record in the leap second, in the file of {file}", {path_of(file): [last]}, 0,
                       "XX_STA__BHZ days 1 records 1 samples 1 from 2017-01-01T00:00:00.300000 to "
                       f"2017-01-01T00:00:01.300000 gaps 0 0.000000 s absent 0.000000 s {NOTHING}")
    yield lines_of(folder / "a record after the leap second", {path_of(leap): [next_one]}, 1,
                   "XX_STA__BHZ days 1 records 1 samples 1 from 2017-01-01T00:00:01.300000 to "
                   f"2017-01-01T00:00:02.300000 gaps 0 0.000000 s absent 0.000000 s {NOTHING}",
                   f"  misdated {path_of(leap)} 2017-01-01")


def holes(folder: Path) -> Cases:
    """Half a sample period isn't absent, and a bit more is; time that a record after it covers isn't either; what isn't
    decoded is read by its header."""
    day = datetime.date(2024, 5, 14)
    begin = datetime.datetime(2024, 5, 14)

    def after(seconds: float) -> bytes:
        return of_time(begin + datetime.timedelta(seconds=seconds), 10, 1)

    line = "XX_STA__BHZ days 1 records {} samples {} from 2024-05-14T00:00:00.000000 to 2024-05-14T00:00:{:09.6f} " \
           "gaps {} s absent {:.6f} s overlaps {} findings {}"
    at = f"in {path_of(day)}"
    yield lines_of(folder / "half a period", {path_of(day): [after(0), after(10.5)]}, 0,
                   line.format(2, 20, 20.5, "0 0.000000", 0, "0 0.000000 s", 0))
    yield lines_of(folder / "more than half a period", {path_of(day): [after(0), after(10.5001)]}, 1,
                   line.format(2, 20, 20.5001, "1 0.500100", 0.5001, "0 0.000000 s",
                               f"1 first record 2 offset 128 gap 500100 {at}"))
    yield lines_of(folder / "what comes late", {path_of(day): [after(0), after(20), after(10), after(33)]}, 1,
                   line.format(4, 40, 43, "2 23.000000", 3, "1 20.000000 s",
                               f"3 first record 2 offset 128 gap 10000000 {at}"))
    # The second one isn't decoded, the third one has a rate of its own, and the gap behind it isn't judged as one.
    other = of_time(begin + datetime.timedelta(seconds=30), 10, 2)
    files = {path_of(day): [after(0), of_time(begin + datetime.timedelta(seconds=10), 10, 1, encoding=4), other]}
    yield lines_of(folder / "records with other findings", files, 1,
                   line.format(3, 30, 50, "0 0.000000", 10, "0 0.000000 s",
                               f"2 first record 2 offset 128 encoding 4 {at}"))
    far = "2200/XX/STA/BHZ.D/XX.STA..BHZ.D.2200.001"
    yield lines_of(folder / "a year that the program doesn't take", {far: [after(0)]}, 1,
                   line.format(1, 10, 10, "0 0.000000", 0, "0 0.000000 s", 0), f"  misdated {far} 2024-05-14")


def moved(source: Random, files: dict[datetime.date, list[bytes]]) -> None:
    """Brings records into other places of their file, or into other files."""
    days = sorted(files)
    for _ in range(source.choice([0, 0, 1, 2, 5])):
        day = source.choice(days)
        at = source.randrange(len(files[day]) + 1)
        manner, some = source.randrange(5), files[day][at : at + source.choice([1, 3])]
        if manner == 0:
            del files[day][at : at + len(some)]
        elif manner == 1:
            files[source.choice(days)] += some
        elif manner == 2:
            other = source.choice(days)
            files[day], files[other] = files[other], files[day]
        elif manner == 3:
            files[day] = files[day][at:] + files[day][:at]
        else:
            files[source.choice(days)] = list(files[day])


def random_files(source: Random) -> dict[str, bytes]:
    """Records of a few days, each in the file of the day in which it begins or ends, but for some."""
    start = datetime.datetime(2023, 12, 29) + datetime.timedelta(seconds=source.randrange(86400))
    period, is_early = source.choice([60, 400, 3600]), source.randrange(2)
    files = {(start + datetime.timedelta(days=number)).date(): [] for number in range(-1, 6)}
    while start.date() + datetime.timedelta(days=2) < max(files):
        count = source.randrange(1, 17)
        end = start + datetime.timedelta(seconds=(count - 1) * period)
        files[end.date() if is_early else start.date()].append(of_time(start, count, period))
        start = end + datetime.timedelta(seconds=period + source.choice([0] * 20 + [period // 3, 5 * period, 90000]))
    moved(source, files)
    return {path_of(day): b"".join(records) for day, records in files.items() if records}


def missing_in(files: dict[str, bytes]) -> list[str]:
    """The line of missing days."""
    days = {day_of(one, day_in(path)) for path, content in files.items() for _, _, one in records_in(content)}
    first, last = min(days), max(days)
    some = {first + datetime.timedelta(days=number) for number in range((last - first).days)} - days
    return [f"  missing {days_in_words(some)}"] if some else []


def at_random(folder: Path) -> Cases:
    """Trees of one channel, against the second program."""
    for seed in range(SEED, SEED + COUNT):
        files = random_files(Random(seed))
        write_tree(folder / str(seed), files)
        wanted = [expected_of(files, KEY)[1], *missing_in(files), *misdated_in(files, [KEY])]
        came = outcome(tool("sds", "-j", "2", str(folder / str(seed))))
        yield Fact(f"the days of seed {seed}", wanted, came[1][:-1])


def in_json(folder: Path) -> Cases:
    """The same by words."""
    root = folder / "four days"
    (root / path_of(datetime.date(2024, 5, 14))).parent.mkdir(parents=True)
    several = [*halves(datetime.date(2024, 5, 13)), *halves(datetime.date(2024, 5, 14))[1:]]
    write_tree(root, {path_of(datetime.date(2024, 5, 13)): b"".join(several)})
    came = json.loads(tool("sds", "--json", str(root)).out)["channels"][0]
    yield Fact("days in JSON", (2, 43200 * SECOND, [
        {"file": path_of(datetime.date(2024, 5, 13)), "days": [["2024-05-14", "2024-05-14"]]}]),
        (came["days"], came["absent"], came["misdated"]))


def no_trees(folder: Path) -> Cases:
    """Folders of files, of another layout, and of nothing."""
    content = (SAMPLES / "network_gap.mseed").read_bytes()
    write_tree(folder, {"flat/network_gap.mseed": content, "bud/XX/KILN/KILN.XX..BHZ.2024.135": content})
    (folder / "nothing").mkdir()
    why = "no file of an SDS tree, as YEAR/NET/STA/CHAN.D/NET.STA.LOC.CHAN.D.YEAR.DAY"
    for name, words in (("gaps", []), ("timeline", []), ("slurm", ["--parts", str(folder / "parts")])):
        for kind in ("flat", "bud", "nothing"):
            yield Fact(f"{name}: {kind}", (2, [], f"{name}: {folder}/{kind}: {why}\n"),
                       outcome(tool(name, *words, str(folder / kind))))
    day = datetime.date(2024, 5, 14)
    write_tree(folder / "tree", {path_of(day): b"".join(halves(day)), "note": b"x", "2024/XX/STA/a.mseed": content})
    err = f"{folder}/tree/2024/XX/STA/a.mseed: misplaced\n{folder}/tree/note: misplaced\n".encode()
    for name in ("gaps", "timeline"):
        came = tool(name, str(folder / "tree"))
        yield Fact(f"{name}: files in no place of the layout", (2, err), (came.status, came.err))


def rows() -> Cases:
    """All of them."""
    for some in (by_hand, at_midnight, holes, at_random, in_json, no_trees):
        with tempfile.TemporaryDirectory() as name:
            yield from some(Path(name))
