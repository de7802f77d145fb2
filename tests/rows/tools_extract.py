"""What `tools/extract` writes: of a tree of a few records, worked out by hand; and of trees at random with damage,
against `mseed select` over one file of all their records.

MSEED_REQUESTS says how many requests at random are carried out; 150, where it isn't there. 2,000 of them may take
longer than a row file may among others: `MSEED_REQUESTS=2000 tests/run.py --report /tmp/count tools_extract`.
"""

from __future__ import annotations

import datetime
import itertools
import os
import subprocess
import sys
import tempfile
from pathlib import Path
from random import Random
from typing import Iterator, NamedTuple, Optional, Sequence

from driver.program import LIMIT, PROGRAM
from driver.records import record
from driver.rows import Cases, Fact, holds
from driver.tools import TOOLS, tool, write_tree
from models.selecting import fits

sys.path.insert(0, str(TOOLS))

from mseed_tools.asking import Asked, requested  # noqa: E402
from mseed_tools.searching import Search  # noqa: E402
from mseed_tools.tree import DayFile, tree_at  # noqa: E402

SEED = 20261130
REQUESTS = int(os.environ.get("MSEED_REQUESTS", "150"))
# So many requests are made of a tree.
EACH = 10
NAMES = {b"ANMO 00BHZIU": "IU.ANMO.00.BHZ", b"ANMO   BHEXX": "XX.ANMO..BHE", b"ANMO 00BHEXX": "XX.ANMO.00.BHE",
         b"AB   10LHZXX": "XX.AB.10.LHZ", b"ABC    VHZXX": "XX.ABC..VHZ", b"ABC    LOGXX": "XX.ABC..LOG"}
JUNK = [bytes(64), bytes(512), b"junk" * 16, b"000001D " + b"\xff" * 120, b"\0" * 4096]
MIDNIGHT = datetime.datetime(2024, 1, 1)
DAY_LONG = datetime.timedelta(days=1)


def at(instant: datetime.datetime, **changes) -> bytes:
    """A record that begins at an instant."""
    part = instant.timetuple()
    return record(year=part.tm_year, day=part.tm_yday, hour=part.tm_hour, minute=part.tm_min, second=part.tm_sec,
                  fraction=instant.microsecond // 100, **changes)


def path_of(name: str, day: datetime.date) -> str:
    """The path of a file below the root."""
    network, station, _, channel = name.split(".")
    return f"{day.year}/{network}/{station}/{channel}.D/{name}.D.{day.year}.{day.timetuple().tm_yday:03}"


def extracted(root: Path, *words: str, program: Optional[Path] = None) -> tuple[int, bytes, str]:
    """What the tool writes, and how it ends."""
    came = tool("extract", *words, str(root), program=program)
    return came.status, came.out, came.err.decode()


def selected(content: bytes, words: Sequence[str]) -> bytes:
    """What the program selects of an archive."""
    run = subprocess.run([str(PROGRAM), "select", *words], input=content, stdout=subprocess.PIPE,
                         stderr=subprocess.DEVNULL, timeout=LIMIT, check=True)
    return run.stdout


# A tree by hand: records of 16 s at one sample a second, in the middle of which a midnight may lie.
DAY = datetime.date(2024, 1, 1)
LATE = datetime.datetime(2023, 12, 31, 23, 59, 50)
Z, E, LHZ = b"ANMO 00BHZIU", b"ANMO   BHEXX", b"AB   10LHZXX"


def sound(codes: bytes, instant: datetime.datetime, number: int = 1, **changes) -> bytes:
    """A record of 16 s."""
    return at(instant, codes=codes, factor=1, sequence=number, **changes)


OVER, FIRST, NOON = (sound(Z, when, number) for number, when in enumerate(
    (LATE, datetime.datetime(2024, 1, 1, 0, 0, 6), datetime.datetime(2024, 1, 1, 12)), 1))
EAST = sound(E, datetime.datetime(2024, 1, 1, 12))
# A record that lasts 16 * 1,000,000 s, of which the next file is far.
LONG = at(datetime.datetime(2023, 11, 5), codes=LHZ, factor=-1000, multiplier=-1000)
LOST = sound(Z, datetime.datetime(2024, 1, 1, 12, 1), 9)
NO_TIME = record(codes=Z, hour=24, factor=1, sequence=10)
TREE = {path_of("IU.ANMO.00.BHZ", datetime.date(2023, 12, 31)): OVER, path_of("IU.ANMO.00.BHZ", DAY): FIRST + NOON,
        path_of("XX.ANMO..BHE", DAY): EAST, path_of("XX.AB.10.LHZ", datetime.date(2023, 11, 5)): LONG}
HOUR = ("--from", "2024-01-01", "--until", "2024-01-01T01")
NO_CODE = "no code of letters, digits, *, ? and -; -- is an empty location"
LINE = "IU ANMO 00 BHZ 2024-01-01 2024-01-01T01"


def by_hand(folder: Path) -> Cases:
    """A sound tree: each way to ask."""
    root = folder / "sound"
    write_tree(root, TREE)
    for words, wanted in [
        ((), OVER + FIRST + NOON + LONG + EAST), (HOUR, OVER + FIRST + LONG), (("--until", "2024-01-01"), OVER + LONG),
        (("--from", "2024-01-01T00:00:06"), FIRST + NOON + LONG + EAST),
        (("--channels", "XX_*_--_BH?"), EAST), (("--channels", "XX_*_??_*"), LONG),
        (("--channels", "*_AB_*_*,*_*_*_BHE"), LONG + EAST), (("--channels", "IU_ANMO_00_BHN"), b""),
        (("--channels", "IU_ANMO_00_BHZ", "--from", "2024-01-02"), b""),
        (("--from=2024-001T12:00:15Z", "--until=2024-01-01T12:00:15.000001"), NOON + LONG + EAST),
        (("-j", "1", *HOUR), OVER + FIRST + LONG), (("-j", "7"), OVER + FIRST + NOON + LONG + EAST),
    ]:
        yield Fact(f"a sound tree, {' '.join(words)}", (0, wanted, ""), extracted(root, *words))
    for words, why in [
        (("--channels", "IU_ANMO"), "IU_ANMO: no pattern of channels, as XX_STA_--_BH?"),
        (("--channels", "IU_ANMO_00_B.Z"), "IU_ANMO_00_B.Z: no pattern of channels, as XX_STA_--_BH?"),
        (("--channels", ""), ": no pattern of channels, as XX_STA_--_BH?"),
        (("--channels", "../.._*_*_*"), "../.._*_*_*: no pattern of channels, as XX_STA_--_BH?"),
        (("--from", "2024-13-01"), "2024-13-01: no time, as 2024-05-14 or 2024-05-14T03:20:00"),
        (("--from", "2024-01-02", "--until", "2024-001"), "2024-001: not after 2024-01-02"),
        (("--list", "-", "--from", "2024"), "--list stands without --channels, --from and --until"),
        (("--every",), "unrecognized arguments: --every"), (("-j", "0"), None),
    ]:
        status, out, err = extracted(root, *words)
        yield Fact(f"extract {' '.join(words)}", (3, b"", True),
                   (status, out, err == f"extract: {why}\n" if why else err.startswith("extract: ")))
    yield holds("the help has an example", b"example:\n  extract " in tool("extract", "--help").out)


def lists(folder: Path) -> Cases:
    """Requests, line by line: what two of them ask for is written once."""
    root, path = folder / "sound", folder / "requests"
    for lines, wanted in [
        ([LINE, LINE], OVER + FIRST), ([], b""), (["", LINE, " "], OVER + FIRST),
        (["IU ANMO 00 BHZ 2024-01-01T12 2024-01-02", LINE], NOON + OVER + FIRST),
        (["* * * * 2024-01-01T12 2024-01-02", "* * * * 2023-01-01 2025-01-01"], NOON + LONG + EAST + OVER + FIRST),
        (["* * -- BH? 2024-01-01 2024-01-02", "XX * * * 2024-01-01 2024-01-02"], EAST + LONG),
        (["IU,XX ANMO 00,-- BHZ,BHE 2024-01-01T12 2024-01-02"], NOON + EAST),
        (["IU ANMO 00 BHZ 2023-12-31T23:59:50 2024-01-01", "IU ANMO 00 BHZ 2024-01-01 2024-01-01T00:00:06",
          "IU ANMO 00 BHZ 2024-01-01T00:00:06 2024-01-01T00:00:07"], OVER + FIRST),
        # The third line reads a file as the one before its window, which the second one doesn't.
        (["IU ANMO 00 BHZ 2024-02-01 2024-02-02", "XX AB 10 LHZ 2024-01-01 2024-01-02",
          "XX AB 10 LHZ 2023-11-05 2023-11-06"], LONG),
    ]:
        path.write_text("".join(f"{line}\n" for line in lines))
        yield Fact(f"the list {lines}", (0, wanted, ""), extracted(root, "--list", str(path)))
    for line, why in [
        ("IU ANMO 00 BHZ 2024-01-01", "5 columns, and NET STA LOC CHA START END are wanted"),
        ("IU ANMO 00 B_Z 2024-01-01 2024-01-02", f"B_Z: {NO_CODE}"),
        ("IU ANMO 00 BHZ, 2024-01-01 2024-01-02", f": {NO_CODE}"),
        ("IU ANMO 00 BHZ 2024-01-01 2024-01-01", "2024-01-01: not after 2024-01-01"),
        ("IU ANMO 00 BHZ 2024-01-01 now", "now: no time, as 2024-05-14 or 2024-05-14T03:20:00"),
        (f"{','.join(['A'] * 40)} {','.join(['B'] * 40)} * * 2024-01-01 2024-01-02",
         "1600 patterns of channels, and 1000 are taken at once"),
    ]:
        path.write_text(f"{LINE}\n\n{line}\n")
        yield Fact(f"the line {line[:40]}", (3, b"", f"extract: {path} line 3: {why}\n"),
                   extracted(root, "--list", str(path)))
    run = subprocess.run([sys.executable, str(TOOLS / "extract"), "--list", "-", str(root)], input=f"{LINE}\n".encode(),
                         capture_output=True, env={**os.environ, "MSEED": str(PROGRAM)}, timeout=LIMIT, check=False)
    yield Fact("a list from standard input", (0, OVER + FIRST, b""), (run.returncode, run.stdout, run.stderr))
    yield Fact("no list", (2, b"", f"extract: {folder}/none: No such file or directory\n"),
               extracted(root, "--list", str(folder / "none")))


def damage(folder: Path) -> Cases:
    """Damaged files are told and read on; nothing else is lost."""
    root = folder / "damaged"
    place = {name: path_of(name, DAY) for name in NAMES.values()}
    day = place["IU.ANMO.00.BHZ"]
    write_tree(root, {**TREE, day: FIRST + bytes(128) + NOON + b"junk" * 16 + NO_TIME + LOST[:-28],
                      "2024/XX/ABC/VHZ.D/notes": b"x", "unfiled.mseed": LOST, "readme.txt": b"text",
                      "lost/deeper/file": NO_TIME, "lost/.hidden": NOON})
    (root / place["XX.ANMO.00.BHE"]).symlink_to("nothing")
    os.mkfifo(root / path_of("XX.ANMO.00.BHE", datetime.date(2024, 1, 2)))
    told = [f"{root / day}: fault at 128 notdata, 128 bytes skipped",
            f"{root / day}: fault at 384 notdata, 64 bytes skipped",
            f"{root / day}: fault at 576 truncated 100, 100 bytes skipped"]
    unread = [f"{root / path_of('XX.ANMO.00.BHE', date)}: fault at 0 read" for date in (DAY, datetime.date(2024, 1, 2))]
    yield Fact("a damaged tree", (2, OVER + FIRST + NOON + NO_TIME + LONG + EAST, "\n".join([*told, *unread, ""])),
               extracted(root))
    yield Fact("a window of it", (2, NOON, "\n".join([*told, "extract: 1 records without a time", ""])),
               extracted(root, "--channels", "IU_*_*_*", "--from", "2024-01-01T12"))
    yield Fact("what isn't damaged of it", (0, EAST, ""), extracted(root, "--channels", "XX_ANMO_--_BHE"))
    path = folder / "requests"
    path.write_text(f"{LINE}\nIU ANMO 00 BHZ 2024-01-01 2024-01-02\n")
    yield Fact("two requests of it", (2, OVER + FIRST + NOON), extracted(root, "--list", str(path))[:2])
    path.write_text("XX ANMO 00 BHE 2024-01-01 2024-01-03\nXX ANMO * BHE 2024-01-01 2024-01-03\n")
    yield Fact("two requests of what can't be opened", (2, EAST, "".join(f"{line}\n" for line in unread)),
               extracted(root, "--list", str(path)))
    status, out, err = extracted(root, "--everywhere", "--channels", "IU_*_*_*")
    yield Fact("everywhere", (2, OVER + FIRST + NOON + NO_TIME + NO_TIME + LOST), (status, out))
    others = [f"{root}/2024/XX/ABC/VHZ.D/notes: fault at 0 truncated 1, 1 bytes skipped",
              f"{root}/readme.txt: fault at 0 truncated 4, 4 bytes skipped"]
    yield Fact("what is told of it", sorted([*told, *unread, *others]), sorted(err.splitlines()))


def roots(folder: Path) -> Cases:
    """What is no root, and where the output can't be."""
    root = folder / "sound"
    year = f"extract: {root}/2024: the folder of a year; the root of the archive is {root}\n"
    yield Fact("the folder of a year", (2, b"", year), extracted(root / "2024"))
    plain = folder / "plain"
    write_tree(plain, {"day.mseed": NOON})
    none = f"extract: {plain}: no folder of a year, as an archive in the SDS layout has them\n"
    yield Fact("a folder of files", (2, b"", none), extracted(plain))
    yield Fact("a folder of files, everywhere", (0, NOON, ""), extracted(plain, "--everywhere"))
    lacking = f"extract: {folder}/none: No such file or directory\n"
    yield Fact("no folder", (2, b"", lacking), extracted(folder / "none"))
    (folder / "empty").mkdir()
    yield Fact("an empty folder", (0, b"", ""), extracted(folder / "empty"))
    out = root / path_of("IU.ANMO.00.BHZ", datetime.date(2024, 1, 2))
    with open(out, "wb") as file:
        run = subprocess.run([sys.executable, str(TOOLS / "extract"), "--channels", "IU_*_*_*", "-j", "1", str(root)],
                             stdout=file, stderr=subprocess.PIPE, env={**os.environ, "MSEED": str(PROGRAM)},
                             timeout=LIMIT, check=False)
    yield Fact("into a file that is read", (2, f"extract: {out}: is the output\n".encode()),
               (run.returncode, run.stderr))
    out.unlink()
    failing = folder / "failing"
    failing.write_text("#!/bin/sh\necho 'mseed: no memory' >&2\nexit 2\n", encoding="utf-8")
    failing.chmod(0o755)
    yield Fact("a program without memory", (2, b"", f"extract: {failing} select: status 2, mseed: no memory\n"),
               extracted(root, program=failing))
    with open("/dev/full", "wb") as full:
        run = subprocess.run([sys.executable, str(TOOLS / "extract"), str(root)], stdout=full, stderr=subprocess.PIPE,
                             env={**os.environ, "MSEED": str(PROGRAM)}, timeout=LIMIT, check=False)
    yield Fact("onto a disk that is full", (2, b"extract: standard output: No space left on device\n"),
               (run.returncode, run.stderr))
    piped = subprocess.run(f"{sys.executable} {TOOLS / 'extract'} {root} | head -c 1; echo ${{PIPESTATUS[0]}}",
                           shell=True, executable="/bin/bash", capture_output=True, timeout=LIMIT, check=False,
                           env={**os.environ, "MSEED": str(PROGRAM)})
    yield holds("whoever has enough of it", piped.stdout[:1] == OVER[:1] and piped.stderr == b"", piped)


class Made(NamedTuple):
    """A tree at random: its files, as records and junk; and the records that are in their places, in the order of
    channels and days, and those that aren't."""

    files: dict[str, list[bytes]]
    placed: list[bytes]
    misplaced: list[bytes]
    is_damaged: set[str]
    is_foreign: bool


def series(source: Random, codes: bytes, first: int) -> Iterator[tuple[datetime.date, bytes]]:
    """Records of a channel, over midnights and a year's end, with the days in which they begin."""
    exponent, number = source.choice(range(7, 13)), first
    period = {b"VHZ": 100, b"LHZ": 1}.get(codes[7:10], source.choice([1, 10]))
    when = MIDNIGHT + datetime.timedelta(days=source.uniform(-4, -1))
    while when < MIDNIGHT + datetime.timedelta(days=2):
        samples = source.choice([0, 1, 16, 600, 4000, 30000])
        factor = {100: -100, 1: 1, 10: -10}[period]
        yield when.date(), at(when, codes=codes, samples=samples, factor=factor, exponent=exponent,
                              sequence=number % 10**6)
        number += 1
        gap = source.choice([0, 0, 0, 1000, 40000]) if codes[7:10] != b"VHZ" else 0
        when += datetime.timedelta(seconds=max(samples, 1) * period + gap)
        when = when.replace(microsecond=when.microsecond // 100 * 100)


def made(source: Random) -> Made:
    """A tree at random."""
    files: dict[str, list[bytes]] = {}
    for number, (codes, name) in enumerate(NAMES.items()):
        if source.randrange(5):
            for day, one in series(source, codes, 1000 * number + 1):
                files.setdefault(path_of(name, day), []).append(one)
    is_foreign = source.randrange(3) == 0
    placed: list[bytes] = []
    for path in sorted(files, key=lambda path: ("_".join(path.split("/")[4].split(".")[:4]), path)):
        if source.randrange(4) == 0:
            files[path].append(source.choice(files[path]))
        if is_foreign and source.randrange(4) == 0:
            files[path].append(source.choice(files[source.choice(list(files))]))
        placed += files[path]
    misplaced = [source.choice(placed) for _ in range(source.randrange(1, 4))] if placed else []
    is_damaged = {path for path in files if source.randrange(3) == 0}
    for path in is_damaged:
        for _ in range(source.randrange(1, 3)):
            files[path].insert(source.randrange(len(files[path]) + 1), source.choice(JUNK))
        files[path] += [files[path][-1][:source.randrange(1, 64)]] if source.randrange(3) == 0 else []
    files["misplaced/some.mseed"] = misplaced
    return Made(files, placed, misplaced, is_damaged, is_foreign)


def pattern(source: Random) -> str:
    """A pattern of channels."""
    network, station, location, channel = source.choice(list(NAMES.values())).split(".")
    fields = [source.choice([network, network, "*", "?" + network[1:]]),
              source.choice([station, "*", station[0] + "*"]), source.choice([location or "--", location, "*", "??"]),
              source.choice([channel, "*", channel[:2] + "?"])]
    return "_".join(fields)


def instant(source: Random) -> datetime.datetime:
    """An instant: most often close to a midnight."""
    day = MIDNIGHT + datetime.timedelta(days=source.randrange(-4, 3))
    seconds = source.choice([0, 0, 1, -1, source.uniform(-3, 3), source.uniform(0, 86400)])
    return day + datetime.timedelta(seconds=seconds)


def window(source: Random) -> tuple[str, str]:
    """A window, in one of the forms of a time."""
    while True:
        begin, end = sorted([instant(source), instant(source)])
        forms = ["%Y-%m-%dT%H:%M:%S.%f", "%Y-%jT%H:%M:%S.%f", "%Y-%m-%dT%H:%M:%SZ"]
        words = [when.strftime(source.choice(forms)) for when in (begin, end)]
        if begin + datetime.timedelta(seconds=1) < end:
            return words[0], words[1]


def parts_in(content: bytes, records: Sequence[bytes]) -> list[int]:
    """Which of some records some bytes are, which are some of them in their order."""
    places, offset = [], 0
    for place, one in enumerate(records):
        if one and content.startswith(one, offset):
            places.append(place)
            offset += len(one)
    return places if offset == len(content) else [-1]


def options(source: Random) -> list[str]:
    """The options of a request; each may be missing."""
    words: list[str] = []
    if source.randrange(4):
        words.append("--channels=" + ",".join(pattern(source) for _ in range(source.choice([1, 1, 2, 3]))))
    begin, end = window(source)
    words += [f"--from={begin}"] if source.randrange(4) else []
    words += [f"--until={end}"] if source.randrange(4) else []
    return words


def listed(source: Random, tree: Made, path: Path) -> bytes:
    """Writes a list of requests, and says what must come of it: of each line what no line before asks for."""
    lines, written, wanted = [], set(), b""
    whole = b"".join(tree.placed)
    for _ in range(source.randrange(1, 6)):
        name, (begin, end) = pattern(source), window(source)
        lines.append(" ".join([*("--" if not field else field for field in name.split("_")), begin, end]))
        came = selected(whole, [f"--channels={name}", f"--from={begin}", f"--until={end}"])
        for place in parts_in(came, tree.placed):
            wanted += tree.placed[place] if place not in written else b""
            written.add(place)
    path.write_text("".join(f"{line}\n" for line in lines))
    return wanted


def at_random(folder: Path, count: int) -> Cases:
    """Requests of trees at random, against the program over one file of all records."""
    asked = some = 0
    for seed in range(SEED, SEED + -(-count // EACH)):
        source, root = Random(seed), folder / str(seed)
        tree = made(source)
        write_tree(root, {path: b"".join(items) for path, items in tree.files.items()})
        for number in range(min(EACH, count - asked)):
            asked += 1
            if not tree.is_foreign and number % 3 == 2:
                path = folder / "requests"
                wanted, words = listed(source, tree, path), ["--list", str(path)]
            else:
                words = options(source)
                wanted = selected(b"".join([*tree.placed, *tree.misplaced * tree.is_foreign]), words)
                words += ["--everywhere"] * tree.is_foreign
            some += bool(wanted)
            status, out, err = extracted(root, *words)
            is_told = {path for path in tree.is_damaged if f"{root / path}: fault at " in err}
            yield Fact(f"the tree of seed {seed}, {words}", (wanted, 2 if is_told else 0, True),
                       (out, status, tree.is_foreign <= (is_told == tree.is_damaged)))
    yield holds("some requests ask for something", some > count // 3, some)


def looked_at(files: Sequence[DayFile], asked: Asked) -> list[DayFile]:
    """The files of a tree that can hold what is asked for, by the definition: of each channel those of the window's
    days, and the last one before them, of the year in which the day before the window lies, or the year before."""
    fields, wanted = (asked.request.patterns or ("*_*_*_*",))[0].split("_"), []
    oldest = (asked.first - DAY_LONG).year - 1 if asked.first > datetime.date.min else 0
    for name, some in itertools.groupby(files, lambda file: file.channel):
        if all(fits(field, code) or at == 2 and field == "--" and not code
               for at, (field, code) in enumerate(zip(fields, name.split("_")))):
            of_channel = list(some)
            wanted += [file for file in of_channel if file.day < asked.first and file.day.year >= oldest][-1:]
            wanted += [file for file in of_channel if asked.first <= file.day <= asked.last]
    return wanted


def searches(folder: Path) -> Cases:
    """Which files are looked at, of trees whose files are empty: no other one, and none is left out."""
    count, wrong = 0, []
    for seed in range(SEED, SEED + 15):
        source, root = Random(seed), folder / str(seed)
        days = [datetime.date(2022, 12, 20) + datetime.timedelta(days=int(source.triangular(0, 800, 378)))
                for _ in range(40)]
        write_tree(root, {path_of(source.choice(list(NAMES.values())), day): b"" for day in days})
        files = tree_at(str(root)).files
        for number in range(20):
            begin, end = window(source)
            patterns = [pattern(source)] * (number % 4 > 0)
            asked = Asked(requested(patterns, begin if number % 5 else None, end if number % 7 else None))
            search, wanted = Search(str(root)), looked_at(files, asked)
            count += 1
            if list(search.files(asked)) != wanted or [file for file in files if search.reads(asked, file)] != wanted:
                wrong.append((seed, asked.request))
    yield Fact("requests whose files are others than they should be", (300, []), (count, wrong))


def rows() -> Cases:
    """All of them."""
    with tempfile.TemporaryDirectory() as name:
        folder = Path(name)
        yield from by_hand(folder)
        yield from lists(folder)
        yield from damage(folder)
        yield from roots(folder)
        yield from searches(folder / "searches")
        yield from at_random(folder / "random", REQUESTS)
