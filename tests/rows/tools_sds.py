"""What `tools/sds` says: of an archive with whatever goes wrong with one (driver/tools.py), worked out by hand; of
archives at random, against the definition of a finding in Python and against the program over whole channels; of files
that change; and what it says when it was killed and goes on.
"""

from __future__ import annotations

import datetime
import fcntl
import json
import os
import re
import signal
import subprocess
import sys
import tempfile
import time
from pathlib import Path
from random import Random
from typing import Iterator, Optional

from driver.program import PROGRAM
from driver.records import record
from driver.rows import Cases, Fact, Result, holds
from driver.tools import DAYS, TOOLS, batches, make_tree, place, rest, outcome, tool, write_tree
from models.auditing import Record, findings, name_of, record_of, scan, start_of, time_of
from models.covering import Time, day_of, is_told
from models.series import records_for, series_for
from rows.damaged_archives import harm

SEED = 20270301
COUNT = 60
KILLS = 20

SPAN = "from 2016-12-30T00:00:00.000000 to 2017-01-04T00:00:00.000000"
NO_GAPS, NO_OVERLAPS = "gaps 0 0.000000 s absent 0.000000 s", "overlaps 0 0.000000 s"

EACH = [
    # The 50 records before it have 36,050 samples: it begins a record later.
    (place("AAA", "BHE", DAYS[0]), 25600, "XX_AAA__BHE", 51, "2016-12-30T10:12:51.000000", "gap 721000000"),
    (place("AAA", "BHE", DAYS[3]), 15872, "XX_AAA__BHE", 32, "2017-01-02T06:00:30.000000", "overlap 721000000"),
    (place("BBB", "BHN", DAYS[2]), 0, "XX_BBB__BHN", 1, "2017-01-02T00:00:00.000000", "gap 86400000000"),
    (place("BBB", "BHN", DAYS[3]), 0, "XX_BBB__BHN", 1, "2017-01-01T00:00:00.000000", "overlap 172800000000"),
    (place("BBB", "BHN", DAYS[4]), 0, "XX_BBB__BHN", 1, "2017-01-03T00:00:00.000000", "gap 86400000000"),
    (place("BBB", "BHZ", DAYS[2]), 61440, "XX_BBB__BHZ", 121, "2017-01-01T00:00:00.000000", "overlap 86400000000"),
    (place("CCC", "BHE", DAYS[0]), 0, "XX_CCC__BHE", 1, "2016-12-30T00:00:00.000000", "blockette100"),
    (place("CCC", "BHE", DAYS[4]), 4608, "XX_CCC__BHE", 10, "2017-01-03T01:48:09.000000", "lastdiffers 0 1"),
    # 119 records have 85,799 samples, and the lost one had the leap second.
    (place("CCC", "BHN", DAYS[2]), 0, "XX_CCC__BHN", 1, "2017-01-01T00:00:00.000000", "gap 601000000"),
    (place("CCC", "BHZ", DAYS[4]), 0, "XX_CCC__BHZ", 1, "2017-01-03T00:00:00.000000", "gap 259200000000"),
]
FIRST = {name: f"first record {number} offset {offset} {why} in {path}"
         for path, offset, name, number, _, why in reversed(EACH)}

# Five days have 432,001 seconds. A record of 512 bytes has 721.
EXPECTED = f"""\
XX_AAA__BHE days 5 records 600 samples 432001 {SPAN} gaps 1 721.000000 s absent 721.000000 s \
overlaps 1 721.000000 s findings 2 \
{FIRST["XX_AAA__BHE"]}
XX_AAA__BHN days 5 records 70 samples 432001 {SPAN} {NO_GAPS} {NO_OVERLAPS} findings 0
XX_AAA__BHZ days 5 records 600 samples 432001 {SPAN} {NO_GAPS} {NO_OVERLAPS} findings 0
XX_BBB__BHN days 5 records 600 samples 432001 {SPAN} gaps 2 172800.000000 s absent 0.000000 s \
overlaps 1 172800.000000 s \
findings 3 {FIRST["XX_BBB__BHN"]}
  misdated {place("BBB", "BHN", DAYS[2])} 2017-01-02
  misdated {place("BBB", "BHN", DAYS[3])} 2017-01-01
XX_BBB__BHZ days 5 records 720 samples 518401 {SPAN} {NO_GAPS} overlaps 1 86400.000000 s findings 1 \
{FIRST["XX_BBB__BHZ"]}
XX_BBB__LOG undecoded days 5 records 5 samples 100 from 2016-12-30T12:00:00.000000 to 2017-01-03T12:00:00.000000
XX_CCC__BHE days 5 records 566 samples 432001 {SPAN} {NO_GAPS} {NO_OVERLAPS} findings 2 \
{FIRST["XX_CCC__BHE"]}
XX_CCC__BHN days 5 records 599 samples 431399 {SPAN} gaps 1 601.000000 s absent 601.000000 s {NO_OVERLAPS} findings 1 \
{FIRST["XX_CCC__BHN"]}
  fault {place("CCC", "BHN", DAYS[1])} at 60928 truncated 412, 412 bytes skipped
  fault {place("CCC", "BHN", DAYS[2])} at 30720 notdata, 512 bytes skipped
  fault {place("CCC", "BHN", DAYS[3])} at 30720 notdata, 4096 bytes skipped
XX_CCC__BHZ days 2 records 240 samples 172800 {SPAN} gaps 1 259200.000000 s absent 259200.000000 s \
{NO_OVERLAPS} findings 1 \
{FIRST["XX_CCC__BHZ"]}
  missing 2016-12-31..2017-01-02
  empty {place("CCC", "BHZ", DAYS[1])}
  foreign {place("CCC", "BHZ", DAYS[2])} XX_AAA__BHZ
  fault {place("CCC", "BHZ", DAYS[3])} at 0 read, 0 bytes skipped
misplaced {place("AAA", "BHZ", DAYS[4], folder="CCC")}
""".splitlines()
# In records of 512 and of 4,096 bytes; the day with blockette 100 has 86 of these.
BYTES = 512 * (600 + 600 + 600 + 720 + 5 + 1 + 480 + 600 + 1 + 360) - 100 + 4096 * (70 + 86 + 1)
TOTAL = f"files 45 bytes {BYTES} channels 9 continuous 2 broken 6 undecoded 1 faults 4"

WORDS = ("file", "offset", "name", "number", "start", "why")
# What stands for a number that no text of the program has.
UNTOLD = "UNTOLD"


def line_of(path: str, offset: int, name: str, number: int, start: str, why: str) -> str:
    """The line of a record with a finding."""
    return f"{path} {offset} {name} record {number} start {start} {why}"


def sample(folder: Path) -> Cases:
    """The archive, as text, with each finding, as JSON, and with what is kept."""
    root, state = folder / "archive", folder / "state"
    make_tree(root)
    rest()
    yield Fact("the sample tree", (2, [*EXPECTED, TOTAL], ""), outcome(tool("sds", str(root))))
    each = [line_of(*values) for values in EACH]
    yield Fact("each finding of the sample tree", (2, [*each, *EXPECTED, TOTAL], ""),
               outcome(tool("sds", "--each", str(root))))
    for name in ("with nothing kept", "with all kept"):
        yield Fact(f"the sample tree, {name}", (2, [*each, *EXPECTED, TOTAL], ""),
                   outcome(tool("sds", "--each", "-j", "3", "--state", str(state), str(root))))
    yield from in_json(tool("sds", "--each", "--json", "--state", str(state), str(root)))
    texts = sorted(path.suffix for path in state.rglob("*") if path.is_file())
    # A text for each channel and year; the lock; what was said; nothing that was begun.
    yield Fact("what is kept", ["", *[".json"] * 18, ".txt"], texts)
    said = (state / "verdict.txt").read_text(encoding="utf-8").splitlines()
    yield Fact("what was said last", (True, [*EXPECTED, TOTAL]),
               (re.fullmatch(r"\d{4}-\d\d-\d\dT\d\d:\d\d:\d\d status 2", said[0]) is not None, said[1:]))
    yield from kept(root, state)


def in_json(came: Result) -> Cases:
    """The sample tree as JSON."""
    reported = json.loads(came.out)
    by_name = {channel["channel"]: channel for channel in reported["channels"]}
    yield Fact("the sample tree's names in JSON", [line.split()[0] for line in EXPECTED if line.startswith("XX")],
               [channel["channel"] for channel in reported["channels"]])
    first = 1483056000000000
    yield Fact("a channel in JSON", {
        "channel": "XX_CCC__BHZ", "state": "broken", "days": 2, "records": 240, "samples": 172800, "from": first,
        "to": first + 5 * 86400 * 10**6, "gaps": {"count": 1, "microseconds": 259200 * 10**6},
        "overlaps": {"count": 0, "microseconds": 0}, "findings": 1, "first": dict(zip(WORDS, EACH[-1])),
        "absent": 259200 * 10**6, "missing": [["2016-12-31", "2017-01-02"]],
        "foreign": [{"file": place("CCC", "BHZ", DAYS[2]), "channel": "XX_AAA__BHZ"}], "misdated": [],
        "fault": [{"file": place("CCC", "BHZ", DAYS[3]), "at": 0, "fault": "read", "skipped": 0}], "changed": [],
        "empty": [{"file": place("CCC", "BHZ", DAYS[1])}]}, by_name["XX_CCC__BHZ"])
    yield Fact("a log in JSON", ("undecoded", 20 * 5, None, None),
               tuple(by_name["XX_BBB__LOG"].get(word) for word in ("state", "samples", "findings", "absent")))
    yield Fact("files of other days in JSON", [
        {"file": place("BBB", "BHN", DAYS[number]), "days": [[day, day]]}
        for number, day in ((2, "2017-01-02"), (3, "2017-01-01"))], by_name["XX_BBB__BHN"]["misdated"])
    yield Fact("what is first in a sound channel, in JSON", None, by_name["XX_AAA__BHZ"]["first"])
    yield Fact("each finding in JSON", [dict(zip(WORDS, values)) for values in EACH], reported["each"])
    yield Fact("the total in JSON", TOTAL, " ".join(f"{word} {number}" for word, number in reported["total"].items()))
    yield Fact("misplaced files in JSON", [EXPECTED[-1].split()[1]], reported["misplaced"])


def kept(root: Path, state: Path) -> Cases:
    """What is kept is taken, where the file is the same and the program too; a text that is none is nothing."""
    with counting(root.parent) as program:
        tool("sds", "--state", str(state), str(root), program=program.path)
        yield holds("another program reads all anew", program.audits() >= 44, program.audits())
        tool("sds", "--state", str(state), str(root), program=program.path)
        yield Fact("a second run reads nothing", 0, program.audits())
        path = root / place("AAA", "BHZ", DAYS[0])
        path.write_bytes(path.read_bytes()[:-512])
        rest()
        came = outcome(tool("sds", "--state", str(state), str(root), program=program.path))
        yield Fact("a run after a change reads that file", (1, True),
                   (program.audits(), any(line.startswith("XX_AAA__BHZ")
                                          and f" gaps 1 601.000000 s absent 601.000000 s {NO_OVERLAPS} findings 1 "
                                          in line for line in came[1])))
        text = next(state.rglob("XX.AAA..BHZ.D.2016.json"))
        whole = text.read_bytes()
        for content in (b"", b"{", b"[]", b'{"form": 1}', whole[:-20], whole.replace(b"mseed", b"")):
            text.write_bytes(content)
            again = outcome(tool("sds", "--state", str(state), str(root), program=program.path))
            yield Fact(f"a text of {len(content)} bytes that isn't whole", (2, came), (program.audits(), again))
    inside = outcome(tool("sds", "--state", str(root / "state"), str(root)))
    yield Fact("a state in the archive", (2, [], f"sds: {root / 'state'}: is in the archive, which is only read\n"),
               inside)


class counting:
    """A program that does what the one that is tested does, and counts its audits."""

    def __init__(self, folder: Path):
        self.path, self.log = folder / "counting", folder / "counted"

    def __enter__(self) -> counting:
        self.path.write_text(f'#!/bin/sh\n[ "$1" = audit ] && echo >> {self.log}\nexec {PROGRAM} "$@"\n')
        self.path.chmod(0o755)
        return self

    def __exit__(self, *_: object) -> None:
        self.path.unlink()

    def audits(self) -> int:
        """How many there were since this was called last."""
        count = len(self.log.read_bytes()) if self.log.exists() else 0
        self.log.write_bytes(b"")
        return count


def records_in(content: bytes) -> Iterator[tuple[int, int, Record]]:
    """The records of a file with their numbers and offsets, on after what is none."""
    offset = number = 0
    while offset < len(content):
        answer, value = scan(content[offset : offset + 2**20 + 1])
        if answer == "record":
            number += 1
            yield number, offset, record_of(content[offset : offset + value])
            offset += value
        else:
            steps = range((offset // 64 + 1) * 64, len(content), 64)
            offset = next((at for at in steps if scan(content[at : at + 2**20 + 1])[0] == "record"), len(content))


def expected_of(files: dict[str, bytes], key: bytes) -> tuple[list[str], Optional[str]]:
    """The lines of a channel's findings, and what its line says of counts and lengths."""
    records = [(path, number, offset, record) for path, content in sorted(files.items())
               for number, offset, record in records_in(content) if record.count and record.key == key]
    if not records:
        return [], None
    channel = [(place, place, record) for place, (_, _, _, record) in enumerate(records)]
    lines, firsts, sums = [], [], {"gap": [], "overlap": []}
    for at, _, why in findings(channel):
        path, number, offset, record = records[at]
        lines.append(line_of(path, offset, name_of(key), number, start_of(record.start()), why))
        firsts.append(f" first record {number} offset {offset} {why} in {path}")
        if why.split()[0] in sums:
            sums[why.split()[0]].append(int(why.split()[1]))
    gaps, overlaps = (f"{kind}s {len(some)} {sum(some) / 10**6:.6f} s" for kind, some in sums.items())
    samples = sum(record.count for _, _, _, record in records)
    days = len({day_of(record, day_in(path)) for path, _, _, record in records} - {None})
    begin, end, absent = covered_in_words([record for _, _, _, record in records])
    return lines, (f"{name_of(key)} days {days} records {len(records)} samples {samples} from {begin} to {end} "
                   f"{gaps} absent {absent} s {overlaps} findings {len(lines)}{''.join(firsts[:1])}")


def day_in(path: str) -> datetime.date:
    """The day of a file."""
    return datetime.datetime.strptime(path[-8:], "%Y.%j").date()


def covered_in_words(records: list[Record]) -> tuple[str, str, str]:
    """Where records begin and end by time, and for how many seconds they are absent, if their leap seconds are told."""
    covered = Time(records)
    if not covered.spans:
        return "none", "none", "0.000000"
    begin, end = time_of(covered.spans[0][0]), time_of(int(max(end for _, end, _ in covered.spans)))
    return (begin, end, f"{sum(covered.holes()) / 10**6:.6f}") if is_told(records) else (UNTOLD,) * 3


def as_told(wanted: list[str], came: list[str]) -> list[str]:
    """Lines in which stands, in the place of what isn't told, what was wanted."""
    if len(wanted) != len(came):
        return came
    return [one if UNTOLD in one and re.fullmatch(re.escape(one).replace(re.escape(UNTOLD), r"\S+"), other) else other
            for one, other in zip(wanted, came)]


def misdated_in(files: dict[str, bytes], keys: list[bytes]) -> list[str]:
    """The lines of files with records of other days than their own."""
    lines = []
    for key in keys:
        for path, content in sorted(files.items()):
            records = [record for _, _, record in records_in(content) if record.count and record.key == key]
            days = {day_of(record, day_in(path)) for record in records} - {None, day_in(path)}
            if days and key[2:7].decode().strip() in path:
                lines.append(f"  misdated {path} {days_in_words(days)}")
    return lines


def days_in_words(days: set[datetime.date]) -> str:
    """Days, as runs."""
    words = ""
    for day in sorted(days):
        before, after = (day + datetime.timedelta(days=step) in days for step in (-1, 1))
        words += "" if before and after else f"..{day}" if before else f" {day}"
    return words[1:]


def random_tree(source: Random) -> tuple[dict[str, bytes], list[bytes]]:
    """Files of two channels, sound or damaged, and the channels' keys."""
    files, keys, is_sound = {}, [], source.randrange(3) == 0
    for number in range(2):
        codes, records = b"STA%02d00BHZXX" % number, []
        for _ in range(1 if is_sound else source.choice([1, 2, 3])):
            records += records_for(source, series_for(source, codes, 7, source.choice([1, 3, 10, 11])))[:40]
        for _ in range(0 if is_sound else source.choice([0, 1, 3])):
            if records:
                harm(source, records)
        if not is_sound and source.randrange(3) == 0:
            records.insert(source.randrange(len(records) + 1), source.choice([bytes(512), b"junk" * 160, bytes(64)]))
        sizes = [source.randrange(len(records) + 1) for _ in range(6)] + [len(records)]
        name = f"XX/STA{number:02}/BHZ.D/XX.STA{number:02}.00.BHZ.D"
        days = sorted(source.sample(range(360, 366), 3)) + sorted(source.sample(range(1, 366), 4))
        for place_of, (day, content) in enumerate(zip(days, batches(records, sizes))):
            year = 2022 if place_of < 3 else 2023
            files[f"{year}/{name}.{year}.{day:03}"] = content
        keys.append(b"XXSTA%02d00BHZ" % number)
    return files, keys


def trees_at_random(folder: Path, count: int) -> Cases:
    """Archives at random, against the second program, and where there is no fault against the program's audit."""
    clean = untold = 0
    for seed in range(SEED, SEED + count):
        root = folder / str(seed)
        files, keys = random_tree(Random(seed))
        write_tree(root, files)
        lines, wanted = [], []
        for key in keys:
            own = {path: content for path, content in files.items() if key[2:7].decode() in path}
            found, line = expected_of(own, key)
            lines += found
            wanted += [line] if line else []
        status, came, err = outcome(tool("sds", "-j", "2", "--each", str(root)))
        channels = [line for line in came if line.startswith("XX_STA") and " records 0 " not in line]
        yield Fact(f"the tree of seed {seed}: findings", lines, [line for line in came if line.startswith("202")])
        untold += sum(UNTOLD in line for line in wanted)
        yield Fact(f"the tree of seed {seed}: channels", (wanted, ""), (as_told(wanted, channels), err))
        yield Fact(f"the tree of seed {seed}: files of other days", misdated_in(files, keys),
                   [line for line in came if line.startswith("  misdated ")])
        if not any(line.startswith("  f") for line in came):
            clean += 1
            yield from as_audited(seed, files, keys, status, came)
    yield holds("some trees are clean", clean > count // 6, clean)
    yield holds("most leap seconds are told", untold < count, untold)


def as_audited(seed: int, files: dict[str, bytes], keys: list[bytes], status: int, came: list[str]) -> Cases:
    """A tree without faults is what the program says of its files one after another."""
    for key in keys:
        whole = b"".join(content for path, content in sorted(files.items()) if key[2:7].decode() in path)
        audit = subprocess.run([str(PROGRAM), "audit"], input=whole, stdout=subprocess.PIPE, check=False)
        line = next((line for line in audit.stdout.decode().splitlines() if line.startswith(name_of(key))), "")
        own = next((line for line in came if line.startswith(f"{name_of(key)} days")), "")
        count = re.search(r"broken findings (\d+)", line)
        yield Fact(f"the tree of seed {seed}, {name_of(key)} as it is audited", count[1] if count else "0",
                   own.split(" findings ")[1].split()[0])
        begin = re.search(r"continuous (\S+)", line)
        if begin:
            yield Fact(f"the tree of seed {seed}, where {name_of(key)} begins", begin[1],
                       own.split(" from ")[1].split()[0])
        yield holds(f"the tree of seed {seed}, its status", status >= audit.returncode, (status, audit.returncode))


def kills(folder: Path) -> Cases:
    """A run that is killed at any moment, and then goes on, says the same, and reads less than all."""
    root, state, source = folder / "archive", folder / "killed", Random(SEED)
    is_whole, ended = [], []
    with counting(folder) as program:
        words = ["-j", "2", "--each", "--state", str(state), str(root)]
        begun = time.monotonic()
        first = ["-j", "2", "--each", "--state", str(folder / "first"), str(root)]
        whole = outcome(tool("sds", *first, program=program.path))
        lasts, all_of = time.monotonic() - begun, program.audits()
        for _ in range(KILLS):
            run = subprocess.Popen([sys.executable, str(TOOLS / "sds"), *words], stdout=subprocess.DEVNULL,
                                   stderr=subprocess.DEVNULL, env={**os.environ, "MSEED": str(program.path)})
            time.sleep(source.random() * lasts)
            run.send_signal(signal.SIGKILL)
            ended.append(run.wait())
            for text in state.rglob("*.json"):
                is_whole.append(set(json.loads(text.read_bytes())) == {"form", "root", "program", "files"})
        yield holds("runs were killed", ended.count(-signal.SIGKILL) >= KILLS // 4, ended)
        yield holds("what a killed run leaves is whole", is_whole and all(is_whole))
        # What a killed run has begun may still be counted.
        rest()
        program.audits()
        yield Fact("a run that was killed goes on", whole, outcome(tool("sds", *words, program=program.path)))
        came = program.audits()
        yield holds("it reads less than all", came < all_of, (came, all_of))
        yield Fact("and then all is kept", (whole, 0),
                   (outcome(tool("sds", *words, program=program.path)), program.audits()))


# Says, where the verdict is written, whether another run could hold the folder then.
WATCHED = """
import fcntl, os, runpy, sys
sys.path.insert(0, os.path.dirname(sys.argv[1]))
from mseed_tools import verdict
write_whole = verdict.write_whole
def watched(path, content):
    with open(os.path.join(os.path.dirname(path), "lock"), "ab") as file:
        try:
            fcntl.flock(file, fcntl.LOCK_EX | fcntl.LOCK_NB)
            print("free", file=sys.stderr)
        except OSError:
            print("held", file=sys.stderr)
    write_whole(path, content)
verdict.write_whole = watched
sys.argv = sys.argv[1:]
runpy.run_path(sys.argv[0], run_name="__main__")
"""


def verdict_in_turn(folder: Path) -> Cases:
    """What is said last is written while the folder is held, so that no run writes over what a later one has said."""
    root, state = folder / "in_turn", folder / "in_turn_kept"
    (root / "2024").mkdir(parents=True)
    words = [sys.executable, "-c", WATCHED, str(TOOLS / "sds"), "--state", str(state), str(root)]
    run = subprocess.run(words, env={**os.environ, "MSEED": str(PROGRAM)}, capture_output=True, text=True, check=False)
    yield Fact("the folder while the verdict is written", (0, "held\n", True),
               (run.returncode, run.stderr, (state / "verdict.txt").exists()))


def changing(folder: Path) -> Cases:
    """A file that changes while it is read is reported, and nothing of it counts or is kept."""
    root = folder / "changing"
    path = place("STA", "BHZ", DAYS[0])
    write_tree(root, {path: record(year=2016, day=365)})
    program = folder / "slow"
    program.write_text(f'#!/bin/sh\n{PROGRAM} "$@"\nstatus=$?\n'
                       f'[ "$1" = audit ] && {{ sleep 0.05; echo >> {root / path}; }}\nexit $status\n')
    program.chmod(0o755)
    rest()
    for _ in range(2):
        size = (root / path).stat().st_size + 1
        status, lines, _ = outcome(tool("sds", "--state", str(folder / "slow-state"), str(root), program=program))
        yield Fact("a file that changes", (2, [
            f"XX_STA__BHZ days 0 records 0 samples 0 from none to none {NO_GAPS} {NO_OVERLAPS} findings 0",
            f"  changed {path}", f"files 1 bytes {size} channels 0 continuous 0 broken 0 undecoded 0 faults 1"]),
            (status, lines))
    with open(folder / "slow-state" / "lock", "ab") as lock:
        fcntl.flock(lock, fcntl.LOCK_EX)
        yield Fact("a state that another run holds", (2, [], f"sds: {folder}/slow-state/lock: held by another run\n"),
                   outcome(tool("sds", "--state", str(folder / "slow-state"), str(root))))


def bar(folder: Path) -> Cases:
    """A bar is drawn on a terminal, and cleared."""
    root, near_far = folder / "archive", os.openpty()
    program = folder / "slow"
    program.write_text(f'#!/bin/sh\nsleep 0.02\nexec {PROGRAM} "$@"\n')
    run = subprocess.Popen([sys.executable, str(TOOLS / "sds"), "-j", "1", str(root)], stdin=subprocess.DEVNULL,
                           stdout=subprocess.PIPE, stderr=near_far[1], env={**os.environ, "MSEED": str(program)})
    out, drawn = run.communicate()[0], os.read(near_far[0], 2**16)
    for end in near_far:
        os.close(end)
    line = rb"\r\[#*\.*\] +\d+ % \d+ MB/s, \d+:\d\d:\d\d left\x1b\[K"
    yield holds("a bar on a terminal", re.search(line, drawn), drawn)
    yield holds("the bar is cleared", drawn.endswith(b"\r\x1b[K"), drawn[-80:])
    # A record was cut off one of the sound channels by now.
    total = f"files 45 bytes {BYTES - 512} channels 9 continuous 1 broken 7 undecoded 1 faults 4"
    yield Fact("what is written beside a bar", total, out.decode().splitlines()[-1])


def small(folder: Path) -> Cases:
    """Archives of nothing and of little, and words that mean nothing."""
    empty = folder / "empty"
    empty.mkdir()
    none = "files 0 bytes 0 channels 0 continuous 0 broken 0 undecoded 0 faults 0"
    yield Fact("an archive without files", (0, [none], ""), outcome(tool("sds", str(empty))))
    yield Fact("no archive", 2, tool("sds", str(folder / "nothing")).status)
    yield Fact("no program", 2, tool("sds", str(empty), program=folder / "nothing").status)
    for words in ([], ["--no-such-word", str(empty)], ["-j", "0", str(empty)], [str(empty), str(empty)]):
        yield Fact(f"sds {' '.join(words)}", 3, tool("sds", *words).status)
    help_of = outcome(tool("sds", "--help"))
    yield holds("the help has an example", help_of[0] == 0 and any("example" in line for line in help_of[1]))
    one = folder / "one"
    write_tree(one, {"2024/XX/STA/BHZ.D/XX.STA..BHZ.D.2024.001": record(), "2024/XX/STA/BHZ.D/.hidden": b"x",
                     "2024/XX/STA/LOG.L/XX.STA..LOG.L.2024.001": b"x", "2024/XX/STA/BHZ.D/XX.STA..BHZ.D.2023.365": b"x",
                     "2024/XX/STA/BHZ.D/XX.STA..BHZ.D.2024.367": b"x", "readme.txt": b"x", "2024/XX/notes": b"x"})
    rest()
    yield Fact("an archive of a record, and of what has no place", (1, [
        f"XX_STA__BHZ days 1 records 1 samples 16 from 2024-01-01T00:00:00.000000 to {time_of(1704067200800000)} "
        f"{NO_GAPS} {NO_OVERLAPS} findings 0", "misplaced 2024/XX/STA/BHZ.D/XX.STA..BHZ.D.2023.365",
        "misplaced 2024/XX/STA/BHZ.D/XX.STA..BHZ.D.2024.367", "misplaced 2024/XX/notes", "misplaced readme.txt",
        "files 1 bytes 128 channels 1 continuous 1 broken 0 undecoded 0 faults 0"], ""), outcome(tool("sds", str(one))))


def rows() -> Cases:
    """All of them."""
    with tempfile.TemporaryDirectory() as name:
        folder = Path(name)
        yield from small(folder)
        yield from sample(folder)
        yield from kills(folder)
        yield from verdict_in_turn(folder)
        yield from changing(folder)
        yield from bar(folder)
        yield from trees_at_random(folder / "random", COUNT)
