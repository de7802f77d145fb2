"""Where `tools/archive` puts records, which of them it writes, and what it leaves when it is stopped, its machine dies,
or the disk is full: each record stands once in the file of its codes and of the day of its first sample.

The gate tries some moments; CRASHES=10000 has a kill before each call, and a death of the machine after each."""

from __future__ import annotations

import os
import resource
import signal
import sqlite3
import subprocess
import sys
import tempfile
import time
from pathlib import Path
from random import Random
from typing import Callable, Mapping, Optional, Sequence

from driver.crashes import Trials, watched
from driver.feed import kept
from driver.program import LIMIT, PROGRAM
from driver.records import record
from driver.rows import Cases, Fact, Result, Skipped, holds
from driver.tools import JUNK, TOOLS, as_others, outcome, tool

SEED = 20270611
MOST = int(os.environ.get("CRASHES", "80"))
UNFILED = "unfiled.mseed"
DAY_135 = "2024/XX/STA/BHZ.D/XX.STA..BHZ.D.2024.135"
SMALL = {"exponent": 9, "data": b""}


def at_135(**changes) -> bytes:
    """A record of day 135 of 2024."""
    return record(**{"day": 135, **SMALL, **changes})


def last(**changes) -> bytes:
    """A record that begins in the last ten-thousandth of a second of that day."""
    return at_135(hour=23, minute=59, second=59, fraction=9999, **changes)


# Records, and where they have their place: by the layout of SDS, and by the rules of docs/format.md for a start.
PLACED: list[tuple[str, bytes, str]] = [
    ("no location", at_135(), DAY_135),
    ("a location", at_135(codes=b"STA  00BHZXX"), "2024/XX/STA/BHZ.D/XX.STA.00.BHZ.D.2024.135"),
    ("codes of one character", at_135(codes=b"S      Z  X "), "2024/X/S/Z.D/X.S..Z.D.2024.135"),
    ("small letters, digits and -", at_135(codes=b"s-1  a-bh1x9"), "2024/x9/s-1/bh1.D/x9.s-1.a-.bh1.D.2024.135"),
    ("location --", at_135(codes=b"STA  --BHZXX"), "2024/XX/STA/BHZ.D/XX.STA.--.BHZ.D.2024.135"),
    ("NULs after codes", at_135(codes=b"STA\0\0\0\0BH\0XX"), "2024/XX/STA/BH.D/XX.STA..BH.D.2024.135"),
    ("the first of a day", at_135(hour=0, sequence=2), DAY_135),
    ("a microsecond before a day", at_135(hour=0, micros=-1), "2024/XX/STA/BHZ.D/XX.STA..BHZ.D.2024.134"),
    ("the last microsecond of a day", last(micros=99), DAY_135),
    ("the first one of the next", last(micros=100), "2024/XX/STA/BHZ.D/XX.STA..BHZ.D.2024.136"),
    ("a correction into the next day", last(correction=1), "2024/XX/STA/BHZ.D/XX.STA..BHZ.D.2024.136"),
    ("a correction that was applied", last(correction=1, activity=2), DAY_135),
    ("a correction of an hour back", at_135(hour=0, minute=30, correction=-36000000),
     "2024/XX/STA/BHZ.D/XX.STA..BHZ.D.2024.134"),
    ("the last of a year", record(year=2023, day=365, hour=23, minute=59, second=59, fraction=9999, micros=99, **SMALL),
     "2023/XX/STA/BHZ.D/XX.STA..BHZ.D.2023.365"),
    ("into the next year", record(year=2023, day=365, hour=23, minute=59, second=59, fraction=9999, micros=101,
                                  **SMALL), "2024/XX/STA/BHZ.D/XX.STA..BHZ.D.2024.001"),
    ("day 366", record(year=2024, day=366, **SMALL), "2024/XX/STA/BHZ.D/XX.STA..BHZ.D.2024.366"),
    ("a leap second", record(year=2016, day=366, hour=23, minute=59, second=60, **SMALL),
     "2017/XX/STA/BHZ.D/XX.STA..BHZ.D.2017.001"),
    ("before 1900", record(year=1900, day=1, micros=-1, **SMALL), "1899/XX/STA/BHZ.D/XX.STA..BHZ.D.1899.365"),
    ("little-endian", at_135(order="<", hour=7), DAY_135),
    ("128 bytes", record(day=135, hour=8), DAY_135),
    ("4,096 bytes", at_135(exponent=12, hour=9), DAY_135),
    ("no samples", at_135(samples=0, hour=10), DAY_135),
    ("an encoding that isn't decoded", at_135(codes=b"STA    LOGXX", encoding=0),
     "2024/XX/STA/LOG.D/XX.STA..LOG.D.2024.135"),
    *((f"codes {codes!r}", at_135(codes=codes), UNFILED) for codes in (
        b"S_A    BHZXX", b"S.A    BHZXX", b"../..  BHZXX", b"..     BHZXX", b"A B    BHZXX", b" STA   BHZXX",
        b"ST\0A   BHZXX", b"ST\xc4    BHZXX", b"S?A    BHZXX", b"S*A    BHZXX", b"STA    B/ZXX", b"STA  . BHZXX",
        b"STA    BHZ..", b"STA    ...XX", b"STA    BHZ  ", b"STA       XX", b"       BHZXX", b"STA    BH\nXX")),
    *((f"no start: {name} {value}", at_135(**{name: value}), UNFILED) for name, value in (
        ("hour", 24), ("minute", 60), ("second", 61), ("fraction", 10000))),
    ("no start: day 366 of a common year", record(year=2023, day=366, **SMALL), UNFILED),
]


def archived(root: Path, *words: object, input: bytes = b"", env: Optional[Mapping[str, str]] = None,
             first: Optional[Callable[[], None]] = None) -> Result:
    """A run of the tool."""
    run = subprocess.run([sys.executable, str(TOOLS / "archive"), str(root), *map(str, words)], input=input,
                         capture_output=True, env={**os.environ, "MSEED": str(PROGRAM), **(env or {})}, timeout=LIMIT,
                         check=False, preexec_fn=first)
    return Result(run.returncode, run.stdout, run.stderr)


def counted(records: int, written: int, known: int = 0, unfiled: int = 0, status: int = 0,
            reported: str = "") -> tuple[int, list[str], str]:
    """How a run has to end."""
    return status, [f"records {records} written {written} known {known} unfiled {unfiled}"], reported


def tree_of(root: Path) -> dict[str, bytes]:
    """The files of a tree, but for what tools keep there."""
    return {str(path.relative_to(root)): path.read_bytes() for path in sorted(root.rglob("*"))
            if path.is_file() and ".mseed" not in path.relative_to(root).parts}


def filed(pairs: Sequence[tuple[bytes, str]]) -> dict[str, bytes]:
    """The tree of some records with their places, in their order."""
    files: dict[str, list[bytes]] = {}
    for content, path in pairs:
        files.setdefault(path, []).append(content)
    return {path: b"".join(parts) for path, parts in sorted(files.items())}


def differing(came: dict[str, bytes], wanted: dict[str, bytes]) -> str:
    """Which files aren't as they have to be, with their lengths."""
    return ", ".join(f"{path}: {len(came.get(path, b''))} of {len(wanted.get(path, b''))} bytes"
                     for path in sorted({*came, *wanted}) if came.get(path, b"") != wanted.get(path, b""))


def places(folder: Path) -> Cases:
    """Each record in its place; and again, from files, from standard input, and one by one."""
    pairs, root = [(content, path) for _, content, path in PLACED], folder / "places"
    for number, (name, content, path) in enumerate(PLACED):
        alone, is_placed = folder / f"alone{number}", path != UNFILED
        yield Fact(f"{name}: counted", counted(1, 1) if is_placed else counted(1, 0, 0, 1, 2),
                   outcome(archived(alone, input=content)))
        yield Fact(f"{name}: in its place", {path: content}, tree_of(alone))
    wanted = filed(pairs)
    unfiled = sum(path == UNFILED for _, path in pairs)
    (folder / "all").write_bytes(b"".join(content for content, _ in pairs))
    yield Fact("all of them", counted(len(pairs), len(pairs) - unfiled, 0, unfiled, 2),
               outcome(archived(root, folder / "all")))
    yield Fact("all in their places", wanted, tree_of(root))
    again = counted(len(pairs), 0, len(pairs) - unfiled, unfiled, 2)
    yield Fact("again", again, outcome(archived(root, folder / "all")))
    yield Fact("again, from standard input", again, outcome(archived(root, "-", input=(folder / "all").read_bytes())))
    yield Fact("again, each twice", counted(2 * len(pairs), 0, 2 * (len(pairs) - unfiled), 2 * unfiled, 2),
               outcome(archived(root, folder / "all", folder / "all")))
    yield Fact("the tree is the same", wanted, tree_of(root))
    yield Fact("nothing", counted(0, 0), outcome(archived(root)))


def of_hour(hour: int, codes: bytes = b"STA    BHZXX", day: int = 135) -> bytes:
    """A record of a channel."""
    return record(codes=codes, day=day, hour=hour, **SMALL)


def known(folder: Path) -> Cases:
    """Records that stand in the tree already, in whatever order they come, and whoever has written them."""
    hours, root = [of_hour(hour) for hour in range(24)], folder / "known"
    yield Fact("every other hour", counted(12, 12), outcome(archived(root, input=b"".join(hours[::2]))))
    yield Fact("all hours", counted(24, 12, 12), outcome(archived(root, input=b"".join(hours))))
    yield Fact("those that lacked are behind", {DAY_135: b"".join(hours[::2] + hours[1::2])}, tree_of(root))
    other = record(day=135, hour=5, exponent=9, data=b"other")
    yield Fact("another record of the same start", counted(3, 1, 2),
               outcome(archived(root, input=hours[5] + other + other)))
    late = [of_hour(hour, b"LATE   BHZXX") for hour in range(8)]
    path = root / "2024/XX/LATE/BHZ.D/XX.LATE..BHZ.D.2024.135"
    path.parent.mkdir(parents=True)
    path.write_bytes(b"".join(late[:4]))
    yield Fact("a file that others have begun", counted(8, 4, 4), outcome(archived(root, input=b"".join(late))))
    yield Fact("what they wrote stays", b"".join(late), path.read_bytes())
    more = [of_hour(hour, b"LATE   BHZXX") for hour in range(8, 12)]
    with path.open("ab") as file:
        file.write(more[0] + more[2])
    yield Fact("a file to which others have added", counted(4, 2, 2), outcome(archived(root, input=b"".join(more))))
    yield Fact("what they added stays", b"".join(late) + more[0] + more[2] + more[1] + more[3], path.read_bytes())
    path.unlink()
    yield Fact("a file that others have taken away", counted(1, 1), outcome(archived(root, input=late[0])))
    yield Fact("it begins anew", late[0], path.read_bytes())
    path.write_bytes(JUNK + late[0])
    yield Fact("a file with junk in it", counted(2, 1, 1), outcome(archived(root, input=late[0] + late[1])))
    yield Fact("the junk stays", JUNK + late[0] + late[1], path.read_bytes())
    link = folder / "elsewhere"
    link.write_bytes(late[0])
    path.unlink()
    path.symlink_to(link)
    yield Fact("a link to a file", counted(2, 1, 1), outcome(archived(root, input=late[0] + late[1])))
    yield Fact("the file is added to", (True, late[0] + late[1]), (path.is_symlink(), link.read_bytes()))


def inputs(folder: Path) -> Cases:
    """Inputs with faults, and words that name none."""
    hours, root = [of_hour(hour) for hour in range(24)], folder / "inputs"
    junk, short = folder / "junk", folder / "short"
    junk.write_bytes(hours[0] + bytes(100) + JUNK[:28] + hours[1] + b"000001D " + bytes(504) + hours[2])
    short.write_bytes(hours[3] + hours[4][:300])
    reported = (f"{junk}: fault at 512 notdata, 128 bytes skipped\n{junk}: fault at 1152 order, 512 bytes skipped\n"
                f"{short}: fault at 512 truncated 300, 300 bytes skipped\n")
    yield Fact("files with junk, and one that is cut", counted(4, 4, status=2, reported=reported),
               outcome(archived(root, junk, short)))
    yield Fact("what lies behind the junk is there", {DAY_135: b"".join(hours[:4])}, tree_of(root))
    yield Fact("standard input with junk", counted(2, 1, 1, status=2,
                                                   reported="-: fault at 512 notdata, 512 bytes skipped\n"),
               outcome(archived(root, input=hours[0] + JUNK + hours[5])))
    yield Fact("nothing but junk", counted(0, 0, status=2, reported="-: fault at 0 notdata, 512 bytes skipped\n"),
               outcome(archived(root, "-", input=JUNK)))
    before = tree_of(root)
    for path, why in ((folder / "none", "no such file"), (folder, "is a folder")):
        yield Fact(f"a word that is none: {why}", (2, [], f"archive: {path}: {why}\n"),
                   outcome(archived(root, short, path)))
    short.chmod(0)
    yield Fact("a file that can't be read", counted(1, 0, 1, status=2, reported=f"{short}: Permission denied\n"),
               outcome(archived(root, short, "-", input=hours[0], first=as_others)))
    yield Fact("the tree is the same", before, tree_of(root))
    for words, why in (([""], "argument ROOT: '' is no folder"), ([], "the following arguments are required: ROOT"),
                       (["--no-such", str(root)], "unrecognized arguments: --no-such")):
        yield Fact(f"archive {' '.join(words)}", (3, [], f"archive: {why}\n"), outcome(tool("archive", *words)))


def live(folder: Path) -> Cases:
    """Standard input over a pipe: each record is in the tree before more comes, in whatever pieces it comes."""
    root, records = folder / "live", [of_hour(hour) for hour in range(6)]
    run = kept(subprocess.Popen([sys.executable, str(TOOLS / "archive"), str(root)], stdin=subprocess.PIPE,
                                stdout=subprocess.PIPE, stderr=subprocess.PIPE, bufsize=0,
                                env={**os.environ, "MSEED": str(PROGRAM)}))
    for number, content in enumerate(records):
        for at in range(0, 512, (512, 100, 300)[number % 3]):
            run.stdin.write(content[at : at + (512, 100, 300)[number % 3]])
            time.sleep(0.03)
        yield holds(f"record {number} is there", waited(lambda: tree_of(root).get(DAY_135) ==
                                                        b"".join(records[:number + 1])), tree_of(root))
    yield Fact("a second run is refused", (2, [], f"archive: {root}/.mseed/lock: held by another run\n"),
               outcome(archived(root)))
    moved = (root / DAY_135).rename(folder / "moved")
    os.mkfifo(root / DAY_135)
    run.stdin.write(of_hour(6))
    out, err = run.communicate(timeout=LIMIT)
    yield Fact("its file is a FIFO now", counted(6, 6, status=2,
                                                 reported=f"archive: {root / DAY_135}: is no regular file\n"),
               outcome(Result(run.returncode, out, err)))
    yield Fact("what was there stays", b"".join(records), moved.read_bytes())
    run = kept(subprocess.Popen([sys.executable, str(TOOLS / "archive"), str(folder / "stopped")],
                                stdin=subprocess.PIPE, stdout=subprocess.PIPE, stderr=subprocess.PIPE, bufsize=0,
                                env={**os.environ, "MSEED": str(PROGRAM)}))
    run.stdin.write(records[0])
    waited(lambda: (folder / "stopped" / DAY_135).exists())
    time.sleep(0.3)
    run.send_signal(signal.SIGTERM)
    out, err = run.communicate(timeout=LIMIT)
    yield Fact("a run that is stopped", counted(1, 1, status=2, reported="archive: stopped by SIGTERM\n"),
               outcome(Result(run.returncode, out, err)))


def waited(is_so: Callable[[], object]) -> bool:
    """Waits until something is so."""
    end = time.monotonic() + LIMIT
    while not is_so() and time.monotonic() < end:
        time.sleep(0.01)
    return bool(is_so())


def refused(folder: Path) -> Cases:
    """A tree that can't be written is told, and what was there stays."""
    hours = [of_hour(hour) for hour in range(3)]
    for name, begun, why in (("within a record", hours[0] + hours[1][:100], "fault at 512 truncated 100"),
                             ("with junk", hours[0] + JUNK, "fault at 512 notdata")):
        root = folder / name
        (root / DAY_135).parent.mkdir(parents=True)
        (root / DAY_135).write_bytes(begun)
        reported = (f"archive: {root / DAY_135}: {why}: cut it there, or take it away; nothing is added to a file that "
                    "doesn't end where a record ends\n")
        yield Fact(f"a file that ends {name}", counted(0, 0, status=2, reported=reported),
                   outcome(archived(root, input=hours[2])))
        yield Fact(f"it stays, {name}", {DAY_135: begun}, tree_of(root))
    root = folder / "fifo"
    (root / DAY_135).parent.mkdir(parents=True)
    os.mkfifo(root / DAY_135)
    yield Fact("a FIFO", counted(0, 0, status=2, reported=f"archive: {root / DAY_135}: is no regular file\n"),
               outcome(archived(root, input=hours[0])))
    root = folder / "closed"
    yield Fact("an hour", counted(1, 1), outcome(archived(root, input=hours[0])))
    station = root / "2024/XX/STA"
    station.chmod(0o555)
    other = of_hour(0, b"STA    BHNXX")
    reported = f"archive: {station}/BHN.D: Permission denied\n"
    yield Fact("a folder without permission", counted(0, 0, status=2, reported=reported),
               outcome(archived(root, input=hours[1] + other, first=as_others)))
    yield Fact("nothing is written", {DAY_135: hours[0]}, tree_of(root))
    station.chmod(0o755)
    yield Fact("with permission", counted(2, 2), outcome(archived(root, input=hours[1] + other)))


def no_roots(folder: Path) -> Cases:
    """Roots that are none, and a ledger that is none."""
    hours, root = [of_hour(hour) for hour in range(3)], folder / "root"
    archived(root, input=hours[0])
    within = root / "2024"
    reported = f"archive: {within}: the folder of a year; the root of the archive is {root}\n"
    yield Fact("a folder of a year", (2, [], reported), outcome(archived(within, input=hours[1])))
    yield holds("nothing is made in it", not (within / ".mseed").exists())
    (folder / "file").write_bytes(b"")
    for path in (folder / "file", folder / "file" / "below"):
        came = archived(path, input=hours[0])
        yield holds(f"a root that is no folder: {path.name}", came.status == 2 and
                    came.err.startswith(b"archive: ") and b"Traceback" not in came.err, came)
    root = folder / "ledger"
    (root / ".mseed").mkdir(parents=True)
    (root / ".mseed" / "kept.sqlite3").write_bytes(b"no database" * 1000)
    yield Fact("a ledger that is none", (2, [], f"archive: {root}/.mseed/kept.sqlite3: file is not a database\n"),
               outcome(archived(root, input=hours[0])))


# Records of three channels, two days and no place, and where they stand.
MIXED = [(of_hour(hour, codes, day), f"2024/XX/{codes[:3].decode()}/{codes[7:10].decode()}.D/XX."
          f"{codes[:3].decode()}..{codes[7:10].decode()}.D.2024.{day}")
         for day in (135, 136) for hour in range(3) for codes in (b"STA    BHZXX", b"STA    BHNXX", b"STB    BHZXX")]
MIXED += [(of_hour(hour, b"ST.    BHZXX"), UNFILED) for hour in range(2)]


def kept_wrong(root: Path) -> str:
    """What is amiss with what is kept of a tree that a crash has left: each file has at least the length that is kept
    of it, and up to there it is what it has to be."""
    path = root / ".mseed" / "kept.sqlite3"
    if not path.exists():
        return ""
    with tempfile.TemporaryDirectory() as name:
        for one in path.parent.glob("kept.sqlite3*"):
            (Path(name) / one.name).write_bytes(one.read_bytes())
        base = sqlite3.connect(Path(name) / path.name)
        try:
            if not base.execute("SELECT 1 FROM sqlite_master").fetchall():
                return ""
            lengths = dict(base.execute("SELECT path, length FROM files").fetchall())
        finally:
            base.close()
    tree, wanted = tree_of(root), filed(MIXED)
    return ", ".join(f"{path} {length}" for path, length in lengths.items()
                     if tree.get(path, b"")[:length] != wanted[path][:length] or length > len(tree.get(path, b"")))


def crashes(folder: Path) -> Cases:
    """Runs that are killed, and machines that die, each gone on with by the same command."""
    if watched(folder) is None:
        yield Skipped("runs that are killed between two of their calls", "a C compiler")
        return
    content, wanted = b"".join(content for content, _ in MIXED), filed(MIXED)

    def run(root: Path, env: Optional[Mapping[str, str]]) -> int:
        return archived(root, input=content, env=env).status

    trials = Trials(folder, run, (2,), lambda root: differing(tree_of(root), wanted), kept_wrong)
    yield from trials.kills("archive", MOST, SEED)
    yield from trials.errors("archive", MOST // 2, SEED)
    yield from trials.deaths("archive", MOST, SEED)


def few_open(folder: Path) -> Cases:
    """More files than may be open at once."""
    stations = [f"ST{number:02}" for number in range(40)]
    pairs = [(of_hour(hour, f"{station:5}  BHZXX".encode()), f"2024/XX/{station}/BHZ.D/XX.{station}..BHZ.D.2024.135")
             for hour in range(3) for station in stations]
    root, content = folder / "few", b"".join(content for content, _ in pairs)
    came = archived(root, input=content, first=lambda: resource.setrlimit(resource.RLIMIT_NOFILE, (24, 24)))
    yield Fact("40 files, and 24 may be open", counted(120, 120), outcome(came))
    yield Fact("each record is in its file", "", differing(tree_of(root), filed(pairs)))


def full(folder: Path) -> Cases:
    """A disk that is full after so many bytes, or in one file: that is told, what was there stays, and once there is
    room the same command goes on."""
    if watched(folder) is None:
        yield Skipped("a full disk", "a C compiler")
        return
    content, wanted = b"".join(content for content, _ in MIXED), filed(MIXED)
    source, told, wrong = Random(SEED), 0, []
    rooms = [(room, "") for room in (0, 1, 511, 512, *(source.randrange(60000) for _ in range(12)))]
    rooms += [(source.randrange(600), "135") for _ in range(6)]
    for number, (room, where) in enumerate(rooms):
        root = folder / f"full{number}"
        archived(root, input=content[:2048])
        before = tree_of(root)
        came = archived(root, input=content, env=watched(root, room=room, **({"full": where} if where else {})))
        is_told = came.status == 2 and (b"No space left" in came.err or b"disk is full" in came.err)
        told += is_told
        after = tree_of(root)
        if not is_told and differing(after, wanted) or b"Traceback" in came.err:
            wrong.append((room, where, outcome(came)))
        if is_told and any(not after.get(path, b"").startswith(some) for path, some in before.items()):
            wrong.append((room, where, "what was there is gone"))
        if archived(root, input=content).status != 2 or differing(tree_of(root), wanted):
            wrong.append((room, where, differing(tree_of(root), wanted)))
    yield Fact("full disks", [], wrong)
    yield holds("disks were full", told > 10, told)


def rows() -> Cases:
    """All of them."""
    for some in (places, known, inputs, live, refused, no_roots, few_open, crashes, full):
        with tempfile.TemporaryDirectory() as name:
            yield from some(Path(name))
