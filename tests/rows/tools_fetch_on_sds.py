"""What `tools/fetch_on --sds` holds of a feed: each record once, in the file of its day, whenever it or its server is
killed, between which of its calls, and whatever the machine loses; and the number to go on with is never ahead of what
is on the disk.

The gate tries some moments. KILLS=500 has as many kills at random moments, and CRASHES=10000 a kill before each call
and a death of the machine after each. That takes longer than a row file may among others, so it is run by itself:
`KILLS=500 CRASHES=10000 tests/run.py --report /tmp/count -v tools_fetch_on_sds`."""

from __future__ import annotations

import itertools
import os
import signal
import sqlite3
import subprocess
import sys
import tempfile
import threading
import time
from collections import Counter
from pathlib import Path
from random import Random
from typing import Callable, Mapping, Optional, Sequence

from driver.crashes import Trials, watched
from driver.feed import Cut, Proxy, Server, kept
from driver.links import free_port, is_listened_at, listening, port_of
from driver.program import LIMIT, PROGRAM
from driver.records import record
from driver.rows import Cases, Fact, Result, Skipped, holds
from driver.tools import TOOLS, as_others, outcome, tool
from models.peers import Speaker
from models.seedlink import Place
from rows.tools_archive import UNFILED, archived, counted, differing, filed, tree_of, waited

SEED = 20270612
STA, STB, OTHER = Place("XX_STA"), Place("XX_STB"), Place("n_A1b2C")
PLACES = [STA, STB, OTHER]
KILLS = int(os.environ.get("KILLS", "60"))
# So many records come between two kills.
EACH = 200
MOST = int(os.environ.get("CRASHES", "80"))
GRANTED = b"OK\r\nOK\r\n"
# The days of a feed, by year and number: a year ends within them.
DAYS = [(2016, 365), (2016, 366), (2017, 1)]

# A record with its place in the tree.
Pair = tuple[bytes, str]


def fed(count: int, seed: int = SEED, places: Sequence[Place] = PLACES, is_placed: bool = False) -> list[Pair]:
    """So many records of some places, two channels each, over three days; of each place in the order of time. Some have
    no place in the tree, as far as all needn't have one."""
    source, pairs = Random(seed), []
    for index in range(count):
        place, channel = source.choice(places), source.choice(["BHZ", "BHN"])
        year, day = DAYS[index * len(DAYS) // count]
        seconds = index * len(DAYS) % count * 86400 // count
        path = f"{year}/{place.text[:-len(place.sta) - 1]}/{place.sta.decode()}/{channel}.D/" + \
            f"{place.net.decode()}.{place.sta.decode()}..{channel}.D.{year}.{day:03}"
        if not is_placed and source.random() < 0.05:
            channel, path = "B.Z", UNFILED
        codes = place.sta.ljust(5) + b"  " + channel.encode() + place.net.ljust(2)
        pairs.append((record(codes=codes, year=year, day=day, hour=seconds // 3600, minute=seconds // 60 % 60,
                             second=seconds % 60, sequence=index % 10**6, exponent=9, samples=112,
                             data=index.to_bytes(4, "big") * 112), path))
    return pairs


def content_of(pairs: Sequence[Pair]) -> bytes:
    """The records alone."""
    return b"".join(content for content, _ in pairs)


def wanted_of(pairs: Sequence[Pair]) -> dict[str, bytes]:
    """The tree of a feed. Those without a place come in the order of their stations' packets: they are sorted."""
    return in_order(filed(pairs))


def in_order(tree: dict[str, bytes]) -> dict[str, bytes]:
    """A tree, of which the records without a place are sorted."""
    unfiled = tree.get(UNFILED, b"")
    parts = sorted(unfiled[at : at + 512] for at in range(0, len(unfiled), 512))
    return {**tree, UNFILED: b"".join(parts)} if unfiled else tree


def words(root: Path, port: int, places: Sequence[Place] = PLACES, *more: str) -> list[str]:
    """The words of the tool."""
    first, *others = places
    return [sys.executable, str(TOOLS / "fetch_on"), "--sds", str(root), "--port", str(port), "--network",
            first.net.decode(), "--station", first.sta.decode(), *more, *(place.text for place in others)]


def fetched(given: Sequence[str], env: Optional[Mapping[str, str]] = None,
            first: Optional[Callable[[], None]] = None) -> Result:
    """A run of the tool."""
    run = subprocess.run(given, stdin=subprocess.DEVNULL, capture_output=True, timeout=LIMIT, check=False,
                         preexec_fn=first, env={**os.environ, "MSEED": str(PROGRAM), **(env or {})})
    return Result(run.returncode, run.stdout, run.stderr)


def started(given: Sequence[str]) -> subprocess.Popen:
    """The tool, which runs on its own."""
    return kept(subprocess.Popen(given, stdin=subprocess.DEVNULL, stdout=subprocess.DEVNULL, stderr=subprocess.PIPE,
                                 env={**os.environ, "MSEED": str(PROGRAM)}))


def serving(pairs: Sequence[Pair], places: Sequence[Place] = PLACES, port: Optional[int] = None) -> Server:
    """A server of a feed."""
    return Server(content_of(pairs), places, "--capacity", len(pairs) + 1, "--connections", 1000000, port=port)


def kept_in(root: Path) -> tuple[dict[str, int], dict[str, int]]:
    """The lengths and the numbers that are kept of a tree, as another process would find them."""
    path = root / ".mseed" / "kept.sqlite3"
    if not path.exists():
        return {}, {}
    with tempfile.TemporaryDirectory() as name:
        for one in path.parent.glob("kept.sqlite3*"):
            (Path(name) / one.name).write_bytes(one.read_bytes())
        base = sqlite3.connect(Path(name) / path.name)
        try:
            if not base.execute("SELECT 1 FROM sqlite_master").fetchall():
                return {}, {}
            return (dict(base.execute("SELECT path, length FROM files").fetchall()),
                    dict(base.execute("SELECT place, next FROM numbers").fetchall()))
        finally:
            base.close()


def ahead(root: Path) -> str:
    """What is amiss with the numbers that are kept of a tree: they count, from 0, the records of their places that
    stand in the files as far as these are kept."""
    lengths, numbers = kept_in(root)
    tree, counts, wrong = tree_of(root), Counter(), []
    for path, length in lengths.items():
        content = tree.get(path, b"")[:length]
        wrong += [f"{path} has {len(content)} of {length}"] if len(content) < length else []
        counts.update(next((place.text for place in PLACES if place.bears(content[at : at + 512])), "none")
                      for at in range(0, len(content), 512))
    wrong += [f"{place} {numbers.get(place, 0)} of {counts[place]}" for place in sorted({*numbers, *counts})
              if numbers.get(place, 0) != counts[place]]
    return ", ".join(wrong)


def line_of(pairs: Sequence[Pair], known: int = 0, more: Sequence[str] = ()) -> tuple[int, list[str], str]:
    """How a run ends that brings these records."""
    unfiled = sum(path == UNFILED for _, path in pairs)
    status, lines, err = counted(len(pairs), len(pairs) - known - unfiled, known, unfiled, 2 if unfiled else 0)
    return status, [*more, *lines], err


def whole(folder: Path) -> Cases:
    """Three places; what is new later; another server of the same records; and what the options say."""
    pairs, root = fed(300), folder / "whole"
    server = serving(pairs[:200])
    yield Fact("a feed is fetched", line_of(pairs[:200]), outcome(fetched(words(root, server.port))))
    yield Fact("it stands in the tree", "", differing(in_order(tree_of(root)), wanted_of(pairs[:200])))
    counts = [sum(place.bears(content) for content, _ in pairs[:200]) for place in PLACES]
    told = f"--network XX --station STA --from {counts[0]:06X} XX_STB:{counts[1]:06X} n_A1b2C:{counts[2]:06X}"
    yield Fact("nothing is new", line_of([], more=[told]),
               outcome(fetched(words(root, server.port, PLACES, "--tell-next"))))
    port = server.port
    server.kill()
    server = serving(pairs, port=port)
    yield Fact("what is new", line_of(pairs[200:]), outcome(fetched(words(root, port))))
    yield Fact("all of it stands in the tree", "", differing(in_order(tree_of(root)), wanted_of(pairs)))
    second = serving(pairs)
    known = sum(path != UNFILED for _, path in pairs)
    yield Fact("another server of the same records", line_of(pairs, known), outcome(fetched(words(root, second.port))))
    yield Fact("archive of the same records", line_of(pairs, known), outcome(archived(root, input=content_of(pairs))))
    yield Fact("the tree is the same", "", differing(in_order(tree_of(root)), wanted_of(pairs)))
    ours = [pair for pair in pairs if STB.bears(pair[0])]
    one = folder / "from"
    yield Fact("a feed from a number on", line_of(ours[30:]),
               outcome(fetched(words(one, second.port, [STB], "--from", f"{30:X}"))))
    yield Fact("it stands there", "", differing(in_order(tree_of(one)), wanted_of(ours[30:])))
    server.kill()
    second.kill()
    for given in (["--sds", str(root)], [], ["--sds", str(root), "XX_STA"]):
        came = subprocess.run([sys.executable, str(TOOLS / "fetch_on"), "--port", "1", "--network", "XX", "--station",
                               "STA", *given, *["XX_STA"] * ("--sds" in given)], stdin=subprocess.DEVNULL,
                              capture_output=True, check=False)
        yield Fact(f"fetch_on {' '.join(given[:1])}, {len(given)} words", 3, came.returncode)
    yield from arguments(folder)


def arguments(folder: Path) -> Cases:
    """Words that mean nothing, each with what is said of it."""
    link = ["--network", "XX", "--station", "STA"]
    for given, why in ((["--sds", "", "--port", "1", *link], "argument --sds: '' is no folder"),
                       (["--port", "1", *link], "one of OUT and --sds is required"),
                       (["--sds", str(folder / "words"), "--port", "1", *link, "out.mseed"],
                        "'out.mseed' is no station, as NET_STA, or NET_STA:HEX with a number")):
        yield Fact(f"fetch_on {' '.join(given)}", (3, [], f"fetch_on: {why}\n"), outcome(tool("fetch_on", *given)))
    came = tool("fetch_on", "--sds", str(folder / "words"), "--port", "70000", *link)
    yield holds("what the program says of its options", came.status == 3 and b"'70000' for '--port" in came.err, came)


def one_writer(folder: Path) -> Cases:
    """One run holds the tree, of whichever tool."""
    root, silent = folder / "held", listening()
    run = started(words(root, port_of(silent)))
    link, _ = silent.accept()
    reported = f"{root}/.mseed/lock: held by another run\n"
    yield Fact("archive is refused", (2, [], f"archive: {reported}"), outcome(archived(root)))
    yield Fact("a second fetch_on is refused", (2, [], f"fetch_on: {reported}"), outcome(fetched(words(root, 1))))
    run.terminate()
    yield Fact("a run that is stopped", (2, "fetch_on: stopped by SIGTERM\n"),
               (run.wait(LIMIT), run.stderr.read().decode()))
    yield Fact("then another one may write", counted(0, 0), outcome(archived(root)))
    link.close()
    silent.close()


def others(folder: Path) -> Cases:
    """Records that aren't framed, and numbers that leave some out."""
    pairs = fed(7, places=[STA], is_placed=True)
    junk = pairs[3][0][:6] + b"X" + pairs[3][0][7:]
    records = [content for content, _ in pairs[:3]] + [junk] + [content for content, _ in pairs[4:]]
    numbers, root = [5, 7, 8, 12, 13, 40, 41], folder / "holes"
    packets = [b"SL%06X" % number + content for number, content in zip(numbers, records)]
    speaker = Speaker([[GRANTED + b"".join(packets[:5])], [GRANTED + b"".join(packets[5:]) + b"END"],
                       [GRANTED + b"END"]])
    given = words(root, speaker.port, [STA], "--holes", "--tell-next")
    told = "--network XX --station STA --from 00002A"
    yield Fact("numbers that leave some out", (2, [told, "records 7 written 6 known 0 unfiled 1"], ""),
               outcome(fetched(given)))
    wanted = filed([*pairs[:3], (junk, UNFILED), *pairs[4:]])
    yield Fact("the records stand in the tree", wanted, tree_of(root))
    yield Fact("and again", (0, [told, "records 0 written 0 known 0 unfiled 0"], ""), outcome(fetched(given)))
    speaker.close()
    requested = [sent.split(b"FETCH")[1].split(b"\r")[0] for sent, _ in speaker.received]
    yield Fact("what was requested", [b"", b" 00000E", b" 00002A"], requested)
    speaker = Speaker([[GRANTED + b"".join(b"SL%06X" % number + content for number, content in enumerate(records)) +
                        b"END"]])
    yield Fact("the same of another server", (2, ["records 7 written 0 known 6 unfiled 1"], ""),
               outcome(fetched(words(root, speaker.port, [STA]))))
    yield Fact("the tree is the same", wanted, tree_of(root))
    speaker.close()


def failing(folder: Path) -> Cases:
    """A tree that can't be written: that is told, the number stays, and nothing is lost once it can be."""
    pairs = fed(200)
    server = serving(pairs)
    for some in (fifo, closed, full):
        yield from some(folder, server, pairs)
    server.kill()


def fifo(folder: Path, server: Server, pairs: Sequence[Pair]) -> Cases:
    """A FIFO in the place of a file."""
    path, root = next(path for _, path in pairs[100:] if path != UNFILED), folder / "fifo"
    (root / path).parent.mkdir(parents=True)
    os.mkfifo(root / path)
    reported = f"fetch_on: {root / path}: is no regular file\n"
    yield Fact("a FIFO in the place of a file", counted(0, 0, status=2, reported=reported),
               outcome(fetched(words(root, server.port))))
    yield Fact("a FIFO: no number is ahead", "", ahead(root))
    (root / path).unlink()
    yield Fact("without the FIFO", line_of(pairs), outcome(fetched(words(root, server.port))))
    yield Fact("without the FIFO: all stands in the tree", "", differing(in_order(tree_of(root)), wanted_of(pairs)))


def closed(folder: Path, server: Server, pairs: Sequence[Pair]) -> Cases:
    """Folders and files without permission."""
    root, first = folder / "closed", serving(pairs[:50])
    port = first.port
    fetched(words(root, port))
    first.kill()
    again, before, shut = serving(pairs, port=port), tree_of(root), root / "2016" / "XX"
    for part in [shut, *shut.rglob("*")]:
        part.chmod(0o555 if part.is_dir() else 0o444)
    came = fetched(words(root, port), first=as_others)
    yield holds("without permission", came.status == 2 and came.err.startswith(b"fetch_on: " + bytes(shut)) and
                came.err.endswith(b": Permission denied\n"), came)
    yield Fact("without permission: the tree is the same", before, tree_of(root))
    yield Fact("without permission: no number is ahead", "", ahead(root))
    for part in [shut, *shut.rglob("*")]:
        part.chmod(0o755)
    yield Fact("with permission", line_of(pairs[50:]), outcome(fetched(words(root, port))))
    yield Fact("with permission: all stands in the tree", "", differing(in_order(tree_of(root)), wanted_of(pairs)))
    again.kill()


def full(folder: Path, server: Server, pairs: Sequence[Pair]) -> Cases:
    """A disk that is full after so many bytes."""
    if watched(folder) is None:
        yield Skipped("a full disk", "a C compiler")
        return
    source, wrong, told = Random(SEED), [], 0
    for number in range(16):
        root = folder / f"full{number}"
        room = source.choice([source.randrange(60000), source.randrange(160000)])
        came = fetched(words(root, server.port), watched(root, room=room))
        is_told = b"No space left" in came.err or b"disk is full" in came.err
        told += is_told
        if came.status != 2 or b"Traceback" in came.err or ahead(root):
            wrong.append((room, outcome(came), ahead(root)))
        if is_told and fetched(words(root, server.port)).status not in (0, 2) or \
                differing(in_order(tree_of(root)), wanted_of(pairs)):
            wrong.append((room, differing(in_order(tree_of(root)), wanted_of(pairs))))
    yield Fact("full disks", [], wrong)
    yield holds("disks were full", told > 5, told)


class Live:
    """A file to which records are appended, and `mseed serve --live` over it, which may be killed and started anew."""

    def __init__(self, folder: Path, places: Sequence[Place], capacity: int):
        self.path, self.port, self.places, self.capacity = folder / "kept.mseed", free_port(), places, capacity
        self.path.write_bytes(b"")
        self.runs: list[subprocess.Popen] = []

    def start(self) -> None:
        """Starts the server, and waits until it listens."""
        tail = kept(subprocess.Popen(["tail", "-c", "+1", "-s", "0.01", "-f", str(self.path)], stdout=subprocess.PIPE))
        first, *others = self.places
        server = kept(subprocess.Popen(
            [str(PROGRAM), "serve", "--live", "--port", str(self.port), "--network", first.net.decode(), "--station",
             first.sta.decode(), "--capacity", str(self.capacity), *(place.text for place in others)],
            stdin=tail.stdout, stdout=subprocess.DEVNULL, stderr=subprocess.DEVNULL))
        tail.stdout.close()
        self.runs = [server, tail]
        end = time.monotonic() + LIMIT
        while server.poll() is None and not is_listened_at(self.port) and time.monotonic() < end:
            time.sleep(0.01)

    def append(self, content: bytes) -> None:
        """Appends records, bit by bit."""
        with self.path.open("ab", buffering=0) as file:
            for at in range(0, len(content), 20 * 512):
                file.write(content[at : at + 20 * 512])
                time.sleep(0.01)

    def kill(self) -> None:
        """Kills the server."""
        for run in self.runs:
            run.kill()
            run.wait()


def kills(folder: Path) -> Cases:
    """Runs that are killed at random moments, over a live server that is killed now and then too. Meanwhile records are
    appended."""
    source, pairs, root = Random(SEED), fed(EACH * KILLS), folder / "killed"
    live = Live(folder, PLACES, len(pairs))
    live.start()
    ends, wrong, sizes = [], [], []
    for number in range(KILLS):
        writer = threading.Thread(target=live.append, args=(content_of(pairs[number * EACH : (number + 1) * EACH]),))
        writer.start()
        moment = size_of(root) + source.randrange(1, EACH * 256)
        run = started(words(root, live.port))
        if source.random() < 0.3:
            time.sleep(source.random() * 0.5)
        else:
            waited(lambda: size_of(root) >= moment or run.poll() is not None)
            time.sleep(source.random() * 0.02)
        if source.random() < 0.2:
            live.kill()
            live.start()
        run.kill()
        run.wait()
        writer.join()
        ends.append(run.returncode)
        wrong += [(number, ahead(root))] if ahead(root) else []
        sizes.append(size_of(root))
    yield Fact(f"killed at {KILLS} random moments: no number is ahead", [], wrong)
    yield holds("runs were killed", ends.count(-signal.SIGKILL) > KILLS // 4, Counter(ends))
    yield holds("they were killed here and there", len(set(sizes)) > KILLS // 4, sizes)
    end, wanted = time.monotonic() + LIMIT, wanted_of(pairs)
    while differing(in_order(tree_of(root)), wanted) and time.monotonic() < end:
        fetched(words(root, live.port))
    yield Fact(f"killed at {KILLS} random moments: each record once", "", differing(in_order(tree_of(root)), wanted))
    live.kill()


def size_of(root: Path) -> int:
    """How long the files of a tree are together."""
    return sum(path.stat().st_size for path in root.glob("*/*/*/*/*"))


def crashes(folder: Path) -> Cases:
    """Runs that are killed before each of their calls, and machines that die after each. Their links are cut now and
    then, so that a run has several batches."""
    if watched(folder) is None:
        yield Skipped("runs that are killed between two of their calls", "a C compiler")
        return
    pairs = fed(60)
    server, wanted = serving(pairs), wanted_of(pairs)
    proxy = Proxy(lambda: server.port, itertools.cycle([Cut(None, size * 520 + 100) for size in (9, 21, 14)]))

    def run(root: Path, env: Optional[Mapping[str, str]]) -> int:
        return fetched(words(root, proxy.port), env).status

    trials = Trials(folder, run, (0, 2), lambda root: differing(in_order(tree_of(root)), wanted), ahead)
    yield from trials.kills("fetch_on", MOST, SEED)
    yield from trials.errors("fetch_on", MOST // 2, SEED)
    yield from trials.deaths("fetch_on", MOST, SEED)
    yield holds("links were cut", proxy.carried > MOST, proxy.carried)
    yield holds("serve goes on", server.is_going())
    proxy.close()
    server.kill()


def rows() -> Cases:
    """All of them."""
    for some in (whole, one_writer, others, failing, kills, crashes):
        with tempfile.TemporaryDirectory() as name:
            yield from some(Path(name))
