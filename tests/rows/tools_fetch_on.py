"""What `tools/fetch_on` holds of a feed: each record once and in order, whenever it is killed, whatever a run that was
killed has begun to write, whoever else wants to write, and however often the server goes and comes back."""

from __future__ import annotations

import json
import os
import signal
import subprocess
import sys
import tempfile
import time
from pathlib import Path
from random import Random
from typing import Optional, Sequence

from driver.feed import Cut, Proxy, Server, kept
from driver.links import free_port, listening, port_of
from driver.program import LIMIT, PROGRAM
from driver.rows import Cases, Fact, Result, holds
from driver.tools import TOOLS, outcome, tool
from models.peers import Speaker
from models.seedlink import Place, record_of
from rows.feed_cuts import is_each_once, records_at_random

SEED = 20270419
STA, STB, OTHER = Place("XX_STA"), Place("XX_STB"), Place("n_A1b2C")
PLACES = [STA, STB, OTHER]
KILLS = 20
GRANTED = b"OK\r\nOK\r\n"
LINK_FAILED, REFUSED, BAD_FEED = (f"mseed: {why}\n" for why in ("link failed", "refused", "bad feed"))


def words(out: Path, port: int, places: Sequence[Place] = PLACES, *more: str) -> list[str]:
    """The words of the tool."""
    first, *others = places
    return [str(out), "--port", str(port), "--network", first.net.decode(), "--station", first.sta.decode(), *more,
            *(place.text for place in others)]


def started(given: Sequence[str]) -> subprocess.Popen:
    """The tool, which runs on its own."""
    return kept(subprocess.Popen([sys.executable, str(TOOLS / "fetch_on"), *given], stdin=subprocess.DEVNULL,
                                 stdout=subprocess.DEVNULL, stderr=subprocess.PIPE,
                                 env={**os.environ, "MSEED": str(PROGRAM)}))


def ended(run: subprocess.Popen) -> tuple[int, str]:
    """How it ended, and what it reported."""
    reported = run.communicate(timeout=LIMIT)[1]
    return run.returncode, reported.decode()


def size_of(out: Path) -> int:
    """How long a file is; 0 where there is none."""
    return out.stat().st_size if out.exists() else 0


def waits_for(is_so, run: subprocess.Popen) -> bool:
    """Waits until something is so, or the tool has ended."""
    end = time.monotonic() + LIMIT
    while run.poll() is None and time.monotonic() < end:
        if is_so():
            return True
        time.sleep(0.0005)
    return False


def numbers_of(out: Path) -> dict[str, list[list[int]]]:
    """What is kept beside a file: the numbers of records, and how many of their place stand before each."""
    return json.loads(Path(f"{out}.numbers").read_bytes())["places"]


def whole(folder: Path) -> Cases:
    """Three places, whose numbers go round; what is new later; what is no whole record; and another first number."""
    records, out = records_at_random(SEED, PLACES, 400), folder / "whole"
    first = 2**24 - 20
    options = ["--capacity", 400, "--first", f"{first:X}", "--connections", 1000000]
    server = Server(b"".join(records[:300]), PLACES, *options)
    yield Fact("a feed is fetched", (0, [], ""), outcome(tool("fetch_on", *words(out, server.port))))
    held = out.read_bytes()
    yield holds("it is held", is_each_once(PLACES, records[:300], held), len(held))
    yield Fact("the numbers are kept", {place.text: [[0, first]] for place in PLACES}, numbers_of(out))
    counts = [sum(place.bears(record) for record in records[:300]) for place in PLACES]
    one, *others = [f"{(first + count) % 2**24:06X}" for count in counts]
    reported = " ".join([f"--network XX --station STA --from {one}",
                     *(f"{place.text}:{number}" for place, number in zip(PLACES[1:], others))])
    yield Fact("nothing is new", (0, [reported], ""),
               outcome(tool("fetch_on", "--tell-next", *words(out, server.port))))
    yield holds("nothing is added", out.read_bytes() == held, size_of(out))
    server.kill()
    server = Server(b"".join(records), PLACES, *options)
    for begun in (b"", b"0", record_of(STA, 5)[:511]):
        out.write_bytes(held + begun)
        yield Fact(f"a feed is gone on with after {len(begun)} bytes", (0, [], ""),
                   outcome(tool("fetch_on", *words(out, server.port))))
        now = out.read_bytes()
        yield holds(f"what was held stays, after {len(begun)} bytes", now.startswith(held), len(now))
        yield holds(f"what lacked is held, after {len(begun)} bytes", is_each_once(PLACES, records, now), len(now))
    one, ours = folder / "from", [record for record in records if STB.bears(record)]
    given = ["--from", f"{(first + 30) % 2**24:X}"]
    yield Fact("a feed from a number on", (0, [], ""),
               outcome(tool("fetch_on", *words(one, server.port, [STB], *given))))
    yield holds("it is held from there", one.read_bytes() == b"".join(ours[30:]), size_of(one))
    yield Fact("a place more, and the number again", (0, [], ""),
               outcome(tool("fetch_on", *words(one, server.port, [STB, STA], *given))))
    wanted = [record for record in records if STA.bears(record)] + ours[30:]
    yield holds("both are held", is_each_once([STA, STB], wanted, one.read_bytes()), size_of(one))
    server.kill()


def kills(folder: Path) -> Cases:
    """Runs that are killed at random moments, by what they have written or by time, and go on. What a run writes before
    it is killed is random from where it began, so that each gets further, on a fast machine too."""
    source, records = Random(SEED), [record_of(STA, index) for index in range(100000)]
    archive, out = b"".join(records), folder / "killed"
    server = Server(archive, [STA], "--capacity", len(records), "--connections", 1000000)
    given, ends, sizes = words(out, server.port, [STA]), [], []
    for _ in range(KILLS):
        moment = size_of(out) + source.randrange(1, len(archive) // KILLS)
        run = started(given)
        if source.random() < 0.4:
            time.sleep(source.random() * 0.2)
        else:
            waits_for(lambda: size_of(out) >= moment, run)
        run.kill()
        ends.append(ended(run)[0])
        sizes.append(size_of(out))
        yield holds(f"a run that was killed leaves the first bytes, {len(sizes)}",
                    archive.startswith(out.read_bytes() if out.exists() else b""), sizes[-1])
    yield holds("runs were killed", ends.count(-signal.SIGKILL) > KILLS // 2, ends)
    within = {size for size in sizes if 0 < size < len(archive)}
    yield holds("they were killed here and there", len(within) > KILLS // 5, sizes)
    yield Fact("a run that was killed is gone on with", (0, [], ""), outcome(tool("fetch_on", *given)))
    yield holds("the same bytes are held", out.read_bytes() == archive, size_of(out))
    yield holds("serve goes on", server.is_going())
    server.kill()


def one_writer(folder: Path) -> Cases:
    """A run that holds the file, though no record comes; others are refused as long as it runs."""
    out, silent = folder / "held", listening()
    run = started(words(out, port_of(silent)))
    link, _ = silent.accept()
    refused = (2, [], f"fetch_on: {out}: held by another run\n")
    yield Fact("a second writer is refused", refused, outcome(tool("fetch_on", *words(out, port_of(silent)))))
    run.terminate()
    yield Fact("a run that is stopped", (2, "fetch_on: stopped by SIGTERM\n"), ended(run))
    link.close()
    records = records_at_random(SEED, [STA], 20)
    server = Server(b"".join(records), [STA])
    yield Fact("and then another one may write", (0, [], ""),
               outcome(tool("fetch_on", *words(out, server.port, [STA]))))
    yield holds("it has written", out.read_bytes() == b"".join(records), size_of(out))
    silent.close()


def coming_back(folder: Path) -> Cases:
    """A server that comes late, is killed, and comes back; and links that are cut."""
    records, port = records_at_random(SEED + 1, PLACES, 20000), free_port()

    def next_server() -> Server:
        return Server(b"".join(records), PLACES, "--capacity", 20000, "--connections", 1000000, port=port)

    # A server that is seen too late has sent all before it is killed: then once more.
    for turn in range(5):
        out, sizes = folder / f"back{turn}", []
        run = started(words(out, port))
        time.sleep(0.3)
        for part in (0, 3000, 6000):
            server = next_server()
            waits_for(lambda file=out, size=part * 512: size_of(file) > size, run)
            server.kill()
            sizes.append(size_of(out))
        server = next_server()
        how = ended(run)
        if 0 < sizes[0] < size_of(out):
            break
        server.kill()
    yield Fact("a server that comes back", (0, ""), how)
    yield holds("it was gone in the middle", 0 < sizes[0] < size_of(out), sizes)
    yield holds("each record is held once", is_each_once(PLACES, records, out.read_bytes()), size_of(out))
    source = Random(SEED)
    cuts = [Cut(None, source.randrange(1, 40000), source.random() < 0.5) for _ in range(20)]
    cut, proxy = folder / "cut", Proxy(lambda: server.port, cuts)
    yield Fact("links that are cut", (0, [], ""), outcome(tool("fetch_on", *words(cut, proxy.port))))
    yield holds("links that are cut: each record is held once", is_each_once(PLACES, records, cut.read_bytes()),
                size_of(cut))
    yield holds("links were cut", proxy.carried > 20, proxy.carried)
    proxy.close()
    server.kill()


def packets(records: Sequence[bytes], numbers: Sequence[int]) -> bytes:
    """Records as a server sends them by these numbers."""
    return b"".join(b"SL%06X" % number + record for number, record in zip(numbers, records))


def holes(folder: Path) -> Cases:
    """A server whose numbers leave some out, and whose first link is cut after a hole."""
    numbers, records = [5, 7, 8, 12, 13, 40, 41], [record_of(STA, index) for index in range(7)]
    out = folder / "holes"
    speaker = Speaker([[GRANTED + packets(records[:4], numbers[:4])],
                       [GRANTED + packets(records[4:], numbers[4:]) + b"END"], [GRANTED + b"END"]])
    given = words(out, speaker.port, [STA], "--holes", "--tell-next")
    reported = (0, ["--network XX --station STA --from 00002A"], "")
    yield Fact("numbers that leave some out", reported, outcome(tool("fetch_on", *given)))
    yield Fact("the records are held", b"".join(records), out.read_bytes())
    yield Fact("and again", reported, outcome(tool("fetch_on", *given)))
    speaker.close()
    requested = [sent.split(b"FETCH")[1].split(b"\r")[0] for sent, _ in speaker.received]
    yield Fact("what was requested", [b"", b" 00000D", b" 00002A"], requested)


def told_in_vain(folder: Path) -> Cases:
    """A `fetch` that tells of a hole, and ends before the records up to there have come: the next one asks for these."""
    asked, program, record = folder / "asked", folder / "fetch", record_of(STA, 0)
    program.write_text(f"""\
#!{sys.executable}
import os, sys
is_first = not os.path.exists({str(asked)!r})
with open({str(asked)!r}, "a") as file:
    print(*sys.argv[sys.argv.index("--station") + 2:], file=file)
if is_first:
    os.write(2, b"mseed: first XX_STA:000005\\n")
    os.write(2, b"mseed: hole XX_STA 000008 000064\\n")
    os.write(1, {record!r})
    os.write(2, b"mseed: link failed\\n")
sys.exit(2 if is_first else 0)
""", encoding="utf-8")
    program.chmod(0o755)
    for name, given in (("file", words(folder / "vain", 1, [STA], "--holes")),
                        ("tree", ["--sds", *words(folder / "vain_tree", 1, [STA], "--holes")])):
        asked.unlink(missing_ok=True)
        if name == "tree":
            program.write_text(program.read_text(encoding="utf-8").replace("import os, sys\n", f"""\
import os, sys
if sys.argv[1] == "show":
    os.execv({str(PROGRAM)!r}, [{str(PROGRAM)!r}, *sys.argv[1:]])
"""), encoding="utf-8")
        yield Fact(f"a {name}, and a hole told in vain", 0, tool("fetch_on", *given, program=program).status)
        yield Fact(f"a {name}, and what was asked for", ["", "--from 000006"], asked.read_text().splitlines())


def told_first(result: Result) -> tuple[int, list[str], str]:
    """How it ended, and the first line of what it reported: the program may tell more behind it."""
    status, lines, reported = outcome(result)
    return status, lines, reported.split("\n", 1)[0] + "\n"


def failing(folder: Path) -> Cases:
    """What it can't go on after, and how that is reported."""
    records = records_at_random(SEED, [STA], 4)
    nobody = words(folder / "nobody", free_port(), [STA], "--tries", "3")
    begun = time.monotonic()
    yield Fact("nobody is there", (2, [], LINK_FAILED), told_first(tool("fetch_on", *nobody)))
    yield holds("it has waited between tries", time.monotonic() - begun >= 0.3)
    server = Server(b"".join(records), [STA], "--connections", 1000000)
    refused = words(folder / "refused", server.port, [STA], "--from", "9", "--tries", "3")
    yield Fact("a number that the server hasn't", (2, [], REFUSED), told_first(tool("fetch_on", *refused)))
    server.kill()
    speaker = Speaker([[GRANTED + b"SL000005" + records[0] + b"SL000007" + records[1]]])
    gap = folder / "gap"
    yield Fact("a number that is left out", (2, [], BAD_FEED),
               told_first(tool("fetch_on", *words(gap, speaker.port, [STA]))))
    yield Fact("what came before is held", (records[0], {STA.text: [[0, 5]]}), (gap.read_bytes(), numbers_of(gap)))
    speaker.close()
    yield Fact("a station that is none", (3, [], "mseed: bad value\n"),
               told_first(tool("fetch_on", *words(folder / "none", 1, [Place("XX_TOOLONG")]))))
    program = folder / "telling"
    program.write_text("#!/bin/sh\nprintf 'mseed: bad feed\\nmseed: what came\\n' >&2\nexit 2\n", encoding="utf-8")
    program.chmod(0o755)
    yield Fact("what is told behind a bad feed", (2, [], "mseed: bad feed\nmseed: what came\n"),
               outcome(tool("fetch_on", *words(folder / "told", 1, [STA]), program=program)))
    for given in ([], [str(folder / "few")], [*nobody, "--tries", "0"], [*nobody, STA.text], [*nobody, "--no-such"]):
        yield Fact(f"fetch_on {' '.join(given)}", 3, tool("fetch_on", *given).status)
    yield holds("the help has an example", b"example" in tool("fetch_on", "--help").out)


def other_files(folder: Path) -> Cases:
    """Files that it can't go on with stay as they are."""
    records = records_at_random(SEED, [STA], 2)

    def came(name: str, content: Optional[bytes], numbers: Optional[bytes]) -> tuple[Result, bool]:
        out = folder / name
        if content is not None:
            out.write_bytes(content)
        if numbers is not None:
            Path(f"{out}.numbers").write_bytes(numbers)
        result = tool("fetch_on", *words(out, 1, [STA], "--tries", "1"))
        return result, content is None or out.read_bytes() == content

    for name, content, numbers in (
            ("without numbers", records[0], None), ("numbers of another place", records[0],
                                                    b'{"form": 1, "places": {"XX_STB": [[0, 5]]}}'),
            ("numbers that come later", records[0], b'{"form": 1, "places": {"XX_STA": [[2, 5]]}}'),
            ("no numbers", records[0], b"{"), ("another form", b"", b'{"form": 9, "places": {}}'),
            ("no records", bytes(512), b'{"form": 1, "places": {"XX_STA": [[0, 5]]}}')):
        result, is_same = came(name, content, numbers)
        yield holds(f"a file: {name}", result.status == 2 and result.err.startswith(b"fetch_on: ") and is_same, result)
    for path in (folder, folder / "no" / "such", Path("/dev/null")):
        result = tool("fetch_on", *words(path, 1, [STA], "--tries", "1"))
        yield holds(f"no file: {path.name}", result.status == 2 and result.err.startswith(b"fetch_on: "), result)


def rows() -> Cases:
    """All of them."""
    for some in (whole, kills, one_writer, coming_back, holes, told_in_vain, failing, other_files):
        with tempfile.TemporaryDirectory() as name:
            yield from some(Path(name))
