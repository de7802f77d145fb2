"""`fetch --tell-next`: what is written before the first record of each station and at the end, by hand; and going on
after it, after a kill by the first number and the count, and after a cut by the words of the last line."""

from __future__ import annotations

import contextlib
import os
import random
import re
import subprocess
import tempfile
import time
from typing import Optional, Sequence

from driver.feed import Cut, Fetching, Proxy, Server, fetch, fetch_words, kept
from driver.patience import Patience
from driver.program import LIMIT
from driver.rows import Cases, Fact, Row, contents_of, holds, started
from driver.texts import WRITE_FAILED, About, gap, lost, refused
from models.peers import Speaker
from models.seedlink import SPAN, Place, record_of

STA, STB, OTHER = Place("XX_STA"), Place("XX_STB"), Place("n_A1b2C")
TELL = "--tell-next"
OK = b"OK\r\n"


def packet(number: int, place: Place, index: int = 0) -> bytes:
    """A packet of a record of a station."""
    return b"SL%06X" % number + record_of(place, index)


def at_a_speaker(name: str, stream: bytes, places: Sequence[Place], wants: Sequence[Optional[int]], status: int,
                 out: bytes, err: bytes, *options: object, before: Optional[bytes] = None, **streams: str) -> Cases:
    """A `fetch` from a server that sends just this. With `before`, the lines are this, those of a link that was closed,
    and `err`."""
    speaker = Speaker([[stream]])
    words = fetch_words(places, speaker.port, *options, wants=wants)
    lines = err if before is None else before + lost(speaker.port) + err
    yield Row(name, b"", words, status, out, lines, **streams)


NEXT = b"mseed: next --network XX --station STA"


def lines() -> Cases:
    """The lines, by hand."""
    two = packet(5, STA) + packet(6, STA, 1)
    both = record_of(STA, 0) + record_of(STA, 1)
    first = b"mseed: first XX_STA:000005\n"
    yield from at_a_speaker("two records", OK * 2 + two + b"END", [STA], [], 0, both,
                            first + NEXT + b" --from 000007\n", TELL)
    yield from at_a_speaker("two records, nothing requested", OK * 2 + two + b"END", [STA], [], 0, both, b"")
    yield from at_a_speaker("no record and no number", OK * 2 + b"END", [STA], [], 0, b"", NEXT + b"\n", TELL)
    yield from at_a_speaker("no record", OK * 2 + b"END", [STA], [0xABC], 0, b"", NEXT + b" --from 000ABC\n", TELL)
    yield from at_a_speaker("closed at once", b"", [STA], [], 2, b"", NEXT + b"\n", TELL, before=b"")
    yield from at_a_speaker("cut within the second packet", OK * 2 + two[:-1], [STA], [5], 2, record_of(STA, 0),
                            NEXT + b" --from 000006\n", TELL, before=first)
    yield from at_a_speaker("refused", b"ERROR\r\n", [STA], [5], 2, b"",
                            refused("XX_STA", 5) + NEXT + b" --from 000005\n", TELL)
    yield from at_a_speaker("a gap", OK * 2 + packet(5, STA) + packet(7, STA), [STA], [], 2, record_of(STA, 0),
                            first + gap("XX_STA", 6, 7) + NEXT + b" --from 000006\n", TELL)
    yield from at_a_speaker("the last number", OK * 2 + packet(SPAN - 1, STA) + b"END", [STA], [], 0,
                            record_of(STA, 0), b"mseed: first XX_STA:FFFFFF\n" + NEXT + b" --from 000000\n", TELL)
    yield from at_a_speaker("an output that takes nothing", OK * 2 + two + b"END", [STA], [], 2, b"",
                            first + WRITE_FAILED + NEXT + b" --from 000005\n", TELL, out_to="/dev/full")
    yield from at_a_speaker("standard error that takes nothing", OK * 2 + two + b"END", [STA], [], 0, both, b"", TELL,
                            err_to="/dev/full")
    many = packet(0x10, STB) + packet(3, STA) + packet(0x11, STB, 1) + packet(4, STA, 1)
    yield from at_a_speaker(
        "three stations, one of them without a record", OK * 6 + many + b"END", [STA, STB, OTHER], [3], 0,
        record_of(STB, 0) + record_of(STA, 0) + record_of(STB, 1) + record_of(STA, 1),
        b"mseed: first XX_STB:000010\nmseed: first XX_STA:000003\n"
        + NEXT + b" --from 000005 XX_STB:000012 n_A1b2C\n", TELL)
    yield from at_a_speaker("three stations, refused", b"ERROR\r\n", [STA, STB, OTHER], [None, 7, 0xFFFFFF],
                            2, b"", refused("XX_STA") + NEXT + b" XX_STB:000007 n_A1b2C:FFFFFF\n", TELL)
    yield from at_a_speaker("three stations, the second one's number refused", OK * 3 + b"ERROR\r\n",
                            [STA, STB, OTHER], [None, 7, 0xFFFFFF], 2, b"",
                            refused("XX_STB", 7) + NEXT + b" XX_STB:000007 n_A1b2C:FFFFFF\n", TELL)
    yield Row("serve has no such flag", b"", ["serve", "--port", "1", "--station", "STA", "--network", "XX", TELL], 3,
              b"", About(TELL))
    yield Row("doubled", b"", ["fetch", "--port", "1", "--station", "STA", "--network", "XX", TELL, TELL], 3, b"",
              About("--tell-next"))


def firsts_in(errors: bytes) -> dict[str, int]:
    """The number of the first record of each station that was named."""
    found = re.findall(rb"^mseed: first ([A-Za-z0-9_]+):([0-9A-F]{6})$", errors, re.MULTILINE)
    return {label.decode(): int(digits, 16) for label, digits in found}


def size_of(fetching: Fetching) -> int:
    """How many bytes a client wrote so far."""
    return os.fstat(fetching.output.fileno()).st_size


def of_place(place: Place, output: bytes) -> list[bytes]:
    """The whole records of a station in an output."""
    records = [output[at : at + 512] for at in range(0, len(output) - 511, 512)]
    return [record for record in records if place.bears(record)]


def killed_clients() -> Cases:
    """`fetch` is killed at random moments. What it wrote is cut to whole records, and the next one goes on by the first
    number and the count: the same bytes of each station, each once."""
    source = random.Random(1)
    places = [STA, STB]
    records = [record_of(source.choice(places), index) for index in range(40000)]
    server = Server(b"".join(records), places, "--capacity", len(records), "--first", "FFFF00",
                    "--connections", 1000)
    came_to, wants, kills, unreported = b"", [None, None], 0, 0
    while True:
        fetching = Fetching(fetch_words(places, server.port, TELL, wants=wants))
        if kills < 25:
            # On a busy machine it has written more by the time that this is seen, so it is a small part of all.
            least = source.randrange(len(records) * 512 // 100)
            Patience().until(lambda: size_of(fetching) >= least or fetching.process.poll() is not None)
            kills += fetching.process.poll() is None
            fetching.process.kill()
        status, output, errors = fetching.end()
        whole = output[: len(output) // 512 * 512]
        firsts = firsts_in(errors)
        for k, place in enumerate(places):
            count = len(of_place(place, whole))
            if count and place.text not in firsts:
                unreported += 1
            if place.text in firsts:
                wants[k] = (firsts[place.text] + count) % SPAN
        came_to += whole
        if status == 0:
            break
    server.kill()
    yield Fact("killed clients: each station with records was named", 0, unreported)
    yield holds("killed clients: many were killed", kills >= 5, kills)
    for place in places:
        came = of_place(place, came_to)
        ours = [record for record in records if place.bears(record)]
        yield holds(f"killed clients: the records of {place.text}, each once", came == ours, (len(came), len(ours)))


def going_on() -> Cases:
    """Links that are cut anywhere: the next `fetch` takes the words of the last line."""
    source = random.Random(2)
    places = [STA, STB, OTHER]
    records = [record_of(source.choice(places), index) for index in range(400)]
    server = Server(b"".join(records), places, "--capacity", 400, "--first", "FFFFF0", "--connections", 1000)
    proxy = Proxy(lambda: server.port, [Cut(None, source.randrange(40000)) for _ in range(20)])
    words, came_to, status, runs = fetch_words(places, proxy.port, TELL), b"", 2, 0
    while status == 2 and runs < 30:
        status, output, errors = Fetching(words).end()
        came_to += output
        runs += 1
        last = errors.decode().splitlines()[-1]
        prefix = "mseed: next "
        yield holds(f"run {runs} reports the options to go on with", last.startswith(prefix), last)
        words = ["fetch", "--port", str(proxy.port), TELL, *last[len(prefix) :].split(" ")]
    proxy.close()
    server.kill()
    yield Fact("going on: the last one ends", 0, status)
    yield holds("going on: many were cut", runs > 5, runs)
    for place in places:
        came = of_place(place, came_to)
        ours = [record for record in records if place.bears(record)]
        yield holds(f"going on: the records of {place.text}, each once", came == ours, (len(came), len(ours)))


def before_the_record() -> Cases:
    """The line of a first record is there while the output takes nothing yet."""
    speaker = Speaker([[OK * 2 + packet(5, STA) + b"END"]])
    out, into = os.pipe()
    os.set_blocking(into, False)
    with contextlib.suppress(BlockingIOError):
        while True:
            os.write(into, bytes(65536))
    os.set_blocking(into, True)
    line = b"mseed: first XX_STA:000005\n"
    with tempfile.TemporaryFile() as errors:
        process = kept(started(fetch_words([STA], speaker.port, TELL), stdin=subprocess.DEVNULL, stdout=into,
                               stderr=errors))
        end = time.monotonic() + LIMIT
        while contents_of(errors) != line and process.poll() is None and time.monotonic() < end:
            time.sleep(0.01)
        yield Fact("reported before it is written", (line, None), (contents_of(errors), process.poll()))
        process.kill()
        process.wait()
    os.close(out)
    os.close(into)


def over_tries() -> Cases:
    """Over several tries of one `fetch`, a station's first record is named once."""
    records = [record_of(STA, index) for index in range(20)]
    server = Server(b"".join(records), [STA], "--connections", 10)
    proxy = Proxy(lambda: server.port, [Cut(None, 3000), Cut(None, 2000)])
    status, output, errors = fetch([STA], proxy.port, TELL, "--tries", 3)
    proxy.close()
    server.kill()
    yield Fact("over tries: each record once", (0, b"".join(records)), (status, output))
    yield Fact("over tries: the first is named once", b"mseed: first XX_STA:000000\n" + NEXT + b" --from 000014\n",
               errors)


def rows() -> Cases:
    """All of them."""
    for part in (lines, before_the_record, killed_clients, going_on, over_tries):
        yield from part()
