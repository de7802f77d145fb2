"""`serve` and `fetch` where memory is refused, the input or the output fails, or a call on a link does, each in turn,
and over links that bring a few bytes at a time."""

from __future__ import annotations

import os
import subprocess
import tempfile
from pathlib import Path
from typing import Generator, Optional

from driver.feed import Server, fetch, fetch_words, kept
from driver.helpers import COMPILER, library, preloaded
from driver.rows import Case, Cases, Fact, Skipped, contents_of, holds, started, status_of
from driver.texts import LINK_FAILED, NO_MEMORY, WRITE_FAILED, unlistened
from models.peers import fetch_link, serving
from models.seedlink import Client, Place, feed_of, record_of, records_in

STA, STB = Place("XX_STA"), Place("XX_STB")
PLACES = [STA, STB]
RECORDS = [record_of(PLACES[index % 2], index) for index in range(6)]
ARCHIVE = b"".join(RECORDS)
BY_PLACE = RECORDS[::2] + RECORDS[1::2]
ENDED = (0, b"", b"")


def whole(output: bytes) -> list[bytes]:
    """The records of an output, those of each place in order."""
    came = [output[at : at + 512] for at in range(0, len(output), 512)]
    return [one for place in PLACES for one in came if place.bears(one)]


def allocations_of_serve(refusing: str, archive: bytes, count: int) -> Generator[Case, None, int]:
    """Refuses each allocation in turn until the server listens, which then serves all: how many there are."""
    for number in range(1, 1000):
        server = Server(archive, PLACES, "--capacity", count, env=preloaded(refusing, REFUSE=number))
        if server.is_going():
            break
        yield Fact(f"serve of {count} records with allocation {number} refused", (2, b"", NO_MEMORY), server.end())
    run = fetch(PLACES, server.port)
    yield Fact(f"serve of {count} records with no allocation refused at {number}", (0, len(archive), b""),
               (run.status, len(run.out), run.err))
    yield Fact(f"serve of {count} records ends with all its memory", ENDED, server.end())
    return number


def memory(refusing: str) -> Cases:
    """Each allocation refused in turn."""
    few = yield from allocations_of_serve(refusing, ARCHIVE, 6)
    many = yield from allocations_of_serve(refusing, ARCHIVE * 500, 3000)
    yield Fact("as many allocations for many records as for few", few, many)
    yield holds("they were more than five", few > 5, few)
    for number in range(1, 1000):
        port = serving([feed_of(PLACES, 10, 0, RECORDS)])
        run = fetch(PLACES, port, env=preloaded(refusing, REFUSE=number))
        if run.status == 0:
            break
        yield Fact(f"fetch with allocation {number} refused", (2, b"", NO_MEMORY), run)
    yield holds(f"fetch with no allocation refused at {number}", whole(run.out) == BY_PLACE and run.err == b"", run.err)
    yield holds("fetch allocated more than five times", number > 5, number)


def ended_unread(port: int) -> tuple[int, bytes]:
    """How a `fetch` ends whose output is a pipe which nobody reads from the first: its status and standard error."""
    reads, writes = os.pipe()
    os.close(reads)
    with tempfile.TemporaryFile() as errors:
        words = fetch_words([STA], port)
        status = status_of(kept(started(words, stdin=subprocess.DEVNULL, stdout=writes, stderr=errors)))
        os.close(writes)
        return status, contents_of(errors)


def streams(failing: str) -> Cases:
    """The input of `serve`, and the output of `fetch`, fail after so many bytes."""
    for room in [*range(0, len(ARCHIVE), 61), 511, 512, 513, len(ARCHIVE) - 1, len(ARCHIVE)]:
        server = Server(ARCHIVE, PLACES, env=preloaded(failing, READ_ROOM=room))
        line = f"mseed: fault at {room // 512 * 512} read\n".encode()
        yield Fact(f"serve of an input that fails after {room} bytes", (2, b"", line), server.end())
    port = serving([feed_of([STA], 10, 0, RECORDS[::2])] * 100)
    output = b"".join(RECORDS[::2])
    for room in [*range(0, len(output), 47), 511, 512, 513, 1023, 1024, 1025, len(output) - 1]:
        run = fetch([STA], port, "--tries", 9, env=preloaded(failing, WRITE_ROOM=room))
        yield Fact(f"fetch onto an output that takes {room} bytes", (2, output[:room], WRITE_FAILED), run)
    yield Fact("fetch onto an output that nobody reads", (2, WRITE_FAILED), ended_unread(port))
    run = fetch([STA], port, env=preloaded(failing, WRITE_ROOM=len(output)))
    yield Fact("fetch onto an output that takes all", (0, output, b""), run)


def fetched_while_going(server: Server) -> list[bytes]:
    """What a client of Python gets over one link after another, as long as there is a server."""
    client, records = Client([(place, None) for place in PLACES], "FETCH"), []
    while server.is_going():
        try:
            records += records_in(fetch_link(client, server.port))
        except OSError:
            pass
    return whole(b"".join(records))


def calls_of_serve(failing: str) -> Cases:
    """Each call on a link of the server fails in turn: the connection is lost, and the next one takes the rest. Of the
    first three calls, with which it would listen, a line more says that they failed."""
    for call in range(1, 200):
        server = Server(ARCHIVE, PLACES, "--connections", 2, env=preloaded(failing, LINK_FAILS=call))
        records = fetched_while_going(server)
        ended = server.end()
        if ended == ENDED:
            break
        lines = unlistened(server.port, "error of the system") if call <= 3 else LINK_FAILED
        yield Fact(f"serve whose call {call} fails", (2, b"", lines), ended)
        yield holds(f"all is served where call {call} fails", records == (BY_PLACE if call > 3 else []), len(records))
    yield holds(f"serve whose calls don't fail, {call}", records == BY_PLACE and call > 20, call)


def calls_of_fetch(failing: str) -> Cases:
    """Each call on a link of the client fails in turn."""
    for call in range(1, 200):
        env = preloaded(failing, LINK_FAILS=call)
        port = serving([feed_of(PLACES, 10, 0, RECORDS)] * 4)
        alone, twice = fetch(PLACES, port, env=env), fetch(PLACES, port, "--tries", 2, env=env)
        yield Fact(f"fetch whose call {call} fails, by the next try", (0, b""), (twice.status, twice.err))
        yield holds(f"all is fetched where call {call} fails", whole(twice.out) == BY_PLACE, len(twice.out))
        if alone.status == 0:
            break
        lines = alone.err.splitlines(keepends=True)
        wanted = [LINK_FAILED, b"connection reset\n"]
        yield Fact(f"fetch whose call {call} fails", (2, wanted), (alone.status, [lines[0], lines[-1].split(b": ")[-1]]))
        about = [b"mseed: %s 127.0.0.1:%d" % (what, port) for what in (b"cannot connect to", b"lost the connection to")]
        yield holds(f"fetch whose call {call} fails, where", len(lines) == 2 and lines[1].rpartition(b": ")[0] in about,
                    alone.err)
    yield holds(f"fetch whose calls don't fail, {call}", call > 10, call)


def fetched(port: int, env: Optional[dict] = None) -> tuple[int, bool, bytes]:
    """How a `fetch` ended, and whether it got all records."""
    run = fetch(PLACES, port, env=env)
    return run.status, whole(run.out) == BY_PLACE, run.err


def closing(failing: str) -> Cases:
    """Each call by which a server closes a link fails in turn: what was sent comes through, and the next client is
    served."""
    with tempfile.TemporaryDirectory() as folder:
        marks = [Path(folder) / f"closing_{call}" for call in range(1, 8)]
        for call, mark in enumerate(marks, 1):
            env = preloaded(failing, CLOSING_FAILS=call, CLOSING_SEEN=mark)
            server = Server(ARCHIVE, PLACES, "--connections", 2, env=env)
            for turn in (1, 2):
                yield Fact(f"client {turn} of a server whose call {call} in closing links fails", (0, True, b""),
                           fetched(server.port))
            yield Fact(f"serve whose call {call} in closing links fails", ENDED, server.end())
        failed = sum(mark.exists() for mark in marks)
        yield holds("calls in closing links failed", failed >= 3, failed)


def pieces(failing: str) -> Cases:
    """Reads and writes that bring a few bytes, of either end and of both."""
    env = preloaded(failing, LINK_PIECE=1)
    server = Server(ARCHIVE, PLACES, env=env)
    records = records_in(fetch_link(Client([(place, None) for place in PLACES], "FETCH"), server.port))
    yield holds("serve by single bytes", whole(b"".join(records)) == BY_PLACE, len(records))
    yield Fact("serve by single bytes ends", ENDED, server.end())
    port = serving([feed_of(PLACES, 10, 0, RECORDS)])
    yield Fact("fetch by single bytes", (0, True, b""), fetched(port, env))
    for size in (1, 7, 511):
        env = preloaded(failing, LINK_PIECE=size)
        server = Server(ARCHIVE, PLACES, env=env)
        yield Fact(f"links of {size} bytes at a time", (0, True, b""), fetched(server.port, env))
        yield Fact(f"serve after links of {size} bytes at a time", ENDED, server.end())


def rows() -> Cases:
    """All of them."""
    refusing, devices, links = (library(name) for name in ("refuse_memory", "failing_devices", "failing_links"))
    if refusing is None or devices is None or links is None:
        yield Skipped("a feed whose memory, devices and links fail", COMPILER)
        return
    yield from memory(refusing)
    yield from streams(devices)
    for part in (calls_of_serve, calls_of_fetch, closing, pieces):
        yield from part(links)
