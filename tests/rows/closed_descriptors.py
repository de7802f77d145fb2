"""The five commands with standard input, output or error closed: the system gives the descriptor of a closed stream to
whatever is opened next, and what the program writes to that stream must not go over a link in its place. Also the one
address that `serve` listens at."""

from __future__ import annotations

from typing import Sequence

from driver.feed import Fetching, Server, fetch_words
from driver.links import addresses_at, listening, port_of
from driver.program import SAMPLES
from driver.rows import Cases, Fact, Row, holds
from driver.texts import IS_CLOSED, WRITE_FAILED
from models.peers import Speaker, fetch_link
from models.seedlink import Client, Place, record_of, records_in

STA = Place("XX_STA")
RECORDS = [record_of(STA, index) for index in range(3)]
ARCHIVE = b"".join(RECORDS)
LINES = b"STATION STA XX\r\nFETCH\r\nEND\r\n"
SENT = b"OK\r\nOK\r\n" + b"".join(b"SL%06X" % index + bytes for index, bytes in enumerate(RECORDS)) + b"END"
ENDED = (0, b"", b"")

# What the three commands that open no link write where nothing can be read.
UNREAD = {
    "audit": (2, b"records 0 channels 0\nfault at 0 read\n", IS_CLOSED),
    "show": (2, b"records 0\nfault at 0 read\n", IS_CLOSED),
    "repack": (2, b"", b"mseed: fault at 0 read\n" + IS_CLOSED),
}


def texts() -> Cases:
    """The three commands that open no link, over a sample whose channels are all continuous."""
    sample = (SAMPLES / "two_records.mseed").read_bytes()
    for command, unread in UNREAD.items():
        whole = Row("", sample, [command], 0).run()
        is_whole = whole.status == 0 and whole.out and not whole.err
        yield holds(f"{command} with all streams", is_whole, whole)
        closed_rows: list[tuple[Sequence[int], tuple[int, bytes, bytes]]] = [
            ([0], unread),
            ([1], (2, b"", WRITE_FAILED)),
            ([2], (0, whole.out, b"")),
            ([1, 2], (2, b"", b"")),
        ]
        for closed, wanted in closed_rows:
            yield Row(f"{command} with {closed} closed", sample, [command], *wanted, closed=closed)


def fetched(port: int) -> bytes:
    """What a client of Python gets, once there is a server."""
    return b"".join(records_in(fetch_link(Client([(STA, None)], "FETCH"), port)))


def serve() -> Cases:
    """`serve`, whose clients get what they would get from one whose streams are all open."""
    ended = Server(b"", [STA], closed=[0]).end()
    yield Fact("serve with [0] closed", (2, b"", b"mseed: fault at 0 read\n"), ended)
    for closed in ([1], [2], [1, 2]):
        server = Server(ARCHIVE, [STA], "--connections", 2, closed=closed)
        for client in (1, 2):
            yield Fact(f"client {client} of serve with {closed} closed", ARCHIVE, fetched(server.port))
        yield Fact(f"serve with {closed} closed", ENDED, server.end())
    # What is written to standard error doesn't go to the listener or a client either.
    with listening() as taken:
        server = Server(ARCHIVE, [STA], port=port_of(taken), closed=[2], is_awaited=False)
        yield Fact("serve with [2] closed, whose port is taken", (2, b"", b""), server.end())


def fetch() -> Cases:
    """`fetch`, over whose link go its lines alone."""
    for closed, stream, wanted in [
        ([0], SENT, (0, ARCHIVE, b"")),
        ([1], SENT, (2, b"", WRITE_FAILED)),
        ([2], SENT, (0, ARCHIVE, b"")),
        ([0, 1], SENT, (2, b"", WRITE_FAILED)),
        ([0, 1, 2], SENT, (2, b"", b"")),
        ([2], b"OK\r\nERROR\r\n", (2, b"", b"")),
    ]:
        speaker = Speaker([[stream]])
        ended = Fetching(fetch_words([STA], speaker.port), closed=closed).end()
        speaker.close()
        name = f"fetch with {closed} closed, of {len(stream)} bytes"
        yield Fact(name, wanted, ended)
        [(lines, _)] = speaker.received
        yield holds(f"{name}, sends its lines alone", lines and LINES.startswith(lines), lines)


def address() -> Cases:
    """The address at which `serve` listens."""
    server = Server(ARCHIVE, [STA])
    yield Fact("serve listens at 127.0.0.1 alone", ["0100007F"], addresses_at(server.port))
    yield Fact("and serves there", ARCHIVE, fetched(server.port))
    yield Fact("and ends", ENDED, server.end())


def rows() -> Cases:
    """All of them."""
    for part in (texts, serve, fetch, address):
        yield from part()
