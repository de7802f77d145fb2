"""The program's two ends against peers of Python, from plain to hostile: what they answer, write and end with is what
docs/protocol.md says, as models/seedlink.py has it, and whoever comes next is served as ever."""

from __future__ import annotations

import random
import socket
from typing import Callable, Optional, Sequence

from driver.feed import Ended, Fetching, Server, fetch, fetch_words
from driver.links import dialled, free_port, listening, port_of, reset
from driver.rows import Cases, Fact, holds
from driver.texts import LINK_FAILED, foreign, gap, garbage, keeps, lost, refused, strange, unanswered, undialled
from driver.texts import unlistened
from models.dialogues import feed_at_random, pieces_of, stream_of_client, stream_of_server, wants_at_random
from models.peers import Speaker, exchanged, fetch_link
from models.seedlink import REPLIES, Client, Place, Ring, Session, record_of, records_in

STA = Place("XX_STA")
GRANTED = b"OK\r\nOK\r\n"
FINE, FAILED = Ended(0, b"", b""), Ended(2, b"", LINK_FAILED)


def is_received(came: tuple[bytes, bool], wanted: bytes) -> bool:
    """Whether this was received, or a prefix of it over a link that was reset."""
    stream, is_reset = came
    return stream == wanted or is_reset and wanted.startswith(stream)


def answer_of(feed: list[Ring], pieces: Sequence[bytes]) -> bytes:
    """What a session of its own answers to a stream in these pieces."""
    session, answer = Session(feed), b""
    for piece in pieces:
        answer += b"".join(REPLIES[name] for name in session.take(piece)) + session.sends()
    return answer


def answers_to(feed: list[Ring], stream: bytes) -> list[bytes]:
    """A `BYE` that is read together with the `END` before it leaves no packets: all else is the same for any pieces."""
    return [answer_of(feed, [stream]), answer_of(feed, [stream[at : at + 1] for at in range(len(stream))])]


def clients(seed: int, count: int) -> Cases:
    """Clients at random, one after the other, of one server."""
    source = random.Random(seed)
    feed = feed_at_random(source, 40)
    archive = b"".join(record for ring in feed for record in ring.pushed)
    options = ["--capacity", feed[0].capacity, "--first", f"{feed[0].first:X}", "--connections", count]
    server = Server(archive, [ring.place for ring in feed], *options)
    wrong, resets = [], 0
    for _ in range(count):
        stream = stream_of_client(source, feed)
        with dialled(server.port) as link:
            came = exchanged(link, pieces_of(source, stream))
        resets += came[1]
        if not any(is_received(came, answer) for answer in answers_to(feed, stream)):
            wrong.append((stream, came))
    yield Fact(f"{count} clients at random of server {seed}", [], wrong[:1])
    yield holds(f"few links of server {seed} were reset", resets <= count // 10, resets)
    lines = [keeps(ring.place.text, ring.capacity, len(ring.pushed)) for ring in feed
             if len(ring.pushed) > ring.capacity]
    yield Fact(f"server {seed} ends", Ended(0, b"", b"".join(lines)), server.end())


def lines_of(client: Client) -> bytes:
    """What `fetch` reports of the end that a client has come to."""
    kind, *about = client.ending
    if kind == "Refused":
        k, reply = about
        return refused(client.places[k].text, client.wants[k], reply)
    if kind == "Gap":
        k, want, got = about
        return gap(client.places[k].text, want, got)
    if kind == "Unanswered":
        k, reply = about
        return unanswered(client.places[k].text, client.wants[k], reply)
    if kind == "Foreign":
        return strange(*about)
    return garbage(*about) if kind == "Garbage" else b""


def outcome(places: Sequence[tuple[Place, Optional[int]]],
            streams: Sequence[bytes], port: int) -> tuple[list[bytes], Ended]:
    """What a client sends over each link to a port that brings one of these streams, the records that it writes, and its
    end."""
    client, sent, records = Client(places, "FETCH"), [], []
    for stream in streams:
        line = client.connect()
        events = client.take(stream)
        sent.append(line + b"".join(event[1] for event in events if event[0] == "Say"))
        records += records_in(events)
        if client.ending:
            return sent, Ended(2 * (client.ending != ("End",)), b"".join(records), lines_of(client))
    return sent, Ended(2, b"".join(records), lost(port))


def servers(seed: int, count: int) -> Cases:
    """Clients of the program, each of one to three streams at random."""
    source = random.Random(seed)
    wrong = []
    for _ in range(count):
        feed = feed_at_random(source, 12)
        places = wants_at_random(source, feed)
        pieces, trial = [], Client(places, "FETCH")
        for _ in range(source.randrange(1, 4)):
            stream = stream_of_server(source, feed, trial)
            pieces.append(pieces_of(source, stream))
            trial.connect()
            trial.take(stream)
        speaker = Speaker(pieces)
        sent, wanted = outcome(places, [b"".join(each) for each in pieces], speaker.port)
        run = fetch([place for place, _ in places], speaker.port, "--tries", len(pieces),
                    wants=[number for _, number in places])
        speaker.close()
        is_sent = len(sent) == len(speaker.received) and all(map(is_received, speaker.received, sent))
        if run != wanted or not is_sent:
            wrong.append((places, pieces, run, speaker.received, sent))
    yield Fact(f"{count} servers at random, {seed}", [], wrong[:1])


def is_good(port: int, records: Sequence[bytes]) -> bool:
    """Whether a plain client gets the records."""
    events = fetch_link(Client([(STA, None)], "FETCH"), port)
    return events[-1] == ("End",) and records_in(events) == records


def sends(stream: bytes) -> Callable[[socket.socket], object]:
    """A client that sends this, and goes."""
    return lambda link: link.sendall(stream)


def resets(stream: bytes) -> Callable[[socket.socket], object]:
    """A client that sends this, and resets its link."""

    def act(link: socket.socket) -> None:
        link.sendall(stream)
        if stream:
            link.recv(1)
        reset(link)

    return act


ALL_OF_IT = b"STATION STA XX\r\nFETCH\r\nEND\r\n"
# How a client behaves, and how the server ends after it, where that is certain.
RUDE_CLIENTS: list[tuple[str, Callable[[socket.socket], object], Optional[Ended]]] = [
    ("sends nothing", sends(b""), FINE),
    ("sends half a line", sends(b"STATION ST"), FINE),
    ("goes before END", sends(b"STATION STA XX\r\n"), None),
    ("sends a line that is too long", lambda link: exchanged(link, [b"A" * 256]), FINE),
    ("sends random bytes", lambda link: exchanged(link, [random.Random(1).randbytes(100000)]), None),
    ("resets at once", resets(b""), FAILED),
    ("resets after HELLO", resets(b"HELLO\r\n"), None),
    ("reads nothing", sends(ALL_OF_IT), None),
    ("resets amid the packets", resets(ALL_OF_IT), None),
]


def rude_clients() -> Cases:
    """Each is followed by a good one. The server writes once that a link failed, and only where one did."""
    records = [record_of(STA, index) for index in range(20)]
    for name, act, wanted in RUDE_CLIENTS:
        server = Server(b"".join(records), [STA], "--connections", 4)
        good = []
        for _ in range(2):
            with dialled(server.port) as link:
                act(link)
            good.append(is_good(server.port, records))
        yield Fact(f"a client that {name}, then a good one", [True, True], good)
        ended = server.end()
        fits = ended == wanted or wanted is None and ended in (FINE, FAILED)
        yield holds(f"serve after a client that {name}", fits, ended)


def full_link() -> Cases:
    """A client that asks for more than a link holds, and goes without reading it."""
    records = [record_of(STA, index) for index in range(40000)]
    server = Server(b"".join(records), [STA], "--capacity", 40000, "--connections", 2)
    with dialled(server.port) as link:
        link.sendall(ALL_OF_IT)
        link.recv(1)
    yield holds("a client that leaves a full link, then a good one", is_good(server.port, records))
    yield Fact("serve after a full link", FAILED, server.end())


def rude_servers() -> Cases:
    """How `fetch` ends by what a server sends, and how often it dials."""
    own, other = record_of(STA, 1), record_of(Place("XX_ABC"), 1)
    good = GRANTED + b"SL000001" + own + b"END"
    other_server = b"HTTP/1.1 400 Bad Request\r\nContent-Type: text/html\r\n\r\n"
    longest = b"ERROR" + b"\x00\xff~ " * 62
    for name, streams, errors, output, links in [
        ("refuses the station", [b"ERROR\r\n"], refused("XX_STA", 1), b"", 1),
        ("refuses the number", [b"OK\r\nERROR busy\r\n"], refused("XX_STA", 1, b"ERROR busy"), b"", 1),
        ("refuses it at length", [longest + b"\r\n"], refused("XX_STA", 1, longest), b"", 1),
        ("sends a gap", [GRANTED + b"SL000002" + own], gap("XX_STA", 1, 2), b"", 1),
        ("sends a gap later", [GRANTED + b"SL000001" + own + b"SL000003" + own], gap("XX_STA", 2, 3), own, 1),
        ("sends a record twice", [GRANTED + b"SL000001" + own + b"SL000001" + own], gap("XX_STA", 2, 1), own, 1),
        ("sends another reply", [b"OKAY\r\n"], unanswered("XX_STA", 1, b"OKAY"), b"", 1),
        ("sends another reply to the number", [b"OK\r\nok\x7f\r\n"], unanswered("XX_STA", 1, b"ok\x7f"), b"", 1),
        ("sends an empty reply", [b"\r\n"], unanswered("XX_STA", 1), b"", 1),
        ("sends no reply", [b"OK\r\n" + b"x" * 256], unanswered("XX_STA", 1), b"", 1),
        ("is another one", [other_server], unanswered("XX_STA", 1, b"HTTP/1.1 400 Bad Request"), b"", 1),
        ("replies 60 bytes", [b"x" * 60 + b"\r\n"], unanswered("XX_STA", 1, b"x" * 60), b"", 1),
        ("replies 61 bytes", [b"x" * 61 + b"\r\n"], unanswered("XX_STA", 1, b"x" * 61), b"", 1),
        ("sends garbage for a packet", [GRANTED + b"SL00000g"], garbage(0), b"", 1),
        ("sends garbage after a packet", [GRANTED + b"SL000001" + own + b"SL00000g"], garbage(1), own, 1),
        ("sends another end", [GRANTED + b"SL000001" + own + b"SL000002" + own + b"ENX"], garbage(2), own * 2, 1),
        ("sends garbage over the second link", [GRANTED + b"SL000001" + own, GRANTED + b"SL000002" + own + b"X"],
         garbage(1), own * 2, 2),
        ("sends a foreign record", [GRANTED + b"SL000001" + other], strange(b"XX", b"ABC  "), b"", 1),
        ("sends the end alone", [GRANTED + b"END"], b"", b"", 1),
        ("sends nothing", [b"", b"", b""], None, b"", 3),
        ("sends nothing at first", [b"", b"OK\r\n", good], b"", own, 3),
        ("breaks off in a packet", [good[:500], good], b"", own, 2),
        ("sends more after the end", [good + b"SL000002" + own], b"", own, 1),
    ]:
        speaker = Speaker([[stream] for stream in streams])
        run = fetch([STA], speaker.port, "--tries", 3, wants=[1])
        speaker.close()
        lines = lost(speaker.port) if errors is None else errors
        yield Fact(f"a server that {name}", (2 if lines else 0, output, lines), run)
        yield Fact(f"a server that {name} is dialled so often", links, len(speaker.received))


def no_links() -> Cases:
    """Nobody answers, or the port is taken."""
    for tries in (1, 3):
        port = free_port()
        yield Fact(f"fetch that nobody answers, {tries} times", (2, b"", undialled(port)),
                   fetch([STA], port, "--tries", tries))
    # What is reported is of the last try.
    speaker = Speaker([[b"OK\r\n"]])
    fetching = Fetching(fetch_words([STA], speaker.port, "--tries", 6))
    speaker.thread.join()
    speaker.close()
    yield Fact("fetch that nobody answers any more", (2, b"", undialled(speaker.port)), fetching.end())
    with listening() as listener:
        server = Server(record_of(STA, 1), [STA], port=port_of(listener), is_awaited=False)
        yield Fact("serve whose port is taken", Ended(2, b"", unlistened(port_of(listener))), server.end())
    # Faults of the archive come before the port.
    with listening() as listener:
        server = Server(record_of(Place("XX_ABC"), 1), [STA], port=port_of(listener), is_awaited=False)
        wanted = (2, b"", f"mseed: {foreign(1, 'XX_ABC', 512)}\n".encode())
        yield Fact("a foreign record, and a port that is taken", wanted, server.end())


def rows() -> Cases:
    """All of them."""
    for seed in range(6):
        yield from clients(seed, 150)
    for seed in range(3):
        yield from servers(seed, 100)
    for part in (rude_clients, full_link, rude_servers, no_links):
        yield from part()
