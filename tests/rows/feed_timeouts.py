"""Peers that are silent, at each state of the protocol, against `--timeout`: who is given up, when, and what is written
then; the pauses between tries, over a server that is started anew; and the addresses and names of `--address`."""

from __future__ import annotations

import contextlib
import socket
import threading
import time
from concurrent.futures import ThreadPoolExecutor
from typing import Iterator, Sequence, Union

from driver.feed import Ended, Fetching, Server, fetch, fetch_words
from driver.links import addresses_at, dialled, free_port, listening, port_of, received_up_to
from driver.program import LIMIT
from driver.rows import Cases, Fact, holds
from driver.texts import LINK_FAILED, LONG_HANDSHAKE, TIMED_OUT, lost, undialled, unlistened
from models.seedlink import Place, record_of

STA = Place("XX_STA")
RECORDS = [record_of(STA, index) for index in range(3)]
ARCHIVE = b"".join(RECORDS)
PACKETS = [b"SL%06X" % number + record for number, record in enumerate(RECORDS)]
GRANTED = b"OK\r\nOK\r\n"
FETCHED = GRANTED + b"".join(PACKETS) + b"END"
REQUEST = b"STATION STA XX\r\nFETCH\r\nEND\r\n"
FINE, FAILED = Ended(0, b"", b""), Ended(2, b"", LINK_FAILED)
ALL = Ended(0, ARCHIVE, b"")

# What a peer does: it sends bytes, or is silent for so many seconds.
Deed = Union[bytes, float]


def act(link: socket.socket, deeds: Sequence[Deed]) -> None:
    """Does one thing after another, as long as the other side is there."""
    with contextlib.suppress(OSError):
        for deed in deeds:
            if isinstance(deed, bytes):
                link.sendall(deed)
            else:
                time.sleep(deed)


# Sockets that stay open to the end.
HELD: list[socket.socket] = []


def serve_mutely(listener: socket.socket, deeds: Sequence[Deed]) -> None:
    """Does this to a client."""
    with contextlib.suppress(OSError):
        link, _ = listener.accept()
        HELD.append(link)
        act(link, deeds)


def mute(deeds: Sequence[Deed]) -> int:
    """The port of a server that does this to a client, and then keeps the link open, silent."""
    listener = listening()
    HELD.append(listener)
    threading.Thread(target=serve_mutely, args=(listener, deeds), daemon=True).start()
    return port_of(listener)


def drops(byte_for_byte: bytes, pause: float) -> list[Deed]:
    """Bytes one by one, with a pause before each."""
    return [deed for at in range(len(byte_for_byte)) for deed in (pause, byte_for_byte[at : at + 1])]


# What a server does, what `fetch --timeout 4` writes and why it fails. The last one would say bytes for half a minute.
SERVERS: list[tuple[str, list[Deed], bytes, str]] = [
    ("says nothing", [], b"", LONG_HANDSHAKE),
    ("is silent within a reply", [b"O"], b"", LONG_HANDSHAKE),
    ("is silent between the replies", [b"OK\r\n"], b"", LONG_HANDSHAKE),
    ("is silent before the packets", [GRANTED], b"", TIMED_OUT),
    ("is silent within a packet", [GRANTED + PACKETS[0][:100]], b"", TIMED_OUT),
    ("is silent between packets", [GRANTED + PACKETS[0]], RECORDS[0], TIMED_OUT),
    ("is silent before the end", [GRANTED + b"".join(PACKETS)], ARCHIVE, TIMED_OUT),
    ("is silent within the end", [GRANTED + b"".join(PACKETS) + b"EN"], ARCHIVE, TIMED_OUT),
    ("says a byte of the handshake now and then", drops(b"ERROR" + b"S" * 70, 0.4), b"", LONG_HANDSHAKE),
]
# After so many seconds whoever is given up is, however busy the machine is.
LATEST = 20.0
# A server that is never silent for as long as `--timeout 3` allows, by so much that a busy machine makes no difference,
# and altogether for longer.
PIECES: list[Deed] = [GRANTED, *(deed for packet in PACKETS for deed in (packet, 1.2)), b"END"]


def silent_servers() -> Cases:
    """Each is given up in time, and no sooner. All side by side."""

    def run(deeds: list[Deed]) -> tuple[int, Ended, float]:
        began, port = time.monotonic(), mute(deeds)
        ended = fetch([STA], port, "--timeout", 4)
        return port, ended, time.monotonic() - began

    with ThreadPoolExecutor(len(SERVERS)) as pool:
        ends = list(pool.map(run, [deeds for _, deeds, *_ in SERVERS]))
    for (name, _, out, why), (port, ended, seconds) in zip(SERVERS, ends):
        yield Fact(f"fetch from a server that {name}", Ended(2, out, lost(port, why)), ended)
        yield holds(f"the time of a server that {name}", 4 <= seconds < LATEST, seconds)


def pieces() -> Cases:
    """A server that says its packets piece by piece is waited for."""
    began = time.monotonic()
    yield Fact("fetch from a server that says the packets piece by piece", ALL,
               fetch([STA], mute(PIECES), "--timeout", 3))
    yield holds("it takes longer than the time altogether", time.monotonic() - began >= 3.6)


def without_end() -> Cases:
    """`--timeout 0` waits."""
    yield Fact("fetch without a time", ALL, fetch([STA], mute([1.5, FETCHED]), "--timeout", 0))


# What a client does that is to be given up.
CLIENTS: list[tuple[str, list[Deed]]] = [
    ("says nothing", []),
    ("is silent within a line", [b"STATION ST"]),
    ("is silent between the lines", [b"STATION STA XX\r\n"]),
    ("is silent before its end", [b"STATION STA XX\r\nFETCH\r\n"]),
    ("says the end too early, and then nothing", [b"END\r\n"]),
    ("says a byte now and then", drops(b"HELLO " * 20, 0.3)),
]


def silent_clients() -> Cases:
    """Whoever comes next is served, and the server says that a link failed. All side by side."""

    def run(deeds: list[Deed]) -> tuple[bytes, float, Ended]:
        server = Server(ARCHIVE, [STA], "--timeout", 1, "--connections", 2)
        began = time.monotonic()
        with dialled(server.port) as link, dialled(server.port) as next_link:
            threading.Thread(target=act, args=(link, deeds), daemon=True).start()
            next_link.sendall(REQUEST)
            brought, seconds = received_up_to(next_link, len(FETCHED)), time.monotonic() - began
        return brought, seconds, server.end()

    with ThreadPoolExecutor(len(CLIENTS)) as pool:
        ends = list(pool.map(run, [deeds for _, deeds in CLIENTS]))
    for (name, _), (brought, seconds, ended) in zip(CLIENTS, ends):
        yield Fact(f"a client after one that {name}", FETCHED, brought)
        yield holds(f"the time until one after one that {name} is served", seconds < LATEST, seconds)
        yield Fact(f"serve after a client that {name}", FAILED, ended)


def full_link() -> Cases:
    """A client that reads nothing while packets pile up."""
    archive = b"".join(record_of(STA, index) for index in range(40000))
    server = Server(archive, [STA], "--capacity", 40000, "--timeout", 1)
    with dialled(server.port) as link:
        link.sendall(REQUEST)
        ended = server.end()
    yield Fact("serve after a client that reads nothing", FAILED, ended)


def streaming() -> Cases:
    """A client that has sent all may be silent for longer than the time."""
    server = Server(ARCHIVE, [STA], "--timeout", 1)
    with dialled(server.port) as link:
        link.sendall(b"STATION STA XX\r\nDATA 0\r\nEND\r\n")
        brought = received_up_to(link, len(FETCHED) - 3)
        time.sleep(1.6)
        link.settimeout(0.05)
        try:
            rest = link.recv(1)
        except socket.timeout:
            rest = None
        yield Fact("a client that streams", (FETCHED[:-3], None), (brought, rest))
        link.settimeout(LIMIT)
        link.sendall(b"BYE\r\n")
        yield Fact("a client that streamed", b"", link.recv(1))
    yield Fact("serve after a client that streamed", FINE, server.end())


def restarted() -> Cases:
    """A server gives a record and goes; another one comes to its port a while later, and a client that has tries left
    finds it."""
    port = free_port()
    listener = listening(port)
    fetching = Fetching(fetch_words([STA], port, "--tries", 9))
    link, _ = listener.accept()
    with link, listener:
        link.sendall(GRANTED + PACKETS[0])
        received_up_to(link, len(REQUEST))
    server = Server(ARCHIVE, [STA], port=port)
    yield Fact("a server that is started anew", ALL, fetching.end())
    yield Fact("the server that was started anew", FINE, server.end())
    began = time.monotonic()
    port = free_port()
    yield Fact("four tries in vain", Ended(2, b"", undialled(port)), fetch([STA], port, "--tries", 4))
    seconds = time.monotonic() - began
    yield holds("the pauses between four tries", 0.7 <= seconds < LATEST, seconds)
    port = mute([GRANTED + PACKETS[0]])
    two = fetch([STA], port, "--tries", 2, "--timeout", 4)
    # Nobody takes the second one, which the system has made all the same.
    yield Fact("two silent links", Ended(2, RECORDS[0], lost(port, LONG_HANDSHAKE)), two)


def addresses() -> Cases:
    """A second address of the loopback net, names, and an address that isn't this machine's."""
    server = Server(ARCHIVE, [STA], "--address", "127.0.0.2")
    yield Fact("the address that is listened at", ["0200007F"], addresses_at(server.port))
    yield Fact("fetch from the default address", Ended(2, b"", undialled(server.port)), fetch([STA], server.port))
    yield Fact("fetch from 127.0.0.2", ALL, fetch([STA], server.port, "--address", "127.0.0.2"))
    yield Fact("serve at 127.0.0.2", FINE, server.end())
    server = Server(ARCHIVE, [STA])
    yield Fact("fetch from localhost", ALL, fetch([STA], server.port, "--address", "localhost"))
    yield Fact("serve after a client by name", FINE, server.end())
    port, reason = free_port(), "no IPv4 address of this name"
    for name, shown in (("nowhere.invalid", "nowhere.invalid"), (f"{'n' * 52}.invalid", f"{'n' * 52}.invalid"),
                        (f"{'n' * 53}.invalid", f"{'n' * 53}.inv...")):
        yield Fact(f"fetch from {name}", Ended(2, b"", undialled(port, reason, shown)),
                   fetch([STA], port, "--address", name, "--tries", 2))
    server = Server(ARCHIVE, [STA], "--address", "203.0.113.1", is_awaited=False)
    wanted = Ended(2, b"", unlistened(server.port, "address not available", "203.0.113.1"))
    yield Fact("serve at another machine's address", wanted, server.end())


def rows() -> Iterator:
    """All of them."""
    for part in (silent_servers, pieces, without_end, silent_clients, full_link, streaming, restarted, addresses):
        yield from part()
