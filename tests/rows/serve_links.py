"""How a server answers and closes a link: the transcript of a session, sent whole, in single bytes and line by line;
that what was sent comes through, whatever the client still sends; and that no client holds the server for ever.

The system resets a link that is closed while a byte of it is unread, or to which one comes later, and then drops what
the client hasn't received.
"""

from __future__ import annotations

import socket
import time
from typing import Callable, Optional

from driver.feed import Server
from driver.links import HOST, OPEN, dialled, received_up_to, send, sockets
from driver.program import LIMIT
from driver.rows import Cases, Fact, holds
from driver.texts import keeps
from models.seedlink import TRANSCRIPT, Place, record_of

STA = Place("XX_STA")
ENDED = (0, b"", b"")
RECORDS = [record_of(STA, index) for index in range(40)]
PACKETS = b"".join(b"SL%06X" % number + record for number, record in enumerate(RECORDS))
STATION = b"STATION STA XX\r\n"
REQUEST = STATION + b"FETCH\r\nEND\r\n"
GRANTED = b"OK\r\nOK\r\n"
FETCHED = GRANTED + PACKETS + b"END"

LINES = [line.encode() + b"\r\n" for line, _ in TRANSCRIPT]
REPLIES = [reply for _, reply in TRANSCRIPT]


def transcript(name: str, talk: Callable[[socket.socket], Cases]) -> Cases:
    """A server that keeps two of three records answers a client byte for byte, and ends. One that drops its links
    unread, or answers them late, is caught here."""
    server = Server(b"".join(RECORDS[:3]), [STA], "--capacity", 2, "--connections", 1)
    with dialled(server.port) as link:
        yield from talk(link)
        packets = received_up_to(link, 65536)
    wanted = b"SL000001" + RECORDS[1] + b"SL000002" + RECORDS[2] + b"END"
    yield Fact(f"the packets of a transcript {name}", wanted, packets)
    yield Fact(f"serve after a transcript {name}", (0, b"", keeps("XX_STA", 2, 3)), server.end())


def replies(link: socket.socket, name: object, wanted: bytes) -> Fact:
    """What a link brings in reply."""
    return Fact(f"the replies to {name}", wanted, received_up_to(link, len(wanted)))


def sent_whole(link: socket.socket) -> Cases:
    """All lines at once."""
    send(link, b"".join(LINES))
    yield replies(link, "a transcript sent whole", b"".join(REPLIES))


def sent_in_bytes(link: socket.socket) -> Cases:
    """Byte by byte."""
    for byte in b"".join(LINES):
        send(link, bytes([byte]))
    yield replies(link, "a transcript sent in single bytes", b"".join(REPLIES))


def sent_in_lines(link: socket.socket) -> Cases:
    """Line by line, each after the reply to the one before it."""
    for line, reply in zip(LINES, REPLIES):
        send(link, line)
        yield replies(link, line, reply)


def linked(port: int) -> socket.socket:
    """A link that holds little of what the server sends, as long as it isn't read."""
    link = socket.socket()
    link.setsockopt(socket.SOL_SOCKET, socket.SO_RCVBUF, 2048)
    link.setsockopt(socket.IPPROTO_TCP, socket.TCP_NODELAY, 1)
    link.settimeout(LIMIT)
    link.connect((HOST, port))
    return link


def is_open(server: Server, link: socket.socket) -> bool:
    """Whether the server's end of a link is open on both sides."""
    ends = f":{server.port:04X}", f":{link.getsockname()[1]:04X}"
    return [state for near, far, state in sockets() if (near[8:], far[8:]) == ends] == [OPEN]


def await_close(server: Server, link: socket.socket) -> None:
    """Waits until the server has closed its side of a link."""
    end = time.monotonic() + LIMIT
    while is_open(server, link) and time.monotonic() < end:
        time.sleep(0.003)


def rest_of(link: socket.socket) -> tuple[bytes, bool]:
    """What a link still brings, and whether it ended by being reset."""
    brought = b""
    try:
        while more := link.recv(1 << 20):
            brought += more
    except ConnectionError:
        return brought, True
    return brought, False


def served(*options: object) -> Server:
    """A server of all records."""
    return Server(b"".join(RECORDS), [STA], "--capacity", len(RECORDS), *options)


def last_byte(lines: bytes, answer: bytes, last: bytes, wanted: bytes) -> Cases:
    """A client that sends lines and receives an answer, sends a last line, and its LF once the server has closed its
    side. Only then it reads the rest."""
    name = f"the LF of {last!r}"
    server = served()
    with linked(server.port) as link:
        link.sendall(lines)
        answered = received_up_to(link, len(answer))
        link.sendall(last + b"\r")
        await_close(server, link)
        link.sendall(b"\n")
        rest, is_reset = rest_of(link)
    yield holds(f"what was sent before {name}", answered + rest == wanted, (len(answered), len(rest), len(wanted)))
    yield holds(f"the link's end after {name}", not is_reset)
    yield Fact(f"serve after {name}", ENDED, server.end())


def unread() -> Cases:
    """A client that sends more than the server reads, in one write with its last line."""
    server = served()
    with linked(server.port) as link:
        link.sendall(REQUEST + STATION * 3000)
        await_close(server, link)
        rest, is_reset = rest_of(link)
    yield holds("what was sent to a client that sends more", rest == FETCHED, (len(rest), len(FETCHED)))
    yield holds("the end of a link that brings more", not is_reset)
    yield Fact("serve after a client that sends more", ENDED, server.end())


def held(name: str, pause: Optional[float]) -> Cases:
    """A client that doesn't close its link, and sends a byte after each pause, if any. The next one is served."""
    server = served("--connections", 2)
    with linked(server.port) as first, linked(server.port) as link:
        first.sendall(REQUEST)
        link.sendall(REQUEST)
        link.setblocking(False)
        brought, end = b"", time.monotonic() + LIMIT
        while len(brought) < len(FETCHED) and time.monotonic() < end:
            try:
                if pause is not None:
                    first.sendall(b"\n")
                time.sleep(pause or 0.01)
                brought += link.recv(65536)
            except BlockingIOError:
                pass
            except ConnectionError:
                pause = None
    yield holds(f"a client after one that {name}", brought == FETCHED, len(brought))
    yield Fact(f"serve after a client that {name}", ENDED, server.end())


def rows() -> Cases:
    """All of them."""
    yield from transcript("sent whole", sent_whole)
    yield from transcript("sent in single bytes", sent_in_bytes)
    yield from transcript("sent line by line", sent_in_lines)
    yield from last_byte(STATION + b"FETCH\r\n", GRANTED, b"END", FETCHED)
    yield from last_byte(STATION + b"DATA 0\r\nEND\r\n", GRANTED + b"S", b"BYE", GRANTED + PACKETS)
    yield from unread()
    yield from held("doesn't close its link", None)
    yield from held("goes on sending single bytes", 0.01)
