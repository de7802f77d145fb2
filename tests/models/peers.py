"""The server and the client of models/seedlink.py over links, and a server that sends what it is given."""

from __future__ import annotations

import contextlib
import socket
import threading
from typing import Sequence

from driver.links import dialled, listening, port_of, received, send
from driver.program import LIMIT
from models.seedlink import REPLIES, Client, Ring, Session


def serve_link(link: socket.socket, feed: list[Ring]) -> None:
    """Serves one connection to its end. What the client sends after that is read too, so that the link isn't reset."""
    session = Session(feed)
    while brought := link.recv(512):
        link.sendall(b"".join(REPLIES[name] for name in session.take(brought)))
        link.sendall(session.sends())
        if session.phase == "closed":
            link.shutdown(socket.SHUT_WR)


def serve_in_turn(listener: socket.socket, feeds: Sequence[list[Ring]]) -> None:
    """Serves a connection from each feed, one after the other, as long as somebody dials."""
    for feed in feeds:
        try:
            link, _ = listener.accept()
        except OSError:
            return
        link.settimeout(LIMIT)
        with link, contextlib.suppress(OSError):
            serve_link(link, feed)


def serving(feeds: Sequence[list[Ring]]) -> int:
    """The port of a server of its own thread, which serves a connection from each feed."""
    listener = listening()
    threading.Thread(target=serve_in_turn, args=(listener, feeds), daemon=True).start()
    return port_of(listener)


def fetch_link(client: Client, port: int) -> list[tuple]:
    """The events of one connection. The last is an ending, or ("Closed",)."""
    events: list[tuple] = []
    with dialled(port) as link:
        send(link, client.connect())
        while client.ending is None:
            brought = received(link, 1024)
            if not brought:
                return events + [("Closed",)]
            fresh = client.take(brought)
            events += fresh
            for event in fresh:
                if event[0] == "Say":
                    send(link, event[1])
    return events


def exchanged(link: socket.socket, pieces: Sequence[bytes]) -> tuple[bytes, bool]:
    """What comes of sending these pieces, up to the end; and whether the other side closed the link with a byte unread.
    The system resets it then, and may lose the last of what that side sent."""
    brought, is_reset = b"", False
    try:
        for piece in pieces:
            link.sendall(piece)
        link.shutdown(socket.SHUT_WR)
    except OSError:
        is_reset = True
    try:
        while more := link.recv(65536):
            brought += more
    except ConnectionError:
        is_reset = True
    return brought, is_reset


class Speaker:
    """A server that sends a stream to each client, one after the other, and keeps what it receives from each."""

    def __init__(self, streams: Sequence[Sequence[bytes]]):
        self.streams, self.listener = streams, listening()
        self.received: list[tuple[bytes, bool]] = []
        self.port = port_of(self.listener)
        self.thread = threading.Thread(target=self.run, daemon=True)
        self.thread.start()

    def run(self) -> None:
        """Serves the clients."""
        for pieces in self.streams:
            try:
                link, _ = self.listener.accept()
            except OSError:
                return
            link.settimeout(LIMIT)
            with link:
                self.received.append(exchanged(link, pieces))

    def close(self) -> None:
        """Listens no more, and waits for the link that is served."""
        with contextlib.suppress(OSError):
            self.listener.shutdown(socket.SHUT_RDWR)
        self.listener.close()
        self.thread.join(LIMIT)
