"""A server that numbers the records of all its stations together, as the most widely used one does. Written from
docs/protocol.md, over models/seedlink.py: but for the numbers it is a server like ours."""

from __future__ import annotations

import contextlib
import socket
import threading
from typing import Optional, Sequence

from driver.links import listening, port_of, received, send
from driver.program import LIMIT
from models.seedlink import SPAN, Place, command_of


class Numbered:
    """Records of several stations, numbered together from `first` on."""

    def __init__(self, places: Sequence[Place], first: int, records: Sequence[bytes]):
        self.places, self.first, self.records = places, first, records

    def packets(self, requested: Sequence[tuple[Place, Optional[int]]]) -> bytes:
        """The packets of the stations that were requested, each from a number on, in the order of the numbers."""
        sent = b""
        for index, record in enumerate(self.records):
            number = self.first + index
            for place, start in requested:
                after = 0 if start is None else (start - self.first) % SPAN
                if place.bears(record) and index >= after:
                    sent += b"SL%06X" % (number % SPAN) + record
        return sent


def serve_link(link: socket.socket, feed: Numbered) -> None:
    """Answers each line with OK, and END with all that was requested."""
    requested: list[tuple[Place, Optional[int]]] = []
    kept = b""
    while brought := received(link, 512):
        kept += brought
        while b"\r\n" in kept:
            line, kept = kept.split(b"\r\n", 1)
            name, words = command_of(line)
            if name == "END":
                send(link, feed.packets(requested) + b"END")
                link.shutdown(socket.SHUT_WR)
                return
            if name == "STATION":
                [chosen] = [place for place in feed.places if (place.sta, place.net) == words]
            if name == "FETCH":
                requested.append((chosen, int(words[0], 16) if words[0] else None))
            send(link, b"OK\r\n")


class CommonServer:
    """Serves one connection after another, each to its end."""

    def __init__(self, feed: Numbered):
        self.feed, self.listener = feed, listening()
        self.port = port_of(self.listener)
        threading.Thread(target=self.run, daemon=True).start()

    def run(self) -> None:
        """Serves the clients."""
        while True:
            try:
                link, _ = self.listener.accept()
            except OSError:
                return
            link.settimeout(LIMIT)
            with link, contextlib.suppress(OSError):
                serve_link(link, self.feed)
                while received(link, 512):
                    pass

    def close(self) -> None:
        """Listens no more."""
        self.listener.shutdown(socket.SHUT_RDWR)
        self.listener.close()
