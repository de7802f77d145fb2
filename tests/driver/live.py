"""`serve --live` as a process that is fed while it runs, and its clients' links."""

from __future__ import annotations

import contextlib
import os
import resource
import select
import socket
import subprocess
import tempfile
from pathlib import Path
from typing import NamedTuple, Optional, Sequence

from driver.feed import Ended, Env, kept, words_of
from driver.links import HOST, OPEN, free_port, is_listened_at, sockets
from driver.patience import Patience
from driver.rows import contents_of, started
from models.seedlink import Place, record_of

STA = Place("XX_STA")
REQUEST = b"STATION STA XX\r\nDATA %06X\r\nEND\r\n"
GRANTED = b"OK\r\nOK\r\n"
PACKET = 520
FINE = Ended(0, b"", b"")
PATIENCE = Patience()


class Held(NamedTuple):
    """A record that a client holds, under the number that the server gave it."""

    number: int
    bytes: bytes


def recorded(count: int, places: Sequence[Place] = (STA,)) -> list[bytes]:
    """So many records, of one place after another."""
    return [record_of(places[index % len(places)], index) for index in range(count)]


def numbered(records: Sequence[bytes]) -> list[Held]:
    """The records as a client has to hold them."""
    return [Held(number, record) for number, record in enumerate(records)]


def held_of(stream: bytes) -> list[Held]:
    """The records of the whole packets of a stream."""
    packets = [stream[at : at + PACKET] for at in range(0, len(stream) - PACKET + 1, PACKET)]
    return [Held(int(packet[2:8], 16), packet[8:]) for packet in packets]


class Live:
    """`mseed serve --live` over an input that is fed while it runs, once it listens or has ended. It may have no more
    than so many descriptors, where a number is given."""

    def __init__(self, *options: object, places: Sequence[Place] = (STA,), port: Optional[int] = None,
                 stdin: int = subprocess.PIPE, env: Env = None, closed: Sequence[int] = (),
                 descriptors: Optional[int] = None):
        self.port = port or free_port()
        self.errors = tempfile.TemporaryFile()
        words = ["serve", "--live", "--port", str(self.port), *words_of(places, options)]
        limits = {} if descriptors is None else {"preexec_fn": lambda: bound_descriptors(descriptors)}
        self.process = kept(started(words, env, closed, stdin=stdin, stdout=subprocess.DEVNULL, stderr=self.errors,
                                    **limits))
        # Whether it left bytes of its input unread for too long.
        self.is_full = False
        PATIENCE.until(lambda: not self.is_going() or is_listened_at(self.port))

    def is_going(self) -> bool:
        """Whether it hasn't ended."""
        return self.process.poll() is None

    def feed(self, piece: bytes) -> None:
        """Gives it bytes at once, as far as it reads them. Where it once didn't, no more is waited for."""
        pipe = self.process.stdin.fileno()
        os.set_blocking(pipe, False)
        with contextlib.suppress(BrokenPipeError):
            while piece and select.select([], [pipe], [], 0 if self.is_full else PATIENCE.seconds())[1]:
                piece = piece[os.write(pipe, piece):]
        self.is_full = self.is_full or bool(piece) and self.is_going()
        PATIENCE.lose(self.is_full)

    def reported(self) -> bytes:
        """What it wrote so far."""
        return contents_of(self.errors)

    def end_input(self) -> None:
        """Ends its input."""
        with contextlib.suppress(BrokenPipeError):
            self.process.stdin.close()

    def end(self) -> Ended:
        """How it ended, once its input has."""
        self.end_input()
        return Ended(PATIENCE.status_of(self.process), b"", self.reported())

    def kill(self) -> None:
        """Ends it at once."""
        self.process.kill()
        self.process.wait()

    def ticks(self) -> int:
        """The processor time that it needed so far, in hundredths of a second."""
        fields = Path(f"/proc/{self.process.pid}/stat").read_text(encoding="ascii").split()
        return int(fields[13]) + int(fields[14])

    def links(self) -> int:
        """How many links stand, on the server's side."""
        return sum(near.endswith(f":{self.port:04X}") and state == OPEN for near, _, state in sockets())


def bound_descriptors(most: int) -> None:
    """This process has no more than so many descriptors."""
    resource.setrlimit(resource.RLIMIT_NOFILE, (most, most))


def granted(port: int, number: int, room: Optional[int] = None) -> socket.socket:
    """A link that is sent the records from a number on, or one that is closed where that is refused or nobody listens.
    Where a room is named, the system keeps about so many bytes of it that aren't read."""
    link = socket.socket()
    link.settimeout(PATIENCE.seconds())
    if room is not None:
        link.setsockopt(socket.SOL_SOCKET, socket.SO_RCVBUF, room)
    with contextlib.suppress(OSError):
        link.connect((HOST, port))
        link.sendall(REQUEST % number)
        if PATIENCE.taken(link, len(GRANTED)) == GRANTED:
            return link
    link.close()
    return link


def is_open(link: socket.socket) -> bool:
    """Whether this side hasn't closed a link."""
    return link.fileno() >= 0
