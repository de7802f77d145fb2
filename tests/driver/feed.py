"""The program's `serve` and `fetch` as processes of their own, each with an end to its time, and a proxy that cuts the
links between them."""

from __future__ import annotations

import atexit
import select
import signal
import socket
import subprocess
import tempfile
import threading
import time
from typing import Callable, Iterable, Mapping, NamedTuple, Optional, Protocol, Sequence

from driver.links import dialled, free_port, is_listened_at, listening, port_of, reset
from driver.program import LIMIT
from driver.rows import contents_of, started, status_of

# The processes that were started. They are over when this one is, however it ends.
STARTED: list[subprocess.Popen] = []

Env = Optional[Mapping[str, str]]


class Station(Protocol):
    """A station of a network: its text, as `XX_STA`, and its two codes."""

    text: str
    net: bytes
    sta: bytes


class Ended(NamedTuple):
    """How a process ended: its status, its output and its standard error."""

    status: int
    out: bytes
    err: bytes


def kept(process: subprocess.Popen) -> subprocess.Popen:
    """A process that is over when this one is."""
    STARTED.append(process)
    return process


@atexit.register
def end_all() -> None:
    """Ends what was started."""
    for process in STARTED:
        process.kill()
        process.wait()


def words_of(places: Sequence[Station], options: Iterable[object] = (),
             wants: Sequence[Optional[int]] = ()) -> list[str]:
    """The command's arguments for some places, the first by its options, and the numbers wanted first of them."""
    wants = [*wants, *[None] * (len(places) - len(wants))]
    words = ["--station", places[0].sta.decode(), "--network", places[0].net.decode()]
    words += [] if wants[0] is None else ["--from", f"{wants[0]:X}"]
    others = [place.text + ("" if want is None else f":{want:06x}") for place, want in zip(places[1:], wants[1:])]
    return words + [str(word) for word in options] + others


class Server:
    """`mseed serve` over an archive, once it listens or has ended. Its arguments are made of the places and the
    options, where no others are given."""

    def __init__(self, archive: bytes, places: Sequence[Station] = (), *options: object, port: Optional[int] = None,
                 words: Optional[Sequence[str]] = None, env: Env = None, closed: Sequence[int] = (),
                 is_awaited: bool = True):
        self.port = port or free_port()
        words = words or ["serve", "--port", str(self.port)] + words_of(places, options)
        self.output, self.errors = tempfile.TemporaryFile(), tempfile.TemporaryFile()
        with tempfile.TemporaryFile() as input:
            input.write(archive)
            input.seek(0)
            self.process = kept(started(words, env, closed, stdin=input, stdout=self.output, stderr=self.errors))
        end = time.monotonic() + LIMIT * is_awaited
        while self.is_going() and not is_listened_at(self.port) and time.monotonic() < end:
            time.sleep(0.003)

    def is_going(self) -> bool:
        """Whether it hasn't ended."""
        return self.process.poll() is None

    def end(self) -> Ended:
        """How it ended, once it has by itself."""
        return Ended(status_of(self.process), contents_of(self.output), contents_of(self.errors))

    def kill(self) -> None:
        """Ends it at once."""
        self.process.kill()
        self.process.wait()


class Fetching:
    """`mseed fetch`, by its arguments, which runs on its own."""

    def __init__(self, words: Sequence[str], env: Env = None, closed: Sequence[int] = ()):
        self.output, self.errors = tempfile.TemporaryFile(), tempfile.TemporaryFile()
        self.process = kept(started(words, env, closed, stdin=subprocess.DEVNULL, stdout=self.output,
                                    stderr=self.errors))

    def halt(self) -> None:
        """Lets it stand still."""
        self.process.send_signal(signal.SIGSTOP)

    def go_on(self) -> None:
        """Lets it run again."""
        self.process.send_signal(signal.SIGCONT)

    def end(self) -> Ended:
        """How it ended, once it has by itself."""
        return Ended(status_of(self.process), contents_of(self.output), contents_of(self.errors))


def fetch_words(places: Sequence[Station], port: int, *options: object,
                wants: Sequence[Optional[int]] = ()) -> list[str]:
    """The words of a `fetch`."""
    return ["fetch", "--port", str(port)] + words_of(places, options, wants)


def fetch(places: Sequence[Station], port: int, *options: object, wants: Sequence[Optional[int]] = (),
          env: Env = None) -> Ended:
    """How a `fetch` of these places ended."""
    return Fetching(fetch_words(places, port, *options, wants=wants), env).end()


class Cut(NamedTuple):
    """Where a link is cut: after how many bytes to the server and to the client, each None for never; and whether it
    is reset."""

    to_server: Optional[int] = None
    to_client: Optional[int] = None
    is_reset: bool = False


def carry(near: socket.socket, far: socket.socket, cut: Cut) -> bool:
    """Carries bytes between a client's link and a server's until one of them ends, or is cut. Whether it was cut."""
    others, left = {near: far, far: near}, {near: cut.to_server, far: cut.to_client}
    while 0 not in left.values():
        for link in select.select([near, far], [], [], LIMIT)[0]:
            room = left[link]
            brought = link.recv(65536 if room is None else min(65536, room))
            if not brought:
                return False
            others[link].sendall(brought)
            if room is not None:
                left[link] = room - len(brought)
                if left[link] == 0:
                    return True
    return True


class Proxy:
    """Takes connection after connection, carries each to the port that `upstream()` gives, and cuts it by the next of
    `cuts`. After the last of them nothing is cut. `carried` is how many connections there were."""

    def __init__(self, upstream: Callable[[], int], cuts: Iterable[Cut]):
        self.upstream, self.cuts, self.carried = upstream, iter(cuts), 0
        self.listener = listening()
        self.listener.settimeout(None)
        self.port = port_of(self.listener)
        threading.Thread(target=self.run, daemon=True).start()

    def run(self) -> None:
        """Carries one connection after another."""
        while True:
            try:
                near, _ = self.listener.accept()
            except OSError:
                return
            cut = next(self.cuts, Cut())
            self.carried += 1
            try:
                with near, dialled(self.upstream()) as far:
                    if carry(near, far, cut) and cut.is_reset:
                        reset(near)
                        reset(far)
            except OSError:
                pass

    def close(self) -> None:
        """Takes no more connections."""
        self.listener.shutdown(socket.SHUT_RDWR)
        self.listener.close()
