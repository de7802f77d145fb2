"""Waits with a bound of their own: what comes at once where all is well is waited for some seconds, and where something
hasn't come, everything after it for less, and in the end hardly at all, so that a server that fails is found soon."""

from __future__ import annotations

import contextlib
import socket
import subprocess
import threading
import time
from typing import Callable, Iterable, Optional, Sequence

from driver.rows import NO_END, status_of

# The seconds that are waited, and those once something hasn't come; and once that is so long ago. A client that is cut
# off and goes on many times has more.
SECONDS, LESS, LEAST, MORE = 20.0, 0.5, 0.02, 60.0
LONG_AGO = 15.0


class Patience:
    """How long is waited."""

    def __init__(self) -> None:
        self.lost: Optional[float] = None

    def lose(self, is_so: bool = True) -> None:
        """Notes that something hasn't come, if that is so."""
        if is_so and self.lost is None:
            self.lost = time.monotonic()

    def seconds(self, most: float = SECONDS) -> float:
        """So long now, and no longer than this."""
        if self.lost is None:
            return most
        return min(most, LESS if time.monotonic() - self.lost < LONG_AGO else LEAST)

    def until(self, holds_now: Callable[[], object], most: float = SECONDS) -> bool:
        """Waits until something holds, and answers whether it did in time."""
        end = time.monotonic() + self.seconds(most)
        while not holds_now():
            if time.monotonic() > end:
                self.lose()
                return False
            time.sleep(0.003)
        return True

    def joined(self, threads: Iterable[threading.Thread], most: float = SECONDS) -> None:
        """Waits until these threads have ended, all of them within this time."""
        end = time.monotonic() + self.seconds(most)
        for thread in threads:
            thread.join(max(0, end - time.monotonic()))
            self.lose(thread.is_alive())

    def status_of(self, process: subprocess.Popen) -> int:
        """The status of a process that ends by itself."""
        status = status_of(process, self.seconds())
        self.lose(status == NO_END)
        return status

    def brought_by(self, link: socket.socket, most: int) -> bytes:
        """What a link brings next, at most so many bytes, and none at its end, however it ends."""
        with contextlib.suppress(OSError):
            link.settimeout(self.seconds())
            try:
                return link.recv(min(most, 1 << 18))
            except socket.timeout:
                self.lose()
        return b""

    def taken(self, link: socket.socket, most: int) -> bytes:
        """What a link brings, up to so many bytes, or to its end. However slowly it brings them, that has a bound."""
        came, end = bytearray(), time.monotonic() + self.seconds(MORE)
        while len(came) < most and (brought := self.brought_by(link, most - len(came))):
            came += brought
            if time.monotonic() > end:
                self.lose()
                break
        return bytes(came)

    def closed(self, links: Sequence[socket.socket]) -> int:
        """How many of these links the other side closes before it has sent anything more, all of them within a time."""
        self.until(lambda: all(map(is_at_end, links)))
        return sum(map(is_at_end, links))


def is_at_end(link: socket.socket) -> bool:
    """Whether the other side has closed a link, and nothing that it sent is left."""
    link.settimeout(0)
    try:
        return link.recv(1, socket.MSG_PEEK) == b""
    except BlockingIOError:
        return False
    except OSError:
        return True
