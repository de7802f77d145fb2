"""Links of this machine: TCP on 127.0.0.1, as the system's own tables have it."""

from __future__ import annotations

import socket
import struct
from pathlib import Path
from typing import Iterator

from driver.program import LIMIT

HOST = "127.0.0.1"
# States of a socket, as /proc/net/tcp has them.
LISTENING, OPEN = "0A", "01"
# The sockets that hold a port.
HOLDERS: list[socket.socket] = []


def listening(port: int = 0) -> socket.socket:
    """A listener, at a free port where none is named."""
    listener = socket.socket()
    listener.setsockopt(socket.SOL_SOCKET, socket.SO_REUSEADDR, 1)
    listener.bind((HOST, port))
    listener.listen(64)
    listener.settimeout(LIMIT)
    return listener


def port_of(listener: socket.socket) -> int:
    """The port of a socket's near end."""
    return listener.getsockname()[1]


def free_port() -> int:
    """A port at which nobody listens until a server of ours does. It is held as long as this process runs: no other is
    given it, and it is the near end of no link. Who dials a port over and over while nobody listens there would else
    be connected to itself once."""
    holder = socket.socket()
    holder.bind((HOST, 0))
    # Bound first and shared then: so nobody shared it before.
    holder.setsockopt(socket.SOL_SOCKET, socket.SO_REUSEADDR, 1)
    HOLDERS.append(holder)
    return port_of(holder)


def sockets(*tables: str) -> Iterator[tuple[str, str, str]]:
    """The sockets of this machine: the near and the far end, as `0100007F:4650`, and the state."""
    for table in tables or ("tcp",):
        path = Path("/proc/net") / table
        for line in path.read_text(encoding="ascii").splitlines()[1:] if path.exists() else []:
            _, near, far, state, *_ = line.split()
            yield near, far, state


def is_listened_at(port: int) -> bool:
    """Whether somebody listens there; nobody is dialled for it."""
    return any(near.endswith(f":{port:04X}") and state == LISTENING for near, _, state in sockets())


def addresses_at(port: int) -> list[str]:
    """The addresses that are listened at, at a port: `127.0.0.1` is `0100007F`."""
    found = [near.split(":") for near, _, state in sockets("tcp", "tcp6") if state == LISTENING]
    return [address for address, at in found if at == f"{port:04X}"]


def dialled(port: int) -> socket.socket:
    """A link to a port."""
    link = socket.create_connection((HOST, port), timeout=LIMIT)
    link.setsockopt(socket.IPPROTO_TCP, socket.TCP_NODELAY, 1)
    return link


def received(link: socket.socket, size: int) -> bytes:
    """What a link brings, at most so many bytes, and none at its end. One whose other side closed it with a byte unread
    is reset, and the last of what that side sent may be lost: an end as well."""
    try:
        return link.recv(size)
    except ConnectionError:
        return b""


def received_up_to(link: socket.socket, size: int) -> bytes:
    """So many bytes, or fewer where the link ends."""
    brought = b""
    while len(brought) < size and (more := received(link, size - len(brought))):
        brought += more
    return brought


def send(link: socket.socket, stream: bytes) -> None:
    """Sends something over a link. Where the other side has closed it, its end is received next."""
    try:
        link.sendall(stream)
    except ConnectionError:
        pass


def reset(link: socket.socket) -> None:
    """Closes a link in such a way that the other side's next call fails."""
    link.setsockopt(socket.SOL_SOCKET, socket.SO_LINGER, struct.pack("ii", 1, 0))
    link.close()
