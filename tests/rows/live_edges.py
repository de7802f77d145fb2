"""`serve --live` and its like at the edges of the system: the address that is listened at or dialled, and no other; as
many links as there are descriptors, and further ones once some have gone; and a handshake that comes in drops."""

from __future__ import annotations

import contextlib
import select
import socket
import threading
import time
from typing import Callable, Optional, Sequence, Union

from driver.feed import Ended, Fetching, Server, fetch_words
from driver.links import addresses_at, dialled, free_port, is_listened_at
from driver.live import FINE, GRANTED, PACKET, PATIENCE, REQUEST, STA, Live, held_of, numbered, recorded
from driver.rows import Cases, Fact, contents_of, holds
from driver.texts import unlistened

RECORDS = recorded(3)
ARCHIVE = b"".join(RECORDS)
FETCHED = GRANTED + b"".join(b"SL%06X" % number + record for number, record in enumerate(RECORDS)) + b"END"
FETCH = b"STATION STA XX\r\nFETCH\r\nEND\r\n"
# Two addresses of this machine, each with how the system's table has it.
ADDRESSES = [("127.0.0.1", "0100007F"), ("127.0.0.2", "0200007F")]
# An address of no machine.
NOWHERE = "203.0.113.1"


def answer(address: str, port: int, lines: bytes, most: int) -> Union[bytes, str]:
    """What somebody who dials an address is sent for these lines, or that nobody listens there."""
    with socket.socket() as link:
        link.settimeout(PATIENCE.seconds())
        try:
            link.connect((address, port))
        except ConnectionRefusedError:
            return "refused"
        link.sendall(lines)
        return PATIENCE.taken(link, most)


def end_of(run: Union[Live, Server, Fetching]) -> Ended:
    """How a command ended, in time."""
    if isinstance(run, Live):
        return run.end()
    return Ended(PATIENCE.status_of(run.process), contents_of(run.output), contents_of(run.errors))


def listened_at(name: str, start: Callable[..., Union[Live, Server]]) -> Cases:
    """A server listens at the address that is given, and at no other; by default at the first of the two."""
    for address, shown in ADDRESSES:
        [other] = {"127.0.0.1", "127.0.0.2"} - {address}
        for options in (["--address", address], *[[]] * (address == "127.0.0.1")):
            server = start(*options)
            told = " ".join([name, *options])
            yield Fact(f"{told} listens at", [shown], addresses_at(server.port))
            yield Fact(f"{told}, dialled at {other}", "refused", answer(other, server.port, FETCH, len(FETCHED)))
            yield Fact(f"{told}, dialled at {address}", FETCHED, answer(address, server.port, FETCH, len(FETCHED)))
            yield Fact(f"{told} ends", FINE, end_of(server))


def live_of_all(*options: str) -> Live:
    """A live server that has its records."""
    live = Live("--timeout", 60, *options)
    live.feed(ARCHIVE)
    address = options[options.index("--address") + 1] if "--address" in options else ADDRESSES[0][0]
    PATIENCE.until(lambda: answer(address, live.port, FETCH, len(FETCHED)) in (FETCHED, "refused"))
    return live


def server_of_all(*options: str) -> Server:
    """A server of the same records, over one connection."""
    server = Server(ARCHIVE, [STA], "--timeout", 60, *options, is_awaited=False)
    PATIENCE.until(lambda: not server.is_going() or is_listened_at(server.port))
    return server


def addresses() -> Cases:
    """Of each command that has an address."""
    yield from listened_at("serve --live", live_of_all)
    yield from listened_at("serve", server_of_all)
    live = Live("--address", NOWHERE)
    wanted = Ended(2, b"", unlistened(live.port, "address not available", NOWHERE))
    yield Fact(f"serve --live at {NOWHERE}", wanted, live.end())
    live = Live(descriptors=4)
    wanted = Ended(2, b"", unlistened(live.port, "too many open files"))
    yield Fact("serve --live with one descriptor beside those of its streams", wanted, live.end())
    for address, _ in ADDRESSES:
        yield from dialled_at(address)


def listener_at(address: str, port: int) -> socket.socket:
    """A listener at an address."""
    listener = socket.socket()
    listener.setsockopt(socket.SOL_SOCKET, socket.SO_REUSEADDR, 1)
    listener.bind((address, port))
    listener.listen()
    return listener


def dialled_at(address: str) -> Cases:
    """`fetch` dials the address that is given, where others listen at the same port of other ones."""
    port = free_port()
    with contextlib.ExitStack() as stack:
        listeners = {at: stack.enter_context(listener_at(at, port)) for at, _ in ADDRESSES}
        fetching = Fetching(fetch_words([STA], port, "--address", address, "--timeout", 5))
        ready = select.select(list(listeners.values()), [], [], PATIENCE.seconds())[0]
        yield Fact(f"fetch --address {address} dials", [address], [at for at, one in listeners.items() if one in ready])
        for listener in ready:
            link, _ = listener.accept()
            with link:
                link.sendall(FETCHED)
                PATIENCE.taken(link, len(FETCH))
                time.sleep(0.1)
        yield Fact(f"fetch --address {address}", Ended(0, ARCHIVE, b""), end_of(fetching))


# A server's descriptors: so few that fewer links stand than are allowed, and than dial.
DESCRIPTORS, DIALLING = 24, 40


def ready_of(links: Sequence[socket.socket], least: int) -> list[socket.socket]:
    """Those of these links that were sent something: once there are at least so many, and no more come for a
    while."""
    PATIENCE.until(lambda: len(select.select(links, [], [], 0)[0]) >= least)
    before: list[socket.socket] = []
    while len(ready := select.select(links, [], [], 0)[0]) > len(before):
        before = ready
        time.sleep(0.6)
    return ready


def descriptors() -> Cases:
    """Where the descriptors are used up, those links that stand are served on, at no cost, and for each that goes
    another one is taken, over and over."""
    live = Live("--clients", 64, "--timeout", 60, descriptors=DESCRIPTORS)
    waiting = [dialled(live.port) for _ in range(DIALLING)]
    for link in waiting:
        link.sendall(REQUEST % 0)
    standing = ready_of(waiting, 1)
    most = len(standing)
    yield holds("some links stand, and not all", 4 <= most <= DESCRIPTORS - 4, most)
    waiting = [link for link in waiting if link not in standing]
    yield Fact("those that stand are granted", [GRANTED] * most,
               [PATIENCE.taken(link, len(GRANTED)) for link in standing])
    fed = 0
    for turn in range(4):
        before = live.ticks()
        time.sleep(1)
        cost = live.ticks() - before
        yield holds(f"turn {turn}: those that wait cost no time", cost <= 15, cost)
        live.feed(b"".join(recorded(fed + 3)[fed:]))
        fed += 3
        came = [held_of(PATIENCE.taken(link, PACKET * 3)) for link in standing]
        yield Fact(f"turn {turn}: each that stands has the records", [numbered(recorded(fed))[-3:]] * most, came)
        yield Fact(f"turn {turn}: no other link was taken", [], select.select(waiting, [], [], 0)[0])
        leaving, standing = standing[:3], standing[3:]
        for link in leaving:
            link.close()
        taken = ready_of(waiting, 3)
        yield Fact(f"turn {turn}: as many are taken as have gone", 3, len(taken))
        streams = [PATIENCE.taken(link, len(GRANTED) + PACKET * fed) for link in taken]
        yield Fact(f"turn {turn}: these have all records", [(GRANTED, numbered(recorded(fed)))] * len(taken),
                   [(stream[: len(GRANTED)], held_of(stream[len(GRANTED) :])) for stream in streams])
        waiting, standing = [link for link in waiting if link not in taken], [*standing, *taken]
    yield holds("the server goes on", live.is_going())
    for link in [*standing, *waiting]:
        link.close()
    late = dialled(live.port)
    late.sendall(REQUEST % 0)
    yield Fact("once all have gone, who comes is served", GRANTED, PATIENCE.taken(late, len(GRANTED)))
    late.close()
    yield Fact("the server ends", FINE, live.end())


# What clients of `--timeout 4` send, a piece each so many seconds, and whether they are given up: all but the last two,
# after 4 seconds and before 20, for which a piece each would go on.
LINE = REQUEST % 0
DROPS: list[tuple[str, list[bytes], float, bool]] = [
    ("a byte of the handshake each 0.7 s", [LINE[at : at + 1] for at in range(len(LINE))], 0.7, True),
    ("a byte of an endless line each 0.5 s", [b"x"] * 40, 0.5, True),
    ("a whole line each 0.5 s, and no END", [b"HELLO\r\n"] * 40, 0.5, True),
    ("a station each 0.5 s, and no END", [b"STATION STA XX\r\nDATA 0\r\n"] * 40, 0.5, True),
    ("the handshake in four pieces within 1.2 s, and then nothing", [LINE[:9], LINE[9:20], LINE[20:], b""], 0.3, False),
    ("the handshake at once, and then a byte each 0.3 s", [LINE, *[b"\n"] * 24], 0.3, False),
]


def drop(port: int, pieces: Sequence[bytes], pause: float, seconds: float) -> tuple[Optional[float], bytes]:
    """A client that sends these pieces: after how many seconds its link was closed, if it was within so many, and what
    came over it."""
    began, came = time.monotonic(), bytearray()
    with dialled(port) as link:
        left = list(pieces)
        while (now := time.monotonic() - began) < seconds:
            if left and now >= pause * (len(pieces) - len(left)):
                with contextlib.suppress(OSError):
                    link.sendall(left.pop(0))
            link.settimeout(0.05)
            try:
                brought = link.recv(65536)
            except socket.timeout:
                continue
            except OSError:
                brought = b""
            if not brought:
                return time.monotonic() - began, bytes(came)
            came += brought
    return None, bytes(came)


def drops() -> Cases:
    """A handshake that takes longer than the time is given up, though no byte of it was waited for so long; one that is
    done in time is not, and neither is its link. All side by side."""
    live = Live("--timeout", 4)
    live.feed(ARCHIVE)
    ends: dict[str, tuple[Optional[float], bytes]] = {}

    def run(name: str, pieces: Sequence[bytes], pause: float, is_given_up: bool) -> None:
        ends[name] = drop(live.port, pieces, pause, 20 if is_given_up else 8)

    threads = [threading.Thread(target=run, args=client, daemon=True) for client in DROPS]
    for thread in threads:
        thread.start()
    for thread in threads:
        thread.join(40)
    for name, _, _, is_given_up in DROPS:
        seconds, came = ends.get(name, (None, b"no end"))
        if is_given_up:
            yield holds(f"{name}: given up in time", seconds is not None and seconds >= 4, seconds)
            yield holds(f"{name}: nothing but replies came", b"SL" not in came.replace(b"SeedLink", b""), came)
        else:
            yield Fact(f"{name}: not given up", (None, FETCHED[:-3]), (seconds, came))
    yield Fact("the server of drops ends", FINE, live.end())


def rows() -> Cases:
    """All of them."""
    for part in (addresses, descriptors, drops):
        yield from part()
