"""Schedules of two stations with their worlds, and schedules at random with those that they lead to by counts alone.

Of each place a world has the records pushed, those held, the index and the number of the first one, and the number
wanted next; then the bytes on their way to the server and to the client, where there is a link.

A world is counted: no ring, no buffer, no part of a packet. Of each place so many records were pushed, and of these
the ones from the first on are held, so many. A link has the lines sent so far, the answers sent, and three counts: the
bytes that the server accepted, those delivered to the client, and those that the client accepted.
"""

from __future__ import annotations

import random
import struct
from typing import Iterator, Optional, Union

SPAN = 1 << 24
APPEND, CONNECT, TO_SERVER, TO_CLIENT, SEND, CUT, END = 0, 1, 2, 3, 4, 5, 255


class Link:
    """A link by the lines and the answers on it: each with the count of bytes at which it is whole."""

    def __init__(self) -> None:
        self.lines: list[tuple[str, int]] = []
        self.written, self.taken, self.answered = 0, 0, 0
        self.items: list[tuple[Union[str, tuple[int, int]], int]] = []
        self.sent, self.delivered, self.received = 0, 0, 0
        self.grants: dict[int, int] = {}
        self.is_streaming, self.is_over, self.is_ended = False, False, False

    def put(self, what: Union[str, tuple[int, int]], size: int) -> None:
        """Sends a reply or a packet of so many bytes."""
        self.sent += size
        self.items.append((what, self.sent))


class World:
    """What a schedule has led to so far."""

    def __init__(self, fetches: bool, capacity: int, first: int, wanted: list[Optional[int]]):
        self.fetches, self.capacity, self.first, self.wanted = fetches, capacity, first, wanted
        self.pushed, self.held = [0] * len(wanted), [0] * len(wanted)
        self.start: list[Optional[int]] = [None] * len(wanted)
        self.link: Optional[Link] = None

    def step(self, kind: int, value: int) -> None:
        """Takes a step of a schedule."""
        if kind == APPEND:
            self.pushed[value] += 1
        elif kind == CONNECT:
            self.link = Link()
            self.send_line()
        elif kind == CUT:
            self.link = None
        elif self.link:
            {TO_SERVER: self.to_server, TO_CLIENT: self.to_client, SEND: self.send}[kind](value)

    def next(self, k: int) -> Optional[int]:
        """The number that the client wants next of a place."""
        return self.wanted[k] if self.start[k] is None else (self.start[k] + self.held[k]) % SPAN

    def end(self, k: int) -> int:
        """The number of the record that comes next."""
        return self.first + self.pushed[k]

    def oldest(self, k: int) -> int:
        """The number of the oldest record that can be had."""
        return self.end(k) - min(self.capacity, self.pushed[k])

    def send_line(self) -> None:
        """The client's next line: STATION, then DATA or FETCH, of each place, and END. It is one once its CR came."""
        k, is_number = divmod(len(self.link.lines), 2)
        if k == len(self.wanted):
            text = "END"
        elif not is_number:
            text = f"STATION S{k:02} XX"
        else:
            text = ("FETCH" if self.fetches else "DATA") + ("" if self.next(k) is None else f" {self.next(k):06X}")
        self.link.lines.append((text, self.link.written + len(text) + 1))
        self.link.written += len(text) + 2

    def to_server(self, count: int) -> None:
        """Delivers so many bytes to the server, which answers the lines that are whole then."""
        link = self.link
        link.taken = min(link.taken + count, link.written)
        while link.answered < len(link.lines) and link.lines[link.answered][1] <= link.taken:
            k, words = link.answered // 2, link.lines[link.answered][0].split()
            link.answered += 1
            if words[0] == "END":
                link.is_streaming = True
            elif words[0] == "STATION":
                link.put("ok", 4)
            else:
                self.grant(k, words[1:])

    def grant(self, k: int, number: list[str]) -> None:
        """Answers a `DATA` or `FETCH` of a place."""
        oldest, end = self.oldest(k), self.end(k)
        found = [oldest if self.fetches else end]
        if number:
            found = [n for n in range(oldest, end + 1) if n % SPAN == int(number[0], 16)]
        if found:
            self.link.grants[k] = found[0]
            self.link.put("ok", 4)
        else:
            self.link.put("error", 7)

    def send(self, k: int) -> None:
        """Sends the next packet of a place, if there is one."""
        link = self.link
        if not link.is_streaming or link.is_over or k not in link.grants:
            return
        number = link.grants[k]
        if number < self.oldest(k):
            link.is_over = True
        elif number < self.end(k):
            link.grants[k] += 1
            link.put((k, number), 520)
        elif self.fetches and all(n == self.end(j) for j, n in link.grants.items()):
            link.is_over = True
            link.put("end", 3)

    def to_client(self, count: int) -> None:
        """Delivers so many bytes to the client, which takes the replies and packets that are whole then."""
        link = self.link
        link.delivered = min(link.delivered + count, link.sent)
        while not link.is_ended and link.received < len(link.items) and link.items[link.received][1] <= link.delivered:
            what = link.items[link.received][0]
            link.received += 1
            if what == "ok":
                self.send_line()
            elif what in ("error", "end"):
                link.is_ended = True
            else:
                k, number = what
                self.start[k] = number if self.start[k] is None else self.start[k]
                self.held[k] += 1

    def text(self) -> str:
        """The world, as sources/schedules.source prints it."""
        def or_none(number: Optional[int]) -> int:
            return -1 if number is None else number

        places = ""
        for k, start in enumerate(self.start):
            low = 0 if start is None else start - self.first
            places += f"{self.pushed[k]} {self.held[k]} {low} {or_none(start)} {or_none(self.next(k))} true;"
        link = self.link
        return places + (f" {link.written - link.taken} {link.sent - link.delivered}\n" if link else " none\n")


def schedule(source: random.Random) -> tuple[bytes, str]:
    """A schedule's bytes, and the text of its world."""
    count, fetches = source.choice([1, 1, 1, 2, 3, 16]), source.randrange(2)
    capacity, first = source.choice([1, 2, 3, 8, 100, 1000]), source.choice([0, 0, 5, SPAN - 1, SPAN - 3])
    wanted = [source.choice([None, None, None, None, first, first, (first + 1) % SPAN, first]) for _ in range(count)]
    if source.randrange(8) == 0:
        wanted[source.randrange(count)] = source.randrange(SPAN)
    world, steps = World(fetches, capacity, first, wanted), []

    def add(kind: int, value: int = 0) -> None:
        steps.append((kind, value))
        world.step(kind, value)

    for _ in range(source.randrange(200)):
        kind = source.randrange(16)
        if kind < 4 or kind == 15:
            add(APPEND, source.randrange(count))
        elif kind == 4:
            add(CONNECT)
            for _ in range(source.choice([source.randrange(2 * count + 1), 2 * count + 1, 2 * count + 1])):
                add(TO_SERVER, 64)
                add(TO_CLIENT, 64)
        elif kind == 5:
            add(TO_SERVER, source.choice([0, 1, 2, 5, 14, 64]))
        elif kind < 9:
            add(TO_CLIENT, source.choice([0, 1, 3, 4, 8, 64, 519, 520, 521, 1040, 5000, 5000]))
        elif kind < 14:
            add(SEND, source.randrange(count))
        elif source.randrange(3) == 0:
            add(CUT)
    return bytes_of(fetches, capacity, first, wanted, steps), world.text()


def bytes_of(fetches: bool, capacity: int, first: int, wanted: list[Optional[int]],
             steps: list[tuple[int, int]]) -> bytes:
    """A schedule as sources/schedules.source reads it."""
    head = struct.pack(">BBII", len(wanted), fetches, capacity, first)
    head += b"".join(struct.pack(">BI", number is not None, number or 0) for number in wanted)
    return head + b"".join(struct.pack(">BI", *step) for step in steps) + bytes([END])


# A client of two stations, which is cut off one byte before the end of the second one's record, and comes again: the
# steps, what is pushed and held of either then, and the bytes on their way. It wants no number before it has a record.
NOTHING_HELD = "2 0 0 -1 -1 true;1 0 0 -1 -1 true;"
FIRST_HELD = "2 1 0 0 1 true;1 0 0 -1 -1 true;"
ALL_HELD = "2 2 0 0 2 true;1 1 0 0 1 true;"
THERE_AND_BACK = [(TO_SERVER, 64), (TO_CLIENT, 64)]
TWO_STATIONS = [
    ([(APPEND, 0), (APPEND, 1), (APPEND, 0), (CONNECT, 0)], NOTHING_HELD, len("STATION S00 XX..")),
    (THERE_AND_BACK, NOTHING_HELD, len("FETCH..")),
    (THERE_AND_BACK, NOTHING_HELD, len("STATION S01 XX..")),
    (THERE_AND_BACK, NOTHING_HELD, len("FETCH..")),
    (THERE_AND_BACK, NOTHING_HELD, len("END..")),
    ([(TO_SERVER, 64), (SEND, 0), (SEND, 1), (TO_CLIENT, 520), (TO_CLIENT, 519), (CUT, 0)], FIRST_HELD, None),
    ([(CONNECT, 0)], FIRST_HELD, len("STATION S00 XX..")),
    (THERE_AND_BACK, FIRST_HELD, len("FETCH 000001..")),
    (THERE_AND_BACK, FIRST_HELD, len("STATION S01 XX..")),
    (THERE_AND_BACK, FIRST_HELD, len("FETCH..")),
    (THERE_AND_BACK, FIRST_HELD, len("END..")),
    ([(TO_SERVER, 64), (SEND, 0), (SEND, 1), (TO_CLIENT, 1040)], ALL_HELD, 0),
]


def two_stations() -> Iterator[tuple[bytes, str]]:
    """The rows up to each of them, each as a schedule with its world."""
    steps: list[tuple[int, int]] = []
    for more, held, outcome in TWO_STATIONS:
        steps = steps + more
        yield bytes_of(True, 8, 0, [None, None], steps), held + (" none\n" if outcome is None else f" {outcome} 0\n")
