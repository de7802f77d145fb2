"""SeedLink 3 as docs/protocol.md has it, written from its tables: rings, a server's session and a client, over bytes.
Links for the two are in models/peers.py.
"""

from __future__ import annotations

import re
from typing import Optional, Sequence, Union

from driver.records import record

SPAN = 2**24
HELLO = b"SeedLink v3.0 (mseed)\r\nmseed feed\r\n"
REPLIES = {"Hello": HELLO, "Ok": b"OK\r\n", "Error": b"ERROR\r\n", "-": b""}

# What a session answers, `-` for nothing, and its new phase where one stands.
SESSION = """
           HELLO  STATION    no STATION  SELECT  GRANT       no GRANT  END          BYE       OTHER
fresh      Hello  Ok/chosen  Error       Error   Error       Error     Error        -/closed  Error
chosen     Hello  Ok/chosen  Error       Ok      Ok/granted  Error     Error        -/closed  Error
granted    Hello  Ok/chosen  Error       Ok      Ok/granted  Error     -/streaming  -/closed  Error
streaming  -      -          -           -       -           -         -            -/closed  -
closed     -      -          -           -       -           -         -            -         -
"""


def table_of(text: str) -> dict[str, dict[str, str]]:
    """The rows of a table, each as a dictionary by column. Columns are two spaces apart or more."""
    head, *rows = [re.split(r"  +", line.strip()) for line in text.strip().splitlines()]
    assert all(len(row) == len(head) + 1 for row in rows)
    return {row[0]: dict(zip(head, row[1:])) for row in rows}


TABLE = table_of(SESSION)


class Place:
    """A station of a network."""

    def __init__(self, text: str):
        self.text = text
        self.net, self.sta = text.encode().split(b"_")

    def bears(self, bytes: bytes) -> bool:
        """Whether a record is of this place."""
        return bytes[8:13] == self.sta.ljust(5) and bytes[18:20] == self.net.ljust(2)


class Ring:
    """All that was pushed of a place, of which the last `capacity` can be had."""

    def __init__(self, place: Place, capacity: int, first: int):
        self.place, self.capacity, self.first = place, capacity, first
        self.pushed: list[bytes] = []

    def next(self) -> int:
        """The number of the record that comes next, not wrapped."""
        return self.first + len(self.pushed)

    def oldest(self) -> int:
        """The number of the oldest record that can be had."""
        return self.next() - min(self.capacity, len(self.pushed))

    def record(self, number: int) -> bytes:
        """The record of a number."""
        return self.pushed[number - self.first]

    def resolve(self, number: int) -> Optional[int]:
        """The number from the oldest to the next that is this one modulo 2^24."""
        found = self.oldest() + (number - self.oldest()) % SPAN
        return found if found <= self.next() else None

    def granted(self, mode: str, number: Optional[int]) -> Optional[int]:
        """Where a grant begins: at the number requested, if it is there, else by the mode."""
        if number is not None:
            return self.resolve(number)
        return self.next() if mode == "DATA" else self.oldest()


def feed_of(places: Sequence[Place], capacity: int, first: int, records: Sequence[bytes]) -> list[Ring]:
    """The rings of some places, with the records pushed to those that they belong to."""
    feed = [Ring(place, capacity, first) for place in places]
    for bytes in records:
        [ring] = [ring for ring in feed if ring.place.bears(bytes)]
        ring.pushed.append(bytes)
    return feed


NUMBER = rb"([0-9A-Fa-f]{1,6})"
COMMANDS = [
    ("HELLO", rb"(?i:HELLO)"),
    ("STATION", rb"(?i:STATION) +([A-Za-z0-9]{1,5})(?: +([A-Za-z0-9]{1,2}))?"),
    ("SELECT", rb"(?i:SELECT)"),
    ("DATA", rb"(?i:DATA)(?: +" + NUMBER + rb")?"),
    ("FETCH", rb"(?i:FETCH)(?: +" + NUMBER + rb")?"),
    ("END", rb"(?i:END)"),
    ("BYE", rb"(?i:BYE)"),
]


def command_of(line: bytes) -> tuple[str, tuple]:
    """The command of a line, and its words."""
    for name, form in COMMANDS:
        found = re.fullmatch(rb" *" + form + rb" *", line)
        if found:
            return name, found.groups()
    return "OTHER", ()


class Session:
    """A server's side of one connection."""

    def __init__(self, feed: list[Ring]):
        self.feed, self.phase, self.kept = feed, "fresh", b""
        self.chosen: Optional[int] = None
        self.grants: dict[int, tuple[str, int]] = {}

    def take(self, stream: bytes) -> list[str]:
        """The replies to the lines that these bytes complete, by their names in the table."""
        self.kept += stream
        replies = []
        while self.phase != "closed":
            self.kept = self.kept.lstrip(b"\n")
            line, end, rest = self.kept.partition(b"\r")
            if len(line) > 255:
                replies.append("-" if self.phase == "streaming" else "Error")
                self.phase = "closed"
            elif not end:
                return replies
            else:
                self.kept = rest
                if line:
                    replies.append(self.answer(*command_of(line)))
        self.kept = b""
        return replies

    def answer(self, name: str, words: tuple) -> str:
        """Answers a command by the table."""
        column, place, position = name, self.chosen, None
        if name == "STATION":
            sta, net = words
            fits = [k for k, ring in enumerate(self.feed) if ring.place.sta == sta and net in (None, ring.place.net)]
            column, place = ("STATION", fits[0]) if fits else ("no STATION", None)
        if name in ("DATA", "FETCH"):
            if place is not None:
                position = self.feed[place].granted(name, int(words[0], 16) if words[0] else None)
            column = "no GRANT" if position is None else "GRANT"
        reply, _, phase = TABLE[self.phase][column].partition("/")
        self.phase = phase or self.phase
        if phase == "chosen":
            self.chosen = place
            self.grants.pop(place, None)
        if phase == "granted":
            self.grants[place] = (name, position)
        return reply

    def packet(self, k: int) -> Union[bytes, str]:
        """What is sent of a place: its packet, or a word."""
        if self.phase == "closed":
            return "Closed"
        if self.phase != "streaming" or k not in self.grants:
            return "Wait"
        (mode, position), ring = self.grants[k], self.feed[k]
        if position < ring.oldest():
            self.phase = "closed"
            return "Overrun"
        if position < ring.next():
            self.grants[k] = (mode, position + 1)
            return b"SL%06X" % (position % SPAN) + ring.record(position)
        if all(self.grants[j] == ("FETCH", self.feed[j].next()) for j in self.grants):
            self.phase = "closed"
            return "Done"
        return "Wait"

    def sends(self) -> bytes:
        """All that is sent now: one packet a place in turn until a whole round gives none, and the end."""
        sent = b""
        while True:
            answers = [self.packet(k) for k in range(len(self.feed))]
            packets = [one for one in answers if isinstance(one, bytes)]
            sent += b"".join(packets)
            if "Done" in answers:
                return sent + b"END"
            if not packets or self.phase == "closed":
                return sent


class Client:
    """A client's side, over one connection after another."""

    def __init__(self, places: Sequence[tuple[Place, Optional[int]]], mode: str):
        """`places` are pairs of a place and the number that it wants next, or None."""
        self.places, self.mode = [place for place, _ in places], mode
        self.wants = [number for _, number in places]
        self.awaited: Optional[list[tuple[str, int]]] = None
        self.kept, self.ending, self.packets = b"", None, 0

    def connect(self) -> bytes:
        """Begins on a new link, over which these bytes are sent. `awaited` are the replies that are still to come."""
        self.kept, self.ending, self.packets = b"", None, 0
        self.awaited = [(word, k) for k in range(len(self.places)) for word in ("STATION", self.mode)]
        return self.line()

    def line(self) -> bytes:
        """The line before the reply that is awaited now."""
        if not self.awaited:
            return b"END\r\n"
        word, k = self.awaited[0]
        if word == "STATION":
            return b"STATION %s %s\r\n" % (self.places[k].sta, self.places[k].net)
        want = self.wants[k]
        return word.encode() + (b"" if want is None else b" %06X" % want) + b"\r\n"

    def take(self, stream: bytes) -> list[tuple]:
        """The events of these bytes, as tuples."""
        if self.awaited is None:
            return []
        self.kept += stream
        events = []
        while self.ending is None:
            event = self.reply() if self.awaited else self.whole()
            if event is None:
                break
            events.append(event)
            if event[0] not in ("Say", "Record"):
                self.ending = event
        return events

    def reply(self) -> Optional[tuple]:
        """The event of the reply that has come, if it is whole."""
        end = self.kept[:256].find(b"\r\n")
        if end < 0:
            return ("Unanswered", self.awaited[0][1], b"") if len(self.kept) >= 256 else None
        line, self.kept = self.kept[:end], self.kept[end + 2 :]
        if line == b"OK":
            self.awaited.pop(0)
            return ("Say", self.line())
        return ("Refused" if line.startswith(b"ERROR") else "Unanswered", self.awaited[0][1], line)

    def whole(self) -> Optional[tuple]:
        """The event of the packet or end that has come, if it is whole."""
        kept = self.kept
        if kept[:1] not in (b"", b"S", b"E"):
            return ("Garbage", self.packets)
        if kept[:1] == b"E":
            if len(kept) < 3:
                return None
            return ("End",) if kept[:3] == b"END" else ("Garbage", self.packets)
        if len(kept) < 8:
            return None
        if not re.match(rb"SL[0-9A-Fa-f]{6}", kept):
            return ("Garbage", self.packets)
        if len(kept) < 520:
            return None
        self.kept, self.packets = kept[520:], self.packets + 1
        return self.packet(int(kept[2:8], 16), kept[8:520])

    def packet(self, number: int, bytes: bytes) -> tuple:
        """The event of a packet."""
        bearers = [k for k, place in enumerate(self.places) if place.bears(bytes)]
        if not bearers:
            return ("Foreign", bytes[18:20], bytes[8:13])
        [k] = bearers
        if self.wants[k] not in (None, number):
            return ("Gap", k, self.wants[k], number)
        self.wants[k] = (number + 1) % SPAN
        return ("Record", k, number, bytes)


def records_in(events: list[tuple]) -> list[bytes]:
    """The records that events bring."""
    return [event[3] for event in events if event[0] == "Record"]


def record_of(place: Place, index: int) -> bytes:
    """A record of 512 bytes of a place, which the index tells from others. Its samples spell parts of packets."""
    codes = place.sta.ljust(5) + b"  BHZ" + place.net.ljust(2)
    data = (index.to_bytes(4, "big") + b"SL00000END\r\nOK\r\nERROR\r\n" * 20)[:448]
    return record(codes=codes, sequence=index % 1000000, exponent=9, samples=112, data=data)


# The lines of a session, each with what is answered to it.
TRANSCRIPT = [
    ("HELLO", HELLO),
    ("DATA 000001", b"ERROR\r\n"),
    ("STATION ABC XX", b"ERROR\r\n"),
    ("station STA XX", b"OK\r\n"),
    ("SELECT BHZ", b"ERROR\r\n"),
    ("SELECT", b"OK\r\n"),
    ("DATA 000000", b"ERROR\r\n"),
    ("DATA 4", b"ERROR\r\n"),
    ("DATA 3", b"OK\r\n"),
    ("FETCH 1", b"OK\r\n"),
    ("INFO ID", b"ERROR\r\n"),
    ("END", b""),
]
