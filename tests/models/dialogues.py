"""Dialogues of the feed at random, from plain to hostile: what a client may send to a server, and a server to a client.
Hostile ones are true ones with a byte changed, dropped or doubled, or cut, or bytes of any kind."""

from __future__ import annotations

from random import Random
from typing import Optional

from models.seedlink import REPLIES, SPAN, Client, Place, Ring, Session, feed_of, record_of

PLACES = [Place(text) for text in ["XX_STA", "XX_STB", "n_A1b2C", "7Z_STA", "XX_ST", "xx_STA"]]

KEYWORDS = [b"HELLO", b"STATION", b"STATION", b"SELECT", b"DATA", b"FETCH", b"FETCH", b"END", b"BYE", b"INFO"]

# In the place of `OK`. A line has at most 256 bytes with its CR LF.
OTHER_REPLIES = [b"OKAY", b"ERROR", b"ERROR busy", b"ERRORS", b"OK ", b"ok", b"", b"OK\rOK", b"OK\n", b"ERRO"]
OTHER_REPLIES += [b"ERROR" + b"x" * 249, b"ERROR" + b"x" * 250, b"x" * 254, b"x" * 255, b"x" * 256]


def damaged(source: Random, stream: bytes) -> bytes:
    """The stream as it is, or with a byte changed, dropped or doubled, or cut, or more than one of these."""
    for _ in range(source.choice([0, 0, 1, 1, 1, 2, 3])):
        if not stream:
            break
        # Damage is most telling where lines and packets begin.
        at = source.randrange(min(len(stream), source.choice([8, 40, len(stream)])))
        one = stream[at : at + 1]
        changed = bytes([source.choice([source.randrange(256), one[0] ^ 32, one[0] ^ 1])])
        new = source.choice([changed, changed, b"", one + one])
        stream = stream[:at] + new + stream[at + 1 :]
        if source.random() < 0.2:
            stream = stream[: source.randrange(len(stream) + 1)]
    return stream


def pieces_of(source: Random, stream: bytes) -> list[bytes]:
    """The stream cut at random."""
    pieces = []
    while stream:
        size = source.choice([1, 2, 3, 7, 20, 64, 512, 2000])
        pieces.append(stream[:size])
        stream = stream[size:]
    return pieces


def number_near(source: Random, ring: Ring) -> bytes:
    """A number as a command has it: in the ring or near it, mostly."""
    number = source.choice([ring.oldest(), ring.next(), ring.first]) + source.randrange(-2, 3)
    if source.random() < 0.1:
        number = source.randrange(SPAN)
    digits = source.choice(["%06X", "%06x", "%X", "%x"]) % (number % SPAN)
    return digits.encode()


def line_at_random(source: Random, feed: list[Ring]) -> bytes:
    """A line of a client, without its end."""
    ring = source.choice(feed)
    keyword = source.choice(KEYWORDS)
    words = [source.choice([keyword, keyword, keyword.lower()])]
    if keyword == b"STATION":
        words += source.choice([[ring.place.sta, ring.place.net]] * 4 + [[ring.place.sta], [b"ABC", b"XX"]])
    if keyword in (b"DATA", b"FETCH") and source.random() < 0.6:
        words.append(number_near(source, ring))
    if keyword == b"SELECT" and source.random() < 0.2:
        words.append(b"BHZ")
    return source.choice([b" ", b" ", b"  "]).join(words)


def plain_lines(source: Random, feed: list[Ring]) -> list[bytes]:
    """What a client sends that wants some of the places."""
    mode = source.choice([b"DATA", b"FETCH", b"FETCH"])
    lines = [b"HELLO"] * source.randrange(2)
    for ring in source.sample(feed, source.randrange(1, len(feed) + 1)):
        lines.append(b"STATION %s %s" % (ring.place.sta, ring.place.net))
        lines += [b"SELECT"] * source.randrange(2)
        lines.append(mode + (b" " + number_near(source, ring) if source.random() < 0.7 else b""))
        if source.random() < 0.15:
            # The grant is dropped.
            lines.append(b"STATION " + ring.place.sta)
    return lines + [b"END"]


def stream_of_client(source: Random, feed: list[Ring]) -> bytes:
    """A stream of a client."""
    kind = source.random()
    if kind < 0.05:
        return bytes(source.randrange(256) for _ in range(source.randrange(600)))
    if kind < 0.1:
        return source.choice([b"A" * 255 + b"\r", b"A" * 256, b"END" + b" " * 252 + b"\r", b"\n" * 300 + b"HELLO\r"])
    lines = plain_lines(source, feed)
    if kind > 0.5:
        for _ in range(source.randrange(12)):
            lines.insert(source.randrange(len(lines) + 1), line_at_random(source, feed))
    end = source.choice([b"\r\n", b"\r\n", b"\r", b"\r\r\n"])
    return damaged(source, b"".join(line + end for line in lines))


def feed_at_random(source: Random, most: int) -> list[Ring]:
    """A feed of some places, with records."""
    places = source.sample(PLACES, source.randrange(1, len(PLACES) + 1))
    records = [record_of(source.choice(places), index) for index in range(source.randrange(most))]
    first = source.choice([0, 0, 0xFFFFFE, SPAN - 1, 0x00FFFE])
    return feed_of(places, source.choice([1, 2, 4, 1000]), first, records)


def wants_at_random(source: Random, feed: list[Ring]) -> list[tuple[Place, Optional[int]]]:
    """Places that a client asks for, each with the number that it wants first."""
    places = [ring.place for ring in source.sample(feed, source.randrange(1, len(feed) + 1))]
    if source.random() < 0.2:
        places = (places + [place for place in PLACES if place not in places])[: source.randrange(1, 7)]
    wants = {ring.place: int(number_near(source, ring), 16) for ring in feed}
    return [(place, wants.get(place) if source.random() < 0.5 else None) for place in places]


def true_answer(feed: list[Ring], client: Client) -> bytes:
    """All that a server of this feed would send to a client that has just sent `STATION`."""
    session = Session(feed)
    trial = Client(list(zip(client.places, client.wants)), client.mode)
    line, sent = trial.connect(), b""
    while line:
        replies = b"".join(REPLIES[name] for name in session.take(line))
        line = b"".join(event[1] for event in trial.take(replies) if event[0] == "Say")
        sent += replies
    return sent + session.sends()


def stream_of_server(source: Random, feed: list[Ring], client: Client) -> bytes:
    """A stream of a server to a client, of which nothing else is requested."""
    kind = source.random()
    replies = b"OK\r\n" * (2 * len(client.places))
    if kind < 0.05:
        return bytes(source.randrange(256) for _ in range(source.randrange(600)))
    if kind < 0.15:
        line = source.choice(OTHER_REPLIES)
        return replies[: 4 * source.randrange(len(replies) // 4)] + line + source.choice([b"\r\n" + replies, b""])
    if kind < 0.3:
        return replies + damaged(source, packets_at_random(source, feed, client))
    return damaged(source, true_answer(feed, client))


def packets_at_random(source: Random, feed: list[Ring], client: Client) -> bytes:
    """Packets of some places, mostly with the numbers that are wanted, and the end."""
    stream = b""
    wants = dict(zip([place.text for place in client.places], client.wants))
    for index in range(source.randrange(8)):
        place = source.choice(PLACES)
        if source.random() < 0.9:
            place = source.choice(client.places)
        number = wants.get(place.text)
        if number is None or source.random() < 0.1:
            number = source.choice([0, 1, SPAN - 1, source.randrange(SPAN)])
        wants[place.text] = (number + 1) % SPAN
        stream += source.choice([b"SL%06X", b"SL%06x"]) % number + record_of(place, index)
    return stream + source.choice([b"END", b"END", b"", b"ENX", b"E"])
