"""The client and the server of models/seedlink.py, with which the program's are compared, against one another and
against the transcript of a session."""

from __future__ import annotations

from driver.rows import Cases, Fact, holds
from models.peers import fetch_link, serving
from models.seedlink import REPLIES, TRANSCRIPT, Client, Place, Session, feed_of, record_of, records_in

STA = Place("XX_STA")
GRANTED = b"OK\r\nOK\r\n"


def transcript() -> Cases:
    """A session answers a client's lines as docs/protocol.md has it."""
    records = [record_of(STA, index) for index in range(3)]
    session = Session(feed_of([STA], 2, 0, records))
    for line, wanted in TRANSCRIPT:
        replies = b"".join(REPLIES[name] for name in session.take(line.encode() + b"\r\n"))
        yield Fact(f"the transcript at {line}", wanted, replies)
    sent = session.sends()
    yield Fact("the packets of the transcript", b"SL000001" + records[1] + b"SL000002" + records[2] + b"END", sent)
    yield Fact("the session is closed", ("closed", "Closed"), (session.phase, session.packet(0)))


def ring() -> Cases:
    """Numbers across the wrap."""
    [one] = feed_of([STA], 2, 0xFFFFFE, [record_of(STA, index) for index in range(3)])
    yield Fact("the oldest and the next across the wrap", (16777215, 16777217), (one.oldest(), one.next()))
    found = [one.resolve(number) for number in (0xFFFFFF, 0, 1, 0xFFFFFE)]
    yield Fact("numbers across the wrap", [16777215, 16777216, 16777217, None], found)


def endings() -> Cases:
    """One client for each way in which a link ends, over the packets and replies of another server."""
    own, foreign = record_of(STA, 1), record_of(Place("XX_ABC"), 1)
    for stream, ending in [
        (GRANTED + b"SL000002" + own, ("Gap", 0, 1, 2)),
        (GRANTED + b"SL00000g", ("Garbage", 0)),
        (GRANTED + b"SXxxxxxx", ("Garbage", 0)),
        (GRANTED + b"X", ("Garbage", 0)),
        (GRANTED + b"SL000001" + own + b"SL000002" + own + b"ENX", ("Garbage", 2)),
        (GRANTED + b"SL000001" + foreign, ("Foreign", b"XX", b"ABC  ")),
        (GRANTED + b"SL000002" + foreign, ("Foreign", b"XX", b"ABC  ")),
        (b"OKAY\r\n", ("Unanswered", 0, b"OKAY")),
        (b"x" * 256, ("Unanswered", 0, b"")),
        (b"ERROR busy\r\n", ("Refused", 0, b"ERROR busy")),
        (GRANTED + b"END", ("End",)),
        (GRANTED + b"SL00000", None),
        (b"x" * 255, None),
    ]:
        client = Client([(STA, 1)], "DATA")
        client.connect()
        client.take(stream)
        yield Fact(f"the ending {ending} of {stream[:20]!r}", ending, client.ending)


def links() -> Cases:
    """The client fetches from the server, over one connection and over two."""
    places = [STA, Place("XX_STB"), Place("n_A1b2C")]
    records = [record_of(places[index % 3], index) for index in range(300)]
    feed = feed_of(places, 1000, 0xFFFFF0, records)
    client = Client([(place, None) for place in places], "FETCH")
    events = fetch_link(client, serving([feed]))
    is_whole = sorted(records_in(events)) == sorted(records) and events[-1] == ("End",)
    yield holds("all records once", is_whole, len(events))
    half = feed_of(places, 1000, 0xFFFFF0, records[:100])
    client = Client([(place, None) for place in places], "FETCH")
    port = serving([half, feed])
    fetched = records_in(fetch_link(client, port)) + records_in(fetch_link(client, port))
    yield holds("all records once over two links", sorted(fetched) == sorted(records), len(fetched))


def rows() -> Cases:
    """All of them."""
    for part in (transcript, ring, endings, links):
        yield from part()
