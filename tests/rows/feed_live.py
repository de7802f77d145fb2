"""`serve --live`: its arguments, many clients at once while records come, each cut off and reconnected at random,
clients that take nothing or say nothing, a server that is killed and started anew, and inputs that end badly."""

from __future__ import annotations

import contextlib
import random
import select
import socket
import subprocess
import tempfile
import threading
import time
from typing import Iterator, Sequence

from driver.feed import Ended, fetch, kept
from driver.helpers import COMPILER, library, preloaded
from driver.links import HOST, dialled, free_port, listening, port_of
from driver.live import FINE, GRANTED, PACKET, PATIENCE, REQUEST, STA, Held, Live, granted, held_of, is_open, numbered
from driver.live import recorded
from driver.patience import MORE
from driver.records import record
from driver.rows import Cases, Fact, Row, Skipped, holds
from driver.texts import BAD_VALUE, About, Expected, foreign, unlistened
from models.seedlink import Place, record_of

STB = Place("XX_STB")
# More bytes than the system keeps of a link that isn't read.
MANY = 20000


def hold_all(port: int, count: int, seed: int, held: list[Held]) -> None:
    """A client that is cut off at random, within packets too, and goes on until it holds so many records, or nothing
    has come for too long. While the server isn't there, or hasn't read on to where it stands, it tries again."""
    chance, since = random.Random(seed), time.monotonic()
    while len(held) < count and time.monotonic() - since < PATIENCE.seconds():
        link = granted(port, len(held))
        if not is_open(link):
            time.sleep(0.01)
            continue
        with link:
            left, first, came = PACKET * (count - len(held)), len(held), bytearray()
            most = min(left, chance.randrange(PACKET, left + PACKET))
            while len(came) < most and (brought := PATIENCE.brought_by(link, most - len(came))):
                came += brought
                held[first:] = held_of(came)
                since = time.monotonic()
    PATIENCE.lose(len(held) < count)


def started_clients(clients: int, port: int, count: int) -> tuple[list[threading.Thread], list[list[Held]]]:
    """So many clients that are cut off at random, and what each holds."""
    helds: list[list[Held]] = [[] for _ in range(clients)]
    threads = [threading.Thread(target=hold_all, args=(port, count, seed, held), daemon=True)
               for seed, held in enumerate(helds)]
    for thread in threads:
        thread.start()
    return threads, helds


def many_at_once() -> Cases:
    """64 clients while a record comes each millisecond, in two pieces."""
    records, live, chance = recorded(400), Live("--timeout", 60), random.Random(0)
    threads, helds = started_clients(64, live.port, len(records))
    for record in records:
        cut = chance.randrange(len(record))
        live.feed(record[:cut])
        live.feed(record[cut:])
        time.sleep(0.001)
    PATIENCE.joined(threads, MORE)
    yield Fact("each of 64 clients holds each record once, in order", 64,
               sum(held == numbered(records) for held in helds))
    yield Fact("the server of 64 ends with its input", FINE, live.end())


def take_all(link: socket.socket, came: bytearray) -> None:
    """A client that takes what it is sent, to the end."""
    while brought := PATIENCE.brought_by(link, 1 << 18):
        came += brought


def one_never_reads() -> Cases:
    """One client that takes nothing loses its place, and holds up none of ten others. These are never more than half
    their ring behind, however slow this machine is."""
    records, live = recorded(100) * 90, Live("--timeout", 0)
    deaf, links = granted(live.port, 0, room=4096), [granted(live.port, 0) for _ in range(10)]
    cames = [bytearray() for _ in links]
    threads = [threading.Thread(target=take_all, args=each, daemon=True) for each in zip(links, cames)]
    for thread in threads:
        thread.start()
    kept_up = True
    for at in range(0, len(records), 100):
        kept_up = kept_up and PATIENCE.until(lambda: all(len(came) >= PACKET * (at - 400) for came in cames))
        live.feed(b"".join(records[at : at + 100]))
    yield holds("ten that read are sent on beside one that never does", kept_up)
    yield Fact("one that never reads keeps no server from its end", FINE, live.end())
    PATIENCE.joined(threads)
    yield Fact("ten that read hold all", 10, sum(held_of(came) == numbered(records) for came in cames))
    rest = held_of(PATIENCE.taken(deaf, PACKET * len(records)))
    yield holds("one that never read was sent a beginning", 0 < len(rest) < len(records), len(rest))
    yield holds("and nothing else", rest == numbered(records)[: len(rest)])


def silent_clients() -> Cases:
    """200 that say nothing cost no time, and are given up."""
    live = Live("--clients", 256, "--timeout", 10)
    links = [dialled(live.port) for _ in range(200)]
    PATIENCE.until(lambda: live.links() == len(links))
    time.sleep(0.2)
    before = live.ticks()
    time.sleep(1)
    cost = live.ticks() - before
    yield holds("200 silent clients cost no time", cost <= 3, cost)
    yield Fact("200 silent clients are given up", 200, PATIENCE.closed(links))
    yield Fact("the server of silent clients ends", FINE, live.end())


def times() -> Cases:
    """A client that takes nothing is given up; one that waits for records is not."""
    live = Live("--timeout", 1, "--capacity", MANY)
    waiting = granted(live.port, 0)
    time.sleep(2.5)
    records = recorded(1) * MANY
    live.feed(records[0])
    yield Fact("one that waited for longer than the time is served", numbered(records[:1]),
               held_of(PATIENCE.taken(waiting, PACKET)))
    waiting.close()
    deaf = granted(live.port, 0, room=4096)
    yield holds("one that will take nothing stands alone", PATIENCE.until(lambda: live.links() == 1))
    live.feed(b"".join(records[1:]))
    yield holds("one that takes nothing is given up, though the input goes on",
                PATIENCE.until(lambda: live.links() == 0))
    yield holds("the server goes on", live.is_going())
    rest = held_of(PATIENCE.taken(deaf, PACKET * MANY))
    yield holds("one that accepted nothing was sent a beginning", 0 < len(rest) < MANY, len(rest))
    yield holds("and nothing more", rest == numbered(records)[: len(rest)])
    yield Fact("the server of one that accepted nothing ends", FINE, live.end())


def killed_and_started_anew() -> Cases:
    """The recipe: records are appended to a file, and each has the same number after a restart. The server is killed
    twice, once with half a record in the file, while eight clients stand."""
    records = recorded(90)
    archive, port = b"".join(records), free_port()
    with tempfile.NamedTemporaryFile() as file:
        threads, helds = started_clients(8, port, len(records))
        written = 0
        for size in (30 * 512, 60 * 512 + 200, len(archive)):
            tail = kept(subprocess.Popen(["tail", "-c", "+1", "-f", file.name], stdout=subprocess.PIPE))
            live = Live("--timeout", 60, port=port, stdin=tail.stdout)
            tail.stdout.close()
            file.write(archive[written:size])
            file.flush()
            written = size
            PATIENCE.until(lambda: all(len(held) >= size // 512 - 10 for held in helds))
            if size == len(archive):
                PATIENCE.joined(threads, MORE)
            live.kill()
            tail.kill()
    yield Fact("each of eight clients holds each record once, over two kills", 8,
               sum(held == numbered(records) for held in helds))


def more_than_clients() -> Cases:
    """Who comes while enough are there waits, and is served then; a client that fetches ends as ever."""
    records = recorded(60, [STA, STB])
    live = Live("--clients", 2, "--timeout", 60, places=[STA, STB])
    live.feed(b"".join(records))
    first, second, third = granted(live.port, 0), granted(live.port, 0), dialled(live.port)
    yield Fact("one that waits for records has those of its place", numbered(records[::2]),
               held_of(PATIENCE.taken(first, PACKET * 30)))
    third.sendall(REQUEST % 0)
    third.settimeout(0.5)
    with contextlib.suppress(socket.timeout):
        yield Fact("a third one, with two slots, isn't served", "a time-out", third.recv(1))
    first.close()
    yield Fact("until one of the two has gone", GRANTED, PATIENCE.taken(third, len(GRANTED)))
    second.close()
    third.close()
    ends: list[Ended] = []
    clients = [threading.Thread(target=lambda: ends.append(fetch([STB], live.port)), daemon=True) for _ in range(8)]
    for client in clients:
        client.start()
    PATIENCE.joined(clients)
    yield Fact("eight fetches by two slots", [Ended(0, b"".join(records[1::2]), b"")] * 8, ends)
    yield Fact("the server of two slots ends", FINE, live.end())


def one_after_another() -> Cases:
    """Who comes once the one before has left is served, and so on, by one slot."""
    live = Live("--clients", 1, "--timeout", 60)
    records = recorded(3)
    live.feed(b"".join(records))
    for turn in range(4):
        link = granted(live.port, 0)
        yield Fact(f"client {turn} by one slot", numbered(records), held_of(PATIENCE.taken(link, PACKET * 3)))
        link.close()
    yield Fact("the server of one slot ends", FINE, live.end())


def in_turns() -> Cases:
    """A place that is never idle keeps no other one back: the packets of a link come in turns."""
    often, seldom = [record_of(STA, index) for index in range(2000)], [record_of(STB, index) for index in range(3)]
    live = Live("--capacity", 4000, "--timeout", 60, places=[STA, STB])
    live.feed(b"".join(seldom + often))
    yield holds("all of a busy place are there", PATIENCE.until(lambda: is_there(live.port, len(often) - 1)))
    link = dialled(live.port)
    link.sendall(b"STATION STA XX\r\nDATA 0\r\nSTATION STB XX\r\nDATA 0\r\nEND\r\n")
    yield Fact("both places are granted", GRANTED * 2, PATIENCE.taken(link, len(GRANTED) * 2))
    wanted = [Held(number, place[number]) for number in range(3) for place in (often, seldom)]
    yield Fact("three packets of a quiet place come beside a busy one's", wanted + [Held(3, often[3])],
               held_of(PATIENCE.taken(link, PACKET * 7)))
    link.close()
    yield Fact("the server of a busy place ends", FINE, live.end())


def granted_of(links: Sequence[socket.socket], least: int) -> list[socket.socket]:
    """Those of these links that were granted what they want: once there are at least so many, and no more come for a
    while."""
    def ready() -> list[socket.socket]:
        return select.select(links, [], [], 0)[0]

    PATIENCE.until(lambda: len(ready()) >= least)
    before: list[socket.socket] = []
    while len(those := ready()) > len(before):
        before = those
        time.sleep(0.3)
    return those


def exact_numbers() -> Cases:
    """As many are served at once as the arguments give, or 64: not one more, and as many again for those that go."""
    for options, most, leaving in [(["--clients", 1], 1, 1), (["--clients", 5], 5, 3), ([], 64, 6)]:
        live = Live("--timeout", 60, *options)
        links = [dialled(live.port) for _ in range(most + leaving + 2)]
        for link in links:
            link.sendall(REQUEST % 0)
        first = granted_of(links, most)
        yield Fact(f"{len(links)} that dial, of whom {most} may stand", most, len(first))
        for link in first[:leaving]:
            link.close()
        others = granted_of([link for link in links if link not in first], leaving)
        yield Fact(f"as many are served for the {leaving} of {most} that go", leaving, len(others))
        live.feed(record_of(STA, 0))
        came = [PATIENCE.taken(link, len(GRANTED) + PACKET) for link in [*first[leaving:], *others]]
        held = [held_of(stream[len(GRANTED):]) for stream in came]
        yield Fact(f"each of {most} has a record", [numbered(recorded(1))] * most, held)
        for link in links:
            link.close()
        yield Fact(f"the server of {most} ends", FINE, live.end())


def lingering() -> Cases:
    """A link is closed so that all that was written to it comes through: to one that says nothing more, to one that
    goes on to say things, and to one that never closes it, for which the server waits for two seconds."""
    records = recorded(500)
    live = Live("--timeout", 60)
    live.feed(b"".join(records))
    halved, talking, staying = (granted_fetch(live.port, len(records)) for _ in range(3))
    halved.shutdown(socket.SHUT_WR)
    # By then the system has all that is sent, and most of it isn't received yet.
    time.sleep(0.3)
    for _ in range(10):
        talking.sendall(b"x" * 100)
    for name, link in [("says nothing more", halved), ("goes on to say things", talking), ("stays", staying)]:
        came = PATIENCE.taken(link, PACKET * (len(records) + 1))
        yield holds(f"one that {name} has all, and the end", came[-3:] == b"END" and held_of(came) == numbered(records),
                    len(came))
    halved.close()
    talking.close()
    began = time.monotonic()
    ended = live.end()
    yield Fact("a server with one that stays ends", FINE, ended)
    yield holds("it doesn't wait for long", time.monotonic() - began < 30)
    staying.close()


def halved() -> Cases:
    """One that asked by DATA, says nothing more and keeps its link open for reading has what there is, and its link is
    closed then, without an end; so that it doesn't get what comes later."""
    records = recorded(20)
    live = Live("--timeout", 60)
    live.feed(b"".join(records[:10]))
    PATIENCE.until(lambda: is_there(live.port, 9))
    with granted(live.port, 0) as link:
        link.shutdown(socket.SHUT_WR)
        came = PATIENCE.taken(link, PACKET * len(records))
        live.feed(b"".join(records[10:]))
        yield Fact("one that asked by DATA and says nothing more", (numbered(records[:10]), 10 * PACKET),
                   (held_of(came), len(came)))
        yield holds("its link is closed", PATIENCE.closed([link]) == 1)
    yield Fact("the server of one that says nothing more ends", FINE, live.end())


def granted_fetch(port: int, count: int) -> socket.socket:
    """A link that is sent the records that there are, once there are so many, and then the end. It takes little at a
    time, so that much is still to be written when it says more."""
    PATIENCE.until(lambda: is_there(port, count - 1))
    link = socket.socket()
    link.settimeout(PATIENCE.seconds())
    link.setsockopt(socket.SOL_SOCKET, socket.SO_RCVBUF, 4096)
    link.connect((HOST, port))
    link.sendall(b"STATION STA XX\r\nFETCH 000000\r\nEND\r\n")
    PATIENCE.taken(link, len(GRANTED))
    return link


def is_there(port: int, number: int) -> bool:
    """Whether the record of a number is there."""
    with dialled(port) as link:
        link.sendall(b"STATION STA XX\r\nFETCH %06X\r\nEND\r\n" % number)
        return PATIENCE.taken(link, len(GRANTED)) == GRANTED


def closed_streams() -> Cases:
    """Standard streams that are closed: no link stands in their place, neither read as the input nor written to."""
    records = recorded(3)
    line = b"mseed: fault at 0 read\n"
    for closed, wanted in [([0], Ended(2, b"", line)), ([0, 1], Ended(2, b"", line)), ([0, 1, 2], Ended(2, b"", b""))]:
        yield Fact(f"serve --live with {closed} closed", wanted, Live(closed=closed).end())
    for closed in ([1], [2], [1, 2]):
        live = Live("--timeout", 60, closed=closed)
        link = granted(live.port, 0)
        live.feed(b"".join(records) + b"x" * 64)
        sent = b"".join(b"SL%06X" % held.number + held.bytes for held in numbered(records))
        yield Fact(f"a client of serve --live with {closed} closed", sent, PATIENCE.taken(link, PACKET * 9))
        link.close()
        outcome = b"" if 2 in closed else b"mseed: fault at 1536 notdata\n"
        yield Fact(f"serve --live with {closed} closed", Ended(2, b"", outcome), live.end())


# What may be wrong after three records, and the line that says so.
WRONG = [
    ("within a record", recorded(1)[0][:100], b"mseed: fault at 1536 truncated 100\n"),
    ("with bytes that begin no record", b"x" * 64 + recorded(1)[0], b"mseed: fault at 1536 notdata\n"),
    ("with another station's record", record_of(STB, 0) + recorded(1)[0],
     f"mseed: {foreign(4, STB.text, 512)}\n".encode()),
    ("with a record of 128 bytes", record(exponent=7) + recorded(1)[0],
     f"mseed: {foreign(4, 'XX_STA', 128)}\n".encode()),
    # The rest of it isn't waited for.
    ("with the beginning of a long record", record(codes=b"OTHR   BHZXX", exponent=12)[:600],
     f"mseed: {foreign(4, 'XX_OTHR', 4096)}\n".encode()),
]


def bad_inputs() -> Cases:
    """What is wrong with the input is the line and the status; what was before it is served, and nothing after it."""
    records = recorded(3)
    for name, tail, line in WRONG:
        live = Live("--timeout", 60)
        link = granted(live.port, 0)
        live.feed(b"".join(records) + tail)
        live.end_input()
        yield Fact(f"a client of an input that ends {name}", numbered(records),
                   held_of(PATIENCE.taken(link, PACKET * 9)))
        link.close()
        yield Fact(f"an input that ends {name}", Ended(2, b"", line), live.end())


def told_at_once() -> Cases:
    """The line is there while a client has much to take yet, and no further client is taken."""
    records, line = recorded(1) * MANY, b"mseed: fault at %d notdata\n" % (MANY * 512)
    live = Live("--timeout", 60, "--capacity", MANY)
    slow = granted(live.port, 0, room=1 << 16)
    live.feed(b"".join(records) + b"x" * 64)
    yield holds("the line is reported at once", PATIENCE.until(lambda: live.reported() == line), live.reported())
    yield holds("a client that has much to take yet is served on", live.is_going() and live.links() >= 1)
    late = dialled(live.port)
    late.sendall(REQUEST % 0)
    rest = held_of(PATIENCE.taken(slow, PACKET * (MANY + 1)))
    yield holds("it takes all that came before", rest == numbered(records), len(rest))
    slow.close()
    yield Fact("the server ends once it has", Ended(2, b"", line), live.end())
    yield Fact("who comes after the end isn't served", b"", PATIENCE.taken(late, 1))


def failing() -> Cases:
    """A port that is taken, and an input that fails."""
    taken_port = listening()
    port = port_of(taken_port)
    yield Fact("serve --live at a port that is taken", Ended(2, b"", unlistened(port)), Live(port=port).end())
    fails = library("failing_devices")
    if fails is None:
        yield Skipped("serve --live of an input that fails", COMPILER)
        return
    for room in (0, 511, 512, 1000, 1536):
        live = Live(env=preloaded(fails, READ_ROOM=room))
        live.feed(b"".join(recorded(3)) + b"x")
        line = b"mseed: fault at %d read\n" % (room // 512 * 512)
        yield Fact(f"serve --live of an input that fails after {room} bytes", Ended(2, b"", line), live.end())


def row(name: str, words: Sequence[str], input: bytes = b"", wrong: Expected = b"") -> Row:
    """A run that ends by itself, and soon: well, or with a line about what is wrong with its arguments."""
    return Row(name, input, words, 3 if wrong else 0, b"", wrong, wait=PATIENCE.status_of)


def words() -> Iterator[Row]:
    """What goes with `--live`, and what doesn't."""
    serve = ["serve", "--station", "STA", "--network", "XX", "--port", str(free_port())]
    yield row("live, with no input", [*serve, "--live"])
    yield row("live, with two records", [*serve, "--live"], b"".join(recorded(2)))
    for clients in ("1", "64", "1024", "+0007"):
        yield row(f"live, with {clients} clients", [*serve, "--live", "--clients", clients])
    for clients in ("0", "1025", "-1", "1.5", "x", ""):
        yield row(f"live, with {clients} clients", [*serve, "--live", f"--clients={clients}"], wrong=About("clients"))
    yield row("live twice", [*serve, "--live", "--live"], wrong=About("live"))
    yield row("clients twice", [*serve, "--live", "--clients", "1", "--clients", "1"], wrong=About("clients"))
    yield row("live, with connections", [*serve, "--live", "--connections", "1"], wrong=BAD_VALUE)
    yield row("clients without live", [*serve, "--clients", "2"], wrong=BAD_VALUE)
    yield row("live, with a capacity of 0", [*serve, "--live", "--capacity", "0"], wrong=BAD_VALUE)
    yield row("live, with a place that has a number", [*serve, "--live", "XX_STB:1"], wrong=BAD_VALUE)
    yield row("live, with an option of fetch", [*serve, "--live", "--from", "0"], wrong=About("--from"))
    for command in ("audit", "show", "repack", "join"):
        yield row(f"{command}, live", [command, "--live"], wrong=About("--live"))
    yield row("fetch, live", ["fetch", *serve[1:], "--live"], wrong=About("--live"))
    yield row("fetch, with clients", ["fetch", *serve[1:], "--clients", "2"], wrong=About("--clients"))


def rows() -> Cases:
    """All of it."""
    yield from words()
    for part in (many_at_once, one_never_reads, silent_clients, times, killed_and_started_anew, more_than_clients,
                 one_after_another, in_turns, exact_numbers, lingering, halved, closed_streams, bad_inputs,
                 told_at_once, failing):
        yield from part()
