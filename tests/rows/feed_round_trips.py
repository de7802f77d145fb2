"""Archives served and fetched over TCP: by the program's two ends, and by either of them and the other of Python."""

from __future__ import annotations

import random
from typing import Generator, Sequence

from driver.feed import Fetching, Server, fetch
from driver.links import free_port
from driver.rows import Case, Cases, Fact, holds
from driver.texts import keeps, refused
from models.peers import fetch_link, serving
from models.seedlink import Client, Place, feed_of, record_of, records_in

STA, STB, OTHER = Place("XX_STA"), Place("XX_STB"), Place("n_A1b2C")
ENDED = (0, b"", b"")


def records_at_random(seed: int, places: Sequence[Place], count: int) -> list[bytes]:
    """Records of some places, mixed."""
    source = random.Random(seed)
    return [record_of(source.choice(places), index) for index in range(count)]


def by_place(places: Sequence[Place], records: Sequence[bytes]) -> list[list[bytes]]:
    """The records of each place, in their order."""
    return [[one for one in records if place.bears(one)] for place in places]


def split(output: bytes) -> list[bytes]:
    """The records of an output."""
    return [output[at : at + 512] for at in range(0, len(output), 512)]


def pair(name: str, records: Sequence[bytes], places: Sequence[Place], wanted: Sequence[bytes],
         serve: Sequence[object] = (), options: Sequence[object] = (),
         lines: bytes = b"") -> Generator[Case, None, bytes]:
    """The program fetches from the program: its output. `wanted` are the records that come, those of each place in
    order, and `lines` those of the server's standard error."""
    server = Server(b"".join(records), places, *serve)
    status, output, errors = fetch(places, server.port, *options)
    came = by_place(places, split(output))
    yield Fact(f"{name}: fetch ends", (0, b""), (status, errors))
    yield holds(f"{name}: the records", came == by_place(places, wanted) and len(output) == 512 * len(wanted),
                [len(one) for one in came])
    yield Fact(f"{name}: serve ends", (0, b"", lines), server.end())
    return output


def one_place() -> Cases:
    """A feed of one station."""
    records = records_at_random(1, [STA], 10000)
    output = yield from pair("all of 10,000", records, [STA], records, ["--capacity", 10000])
    yield holds("all of 10,000, byte for byte", output == b"".join(records))
    output = yield from pair("the last 1,000", records, [STA], records[-1000:], lines=keeps("XX_STA", 1000, 10000))
    yield holds("the last 1,000, byte for byte", output == b"".join(records[-1000:]))
    yield from pair("an empty archive", [], [STA], [])
    yield from pair("a ring of 1", records[:9], [STA], records[8:9], ["--capacity", "0000001"],
                    lines=keeps("XX_STA", 1, 9))
    yield from pair("the largest ring", records[:9], [STA], records[:9], ["--capacity", 1000000])


def three_places() -> Cases:
    """A feed of three stations."""
    places = [STA, STB, OTHER]
    records = records_at_random(2, places, 10000)
    yield from pair("three stations mixed", records, places, records, ["--capacity", 10000])
    last = [one for each in by_place(places, records) for one in each[-100:]]
    lines = [keeps(place.text, 100, len(each)) for place, each in zip(places, by_place(places, records))]
    yield from pair("the last 100 of three", records, places, last, ["--capacity", 100], lines=b"".join(lines))
    server = Server(b"".join(records), places, "--capacity", 10000)
    status, output, errors = fetch([OTHER, STA], server.port)
    wanted = by_place([OTHER, STA], records)
    yield holds("two of three stations", status == 0 and by_place([OTHER, STA], split(output)) == wanted, errors)
    yield Fact("serve ends after two of three stations", ENDED, server.end())


def numbers() -> Cases:
    """Numbers to begin from, across the wrap."""
    records = records_at_random(3, [STA], 40)
    first = ["--first", "FFFFFE"]
    yield from pair("across the wrap", records, [STA], records, first)
    for number, index in [("FFFFFE", 0), ("ffffff", 1), ("0", 2), ("000001", 3), ("25", 39), ("26", 40)]:
        yield from pair(f"from {number} across the wrap", records, [STA], records[index:], first, ["--from", number])
    for number in ("27", "FFFFFD"):
        server = Server(b"".join(records), [STA], *first)
        run = fetch([STA], server.port, "--from", number, "--tries", 5)
        yield Fact(f"from {number}, which isn't there", (2, b"", refused("XX_STA", int(number, 16))), run)
        yield Fact(f"serve goes on after {number}", ENDED, server.end())


def words() -> Cases:
    """Words in their other forms: all that `serve` and `fetch` take."""
    stations = ["a", "B2", "STA", "stat5", "0", "00", "Zz9", "ST"]
    places = [Place(f"{net}_{sta}") for net in ("XX", "7") for sta in stations]
    records = records_at_random(5, places, 64)
    yield from pair("sixteen stations", records, places, records, ["--capacity", "0000064", "--first=0"])
    server = Server(b"".join(records), places, "--capacity=00100", "--first", "00a", "--connections", "1")
    status, output, errors = fetch(places, server.port, "--tries=1000000", wants=[11, None] * 8)
    wanted = [each[1 - k % 2 :] for k, each in enumerate(by_place(places, records))]
    came = by_place(places, split(output))
    yield holds("each second of sixteen stations from a number", status == 0 and came == wanted, errors)
    yield Fact("serve ends after them", ENDED, server.end())
    records = records_at_random(6, [STB], 3)
    port = free_port()
    serve = ["serve", "--first", "abcDEF", "--network", "XX", f"--port={port}", "--station", "STB"]
    server = Server(b"".join(records), words=serve, port=port)
    run = Fetching(["fetch", "--station=STB", "--port", str(port), "--from", "ABCdef", "--network=XX"]).end()
    yield Fact("words in another order", (0, b"".join(records), b""), run)
    yield Fact("serve by words in another order", ENDED, server.end())


def python() -> Cases:
    """Either end of the program, and the other of Python."""
    places = [STA, STB, OTHER]
    records = records_at_random(4, places, 2000)
    server = Server(b"".join(records), places, "--capacity", 2000, "--first", "FFFFF0", "--connections", 3)
    client = Client([(place, None) for place in places], "FETCH")
    came = records_in(fetch_link(client, server.port))
    yield holds("a client of Python", by_place(places, came) == by_place(places, records), len(came))
    late = Client([(STB, 0xFFFFF8), (STA, 3)], "FETCH")
    came = records_in(fetch_link(late, server.port))
    wanted = by_place([STB, STA], records)
    yield holds("a client of Python that has some", by_place([STB, STA], came) == [wanted[0][8:], wanted[1][19:]])
    again = fetch_link(client, server.port)
    yield Fact("a client of Python that has all", (("End",), []), (again[-1], records_in(again)))
    yield Fact("serve ends after clients of Python", ENDED, server.end())
    status, output, errors = fetch(places, serving([feed_of(places, 2000, 0xFFFFF0, records)]))
    is_whole = by_place(places, split(output)) == by_place(places, records)
    yield holds("a server of Python", status == 0 and is_whole, errors)


def rows() -> Cases:
    """All of them."""
    for part in (one_place, three_places, numbers, words, python):
        yield from part()
