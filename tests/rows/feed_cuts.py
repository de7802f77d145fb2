"""Links that are cut: each record is fetched once, whatever is cut where, and whoever of the two is killed."""

from __future__ import annotations

import random
import time
from concurrent.futures import ThreadPoolExecutor
from typing import Sequence

from driver.feed import Cut, Ended, Fetching, Proxy, Server, fetch, fetch_words
from driver.links import free_port
from driver.rows import Cases, Fact, holds
from driver.texts import lost
from models.seedlink import Place, record_of

STA, STB, OTHER = Place("XX_STA"), Place("XX_STB"), Place("n_A1b2C")
TRIES = ["--tries", 1000000]
ENDED = (0, b"")
# So many clients at once.
SIDE_BY_SIDE = 24


def records_at_random(seed: int, places: Sequence[Place], count: int) -> list[bytes]:
    """Records of some places, mixed."""
    source = random.Random(seed)
    return [record_of(source.choice(places), index) for index in range(count)]


def is_each_once(places: Sequence[Place], records: Sequence[bytes], output: bytes) -> bool:
    """Whether the records of each place came in their order, each once, and nothing else."""
    came = [output[at : at + 512] for at in range(0, len(output), 512)]
    ours = [[[one for one in all_of if place.bears(one)] for place in places] for all_of in (came, records)]
    return ours[0] == ours[1] and len(came) == len(records)


def cut_by(name: str, places: Sequence[Place], records: Sequence[bytes], cuts: Sequence[Cut], each: int) -> Cases:
    """One `fetch` after another over a proxy that cuts its links, some side by side: each has so many of the cuts, since
    it waits longer and longer as long as no record comes."""
    server = Server(b"".join(records), places, "--capacity", len(records), "--connections", 1000000)

    def run(part: Sequence[Cut]) -> tuple[Ended, int]:
        proxy = Proxy(lambda: server.port, part)
        ended = fetch(places, proxy.port, *TRIES)
        proxy.close()
        return ended, proxy.carried

    parts = [cuts[at : at + each] for at in range(0, len(cuts), each)]
    with ThreadPoolExecutor(SIDE_BY_SIDE) as pool:
        ends = list(pool.map(run, parts))
    wrong = [(ended.status, ended.err) for ended, _ in ends if (ended.status, ended.err) != ENDED]
    yield Fact(f"{name}: {len(parts)} times fetch ends", [], wrong)
    wrong = [len(ended.out) for ended, _ in ends if not is_each_once(places, records, ended.out)]
    yield Fact(f"{name}: each record once", [], wrong)
    yield Fact(f"{name}: {len(cuts)} links are cut", [len(part) + 1 for part in parts], [links for _, links in ends])
    yield holds(f"{name}: serve goes on", server.is_going(), server.process.returncode)
    server.kill()


def every_byte() -> Cases:
    """Two replies, two packets, and the first bytes of a third are cut after each single byte, either way."""
    records = records_at_random(1, [STA], 8)
    to_client = [Cut(to_client=count) for count in range(8 + 2 * 520 + 8)]
    yield from cut_by("cut after each byte to the client", [STA], records, to_client, 2)
    to_server = [Cut(to_server=count) for count in range(len("STATION STA XX..FETCH..END..") + 1)]
    yield from cut_by("cut after each byte to the server", [STA], records, to_server, 2)


def any_cut() -> Cases:
    """Links cut and reset anywhere."""
    source = random.Random(2)
    places = [STA, STB, OTHER]
    records = records_at_random(3, places, 300)
    cuts = []
    for _ in range(300):
        is_reset = source.random() < 0.3
        to_server = Cut(source.randrange(70), None, is_reset)
        cuts.append(source.choice([to_server, Cut(None, source.randrange(9000), is_reset)]))
    yield from cut_by("cut and reset anywhere", places, records, cuts, 6)


def killed_servers() -> Cases:
    """A server is killed once it has sent so many bytes, and another one is started in its place."""
    source = random.Random(4)
    places = [STA, STB]
    records = records_at_random(5, places, 10000)
    servers: list[Server] = []

    def upstream() -> int:
        for server in servers:
            server.kill()
        servers.append(Server(b"".join(records), places, "--capacity", 10000))
        return servers[-1].port

    cuts = [Cut(None, source.randrange(600000), source.random() < 0.5) for _ in range(12)]
    proxy = Proxy(upstream, cuts)
    status, output, errors = fetch(places, proxy.port, *TRIES)
    proxy.close()
    yield Fact("killed servers: fetch ends", ENDED, (status, errors))
    yield holds("killed servers: each record once", is_each_once(places, records, output), len(output))
    yield Fact("killed servers: there were 13", 13, len(servers))
    yield Fact("killed servers: the last one ends", (0, b"", b""), servers[-1].end())


def killed_at_a_port() -> Cases:
    """The server is killed at random moments and started anew at its port, which nobody serves meanwhile. The client
    dials there for a moment in vain, and then stands still until the next server listens."""
    source = random.Random(6)
    records = records_at_random(7, [STA], 20000)
    port = free_port()
    fetching = Fetching(fetch_words([STA], port, *TRIES))

    def next_server() -> Server:
        time.sleep(0.01)
        fetching.halt()
        server = Server(b"".join(records), [STA], "--capacity", 20000, port=port)
        fetching.go_on()
        return server

    for _ in range(6):
        server = next_server()
        time.sleep(source.random() * 0.02)
        server.kill()
    server = next_server()
    status, output, errors = fetching.end()
    server.kill()
    yield Fact("killed at a port: fetch ends", ENDED, (status, errors))
    yield holds("killed at a port: each record once", output == b"".join(records), len(output))


def from_a_number() -> Cases:
    """A client that was cut off is started anew from the number after what it has."""
    source = random.Random(8)
    records = records_at_random(9, [STA], 500)
    server = Server(b"".join(records), [STA], "--first", "FFFFF0", "--connections", 1000)
    proxy = Proxy(lambda: server.port, [Cut(None, source.randrange(60000)) for _ in range(20)])
    output, status, runs = b"", 2, 0
    while status == 2 and runs < 30:
        number = (0xFFFFF0 + len(output) // 512) % 2**24
        status, came, errors = fetch([STA], proxy.port, wants=[number])
        runs += 1
        output += came
        if status == 2:
            # The proxy closes the link with bytes of the client unread, or without: so the system may reset it.
            lines = [lost(proxy.port), lost(proxy.port, "connection reset"), lost(proxy.port, "broken pipe")]
            yield holds("a client that is cut off writes so", errors in lines, errors)
            yield Fact("a client that is cut off has whole records", 0, len(came) % 512)
    yield holds("started anew after what it has: each record once", output == b"".join(records), len(output))
    yield Fact(f"it was started {runs} times", 0, status)
    proxy.close()
    server.kill()


def rows() -> Cases:
    """All of them."""
    for part in (every_byte, any_cut, killed_servers, killed_at_a_port, from_a_number):
        yield from part()
