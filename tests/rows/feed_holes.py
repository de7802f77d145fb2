"""`fetch --holes`: a server that numbers its stations together; and which numbers are taken, by hand."""

from __future__ import annotations

import random
from typing import Optional, Sequence

from driver.feed import Cut, Proxy, fetch, fetch_words
from driver.rows import Cases, Fact, Row, holds
from driver.texts import About, gap
from models.common_numbers import CommonServer, Numbered
from models.peers import Speaker
from models.seedlink import SPAN, Place, record_of

STA, STB, STC = Place("XX_STA"), Place("XX_STB"), Place("NL_HGN")
PLACES = [STA, STB, STC]
HOLES = "--holes"
OK = b"OK\r\n"
HALF = SPAN // 2


def of_place(place: Place, records: Sequence[bytes]) -> list[bytes]:
    """Those of a station."""
    return [record for record in records if place.bears(record)]


def cut_up(output: bytes) -> list[bytes]:
    """The records of an output."""
    return [output[at : at + 512] for at in range(0, len(output), 512)]


def hole_lines(place: Place, want: Optional[int], first: int, records: Sequence[bytes]) -> list[bytes]:
    """The lines that report the holes before the records of a station, in order."""
    lines = []
    for index, record in enumerate(records):
        if place.bears(record):
            number = (first + index) % SPAN
            if want is not None and number != want:
                lines.append(b"mseed: hole %s %06X %06X" % (place.text.encode(), want, number))
            want = (number + 1) % SPAN
    return lines


def common_numbers() -> Cases:
    """Three stations with numbers in common: refused without `--holes`, and each whole with it."""
    source = random.Random(1)
    first = 0xFFFF80
    records = [record_of(source.choice(PLACES), index) for index in range(600)]
    server = CommonServer(Numbered(PLACES, first, records))
    for place in PLACES:
        ours = of_place(place, records)
        status, output, errors = fetch([place], server.port)
        came = cut_up(output)
        [want, got] = [(first + records.index(ours[at])) % SPAN for at in (len(came) - 1, len(came))]
        yield Fact(f"{place.text} without holes", (2, gap(place.text, (want + 1) % SPAN, got)), (status, errors))
        yield holds(f"{place.text} without holes: the records before the first hole",
                    came == ours[: len(came)] and len(came) < len(ours), len(came))
        status, output, errors = fetch([place], server.port, HOLES)
        yield Fact(f"{place.text} past holes", 0, status)
        yield holds(f"{place.text} past holes: each record once", cut_up(output) == ours, len(output))
        yield Fact(f"{place.text} past holes: the lines", hole_lines(place, None, first, records), errors.splitlines())
    status, output, errors = fetch(PLACES, server.port, HOLES)
    yield Fact("all three past holes", 0, status)
    yield holds("all three past holes: all in their order", cut_up(output) == records, len(output))
    reported = errors.splitlines()
    for place in PLACES:
        ours = [line for line in reported if place.text.encode() in line]
        yield Fact(f"all three past holes: the lines of {place.text}", hole_lines(place, None, first, records), ours)
    server.close()


def cut_links() -> Cases:
    """Links that are cut anywhere: each record once, over any number of tries."""
    source = random.Random(2)
    records = [record_of(source.choice(PLACES), index) for index in range(400)]
    server = CommonServer(Numbered(PLACES, 0xFFFFC0, records))
    proxy = Proxy(lambda: server.port, [Cut(None, source.randrange(20000)) for _ in range(12)])
    status, output, errors = fetch(PLACES, proxy.port, HOLES, "--tries", 1000)
    proxy.close()
    yield Fact("cut links past holes", 0, status)
    came = cut_up(output)
    for place in PLACES:
        yield holds(f"cut links past holes: the records of {place.text}, each once",
                    of_place(place, came) == of_place(place, records), len(of_place(place, came)))
    # What is named each station is the same as over one link: the first record's number isn't known before it.
    reported = errors.splitlines()
    for place in PLACES:
        ours = [line for line in reported if place.text.encode() in line]
        yield Fact(f"cut links past holes: the lines of {place.text}", hole_lines(place, None, 0xFFFFC0, records), ours)
    server.close()


# The number that is wanted, the one that comes, and whether it is taken.
NUMBERS = [
    (5, 5, True), (5, 6, True), (5, 4, False), (0, SPAN - 1, False), (SPAN - 1, 0, True), (SPAN - 1, 1, True),
    (0, HALF - 1, True), (0, HALF, False), (0, HALF + 1, False), (5, 5 + HALF - 1, True), (5, 5 + HALF, False),
    (SPAN - 2, HALF - 3, True), (SPAN - 2, HALF - 2, False), (HALF, HALF - 1, False), (HALF, SPAN - 1, True),
    (HALF, 0, False), (HALF + 1, 0, True),
]


def boundaries() -> Cases:
    """Ahead by 1 to 2^23 - 1, modulo 2^24."""
    for want, got, is_taken in NUMBERS:
        record = record_of(STA, 0)
        stream = OK * 2 + b"SL%06X" % got + record + b"END"
        line = b"" if want == got else b"mseed: hole XX_STA %06X %06X\n" % (want, got)
        after = b"mseed: next --network XX --station STA --from %06X\n" % ((got + 1) % SPAN if is_taken else want)
        first = b"mseed: first XX_STA:%06X\n" % got
        words = [HOLES, "--tell-next"]
        name = f"{want:06X} is wanted and {got:06X} comes"
        speaker = Speaker([[stream], [stream]])
        requested = fetch_words([STA], speaker.port, HOLES, wants=[want])
        reported = fetch_words([STA], speaker.port, *words, wants=[want])
        if is_taken:
            yield Row(name, b"", requested, 0, record, line)
            yield Row(f"{name}, all reported", b"", reported, 0, record, line + first + after)
        else:
            lines = gap("XX_STA", want, got)
            yield Row(name, b"", requested, 2, b"", lines)
            yield Row(f"{name}, all reported", b"", reported, 2, b"", lines + after)


def words() -> Cases:
    """Where the flag goes."""
    yield Row("serve has no such flag", b"", ["serve", "--port", "1", "--station", "STA", "--network", "XX", HOLES], 3,
              b"", About(HOLES))
    speaker = Speaker([[OK * 2 + b"SL000007" + record_of(STA, 0) + b"END"]])
    requested = fetch_words([STA], speaker.port, HOLES, "--tell-next", wants=[5])
    yield Row("an output that takes nothing after a hole", b"", requested, 2, b"",
              b"mseed: hole XX_STA 000005 000007\nmseed: first XX_STA:000007\nmseed: write failed\n"
              b"mseed: next --network XX --station STA --from 000007\n", out_to="/dev/full")


def rows() -> Cases:
    """All of them."""
    for part in (common_numbers, cut_links, boundaries, words):
        yield from part()
