"""A million records, lines or samples through the loop of each command, in one run: each is there in the output, which
is known by how the input was made. What gives up after so many bytes, records or lines of text is found here.

A record has 16 samples at 20 a second, so that a day has 108,000 of them, each of which begins where the one before it
ends. Columns of bytes are written over many records at once.
"""

from __future__ import annotations

import functools
import hashlib
import socket
import subprocess
import tempfile
from pathlib import Path
from typing import Callable, Iterable, Iterator, NamedTuple, Sequence

from driver.feed import Server
from driver.links import dialled
from driver.live import FINE, GRANTED, PATIENCE, Live
from driver.program import PROGRAM
from driver.records import record
from driver.rows import NO_END, Cases, Fact, holds
from driver.texts import broken
from models.auditing import name_of, time_of
from models.packing import SECOND, Series, packed
from models.seedlink import Place, record_of
from models.workloads import moved

COUNT, SIZE, SAMPLES, STEP, A_DAY = 1_000_000, 128, 16, 800_000, 108_000
START = 1704067200 * SECOND
# The samples of a record of 512 bytes whose differences are all 0, seven of them a word.
FULL = 721
# The seconds that a run may take, on a machine that is busy with other things too.
LIMIT = 60
CHUNK = 1 << 20
STA, CODES = Place("XX_STA"), b"STA    BHZXX"


class Ended(NamedTuple):
    """How a run ended: its status, how long its output was, a checksum of that, and its standard error."""

    status: int
    size: int
    digest: str
    err: bytes


def digest_of(pieces: Iterable[bytes]) -> tuple[int, str]:
    """The length and a checksum of what these pieces are together."""
    found, size = hashlib.sha256(), 0
    for piece in pieces:
        found.update(piece)
        size += len(piece)
    return size, found.hexdigest()


def ended(words: Sequence[str], input: Path) -> Ended:
    """How a run over an input ended."""
    with input.open("rb") as source, tempfile.TemporaryFile() as errors:
        with subprocess.Popen(["timeout", str(LIMIT), PROGRAM, *words], stdin=source, stdout=subprocess.PIPE,
                              stderr=errors) as run:
            size, digest = digest_of(iter(lambda: run.stdout.read(CHUNK), b""))
            status = run.wait()
        errors.seek(0)
        return Ended(NO_END if status == 124 else status, size, digest, errors.read())


def wanted(status: int, pieces: Iterable[bytes], err: bytes = b"") -> Ended:
    """How a run has to end that writes these pieces."""
    return Ended(status, *digest_of(pieces), err)


def lines(texts: Iterable[str]) -> Iterator[bytes]:
    """Lines as bytes, many at a time."""
    gathered: list[str] = []
    for text in texts:
        gathered.append(text)
        if len(gathered) == 10_000:
            yield "\n".join([*gathered, ""]).encode()
            gathered.clear()
    yield "".join(f"{text}\n" for text in gathered).encode()


def written(path: Path, pieces: Iterable[bytes]) -> Path:
    """A file of these pieces."""
    with path.open("wb") as file:
        for piece in pieces:
            file.write(piece)
    return path


def put(block: bytearray, offset: int, columns: Sequence[bytes]) -> None:
    """Writes columns into all records of a block, from an offset within each on."""
    size = len(block) // len(columns[0])
    for at, column in enumerate(columns):
        block[offset + at :: size] = column


def columns_of(numbers: Sequence[int], width: int) -> list[bytes]:
    """Numbers as columns of bytes, the first of which is the highest."""
    return [bytes(number >> 8 * place & 255 for number in numbers) for place in reversed(range(width))]


def days(one: bytes) -> Iterator[bytearray]:
    """A million of this record, each where the one before it ends."""
    block = bytearray(one * A_DAY)
    micros = [index * STEP for index in range(A_DAY)]
    for offset, numbers, width in [(24, [at // 3_600_000_000 for at in micros], 1),
                                   (25, [at // 60_000_000 % 60 for at in micros], 1),
                                   (26, [at // SECOND % 60 for at in micros], 1),
                                   (28, [at % SECOND // 100 for at in micros], 2)]:
        put(block, offset, columns_of(numbers, width))
    for day, begin in enumerate(range(0, COUNT, A_DAY), 1):
        put(block, 22, [bytes(A_DAY), bytes([day]) * A_DAY])
        yield block[: SIZE * (COUNT - begin)]


def times() -> Iterator[str]:
    """The starts of these records."""
    clock = [time_of(START + index * STEP)[10:] for index in range(A_DAY)]
    for index in range(COUNT):
        yield f"2024-01-{index // A_DAY + 1:02}{clock[index % A_DAY]}"


CONTINUOUS = "XX_STA__BHZ continuous 2024-01-01T00:00:00.000000 rate 20/1 records {} samples {}"


def continuous(folder: Path) -> Cases:
    """One channel without a gap: its audits, its list, a copy of it, and copies of its end, by each way to name it."""
    path = written(folder / "continuous", days(record()))
    text = [CONTINUOUS.format(COUNT, COUNT * SAMPLES), f"records {COUNT} channels 1"]
    last = START + (COUNT - 1) * STEP
    part = ["mseed part 1", f"58585354412020202042485A records {COUNT} samples {COUNT * SAMPLES} head 1 0 {START} 20/1 "
            f"tail {last} {SAMPLES} 20/1 none findings 0", f"records {COUNT} bytes {COUNT * SIZE}"]
    listed = (f"{index * SIZE} XX_STA__BHZ D length 128 samples 16 start {time} rate 20/1 encoding 3 big"
              for index, time in enumerate(times()))
    asked = COUNT - 5 * A_DAY
    of_end = [CONTINUOUS.format(asked, asked * SAMPLES).replace("01-01T", "01-06T"), f"records {asked} channels 1"]
    for words, texts in [("audit", text), ("audit --each", text), ("audit --part", part),
                         ("audit --channels *_*_*_BHZ", text), ("audit --from 2024-01-06", of_end)]:
        yield Fact(f"{words} of a million records", wanted(0, lines(texts)), ended(words.split(), path))
    yield Fact("show of a million records", wanted(0, [*lines(listed), b"records %d\n" % COUNT]), ended(["show"], path))
    copy = wanted(0, days(record()))
    yield Fact("select of a million records", copy, ended(["select"], path))
    yield Fact("select of a file of a million records", copy, ended(["select", str(path)], Path("/dev/null")))
    yield Fact("select of the last records of a million", wanted(0, list(days(record()))[5:]),
               ended(["select", "--from", "2024-01-06T00:00:00", "--channels", "XX_*_*_*"], path))
    yield Fact("select of none of a million records", wanted(0, []), ended(["select", "--channels", "YY_*_*_*"], path))


def found_each(folder: Path) -> Cases:
    """One record a million times: each but the first overlaps the one before it, and is a stretch of its own."""
    path = written(folder / "same", [record() * 10_000] * (COUNT // 10_000))
    found = (f"{index * SIZE} XX_STA__BHZ record {index + 1} start 2024-01-01T00:00:00.000000 overlap 800000"
             for index in range(1, COUNT))
    text = [f"XX_STA__BHZ broken findings {COUNT - 1} first record 2 offset 128 overlap 800000",
            f"records {COUNT} channels 1"]
    yield Fact("audit --each of a million findings", wanted(1, [*lines(found), *lines(text)]),
               ended(["audit", "--each"], path))
    yield Fact("repack of a million findings", wanted(1, [], broken("XX_STA__BHZ", 2, 128, "overlap 800000")),
               ended(["repack"], path))
    [one] = packed(Series(CODES, START, 20, 1, list(range(SAMPLES))), exponent=7)
    stretches = bytearray(one * COUNT)
    numbers = "".join(f"{(index + 1) % 10**6:06}" for index in range(COUNT)).encode()
    put(stretches, 0, [numbers[at::6] for at in range(6)])
    yield Fact("repack --stretches of a million stretches", wanted(0, [stretches]),
               ended(["repack", "--stretches", "--length", "128"], path))


@functools.lru_cache(maxsize=None)
def of_zeros(count: int) -> bytes:
    """The record of so many samples that are 0."""
    [one] = packed(Series(CODES, START, 20, 1, [0] * count))
    return one


def packed_anew() -> Iterator[bytes]:
    """Sixteen million samples that are 0, in records of 512 bytes."""
    samples = COUNT * SAMPLES
    for index, first in enumerate(range(0, samples, FULL)):
        one = moved(of_zeros(min(FULL, samples - first)), START + first * STEP // SAMPLES, CODES, 20)
        yield b"%06d" % ((index + 1) % 10**6) + one[6:]


def packing(folder: Path) -> Cases:
    """A channel of sixteen million samples, packed anew: all at once, as one stretch, and of a window."""
    path = written(folder / "zeros", days(record(data=bytes(64))))
    for words in (["repack"], ["repack", "--stretches"], ["repack", "--from", "2024-01-01"]):
        yield Fact(f"{' '.join(words)} of a million records", wanted(0, packed_anew()), ended(words, path))


CHANNELS = 50_000


def key_of(channel: int) -> bytes:
    """The codes of a channel in the order of a key, ascending."""
    return b"XXS%04d%02dBHZ" % (channel // 100, channel % 100)


def many_channels(folder: Path) -> Cases:
    """A million records of many channels, in turn."""
    keys = [key_of(channel) for channel in range(CHANNELS)]
    block = bytearray(record() * CHANNELS)
    codes = b"".join(key[2:] + key[:2] for key in keys)
    put(block, 8, [codes[at::12] for at in range(12)])
    turns = COUNT // CHANNELS

    def blocks() -> Iterator[bytes]:
        for turn in range(turns):
            micros = turn * STEP
            put(block, 26, columns_of([micros // SECOND] * CHANNELS, 1))
            put(block, 28, columns_of([micros % SECOND // 100] * CHANNELS, 2))
            yield block

    path = written(folder / "channels", blocks())
    text = [CONTINUOUS.format(turns, turns * SAMPLES).replace("XX_STA__BHZ", name_of(key)) for key in keys]
    yield Fact("audit of a million records of many channels",
               wanted(0, lines([*text, f"records {COUNT} channels {CHANNELS}"])), ended(["audit"], path))
    chosen = [line for line in text if "_S0007_" in line]
    yield Fact("audit --channels of some of them",
               wanted(0, lines([*chosen, f"records {turns * len(chosen)} channels {len(chosen)}"])),
               ended(["audit", "--channels", "*_S0007_*_*"], path))
    last = START + (turns - 1) * STEP
    part = [f"{key.hex().upper()} records {turns} samples {turns * SAMPLES} head {index + 1} {index * SIZE} {START} "
            f"20/1 tail {last} {SAMPLES} 20/1 none findings 0" for index, key in enumerate(keys)]
    yield Fact("audit --part of them",
               wanted(0, lines(["mseed part 1", *part, f"records {COUNT} bytes {COUNT * SIZE}"])),
               ended(["audit", "--part"], path))


def part_of(channels: int) -> bytes:
    """The part of a record of each of so many channels."""
    kept = (f"{key_of(channel).hex().upper()} records 1 samples {SAMPLES} head {channel + 1} {channel * SIZE} {START} "
            f"20/1 tail {START} {SAMPLES} 20/1 none findings 0" for channel in range(channels))
    return b"".join(lines(["mseed part 1", *kept, f"records {channels} bytes {channels * SIZE}"]))


def joined(folder: Path) -> Cases:
    """A million lines of parts, of few channels and of many: each channel overlaps itself at each border."""
    for channels in (1000, CHANNELS):
        parts = COUNT // channels
        path = written(folder / "parts", [part_of(channels)] * parts)
        names = [name_of(key_of(channel)) for channel in range(channels)]
        text = [f"{name} broken findings {parts - 1} first record {channels + channel + 1} offset "
                f"{(channels + channel) * SIZE} overlap 800000" for channel, name in enumerate(names)]
        text.append(f"records {COUNT} channels {channels}")
        borders = (f"{index * SIZE} {names[index % channels]} record {index + 1} start 2024-01-01T00:00:00.000000 "
                   "overlap 800000" for index in range(channels, COUNT))
        kept = (f"{key_of(channel).hex().upper()} records {parts} samples {parts * SAMPLES} head {channel + 1} "
                f"{channel * SIZE} {START} 20/1 tail {START} {SAMPLES} 20/1 none findings {parts - 1} first "
                f"{channels + channel + 1} {(channels + channel) * SIZE} overlap 800000" for channel in range(channels))
        joint = ["mseed part 1", *kept, f"records {COUNT} bytes {COUNT * SIZE}"]
        for words, pieces in [("join", lines(text)), ("join --each", [*lines(borders), *lines(text)]),
                              (f"join --expect {parts}", lines(text)), ("join --part", lines(joint))]:
            yield Fact(f"{words} of {parts} parts of {channels} channels", wanted(1, pieces),
                       ended(words.split(), path))


# A feed's records, of 512 bytes, and the most that a ring keeps.
FED, CAPACITY = 250_000, 1_000_000


def fed() -> Iterator[bytes]:
    """The records of a feed, of which the sequence numbers go on."""
    block = bytearray(record_of(STA, 0) * 1000)
    for begin in range(0, FED, 1000):
        numbers = b"".join(b"%06d" % (begin + index) for index in range(1000))
        put(block, 0, [numbers[at::6] for at in range(6)])
        yield bytes(block)


def packets() -> Iterator[bytes]:
    """What a client is sent that asks for all of them."""
    yield GRANTED
    number = 0
    for block in fed():
        for at in range(0, len(block), 512):
            yield b"SL%06X" % number + block[at : at + 512]
            number += 1
    yield b"END"


def stream_of(link: socket.socket) -> tuple[int, str]:
    """The length and a checksum of what a link brings, to its end."""
    link.settimeout(LIMIT)
    link.sendall(b"STATION STA XX\r\nFETCH 0\r\nEND\r\n")
    return digest_of(iter(lambda: link.recv(CHUNK), b""))


def last_is_there(port: int) -> bool:
    """Whether the last record can be had."""
    with dialled(port) as link:
        link.sendall(b"STATION STA XX\r\nFETCH %06X\r\nEND\r\n" % (FED - 1))
        return PATIENCE.taken(link, len(GRANTED)) == GRANTED


def served(folder: Path) -> Cases:
    """A feed of many records, which its one ring has room for, served to a client each in both ways."""
    path = written(folder / "feed", fed())
    sent = digest_of(packets())
    server = Server(path.read_bytes(), [STA], "--capacity", CAPACITY)
    with dialled(server.port) as link:
        yield Fact(f"serve of {FED} records", sent, stream_of(link))
    yield Fact(f"serve of {FED} records ends", FINE, server.end())
    live = Live("--capacity", CAPACITY, "--timeout", LIMIT)
    for block in fed():
        live.feed(block)
    is_there = PATIENCE.until(lambda: last_is_there(live.port))
    yield holds(f"serve --live has {FED} records", is_there)
    with dialled(live.port) as link:
        yield Fact(f"serve --live of {FED} records", sent, stream_of(link))
    yield Fact(f"serve --live of {FED} records ends", FINE, live.end())


def rows() -> Cases:
    """All of them."""
    makes: list[Callable[[Path], Cases]] = [continuous, found_each, packing, many_channels, joined, served]
    for make in makes:
        with tempfile.TemporaryDirectory() as folder:
            yield from make(Path(folder))
