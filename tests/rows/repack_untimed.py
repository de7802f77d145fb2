"""What `repack` says of records without a time: how many of those that a window may ask for, once and before any other
line, where it packs an archive, refuses it, or ends by a fault of its input; and nothing of them where its output fails
or memory is refused, but where `--leave` left a channel out."""

from __future__ import annotations

from typing import Iterator, Sequence

from driver.helpers import COMPILER, library, preloaded, refused_in_turn
from driver.program import SAMPLES
from driver.records import payload, record
from driver.rows import Case, Cases, Fact, Row, Skipped, both, holds
from driver.texts import DEVICE_ERROR, NO_MEMORY, WRITE_FAILED, broken

WINDOW = ["--from", "2024-001"]
OF_CHANNEL = ["--channels", "*_*_*_BHZ", *WINDOW]
WAYS = [[], ["--stretches"], ["--stretches", "--leave"]]
# Two records of one channel, one where the other ends, and what they are packed into.
TWO = (SAMPLES / "two_records.mseed").read_bytes()
PACKED = record(samples=32, encoding=11, frames=1, data=payload(
    "03FD0000 00000000 0000001F 80111111 81111111 81111111 81111111 01010101"))
UNTIMED = record(hour=24)
OTHER = record(codes=b"STA    BHNXX", minute=60)
# A record of another channel whose samples can't be read, and one after a gap.
LOG = record(codes=b"LOG    LOGXX", encoding=99)
LATE = record(second=5)
# All that a call moves.
WHOLE = 65536


def told(count: int) -> bytes:
    """The line of so many records without a time, where there are any."""
    return b"mseed: %d records without a time\n" % count if count else b""


# The line about that channel where it is left out.
LOG_LEFT_OUT = b"mseed: XX_LOG__LOG is broken\n"


def repack(options: Sequence[str]) -> list[str]:
    """The command, in records of 128 bytes."""
    return ["repack", "--length", "128", *options]


def packed() -> Cases:
    """Of what is packed, and of what is refused for a channel."""
    for name, archive, words, count in (
        ("none", TWO, WINDOW, 0),
        ("one", UNTIMED + TWO, WINDOW, 1),
        ("two, around", UNTIMED + TWO + UNTIMED, ["--until", "2025-001"], 2),
        ("of two channels", OTHER + TWO + UNTIMED, WINDOW, 2),
        ("of a channel that isn't asked for", OTHER + TWO + UNTIMED, OF_CHANNEL, 1),
        ("without a window", OTHER + TWO, OF_CHANNEL[:2], 0),
    ):
        for way in WAYS:
            yield from both(Row(f"{name}, packed {way}", archive, repack([*way, *words]), 0, PACKED, told(count)))
    yield Row("a gap", UNTIMED + TWO + LATE, repack(WINDOW), 1, b"",
              told(1) + broken("XX_STA__BHZ", 4, 384, "gap 3400000"))
    yield Row("a record that can't be read", UNTIMED + TWO + LOG, repack([*WAYS[1], *WINDOW]), 1, b"",
              told(1) + broken("XX_LOG__LOG", 4, 384, "encoding 99"))
    yield Row("a record that can't be read, left out", UNTIMED + TWO + LOG + OTHER, repack([*WAYS[2], *WINDOW]), 1,
              PACKED, told(2) + LOG_LEFT_OUT)
    yield Row("the same of one channel", UNTIMED + TWO + LOG + OTHER, repack([*WAYS[2], *OF_CHANNEL]), 0, PACKED,
              told(1))
    yield Row("all without a time", UNTIMED * 3, repack(WINDOW), 0, b"", told(3))


def faults() -> Cases:
    """Of an input with a fault: of the records before it."""
    junk, cut = b"x" * 48, UNTIMED[:100]
    for name, archive, count, fault in (
        ("junk, none before it", TWO + junk + UNTIMED, 0, "256 notdata"),
        ("junk, one before it", UNTIMED + TWO + junk + UNTIMED, 1, "384 notdata"),
        ("junk at once", junk + UNTIMED, 0, "0 notdata"),
        ("junk behind two", TWO + UNTIMED * 2 + junk, 2, "512 notdata"),
        ("cut off, none before it", TWO + cut, 0, "256 truncated 100"),
        ("cut off, one before it", UNTIMED + TWO + cut, 1, "384 truncated 100"),
        ("cut off, and refused else", UNTIMED + TWO + LATE + LOG + cut, 1, "640 truncated 100"),
    ):
        line = f"mseed: fault at {fault}\n".encode()
        for way in WAYS:
            yield from both(Row(f"{name} {way}", archive, repack([*way, *WINDOW]), 2, b"", told(count) + line))
            yield Row(f"{name} {way}, without a window", archive, repack(way), 2, b"", line)
            yield Row(f"{name} {way}, of another channel", archive, repack([*way, "--channels", "*_*_*_BHN", *WINDOW]),
                      2, b"", line)


def failed_reads(failing: str) -> Cases:
    """Of an input that fails: of the records that were read before, whole and one after another."""
    archive = UNTIMED + OTHER + TWO + UNTIMED
    for size in (0, 1, 64, 127, 128, 129, 255, 256, 300, 512, 639, 640):
        line = b"mseed: fault at %d read\n" % size
        whole = size // 128
        for way in WAYS:
            for words, count in ((WINDOW, min(whole, 2) + (whole == 5)), (OF_CHANNEL, min(whole, 1) + (whole == 5)),
                                 (OF_CHANNEL[:2], 0)):
                for piece in (100, WHOLE):
                    yield Row(f"a read that fails after {size} bytes, {piece} at once {way} {words}", archive,
                              repack([*way, *words]), 2, b"", told(count) + line + DEVICE_ERROR,
                              env=preloaded(failing, READ_ROOM=size, PIECE=piece))
    yield Row("junk before a read that fails", UNTIMED + b"x" * 48 + UNTIMED, repack(WINDOW), 2, b"",
              told(1) + b"mseed: fault at 200 read\n" + DEVICE_ERROR,
              env=preloaded(failing, READ_ROOM=200, PIECE=WHOLE))


def failed_writes(failing: str) -> Cases:
    """Of an output that fails: nothing, where no channel was left out before."""
    for room in (0, 1, 64, 127):
        env = preloaded(failing, WRITE_ROOM=room, PIECE=WHOLE)
        for way in WAYS:
            yield Row(f"an output that takes {room} bytes {way}", UNTIMED + TWO, repack([*way, *WINDOW]), 2,
                      PACKED[:room], WRITE_FAILED, env=env)
        for name, archive, count in (("none", TWO + LOG, 0), ("two", UNTIMED + TWO + LOG + OTHER, 2)):
            yield Row(f"an output that takes {room} bytes, a channel left out, {name} without a time", archive,
                      repack([*WAYS[2], *WINDOW]), 2, PACKED[:room], told(count) + LOG_LEFT_OUT + WRITE_FAILED,
                      env=env)


def refused(refusing: str) -> Iterator[Case]:
    """Where memory is refused, whenever it is: nothing."""
    for name, archive, way, status, out, err in (
        ("whole", UNTIMED + TWO, WAYS[0], 0, PACKED, told(1)),
        ("stretches", UNTIMED + TWO, WAYS[1], 0, PACKED, told(1)),
        ("a channel left out", UNTIMED + TWO + LOG, WAYS[2], 1, PACKED, told(1) + LOG_LEFT_OUT),
        ("a fault", UNTIMED + TWO + b"x" * 48, WAYS[0], 2, b"", told(1) + b"mseed: fault at 384 notdata\n"),
    ):
        row = Row("", archive, repack([*way, *WINDOW]), status)
        for number, came in refused_in_turn(row, refusing):
            if came.err != NO_MEMORY:
                break
            yield Fact(f"{name}, request {number} for memory refused", (2, b""), (came.status, came.out))
        yield Fact(f"{name}, with request {number} for memory granted too", (status, out, err),
                   (came.status, came.out, came.err))
        yield holds(f"{name}: memory is requested", number > 5, number)


def rows() -> Cases:
    """All of them."""
    yield from packed()
    yield from faults()
    failing, refusing = library("failing_devices"), library("refuse_memory")
    if failing is None or refusing is None:
        yield Skipped("devices that fail, and memory that is refused", COMPILER)
        return
    yield from failed_reads(failing)
    yield from failed_writes(failing)
    yield from refused(refusing)
