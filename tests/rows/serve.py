"""Archives for `serve`, sound and damaged: the status, the standard error and the output, which stays empty.

The port is taken, so that an archive that can be served ends with a failed link: what is wrong with the others is found
before a socket is opened.
"""

from __future__ import annotations

from typing import Sequence

from driver.helpers import COMPILER, library, preloaded, refused_in_turn
from driver.links import listening, port_of
from driver.records import record
from driver.rows import Cases, Fact, Row, Skipped, both, holds
from driver.texts import NO_MEMORY, foreign, keeps, unlistened


def of(station: str, network: str, exponent: int = 9, **changes) -> bytes:
    """A record of 512 bytes of this station and network."""
    codes = station.ljust(5).encode() + b"  BHZ" + network.ljust(2).encode()
    return record(codes=codes, exponent=exponent, **changes)


STA, STB, OTHER = of("STA", "XX"), of("STB", "XX"), of("STC", "XX")
BOTH = STA + STB + STB + STA
NETWORK = of("STA", "XY")
CUT = STA + STA[:300]

# Archives that can be served, further arguments, and the lines of stations of which more records came than are kept.
SERVED: list[tuple[str, bytes, Sequence[str], bytes]] = [
    ("an empty archive", b"", [], b""),
    ("a record of the place", STA, [], b""),
    ("as many records as the ring keeps", STA * 1000, [], b""),
    ("one record more than the ring keeps", STA * 1001, [], keeps("XX_STA", 1000, 1001)),
    ("more records than the ring keeps", STA * 1200, [], keeps("XX_STA", 1000, 1200)),
    ("a ring of one", STA * 1200, ["--capacity", "1"], keeps("XX_STA", 1, 1200)),
    ("a ring of a million", STA, ["--capacity", "1000000", "--first", "FFFFFF"], b""),
    ("a ring of two that begins at the last number", STA * 3, ["--capacity", "2", "--first", "FFFFFF"],
     keeps("XX_STA", 2, 3)),
    ("a little-endian header", of("STA", "XX", order="<"), [], b""),
    ("records of two places", BOTH, ["XX_STB"], b""),
    ("records of two places in rings of one", BOTH, ["--capacity", "1", "XX_STB"],
     keeps("XX_STA", 1, 2) + keeps("XX_STB", 1, 2)),
    ("two rings, of which the second is too small", STB * 5 + STA * 4, ["--capacity", "4", "XX_STB", "YY_STA"],
     keeps("XX_STB", 4, 5)),
    ("a place of one letter each", of("Z", "A") * 2, ["--capacity", "1", "A_Z"], keeps("A_Z", 1, 2)),
    ("places without records", STA, ["XX_STB", "YY_STA"], b""),
]
# Archives that can't be served, each with what is written of it.
REFUSED: list[tuple[str, str, bytes, Sequence[str]]] = [
    ("a record of 128 bytes", foreign(1, "XX_STA", 128), of("STA", "XX", 7), []),
    ("a second record of 1024 bytes", foreign(2, "XX_STA", 1024), STA + of("STA", "XX", 10), []),
    ("a record of 4096 bytes of another station", foreign(3, "XX_OTHR", 4096), STA + STA + of("OTHR", "XX", 12), []),
    ("a third record of another station", foreign(3, "XX_STC", 512), STA + STA + OTHER + STA, []),
    ("another network", foreign(1, "XY_STA", 512), NETWORK, []),
    ("a station that begins alike", foreign(1, "XX_STAA", 512), of("STAA", "XX"), []),
    ("a shorter network", foreign(1, "X_STA", 512), of("STA", "X"), []),
    ("small letters", foreign(1, "XX_sta", 512), of("sta", "XX"), []),
    ("a station filled with NULs", foreign(1, "XX_STA", 512), record(codes=b"STA\0\0  BHZXX", exponent=9), []),
    ("a network with a NUL", foreign(1, "X_STA", 512), record(codes=b"STA    BHZX\0", exponent=9), []),
    ("a network of a NUL and a letter", foreign(1, "?X_STA", 512), record(codes=b"STA    BHZ\0X", exponent=9), []),
    ("bytes that can't be printed", foreign(1, "?X_\x7eT? ?", 512),
     record(codes=b"\x7eT\x7f \xff  BHZ\x1fX", exponent=9), []),
    ("no station and no network", foreign(1, "_", 512), record(codes=b"       BHZ  ", exponent=9), []),
    ("a record of another place after many", foreign(1200, "XX_STB", 512), STA * 1199 + STB, []),
    ("a second place that is not requested", foreign(2, "XX_STB", 512), BOTH, []),
    ("a third place", foreign(3, "XX_STC", 512), STA + STA + OTHER + STA, ["XX_STB"]),
    ("an end within a record", "fault at 512 truncated 300", CUT, []),
    ("an end within a header", "fault at 1024 truncated 47", STA + STA + STA[:47], []),
    ("an end after more records than the ring keeps", "fault at 614400 truncated 1", STA * 1200 + STA[:1], []),
    ("an end within a record of another place", "fault at 512 truncated 511", STA + OTHER[:511], []),
    ("a record of another place before an end", foreign(2, "XX_STC", 512), STA + OTHER + STA[:300], []),
    ("a record of another place before other bytes", foreign(1, "XX_STC", 512), OTHER + b"x" * 48, []),
    ("other bytes", "fault at 512 notdata", STA + b"x" * 48 + OTHER, []),
    ("miniSEED 3", "fault at 512 version3", STA + b"MS\3", []),
]


def inputs_that_fail(words: Sequence[str]) -> Cases:
    """An input that fails after so many bytes: the last whole record's end is named."""
    failing = library("failing_devices")
    if failing is None:
        yield Skipped("serve over an input that fails", COMPILER)
        return
    for size in (0, 1, 511, 512, 513, 1023, 1024):
        yield Row(f"an input that fails after {size} bytes", STA * 1200, words, 2, b"",
                  f"mseed: fault at {size // 512 * 512} read\n".encode(), env=preloaded(failing, READ_ROOM=size))


def refused_memory(words: Sequence[str], port: int) -> Cases:
    """Each allocation is refused in turn, until there is none to refuse."""
    refusing = library("refuse_memory")
    if refusing is None:
        yield Skipped("serve with allocations refused", COMPILER)
        return
    for name, kept, lines, archive, further in (
        ("a record", b"", unlistened(port), STA, []),
        ("records of two places", b"", unlistened(port), BOTH, ["XX_STB"]),
        ("more records than the ring keeps", keeps("XX_STA", 1, 2), unlistened(port), STA + STA, ["--capacity", "1"]),
        ("a record of another place", b"", f"mseed: {foreign(1, 'XY_STA', 512)}\n".encode(), NETWORK, []),
        ("an end within a record", b"", b"mseed: fault at 512 truncated 300\n", CUT, []),
    ):
        row, later = Row(name, archive, [*words, *further], 2, b"", kept + lines), []
        for number, came in refused_in_turn(row, refusing):
            if came.err == kept + NO_MEMORY:
                later.append(number)
            elif came.err != NO_MEMORY:
                break
            yield Fact(f"{name} with allocation {number} refused", (2, b""), came[:2])
        yield Fact(f"{name} with no allocation refused at {number}", (2, b"", row.err), came[:3])
        yield holds(f"{name} allocates", number > 5, number)
        # The last allocation is that of the room for packets, after it was said what the ring keeps.
        yield holds(f"{name}: what is refused late", not kept or later == [number - 1], (later, number))


def rows() -> Cases:
    """All of them."""
    with listening() as taken:
        port = port_of(taken)
        words = ["serve", "--port", str(port), "--station", "STA", "--network", "XX"]
        for name, archive, further, lines in SERVED:
            yield from both(Row(name, archive, [*words, *further], 2, b"", lines + unlistened(port)))
        for name, line, archive, further in REFUSED:
            yield from both(Row(name, archive, [*words, *further], 2, b"", f"mseed: {line}\n".encode()))
        yield from inputs_that_fail(words)
        yield from refused_memory(words, port)
