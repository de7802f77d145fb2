"""The one maker of records: a sound one, named by what is changed of it, and what other bytes make of it.

The record is 16 integers at 20 a second from the first instant of 2024, in 128 bytes, big-endian, with a blockette 1000
at 48 and a 1001 at 56, by the tables of docs/format.md.
"""

from __future__ import annotations

import struct
from typing import Iterable, Optional, Sequence, Tuple

# Other bytes at an offset.
Part = Tuple[int, bytes]


def integers(samples: Iterable[int]) -> bytes:
    """Samples as big-endian integers of 32 bits."""
    return b"".join(struct.pack(">i", sample) for sample in samples)


def blockette_1000(next: int = 56, encoding: int = 3, word_order: int = 1, exponent: int = 7,
                   order: str = ">") -> bytes:
    """The blockette that says what a record holds, of 2^exponent bytes."""
    return struct.pack(order + "HHBBBB", 1000, next, encoding, word_order, exponent, 0)


def blockette_1001(next: int = 0, micros: int = 0, order: str = ">", frames: int = 0) -> bytes:
    """The blockette that has the microseconds of a start."""
    return struct.pack(order + "HHBbBB", 1001, next, 0, micros, 0, frames)


def record(codes: bytes = b"STA    BHZXX", quality: bytes = b"D", year: int = 2024, day: int = 1, hour: int = 0,
           minute: int = 0, second: int = 0, fraction: int = 0, samples: int = 16, factor: int = 20,
           multiplier: int = 1, activity: int = 0, correction: int = 0, encoding: int = 3, word_order: int = 1,
           exponent: int = 7, micros: int = 0, next: int = 0, first: int = 48, order: str = ">", frames: int = 0,
           sequence: int = 1, blockettes: Optional[bytes] = None, data: bytes = integers(range(16))) -> bytes:
    """The record but for what is named. The first blockette is given as at `first`; the header and `blockettes` are
    at the beginning, whatever it says."""
    header = b"%06d" % sequence + quality + b" " + codes
    header += struct.pack(order + "HHBBBBH", year, day, hour, minute, second, 0, fraction)
    header += struct.pack(order + "Hhh", samples, factor, multiplier)
    header += struct.pack(order + "BBBBiHH", activity, 0, 0, 2, correction, 64, first)
    if blockettes is None:
        blockettes = blockette_1000(56, encoding, word_order, exponent, order)
        blockettes += blockette_1001(next, micros, order, frames)
    return (header + blockettes + data).ljust(2**exponent, b"\0")


def next_record(**changes) -> bytes:
    """The one that follows it."""
    return record(**{"fraction": 8000, **changes})


def payload(words: str, frames: int = 1) -> bytes:
    """Frames that begin with these words; the rest are 0."""
    return bytes.fromhex(words).ljust(64 * frames, b"\0")


def frame(words: str, samples: int, encoding: int = 10, **changes) -> bytes:
    """A record of one frame, of which these are the first words."""
    return record(samples=samples, encoding=encoding, data=payload(words), **changes)


def changed(record: bytes, parts: Sequence[Part]) -> bytes:
    """A record with other bytes at some offsets."""
    bytes_of = bytearray(record)
    for offset, part in parts:
        bytes_of[offset : offset + len(part)] = part
    return bytes(bytes_of)


def at(offset: int, *part: int) -> Part:
    """Bytes at an offset, as numbers."""
    return offset, bytes(part)


# The steps of framing: which bytes are where, and the fault that no bytes that may come can mend.
FRAMING: list[tuple[list[Part], str]] = [
    ([(0, b"x")], "notdata"), ([(5, b"/")], "notdata"), ([(6, b"X")], "notdata"), ([(7, b"0")], "notdata"),
    ([(0, b"MS\x03")], "version3"),
    ([at(20, 7, 107)], "order"),  # 1899; 27399 the other way
    ([at(20, 8, 53)], "order"),  # 2101; 13576 the other way
    ([at(22, 0, 0)], "order"), ([at(22, 1, 111)], "order"),
    ([at(46, 0, 0)], "no1000"), ([at(48, 1, 244, 0, 0)], "no1000"),
    ([at(46, 0, 1)], "chain"), ([at(46, 0, 47)], "chain"), ([at(48, 1, 244, 0, 48)], "chain"),
    ([at(48, 1, 244, 0, 51)], "chain"),
    ([at(54, 6)], "length 6"), ([at(54, 21)], "length 21"),
    ([at(46, 0, 124), at(124, 3, 232, 0, 0, 3, 1, 7, 0)], "outside"),
]

# Bytes that mean something somewhere.
TELLING = [0x00, 0x01, 0x02, 0x03, 0x07, 0x0A, 0x0B, 0x10, 0x20, 0x30, 0x40, 0x48, 0x64, 0x7F, 0x80, 0xE8, 0xE9, 0xFF]


def chain_of_500(last: int) -> bytes:
    """The longest chain of blockettes of which none is a 1000, each naming the next; the last one names this."""
    following = [offset + 4 for offset in range(48, 65532, 4)] + [last]
    return b"".join(struct.pack(">HH", 500, offset) for offset in following)
