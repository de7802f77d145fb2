"""Where reading goes on after what is no record: at the next multiple of 64 bytes where one may begin."""

from __future__ import annotations

import os
from typing import NamedTuple

STEP = 64
CHUNK = 2**20
NUMBERS, QUALITIES, RESERVED = b"0123456789 \0", b"DRQM", b" \0"
# Faults after which reading doesn't go on.
ENDS = ("read", "turns")


class Fault(NamedTuple):
    """Where reading ended, why, and how many bytes further it went on."""

    at: int
    why: str
    skipped: int


def may_begin(chunk: bytes, at: int) -> bool:
    """Whether the first eight bytes there are those of a header. The program judges what such bytes begin."""
    return chunk[at + 6] in QUALITIES and chunk[at + 7] in RESERVED \
        and all(byte in NUMBERS for byte in chunk[at : at + 6])


def next_candidate(file: int, after: int, size: int) -> int:
    """The next multiple of 64 bytes where a record may begin; the file's end where there is none."""
    at = (after // STEP + 1) * STEP
    while at + 8 <= size:
        chunk = os.pread(file, CHUNK, at)
        for place in range(0, len(chunk) - 7, STEP):
            if chunk[place + 6] in QUALITIES and may_begin(chunk, place):
                return at + place
        if len(chunk) < 8:
            break
        at += CHUNK
    return size
