"""Records as the program judges them: where each begins and ends, its codes, and the day of its first sample."""

from __future__ import annotations

import hashlib
import os
import re
from typing import Iterator, NamedTuple, Optional, Sequence

from mseed_tools.program import Program, ToolError
from mseed_tools.seeking import ENDS, next_candidate
from mseed_tools.texts import shown_by

NO_TIME = "fault"
LINE = shown_by("offset", "name", "start")
END = re.compile(r"records (\d+)\n(?:fault at (\d+) (.+)\n)?")


class Judged(NamedTuple):
    """The records of some bytes, each by its name and its start; where each begins, and where the last one ends; and
    why they end before these bytes do."""

    names: Sequence[str]
    starts: Sequence[str]
    offsets: Sequence[int]
    fault: Optional[str]

    @property
    def end(self) -> int:
        """Where the records end."""
        return self.offsets[-1]

    def latest(self) -> str:
        """The latest start; empty where there is none."""
        return max((start for start in self.starts if not start.startswith(NO_TIME)), default="")


def judged(program: Program, content: bytes) -> Judged:
    """What the program says of some bytes."""
    return judgement_in(program.run(["show"], content).out, len(content))


def judgement_in(text: str, size: int) -> Judged:
    """What a text of `show` says of so many bytes. Raises ToolError where it is none."""
    place = max(text.rfind("records "), 0)
    found, lines = END.fullmatch(text, place), LINE.findall(text, 0, place)
    if found is None or not len(lines) == int(found[1]) == text.count("\n", 0, place):
        raise ToolError(f"no list of records: {text[-100:]!r}")
    offsets, names, starts = zip(*lines) if lines else ((), (), ())
    return Judged(names, starts, [*map(int, offsets), int(found[2]) if found[3] else size], found[3])


def pieces_of(program: Program, file: int, size: int) -> Iterator[tuple[int, Judged]]:
    """What the program says of a file, piece by piece, each with where it begins: behind what is no record it goes on
    at the next multiple of 64 bytes where a record is framed."""
    at = 0
    while at < size:
        os.lseek(file, at, os.SEEK_SET)
        piece = judgement_in(program.run(["show"], file).out, size - at)
        if at == 0 or piece.names:
            yield at, piece
        if piece.fault in (None, *ENDS):
            return
        at = next_candidate(file, at + piece.end, size)


def mark_of(record: bytes) -> bytes:
    """A digest of 128 bits, in the place of a record."""
    return hashlib.blake2b(record, digest_size=16).digest()
