"""What is read of a file: parts of what the program frames in it, and where it doesn't."""

from __future__ import annotations

import os
import time
from typing import Iterator, NamedTuple, Optional

from mseed_tools.covering import Covered, Listing, OwnPiece, covered_by
from mseed_tools.files import opened
from mseed_tools.program import Program, ToolError
from mseed_tools.seeking import ENDS, Fault, next_candidate
from mseed_tools.texts import Found, Part, Shown, found_in, name_of, part_in, parted, shown_in
from mseed_tools.tree import DayFile

SECONDS = 10**9


class Piece(NamedTuple):
    """What the program read from an offset on, up to the file's end or a fault."""

    at: int
    found: list[Found]
    part: Part
    texts: tuple[str, str]


class Stamp(NamedTuple):
    """By what a file is known to be the same."""

    size: int
    mtime: int
    ctime: int

    def is_old(self, now: int) -> bool:
        """Whether a change from now on shows. Some systems keep times in steps: in whole seconds, or some dozen
        milliseconds."""
        latest = max(self.mtime, self.ctime)
        return latest + (3 * SECONDS if latest % SECONDS == 0 else SECONDS // 10) < now


class Reading(NamedTuple):
    """What was read of a file, and what the records of the channel that its name says cover. `problem` says why it
    isn't trusted, if so: it changed meanwhile, or can't be read."""

    stamp: Stamp
    pieces: list[Piece]
    faults: list[Fault]
    problem: Optional[str] = None
    is_kept: bool = False
    covered: Covered = Covered([], [])


def unread(problem: str, size: int = 0) -> Reading:
    """Nothing of a file."""
    return Reading(Stamp(size, 0, 0), [], [], problem)


def stamp_of(status: os.stat_result) -> Stamp:
    """That of a file with this status."""
    return Stamp(status.st_size, status.st_mtime_ns, status.st_ctime_ns)


def piece_of(at: int, found: str, part: str) -> Piece:
    """A piece by its texts."""
    return Piece(at, list(found_in(found)), part_in(part), (found, part))


def read_pieces(program: Program, file: int, size: int) -> tuple[list[Piece], list[Fault]]:
    """Reads a file from its beginning, and on after what is no record."""
    pieces: list[Piece] = []
    faults: list[Fault] = []
    at = 0
    ended: Optional[tuple[int, str]] = None
    while ended is None or at < size:
        os.lseek(file, at, os.SEEK_SET)
        piece = piece_of(at, *parted(program.run(["audit", "--part", "--each"], file).out))
        after = at
        if ended is None or piece.part.records:
            if ended is not None:
                faults.append(Fault(*ended, at - ended[0]))
            pieces.append(piece)
            after = at + piece.part.bytes
            if piece.part.fault is None:
                return pieces, faults
            ended = after, piece.part.fault
            if piece.part.fault in ENDS:
                return pieces, [*faults, Fault(*ended, 0)]
        at = next_candidate(file, after, size)
    return pieces, [*faults, Fault(*ended, size - ended[0])]


def own_pieces(pieces: list[Piece], name: str) -> Iterator[OwnPiece]:
    """What there is of a channel in pieces, where there is something."""
    for piece in pieces:
        kept = [one for one in piece.part.channels if name_of(one.key) == name]
        if kept:
            yield OwnPiece(piece.at, kept, [one for one in piece.found if one.name == name])


def read_file(program: Program, path: str, place: Optional[DayFile] = None) -> Reading:
    """Reads a file, which may be that of a channel and a day, and says so where it changed meanwhile."""
    now, covered = time.time_ns(), Covered([], [])
    try:
        with opened(path) as file:
            status = os.fstat(file)
            pieces, faults = read_pieces(program, file, status.st_size)
            if place is not None:
                listing = Listing(program, file, place.channel)
                covered = covered_by(listing, own_pieces(pieces, place.channel), place.day)
            # What has its name now is requested, since another file may have taken its place.
            after = os.stat(path)
    except OSError:
        return unread("read")
    except ValueError as error:
        raise ToolError(f"{path}: a text that is none of mseed's: {error}") from error
    held = sum(piece.part.bytes for piece in pieces) + sum(fault.skipped for fault in faults)
    is_same = stamp_of(status) == stamp_of(after) and (status.st_ino, status.st_dev) == (after.st_ino, after.st_dev)
    is_whole = held == status.st_size or any(fault.why in ENDS for fault in faults)
    if not is_same or not is_whole:
        return unread("changed", after.st_size)
    return Reading(stamp_of(status), pieces, faults, None, stamp_of(status).is_old(now), covered)


def shown(program: Program, path: str, reading: Reading) -> list[Shown]:
    """The records of a file, each with its offset in the file."""
    records: list[Shown] = []
    for piece in reading.pieces:
        with opened(path) as file:
            os.lseek(file, piece.at, os.SEEK_SET)
            for record in shown_in(program.run(["show"], file).out):
                records.append(record._replace(offset=record.offset + piece.at))
    return records
