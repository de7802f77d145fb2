"""Readings that are joined: what stands in each channel over files one after another."""

from __future__ import annotations

import re
from typing import Callable, NamedTuple, Optional, Sequence

from mseed_tools.instants import SECOND, micros_of, time_of
from mseed_tools.program import Done, Program, ToolError
from mseed_tools.reading import Reading, shown
from mseed_tools.texts import BEGIN, Found, Kept, Part, Shown, name_of, part_in

# How a channel's first record begins, and its last one ends, where the program keeps it.
ENDS = re.compile(r"head (?:none|(?P<number>\d+) (?P<offset>\d+) (?P<start>-?\d+) (?P<rate>\d+/\d+)) "
                  r"tail (?:none|(?P<tail>-?\d+ \d+ \d+/\d+ \w+)) findings")
FIRST_FOUND = re.compile(r"\S+ broken findings 1 first record \d+ offset \d+ (.+)")
# The encodings whose samples the program reads.
DECODED = [1, 3, 10, 11]


class FoundAt(NamedTuple):
    """A record with a finding: its file's place among the files, and its offset and number in that file."""

    file: int
    found: Found


class Channel(NamedTuple):
    """What stands in a channel over all files; `start` and `end` in microseconds, as far as any record has them."""

    name: str
    records: int
    samples: int
    start: Optional[int]
    end: Optional[int]
    findings: int
    found: list[FoundAt]
    files: list[int]
    is_decoded: bool = True

    def of_kind(self, kind: str) -> list[int]:
        """The microseconds of each gap, or of each overlap."""
        lengths = [at.found.micros(kind) for at in self.found]
        return [length for length in lengths if length is not None]

    @property
    def state(self) -> str:
        """What counts it."""
        return "undecoded" if not self.is_decoded else "broken" if self.findings else "continuous"


class Piece(NamedTuple):
    """The channels of a piece of a file: their lines, the file's place, the piece's offset, and the file's records
    before it."""

    channels: list[Kept]
    file: int
    at: int
    before: int


class Border(NamedTuple):
    """How a channel ends in the pieces before, and how it begins in this one."""

    name: str
    tail: str
    head: re.Match[str]
    piece: Piece


class Files:
    """Files with what was read of them, one after another, whose records are listed when they are wanted."""

    def __init__(self, program: Program, paths: Sequence[str], readings: Sequence[Reading]):
        self.program, self.paths, self.readings = program, paths, readings
        self.lists: dict[int, list[Shown]] = {}

    def shown(self, file: int) -> list[Shown]:
        """The records of a file; none where it can't be read any more."""
        if file not in self.lists:
            try:
                self.lists[file] = shown(self.program, self.paths[file], self.readings[file])
            except OSError:
                self.lists[file] = []
        return self.lists[file]

    def first_start(self, name: str, files: Sequence[int]) -> Optional[int]:
        """The start of the first record of a channel that has one."""
        for file in files:
            for record in self.shown(file):
                if record.name == name and record.samples and micros_of(record.start) is not None:
                    return micros_of(record.start)
        return None

    def last_end(self, name: str, files: Sequence[int]) -> Optional[int]:
        """The end of the last record of a channel that has one; its start where it has no rate."""
        for file in reversed(files):
            for record in reversed(self.shown(file)):
                start = micros_of(record.start)
                if record.name == name and record.samples and start is not None:
                    return start + (int(record.samples * SECOND / record.rate) if record.rate else 0)
        return None

    def is_decoded(self, name: str, findings: int, records: int, found: Sequence[FoundAt]) -> bool:
        """Whether some record is of an encoding that the program reads."""
        if findings < records or any(at.found.why.split()[0] not in ("encoding", "norate") for at in found):
            return True
        without_rate = {(at.file, at.found.offset) for at in found if at.found.why == "norate"}
        return any((file, record.offset) in without_rate and record.encoding in DECODED
                   for file in sorted({file for file, _ in without_rate}) for record in self.shown(file))


def joined_by(program: Program, parts: Sequence[bytes], is_part: bool = False) -> Done:
    """What the program says of parts, one after another, of which it expects as many as there are; or their joint
    part. Raises ToolError where that isn't there."""
    done = program.run(["join", *["--part"] * is_part, "--past-faults", *expecting(len(parts))], b"".join(parts))
    if is_part and not done.out.startswith(BEGIN):
        raise ToolError(f"{program.path} join: status {done.status}, {done.err[-200:].strip()}")
    return done


def expecting(count: int) -> list[str]:
    """The options by which a join refuses another number of parts than this; none for no part, which it can't expect."""
    return ["--expect", str(count)] if count else []


def joint_part(program: Program, parts: Sequence[str]) -> Part:
    """The joint part of parts."""
    done = joined_by(program, [part.encode("ascii") for part in parts], is_part=True)
    try:
        return part_in(done.out)
    except (ValueError, IndexError) as error:
        raise ToolError(f"{program.path} join: {error}") from error


def ends_in(line: str) -> re.Match[str]:
    """How a channel begins and ends, by its line."""
    found = ENDS.search(line)
    if found is None:
        raise ValueError(line)
    return found


def met(pieces: Sequence[Piece]) -> list[Border]:
    """The borders between pieces of which the program keeps both sides, in order."""
    tails: dict[str, Optional[str]] = {}
    borders = []
    for piece in pieces:
        for kept in piece.channels:
            ends, tail = ends_in(kept.line), tails.get(kept.key)
            if tail and ends["number"]:
                borders.append(Border(name_of(kept.key), tail, ends, piece))
            tails[kept.key] = ends["tail"]
    return borders


def found_between(program: Program, borders: Sequence[Border]) -> list[FoundAt]:
    """The findings at borders, each in its file. The program judges all in one run: each is a channel of its own, whose
    two sides are the records of two parts."""
    before, after = [], []
    for number, border in enumerate(borders):
        start, rate = border.head["start"], border.head["rate"]
        begins = f"{number:024X} records 1 samples 1 head 1 0 {start} {rate}"
        before.append(f"{begins} tail {border.tail} findings 0\n")
        after.append(f"{begins} tail {start} 1 {rate} none findings 0\n")
    counts = f"records {len(borders)} bytes 0\n"
    done = program.run(["join", *expecting(2)],
                       "".join([BEGIN, *before, counts, BEGIN, *after, counts]).encode("ascii"))
    judged = done.out.splitlines()[:-1]
    if len(judged) != len(borders):
        raise ToolError(f"{program.path} join: status {done.status}, {done.err[-200:].strip()}")
    found = []
    for border, line in zip(borders, judged):
        broken, piece = FIRST_FOUND.fullmatch(line), border.piece
        if broken:
            found.append(FoundAt(piece.file, Found(int(border.head["offset"]) + piece.at, border.name,
                                                   int(border.head["number"]) + piece.before,
                                                   time_of(int(border.head["start"])), broken[1])))
    return found


def joined(files: Files, is_ours: Callable[[str], bool] = lambda name: True) -> dict[str, Channel]:
    """What stands in the channels, of names that are ours, over all files, by name. What the program keeps of two keys
    that it shows by one name counts together."""
    texts: list[str] = []
    pieces: list[Piece] = []
    found: list[FoundAt] = []
    whose: dict[str, list[int]] = {}
    for number, reading in enumerate(files.readings):
        before = 0
        for piece in reading.pieces:
            names = {name for name in (name_of(kept.key) for kept in piece.part.channels) if is_ours(name)}
            texts.append(piece.part.text_of(names))
            pieces.append(Piece([kept for kept in piece.part.channels if is_ours(name_of(kept.key))], number, piece.at,
                                before))
            found += [FoundAt(number, one._replace(offset=one.offset + piece.at, number=one.number + before))
                      for one in piece.found if is_ours(one.name)]
            for name in names:
                whose.setdefault(name, []).append(number)
            before += piece.part.records
    found += found_between(files.program, met(pieces))
    found.sort(key=lambda at: (at.file, at.found.offset))
    kept: dict[str, list[Kept]] = {}
    for channel in joint_part(files.program, texts).channels:
        kept.setdefault(name_of(channel.key), []).append(channel)
    by_name: dict[str, list[FoundAt]] = {}
    for at in found:
        by_name.setdefault(at.found.name, []).append(at)
    return {name: channel_of(files, name, kept[name], by_name.get(name, []), sorted(set(whose[name])))
            for name in sorted(kept, key=lambda name: min(one.key for one in kept[name]))}


def channel_of(files: Files, name: str, kept: Sequence[Kept], found: list[FoundAt], holding: list[int]) -> Channel:
    """What stands in a channel."""
    records, findings = sum(one.records for one in kept), sum(one.findings for one in kept)
    starts = [one.start for one in kept if one.start is not None]
    ends = [one.end for one in kept if one.end is not None]
    start = min(starts) if len(starts) == len(kept) else files.first_start(name, holding)
    end = max(ends) if len(ends) == len(kept) else files.last_end(name, holding)
    return Channel(name, records, sum(one.samples for one in kept), start, end, findings, found, holding,
                   files.is_decoded(name, findings, records, found))
