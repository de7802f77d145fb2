"""What a dataselect service takes away of the records of a channel: those of other qualities, and segments that are
shorter than they are wanted."""

from __future__ import annotations

import contextlib
import os
import re
import tempfile
from fractions import Fraction
from typing import IO, Callable, Iterable, Iterator, NamedTuple, Optional, Sequence

from mseed_tools.instants import SECOND, micros_of
from mseed_tools.program import Program
from mseed_tools.selecting import PIPE, Run
from mseed_tools.spans import Span, joined
from mseed_tools.texts import FOUND, shown_by

SHOWN = shown_by("offset", "name", "quality", "length", "samples", "start", "num", "den")
# What is found of a record's samples: where it stands in time is known all the same.
OF_SAMPLES = ("blockette100", "encoding", "littlesteim", "dataoffset", "short", "badword", "overflow", "lastdiffers")

# What says whether whoever asked has gone, where that can be known.
IsGone = Optional[Callable[[], bool]]


class Record(NamedTuple):
    """A record as the program shows it: where it stands among the others, its channel and quality, when it begins and
    ends in microseconds, if that is known, and its sample period."""

    span: Span
    name: str
    quality: str
    begin: Optional[int]
    end: Fraction
    period: Fraction


class Segment:
    """Records that go on with one another."""

    def __init__(self, record: Record):
        self.record, self.length = record, Fraction(0)
        self.begin = record.begin

    def goes_on(self, record: Record, why: str) -> bool:
        """Whether a record goes on with it, of which the audit finds this. Where samples have a finding, the audit
        doesn't say how the record follows the one before."""
        if why and why.split()[0] not in OF_SAMPLES or record.begin is None or self.begin is None:
            return False
        if not why:
            return True
        return record.period == self.record.period and 2 * abs(record.begin - self.record.end) <= record.period

    def add(self, record: Record) -> None:
        """The record too."""
        self.record = record
        if self.begin is not None:
            self.length = max(self.length, record.end - self.begin)


def record_of(found: re.Match[str]) -> Record:
    """A record, by the line that shows it."""
    at, begin = int(found["offset"]), micros_of(found["start"])
    period = Fraction(SECOND * int(found["den"]), int(found["num"])) if found["num"] else Fraction(0)
    end = (begin or 0) + int(found["samples"]) * period
    return Record((at, at + int(found["length"])), found["name"], found["quality"], begin, end, period)


def records(program: Program, path: str, is_gone: IsGone) -> Iterator[tuple[Record, str]]:
    """Each record of an archive, with what an audit finds of it, if anything. Raises Gone where nobody waits for that
    any more."""
    with contextlib.ExitStack() as runs:
        show, audit = (begun(program, words, runs) for words in (["show", path], ["audit", "--each", path]))
        findings = filter(None, map(FOUND.fullmatch, audit.lines(is_gone)))
        next_found = next(findings, None)
        for line in show.lines(is_gone):
            found = SHOWN.fullmatch(line)
            if found is None:
                continue
            why = ""
            if next_found is not None and next_found[1] == found["offset"]:
                why, next_found = next_found[5], next(findings, None)
            yield record_of(found), why


def begun(program: Program, words: Sequence[str], runs: contextlib.ExitStack) -> Run:
    """A run of the program, which is stopped with these. Raises what `Run` does."""
    run = Run(program, words, None)
    runs.callback(run.stop)
    return run


def of_quality(program: Program, path: str, quality: str, is_gone: IsGone) -> Iterator[Span]:
    """Where the records of a quality stand."""
    return (record.span for record, _ in records(program, path, is_gone) if record.quality == quality)


def long_ones(program: Program, path: str, minimum: Fraction, is_longest: bool, is_gone: IsGone) -> Iterator[Span]:
    """Where the records stand of segments that last so many seconds, or of the longest one of each channel alone."""
    segments: list[Segment] = []
    going: dict[str, int] = {}
    places: list[tuple[Span, int]] = []
    for record, why in records(program, path, is_gone):
        number = going.get(record.name, -1)
        if number < 0 or not segments[number].goes_on(record, why):
            number = going[record.name] = len(segments)
            segments.append(Segment(record))
        segments[number].add(record)
        if places and places[-1][1] == number and places[-1][0][1] == record.span[0]:
            places[-1] = (places[-1][0][0], record.span[1]), number
        else:
            places.append((record.span, number))
    kept = {number for number, segment in enumerate(segments) if segment.length >= minimum * SECOND}
    if is_longest:
        longest: dict[str, int] = {}
        for number in sorted(kept):
            name = segments[number].record.name
            if name not in longest or segments[number].length > segments[longest[name]].length:
                longest[name] = number
        kept = set(longest.values())
    return (span for span, number in places if number in kept)


def spooled(chunks: Iterable[bytes]) -> IO[bytes]:
    """A file of its own, on a disk, with what comes."""
    file = tempfile.NamedTemporaryFile(prefix="mseed-")
    try:
        file.writelines(chunks)
        file.flush()
    except BaseException:
        file.close()
        raise
    return file


def copied(file: IO[bytes], spans: Iterable[Span]) -> Iterator[bytes]:
    """What stands in a file at these places."""
    for begin, end in joined(spans):
        for at in range(begin, end, PIPE):
            yield os.pread(file.fileno(), min(PIPE, end - at), at)


def filtered(program: Program, chunks: Iterable[bytes], quality: Optional[str], minimum: Fraction,
             is_longest: bool, is_gone: IsGone) -> Iterator[bytes]:
    """The records of a channel of which nothing is taken away. They are laid down in a file meanwhile. Raises Gone
    where nobody waits for them any more."""
    with spooled(chunks) as file:
        if quality is not None:
            chunks = copied(file, of_quality(program, file.name, quality, is_gone))
            if minimum <= 0 and not is_longest:
                yield from chunks
                return
            yield from filtered(program, chunks, None, minimum, is_longest, is_gone)
            return
        yield from copied(file, long_ones(program, file.name, minimum, is_longest, is_gone))
