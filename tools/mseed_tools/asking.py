"""Requests for records of a tree: of which channels, and in which window of time."""

from __future__ import annotations

import datetime
import itertools
import math
import re
from typing import NamedTuple, Optional, Sequence

from mseed_tools.instants import day_at, instant_in

FIELD = re.compile(r"[A-Za-z0-9*?-]*", re.ASCII)
# A request has so many patterns at most.
MOST_PATTERNS = 1000
COLUMNS = "NET STA LOC CHA START END"
DAY = datetime.timedelta(days=1)


def shown(text: str) -> str:
    """A text that was given as a message has it: short, and in characters that anybody may see."""
    plain = "".join(character if " " <= character <= "~" else "?" for character in text[:60])
    return plain if len(text) <= 60 else f"{plain[:57]}..."


class BadRequest(ValueError):
    """What can't be requested; its text says what, and what is accepted."""


class TooMany(BadRequest):
    """More than is taken at once."""


class Request(NamedTuple):
    """What is asked for: patterns of channels as `mseed select` takes them, none for every channel, and a window's
    begin and end, as they were written."""

    patterns: tuple[str, ...] = ()
    begin: Optional[str] = None
    end: Optional[str] = None

    def words(self) -> list[str]:
        """The options of the program."""
        options = [("--channels", ",".join(self.patterns) or None), ("--from", self.begin), ("--until", self.end)]
        return [f"{option}={word}" for option, word in options if word is not None]


class Asked:
    """A request, as names of folders and files are held against it."""

    def __init__(self, request: Request):
        self.request = request
        begin, end = (None if word is None else instant_in(word) for word in (request.begin, request.end))
        # A record stands in the file of the day of its first sample.
        self.first = datetime.date.min if begin is None else day_at(begin)
        self.last = datetime.date.max if end is None else day_at(end - 1)
        fields = [pattern.split("_") for pattern in request.patterns] or [["*"] * 4]
        self.levels = [re.compile("|".join(dict.fromkeys(map(expression, (these[:level] for these in fields)))))
                       for level in (1, 2)]
        self.folder = re.compile("|".join(dict.fromkeys(expression([*these[:2], these[3]]) for these in fields)))
        self.whole = re.compile("|".join(expression([*these[:2], these[3], these[2]]) for these in fields))

    def has_place(self, codes: Sequence[str]) -> bool:
        """Whether a file of such codes may be asked for: a network; it and a station; these and a channel; these and a
        location."""
        wanted = [*self.levels, self.folder, self.whole][len(codes) - 1]
        return wanted.fullmatch("/".join(codes)) is not None


def expression(fields: Sequence[str]) -> str:
    """The codes, with slashes between, that these fields of a pattern take. A code in the name of a file has none."""
    return "/".join("(?:--)?" if field == "--" else re.sub(r"\*+", "[^/]*", field.replace("?", "[^/]"))
                    for field in fields)


def requested(patterns: Sequence[str], begin: Optional[str], end: Optional[str]) -> Request:
    """A request, where it is one. Raises BadRequest where it isn't."""
    for pattern in patterns:
        fields = pattern.split("_")
        if len(fields) != 4 or not all(FIELD.fullmatch(field) for field in fields):
            raise BadRequest(f"{shown(pattern)}: no pattern of channels, as XX_STA_--_BH?")
    instants = []
    for word in (begin, end):
        try:
            instants += [] if word is None else [instant_in(word)]
        except ValueError as error:
            raise BadRequest(f"{shown(word or '')}: no time, as 2024-05-14 or 2024-05-14T03:20:00") from error
    if len(instants) == 2 and instants[0] >= instants[1]:
        raise BadRequest(f"{end}: not after {begin}")
    return Request(tuple(dict.fromkeys(patterns)), begin, end)


def crossed(columns: Sequence[str]) -> list[str]:
    """The patterns of four columns, in each of which some may stand, with commas between. Raises BadRequest where one
    is empty, and TooMany where they are more than are taken."""
    count = math.prod(column.count(",") + 1 for column in columns)
    if count > MOST_PATTERNS:
        raise TooMany(f"{count} patterns of channels, and {MOST_PATTERNS} are taken at once")
    fields = [column.split(",") for column in columns]
    for field in itertools.chain(*fields):
        if not field or not FIELD.fullmatch(field):
            raise BadRequest(f"{shown(field)}: no code of letters, digits, *, ? and -; -- is an empty location")
    return ["_".join(these) for these in itertools.product(*fields)]


def in_line(line: str) -> Request:
    """The request of a line of six columns. Raises BadRequest where it is none."""
    columns = line.split(maxsplit=6)
    if len(columns) != 6:
        count = "more than 6" if len(columns) > 6 else len(columns)
        raise BadRequest(f"{count} columns, and {COLUMNS} are wanted")
    return requested(crossed(columns[:4]), *columns[4:])
