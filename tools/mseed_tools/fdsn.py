"""What a request to an FDSN dataselect service (1.1) asks for, and the texts of such a service."""

from __future__ import annotations

import datetime
import io
import re
from fractions import Fraction
from typing import Callable, NamedTuple, Optional
from urllib.parse import unquote_to_bytes

from mseed_tools.asking import (COLUMNS, MOST_PATTERNS, BadRequest, Request, TooMany, crossed, in_line, requested,
                                shown)

VERSION = "1.1.0"
BASE = "/fdsnws/dataselect/1/"
MINISEED, PLAIN, XML = "application/vnd.fdsn.mseed", "text/plain; charset=utf-8", "application/xml; charset=utf-8"
# The bytes of an address' parameters and of a body, the lines of a body, and the characters of a code, at most.
MOST_QUERY, MOST_BODY, MOST_LINES, MOST_CODE = 2**16, 2**20, 1000, 64
LONG_CODE = re.compile(rf"[^,]{{{MOST_CODE + 1},}}")
SHORT = {"start": "starttime", "end": "endtime", "net": "network", "sta": "station", "loc": "location",
         "cha": "channel"}
CODES = ("network", "station", "location", "channel")
NUMBER = re.compile(r"[0-9]{1,9}(?:\.[0-9]{0,9})?", re.ASCII)
REASONS = {200: "OK", 204: "No Content", 400: "Bad Request", 404: "Not Found", 405: "Method Not Allowed",
           413: "Request Entity Too Large", 414: "Request-URI Too Long", 431: "Request Header Fields Too Large",
           500: "Internal Server Error", 503: "Service Unavailable"}
# What FDSN's table of statuses says in a few words.
SHORT_TEXTS = {400: "Bad request", 404: "Not found", 405: "Method not allowed", 413: "Request too large",
               414: "Request URI too large", 431: "Request headers too large", 500: "Internal server error",
               503: "Service temporarily unavailable"}


class Refused(Exception):
    """A request that isn't carried out: the status, why, and headers that go with it."""

    def __init__(self, status: int, why: str, headers: tuple[tuple[str, str], ...] = ()):
        super().__init__(why)
        self.status, self.why, self.headers = status, why, headers


class Wanted(NamedTuple):
    """What is asked for: requests of a tree, what is taken away of their records, and the status where none is left."""

    requests: list[Request]
    quality: Optional[str] = None
    minimum: Fraction = Fraction(0)
    is_longest: bool = False
    nodata: int = 204

    def is_filtered(self) -> bool:
        """Whether anything is taken away."""
        return self.quality is not None or self.minimum > 0 or self.is_longest


def quality_in(value: str) -> Optional[str]:
    """A quality; none for the best there is, of which nothing is taken away."""
    return {"B": None, "D": "D", "R": "R", "Q": "Q", "M": "M"}[value]


def seconds_in(value: str) -> Fraction:
    """A length in seconds."""
    if not NUMBER.fullmatch(value):
        raise ValueError(value)
    return Fraction(value)


def truth_in(value: str) -> bool:
    """Yes or no."""
    return {"true": True, "false": False}[value.lower()]


def nodata_in(value: str) -> int:
    """The status of an answer without data."""
    return {"204": 204, "404": 404}[value]


def format_in(value: str) -> None:
    """The form of the data: there is one."""
    if value != "miniseed":
        raise ValueError(value)


# Of each parameter what reads its value, and what is accepted.
OTHERS: dict[str, tuple[Callable[[str], object], str]] = {
    "quality": (quality_in, "D, R, Q, M or B"), "minimumlength": (seconds_in, "seconds, as 10 or 0.5"),
    "longestonly": (truth_in, "true or false"), "nodata": (nodata_in, "204 or 404"),
    "format": (format_in, "miniseed"),
}
NAMES = ("starttime", "endtime", *CODES, *OTHERS)


def decoded(word: str) -> str:
    """A name or a value of a query."""
    if re.search("%(?![0-9A-Fa-f]{2})", word):
        raise Refused(400, f"{shown(word)}: a percent sign without two hexadecimal digits")
    try:
        return unquote_to_bytes(word.replace("+", " ").encode("latin-1")).decode("ascii")
    except UnicodeError:
        raise Refused(400, f"{shown(word)}: not in ASCII") from None


def put(values: dict[str, str], name: str, value: str) -> None:
    """Keeps a parameter's value. One without a value isn't there, as those of a form that were left empty."""
    whole = SHORT.get(name, name)
    if whole not in NAMES:
        raise Refused(400, f"{shown(name)}: no such parameter; there are {', '.join(NAMES)}")
    if whole in values:
        raise Refused(400, f"{whole}: given twice")
    if value:
        values[whole] = value


def values_of(query: str) -> dict[str, str]:
    """The values of a query, by the parameters' whole names. Raises Refused where it is none."""
    if len(query) > MOST_QUERY:
        raise Refused(414, f"the parameters have {len(query)} bytes, and {MOST_QUERY} are taken")
    values: dict[str, str] = {}
    for pair in filter(None, query.split("&")):
        name, sign, value = pair.partition("=")
        if not sign:
            raise Refused(400, f"{shown(pair)}: a parameter is given as name=value")
        put(values, decoded(name), decoded(value))
    return values


def others_of(values: dict[str, str]) -> dict[str, object]:
    """What is read of the parameters that say nothing of channels and times."""
    read = {}
    for name, (reads, accepted) in OTHERS.items():
        if name in values:
            try:
                read[name] = reads(values[name])
            except (KeyError, ValueError):
                raise Refused(400, f"{name}={shown(values[name])}: not accepted; it is {accepted}") from None
    return read


def wanted_by(requests: list[Request], values: dict[str, str]) -> Wanted:
    """What is asked for by requests and other parameters."""
    read = others_of(values)
    names = {"quality": "quality", "minimumlength": "minimum", "longestonly": "is_longest", "nodata": "nodata"}
    return Wanted(requests, **{names[name]: value for name, value in read.items() if name in names})  # type: ignore


def of_query(query: str) -> Wanted:
    """What the query of an address asks for. Raises Refused where it is none."""
    values = values_of(query)
    columns = [values.get(name, "*") for name in CODES]
    for name, column in zip(CODES, columns):
        # An empty location may be written as two blanks, too.
        spaced = column.replace("  ", "--") if name == "location" else column
        columns[CODES.index(name)] = spaced
        check_lengths(spaced)
    try:
        request = requested(crossed(columns), values.get("starttime"), values.get("endtime"))
    except BadRequest as error:
        raise of_bad(error) from None
    return wanted_by([request], values)


def check_lengths(column: str) -> None:
    """Raises Refused where a code is longer than any is."""
    long = LONG_CODE.search(column)
    if long:
        raise Refused(400, f"{shown(long[0])}: a code of {len(long[0])} characters")


def of_bad(error: BadRequest, before: str = "") -> Refused:
    """Why a request is refused."""
    return Refused(413 if isinstance(error, TooMany) else 400, f"{before}{error}")


def of_body(body: bytes) -> Wanted:
    """What the body of a POST asks for: parameters, a line each, and then requests. Raises Refused where it is none."""
    if not body.isascii():
        raise Refused(400, "the body isn't in ASCII")
    values: dict[str, str] = {}
    requests: list[Request] = []
    patterns = 0
    # Line by line, since a list of all lines may take many times as much as the body.
    for number, line in enumerate(io.TextIOWrapper(io.BytesIO(body), "ascii"), 1):
        if "=" in line and not requests:
            name, _, value = (part.strip() for part in line.partition("="))
            if name not in OTHERS:
                raise Refused(400, f"line {number}: {shown(name)}: no parameter of a POST; there are "
                                   f"{', '.join(OTHERS)}, and then lines {COLUMNS}")
            put(values, name, value)
        elif line.strip():
            if len(requests) == MOST_LINES:
                raise Refused(413, f"more than {MOST_LINES} lines of channels and times")
            requests.append(of_line(number, line))
            patterns += len(requests[-1].patterns)
            if patterns > MOST_PATTERNS:
                raise Refused(413, f"more than {MOST_PATTERNS} patterns of channels in all lines")
    if not requests:
        raise Refused(400, f"no line {COLUMNS}")
    return wanted_by(requests, values)


def of_line(number: int, line: str) -> Request:
    """What a line of a body asks for."""
    for column in line.split(maxsplit=4)[:4]:
        check_lengths(column)
    try:
        return in_line(line)
    except BadRequest as error:
        raise of_bad(error, f"line {number}: ") from None


def error_text(status: int, why: str, request: str, base: str) -> str:
    """FDSN's text of an error."""
    now = datetime.datetime.now(datetime.timezone.utc).strftime("%Y-%m-%dT%H:%M:%S")
    return (f"Error {status}: {SHORT_TEXTS[status]}\n\n{why}\n\nUsage details are available from {base}\n\n"
            f"Request:\n{request}\n\nRequest Submitted:\n{now}\n\nService version:\n{VERSION}\n")
