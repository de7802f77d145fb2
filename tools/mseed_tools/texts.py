"""The program's texts: parts, the lines of findings and of records, and names."""

from __future__ import annotations

import re
from fractions import Fraction
from typing import Iterator, NamedTuple, Optional

from mseed_tools.instants import SECOND

# A leap second that a record has after it, as it moves the record's end.
STEPS = {"none": 0, "positive": -SECOND, "negative": SECOND, "both": 0}
BEGIN = "mseed part 1\n"

CHANNEL = re.compile(r"(?P<key>[0-9A-F]{24}) records (?P<records>\d+) samples (?P<samples>\d+) "
                     r"head (?:none|\d+ \d+ (?P<start>-?\d+) \d+/\d+) "
                     r"tail (?:none|(?P<last>-?\d+) (?P<held>\d+) (?P<num>\d+)/(?P<den>\d+) (?P<leap>\w+)) "
                     r"findings (?P<findings>\d+)")
# A part, whole: the line of its counts is there.
PART = re.compile(rb"mseed part 1\n(?:[0-9A-F]{24} records [^\n]+\n)*records \d+ bytes \d+\n"
                  rb"(?:faults \d+\n)?(?:fault at \d+ [^\n]+\n)?")
COUNTS = re.compile(r"records (\d+) bytes (\d+)")
FOUND = re.compile(r"(\d+) (\S+) record (\d+) start (fault \w+|\S+) (.+)")
# A line of `show`: a start is a time of 26 characters, or says that there is none.
SHOWN_LINE = ("{offset} {name} {quality} length {length} samples {samples} start {start} rate (?:none|{num}/{den}) "
              "encoding {encoding} .*")
SHOWN_FIELDS = {"offset": r"\d+", "name": r"\S+", "quality": ".", "length": r"\d+", "samples": r"\d+",
                "start": r"fault \w+|.{26}", "num": r"\d+", "den": r"\d+", "encoding": r"\d+"}


def shown_by(*names: str) -> re.Pattern[str]:
    """What a line of `show` is matched by, with these of its fields as groups, in the order of the line."""
    return re.compile(SHOWN_LINE.format(**{name: f"(?P<{name}>{form})" if name in names else f"(?:{form})"
                                           for name, form in SHOWN_FIELDS.items()}))


SHOWN = shown_by("offset", "name", "samples", "start", "num", "den", "encoding")


class Kept(NamedTuple):
    """What a part keeps of a channel: counts, where it begins and ends in microseconds, and its line."""

    key: str
    records: int
    samples: int
    start: Optional[int]
    end: Optional[int]
    findings: int
    line: str


class Part(NamedTuple):
    """What the program keeps of an archive."""

    channels: list[Kept]
    records: int
    bytes: int
    fault: Optional[str]

    def text_of(self, names: Optional[set[str]]) -> str:
        """The part itself, with the channels of these names alone, or with all."""
        lines = [kept.line for kept in self.channels if names is None or name_of(kept.key) in names]
        lines.append(f"records {self.records} bytes {self.bytes}")
        lines += [f"fault at {self.bytes} {self.fault}"] if self.fault else []
        return BEGIN + "".join(f"{line}\n" for line in lines)


class Found(NamedTuple):
    """A record with a finding, as a line reports it."""

    offset: int
    name: str
    number: int
    start: str
    why: str

    def micros(self, kind: str) -> Optional[int]:
        """How long it is, where it is a gap or an overlap, as the kind says."""
        word, _, number = self.why.partition(" ")
        return int(number) if word == kind else None


class Shown(NamedTuple):
    """A record, as `show` lists it."""

    offset: int
    name: str
    samples: int
    start: str
    rate: Optional[Fraction]
    encoding: int


def kept_in(line: str) -> Kept:
    """What a line of a part says of a channel."""
    found = CHANNEL.match(line)
    if found is None:
        raise ValueError(line)
    end = None
    if found["last"]:
        length = int(found["held"]) * int(found["den"]) * SECOND // int(found["num"])
        end = int(found["last"]) + length + STEPS[found["leap"]]
    start = int(found["start"]) if found["start"] else None
    return Kept(found["key"], int(found["records"]), int(found["samples"]), start, end, int(found["findings"]), line)


def part_in(text: str) -> Part:
    """What a part says. Raises ValueError where it is none."""
    begin, *lines = text.splitlines()
    counts = next(((place, found) for place, line in enumerate(lines) if (found := COUNTS.fullmatch(line))), None)
    if begin + "\n" != BEGIN or counts is None:
        raise ValueError(text[:100])
    end, found = counts
    fault = next((line.split(" ", 3)[3] for line in lines[end + 1 :] if line.startswith("fault at ")), None)
    return Part([kept_in(line) for line in lines[:end]], int(found[1]), int(found[2]), fault)


def parted(text: str) -> tuple[str, str]:
    """What `audit --part --each` wrote: the lines of findings, and the part."""
    place = 0 if text.startswith(BEGIN) else text.find("\n" + BEGIN) + 1
    return text[:place], text[place:]


def found_in(text: str) -> Iterator[Found]:
    """The lines of findings of a text, and of no other lines."""
    for line in text.splitlines():
        found = FOUND.fullmatch(line)
        if found:
            yield Found(int(found[1]), found[2], int(found[3]), found[4], found[5])


def shown_in(text: str) -> Iterator[Shown]:
    """The records that `show` lists."""
    for line in text.splitlines():
        found = SHOWN.fullmatch(line)
        if found:
            rate = Fraction(int(found["num"]), int(found["den"])) if found["num"] else None
            yield Shown(int(found["offset"]), found["name"], int(found["samples"]), found["start"], rate,
                        int(found["encoding"]))


def name_of(key: str) -> str:
    """The name by which the program shows a key."""
    bytes_of = bytes.fromhex(key)
    codes = [bytes_of[:2], bytes_of[2:7], bytes_of[7:9], bytes_of[9:]]
    return "_".join("".join(chr(byte) if 33 <= byte <= 126 else "?" for byte in code.rstrip(b" \0"))
                    for code in codes)
