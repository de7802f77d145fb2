"""Parts of archives and how they are joined, from docs/texts.md alone: a grammar as regular expressions, and the audit
of models/auditing.py."""

from __future__ import annotations

import re
from typing import Iterable, NamedTuple, Optional

from models.auditing import (Channel, Tail, border_fault, channels_of, cut, finding, findings,
                             lines_of_findings, name_of, tail_of, time_of)

# The largest number of a part, the largest number of a rate, and the instants that there are.
LARGEST, RATIO = 2**63 - 1, 2**30
FIRST_INSTANT, LAST_INSTANT = -5364662400000000, 7258118399999999
LEAPS = ["none", "positive", "negative", "both"]

# 2^128 - 1 has 39 digits.
N = r"(?:0|[1-9][0-9]{0,38})"
SIGNED = r"(?:0|-?[1-9][0-9]{0,38})"
WHY = (rf"time (?:year|day|hour|minute|second|fraction)|norate|blockette100|encoding {N}|littlesteim|dataoffset"
       rf"|short {N}|badword {N} {N}|overflow {N}|lastdiffers {SIGNED} {SIGNED}|ratechange|leap|gap {N}|overlap {N}")
CHANNEL = re.compile(
    rf"([0-9A-F]{{24}}) records ({N}) samples ({N}) head (?:none|({N}) ({N}) ({SIGNED}) ({N})/({N})) "
    rf"tail (?:none|({SIGNED}) ({N}) ({N})/({N}) ({'|'.join(LEAPS)})) findings ({N})(?: first ({N}) ({N}) ({WHY}))?")
COUNTS = re.compile(rf"records ({N}) bytes ({N})")
FAULTS = re.compile(rf"faults ({N})")
FAULT = re.compile(rf"fault at ({N}) (notdata|order|chain|no1000|length {N}|outside|version3|truncated {N}|read|turns)")
BEGIN = "mseed part 1"


class Head(NamedTuple):
    """A channel's first record."""

    number: int
    offset: int
    start: int
    rate: tuple[int, int]


class First(NamedTuple):
    """A channel's first finding."""

    number: int
    offset: int
    why: str


class Kept(NamedTuple):
    """What a part keeps of a channel."""

    records: int
    samples: int
    head: Optional[Head]
    tail: Optional[Tail]
    findings: int
    first: Optional[First]

    def numbers(self) -> list[int]:
        """Those that are joined."""
        return [self.records, self.samples, self.findings, *(self.head or ())[:2], *(self.first or ())[:2]]

    def line(self, key: bytes) -> str:
        """Its line."""
        head = tail = "none"
        if self.head:
            head = "{} {} {} {}/{}".format(*self.head[:3], *self.head.rate)
        if self.tail:
            tail = "{} {} {}/{} {}".format(*self.tail[:2], *self.tail.rate, LEAPS[self.tail.flags])
        first = " first {} {} {}".format(*self.first) if self.first else ""
        return (f"{key.hex().upper()} records {self.records} samples {self.samples} head {head} tail {tail} "
                f"findings {self.findings}{first}")


class Part:
    """What is kept of an archive."""

    def __init__(self) -> None:
        self.channels: dict[bytes, Kept] = {}
        self.records = self.bytes = self.faults = 0
        self.fault: Optional[str] = None

    def part_text(self) -> bytes:
        """The part itself."""
        lines = [BEGIN, *(kept.line(key) for key, kept in sorted(self.channels.items()))]
        lines.append(f"records {self.records} bytes {self.bytes}")
        lines += [f"faults {self.faults}"] if self.faults else []
        return text_of(lines + self.fault_lines())

    def audit_text(self) -> bytes:
        """The text of the audit."""
        lines = []
        for key, kept in sorted(self.channels.items()):
            if kept.first:
                what = "broken findings {} first record {} offset {} {}".format(kept.findings, *kept.first)
            else:
                what = "continuous {} rate {}/{} records {} samples {}".format(
                    time_of(kept.head.start), *kept.head.rate, kept.records, kept.samples)
            lines.append(f"{name_of(key)} {what}")
        lines.append(f"records {self.records} channels {len(self.channels)}")
        lines += [f"faults {self.faults}"] if self.faults else []
        return text_of(lines + self.fault_lines())

    def fault_lines(self) -> list[str]:
        """The line of the fault, if there is one."""
        return [f"fault at {self.bytes} {self.fault}"] if self.fault else []

    def status(self) -> int:
        """The status of the audit."""
        return 2 if self.fault or self.faults else int(any(kept.findings for kept in self.channels.values()))


def text_of(lines: Iterable[str]) -> bytes:
    """Lines as bytes."""
    return "".join(line + "\n" for line in lines).encode("latin-1")


def kept_of(channel: Channel) -> Kept:
    """What a part keeps of a channel with these records."""
    number, offset, record = channel[0]
    head = None if finding(None, record) else Head(number, offset, record.start(), record.rate())
    found = findings(channel)
    return Kept(len(channel), sum(record.count for _, _, record in channel), head, tail_of(channel[-1][2]), len(found),
                First(*found[0]) if found else None)


def part_of(archive: bytes) -> Part:
    """The part of an archive."""
    made = Part()
    records, made.bytes, made.fault = cut(archive)
    made.records = len(records)
    made.channels = {key: kept_of(channel) for key, channel in channels_of(records).items()}
    return made


def audit_part(archive: bytes, each: bool = False) -> tuple[bytes, int]:
    """What `audit --part` writes, with `--each` or without, and its status."""
    lines = lines_of_findings(channels_of(cut(archive)[0])) if each else []
    made = part_of(archive)
    return text_of(lines) + made.part_text(), made.status()


def part(archive: bytes) -> bytes:
    """Its text."""
    return audit_part(archive)[0]


# What is wrong with a line, and what would be right.
NO_BEGINNING = "no beginning of a part; that is mseed part 1"
NO_ORDER = "is out of order; channels ascend by their keys"
NO_ENDING = "neither faults of this part nor the beginning of the next; that is mseed part 1"
BAD_FAULTS = "bad faults after the counts; they come once, as faults 2, from 1 to 9223372036854775807"
BAD_FAULT = "bad fault at after the counts; it is as fault at 256 notdata, and has the bytes of the counts"
TOO_LARGE = "a sum passes 9223372036854775807, the most that a number can be"
TOO_LONG = "no LF within 512 bytes; no line is longer"
NO_LF = "no LF at the end of the input; each line ends with one"
NO_COUNTS = "the input ends within a part; the counts are missing, as records 2 bytes 256"


# The fields of a channel's line and of the counts: where each stands, its name, its form, and what would be right.
IN_LINE, IN_HEAD, IN_TAIL, IN_COUNTS = "line of a channel", "head of a channel", "tail of a channel", "line of the counts"
AS_RATE = "it is as 20/1, each from 1 to 1073741824"
AS_RECORDS = "they are as records 2, from 0 to 9223372036854775807"
CHANNEL_FIELDS = [
    (IN_LINE, "key", r"[0-9A-F]{24}", "it is 24 digits 0-9A-F, or the counts are as records 2 bytes 256"),
    (IN_LINE, "records", rf" records {N}", AS_RECORDS),
    (IN_LINE, "samples", rf" samples {N}", "they are as samples 32, from 0 to 9223372036854775807"),
    (IN_HEAD, "number", rf" head (?:none|{N})", "it is as head 1 0 1704067200000000 20/1, or head none"),
    (IN_HEAD, "offset", rf" {N}", "it is from 0 to 9223372036854775807"),
    (IN_HEAD, "start", rf" {SIGNED}", "it is as 1704067200000000, microseconds from 1970, of the years 1800 to 2199"),
    (IN_HEAD, "rate", rf" {N}/{N}", AS_RATE),
    (IN_TAIL, "start", rf" tail (?:none|{SIGNED})", "it is as tail 1704067200000000 16 20/1 none, or tail none"),
    (IN_TAIL, "samples", rf" {N}", "they are from 1 to 65535"),
    (IN_TAIL, "rate", rf" {N}/{N}", AS_RATE),
    (IN_TAIL, "leap", rf" (?:{'|'.join(LEAPS)})", "it is none, positive, negative or both"),
    (IN_LINE, "findings", rf" findings {N}", "they are as findings 1, and 0 only with a head and a tail"),
    (IN_LINE, "first", "", "where findings are not 0 it ends the line, as first 2 128 gap 25001"),
]
COUNTS_FIELDS = [
    (IN_COUNTS, "records", rf"records {N}", AS_RECORDS),
    (IN_COUNTS, "bytes", "", "they end it, as bytes 256, from 0 to 9223372036854775807"),
]


def is_within(place: str, name: str, value: str, has_both: bool) -> bool:
    """Whether the numbers of a field are within their bounds; of no findings, whether they may stand here."""
    if name in ("key", "leap") or value == "none":
        return True
    if name == "rate":
        num, den = map(int, value.split("/"))
        return is_rate((num, den))
    number = int(value)
    if name == "start":
        return FIRST_INSTANT <= number <= LAST_INSTANT
    if (place, name) == (IN_TAIL, "samples"):
        return 1 <= number <= 65535
    return number <= LARGEST and (name != "findings" or number > 0 or has_both)


def bad_field(line: str) -> str:
    """What is said of a line that is neither of a channel nor of the counts: its first bad field, which is the last one
    where no other is bad. Of a head or a tail that isn't there, there are no further parts."""
    at, absent = 0, set()
    for place, name, form, right in COUNTS_FIELDS if line.startswith("records ") else CHANNEL_FIELDS:
        if place in absent:
            continue
        found = re.compile(rf"{form}(?= |\Z)").match(line, at)
        if not form or not found or not is_within(place, name, found[0].split(" ")[-1], not absent):
            return f"bad {name} in the {place}; {right}"
        at = found.end()
        if found[0] in (" head none", " tail none"):
            absent.add(place)
    raise AssertionError("the last field has no form")


class Bad(Exception):
    """A line that no part has at this place, with what is wrong with it."""


def need(is_so: object, why: str) -> None:
    """Refuses the line where this isn't so."""
    if not is_so:
        raise Bad(why)


def need_row(is_so: object, line: str) -> None:
    """Refuses a line of a channel or of the counts where this isn't so."""
    if not is_so:
        raise Bad(bad_field(line))


def added(*numbers: int) -> int:
    """A sum that a part can hold."""
    need(sum(numbers) <= LARGEST, TOO_LARGE)
    return sum(numbers)


def has_bounds(why: str) -> bool:
    """Whether the numbers of a finding or a fault are within theirs."""
    word, *numbers = why.split()
    if word == "lastdiffers":
        return all(-(2**31) <= int(number) < 2**31 for number in numbers)
    largest = {"encoding": 255, "length": 255, "gap": 2**128 - 1, "overlap": 2**128 - 1}.get(word, LARGEST)
    return word == "time" or all(int(number) <= largest for number in numbers)


def is_rate(rate: tuple[int, int]) -> bool:
    """Whether a part may have this rate."""
    return all(1 <= number <= RATIO for number in rate)


def kept_in(line: str) -> tuple[bytes, Kept]:
    """The key and the channel of a line, which has to be one of a channel."""
    found = CHANNEL.fullmatch(line)
    need_row(found, line)
    key, records, samples, *middle, findings_, number, offset, why = found.groups()
    h, t = middle[:5], middle[5:]
    head = Head(*map(int, h[:3]), (int(h[3]), int(h[4]))) if h[0] else None
    tail = Tail(int(t[0]), int(t[1]), (int(t[2]), int(t[3])), LEAPS.index(t[4])) if t[0] else None
    first = First(int(number), int(offset), why) if why else None
    kept = Kept(int(records), int(samples), head, tail, int(findings_), first)
    need_row(all(number <= LARGEST for number in kept.numbers()), line)
    need_row(all(FIRST_INSTANT <= end.start <= LAST_INSTANT and is_rate(end.rate) for end in (head, tail) if end), line)
    need_row(not tail or 1 <= tail.samples <= 65535, line)
    need_row((kept.findings > 0) == (first is not None) and (first or head and tail), line)
    need_row(not first or has_bounds(first.why), line)
    return bytes.fromhex(key), kept


class Joiner:
    """Reads the lines of parts, one after another."""

    def __init__(self, past_faults: bool):
        self.past_faults = past_faults
        self.joint = Part()
        self.borders: list[str] = []
        self.reported: list[str] = []
        self.parts = 0
        self.state, self.key, self.own_bytes, self.is_counted = "after", b"", 0, True

    def read(self, line: str) -> None:
        """Takes the next line. Raises Bad where it isn't by the grammar or a sum is too large."""
        need(len(line) < 512, TOO_LONG)
        if self.state == "within":
            self.read_within(line)
        elif self.state == "counts" and line.startswith("faults "):
            self.read_faults(line)
        elif self.state in ("counts", "faults") and line.startswith("fault at "):
            self.read_fault(line)
        else:
            need(line == BEGIN, NO_BEGINNING if self.state == "after" else
                 BAD_FAULTS if line.startswith("faults ") else NO_ENDING)
            self.parts += 1
            self.state, self.key, self.is_counted = "within", b"", self.joint.fault is None

    def read_within(self, line: str) -> None:
        """A channel's line, or that of the counts."""
        counts, joint = COUNTS.fullmatch(line), self.joint
        if not counts:
            key, kept = kept_in(line)
            need(key > self.key, f"{name_of(key)} {NO_ORDER}")
            self.key = key
            if self.is_counted:
                self.join(key, kept)
            return
        records, self.own_bytes = map(int, counts.groups())
        need_row(max(records, self.own_bytes) <= LARGEST, line)
        if self.is_counted:
            joint.records, joint.bytes = added(joint.records, records), added(joint.bytes, self.own_bytes)
        self.state = "counts"

    def join(self, key: bytes, kept: Kept) -> None:
        """Joins a channel after what there is of it."""
        joint, head, first = self.joint, kept.head, kept.first
        head = head and Head(added(joint.records, head.number), added(joint.bytes, head.offset), *head[2:])
        first = first and First(added(joint.records, first.number), added(joint.bytes, first.offset), first.why)
        before = joint.channels.get(key)
        if before is None:
            joint.channels[key] = kept._replace(head=head, first=first)
            return
        why = border_fault(before.tail, head.start, head.rate) if before.tail and head else None
        border = First(head.number, head.offset, why) if why else None
        joint.channels[key] = Kept(added(before.records, kept.records), added(before.samples, kept.samples),
                                   before.head, kept.tail,
                                   added(before.findings, int(border is not None), kept.findings),
                                   before.first or border or first)
        if border:
            self.borders.append(f"{border.offset} {name_of(key)} record {border.number} start {time_of(head.start)} "
                                f"{border.why}")

    def read_faults(self, line: str) -> None:
        """How many faults were passed."""
        found = FAULTS.fullmatch(line)
        need(found and 0 < int(found[1]) <= LARGEST, BAD_FAULTS)
        if self.is_counted:
            self.joint.faults = added(self.joint.faults, int(found[1]))
        self.state = "faults"

    def read_fault(self, line: str) -> None:
        """The fault by which the part ends."""
        found = FAULT.fullmatch(line)
        need(found and int(found[1]) == self.own_bytes and has_bounds(found[2]), BAD_FAULT)
        self.state = "after"
        if self.past_faults:
            self.joint.faults = added(self.joint.faults, 1)
            self.reported.append(f"mseed: part {self.parts} {line}")
        elif self.is_counted:
            self.joint.fault = found[2]


def join(text: bytes, part: bool = False, each: bool = False, past_faults: bool = False, fails: bool = False,
         expect: Optional[int] = None) -> tuple[int, bytes, bytes]:
    """What `join` does over parts, one after another, of which so many may be expected: its status, its output and its
    standard error. Where the reader `fails`, this text is all that it brought."""
    joiner = Joiner(past_faults)
    *lines, rest = text.decode("latin-1").split("\n")
    refused = None
    for number, line in enumerate(lines, 1):
        try:
            joiner.read(line)
        except Bad as bad:
            refused = f"mseed: bad part at line {number}\nmseed: {bad}"
            break
    else:
        if fails:
            refused = f"mseed: fault at {len(text)} read"
        elif rest or joiner.state == "within":
            why = TOO_LONG if len(rest) >= 512 else NO_LF if rest else NO_COUNTS
            refused = f"mseed: bad part at line {len(lines) + 1}\nmseed: {why}"
        elif expect is not None and joiner.parts != expect:
            refused = f"mseed: {joiner.parts} parts, not {expect}"
    borders = text_of(joiner.borders) if each else b""
    if refused:
        return 2, borders, text_of([*joiner.reported, refused])
    joint = joiner.joint
    return joint.status(), joint.part_text() if part else borders + joint.audit_text(), text_of(joiner.reported)


def flaw(text: bytes, *words: str) -> str:
    """The line more that says what is wrong with the first bad line of a text, read with these options."""
    return join(text, past_faults="--past-faults" in words)[2].decode().splitlines()[-1] + "\n"
