"""The audit and packing anew in Python, from docs/format.md and docs/texts.md alone."""

from __future__ import annotations

import datetime
import functools
import struct
from typing import NamedTuple, Optional, Union

from models.misfits import misfit
from models.packing import EPOCH, SECOND, Series, packed

# By scheme, code and the word's top two bits (None where they are part of the differences): how many of how many bits.
GROUPS = {(10, 1, None): (4, 8), (10, 2, None): (2, 16), (10, 3, None): (1, 32),
          (11, 1, None): (4, 8), (11, 2, 1): (1, 30), (11, 2, 2): (2, 15), (11, 2, 3): (3, 10),
          (11, 3, 0): (5, 6), (11, 3, 1): (6, 5), (11, 3, 2): (7, 4)}


def order_of(bytes: bytes) -> Optional[str]:
    """The header's byte order, big-endian first; none where neither gives a year and a day."""
    for order in "><":
        year, day = struct.unpack_from(order + "HH", bytes, 20)
        if 1900 <= year <= 2100 and 1 <= day <= 366:
            return order
    return None


def scan(prefix: bytes) -> tuple[str, Union[int, str]]:
    """("need", bytes), ("record", bytes) or ("not", fault): the first framing step that applies."""
    if prefix[:3] == b"MS\x03":
        return "not", "version3"
    if len(prefix) < 48:
        return "need", 48
    if any(b not in b"0123456789 \0" for b in prefix[:6]) or prefix[6] not in b"DRQM" or prefix[7] not in b" \0":
        return "not", "notdata"
    order = order_of(prefix)
    if order is None:
        return "not", "order"
    at, last = struct.unpack_from(order + "H", prefix, 46)[0], None
    while True:
        if at == 0:
            return "not", "no1000"
        if at < 48 or (last is not None and at < last + 4):
            return "not", "chain"
        if len(prefix) < at + 4:
            return "need", at + 4
        kind, following = struct.unpack_from(order + "HH", prefix, at)
        if kind == 1000:
            break
        at, last = following, at
    if len(prefix) < at + 8:
        return "need", at + 8
    exponent = prefix[at + 6]
    if not 7 <= exponent <= 20:
        return "not", f"length {exponent}"
    if at + 8 > 2**exponent:
        return "not", "outside"
    return ("need" if len(prefix) < 2**exponent else "record"), 2**exponent


class Record:
    """What a record says."""

    def __init__(self, bytes: bytes):
        self.bytes, self.order = bytes, order_of(bytes)
        self.key = bytes[18:20] + bytes[8:13] + bytes[13:15] + bytes[15:18]
        self.count, self.factor, self.multiplier, self.activity = struct.unpack_from(self.order + "HhhB", bytes, 30)
        self.correction, self.begin = struct.unpack_from(self.order + "iH", bytes, 40)
        self.walk()

    def walk(self) -> None:
        """Goes along the whole chain: the first 1000, the first 1001, and any 100."""
        first_1000 = first_1001 = None
        self.has_rate = False
        at = struct.unpack_from(self.order + "H", self.bytes, 46)[0]
        while True:
            kind, following = struct.unpack_from(self.order + "HH", self.bytes, at)
            if kind == 1001 and at + 8 > len(self.bytes):
                break
            if kind == 1000 and first_1000 is None:
                first_1000 = at
            if kind == 1001 and first_1001 is None:
                first_1001 = at
            self.has_rate |= kind == 100
            if following < at + 4 or following + 4 > len(self.bytes):
                break
            at = following
        self.encoding, self.is_big = self.bytes[first_1000 + 4], self.bytes[first_1000 + 5] != 0
        self.micros = 0 if first_1001 is None else struct.unpack_from("b", self.bytes, first_1001 + 5)[0]

    def start(self) -> Union[int, str]:
        """The instant, or the first field that is out of its range."""
        year, day, hour, minute, second, _, fraction = struct.unpack_from(self.order + "HHBBBBH", self.bytes, 20)
        is_leap = year % 4 == 0 and (year % 100 != 0 or year % 400 == 0)
        for word, is_in in (("year", 1900 <= year <= 2100), ("day", 1 <= day <= 365 + is_leap), ("hour", hour < 24),
                            ("minute", minute < 60), ("second", second <= 60), ("fraction", fraction < 10000)):
            if not is_in:
                return word
        days = (datetime.datetime(year, 1, 1) - EPOCH).days + day - 1
        instant = ((days * 24 + hour) * 60 + minute) * 60 * SECOND + second * SECOND + fraction * 100 + self.micros
        return instant if self.activity & 2 else instant + self.correction * 100

    def rate(self) -> Optional[tuple[int, int]]:
        """Samples, in so many seconds; none where a factor is 0."""
        num = den = 1
        for number in (self.factor, self.multiplier):
            if number == 0:
                return None
            num, den = (num * number, den) if number > 0 else (num, den * -number)
        return num, den

    def read(self) -> Union[list[int], str]:
        """The samples, or why there are none, or none that end on their constant."""
        return self.reading

    @functools.cached_property
    def reading(self) -> Union[list[int], str]:
        """What is read, the first time."""
        if self.has_rate:
            return "blockette100"
        if self.encoding not in (1, 3, 10, 11):
            return f"encoding {self.encoding}"
        if self.encoding in (10, 11) and not self.is_big:
            return "littlesteim"
        if not 48 <= self.begin <= len(self.bytes):
            return "dataoffset"
        data = self.bytes[self.begin :]
        if self.encoding in (10, 11):
            return self.read_frames(data)
        found = len(data) // {1: 2, 3: 4}[self.encoding]
        form = (">" if self.is_big else "<") + str(self.count) + {1: "h", 3: "i"}[self.encoding]
        return f"short {found}" if found < self.count else list(struct.unpack_from(form, data))

    def read_frames(self, data: bytes) -> Union[list[int], str]:
        """The samples of frames, or why there are none."""
        differences = []
        for frame in range(len(data) // 64):
            words = struct.unpack_from(">16I", data, 64 * frame)
            for place in range(3 if frame == 0 else 1, 16):
                if len(differences) >= self.count:
                    break
                code = words[0] >> 30 - 2 * place & 3
                if code == 0:
                    continue
                group = GROUPS.get((self.encoding, code, None)) or GROUPS.get((self.encoding, code, words[place] >> 30))
                if group is None:
                    return f"badword {frame} {place}"
                count, bits = group
                for i in range(count):
                    digits = words[place] >> bits * (count - 1 - i) & (1 << bits) - 1
                    differences.append(digits - (1 << bits) if digits >> bits - 1 else digits)
        if len(differences) < self.count:
            return f"short {len(differences)}"
        first, last = struct.unpack_from(">ii", data, 4)
        samples = [first]
        for i in range(1, self.count):
            samples.append(samples[-1] + differences[i])
            if not -(2**31) <= samples[-1] < 2**31:
                return f"overflow {i}"
        return samples if samples[-1] == last else f"lastdiffers {samples[-1]} {last}"


@functools.lru_cache(maxsize=256)
def record_of(bytes: bytes) -> Record:
    """The record with these bytes. Those of an archive are wanted more than once."""
    return Record(bytes)


class Tail(NamedTuple):
    """What counts of a record for the one after it: its start, samples and rate, and its leap flags as a number."""

    start: int
    samples: int
    rate: tuple[int, int]
    flags: int


def tail_of(record: Record) -> Optional[Tail]:
    """That of a record; nothing where it has no time or no rate."""
    start, rate = record.start(), record.rate()
    return None if isinstance(start, str) or rate is None else Tail(start, record.count, rate, record.activity >> 4 & 3)


def border_fault(tail: Tail, now: int, here: tuple[int, int]) -> Optional[str]:
    """What is wrong with a record of this start and rate after one with this tail."""
    rate = tail.rate
    if rate[0] * here[1] != here[0] * rate[1]:
        return "ratechange"
    if tail.flags == 3:
        return "leap"
    past = now - tail.start + {0: 0, 1: SECOND, 2: -SECOND}[tail.flags]
    off = past * rate[0] - tail.samples * rate[1] * SECOND
    if 2 * abs(off) <= rate[1] * SECOND:
        return None
    return ("gap" if off > 0 else "overlap") + f" {abs(off) // rate[0]}"


def join_fault(before: Record, record: Record) -> Optional[str]:
    """What is wrong between a record and the one before it; nothing where that has no time or no rate."""
    tail = tail_of(before)
    return border_fault(tail, record.start(), record.rate()) if tail else None


def finding(before: Optional[Record], record: Record) -> Optional[str]:
    """What is wrong with a record after the one before it, if anything: the first that applies."""
    start = record.start()
    if isinstance(start, str):
        return f"time {start}"
    if record.rate() is None:
        return "norate"
    samples = record.read()
    if isinstance(samples, str):
        return samples
    return join_fault(before, record) if before else None


def codes_of(key: bytes) -> list[str]:
    """Network, station, location and channel, as they are printed."""
    codes = [code.rstrip(b" \0") for code in (key[:2], key[2:7], key[7:9], key[9:])]
    return ["".join(chr(b) if 33 <= b <= 126 else "?" for b in code) for code in codes]


def name_of(key: bytes) -> str:
    """The name of a channel."""
    return "_".join(codes_of(key))


def time_of(instant: int) -> str:
    """An instant, as the texts have it."""
    seconds, micros = divmod(instant, SECOND)
    return (EPOCH + datetime.timedelta(seconds=seconds)).strftime("%Y-%m-%dT%H:%M:%S") + f".{micros:06}"


# The records of a channel, each with its number and its offset.
Channel = list[tuple[int, int, Record]]


def cut(archive: bytes) -> tuple[list[tuple[int, Record]], int, Optional[str]]:
    """The records with their offsets, where they end, and the fault there, if any."""
    records, offset = [], 0
    while offset < len(archive):
        answer, value = scan(archive[offset : offset + 2**20 + 1])
        if answer == "not":
            return records, offset, value
        if answer == "need":
            return records, offset, f"truncated {len(archive) - offset}"
        records.append((offset, record_of(archive[offset : offset + value])))
        offset += value
    return records, offset, None


def numbered(records: list[tuple[int, Record]]) -> Channel:
    """The records with their numbers too."""
    return [(number, offset, record) for number, (offset, record) in enumerate(records, 1)]


def channels_of(records: list[tuple[int, Record]]) -> dict[bytes, Channel]:
    """The records with samples of each channel, by its key, with their numbers and offsets."""
    return by_channel(numbered(records))


def by_channel(records: Channel) -> dict[bytes, Channel]:
    """The same of records whose numbers and offsets are given."""
    channels = {}
    for number, offset, record in records:
        if record.count:
            channels.setdefault(record.key, []).append((number, offset, record))
    return dict(sorted(channels.items()))


def findings(channel: Channel) -> list[tuple[int, int, str]]:
    """What is wrong with a channel: in which record, at which offset, and what."""
    found, before = [], None
    for number, offset, record in channel:
        why = finding(before, record)
        found += [(number, offset, why)] if why else []
        before = record
    return found


def broken_lines(key: bytes, found: tuple[int, int, str]) -> str:
    """The line about a channel that is broken, and the one with its finding."""
    number, offset, why = found
    return f"mseed: {name_of(key)} is broken\nmseed: record {number} offset {offset} {why}\n"


def lines_of_findings(channels: dict[bytes, Channel]) -> list[str]:
    """A line for each record with a finding, in the order of the archive."""
    found = sorted((number, offset, why, key) for key in channels for number, offset, why in findings(channels[key]))
    starts = {number: record.start() for key in channels for number, _, record in channels[key]}
    return [f"{offset} {name_of(key)} record {number} start {start_of(starts[number])} {why}"
            for number, offset, why, key in found]


def start_of(start: Union[int, str]) -> str:
    """A record's start, or the first field of it that is out of its range."""
    return f"fault {start}" if isinstance(start, str) else time_of(start)


def audit(archive: bytes, each: bool = False) -> tuple[bytes, int]:
    """The text and the exit status of the audit of an archive, or of one that reports each finding."""
    records, end, fault = cut(archive)
    return audited(numbered(records), end, fault, each)


def audited(records: Channel, end: int, fault: Optional[str], each: bool = False) -> tuple[bytes, int]:
    """The same of records whose numbers and offsets are given, and of how their input ended."""
    channels = by_channel(records)
    lines, is_broken = lines_of_findings(channels) if each else [], False
    for key in channels:
        found = findings(channels[key])
        first = channels[key][0][2]
        if found:
            is_broken = True
            number, offset, why = found[0]
            lines.append(f"{name_of(key)} broken findings {len(found)} first record {number} offset {offset} {why}")
        else:
            samples = sum(record.count for _, _, record in channels[key])
            lines.append("{} continuous {} rate {}/{} records {} samples {}".format(
                name_of(key), time_of(first.start()), *first.rate(), len(channels[key]), samples))
    lines.append(f"records {len(records)} channels {len(channels)}")
    lines += [f"fault at {end} {fault}"] if fault else []
    return "".join(line + "\n" for line in lines).encode(), 2 if fault else 1 if is_broken else 0


def series_of(channel: Channel) -> Series:
    """The series of a channel that is continuous."""
    first, samples, steps = channel[0][2], [], []
    for _, _, record in channel:
        samples += record.read()
        steps += {16: [(len(samples), 1)], 32: [(len(samples), -1)]}.get(record.activity & 48, [])
    return Series(first.bytes[8:20], first.start(), first.factor, first.multiplier, samples, steps)


def repack(archive: bytes) -> tuple[bytes, bytes, int]:
    """Packing an archive anew into Steim-2, 512 bytes a record: the output, the standard error, and the status."""
    records, end, fault = cut(archive)
    if fault:
        return b"", f"mseed: fault at {end} {fault}\n".encode(), 2
    return repacked(channels_of(records))


def repacked(channels: dict[bytes, Channel]) -> tuple[bytes, bytes, int]:
    """The same of some channels."""
    for key in channels:
        found = findings(channels[key])
        if found:
            return b"", broken_lines(key, found[0]).encode(), 1
    all_series = {key: series_of(channels[key]) for key in channels}
    for key, series in all_series.items():
        why = misfit(series, 11)
        if why:
            return b"", f"mseed: {name_of(key)} does not fit {why.reason}\nmseed: {why.words}\n".encode(), 2
    return b"".join(record for series in all_series.values() for record in packed(series)), b"", 0
