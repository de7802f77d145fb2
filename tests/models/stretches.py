"""Packing anew by stretches in Python, from docs/format.md and docs/texts.md alone."""

from __future__ import annotations

import dataclasses
from typing import Optional

from models.auditing import Channel, Record, broken_lines, channels_of, cut, finding, name_of
from models.misfits import Misfit, misfit
from models.packing import SECOND, Series, packed

SHIFTS = {16: SECOND, 32: -SECOND}


@dataclasses.dataclass
class Stretch:
    """Records of one channel that follow one clock, and what that clock needs to be known for."""

    records: list[Record]

    def goes_on(self, record: Record) -> bool:
        """Whether a record goes on with it."""
        (num, den), (other_num, other_den) = self.records[0].rate(), record.rate()
        if num * other_den != other_num * den or self.records[-1].activity & 48 == 48:
            return False
        samples = sum(one.count for one in self.records)
        shift = sum(SHIFTS.get(one.activity & 48, 0) for one in self.records)
        off = (record.start() - self.records[0].start() + shift) * num - samples * den * SECOND
        return 4 * abs(off) <= den * SECOND

    def series(self) -> Series:
        """Its series. A record with both leap flags says no leap second."""
        first, samples, steps = self.records[0], [], []
        for record in self.records:
            samples += record.read()
            if record.activity & 48 in SHIFTS:
                steps.append((len(samples), 1 if record.activity & 16 else -1))
        return Series(first.bytes[8:20], first.start(), first.factor, first.multiplier, samples, steps)


def is_sound(record: Record) -> bool:
    """Whether nothing is found of a record by itself."""
    return not isinstance(record.start(), str) and record.rate() is not None and not isinstance(record.read(), str)


def first_own(channel: Channel) -> tuple[int, int, str]:
    """The first finding that is a record's own."""
    return next((number, offset, str(finding(None, record))) for number, offset, record in channel
                if not is_sound(record))


def stretches_of(records: list[Record]) -> list[Stretch]:
    """The stretches of a channel's records, each of which is sound."""
    found: list[Stretch] = []
    for record in records:
        if found and found[-1].goes_on(record):
            found[-1].records.append(record)
        else:
            found.append(Stretch([record]))
    return found


def misfit_of(stretches: list[Stretch], encoding: int) -> Optional[tuple[int, Misfit]]:
    """The first stretch that can't be packed, counted from 1, and why."""
    for number, stretch in enumerate(stretches, 1):
        why = misfit(stretch.series(), encoding)
        if why:
            return number, why
    return None


def misfit_lines(key: bytes, stretch: int, why: Misfit) -> str:
    """The line about a channel of which a stretch can't be packed, and the one that says why."""
    return f"mseed: {name_of(key)} does not fit {why.reason} stretch {stretch}\nmseed: {why.words}\n"


def packed_on(stretches: list[Stretch], exponent: int, encoding: int) -> list[bytes]:
    """The records of a channel's stretches, with sequence numbers that run on."""
    records = [record for stretch in stretches for record in packed(stretch.series(), exponent, encoding)]
    return [b"%06d" % (number % 10**6) + record[6:] for number, record in enumerate(records, 1)]


def restretched(archive: bytes, exponent: int = 9, encoding: int = 11,
                leave: bool = False) -> tuple[bytes, bytes, int]:
    """Packing an archive anew by stretches: the output, the standard error, and the status."""
    records, end, fault = cut(archive)
    if fault:
        return b"", f"mseed: fault at {end} {fault}\n".encode(), 2
    return restretched_channels(channels_of(records), exponent, encoding, leave)


def restretched_channels(numbered: dict[bytes, Channel], exponent: int = 9, encoding: int = 11,
                         leave: bool = False) -> tuple[bytes, bytes, int]:
    """The same of some channels."""
    channels = {key: [record for _, _, record in channel] for key, channel in numbered.items()}
    broken = {key for key, channel in channels.items() if not all(is_sound(record) for record in channel)}
    stretches = {key: stretches_of(channel) for key, channel in channels.items() if key not in broken}
    misfits = {key: misfit_of(some, encoding) for key, some in stretches.items()}
    lines = {key: f"mseed: {name_of(key)} is broken\n" for key in sorted(broken)}
    lines.update({key: misfit_lines(key, *found) for key, found in misfits.items() if found})
    status = 2 if any(misfits.values()) else 1 if broken else 0
    if not leave and lines:
        if broken:
            return b"", broken_lines(min(broken), first_own(numbered[min(broken)])).encode(), 1
        return b"", lines[min(lines)].encode(), 2
    output = b"".join(record for key, some in stretches.items() if key not in lines
                      for record in packed_on(some, exponent, encoding))
    return output, "".join(lines[key] for key in sorted(lines)).encode(), status
