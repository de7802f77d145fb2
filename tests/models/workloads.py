"""Archives and parts of archives of 1 to 2 MB, the same bytes in every run: the inputs whose instructions are counted.

The samples are noise of changing strength at 100 Hz. They are packed once, by models/packing.py, and the records come
again and again, each where the one before it ends, in as many channels as are wanted.
"""

from __future__ import annotations

import functools
import struct
from typing import Callable, Iterable, Sequence

from driver.records import changed, integers, record
from models.auditing import Tail
from models.packing import SECOND, STEIM_2, Series, btime, frames_of, packed, words_of
from models.parts import Head, Kept, Part

START, RATE, SAMPLES = 1704067200000000, 100, 60000
CODES = b"STA    BHZXX"
# The twelve channels of a data logger.
LOGGER = [b"STA%d   BH%cXX" % (station, channel) for station in range(4) for channel in b"ENZ"]
DAY = 86400 * SECOND
# A sample so near the limits of 32 bits that differences of seventeen bits or more may pass them.
HIGH = 2**31 - 2**22


@functools.lru_cache(maxsize=1)
def noise() -> list[int]:
    """The samples."""
    state, samples, last = 88172645463325252, [], 0
    for index in range(SAMPLES):
        state ^= state << 13 & 2**64 - 1
        state ^= state >> 7
        state ^= state << 17 & 2**64 - 1
        width = 3 + index // 5000 % 8
        last += (state & (1 << width) - 1) - (1 << width - 1) - last // 64
        samples.append(last)
    return samples


@functools.lru_cache(maxsize=None)
def recorded(exponent: int = 9, encoding: int = 11) -> list[bytes]:
    """The records of the samples, without the last one, which isn't full."""
    return packed(Series(CODES, START, RATE, 1, noise()), exponent, encoding)[:-1]


def count_in(record: bytes) -> int:
    """The samples that a record says it has."""
    return struct.unpack_from(">H", record, 30)[0]


def moved(record: bytes, start: int, codes: bytes = CODES, rate: int = RATE) -> bytes:
    """A record at another instant, of another channel and rate."""
    at = btime(start)
    time = struct.pack(">HHBBBBH", at["year"], at["day"], at["hour"], at["minute"], at["second"], 0, at["fraction"])
    return changed(record, [(8, codes + time), (32, struct.pack(">h", rate)), (61, struct.pack("b", at["micros"]))])


def one_after_another(records: Sequence[bytes], count: int, codes: Sequence[bytes] = (CODES,)) -> list[bytes]:
    """So many records, over and over, of these channels in turn, each of which is continuous."""
    made: list[bytes] = []
    samples = 0
    while len(made) < count:
        for one in records:
            start = START + samples * SECOND // RATE
            made += [moved(one, start, code) for code in codes]
            samples += count_in(one)
    return made[:count]


def one_channel() -> list[bytes]:
    """One channel of Steim-2 in 512 bytes."""
    return one_after_another(recorded(), 3000)


def unequal_rates() -> list[bytes]:
    """300 channels of 20, 40 and 100 Hz, of ten networks: each record stands where it became full."""
    records = recorded()
    made = []
    for channel in range(300):
        station, component = divmod(channel, 3)
        codes = b"%c%02d    BH%cX%c" % (65 + station * 7 % 26, station, b"ENZ"[component], 65 + station % 10)
        rate, end, index = (20, 40, 100)[station % 3], START + 12345 * station, channel * 7
        while end < START + 110 * SECOND:
            one = records[index % len(records)]
            start, index = end, index + 1
            end += count_in(one) * SECOND // rate
            made.append((end, channel, moved(one, start, codes, rate)))
    return [one for _, _, one in sorted(made)]


def steim_1_long() -> list[bytes]:
    """The channels of a data logger in turn, in 4,096 bytes of Steim-1."""
    return one_after_another(recorded(12, 10), 480, LOGGER)


def integers_in_turn() -> list[bytes]:
    """The channels of a data logger in turn, as integers in 512 bytes."""
    held = [record(codes=CODES, samples=112, factor=RATE, exponent=9, data=integers(noise()[at : at + 112]))
            for at in range(0, SAMPLES - 111, 112)]
    return one_after_another(held, 3000, LOGGER)


def out_of_order() -> list[bytes]:
    """One channel, of which each record but the first is early or late."""
    records = one_channel()
    return [records[index * 1009 % len(records)] for index in range(len(records))]


def near_the_limits() -> list[bytes]:
    """One channel, of which each record begins with a sample near the largest of 32 bits."""
    made = []
    for one in one_channel():
        first, last = struct.unpack_from(">ii", one, 68)
        made.append(changed(one, [(68, integers([HIGH, last - first + HIGH]))]))
    return made


def gappy() -> list[bytes]:
    """One channel, of which every third record is lost."""
    return [one for index, one in enumerate(one_channel()) if index % 3]


def few_samples() -> list[bytes]:
    """One channel, of which each record declares three of the samples that its frames hold."""
    made, at = [], 0
    for one in recorded():
        made.append(changed(one, [(30, struct.pack(">H", 3)), (72, integers([noise()[at + 2]]))]))
        at += count_in(one)
    return one_after_another(made, 3000)


def empty_first_frame() -> list[bytes]:
    """One channel, of which each record has its differences in the second frame and after."""
    made, at = [], 0
    differences = [0] + [later - one for one, later in zip(noise(), noise()[1:])]
    while at < SAMPLES - 700:
        words, count = words_of(differences[at : at + 700], STEIM_2, 90)
        frames, _ = frames_of([(0, "0" * 32)] * 13 + words, noise()[at], noise()[at + count - 1], 7)
        made.append(record(codes=CODES, samples=count, factor=RATE, encoding=11, exponent=9, frames=7, data=frames))
        at += count
    return one_after_another(made, 3000)


def many_channels() -> list[bytes]:
    """4,000 channels in turn, three records of 128 bytes each."""
    codes = [key[2:7] + key[7:] + key[:2] for key in map(key_of, range(4000))]
    return one_after_another([record(factor=RATE)], 12000, codes)


def key_of(channel: int) -> bytes:
    """The codes of a channel in the order of a key: network, station, location and channel."""
    station, component = divmod(channel, 3)
    return b"%c%c%c%03d %02dBH%c" % (65 + station % 7, 65 + station % 3, 65 + station % 26, station % 1000,
                                     station // 1000, b"ENZ"[component])


def part_of(channels: Iterable[int], day: int) -> bytes:
    """The part of a day of some channels, of which a tenth end a record early."""
    part = Part()
    for channel in channels:
        start, records = START + day * DAY, 17280 - ((channel + day) % 10 == 0)
        head = Head(part.records + 1, part.bytes, start, (RATE, 1))
        tail = Tail(start + (records - 1) * 5 * SECOND, 500, (RATE, 1), 0)
        part.channels[key_of(channel)] = Kept(records, records * 500, head, tail, 0, None)
        part.records, part.bytes = part.records + records, part.bytes + 512 * records
    return part.part_text()


def parts_by_days() -> list[bytes]:
    """The parts of sixteen days, each of 500 channels."""
    return [part_of(range(500), day) for day in range(16)]


def parts_by_paths() -> list[bytes]:
    """The same, of a file of a channel's day each, in the order of their paths: all days of a channel together."""
    return [part_of([channel], day) for channel in sorted(range(500), key=key_of) for day in range(16)]


def parts_of_new_channels() -> list[bytes]:
    """A part of 4,000 channels, and one of 4,000 more."""
    return [part_of(range(first, first + 4000), 0) for first in (0, 4000)]


# By name, what each of them makes.
INPUTS: dict[str, Callable[[], list[bytes]]] = {made.__name__: made for made in (
    one_channel, unequal_rates, steim_1_long, integers_in_turn, out_of_order, near_the_limits, gappy, few_samples,
    empty_first_frame, many_channels, parts_by_days, parts_by_paths, parts_of_new_channels)}
