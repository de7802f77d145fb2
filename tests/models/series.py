"""Series of all kinds at random, and records that say them: of mixed lengths, byte orders and encodings, with words
that aren't the fullest."""

from __future__ import annotations

import struct
from random import Random
from typing import Iterator, Sequence

from driver.records import record
from models.packing import ROWS, SECOND, WIDTHS, Form, Series, btime, fits, frames_of, word_of

# Values whose differences need the most bits of each row, and those of 16 and 32 bits themselves.
EDGES = sorted({sign * (1 << bits - 1) - low
                for bits in (4, 5, 6, 8, 10, 15, 16, 30) for sign in (-1, 1) for low in (0, 1)})
LIMIT = {1: 15, 3: 31, 10: 31, 11: 28}
CODES = {"int16": 1, "int32": 3, "steim1": 10, "steim2": 11}


def samples_for(source: Random, encoding: int, count: int) -> list[int]:
    """Samples that the encoding can hold, in one of several manners."""
    limit = 1 << LIMIT[encoding]
    manner = source.randrange(5)
    if manner == 0:
        return [source.choice([-limit, limit - 1, 0, 1, -1])] * count
    if manner == 1 and encoding != 10:
        return [source.choice([-limit, limit - 1, 0]) for _ in range(count)]
    width = source.choice([1, 3, 4, 5, 6, 8, 10, 12, 15])
    samples, last = [], source.randrange(-limit // 2, limit // 2)
    for _ in range(count):
        is_edge = manner == 2 or source.random() < 0.02
        step = source.choice(EDGES) if is_edge else source.getrandbits(width) - (1 << width) // 2
        last = next((number for number in (last + step, last - step) if -limit <= number < limit), last)
        samples.append(last)
    return samples


def count_for(source: Random, exponent: int, encoding: int) -> int:
    """Near the edge of some records, or any."""
    room = 2**exponent - 64
    if encoding in WIDTHS:
        full = room // WIDTHS[encoding]
    else:
        full = (room // 64 * 15 - 2) * source.choice(ROWS[encoding])[0]
    return source.choice([1, 2, max(1, full - 1), full, full + 1, 2 * full + 1, source.randrange(1, 400)])


def rate_for(source: Random) -> tuple[int, int]:
    """A factor and a multiplier."""
    return source.choice([(20, 1), (100, 1), (3, 1), (1, 3), (7, -3), (1, -10), (-10, 1), (-3, 7), (-2, -5), (-1, -1),
                          (32767, 15), (-32768, -1), (20, -1), (1, 1)])


def series_for(source: Random, name: bytes, exponent: int, encoding: int) -> Series:
    """A series of a channel, which records of this length and encoding can hold."""
    count = count_for(source, exponent, encoding)
    factor, multiplier = rate_for(source)
    start = source.choice([0, 1704067199999949, 1483228790123456, -2208988790000000, 951782400000051])
    start += source.randrange(100)
    places = sorted(source.sample(range(1, count + 1), min(count, source.choice([0, 0, 0, 1, 3]))))
    samples = samples_for(source, encoding, count)
    return Series(name, start, factor, multiplier, samples, [(place, source.choice([1, -1])) for place in places])


def loose_words(source: Random, differences: Sequence[int], rows: Sequence[Form],
                room: int) -> tuple[list[tuple[int, str]], int]:
    """Words that needn't be the fullest."""
    words, used = [], 0
    while used < len(differences) and len(words) < room:
        fit = [row for row in rows if used + row[0] <= len(differences)
               and all(fits(difference, row[1]) for difference in differences[used : used + row[0]])]
        row = source.choice(fit)
        words.append((row[2], word_of(differences[used : used + row[0]], row)))
        used += row[0]
    return words, used


def payload_for(source: Random, samples: list[int], at: int, most: int, encoding: int, room: int,
                word_order: int) -> tuple[bytes, int]:
    """A payload with some of the samples from `at` on, and how many."""
    if encoding in (1, 3):
        width, form = {1: (2, "h"), 3: (4, "i")}[encoding]
        count = source.randrange(1, min(most, room // width) + 1)
        return struct.pack((">" if word_order else "<") + f"{count}{form}", *samples[at : at + count]), count
    differences = [source.randrange(-8, 8)] + [b - a for a, b in zip(samples[at:], samples[at + 1 : at + most])]
    words, count = loose_words(source, differences, ROWS[encoding], source.randrange(1, room // 64 * 15 - 1))
    return frames_of(words, samples[at], samples[at + count - 1], room // 64)[0], count


def records_for(source: Random, series: Series) -> list[bytes]:
    """Some records that say the series, each start by up to half a period off but the first."""
    records, at, samples = [], 0, series.samples
    num, den = series.rate()
    while at < len(samples):
        most = min([place for place, _ in series.steps if place > at] + [len(samples)]) - at
        held = samples[at : at + most]
        codes = [3] + ([1] if all(fits(s, 16) for s in held) else [])
        codes += [c for c, bits in ((10, 32), (11, 30)) if all(fits(b - a, bits) for a, b in zip(held, held[1:]))]
        encoding, exponent, word_order = source.choice(codes), source.randrange(7, 13), source.choice([0, 1])
        word_order = 1 if encoding in (10, 11) else word_order
        data, count = payload_for(source, samples, at, most, encoding, 2**exponent - 64, word_order)
        late = source.randrange(-9, 10) if at and den * SECOND > 100 * num else 0
        activity = sum({1: 16, -1: 32}[way] for place, way in series.steps if place == at + count)
        correction, applied = source.randrange(-9, 9), source.choice([0, 2])
        start = series.instant(at) + late - (0 if applied else 100 * correction)
        quality, order = source.choice([b"D", b"R", b"Q", b"M"]), source.choice("<>")
        records.append(record(codes=series.codes, quality=quality, samples=count, factor=series.factor,
                              multiplier=series.multiplier, activity=activity | applied, correction=correction,
                              encoding=encoding, word_order=word_order, exponent=exponent, data=data, order=order,
                              **btime(start)))
        at += count
    return records


def interleaved(source: Random, lists: list[list[bytes]]) -> Iterator[bytes]:
    """Lists as one, each in its own order."""
    left = [list(reversed(some)) for some in lists if some]
    while left:
        some = source.choice(left)
        yield some.pop()
        left = [other for other in left if other]
