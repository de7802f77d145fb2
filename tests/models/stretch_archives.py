"""Archives at random whose channels have gaps, overlaps, clocks that drift, leap seconds, both leap flags, other rates,
and now and then a record that isn't sound."""

from __future__ import annotations

from random import Random

from driver.records import record
from models.packing import SECOND, btime, fits
from models.series import interleaved, payload_for, rate_for, samples_for

STARTS = [1704067199999949, 1483228790123456, 951782400000051]


def shift_for(source: Random, num: int, den: int) -> int:
    """By how many microseconds a record begins late: next to nothing, near a quarter or a half of a period, or far."""
    quarter = den * SECOND // (4 * num)
    return source.choice([0, 0, 0, source.randrange(-3, 4), quarter, -quarter, quarter + 1, -quarter - 1,
                          2 * quarter, -2 * quarter, 3 * quarter + 2, source.randrange(-quarter, quarter + 1),
                          source.randrange(-9, 10) * 4 * quarter])


def held_in(source: Random, samples: list[int]) -> int:
    """An encoding that can hold these samples."""
    codes = [3] + ([1] if all(fits(sample, 16) for sample in samples) else [])
    steps = [b - a for a, b in zip(samples, samples[1:])]
    codes += [code for code, bits in ((10, 32), (11, 30)) if all(fits(step, bits) for step in steps)]
    return source.choice(codes)


def channel_at_random(source: Random, codes: bytes) -> list[bytes]:
    """The records of a channel."""
    records, now, rate = [], source.choice(STARTS) + source.randrange(100), rate_for(source)
    if source.random() < 0.05:
        rate = (32767, 16)
    drift = source.choice([0, 0, 0.1, -0.1, 0.02, -0.24])
    for _ in range(source.choice([1, 2, 3, 5, 8])):
        if source.random() < 0.05:
            rate = rate_for(source)
        num = den = 1
        for part in rate:
            num, den = (num * part, den) if part > 0 else (num, den * -part)
        width = source.choice([1, 3, 10, 11])
        samples = samples_for(source, width, source.choice([1, 2, 3, 7, 16, 40]))
        encoding, exponent = held_in(source, samples), source.randrange(7, 10)
        order, word_order = source.choice("<>"), source.choice([0, 1])
        word_order = 1 if encoding in (10, 11) else word_order
        data, count = payload_for(source, samples, 0, len(samples), encoding, 2**exponent - 64, word_order)
        activity = source.choice([0] * 12 + [16, 32, 48])
        applied, correction = source.choice([0, 2]), source.randrange(-9, 9)
        changes = {}
        if source.random() < 0.01:
            changes = source.choice([{"encoding": 4}, {"factor": 0}, {"hour": 24}])
        if source.random() < 0.03:
            count, activity = 0, 0
        start = now + shift_for(source, num, den) + int(drift * len(records) * den * SECOND / num)
        fields = {"codes": codes, "samples": count, "factor": rate[0], "multiplier": rate[1],
                  "activity": activity | applied, "correction": correction, "encoding": encoding,
                  "word_order": word_order, "exponent": exponent, "data": data, "order": order,
                  **btime(start - (0 if applied else 100 * correction)), **changes}
        records.append(record(**fields))
        step = {16: SECOND, 32: -SECOND}.get(activity & 48, 0) if count else 0
        now += count * den * SECOND // num - step
    return records


def archive_at_random(source: Random) -> bytes:
    """An archive of some channels."""
    names = source.sample([b"STA%02d00BHZXX" % number for number in range(9)], source.choice([1, 1, 2, 3]))
    archive = b"".join(interleaved(source, [channel_at_random(source, name) for name in names]))
    return archive if source.random() < 0.98 else archive[: source.randrange(len(archive) + 1)]
