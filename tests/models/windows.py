"""Archives for selections, and windows on both sides of the records in them: of all rates, with records that have no
samples, no rate or no time, with codes that no pattern spells, of several channels in turns, and what ends an archive.
"""

from __future__ import annotations

import datetime
from math import ceil, floor
from random import Random
from typing import Optional

from driver.records import record
from models.auditing import Record, cut
from models.packing import EPOCH, SECOND, btime
from models.selecting import Selection, instant_of, last_of

# From one sample an hour to a thousand a second, as factor and multiplier; some by other pairs, and without a rate.
RATES = [(1000, 1), (1, 1000), (100, 1), (20, 1), (1, 1), (3, 1), (7, -3), (1, -10), (-10, 1), (-60, 1), (-3600, 1),
         (1, -3600), (-60, -60), (500, 2), (32767, 15), (-32768, -1)]
NO_RATES = [(0, 1), (20, 0), (0, 0)]

# Station, location, channel and network, as they stand in a header. Some have what parts patterns, blanks, and NULs.
CODES = [b"STA    BHZXX", b"STA    BHNXX", b"STA  00BHZXX", b"STA  10BHZXX", b"ANMO 00LHZIU", b"A_B  --BH,X_",
         b"S,A  _ B Z,,", b"ST A\x000\x00BHZX ", b"sta    bhzxx", b"\x00\x00\x00\x00\x00  \x00\x00\x00\x00\x00",
         b"ST\xe9AN0 HHEF?", b"AAAAA01AAAAA"]

# Patterns, of which some match no channel, some several, and some by the empty field alone.
PATTERNS = ["*_*_*_*", "XX_STA__BHZ", "XX_STA_--_BHZ", "XX_STA_*_BH?", "XX_STA_00_BHZ,XX_STA_10_BHZ",
            "*_ANMO_*_L*", "?_*_*_*", "???_*_*_*", "*_A?B_--_*", "*_*_--_*", "*_*__*", "*_S?A_*_?*?", "xx_sta__bhz",
            "___", "___,*_*_00_*", "**_*T*_*_*Z", "XX_ST_*_*", "XX_STAA_*_*", "*A*_*A*_*_*A*A*", "-_-_-_-",
            "*_*_?_*", "*_*_??_*", "X?_ST??_*_???",
            "*_ST*A*_*_*", "*_*_-?_*", "*_*_-*_*", "*_*_---_*"]

# Where archives begin: midnights, the last day of a leap year and of another, a leap second, and the first and last
# years of a start.
BEGINS = ["2024-05-13T23:59:50", "2024-12-30T23:59:58.999999", "2023-12-31T12:00", "2016-12-31T23:59:59.75",
          "1900-01-01T00:00:01", "2100-12-31T22:00", "1970-01-01", "2024-02-28T23:00:00.000001", "2000-366T03:20"]

DAY = 86_400 * SECOND


def archive_for(source: Random, most: int = 40) -> bytes:
    """Records of some channels in turns, each with a rate of its own or not, and what ends an archive."""
    now = instant_of(source.choice(BEGINS))
    channels = source.sample(CODES, source.randrange(1, 5))
    rates = {codes: source.choice(RATES) for codes in channels}
    records = []
    for _ in range(source.randrange(most + 1)):
        codes = source.choice(channels)
        records.append(record_for(source, codes, rates[codes], now))
        now += source.choice([0, 1, 49, 50, 800_000, SECOND, SECOND, 16 * SECOND, 600 * SECOND, DAY // 3])
        now -= source.choice([0, 0, 0, 0, SECOND])
        now = max(instant_of("1900-01-01T00:00:01"), min(now, instant_of("2100-12-31T23:59:58")))
    archive = b"".join(records)
    ending = source.randrange(6)
    if ending == 0:
        return archive + source.choice([b"no record, but enough bytes that framing can say so: 48 of them", b"\0" * 64,
                                        b"MS\x03", b"short"])
    return archive[: source.randrange(len(archive) + 1)] if ending == 1 else archive


def record_for(source: Random, codes: bytes, rate: tuple[int, int], start: int) -> bytes:
    """A record that begins at an instant, or has no time, no rate, or no samples."""
    factor, multiplier = source.choice([rate] * 12 + NO_RATES[:1] + [source.choice(RATES + NO_RATES)])
    fields: dict[str, int] = dict(btime(start))
    manner = source.randrange(24)
    if manner < 3:
        fields.update(source.choice([{"hour": 24}, {"minute": 60}, {"second": 61}, {"fraction": 10000},
                                     {"day": 366, "year": 2023}]))
    elif manner == 3 and fields["second"] == 0 and fields["minute"]:
        fields.update(minute=fields["minute"] - 1, second=60)
    correction, applied = source.choice([(0, 0), (0, 2), (7, 2), (-9, 2)])
    if manner == 4:
        correction, applied = source.randrange(-9, 10), 0
    count = source.choice([0, 1, 2, 15, 16, 16, 16, 16])
    return record(codes=codes, quality=source.choice([b"D", b"R", b"Q", b"M"]), samples=count, factor=factor,
                  multiplier=multiplier, activity=applied | source.choice([0, 0, 0, 16, 32, 48]), correction=correction,
                  order=source.choice("<>"), encoding=source.choice([3, 3, 3, 3, 1, 5]), **fields)


def bounds_near(source: Random, records: list[Record]) -> int:
    """An instant at the first or the last sample of a record, or a microsecond before or after it."""
    known = [one for one in records if not isinstance(one.start(), str)]
    if not known or source.randrange(12) == 0:
        return instant_of(source.choice(BEGINS))
    one = source.choice(known)
    at = source.choice([one.start(), floor(last_of(one)), ceil(last_of(one))]) + source.choice([-1, 0, 0, 1])
    return source.choice([at, at, at, at // SECOND * SECOND, at // DAY * DAY])


def word_of(source: Random, instant: int) -> str:
    """An instant as a word, in one of its forms."""
    at = EPOCH + datetime.timedelta(microseconds=instant)
    seconds = ":%S"
    if at.second == 0 and source.randrange(3) == 0:
        # The first second of a minute is second 60 of the one before.
        at, seconds = at - datetime.timedelta(minutes=1), ":60"
    text = at.strftime(source.choice(["%Y-%m-%d", "%Y-%j"]))
    micros = f"{at.microsecond:06}"
    shortest = micros.rstrip("0")
    if shortest:
        text += at.strftime(f"T%H:%M{seconds}.") + source.choice([shortest, micros])
    elif seconds == ":60" or at.second:
        text += at.strftime(f"T%H:%M{seconds}")
    elif at.minute:
        text += at.strftime(source.choice(["T%H:%M", "T%H:%M:00", "T%H:%M:00.0"]))
    elif at.hour:
        text += at.strftime(source.choice(["T%H", "T%H:00"]))
    return text + source.choice(["", "Z"])


def selection_for(source: Random, archive: bytes) -> Selection:
    """What is asked for of an archive, in arguments that mean something."""
    records = [one for _, one in cut(archive)[0]]
    first, second = (bounds_near(source, records) for _ in range(2))
    if first == second:
        second += 1
    window: list[Optional[int]] = [min(first, second), max(first, second)]
    if source.randrange(3) == 0:
        window[source.randrange(2)] = None
    patterns = ",".join(source.sample(PATTERNS, source.choice([1, 1, 2, 3])))
    start, end = (None if bound is None else word_of(source, in_range(bound)) for bound in window)
    found = Selection(source.choice([None, patterns]), start, end)
    return found if found.is_good() else Selection(patterns)


def in_range(instant: int) -> int:
    """An instant of a year that a time may have."""
    return max(instant_of("1900-01-01"), min(instant, instant_of("2100-12-31T23:59:59.999999")))
