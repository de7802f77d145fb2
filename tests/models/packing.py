"""Series, and the records that they are packed into and read from, by the rules of docs/format.md.

Nothing here is made for speed: words are tried row by row, and written as binary digits.
"""

from __future__ import annotations

import datetime
import struct
from typing import Optional, Sequence

from driver.records import record

SECOND = 10**6
EPOCH = datetime.datetime(1970, 1, 1)

# The rows of appendix B: how many differences, of how many bits, under which code and which dnib.
STEIM_1 = [(4, 8, 1, None), (2, 16, 2, None), (1, 32, 3, None)]
STEIM_2 = [(7, 4, 3, 2), (6, 5, 3, 1), (5, 6, 3, 0), (4, 8, 1, None), (3, 10, 2, 3), (2, 15, 2, 2), (1, 30, 2, 1)]
ROWS = {10: STEIM_1, 11: STEIM_2}
# How many differences, of how many bits, under which code and which dnib, if any.
Form = tuple[int, int, int, Optional[int]]
WIDTHS = {1: 2, 3: 4}


class Series:
    """The samples of a channel from an instant on, and its leap seconds: each with the number of samples before
    it, and +1 or -1."""

    def __init__(self, codes: bytes, start: int, factor: int, multiplier: int, samples: list[int],
                 steps: Sequence[tuple[int, int]] = ()):
        self.codes, self.start, self.samples, self.steps = codes, start, samples, list(steps)
        self.factor, self.multiplier = factor, multiplier

    def rate(self) -> tuple[int, int]:
        """Samples, in so many seconds."""
        num = den = 1
        for part in (self.factor, self.multiplier):
            if part > 0:
                num *= part
            else:
                den *= -part
        return num, den

    def instant(self, index: int) -> int:
        """The microsecond at which a sample stands."""
        num, den = self.rate()
        return (self.start * num + index * den * SECOND) // num \
            - SECOND * sum(way for place, way in self.steps if place <= index)

    def values(self) -> tuple:
        """All that there is to compare."""
        return self.codes, self.start, self.factor, self.multiplier, self.samples, self.steps


def btime(instant: int) -> dict[str, int]:
    """The fields of a record's start: the nearest BTIME, the later one of two, and the microseconds that are left."""
    micros = (instant + 50) % 100 - 50
    at = EPOCH + datetime.timedelta(microseconds=instant - micros)
    return {"year": at.year, "day": at.timetuple().tm_yday, "hour": at.hour, "minute": at.minute, "second": at.second,
            "fraction": at.microsecond // 100, "micros": micros}


def fits(number: int, bits: int) -> bool:
    """Whether so many bits hold a number."""
    return -(1 << bits - 1) <= number < 1 << bits - 1


def word_of(differences: Sequence[int], row: Form) -> str:
    """A word that spells all of these, in one of the rows, as 32 binary digits."""
    count, bits, _, dnib = row
    digits = "" if dnib is None else format(dnib, "02b")
    digits += "" if bits * count + len(digits) == 32 else "00"
    return digits + "".join(format(d % (1 << bits), f"0{bits}b") for d in differences)


def words_of(differences: Sequence[int], rows: Sequence[Form], room: int) -> tuple[list[tuple[int, str]], int]:
    """The fullest words, at most so many, each with its code; and how many differences they spell."""
    words, used = [], 0
    while used < len(differences) and len(words) < room:
        row = next(r for r in rows if used + r[0] <= len(differences)
                   and all(fits(d, r[1]) for d in differences[used : used + r[0]]))
        words.append((row[2], word_of(differences[used : used + row[0]], row)))
        used += row[0]
    return words, used


def frames_of(words: list[tuple[int, str]], first: int, last: int, frames: int) -> tuple[bytes, int]:
    """So many frames with these words, from the third of the first frame on; and how many hold one of them."""
    texts = [(0, format(first % 2**32, "032b")), (0, format(last % 2**32, "032b"))] + words
    held = -(-len(texts) // 15)
    texts += [(0, "0" * 32)] * (15 * frames - len(texts))
    data = b""
    for at in range(0, len(texts), 15):
        codes = "00" + "".join(format(code, "02b") for code, _ in texts[at : at + 15])
        for text in [codes] + [text for _, text in texts[at : at + 15]]:
            data += int(text, 2).to_bytes(4, "big")
    return data, held


def packed(series: Series, exponent: int = 9, encoding: int = 11) -> list[bytes]:
    """The records of a series."""
    samples, records, at = series.samples, [], 0
    differences = [0] + [b - a for a, b in zip(samples, samples[1:])]
    room = 2**exponent - 64
    while at < len(samples):
        end = min([place for place, _ in series.steps if place > at] + [len(samples)])
        if encoding in WIDTHS:
            count, frames = min(end - at, room // WIDTHS[encoding]), 0
            data = b"".join(s.to_bytes(WIDTHS[encoding], "big", signed=True) for s in samples[at : at + count])
        else:
            words, count = words_of(differences[at:end], ROWS[encoding], room // 64 * 15 - 2)
            data, frames = frames_of(words, samples[at], samples[at + count - 1], room // 64)
        activity = sum({1: 16, -1: 32}[way] for place, way in series.steps if place == at + count)
        records.append(record(codes=series.codes, samples=count, factor=series.factor, multiplier=series.multiplier,
                              activity=activity, encoding=encoding, exponent=exponent, frames=frames, data=data,
                              sequence=(len(records) + 1) % 10**6, **btime(series.instant(at))))
        at += count
    return records


def number(digits: str) -> int:
    """A number of binary digits, of which the first is its sign."""
    return int(digits, 2) - (2 ** len(digits) if digits[0] == "1" else 0)


def differences_in(data: bytes, rows: Sequence[Form]) -> list[int]:
    """The differences of all words of the frames, the constants of the first frame left out."""
    found = []
    for frame in range(0, len(data) // 64 * 64, 64):
        texts = [format(w, "032b") for w in struct.unpack(">16I", data[frame : frame + 64])]
        for place in range(3 if frame == 0 else 1, 16):
            code, text = int(texts[0][2 * place : 2 * place + 2], 2), texts[place]
            if code:
                count, bits = next(r[:2] for r in rows if r[2] == code and r[3] in (None, int(text[:2], 2)))
                text = text[32 - count * bits :]
                found += [number(text[i : i + bits]) for i in range(0, count * bits, bits)]
    return found


def samples_of(bytes: bytes, order: str, count: int) -> tuple[list[int], bool]:
    """The samples of a record with one blockette 1000 at 48, and whether they end on their constant."""
    encoding, word_order = bytes[52:54]
    data = bytes[struct.unpack(order + "H", bytes[44:46])[0] :]
    if encoding in WIDTHS:
        form = (">" if word_order else "<") + str(count) + {1: "h", 3: "i"}[encoding]
        return list(struct.unpack_from(form, data)), True
    first, last = struct.unpack(">ii", data[4:12])
    samples = [first]
    for difference in differences_in(data, ROWS[encoding])[1:count]:
        samples.append(samples[-1] + difference)
    return samples, len(samples) == count and samples[-1] == last


def read(archive: bytes) -> list[Series]:
    """The series of the channels in it, in the order of their keys. The records are of those that `driver/records.py`
    makes: a blockette 1000 at 48, a 1001 at 56."""
    found = {}
    while archive:
        order = ">" if 1900 <= struct.unpack(">H", archive[20:22])[0] <= 2100 else "<"
        bytes, archive = archive[: 2 ** archive[54]], archive[2 ** archive[54] :]
        if bytes[30:32] == b"\0\0":
            continue
        year, day, hour, minute, second, _, fraction, count, factor, multiplier, activity, _, _, _, correction \
            = struct.unpack(order + "HHBBBBHHhhBBBBi", bytes[20:44])
        days = (datetime.datetime(year, 1, 1) - EPOCH).days + day - 1
        start = days * 86400 + hour * 3600 + minute * 60 + second
        start = start * SECOND + fraction * 100 + struct.unpack("b", bytes[61:62])[0]
        start += 0 if activity & 2 else correction * 100
        samples, ends = samples_of(bytes, order, count)
        assert ends
        codes = bytes[8:20]
        series = found.setdefault(codes[10:] + codes[:5] + codes[5:10],
                                  Series(codes, start, factor, multiplier, []))
        series.samples += samples
        if activity & 48 in (16, 32):
            series.steps.append((len(series.samples), 1 if activity & 16 else -1))
    return [found[key] for key in sorted(found)]
