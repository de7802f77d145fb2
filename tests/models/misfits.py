"""Why a series can't be packed in an encoding, and what is said of it, from docs/format.md and docs/texts.md alone."""

from __future__ import annotations

import datetime
from typing import NamedTuple, Optional

from models.packing import EPOCH, Series, btime, fits

NAMES = {1: "int16", 3: "int32", 10: "steim1", 11: "steim2"}
WIDTH_OF_SAMPLES = {1: 16, 3: 32, 10: 32, 11: 32}
WIDTH_OF_DIFFERENCES = {10: 32, 11: 30}


class Misfit(NamedTuple):
    """Why a series can't be packed: the number of the reason, and the line more without what begins it."""

    reason: int
    words: str


def is_outside(instant: int) -> bool:
    """Whether an instant, rounded as it is written, lies in no year from 1900 to 2100."""
    try:
        return not 1900 <= btime(instant)["year"] <= 2100
    except (OverflowError, ValueError):
        return True


def first_outside(series: Series) -> Optional[int]:
    """The index of the first sample that lies in no such year; whether there is one, the first or the last sample
    between two leap seconds tells."""
    places = [place for place, _ in series.steps]
    ends = [0] + [at for place in places for at in (place - 1, place)] + [len(series.samples) - 1]
    if not any(is_outside(series.instant(at)) for at in ends if at < len(series.samples)):
        return None
    return next(at for at in range(len(series.samples)) if is_outside(series.instant(at)))


def held_by(encoding: int, bits: int) -> str:
    """From where to where the numbers lie that an encoding holds."""
    return f"outside {-2**(bits - 1)} to {2**(bits - 1) - 1}, which {NAMES[encoding]} holds"


def misfit(series: Series, encoding: int) -> Optional[Misfit]:
    """Why a series can't be packed; nothing where it can."""
    num, den = series.rate()
    if num > 500_000 * den:
        return Misfit(2, f"its rate is {num}/{den} samples a second, over 500000, the most that is packed")
    late = first_outside(series)
    if late is not None:
        instant = (EPOCH + datetime.timedelta(microseconds=series.instant(late))).isoformat(timespec="microseconds")
        return Misfit(3, f"the time of sample {late + 1} is {instant}, which rounded to 0.0001 seconds lies in no year "
                         "from 1900 to 2100")
    bits = WIDTH_OF_SAMPLES[encoding]
    for number, sample in enumerate(series.samples, 1):
        if not fits(sample, bits):
            return Misfit(4, f"sample {number} is {sample}, {held_by(encoding, bits)}")
    bits = WIDTH_OF_DIFFERENCES.get(encoding, 40)
    for number, (before, sample) in enumerate(zip(series.samples, series.samples[1:]), 2):
        if not fits(sample - before, bits):
            words = f"the difference before sample {number} is {sample - before}, {held_by(encoding, bits)}"
            return Misfit(5, words)
    return None
