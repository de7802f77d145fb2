"""Which days records are of, and the time that they don't cover, in Python, from tools/README.md alone."""

from __future__ import annotations

import datetime
from fractions import Fraction
from typing import Iterable, Iterator, Optional

from models.auditing import Record, finding
from models.packing import EPOCH, SECOND

DAY = 86400 * SECOND
LEAPS = {0: 0, 1: -SECOND, 2: SECOND, 3: 0}


def period_of(record: Record) -> Optional[Fraction]:
    """The microseconds from a sample to the next."""
    rate = record.rate()
    return Fraction(rate[1] * SECOND, rate[0]) if rate else None


def day_of(record: Record, day: datetime.date) -> Optional[datetime.date]:
    """The day of a record in the file of a day; none where its start isn't known."""
    start, period = record.start(), period_of(record)
    if isinstance(start, str):
        return None
    first = (day - EPOCH.date()).days * DAY
    last = start + (record.count - 1) * period if period else start
    if last >= first and start < first + DAY + SECOND:
        return day
    return EPOCH.date() + datetime.timedelta(days=start // DAY)


class Time:
    """The time that some records cover."""

    def __init__(self, records: Iterable[Record]):
        found = [(record.start(), period_of(record), record) for record in records]
        self.spans = sorted((start, self.end(start, period, record), (period or 0) / 2)
                            for start, period, record in found if not isinstance(start, str))

    @staticmethod
    def end(start: int, period: Optional[Fraction], record: Record) -> Fraction:
        """Where a record ends, with the leap second after it."""
        return start + record.count * period + LEAPS[record.activity >> 4 & 3] if period else Fraction(start)

    def holes(self) -> Iterator[int]:
        """The microseconds of each hole: up to each record that begins more than half a sample period after all that
        began before it have ended, by the record of these that ends last."""
        for number in range(1, len(self.spans)):
            begin = self.spans[number][0]
            _, end, half = max(self.spans[:number], key=lambda span: (span[1], span[2]))
            if begin - end > half:
                yield int(begin - end)


def is_told(records: list[Record]) -> bool:
    """Whether each record with a leap second after it says so to the next one, since no program lists these flags; and
    lasts for longer, so that time doesn't run back."""
    for record, after in zip(records, [*records[1:], None]):
        period = period_of(record)
        if record.activity & 48 and (period is None or record.count * period <= SECOND or after is not None
                                     and (finding(record, after) or "gap").split()[0] not in ("gap", "overlap")):
            return False
    return True
