"""Instants, in microseconds since 1970: as the program writes them, and as command lines and requests name them."""

from __future__ import annotations

import datetime
import re
from typing import Optional

SECOND, DAY = 10**6, 86400 * 10**6
EPOCH = datetime.datetime(1970, 1, 1)
INSTANT = re.compile(r"(?P<year>\d{4})-(?:(?P<month>\d\d)-(?P<date>\d\d)|(?P<day>\d{3}))"
                     r"(?:T(?P<hour>\d\d)(?::(?P<minute>\d\d)(?::(?P<second>\d\d)(?:\.(?P<rest>\d{1,6}))?)?)?)?Z?",
                     re.ASCII)


def time_of(micros: Optional[int]) -> str:
    """An instant, as the program writes it."""
    if micros is None:
        return "none"
    seconds, rest = divmod(micros, SECOND)
    return f"{(EPOCH + datetime.timedelta(seconds=seconds)).isoformat()}.{rest:06}"


def micros_of(time: str) -> Optional[int]:
    """The instant that such a text says; none where it says that there is none."""
    if time.startswith("fault"):
        return None
    seconds, _, rest = time.partition(".")
    return (datetime.datetime.fromisoformat(seconds) - EPOCH) // datetime.timedelta(seconds=1) * SECOND + int(rest)


def day_at(instant: int) -> datetime.date:
    """The day in which an instant lies."""
    return EPOCH.date() + datetime.timedelta(days=instant // DAY)


def instant_in(word: str) -> int:
    """The instant that a word of a command line names: a day by its month or by its number in the year, alone or with a
    time, whose last parts may be left out. Raises ValueError where it names none."""
    found = INSTANT.fullmatch(word)
    if found is None or not 1900 <= int(found["year"]) <= 2100:
        raise ValueError(word)
    if found["day"]:
        day = datetime.datetime(int(found["year"]), 1, 1) + datetime.timedelta(days=int(found["day"]) - 1)
        if day.year != int(found["year"]):
            raise ValueError(word)
    else:
        day = datetime.datetime(int(found["year"]), int(found["month"]), int(found["date"]))
    hour, minute, second = (int(found[part] or 0) for part in ("hour", "minute", "second"))
    if hour > 23 or minute > 59 or second > 60:
        raise ValueError(word)
    seconds = (day - EPOCH) // datetime.timedelta(seconds=1) + hour * 3600 + minute * 60 + second
    return seconds * SECOND + int((found["rest"] or "").ljust(6, "0"))


def seconds_of(micros: int) -> str:
    """Microseconds, as seconds."""
    return f"{'-' * (micros < 0)}{abs(micros) // SECOND}.{abs(micros) % SECOND:06}"
