"""Places in a file: from an offset on, up to another."""

from __future__ import annotations

from bisect import bisect_right
from typing import Iterable, Iterator

Span = tuple[int, int]


def joined(spans: Iterable[Span]) -> Iterator[Span]:
    """Places, ascending, as few."""
    begin = end = -1
    for left, right in spans:
        if left <= end:
            end = max(end, right)
            continue
        if end >= 0:
            yield begin, end
        begin, end = left, right
    if end >= 0:
        yield begin, end


class Spans:
    """Places that don't meet, ascending."""

    def __init__(self) -> None:
        self.spans: list[Span] = []

    def add(self, spans: Iterable[Span]) -> None:
        """These places too."""
        self.spans = list(joined(sorted([*self.spans, *joined(spans)])))

    def __contains__(self, offset: int) -> bool:
        place = bisect_right(self.spans, (offset, offset + 2**63))
        return place > 0 and offset < self.spans[place - 1][1]
