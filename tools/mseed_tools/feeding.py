"""A feed that is put into a tree: its records and the numbers by which it goes on are one transaction."""

from __future__ import annotations

import time
from collections import Counter
from typing import Optional

from mseed_tools.filing import Filing
from mseed_tools.held import LENGTH, Mark, Numbers
from mseed_tools.judged import NO_TIME, Judged, judged

# What comes is put into the tree when nothing more came for so many milliseconds, or after so many seconds or bytes.
IDLE, LONGEST, MOST = 20, 1.0, 2**22


class Feeding:
    """Holds a feed's records in a tree. The numbers are those of this feed alone: another server's are others."""

    def __init__(self, filing: Filing, feed: str):
        self.filing, self.feed, self.path = filing, feed, filing.root
        known = filing.ledger.numbers(feed)
        self.numbers = Numbers(Counter(), {place: [Mark(0, number)] for place, number in known.items()})
        self.came: list[bytes] = []
        self.places: set[str] = set()
        self.size, self.begun = 0, 0.0

    def keep(self) -> None:
        """Numbers are kept with the records."""
        self.numbers.drop_past()

    def append(self, content: bytes) -> None:
        """Takes whole records, which wait for more."""
        places = self.numbers.places_in(content)
        self.numbers.counts.update(places)
        self.places |= set(places)
        if not self.came:
            self.begun = time.monotonic()
        self.came.append(content)
        self.size += len(content)
        if self.size >= MOST or time.monotonic() - self.begun >= LONGEST:
            self.settle()

    def patience(self) -> Optional[int]:
        """Nothing is waited for longer than this."""
        return IDLE if self.came else None

    def settle(self) -> None:
        """Puts into the tree what has come, and commits it."""
        if not self.came:
            return
        content, self.came, self.size = b"".join(self.came), [], 0
        self.filing.take(content, self.judged(content))
        self.filing.commit(self.feed, {place: self.numbers.reached(place) for place in self.places})
        self.places = set()

    def judged(self, content: bytes) -> Judged:
        """The records as the program lists them. One that isn't framed, in as many bytes as a feed gives it, has no
        place."""
        offsets = list(range(0, len(content) + 1, LENGTH))
        found = judged(self.filing.program, content)
        if found.offsets == offsets and found.fault is None:
            return found
        names, starts = [], []
        for at in offsets[:-1]:
            one = judged(self.filing.program, content[at : at + LENGTH])
            is_whole = one.offsets == [0, LENGTH] and one.fault is None
            names.append(one.names[0] if is_whole else "")
            starts.append(one.starts[0] if is_whole else NO_TIME)
        return Judged(names, starts, offsets, None)
