"""A file of a tree that records are put into, and counts of these."""

from __future__ import annotations

import os
from typing import NamedTuple, Optional

from mseed_tools.ledger import Kept, Stamp

UNFILED = "unfiled.mseed"
# Later than any start, so that each record is looked for.
ALWAYS = "~"


class Counts(NamedTuple):
    """What became of the records so far."""

    records: int = 0
    written: int = 0
    known: int = 0
    unfiled: int = 0

    def line(self) -> str:
        """These, in words."""
        return " ".join(f"{name} {number}" for name, number in self._asdict().items()) + "\n"


class Filed:
    """A file of the tree: its length with what this run has added, the latest start of its records and the first one
    that is too late for it, what it was when it was looked at, digests of its records where they are wanted, and what
    is to be added."""

    __slots__ = ("path", "length", "latest", "end", "stamp", "marks", "parts", "file", "inode", "is_begun")

    def __init__(self, path: str):
        self.path, self.length, self.inode, self.is_begun, self.end = path, 0, 0, False, ""
        self.latest = ALWAYS if path == UNFILED else ""
        self.stamp: Optional[Stamp] = None
        self.marks: Optional[set[bytes]] = None
        self.parts: list[bytes] = []
        self.file: Optional[int] = None

    def kept(self) -> Kept:
        """What is kept of it."""
        return Kept(self.path, self.stamp or Stamp(0, self.length, 0), self.latest)


def stamp_of(status: os.stat_result) -> Stamp:
    """That of a file with this status."""
    return Stamp(status.st_ino, status.st_size, status.st_mtime_ns)
