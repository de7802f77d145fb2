"""What is kept of files between runs: a text for each channel and year, written whole and then given its name."""

from __future__ import annotations

import datetime
import json
import os
import time
from fractions import Fraction
from typing import IO, Any, Optional

from mseed_tools.covering import Covered, Span
from mseed_tools.files import content_of, drop_begun, locked, write_whole
from mseed_tools.program import ToolError
from mseed_tools.reading import Reading, Stamp, piece_of
from mseed_tools.seeking import Fault

FORM = 2
# What is new is written at least so many seconds after it was read.
PAUSE = 1.0


def covered_as(covered: Covered) -> tuple[list[str], list[list[int]]]:
    """Days and spans, as a text may have them."""
    return [day.isoformat() for day in covered.days], [
        [span.begin, *span.end.as_integer_ratio(), *span.half.as_integer_ratio()] for span in covered.spans]


def covered_in(days: list[str], spans: list[list[int]]) -> Covered:
    """Days and spans out of a text. Raises ValueError or TypeError where it is none."""
    return Covered([datetime.date.fromisoformat(day) for day in days],
                   [Span(begin, Fraction(end, parts), Fraction(half, of)) for begin, end, parts, half, of in spans])


class State:
    """What is kept in a folder of the readings of one archive by one program; without a folder, nothing is kept. One
    thread uses it."""

    def __init__(self, folder: Optional[str], root: str, identity: str):
        self.folder = folder
        self.head = {"form": FORM, "root": os.path.realpath(root), "program": identity}
        self.name: Optional[str] = None
        self.entries: dict[str, Any] = {}
        self.held: dict[str, dict[str, Any]] = {}
        self.is_new, self.written = False, time.monotonic()
        self.lock: Optional[IO[bytes]] = None
        if folder is not None:
            root_of, folder_of = os.path.realpath(root), os.path.realpath(folder)
            if os.path.commonpath([root_of, folder_of]) == root_of:
                raise ToolError(f"{folder}: is in the archive, which is only read")
            try:
                os.makedirs(folder, exist_ok=True)
                self.lock = locked(os.path.join(folder, "lock"))
                drop_begun(folder)
            except OSError as error:
                raise ToolError(f"{folder}: {error.strerror}") from error

    def release(self) -> None:
        """Lets another run hold the folder."""
        if self.lock is not None:
            self.lock.close()

    def path_of(self, name: str) -> str:
        """Where the text of a channel and year is."""
        return os.path.join(self.folder or "", f"{name}.json")

    def load(self, name: str) -> dict[str, Any]:
        """What is kept of these files; nothing where the text is another program's or no such text."""
        if self.folder is None:
            return {}
        if name not in self.held:
            try:
                text = json.loads(content_of(self.path_of(name)))
                is_ours = all(text.get(word) == value for word, value in self.head.items())
                self.held[name] = dict(text["files"]) if is_ours else {}
            except (OSError, ValueError, KeyError, AttributeError, TypeError):
                self.held[name] = {}
        return self.held[name]

    def kept(self, name: str, path: str, stamp: Stamp) -> Optional[Reading]:
        """What is kept of a file, if it is still the same."""
        try:
            size, mtime, ctime, pieces, faults, days, spans = self.load(name)[path]
            if Stamp(size, mtime, ctime) != stamp:
                return None
            return Reading(stamp, [piece_of(*piece) for piece in pieces], [Fault(*fault) for fault in faults], None,
                           True, covered_in(days, spans))
        except (KeyError, ValueError, TypeError, ZeroDivisionError):
            return None

    def keep(self, name: str, path: str, reading: Reading) -> None:
        """Keeps what was read of a file, if it is to be trusted later. Channel after channel comes, year after year."""
        if self.folder is None:
            return
        if name != self.name:
            self.write()
            self.name, self.entries = name, {}
        if reading.problem is not None or not reading.is_kept:
            self.is_new |= path in self.load(name)
            return
        pieces, faults = [[piece.at, *piece.texts] for piece in reading.pieces], [list(one) for one in reading.faults]
        entry = [*reading.stamp, pieces, faults, *covered_as(reading.covered)]
        self.entries[path] = entry
        if self.load(name).get(path) != entry:
            self.is_new = True
            if time.monotonic() - self.written >= PAUSE:
                self.write(is_done=False)

    def write(self, is_done: bool = True) -> None:
        """Writes what is new. Until a year is done, what was kept of its other files stays in the text."""
        if self.folder is None or self.name is None:
            return
        if self.is_new or is_done and set(self.load(self.name)) != set(self.entries):
            files = self.entries if is_done else {**self.load(self.name), **self.entries}
            path = self.path_of(self.name)
            try:
                os.makedirs(os.path.dirname(path), exist_ok=True)
                write_whole(path, json.dumps({**self.head, "files": files}).encode("ascii"))
            except OSError as error:
                raise ToolError(f"{path}: {error.strerror}") from error
            self.is_new, self.written = False, time.monotonic()
        if is_done:
            self.held.pop(self.name, None)
