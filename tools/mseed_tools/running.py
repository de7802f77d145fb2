"""Files that are read side by side, in order, with a bar that shows how far."""

from __future__ import annotations

import os
import sys
import time
from collections import deque
from concurrent.futures import Future, ThreadPoolExecutor
from typing import Deque, Iterable, Iterator, Optional, Union

from mseed_tools.program import Program
from mseed_tools.reading import Reading, read_file, stamp_of
from mseed_tools.state import State
from mseed_tools.tree import DayFile

# So many files for each process wait for those before them.
AHEAD = 16
WIDTH = 30


class Bar:
    """How far a run is, on a terminal; elsewhere nothing is written."""

    def __init__(self, total: int):
        self.total, self.done, self.read = total, 0, 0
        self.begun = self.drawn = time.monotonic()
        self.is_drawn = sys.stderr.isatty()

    def add(self, size: int, is_new: bool) -> None:
        """So many bytes more are done; they were read just now or earlier."""
        self.done += size
        self.read += size if is_new else 0
        now = time.monotonic()
        if self.is_drawn and now - self.drawn >= 0.1:
            self.drawn = now
            print(f"\r{self.line(now - self.begun)}\x1b[K", end="", file=sys.stderr, flush=True)

    def line(self, seconds: float) -> str:
        """The bar, the rate, and the time left; as long as nothing was read nobody knows it."""
        part = min(1.0, self.done / self.total) if self.total else 1.0
        full = round(part * WIDTH)
        rate = self.read / 1e6 / seconds if seconds else 0.0
        left = max(0, self.total - self.done) / 1e6 / rate if rate else 0.0
        minutes, rest = divmod(round(left), 60)
        hours, minutes = divmod(minutes, 60)
        until = f"{rate:.0f} MB/s, {hours}:{minutes:02}:{rest:02} left" if rate else "waiting"
        return f"[{'#' * full}{'.' * (WIDTH - full)}] {100 * part:3.0f} % {until}"

    def end(self) -> None:
        """Clears the line."""
        if self.is_drawn:
            print("\r\x1b[K", end="", file=sys.stderr, flush=True)


def in_order(program: Program, root: str, files: Iterable[DayFile], jobs: int, state: State,
             bar: Bar) -> Iterator[tuple[DayFile, Reading]]:
    """What is read of files below a root, so many at once, each with its file, in their order; what is kept of a file
    that is the same is taken from there."""
    waiting: Deque[tuple[DayFile, Union[Reading, Future[Reading]]]] = deque()

    def begun(file: DayFile) -> Union[Reading, Future[Reading]]:
        path = os.path.join(root, file.path)
        try:
            kept: Optional[Reading] = state.kept(file.year, file.path, stamp_of(os.stat(path)))
        except OSError:
            kept = None
        return kept or pool.submit(read_file, program, path, file if file.channel else None)

    def next_one() -> tuple[DayFile, Reading]:
        file, come = waiting.popleft()
        reading = come if isinstance(come, Reading) else come.result()
        state.keep(file.year, file.path, reading)
        bar.add(reading.stamp.size, isinstance(come, Future))
        return file, reading

    with ThreadPoolExecutor(jobs) as pool:
        try:
            for file in files:
                waiting.append((file, begun(file)))
                if len(waiting) > AHEAD * jobs:
                    yield next_one()
            while waiting:
                yield next_one()
        finally:
            for _, come in waiting:
                if isinstance(come, Future):
                    come.cancel()
    state.write()
    bar.end()
