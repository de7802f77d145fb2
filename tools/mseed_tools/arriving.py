"""What arrives on an input, batch by batch, as records that the program frames. Behind what is no record it goes on at
the next multiple of 64 bytes where one is framed."""

from __future__ import annotations

import os
import select
import stat
import sys
import time
from typing import Callable, Iterator, NamedTuple, Optional

from mseed_tools.judged import Judged, judged
from mseed_tools.program import Program
from mseed_tools.seeking import QUALITIES, STEP, may_begin

# So much is judged at once; of what comes bit by bit, what came within a second or until nothing came for some time.
AT_ONCE, LONGEST, IDLE = 2**22, 1.0, 20


class Batch(NamedTuple):
    """Some bytes, and the records in them."""

    content: bytes
    found: Judged


class Lost(NamedTuple):
    """Where bytes begin that are no record, and why."""

    at: int
    why: str


class Arriving:
    """An input, from where a descriptor stands to its end. Before more is waited for, `idle` is called. What is told of
    faults goes to standard error, with the input's name."""

    def __init__(self, program: Program, file: int, name: str, idle: Callable[[], None]):
        self.program, self.file, self.name, self.idle = program, file, name, idle
        self.is_regular = stat.S_ISREG(os.fstat(file).st_mode)
        self.poller = select.poll()
        self.poller.register(file, select.POLLIN)
        self.content, self.begin = b"", 0
        self.lost: Optional[Lost] = None
        self.faults = 0

    def is_ready(self, wait: Optional[int]) -> bool:
        """Whether something can be read, or has ended, within so many milliseconds."""
        return self.is_regular or bool(self.poller.poll(wait))

    def gathered(self) -> bytes:
        """What comes next; nothing at the end."""
        if not self.is_ready(IDLE):
            self.idle()
            self.is_ready(None)
        parts, size, until = [], 0, time.monotonic() + LONGEST
        while size < AT_ONCE and (part := os.read(self.file, AT_ONCE - size)):
            parts.append(part)
            size += len(part)
            if not self.is_regular and (time.monotonic() >= until or not self.is_ready(IDLE)):
                break
        return b"".join(parts)

    def batches(self) -> Iterator[Batch]:
        """All of it."""
        is_last = False
        while not is_last:
            try:
                more = self.gathered()
            except OSError as error:
                print(f"{self.name}: {error.strerror}", file=sys.stderr)
                self.faults, more = self.faults + 1, b""
            is_last = not more
            self.content += more
            yield from self.framed(is_last)
        self.tell(self.begin)

    def framed(self, is_last: bool) -> Iterator[Batch]:
        """The records of what is there, which is then dropped, but for the beginning of another one."""
        while self.content:
            if self.lost is not None and not self.sought(is_last):
                return
            content, found = self.content, judged(self.program, self.content)
            is_short = found.fault is not None and found.fault.startswith("truncated ") and not is_last
            if self.lost is not None and not found.names:
                if is_short:
                    return
                self.drop(1)
                continue
            self.tell(self.begin)
            self.drop(found.end)
            if found.names:
                yield Batch(content, found)
            if is_short:
                return
            if found.fault is not None:
                self.lost = Lost(self.begin, found.fault)
                self.drop(1)

    def drop(self, size: int) -> None:
        """So many bytes are done with."""
        self.content, self.begin = self.content[size:], self.begin + len(self.content[:size])

    def sought(self, is_last: bool) -> bool:
        """Goes on to where a record may begin. Whether one may among the bytes that are there."""
        content, at = self.content, -self.begin % STEP
        while at + 8 <= len(content):
            if content[at + 6] in QUALITIES and may_begin(content, at):
                self.drop(at)
                return True
            at += STEP
        self.drop(len(content) if is_last else min(at, len(content)))
        return False

    def tell(self, until: int) -> None:
        """Tells what was no record, up to a place, if anything was."""
        if self.lost is not None:
            self.faults += 1
            print(f"{self.name}: fault at {self.lost.at} {self.lost.why}, {until - self.lost.at} bytes skipped",
                  file=sys.stderr)
        self.lost = None
