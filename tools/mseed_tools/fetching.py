"""Runs of `mseed fetch` into a file, one after another: each asks for what the file doesn't hold."""

from __future__ import annotations

import os
import re
import select
import subprocess
import time
from typing import NamedTuple, Optional, Sequence

from mseed_tools.command import BAD_ARGUMENTS
from mseed_tools.held import LENGTH, Holder
from mseed_tools.program import Program, ToolError

FIRST = re.compile(r"mseed: first (\S+):([0-9A-F]{1,6})")
HOLE = re.compile(r"mseed: hole (\S+) ([0-9A-F]{1,6}) ([0-9A-F]{1,6})")
NEXT = re.compile(r"mseed: next --network (\S+) --station (\S+)(?: --from ([0-9A-F]{1,6}))?((?: \S+)*)")
AT_ONCE = 2**16
# Seconds between tries: twice as long each time.
SHORTEST, LONGEST = 0.1, 5.0
# Whoever comes back may refuse what it will have in a moment; who refuses so often doesn't have it any more.
REFUSALS = 10


class Wanted(NamedTuple):
    """What is requested: the options of the link, the places, and where a place begins of which nothing is held."""

    link: list[str]
    places: list[str]
    begin: dict[str, str]

    def arguments(self, held: Holder) -> list[str]:
        """The arguments of a run that goes on after what is held."""
        return ["fetch", "--tell-next", *self.link, *self.next(held)]

    def next(self, held: Holder) -> list[str]:
        """Those of the places, with the numbers that are wanted next."""
        first, *others = [(place, self.number(place, held)) for place in self.places]
        network, _, station = first[0].partition("_")
        return ["--network", network, "--station", station, *(["--from", first[1]] if first[1] else []),
                *(f"{place}:{number}" if number else place for place, number in others)]

    def number(self, place: str, held: Holder) -> str:
        """The number of the record of a place that is wanted next; none for the oldest one."""
        number = held.numbers.next(place)
        return self.begin.get(place, "") if number is None else f"{number:06X}"


class Ended(NamedTuple):
    """How a run ended: its status, the lines that it reported, and whether it brought a record."""

    status: int
    reported: list[str]
    is_new: bool


class Run:
    """One run. What it reports on standard error it reports before the records that this is about."""

    def __init__(self, program: Program, arguments: Sequence[str], held: Holder):
        self.held, self.text, self.rest, self.is_new = held, "", b"", False
        self.reported: list[str] = []
        self.next: Optional[dict[str, Optional[int]]] = None
        try:
            self.process = subprocess.Popen([program.path, *arguments], stdin=subprocess.DEVNULL,
                                            stdout=subprocess.PIPE, stderr=subprocess.PIPE, bufsize=0)
        except OSError as error:
            raise ToolError(f"{program.path}: {error.strerror}") from error
        out, err = self.process.stdout, self.process.stderr
        assert out is not None and err is not None
        self.pipes, self.out, self.err = (out, err), out.fileno(), err.fileno()
        os.set_blocking(self.err, False)

    def ended(self) -> Ended:
        """Takes all that it brings, up to its end."""
        poller = select.poll()
        try:
            for descriptor in (self.out, self.err):
                poller.register(descriptor, select.POLLIN)
            while content := self.brought(poller):
                self.hear()
                self.take(content)
            self.held.settle()
            status = self.process.wait()
            self.hear()
        finally:
            self.process.kill()
            self.process.wait()
            for pipe in self.pipes:
                pipe.close()
        self.judge(status)
        return Ended(status, self.reported, self.is_new)

    def brought(self, poller: select.poll) -> bytes:
        """The next bytes of its output; none at its end. Meanwhile what it writes beside it is read, and what has come
        is written."""
        while True:
            ready = poller.poll(self.held.patience())
            if not ready:
                self.held.settle()
            for descriptor, _ in ready:
                if descriptor == self.out:
                    return os.read(self.out, AT_ONCE)
                if not self.hear():
                    poller.unregister(self.err)

    def hear(self) -> bool:
        """Takes what it has written so far; whether more may come."""
        try:
            while content := os.read(self.err, AT_ONCE):
                *lines, self.text = (self.text + content.decode("utf-8", "replace")).split("\n")
                for line in lines:
                    self.hear_line(line)
            return False
        except BlockingIOError:
            return True

    def hear_line(self, line: str) -> None:
        """Takes a line."""
        if first := FIRST.fullmatch(line):
            self.held.numbers.first(first[1], int(first[2], 16))
        elif hole := HOLE.fullmatch(line):
            self.held.numbers.hole(hole[1], int(hole[2], 16), int(hole[3], 16))
        elif found := NEXT.fullmatch(line):
            self.next = {f"{found[1]}_{found[2]}": int(found[3], 16) if found[3] else None}
            for word in found[4].split():
                place, _, number = word.partition(":")
                self.next[place] = int(number, 16) if number else None
        elif line:
            self.reported.append(line)

    def take(self, content: bytes) -> None:
        """Appends what is whole, after its numbers."""
        content = self.rest + content
        whole = len(content) // LENGTH * LENGTH
        self.rest = content[whole:]
        if whole:
            self.held.keep()
            self.held.append(content[:whole])
            self.is_new = True

    def judge(self, status: int) -> None:
        """Raises ToolError where it counts otherwise than what is held."""
        if status in (0, 2) and self.next is not None:
            for place, number in self.next.items():
                held = self.held.numbers.next(place)
                if held is not None and number != held:
                    raise ToolError(f"{self.held.path}: {place} is held up to {held:06X}, not to {number}")


def fetched(program: Program, wanted: Wanted, held: Holder, tries: int) -> Ended:
    """Runs until the server has sent all, refuses or sends what it must not, or so many tries in a row, or refusals,
    have brought nothing. Gives how the last run ended."""
    failed = refused = 0
    while True:
        held.numbers.begin()
        run = Run(program, wanted.arguments(held), held).ended()
        if run.is_new:
            failed = refused = 0
        failed += 1
        refused = refused + 1 if "mseed: refused" in run.reported else 0
        is_over = run.status in (0, BAD_ARGUMENTS) or "mseed: bad feed" in run.reported
        if is_over or failed >= tries or refused >= REFUSALS:
            return run
        time.sleep(min(LONGEST, SHORTEST * 2 ** min(failed - 1, 16)))
