"""Runs in an address space that is bounded, page by page, from the least in which the program begins up to where it has
all that it wants. Whatever the bound, what comes is the answer, or `mseed: no memory` with status 2; never a signal,
which is what a stack comes to that can't grow. Where the system doesn't begin the program, or the loader finds no room
for its libraries, nobody is asked: there `mseed --version` comes to nothing either.
"""

from __future__ import annotations

import ctypes
import resource
import subprocess
from typing import Callable, Iterator, Sequence

from driver.links import free_port
from driver.program import PROGRAM, SAMPLES
from driver.rows import Case, Cases, Fact, Result, contents_of, holds, in_memory, opened
from driver.texts import NO_MEMORY

PAGE = 4096
# The program begins in less than this, and has all its memory in less than that.
LEAST, MOST = 1 << 20, 1 << 27
# So many bounds more are tried behind the first one that suffices.
BEHIND = 8
# The stack and the libraries are where they are in each run.
WITHOUT_CHANCE = 0x0040000
PERSONALITY = ctypes.CDLL(None).personality

TWO = (SAMPLES / "two_records.mseed").read_bytes()
NETWORK = (SAMPLES / "network.mseed").read_bytes()
VERSION = ["--version"]
INPUTS = [("nothing", b""), ("two records", TWO), ("the network", NETWORK)]
WINDOW = ["--from", "2024-001"]
# Each with whether it writes before it has read all.
COMMANDS: list[tuple[list[str], bool]] = [
    (["repack"], False), (["repack", "--stretches"], False), (["repack", "--stretches", "--leave", *WINDOW], False),
    (["repack", "--encoding", "int32"], False), (["repack", "--length", "4096", *WINDOW], False), (["audit"], False),
    (["audit", "--each"], True), (["audit", "--part"], False), (["audit", *WINDOW], False), (["show"], True),
    (["select"], True), (["join"], False), (["join", "--each"], True)]


def bounded(most: int) -> Callable[[], None]:
    """The address space of what comes is bounded to so many bytes."""

    def bound() -> None:
        PERSONALITY(WITHOUT_CHANCE)
        resource.setrlimit(resource.RLIMIT_AS, (most, most))

    return bound


def run(words: Sequence[str], input: bytes, most: int) -> Result:
    """A run within so many bytes; one that the system doesn't begin ended by a signal."""
    with in_memory() as out, in_memory() as err, opened(input) as source:
        try:
            process = subprocess.run([PROGRAM, *words], stdin=source, stdout=out, stderr=err, check=False,
                                     preexec_fn=bounded(most))
        except OSError:
            return Result(-1, b"", b"")
        return Result(process.returncode, contents_of(out), contents_of(err))


def begins(most: int) -> bool:
    """Whether the program itself runs within so many bytes, and comes to an end of its own."""
    came = run(VERSION, b"", most)
    return came == run(VERSION, b"", MOST) or (came.status, came.err) == (2, NO_MEMORY)


def first_bound() -> int:
    """The least bound, in whole pages, at which the program begins."""
    too_few, enough = LEAST // PAGE, MOST // PAGE
    while enough - too_few > 1:
        pages = (too_few + enough) // 2
        if begins(pages * PAGE):
            enough = pages
        else:
            too_few = pages
    return enough * PAGE


def is_answer(came: Result, whole: Result, writes_early: bool) -> bool:
    """Whether a run came to what it comes to with all its memory, or ended for want of it."""
    is_prefix = whole.out.startswith(came.out) if writes_early else not came.out
    return came == whole or (came.status == 2 and came.err == NO_MEMORY and is_prefix)


def stepped(words: Sequence[str], name: str, input: bytes, writes_early: bool, first: int) -> Iterator[Case]:
    """A command over an input, at each bound from the first one on."""
    whole = run(words, input, MOST)
    title, refused, answered = f"{' '.join(words)} over {name}", 0, 0
    most = first
    while answered <= BEHIND and most < MOST:
        came = run(words, input, most)
        if not is_answer(came, whole, writes_early):
            yield Fact(f"{title} in {most} bytes", whole, came)
            return
        if came == whole:
            answered += 1
        else:
            refused, answered = refused + 1, 0
        most += PAGE
    yield holds(f"{title} is answered in the end", answered > BEHIND, most)
    yield holds(f"{title} is refused memory in less", refused, first)


def rows() -> Cases:
    """All of them."""
    first = first_bound()
    yield holds("the program doesn't begin in a page less", not begins(first - PAGE), first)
    # The longer arguments of a command may take a page more of the stack than --version.
    for words, writes_early in COMMANDS:
        for name, input in INPUTS:
            yield from stepped(words, name, input, writes_early, first + PAGE)
    # A feed whose input has ended, and a port at which nobody answers.
    place = ["--port", str(free_port()), "--station", "STA", "--network", "XX"]
    for words in (["serve", "--live", *place], ["fetch", *place]):
        yield from stepped(words, "nothing", b"", False, first + PAGE)
