"""No command takes more than 1.02 of the instructions that bench/instructions.txt says, over archives that are made
here. Those that take fewer than 0.98 are reported: `bench/instructions.py --write` writes the figures anew."""

from __future__ import annotations

import shutil

from driver.instructions import (COMMANDS, FIGURES, VALGRIND, Figures, counts, jobs, judged, limit_of, read, text_of,
                                 reported, toolchain)
from driver.rows import Cases, Fact, Skipped, holds
from models.workloads import INPUTS

NAME = "the instructions of the commands"
# A start alone takes fewer.
START = 500000


def judging() -> Cases:
    """Which counts fail, which are reported, and what a text of figures says."""
    wanted = "at most 1.02 of 1,000 instructions"
    yield Fact("what is wanted", wanted, limit_of(1000))
    for count, came in ((1, wanted), (1020, wanted), (1021, "1,021, which are 1.021 of it")):
        yield Fact(f"{count} instructions for 1,000", came, judged(1000, count))
    more = "audit < a: 979 instructions, 0.979 of the figure: bench/instructions.py --write"
    for count, line in ((979, more), (980, None), (1500, None)):
        yield Fact(f"what is reported of {count} instructions for 1,000", line, reported("audit < a", 1000, count))
    text = "kit-1 logic 2\nrepack --stretches < a 12\n"
    figures = Figures("kit-1 logic 2", {"repack --stretches < a": 12})
    yield Fact("a text of figures", (figures, text), (read(text), text_of(figures)))


def inputs() -> Cases:
    """Each input is counted, and has 1 to 2 MB."""
    yield Fact("the inputs that are counted", list(INPUTS), list(COMMANDS))
    for name, made in INPUTS.items():
        size = sum(map(len, made()))
        yield holds(f"{name} has 1 to 2 MB", 10**6 <= size < 2 * 2**20, size)


def counted(figures: Figures) -> Cases:
    """Each command."""
    for job, count in counts():
        figure = figures.of[job.name()]
        yield Fact(f"{job.name()}: {limit_of(figure)}", limit_of(figure), judged(figure, count))
        line = reported(job.name(), figure, count)
        if line:
            print(line)


def rows() -> Cases:
    """All of them."""
    yield from judging()
    yield from inputs()
    figures = read(FIGURES.read_text(encoding="ascii"))
    yield Fact("the commands that have a figure", [job.name() for job in jobs()], list(figures.of))
    yield holds("figures of more than a start", all(figure > START for figure in figures.of.values()), figures.of)
    if shutil.which(VALGRIND) is None:
        yield Skipped(NAME, VALGRIND)
    elif toolchain() != figures.toolchain:
        yield Skipped(NAME, f"{figures.toolchain}, of which bench/instructions.txt is")
    else:
        yield from counted(figures)
