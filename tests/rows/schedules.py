"""Schedules of the crate slink_model, which no command runs.

In a copy of the crates, sources/schedules.source is compiled as a program over them, and reads the schedules of
models/schedules.py. The crate's own proved tests, which the gate leaves as a program, are run with each allocation
refused.
"""

from __future__ import annotations

import os
import random
import re
import shutil
import subprocess
import tempfile
from pathlib import Path
from signal import SIGABRT

from driver.helpers import COMPILER, library, preloaded
from driver.program import CRATES, SOURCES
from driver.rows import Cases, Fact, Skipped, holds
from driver.toolchain import TOOLCHAIN, copied, is_installed, rt
from models.schedules import schedule, two_stations

# Random schedules.
COUNT = 3000
TESTS = CRATES / "slink_tests" / "out" / "slink_tests_tests"
ROW = "model::schedule::goes_on_after_the_last_record"


def schedules() -> Cases:
    """The worlds of two stations are those of their rows, and those of random schedules the ones that are counted."""
    rows = list(two_stations())
    at_random = [schedule(random.Random(seed)) for seed in range(COUNT)]
    with tempfile.TemporaryDirectory() as name:
        line = "schedules: slink_model slink_feed slink_wire mseed_stream"
        crate = copied(Path(name), ["slink_model"], line) / "schedules"
        (crate / "src").mkdir(parents=True)
        shutil.copy(SOURCES / "schedules.source", crate / "src" / "main.rt")
        # The interpreter, which would take a second look, is left out.
        run = rt(crate, ["try", "--seconds", "600", "--steps", "1"], b"".join(bytes for bytes, _ in rows + at_random))
    worlds = run.stdout.decode(errors="replace").splitlines(keepends=True)
    for number, (_, world) in enumerate(rows, 1):
        yield Fact(f"the world of two stations after row {number}", world, "".join(worlds[number - 1 : number]))
    wrong = [(seed, world, came) for seed, ((_, world), came) in enumerate(zip(at_random, worlds[len(rows) :]))
             if world != came]
    yield Fact(f"the worlds of {COUNT} schedules at random, by their seeds", [], wrong[:3])
    yield holds("there is a world for each schedule", len(worlds) == len(rows) + COUNT,
                (len(worlds), run.stderr[-500:]))


def refused_schedules() -> Cases:
    """Each allocation of a schedule is refused in turn: `run_schedule` answers that there is no memory. The row
    allocates for its lists of steps and records too: these are the test's own, and not of a schedule."""
    refusing = library("refuse_memory")
    if refusing is None or not TESTS.exists():
        wants = COMPILER if refusing is None else "what the gate leaves, crates/slink_tests/out/slink_tests_tests"
        yield Skipped("schedules with allocations refused", wants)
        return

    def attempt(number: int) -> tuple[int, bytes]:
        run = subprocess.run([str(TESTS), ROW], stdout=subprocess.PIPE, stderr=subprocess.PIPE, timeout=60, check=False,
                             env={**os.environ, **preloaded(refusing, REFUSE=number)})
        return run.returncode, run.stdout + run.stderr

    yield Fact("a schedule with all its memory", 0, attempt(0)[0])
    of_schedules = 0
    for number in range(1, 1001):
        status, log = attempt(number)
        if status == 0:
            break
        refused = re.search(rb"^memory: (Memory|AllocError|AllocFailed)\b", log, re.MULTILINE)
        yield holds(f"a schedule with allocation {number} refused", status == -SIGABRT and refused, (status, log))
        of_schedules += bool(refused) and refused[1] == b"Memory"
    yield Fact(f"a schedule with no allocation refused at {number}", 0, status)
    yield holds("more than ten of the allocations were of schedules", of_schedules > 10, of_schedules)


def rows() -> Cases:
    """All of them."""
    if is_installed():
        yield from schedules()
    else:
        yield Skipped("schedules", TOOLCHAIN)
    yield from refused_schedules()
