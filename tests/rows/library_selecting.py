"""What the package takes of memory, over a whole archive and where some records are asked for: what is returned, and a
window."""

from __future__ import annotations

import os
import tempfile
from pathlib import Path
from typing import Iterator

from driver.library import PYTHON, WANTS, has_numpy, library, python
from driver.rows import Cases, Fact, Skipped, holds

# Nine channels in turns, in records of 512 bytes, and so many of these megabytes. What is selected of one channel is a
# ninth.
MEGABYTES, CHANNELS = 90, 9
# What may be in memory besides what is returned: a window of 2 MiB with what is selected, decoded and held of it.
WINDOW = 32

MAKE = """
import sys, mseed
samples = [(i * i) % 1009 - 500 for i in range(300_000)]
each = [mseed.pack(mseed.make(samples, network="XX", station="STA", channel=f"BH{c}", rate=100, start_ns=10**18))
        for c in range(int(sys.argv[3]))]
turn = b"".join(part[at : at + 512] for at in range(0, len(each[0]), 512) for part in each)
with open(sys.argv[1], "wb") as file:
    for _ in range(int(sys.argv[2]) * 10**6 // len(turn)):
        file.write(turn)
"""

# A call over some records first, so that what Python and the library take once is there before.
MEASURE = """
import gc, resource, sys, mseed
def peak():
    return resource.getrusage(resource.RUSAGE_SELF).ru_maxrss * 1024
path, call = sys.argv[1], sys.argv[2]
asked = {"channels": sys.argv[3]} if len(sys.argv) > 3 else {"start": "2100-01-01"}
with open(path, "rb") as file:
    few = file.read(512 * 90)
def size_of(archive):
    if call == "select":
        return len(mseed.select(archive, **asked))
    if call == "read":
        return 4 * sum(map(len, mseed.read(archive, **asked)))
    if call == "whole":
        return 4 * sum(map(len, mseed.read(archive)))
    return 0 * sum(map(len, mseed.iterate(archive, **asked)))
size_of(few)
gc.collect()
before = peak()
size = size_of(path)
print(size // 10**6, (peak() - before - size) // 10**6)
"""


def cases() -> Iterator[tuple[str, list[str], bool]]:
    """Calls, what is asked for, and whether something is returned."""
    for call in ("select", "read", "iterate"):
        yield call, [], False
        yield call, ["YY_*_*_*"], False
        yield call, ["XX.STA..BH4"], call != "iterate"
        yield call, ["*_*_*_*"], call != "iterate"
    # Read whole, and nothing asked for.
    yield "whole", [], True


def measured(built: Path, path: Path, numpy: bool) -> Cases:
    """The megabytes of each call that aren't returned."""
    for call, asked, is_some in cases():
        ended = python(built, ["-c", MEASURE, str(path), call, *asked], numpy=numpy)
        words = ended.stdout.decode().split()
        what = "" if call == "whole" else f" {' '.join(asked) or 'a window of no record'}"
        name = f"{call}{what}, {'with' if numpy else 'without'} NumPy"
        size, more = (int(words[0]), int(words[1])) if len(words) == 2 else (0, 10**6)
        yield holds(f"{name}: what is returned, and {WINDOW} MB at most", more <= WINDOW, (words, ended.stderr))
        yield Fact(f"{name}: whether something is returned", is_some, size > 0)


def rows() -> Cases:
    """All of them."""
    built = library()
    if built is None or not os.path.exists(PYTHON):
        yield Skipped("what a selection takes of memory", WANTS)
        return
    with tempfile.TemporaryDirectory() as folder:
        path = Path(folder) / "large.mseed"
        made = python(built, ["-c", MAKE, str(path), str(MEGABYTES), str(CHANNELS)])
        yield Fact("the archive is made", (b"", True), (made.stderr, path.exists()
                                                      and path.stat().st_size > 0.9e6 * MEGABYTES))
        for numpy in (False, True) if has_numpy() else (False,):
            yield from measured(built, path, numpy)
