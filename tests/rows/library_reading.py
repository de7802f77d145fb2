"""The package for Python reads whole archives: the same traces whatever an archive comes from and however its windows
fall, in memory of their samples, and of a file that changes meanwhile what is read of it."""

from __future__ import annotations

import os
import tempfile
from pathlib import Path

from driver.library import PYTHON, WANTS, has_numpy, library, python
from driver.program import SAMPLES, SOURCES
from driver.rows import Cases, Fact, Skipped, holds

SEED, MIXTURES = 20261201, 60
# The ways in which an archive is read, and the samples of the repository.
WAYS, ARCHIVES = 6, 11

# Nine channels in turns, which are continuous, in records of 512 bytes: so many megabytes or some more, in blocks of
# about one.
MEGABYTES = 80
MAKE = """
import sys, mseed
samples = mseed.make([(i * i) % 1009 - 500 for i in range(60_000)], network="XX", station="STA", channel="BHZ",
                     rate=100, start_ns=0).samples
written, block = 0, 0
with open(sys.argv[1], "wb") as file:
    while written < int(sys.argv[2]) * 10**6:
        each = [mseed.pack(mseed.make(samples, network="XX", station="STA", channel=f"BH{c}", rate=100,
                                      start_ns=10**18 + block * len(samples) * 10**7)) for c in range(9)]
        written += file.write(b"".join(part[at : at + 512] for at in range(0, len(each[0]), 512) for part in each))
        block += 1
"""

# How many traces there are, whether their samples are those that were packed, and the bytes by which Python grew beyond
# 1.1 times the samples. Some records are read before, so that what Python and the library take once is there.
MEASURE = """
import gc, resource, sys, mseed
def peak():
    return resource.getrusage(resource.RUSAGE_SELF).ru_maxrss * 1024
with open(sys.argv[1], "rb") as file:
    few = file.read(512 * 90)
begun = [trace.samples.tolist() for trace in mseed.read(few)]
gc.collect()
before = peak()
traces = mseed.read(sys.argv[1])
grown = peak() - before
size = 4 * sum(map(len, traces))
block = [(i * i) % 1009 - 500 for i in range(60_000)]
is_same = all(trace.samples[at : at + 60_000].tolist() == block for trace in traces
              for at in range(0, len(trace), 60_000))
print(len(traces), is_same, size > 10**6 * int(sys.argv[2]), int(grown - 1.1 * size))
"""
# What may be in memory besides.
BESIDES = 4 << 20

# A file that is cut short, or that grows, once its first bytes were read: by the window, and by whoever reads pieces.
CHANGES = """
import io, os, sys, mseed
path, content = sys.argv[1], open(sys.argv[2], "rb").read()
class Changing(io.FileIO):
    def read(self, size=-1):
        data = super().read(size)
        if change:
            change.pop()()
        return data
def cut():
    os.truncate(path, 3 * 2**20 + 100)
def grow():
    with open(path, "ab") as file:
        file.write(content[-512 * 9 :])
def said(call):
    try:
        return call()
    except mseed.RecordError as error:
        return error.number, error.offset, error.reason
def fresh():
    with open(path, "wb") as file:
        file.write(content[: 5 * 2**20])
mseed._windows.AT_ONCE = 1 << 20
for change, skip in ([cut], False), ([cut], True), ([grow], True), ([], True):
    fresh()
    with Changing(path) as file:
        print(said(lambda: (sum(map(len, mseed.read(file, skip=skip))) == sum(map(len, mseed.read(path, skip=True))))))
fresh()
pieces = mseed.iterate(path, samples=1000)
next(pieces)
cut()
print(said(lambda: list(pieces)))
"""
CHANGED = """(6145, 3145728, 'truncated 100')
True
True
True
(6145, 3145728, 'truncated 100')
"""

# Two channels in turns, ten records of 112 samples each, of which the one that comes first is the last by its name.
ORDER = """
import mseed
each = [mseed.pack(mseed.make(range(1120), network="XX", station="STA", channel=channel, rate=100, start_ns=0),
                   encoding="int32") for channel in ("BHZ", "BHN")]
turns = b"".join(part[at : at + 512] for at in range(0, len(each[0]), 512) for part in each)
print([trace.channel for trace in mseed.read(turns)])
print([(piece.channel, piece.index, piece.goes_on) for piece in mseed.iterate(turns, samples=448)])
"""
ORDERED = """['BHZ', 'BHN']
[('BHZ', 0, True), ('BHN', 0, True), ('BHZ', 448, True), ('BHN', 448, True), ('BHZ', 896, False), ('BHN', 896, False)]
"""


def reading(built: Path, folder: Path, numpy: bool) -> Cases:
    """All of them, with NumPy or without."""
    manner = "with NumPy" if numpy else "without NumPy"
    words = [str(SOURCES / "library_reading.py"), str(SAMPLES), str(folder), str(SEED), str(MIXTURES)]
    ended = python(built, words, numpy=numpy)
    yield Fact(f"from whatever an archive comes, {manner}", f"{(ARCHIVES + MIXTURES) * WAYS} archives\n",
               (ended.stdout + ended.stderr).decode())
    ended = python(built, ["-c", ORDER], numpy=numpy)
    yield Fact(f"in the order of the archive, {manner}", ORDERED, (ended.stdout + ended.stderr).decode())
    large = folder / "large.mseed"
    ended = python(built, ["-c", MEASURE, str(large), str(MEGABYTES)], numpy=numpy)
    words = ended.stdout.decode().rpartition(" ")
    yield Fact(f"traces of a large archive, {manner}", ("9 True True", b""), (words[0], ended.stderr))
    yield holds(f"1.1 times the samples and 4 MiB are in memory, {manner}",
                words[2] and int(words[2]) <= BESIDES, ended.stdout)
    ended = python(built, ["-c", CHANGES, str(folder / "changing.mseed"), str(large)], numpy=numpy)
    yield Fact(f"a file that changes, {manner}", CHANGED, (ended.stdout + ended.stderr).decode())


def rows() -> Cases:
    """All of them."""
    built = library()
    if built is None or not os.path.exists(PYTHON):
        yield Skipped("reading whole archives", WANTS)
        return
    with tempfile.TemporaryDirectory() as name:
        folder = Path(name)
        made = python(built, ["-c", MAKE, str(folder / "large.mseed"), str(MEGABYTES)])
        yield Fact("the archive is made", b"", made.stderr)
        for numpy in (False, True) if has_numpy() else (False,):
            yield from reading(built, folder, numpy)
