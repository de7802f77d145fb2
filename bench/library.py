#!/usr/bin/env python3
"""Measures the library from C and from NumPy side by side with libmseed's reader and packer, over archives in memory.

    library.py [--rounds 5] [--turns 3] [--megabytes 20] [--archives NAME ..] [--write]

Both do the same work over the same archive in turn, round after round; every other round goes in reverse. What counts
is user and system time. The ratio, libmseed / mseed, is above 1 where mseed is faster; it is the median of the rounds'
ratios. With --write what was measured is written into the table of docs/performance.md.

Wants `make lib`, a C compiler and Debian's libmseed-dev, and python3-numpy for /usr/bin/python3.
"""

import argparse
import os
import statistics
import subprocess
import sys

from bench import ARCHIVES, FOLDER, HERE, SPELLED, build, make_archive
from tables import table, write

LIB = os.path.join(os.path.dirname(HERE), "crates", "mseed_c", "out", "lib")
PACKAGE = os.path.join(os.path.dirname(HERE), "python")
PROGRAM = os.path.join(FOLDER, "library")

# What NumPy is filled by: the call that decodes, or audits, alone; the archive is read and the room is there before.
FROM_NUMPY = """
import ctypes, sys, time, numpy
sys.path.insert(0, sys.argv[1])
from mseed._library import LIBRARY, Progress, Row, Totals
data, turns = numpy.fromfile(sys.argv[2], numpy.uint8), int(sys.argv[4])
rows = (Row * (data.size // 128 + 1))()
samples, text = numpy.zeros(data.size * 8, numpy.int32), ctypes.create_string_buffer(65536)
progress, totals = Progress(), Totals()
def read():
    LIBRARY.mseed_read(data.ctypes.data, data.size, 0, rows, len(rows), samples.ctypes.data, samples.size,
                       ctypes.byref(progress))
    return progress.filled
def audit():
    LIBRARY.mseed_audit(data.ctypes.data, data.size, text, 65536, ctypes.byref(totals))
    return totals.records
work = {"read": read, "audit": audit}[sys.argv[3]]
work()
begun = time.process_time()
for _ in range(turns):
    counted = work()
print(f"{time.process_time() - begun:.6f} {counted}")
"""

# The work of mseed, that of libmseed beside it, and from where.
WORKS = [("read", "read", "C"), ("read", "read", "NumPy"), ("audit", "read", "C"), ("audit", "read", "NumPy"),
         ("pack", "pack", "C")]
NAMES = {"read": "decode", "audit": "audit", "pack": "pack"}


def seconds(call, archive):
    """The seconds that a program prints, and what it counted."""
    with open(archive, "rb") as source:
        words = subprocess.run(call, stdin=source, check=True, capture_output=True, text=True).stdout.split()
    return float(words[0]), int(words[1])


def call_of(who, work, where, archive, turns):
    """The command of a run."""
    if where == "NumPy" and who == "mseed":
        return ["/usr/bin/python3", "-c", FROM_NUMPY, PACKAGE, archive, work, str(turns)]
    return [PROGRAM, who, work, str(turns)]


def measured(work, peer, where, archive, options):
    """The ratio, and the megabytes a second of mseed."""
    calls = {"libmseed": call_of("libmseed", peer, where, archive, options.turns),
             "mseed": call_of("mseed", work, where, archive, options.turns)}
    times = {who: [] for who in calls}
    for turn in range(options.rounds):
        counts = {}
        for who in list(calls)[:: -1 if turn % 2 else 1]:
            spent, counts[who] = seconds(calls[who], archive)
            times[who].append(spent)
        if work == "read" and counts["libmseed"] != counts["mseed"]:
            sys.exit(f"{archive}: {counts}")
    ratio = statistics.median(a / b for a, b in zip(times["libmseed"], times["mseed"]))
    return ratio, options.turns * os.path.getsize(archive) / statistics.median(times["mseed"]) / 1e6


def main():
    parser = argparse.ArgumentParser(description=__doc__, formatter_class=argparse.RawDescriptionHelpFormatter)
    parser.add_argument("--rounds", type=int, default=5)
    parser.add_argument("--turns", type=int, default=3)
    parser.add_argument("--megabytes", type=int, default=20)
    parser.add_argument("--archives", nargs="+", default=ARCHIVES)
    parser.add_argument("--write", action="store_true")
    options = parser.parse_args()
    build()
    source = os.path.join(HERE, "library.c")
    subprocess.run(["cc", "-O2", "-o", PROGRAM, f"-I{HERE}/../include", source, os.path.join(LIB, "libmseed_c.a"),
                    "-lmseed"], check=True)
    rows = []
    for name in options.archives:
        archive = make_archive(name, options.megabytes)
        encoding, length = name.split("_")
        cells = [f"{SPELLED[encoding]}, records of {int(length):,} bytes"]
        for work, peer, where in WORKS:
            ratio, speed = measured(work, peer, where, archive, options)
            print(f"{name:12} {NAMES[work]:7} from {where:6} {ratio:5.2f} times libmseed, {speed:6.0f} MB/s",
                  flush=True)
            cells.append(f"{ratio:.1f}")
        rows.append(cells)
    if options.write:
        heads = ["archive", *(f"{NAMES[work]} from {where}" for work, _, where in WORKS)]
        write("library", table(heads, rows))


if __name__ == "__main__":
    main()
