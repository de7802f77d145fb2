#!/usr/bin/env python3
"""Measures mseed.read of the package for Python over an archive of Steim-2 in records of 512 bytes, with NumPy.

    reading.py [--rounds 3] [--megabytes 975] [--beside FOLDER] [--write]

Each read is in a process of its own, which has read a few records before. What counts is its user and system time, the
least of the rounds, and by how much its peak memory is above that from before: as times the samples' own bytes. The
instructions of a read are counted by valgrind over four megabytes, as what a second one adds. With --beside the package
in another folder, such as `python` of an earlier checkout, is measured by turns with this one, over the same library.
With --write what was measured is written into the table of docs/performance.md.

Wants `make lib`, a C compiler and Debian's libmseed-dev, valgrind, and python3-numpy for /usr/bin/python3.
"""

import argparse
import os
import subprocess
import sys

from bench import build, instructions, make_archive
from library import LIB, PACKAGE
from tables import table, write

ARCHIVE, COUNTED = "steim2_512", 4

READ = """
import gc, resource, sys, mseed
def used():
    return resource.getrusage(resource.RUSAGE_SELF)
with open(sys.argv[1], "rb") as file:
    few = file.read(512 * 90)
mseed.read(few)
gc.collect()
for _ in range(int(sys.argv[2])):
    before = used()
    traces = mseed.read(sys.argv[1])
    after = used()
    size = sum(trace.samples.nbytes for trace in traces)
    del traces
print(after.ru_utime + after.ru_stime - before.ru_utime - before.ru_stime,
      1024 * (after.ru_maxrss - before.ru_maxrss) / size, size)
"""


def call_of(package, archive, times=1):
    """The command of some reads by a package, which Python then finds in its environment."""
    os.environ.update(PYTHONPATH=package, MSEED_LIBRARY=os.path.join(LIB, "libmseed_c.so"), PYTHONHASHSEED="0",
                      PYTHONDONTWRITEBYTECODE="1")
    return ["/usr/bin/python3", "-c", READ, archive, str(times)]


def measured(packages, options):
    """The seconds, the times of the samples and the instructions of each package, and the bytes of the samples."""
    large, small = (make_archive(ARCHIVE, megabytes) for megabytes in (options.megabytes, COUNTED))
    seconds, times, sizes = {name: [] for name in packages}, {}, set()
    for turn in range(options.rounds):
        for name in list(packages)[:: -1 if turn % 2 else 1]:
            words = subprocess.run(call_of(packages[name], large), check=True, capture_output=True,
                                   text=True).stdout.split()
            seconds[name].append(float(words[0]))
            times[name] = max(times.get(name, 0), float(words[1]))
            sizes.add(int(words[2]))
    if len(sizes) != 1:
        sys.exit(f"the packages read {sizes} bytes of samples")
    counts = {name: instructions(call_of(package, small, 2), small) - instructions(call_of(package, small), small)
              for name, package in packages.items()}
    return seconds, times, counts, sizes.pop()


def main():
    parser = argparse.ArgumentParser(description=__doc__, formatter_class=argparse.RawDescriptionHelpFormatter)
    parser.add_argument("--rounds", type=int, default=3)
    parser.add_argument("--megabytes", type=int, default=975)
    parser.add_argument("--beside", metavar="FOLDER")
    parser.add_argument("--write", action="store_true")
    options = parser.parse_args()
    build()
    packages = {"this one": PACKAGE}
    if options.beside:
        packages["beside"] = os.path.abspath(options.beside)
    seconds, times, counts, size = measured(packages, options)
    for name in packages:
        every = ", ".join(f"{one:.2f}" for one in seconds[name])
        print(f"{name:9} {min(seconds[name]):6.2f} s ({every}), {times[name]:.3f} times {size / 1e6:,.0f} MB of "
              f"samples, {counts[name]:,} instructions for {COUNTED} MB")
    if options.write:
        name = "this one"
        write("reading", table(["archive", "samples", "processor seconds", "peak memory, times the samples",
                                f"instructions of {COUNTED} MB, millions"],
                               [[f"{options.megabytes} MB", f"{size / 1e6:,.0f} MB", f"{min(seconds[name]):.1f}",
                                 f"{times[name]:.2f}", f"{counts[name] / 1e6:.1f}"]]))


if __name__ == "__main__":
    main()
