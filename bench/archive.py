#!/usr/bin/env python3
"""Measures tools/archive against a copy of the same bytes by dd.

    archive.py MSEED [--megabytes 300] [--rounds 5] [--best] [--write]

The records are what data loggers write: sixty channels of 100 Hz in Steim-2, in records of 512 bytes. They come one
channel after another, or the channels take turns. The tree is warm: it holds the records before these, of the same day
and in the same files, put there by a run before. dd writes them behind one another into one file, and syncs it, as
archive syncs its files. A last way is archive over an input that stands in the tree already. Each time is from the
beginning to the end, medians of the rounds, in which the ways go in turn; with --best the shortest of them, for a
machine that does other things too. With --write the table of docs/performance.md is written.
"""

import argparse
import os
import statistics
import subprocess
import sys
import tempfile
import time

HERE = os.path.dirname(os.path.abspath(__file__))
sys.path.insert(0, os.path.join(os.path.dirname(HERE), "tests"))

from models.packing import SECOND  # noqa: E402
from models.workloads import DAY, RATE, START, count_in, moved, recorded  # noqa: E402
from tables import environment, processor_seconds, table, write  # noqa: E402

ARCHIVE = os.path.join(os.path.dirname(HERE), "tools", "archive")
CHANNELS = [b"ST%02d   BH%cXX" % (station, component) for station in range(20) for component in b"ENZ"]
INPUTS = ("one channel after another", "the channels take turns")


def records_of(count):
    """So many records of each channel, from the first of a day on, whose starts are all within it."""
    made, samples, some = recorded(), 0, []
    for index in range(count):
        record = made[index % len(made)]
        start = START + samples * SECOND // RATE
        if start >= START + DAY:
            sys.exit("more records than a day has")
        some.append((start, record))
        samples += count_in(record)
    return [[moved(record, start, codes) for start, record in some] for codes in CHANNELS]


def put(path, records):
    """Writes records one behind another."""
    with open(path, "wb") as file:
        file.write(b"".join(records))


def spent(words, env=None, line=None):
    """The seconds that a command takes, and the processor seconds of all its processes; what it prints last has to be a
    line, if one is given."""
    begun, before = time.monotonic(), processor_seconds()
    run = subprocess.run(words, stdout=subprocess.PIPE, stderr=subprocess.PIPE, env=env, check=False)
    seconds = time.monotonic() - begun
    if line is not None and run.stdout.decode() != line:
        sys.exit(f"{run.stdout.decode()}{run.stderr.decode()} in the place of {line}")
    return seconds, processor_seconds() - before


def main():
    parser = argparse.ArgumentParser(description=__doc__, formatter_class=argparse.RawDescriptionHelpFormatter)
    parser.add_argument("mseed")
    parser.add_argument("--megabytes", type=int, default=300)
    parser.add_argument("--rounds", type=int, default=5)
    parser.add_argument("--best", action="store_true")
    parser.add_argument("--write", action="store_true")
    options = parser.parse_args()
    env = environment(options.mseed)
    count = options.megabytes * 10**6 // 512 // len(CHANNELS)
    channels = records_of(2 * count)
    total = count * len(CHANNELS)
    size = total * 512
    figures = {}
    with tempfile.TemporaryDirectory() as folder:
        before, *inputs = [os.path.join(folder, name) for name in ("before", "in_order", "in_turn")]
        put(before, [record for records in channels for record in records[:count]])
        put(inputs[0], [record for records in channels for record in records[count:]])
        put(inputs[1], [record for some in zip(*(records[count:] for records in channels)) for record in some])
        del channels
        for turn in range(options.rounds):
            for way, path in zip(INPUTS, inputs):
                root = os.path.join(folder, f"root{turn}{os.path.basename(path)}")
                words = [sys.executable, ARCHIVE, root]
                spent([*words, before], env, f"records {total} written {total} known 0 unfiled 0\n")
                subprocess.run(["sync"], check=True)
                copy = ["dd", f"if={path}", f"of={folder}/copy", "bs=1M", "conv=fsync"]
                figures.setdefault((way, "`dd conv=fsync`"), []).append(spent(copy))
                figures.setdefault((way, "`archive`"), []).append(
                    spent([*words, path], env, f"records {total} written {total} known 0 unfiled 0\n"))
                figures.setdefault((way, "`archive`, once more"), []).append(
                    spent([*words, path], env, f"records {total} written 0 known {total} unfiled 0\n"))
                subprocess.run(["rm", "-r", root], check=True)
    rows = []
    for (way, what), times in figures.items():
        seconds, processor = (min(some) if options.best else statistics.median(some) for some in zip(*times))
        rows.append([way, what, f"{seconds:.2f}", f"{processor:.2f}", f"{size / seconds / 1e6:,.0f}"])
        print("{:28} {:24} {:>7} s, of processors {:>7} s, {:>7} MB/s".format(*rows[-1]))
    if options.write:
        write("archive", table(["input", "way", "seconds", "processor seconds", "MB/s"], rows))


if __name__ == "__main__":
    main()
