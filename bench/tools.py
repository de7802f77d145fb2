#!/usr/bin/env python3
"""Measures tools/sds over a tree against reading its bytes alone.

    tools.py MSEED [--jobs 1,4] [--megabytes 1000] [--rounds 5] [--write]

The tree is what data loggers write: twelve channels of 100 Hz in Steim-2, in records of 512 bytes, a file a channel and
day. It is read by one process and by several: by `cat` alone, by a first run of sds, which keeps what it reads, and by a
second run, for which nothing is new. Each time is from the beginning to the end, and each processor time that of all
processes: medians of the rounds, in which the ways go in turn. The tree is in memory, as files that were just written.
With --write the table of docs/performance.md is written.
"""

import argparse
import os
import resource
import shutil
import statistics
import struct
import subprocess
import sys
import tempfile
import time

HERE = os.path.dirname(os.path.abspath(__file__))
sys.path.insert(0, os.path.join(os.path.dirname(HERE), "tests"))

from models.packing import SECOND, btime  # noqa: E402
from models.workloads import DAY, LOGGER, RATE, START, count_in, recorded  # noqa: E402
from tables import table, write  # noqa: E402

SDS = os.path.join(os.path.dirname(HERE), "tools", "sds")
WAYS = ("the bytes alone, by `cat`", "`sds`, first run", "`sds`, second run, nothing new")


def day_of(records, counts, samples, day):
    """The heads and the rests of a day's records, without their codes, and how many samples the channel has then."""
    day_of_records = []
    while START + samples * SECOND // RATE < START + (day + 1) * DAY:
        record, count = next(records), next(counts)
        at = btime(START + samples * SECOND // RATE)
        time_of = struct.pack(">HHBBBBH", at["year"], at["day"], at["hour"], at["minute"], at["second"], 0,
                              at["fraction"])
        day_of_records.append((record[:8], time_of + record[30:]))
        samples += count
    return day_of_records, samples


def round_and_round(items):
    """The items again and again."""
    while True:
        yield from items


def make_tree(root, megabytes):
    """Writes days of all channels, up to about so many bytes, and says how many they are."""
    made = recorded()
    records = round_and_round(made)
    counts = round_and_round([count_in(record) for record in made])
    written, samples, day = 0, 0, 0
    while written < megabytes * 10**6:
        of_day, samples = day_of(records, counts, samples, day)
        for codes in LOGGER:
            station, channel, network = (codes[at:end].decode().strip() for at, end in ((0, 5), (7, 10), (10, 12)))
            folder = os.path.join(root, "2024", network, station, f"{channel}.D")
            os.makedirs(folder, exist_ok=True)
            with open(os.path.join(folder, f"{network}.{station}..{channel}.D.2024.{day + 1:03}"), "wb") as file:
                written += file.write(b"".join(head + codes + rest for head, rest in of_day))
        day += 1
    return written, day * len(LOGGER)


def spent(words, env):
    """The seconds and the processor seconds of a command, and what it writes."""
    before, begun = resource.getrusage(resource.RUSAGE_CHILDREN), time.monotonic()
    text = subprocess.run(words, stdout=subprocess.PIPE, env=env, check=True).stdout
    seconds, after = time.monotonic() - begun, resource.getrusage(resource.RUSAGE_CHILDREN)
    return seconds, sum(getattr(after, name) - getattr(before, name) for name in ("ru_utime", "ru_stime")), text


def measure(root, folder, jobs, env):
    """The figures of each way, by so many processes, and the last line of sds."""
    state = os.path.join(folder, "state")
    shutil.rmtree(state, ignore_errors=True)
    read = f"find {root} -type f | sort | xargs -n 4 -P {jobs} cat > /dev/null"
    sds = [sys.executable, SDS, "-j", jobs, "--state", state, root]
    came = [spent(words, env) for words in (["sh", "-c", read], sds, sds)]
    if came[1][2] != came[2][2]:
        sys.exit("the second run says something else")
    return [(seconds, busy) for seconds, busy, _ in came], came[1][2].decode().splitlines()[-1]


def main():
    parser = argparse.ArgumentParser(description=__doc__, formatter_class=argparse.RawDescriptionHelpFormatter)
    parser.add_argument("mseed")
    parser.add_argument("--jobs", default="1,4")
    parser.add_argument("--megabytes", type=int, default=1000)
    parser.add_argument("--rounds", type=int, default=5)
    parser.add_argument("--write", action="store_true")
    options = parser.parse_args()
    env, jobs = {**os.environ, "MSEED": os.path.abspath(options.mseed)}, options.jobs.split(",")
    with tempfile.TemporaryDirectory() as folder:
        root = os.path.join(folder, "archive")
        size, files = make_tree(root, options.megabytes)
        time.sleep(1)
        measured = {number: [] for number in jobs}
        for turn in range(options.rounds):
            for number in jobs[:: -1 if turn % 2 else 1]:
                figures, outcome = measure(root, folder, number, env)
                measured[number].append(figures)
        if f"files {files} bytes {size} channels {len(LOGGER)} continuous {len(LOGGER)} " not in f"{outcome} ":
            sys.exit(outcome)
    print(outcome)
    rows = []
    for number in jobs:
        for place, way in enumerate(WAYS):
            seconds, busy = (statistics.median(figures[place][kind] for figures in measured[number]) for kind in (0, 1))
            rows.append([way, number, f"{seconds:.2f}", f"{busy:.2f}", f"{size / seconds / 1e6:,.0f}"])
            print("{:32} {:>2} processes {:>7} s, {:>7} s of processors, {:>7} MB/s".format(*rows[-1]))
    if options.write:
        write("sds", table(["way", "processes", "seconds", "processor seconds", "MB/s"], rows))


if __name__ == "__main__":
    main()
