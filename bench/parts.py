#!/usr/bin/env python3
"""Measures the audit of one archive by one core and by several, and how fast parts are joined.

    parts.py MSEED [--cores 4] [--megabytes 1000] [--rounds 5] [--write]

The archive is what a data logger writes: twelve channels of 100 Hz in Steim-2, in records of 512 bytes. It is audited
whole; by bench/audit_by_cores.sh, which cuts it by `dd`; and as so many files as there are cores, by `xargs -P`. Each
time is that of the whole work, with the join, from its beginning to its end: the median of the rounds, in which the
ways go in turn. All of them write the same. Then parts of 10,000 channels each are joined. With --write what was
measured is written into the tables of docs/performance.md.
"""

import argparse
import os
import statistics
import struct
import subprocess
import sys
import tempfile
import time

HERE = os.path.dirname(os.path.abspath(__file__))
sys.path.insert(0, os.path.join(os.path.dirname(HERE), "tests"))

from models.packing import SECOND, btime  # noqa: E402
from models.workloads import LOGGER, RATE, START, count_in, recorded  # noqa: E402
from tables import table, write  # noqa: E402

SCRIPT = os.path.join(HERE, "audit_by_cores.sh")
LENGTH = 512


def make_archive(path, megabytes):
    """Writes the records of all channels in turn, up to so many bytes."""
    records = recorded()
    counts = [count_in(record) for record in records]
    left, samples = megabytes * 10**6 // LENGTH, 0
    with open(path, "wb") as file:
        while left > 0:
            for record, count in zip(records, counts):
                at = btime(START + samples * SECOND // RATE)
                time_of = struct.pack(">HHBBBBH", at["year"], at["day"], at["hour"], at["minute"], at["second"], 0,
                                      at["fraction"])
                for codes in LOGGER[:left]:
                    file.write(b"".join((record[:8], codes, time_of, record[30:])))
                left -= min(left, len(LOGGER))
                samples += count


def make_pieces(path, folder, count):
    """Cuts the archive between records into files, and makes the folder of their parts."""
    os.makedirs(os.path.join(folder, "pieces"))
    os.makedirs(os.path.join(folder, "parts"))
    size = os.path.getsize(path)
    each = -(-size // LENGTH // count) * LENGTH
    with open(path, "rb") as file:
        for number in range(count):
            with open(os.path.join(folder, "pieces", f"{number:03}"), "wb") as piece:
                piece.write(file.read(each if number < count - 1 else size))


def make_parts(path, megabytes):
    """Writes parts of 10,000 channels, each going on where the one before ends, of so many bytes in all."""
    keys, number, written = [b"XX%05d  BHZ" % number for number in range(10000)], 0, 0
    with open(path, "w", encoding="ascii") as file:
        while written < megabytes * 10**6:
            start = START + number * 8000 * SECOND
            lines = [f"{key.hex().upper()} records 2000 samples 800000 head {index + 1} {index * LENGTH} {start} 100/1 "
                     f"tail {start + 7996 * SECOND} 400 100/1 none findings 0\n" for index, key in enumerate(keys)]
            text = "".join(["mseed part 1\n", *lines, f"records 20000000 bytes {20000000 * LENGTH}\n"])
            written += file.write(text)
            number += 1


def ways_of(mseed, archive, folder, cores):
    """The ways to audit the archive: their commands, and how many processes they run at once."""
    by_files = f"""cd {folder}/pieces
        set -- *
        printf '%s\\0' "$@" | xargs -0 -P $CORES -n 1 sh -c '"$MSEED" audit --part < "$1" > "../parts/$1"' sh
        cat ../parts/* | "$MSEED" join --expect $#"""
    return {
        "whole, one core": ([mseed, "audit"], "1"),
        "whole, by dd, one core": ([SCRIPT, mseed, archive, str(LENGTH), "1", cores], "1"),
        f"whole, by dd, {cores} cores": ([SCRIPT, mseed, archive, str(LENGTH), cores, cores], cores),
        f"{cores} files, one core": (["sh", "-c", by_files], "1"),
        f"{cores} files, {cores} cores": (["sh", "-c", by_files], cores),
    }


def seconds(words, input, **env):
    """How long a command takes, and what it writes."""
    with open(input, "rb") as source:
        begun = time.monotonic()
        run = subprocess.run(words, stdin=source, stdout=subprocess.PIPE, env={**os.environ, **env}, check=False)
        return time.monotonic() - begun, run.stdout


def measure(mseed, archive, ways, rounds):
    """The median seconds of each way. All of them write the same."""
    measured, texts = {way: [] for way in ways}, set()
    for turn in range(rounds):
        for way in list(ways)[:: -1 if turn % 2 else 1]:
            words, cores = ways[way]
            cost, text = seconds(words, archive, MSEED=mseed, CORES=cores)
            measured[way].append(cost)
            texts.add(text)
    if len(texts) > 1:
        sys.exit("the texts differ")
    return {way: statistics.median(costs) for way, costs in measured.items()}


def line(way, cost, path, more=""):
    """What is printed of a way."""
    return f"{way:28} {cost:7.3f} s {os.path.getsize(path) / cost / 1e6:7.0f} MB/s{more}"


def write_tables(costs, cores, megabytes, joined):
    """The ways by which an archive of so many megabytes is audited, and the join of 100 MB."""
    named = {"whole, one core": "`audit`, one core",
             f"whole, by dd, {cores} cores": f"one archive, cut by `dd` (`bench/audit_by_cores.sh`), {cores} cores",
             f"{cores} files, {cores} cores": f"{cores} files, by `xargs -P {cores}`, {cores} cores"}
    one = costs["whole, one core"]
    rows = [[name, f"{costs[way]:.2f}", f"{one / costs[way]:.1f}"] for way, name in named.items()]
    write("parts", table([f"audit of {megabytes:,} MB", "seconds", "times one core"], rows))
    write("join", table(["`mseed join` of 100 MB of parts", "MB/s"], [[f"{joined:.2f} s", f"{100 / joined:.0f}"]]))


def main():
    parser = argparse.ArgumentParser(description=__doc__, formatter_class=argparse.RawDescriptionHelpFormatter)
    parser.add_argument("mseed")
    parser.add_argument("--cores", type=int, default=4)
    parser.add_argument("--megabytes", type=int, default=1000)
    parser.add_argument("--rounds", type=int, default=5)
    parser.add_argument("--write", action="store_true")
    options = parser.parse_args()
    mseed = os.path.abspath(options.mseed)
    with tempfile.TemporaryDirectory() as folder:
        archive, parts = os.path.join(folder, "archive.mseed"), os.path.join(folder, "joined")
        make_archive(archive, options.megabytes)
        make_pieces(archive, folder, options.cores)
        costs = measure(mseed, archive, ways_of(mseed, archive, folder, str(options.cores)), options.rounds)
        one = costs["whole, one core"]
        for way, cost in costs.items():
            print(line(way, cost, archive, f" {one / cost:6.2f} times one core"))
        make_parts(parts, 100)
        joined = statistics.median(seconds([mseed, "join"], parts)[0] for _ in range(options.rounds))
        print(line("join, 10,000 channels a part", joined, parts))
    if options.write:
        write_tables(costs, options.cores, options.megabytes, joined)


if __name__ == "__main__":
    main()
