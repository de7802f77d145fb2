#!/usr/bin/env python3
"""Measures tools/extract and tools/fdsnws over a tree, beside `cat` of the files that they read.

    extracting.py MSEED [--rounds 5] [--best] [--write]

The tree has 60 channels of 60 days, a file of 3.5 MB a channel and day, as a data logger packs about 40 Hz: 12.6 GB.
Only the three days around the hour that is asked for hold all of their records, so that the tree fits into memory; the
files of the other days hold the first 4 KB, and of them nothing is read but their names. All is asked for
of these three days.
Each time is from the beginning to the end, of the answers of the service from the call to the first byte of the body:
medians of the rounds, or with --best the shortest, for a machine that does other things too.
"""

import argparse
import os
import re
import socket
import statistics
import struct
import subprocess
import sys
import tempfile
import time

HERE = os.path.dirname(os.path.abspath(__file__))
sys.path.insert(0, os.path.join(os.path.dirname(HERE), "tests"))

from models.packing import btime  # noqa: E402
from models.workloads import DAY, START, recorded  # noqa: E402
from tables import environment, processor_seconds, table, write  # noqa: E402

TOOLS = os.path.join(os.path.dirname(HERE), "tools")
STATIONS, CHANNELS, DAYS, SIZE, FEW = 20, "ENZ", 60, 3_500_000, 4096
WHOLE = range(29, 32)
HOUR = ("2024-01-31T12:00:00", "2024-01-31T13:00:00")


def day_of(records, codes, day, most):
    """The first bytes of a channel's day, at most so many: records of 512 bytes that follow one another in time."""
    count = SIZE // 512
    made = []
    for number in range(most // 512):
        at = btime(START + day * DAY + number * DAY // count)
        head = struct.pack(">HHBBBBH", at["year"], at["day"], at["hour"], at["minute"], at["second"], 0, at["fraction"])
        record = records[number % len(records)]
        samples = struct.pack(">Hhh", 3600 * 24 * 40 // count, 40, 1)
        made.append(record[:8] + codes + head + samples + record[36:])
    return b"".join(made)


def make_tree(root):
    """Writes it, and says how many bytes the whole days have."""
    records, written = recorded(), 0
    for station in range(STATIONS):
        for letter in CHANNELS:
            codes = b"ST%02d 00BH%cXX" % (station, ord(letter))
            folder = os.path.join(root, "2024", "XX", f"ST{station:02}", f"BH{letter}.D")
            os.makedirs(folder)
            for day in range(DAYS):
                content = day_of(records, codes, day, SIZE if day in WHOLE else FEW)
                with open(os.path.join(folder, f"XX.ST{station:02}.00.BH{letter}.D.2024.{day + 1:03}"), "wb") as file:
                    file.write(content)
                written += len(content) if day in WHOLE else 0
    return written


def spent(words, env):
    """The seconds of a command, those of processors, and how much it writes, into a pipe that is read as fast as that
    goes."""
    begun, before, size = time.monotonic(), processor_seconds(), 0
    with subprocess.Popen(words, stdout=subprocess.PIPE, env=env) as run:
        while part := os.read(run.stdout.fileno(), 2**20):
            size += len(part)
    if run.returncode:
        sys.exit(f"{' '.join(words)}: status {run.returncode}")
    return time.monotonic() - begun, processor_seconds() - before, size


def first_byte(port, query):
    """The seconds up to the first byte of an answer's body, and to its end, and the bytes of the body."""
    begun = time.monotonic()
    with socket.create_connection(("127.0.0.1", port)) as link:
        link.sendall(f"GET /fdsnws/dataselect/1/query?{query} HTTP/1.1\r\nHost: here\r\n\r\n".encode())
        came = b""
        while b"\r\n\r\n" not in came or came.endswith(b"\r\n\r\n"):
            came += link.recv(2**16)
        first, size = time.monotonic() - begun, len(came.partition(b"\r\n\r\n")[2])
        while part := link.recv(2**20):
            size += len(part)
    return first, time.monotonic() - begun, size


def served(root, env, queries, rounds, chosen):
    """What the service takes for each query: what is chosen of the rounds."""
    run = subprocess.Popen([sys.executable, os.path.join(TOOLS, "fdsnws"), "--port", "0", root], env=env,
                           stdout=subprocess.PIPE, stderr=subprocess.DEVNULL, text=True)
    try:
        port = int(re.search(r":(\d+)/", run.stdout.readline())[1])
        for query in queries:
            came = [first_byte(port, query) for _ in range(rounds)]
            yield tuple(chosen(one[place] for one in came) for place in range(3))
    finally:
        run.kill()
        run.wait()


def main():
    parser = argparse.ArgumentParser(description=__doc__, formatter_class=argparse.RawDescriptionHelpFormatter)
    parser.add_argument("mseed")
    parser.add_argument("--rounds", type=int, default=5)
    parser.add_argument("--best", action="store_true")
    parser.add_argument("--write", action="store_true")
    options = parser.parse_args()
    env, chosen, rows = environment(options.mseed), min if options.best else statistics.median, []
    with tempfile.TemporaryDirectory() as folder:
        root = os.path.join(folder, "archive")
        make_tree(root)
        days = [f"2024-01-{WHOLE[0] + 1:02}", f"2024-02-{WHOLE[-1] - 29:02}"]
        files, whole = (f"find {root} -name '*.2024.03[{some}]' | sort | xargs" for some in ("01", "012"))
        extract = [sys.executable, os.path.join(TOOLS, "extract"), root]
        for way, words in [
            ("the two files of each channel, by `cat`", ["sh", "-c", f"{files} cat"]),
            ("an hour of 60 channels, by `extract`", [*extract, "--from", HOUR[0], "--until", HOUR[1]]),
            ("the same with `-j 1`", [*extract, "-j", "1", "--from", HOUR[0], "--until", HOUR[1]]),
            ("three days of 60 channels, by `cat`", ["sh", "-c", f"{whole} cat"]),
            ("the same by `extract`", [*extract, "--from", days[0], "--until", days[1]]),
            ("the same with `-j 1`", [*extract, "-j", "1", "--from", days[0], "--until", days[1]]),
        ]:
            came = [spent(words, env) for _ in range(options.rounds)]
            seconds, processor = (chosen(one[place] for one in came) for place in range(2))
            size = came[0][2]
            rows.append([way, f"{seconds:.3f}", f"{processor:.3f}", f"{size / 1e6:,.1f}",
                         f"{size / seconds / 1e6:,.0f}"])
        one = "net=XX&sta=ST00&cha=BHZ"
        queries = [f"{one}&start={days[0]}&end=2024-01-31", f"{one}&start={HOUR[0]}&end={HOUR[1]}"]
        ways = ["a day of a channel, by `fdsnws`", "an hour of a channel, by `fdsnws`"]
        for way, (first, seconds, size) in zip(ways, served(root, env, queries, 4 * options.rounds, chosen)):
            rows.append([f"{way}, its first byte", f"{first:.3f}", "", "", ""])
            rows.append([f"{way}, to its end", f"{seconds:.3f}", "", f"{size / 1e6:,.1f}",
                         f"{size / seconds / 1e6:,.0f}"])
    for row in rows:
        print("{:48} {:>7} s, of processors {:>7} s {:>9} MB {:>7} MB/s".format(*row))
    if options.write:
        write("extract and fdsnws", table(["way", "seconds", "processor seconds", "MB", "MB/s"], rows))


if __name__ == "__main__":
    main()
