#!/usr/bin/env python3
"""Measures `mseed serve` and `mseed fetch` side by side with a pair of C programs that bring the same bytes over TCP.

    feed.py MSEED [--rounds 7] [--megabytes 100] [--count] [--write]

The pairs go in turn, round after round, every other round in reverse. For each side the user and system time and
the peak memory are printed, and for the pair the wall time from dialling to the end: medians of the rounds. A ratio,
C / mseed, is above 1 where mseed is faster. With --write they are written into the table of docs/performance.md.
Wants a C compiler. With --count only the instructions of mseed are counted, by valgrind: those of a record that is
pushed, of one that is sent over a connection, and of one that is fetched.
"""

import argparse
import os
import re
import statistics
import subprocess
import sys
import tempfile
import time

HERE = os.path.dirname(os.path.abspath(__file__))
sys.path.insert(0, os.path.join(os.path.dirname(HERE), "tests"))

from driver.links import free_port, is_listened_at  # noqa: E402
from models.seedlink import Place, record_of  # noqa: E402
from tables import table, write  # noqa: E402

FOLDER = os.path.join(tempfile.gettempdir(), "mseed-bench-of-" + str(os.getuid()))
STA = Place("XX_STA")


def path_of(name):
    return os.path.join(FOLDER, name)


def build():
    os.makedirs(FOLDER, exist_ok=True)
    for name in ("feed_pair", "measure"):
        subprocess.run(["cc", "-O2", "-o", path_of(name), os.path.join(HERE, name + ".c")], check=True)


def make_archive(records):
    """The path of an archive of one station, in records of 512 bytes."""
    path = path_of(f"feed_{records}.mseed")
    if not os.path.exists(path):
        with open(path, "wb") as file:
            for index in range(records):
                file.write(record_of(STA, index))
    return path


def calls(mseed, who, port, records):
    """What the two sides are started by."""
    if who == "C":
        return [path_of("feed_pair"), "serve", port], [path_of("feed_pair"), "fetch", port]
    words = ["--port", port, "--station", "STA", "--network", "XX"]
    return [mseed, "serve", *words, "--capacity", str(records)], [mseed, "fetch", *words]


def measured(call, input, output):
    return subprocess.Popen([path_of("measure"), input, output, *call], stdout=subprocess.PIPE, text=True)


def figures(process):
    """User and system seconds, wall seconds, and peak memory in MiB."""
    words = process.communicate(timeout=300)[0].split()
    if words[5] != "0":
        sys.exit(f"{process.args}: status {words[5]}")
    return float(words[0]), float(words[3]), int(words[4]) / 1024


def run(mseed, who, archive, output):
    """The figures of both sides."""
    port = free_port()
    serve, fetch = calls(mseed, who, str(port), max(200000, os.path.getsize(archive) // 512))
    server = measured(serve, archive, "/dev/null")
    while server.poll() is None and not is_listened_at(port):
        time.sleep(0.01)
    client = measured(fetch, "/dev/null", output)
    return figures(client), figures(server)


def instructions(mseed, counted, records, connections=1):
    """The instructions of serving or fetching an archive of so many records."""
    archive, output, port = make_archive(records), path_of("feed_counted"), str(free_port())
    counting = ["valgrind", "--tool=cachegrind", "--cache-sim=no", "--cachegrind-out-file=/dev/null"]
    serve, fetch = calls(mseed, "mseed", port, records)
    serve += ["--connections", str(connections)]
    serve, fetch = (counting + serve, fetch) if counted == "serve" else (serve, counting + fetch)
    with open(archive, "rb") as source:
        server = subprocess.Popen(serve, stdin=source, stderr=subprocess.PIPE, text=True)
    while server.poll() is None and not is_listened_at(int(port)):
        time.sleep(0.01)
    for _ in range(connections):
        with open(output, "wb") as target:
            fetched = subprocess.run(fetch, stdout=target, stderr=subprocess.PIPE, text=True, check=True).stderr
        subprocess.run(["cmp", archive, output], check=True)
    reported = server.communicate(timeout=300)[1] if counted == "serve" else fetched
    return int(re.search(r"I +refs: +([\d,]+)", reported).group(1).replace(",", ""))


def count(mseed):
    """Prints the instructions of a record: the difference of two archives, over their records."""
    fewer, more = 5000, 25000

    def of_a_record(counted, connections=1):
        many, few = (instructions(mseed, counted, records, connections) for records in (more, fewer))
        return (many - few) / (more - fewer)

    once, twice, fetched = of_a_record("serve"), of_a_record("serve", 2), of_a_record("fetch")
    print(f"instructions a record: pushed {2 * once - twice:.0f}, sent {twice - once:.0f}, fetched {fetched:.0f}")


def main():
    parser = argparse.ArgumentParser(description=__doc__, formatter_class=argparse.RawDescriptionHelpFormatter)
    parser.add_argument("mseed")
    parser.add_argument("--rounds", type=int, default=7)
    parser.add_argument("--megabytes", type=int, default=100)
    parser.add_argument("--count", action="store_true")
    parser.add_argument("--write", action="store_true")
    options = parser.parse_args()
    if options.count:
        os.makedirs(FOLDER, exist_ok=True)
        return count(os.path.abspath(options.mseed))
    build()
    archive = make_archive(options.megabytes * 1000000 // 512)
    rows = {"C": [], "mseed": []}
    for turn in range(options.rounds):
        for who in list(rows)[:: -1 if turn % 2 else 1]:
            output = path_of(f"feed_by_{who}")
            client, server = run(os.path.abspath(options.mseed), who, archive, output)
            rows[who].append((server[0], server[2], client[0], client[2], client[1]))
            if subprocess.run(["cmp", "-s", archive, output], check=False).returncode:
                sys.exit(f"{who}: the output isn't the archive")
    print("          serve s      MiB  fetch s      MiB   wall s")
    medians = {who: [statistics.median(column) for column in zip(*rounds)] for who, rounds in rows.items()}
    for who, columns in medians.items():
        print(f"{who:8}" + "".join(f" {column:8.3f}" for column in columns))
    pairs = list(zip(rows["C"], rows["mseed"]))
    ratios = [statistics.median(one[k] / other[k] for one, other in pairs) for k in (0, 2, 4)]
    print("times C  %8.2f          %8.2f          %8.2f" % tuple(ratios))
    if options.write:
        heads = ["", "serving, seconds", "peak MiB", "fetching, seconds", "peak MiB", "from dialling to the end"]
        cells = [[f"{column:.{1 if place in (1, 3) else 3}f}" for place, column in enumerate(columns)]
                 for columns in medians.values()]
        write("serve and fetch", table(heads, [["C", *cells[0]], ["`mseed`", *cells[1]]]))


main()
