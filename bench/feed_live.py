#!/usr/bin/env python3
"""Measures what many clients at once cost `mseed serve --live`, and how soon they have a record.

    feed_live.py MSEED [--rounds 3] [--records 100000] [--fetches 32] [--links 1000] [--write]

Three things, each by medians of the rounds: the processor time of the server for so many fetches at once, and of the
server and the fetches together, by that for as many one after another; what so many links cost that wait for records,
in memory, in processor time in a second, and in that of a fetch beside them, by one without them; and how long after
its last byte on standard input a record is at 64 clients, beside a plain loop over epoll in C. With --write they are
written into the table of docs/performance.md. Wants a C compiler.
"""

import argparse
import os
import resource
import statistics
import subprocess
import sys
import tempfile
import time

HERE = os.path.dirname(os.path.abspath(__file__))
sys.path.insert(0, os.path.join(os.path.dirname(HERE), "tests"))

from driver.links import dialled, free_port, is_listened_at, received_up_to  # noqa: E402
from models.seedlink import Place, record_of  # noqa: E402
from tables import table, write  # noqa: E402

FOLDER = os.path.join(tempfile.gettempdir(), "mseed-bench-of-" + str(os.getuid()))
LOOP = os.path.join(FOLDER, "feed_loop")
STA = Place("XX_STA")
PLACE = ["--station", "STA", "--network", "XX"]
GRANTED = b"OK\r\nOK\r\n"
# What the system lets a process hold open: the links of both sides, and what else they have.
DESCRIPTORS = 2200


def processor_seconds(process):
    """The processor time of a process so far, by the nanosecond."""
    with open(f"/proc/{process.pid}/schedstat", encoding="ascii") as file:
        return int(file.read().split()[0]) / 1e9


def processor_seconds_of_children():
    """The processor time of all that was started here and has ended."""
    used = resource.getrusage(resource.RUSAGE_CHILDREN)
    return used.ru_utime + used.ru_stime


def peak_mib(process):
    """The most memory that a process held so far."""
    with open(f"/proc/{process.pid}/status", encoding="ascii") as file:
        return next(int(line.split()[1]) for line in file if line.startswith("VmHWM")) / 1024


class Live:
    """A server over an input that is given while it runs."""

    def __init__(self, mseed, clients, capacity):
        self.mseed, self.port = mseed, free_port()
        words = ["--port", str(self.port), *PLACE, "--clients", str(clients), "--capacity", str(capacity)]
        self.process = subprocess.Popen([mseed, "serve", "--live", *words], stdin=subprocess.PIPE)
        while self.process.poll() is None and not is_listened_at(self.port):
            time.sleep(0.01)

    def take(self, records):
        """Gives it so many records, and waits until the last of them is there."""
        for index in range(records):
            self.process.stdin.write(record_of(STA, index))
        self.process.stdin.flush()
        while not self.grants(records - 1):
            time.sleep(0.02)

    def grants(self, number):
        """Whether a record of this number is there."""
        with dialled(self.port) as link:
            link.sendall(b"STATION STA XX\r\nFETCH %06X\r\nEND\r\n" % number)
            return received_up_to(link, len(GRANTED)) == GRANTED

    def waiting(self):
        """A link that has all records, and waits for more."""
        link = dialled(self.port)
        link.sendall(b"STATION STA XX\r\nDATA\r\nEND\r\n")
        if received_up_to(link, len(GRANTED)) != GRANTED:
            sys.exit("a link was refused")
        return link

    def fetching(self):
        """A fetch of all records, as it begins."""
        words = ["fetch", "--port", str(self.port), *PLACE]
        return subprocess.Popen([self.mseed, *words], stdout=subprocess.DEVNULL)

    def cost(self, work):
        """The processor time of the server while something is done."""
        before = processor_seconds(self.process)
        work()
        return processor_seconds(self.process) - before

    def costs(self, work):
        """The same, and that of the server and of all that was started and has ended meanwhile together."""
        before = processor_seconds_of_children()
        own = self.cost(work)
        return own, own + processor_seconds_of_children() - before

    def end(self):
        """Ends its input, and waits for its end."""
        self.process.stdin.close()
        if self.process.wait(timeout=60):
            sys.exit("the server failed")


def ended(fetches):
    """Waits until so many fetches have ended well."""
    for fetch in fetches:
        if fetch.wait(timeout=600):
            sys.exit("a fetch failed")


def at_once(mseed, records, fetches, rounds):
    """The processor time of fetches at once, the server's and that of both sides, and that of as many one after
    another."""
    live = Live(mseed, 64, 2 * records)
    live.take(records)

    def together():
        ended([live.fetching() for _ in range(fetches)])

    def apart():
        for _ in range(fetches):
            ended([live.fetching()])

    costs = [(*live.costs(together), *live.costs(apart)) for _ in range(rounds)]
    live.end()
    return [statistics.median(column) for column in zip(*costs)]


def waiting(mseed, records, count, rounds):
    """What links cost that wait: memory, processor time in a second, and a fetch's with them and without."""
    alone = Live(mseed, 1, 2 * records)
    alone.take(records)
    without = [alone.cost(lambda: ended([alone.fetching()])) for _ in range(rounds)]
    memory = peak_mib(alone.process)
    alone.end()
    live = Live(mseed, count + 1, 2 * records)
    live.take(records)
    links = [live.waiting() for _ in range(count)]
    seconds = statistics.median(live.cost(lambda: time.sleep(1)) for _ in range(rounds))
    beside = [live.cost(lambda: ended([live.fetching()])) for _ in range(rounds)]
    memory = peak_mib(live.process) - memory
    for link in links:
        link.close()
    live.end()
    return memory, seconds, statistics.median(beside), statistics.median(without)


def delays(mseed, who, records=500, links=64):
    """How long after its last byte a record is at a link: the median, and the 99th of 100, in milliseconds."""
    if who == "C":
        port = free_port()
        server = subprocess.Popen([LOOP, "serve", str(port)], stdin=subprocess.PIPE)
        while server.poll() is None and not is_listened_at(port):
            time.sleep(0.01)
    else:
        live = Live(mseed, links, 2 * records)
        server, port = live.process, live.port
    words = [LOOP, "time", str(port), str(links), str(records)]
    clock = subprocess.Popen(words, stdin=subprocess.PIPE, stdout=server.stdin, stderr=subprocess.PIPE)
    reported = clock.communicate(record_of(STA, 0), timeout=300)[1]
    server.stdin.close()
    server.wait(timeout=60)
    if clock.returncode:
        sys.exit(f"{who}: the clock failed")
    return [float(word) for word in reported.split()]


def main():
    parser = argparse.ArgumentParser(description=__doc__, formatter_class=argparse.RawDescriptionHelpFormatter)
    parser.add_argument("mseed")
    parser.add_argument("--rounds", type=int, default=3)
    parser.add_argument("--records", type=int, default=100000)
    parser.add_argument("--fetches", type=int, default=32)
    parser.add_argument("--links", type=int, default=1000)
    parser.add_argument("--write", action="store_true")
    options = parser.parse_args()
    mseed, rounds = os.path.abspath(options.mseed), options.rounds
    os.makedirs(FOLDER, exist_ok=True)
    subprocess.run(["cc", "-O2", "-o", LOOP, os.path.join(HERE, "feed_loop.c")], check=True)
    hard = resource.getrlimit(resource.RLIMIT_NOFILE)[1]
    resource.setrlimit(resource.RLIMIT_NOFILE, (min(hard, DESCRIPTORS), hard))
    times = {"C": [], "mseed": []}
    for turn in range(rounds):
        for who in list(times)[:: -1 if turn % 2 else 1]:
            times[who].append(delays(mseed, who))
    delay = {who: [statistics.median(column) for column in zip(*each)] for who, each in times.items()}
    together, both_together, apart, both_apart = at_once(mseed, options.records, options.fetches, rounds)
    memory, seconds, beside, without = waiting(mseed, options.records, options.links, rounds)
    rows = [
        [f"{options.fetches} fetches at once, processor seconds", f"{together:.2f}"],
        [f"{options.fetches} fetches one after another, processor seconds", f"{apart:.2f}"],
        ["times those one after another", f"{together / apart:.2f}"],
        ["the server and the fetches, at once and one after another", f"{both_together:.2f} {both_apart:.2f}"],
        ["times those one after another, the server and the fetches", f"{both_together / both_apart:.2f}"],
        [f"{options.links:,} links that wait, MiB", f"{memory:.1f}"],
        [f"{options.links:,} links that wait, processor milliseconds a second", f"{1000 * seconds:.2f}"],
        [f"a fetch beside {options.links:,} links that wait, times one alone", f"{beside / without:.2f}"],
        ["a record at 64 clients, milliseconds, median and 99th of 100", " ".join(f"{x:.2f}" for x in delay["mseed"])],
        ["the same by the loop in C", " ".join(f"{x:.2f}" for x in delay["C"])],
    ]
    for row in rows:
        print(f"{row[0]:66} {row[1]}")
    if options.write:
        write("serve --live", table(["", ""], rows))


main()
