#!/usr/bin/env python3
"""Counts the instructions that `mseed serve --live` takes for a packet to each of many links, by callgrind.

    feed_packets.py MSEED [--links 64] [--places 2 16] [--records 2000]

For each number of places: so many links request all of them, and records come, of one place after another. What is
counted is the program alone, in user space, with so many records and with twice as many: the difference, by the packets
of which there are more, so that start, handshakes and end don't count. Reading a record, and putting it into its ring,
does: once for the packets of all links. It swings by some hundredths, as the system hands over more or less at a time.
"""

import argparse
import os
import re
import selectors
import subprocess
import sys
import tempfile
import time

HERE = os.path.dirname(os.path.abspath(__file__))
sys.path.insert(0, os.path.join(os.path.dirname(HERE), "tests"))

from driver.instructions import ENVIRONMENT  # noqa: E402
from driver.links import dialled, free_port, is_listened_at, received_up_to  # noqa: E402
from models.seedlink import Place, record_of  # noqa: E402

PACKET = 520
GRANTED = b"OK\r\nOK\r\n"


def granted(port, places):
    """A link that is sent the records of all places that come."""
    link = dialled(port)
    for place in places:
        link.sendall(b"STATION %s %s\r\nDATA\r\n" % (place.sta, place.net))
    if received_up_to(link, len(GRANTED) * len(places)) != GRANTED * len(places):
        sys.exit("a link was refused")
    link.sendall(b"END\r\n")
    return link


def receive(links, most):
    """Waits until each link has brought so many bytes."""
    left = dict.fromkeys(links, most)
    with selectors.DefaultSelector() as waiting:
        for link in links:
            waiting.register(link, selectors.EVENT_READ)
        while left:
            for key, _ in waiting.select(timeout=600) or sys.exit("a link is silent"):
                brought = key.fileobj.recv(1 << 18)
                left[key.fileobj] -= len(brought)
                if not brought or left[key.fileobj] <= 0:
                    waiting.unregister(key.fileobj)
                    if left.pop(key.fileobj):
                        sys.exit("a link brought other bytes than it had to")


def counted(mseed, links, places, records):
    """The instructions of a server that sends so many records to each of so many links."""
    port = free_port()
    first, *others = places
    words = ["serve", "--live", "--port", str(port), "--clients", str(links), "--capacity", "100000", "--timeout", "0",
             "--station", first.sta.decode(), "--network", first.net.decode(), *(place.text for place in others)]
    with tempfile.TemporaryDirectory() as folder:
        log = os.path.join(folder, "log")
        valgrind = ["valgrind", "--tool=callgrind", "--callgrind-out-file=/dev/null", "--log-file=" + log, mseed]
        server = subprocess.Popen([*valgrind, *words], stdin=subprocess.PIPE, env={**os.environ, **ENVIRONMENT})
        while server.poll() is None and not is_listened_at(port):
            time.sleep(0.05)
        standing = [granted(port, places) for _ in range(links)]
        for index in range(records):
            server.stdin.write(record_of(places[index % len(places)], index))
        server.stdin.flush()
        receive(standing, PACKET * records)
        for link in standing:
            link.close()
        server.stdin.close()
        if server.wait(timeout=600):
            sys.exit("the server failed")
        with open(log, encoding="ascii", errors="replace") as text:
            return int(re.search(r"Collected : (\d+)", text.read())[1])


def main():
    """Counts, and prints a line for each number of places."""
    parser = argparse.ArgumentParser(description=__doc__, formatter_class=argparse.RawDescriptionHelpFormatter)
    parser.add_argument("mseed")
    parser.add_argument("--links", type=int, default=64)
    parser.add_argument("--places", type=int, nargs="+", default=[2, 16])
    parser.add_argument("--records", type=int, default=2000)
    options = parser.parse_args()
    mseed, links, records = os.path.abspath(options.mseed), options.links, options.records
    for count in options.places:
        places = [Place(f"XX_S{number:02}") for number in range(count)]
        once, twice = (counted(mseed, links, places, most) for most in (records, 2 * records))
        each = (twice - once) / (links * records)
        print(f"{links} links, {count} places: {each:.1f} instructions a packet", flush=True)


if __name__ == "__main__":
    main()
