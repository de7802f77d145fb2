"""`tools/fdsnws`: FDSN's rules row by row; its answers against what `extract` writes; many clients at once, of whom
some read slowly and some leave; requests that mean harm, while what the process opens is watched; its memory; and the
application under other servers.
"""

from __future__ import annotations

import contextlib
import datetime
import errno
import gc
import itertools
import os
import re
import select
import shutil
import socket
import subprocess
import sys
import tempfile
import threading
import time
import xml.etree.ElementTree
from pathlib import Path
from random import Random
from typing import Callable, Iterator, Optional, Sequence
from unittest import mock

from driver.program import LIMIT, PROGRAM, ROOT
from driver.rows import Cases, Fact, Skipped, holds
from driver.service import QUERY, Reply, Service, all_of, errors_of, lines_as_body, reply_in, serving
from driver.tools import TOOLS, tool, write_tree
from rows.tools_extract import (DAY, EAST, FIRST, LONG, NOON, OVER, TREE, at, extracted, made, path_of, pattern, sound,
                                window, Z)

sys.path.insert(0, str(TOOLS))

import mseed_tools.lengths  # noqa: E402
import mseed_tools.program  # noqa: E402
import mseed_tools.selecting  # noqa: E402
import mseed_tools.service  # noqa: E402
import mseed_tools.serving  # noqa: E402

SEED = 20261201
REQUESTS, HARMFUL = 60, int(os.environ.get("MSEED_HARMFUL", "10000"))
# KiB that a process may have.
MEMORY = 64 * 1024
MINISEED = "application/vnd.fdsn.mseed"
IN_2024 = "start=2024-01-01&end=2025-01-01"
LINE = "IU ANMO 00 BHZ 2024-01-01 2024-01-02"

# What is asked for by a query, and what comes: a status and a part of the text, or the records.
RULES: list[tuple[str, int, object]] = [
    ("", 200, OVER + FIRST + NOON + LONG + EAST), ("net=IU", 200, OVER + FIRST + NOON),
    ("network=IU", 200, OVER + FIRST + NOON), ("sta=ANMO", 200, OVER + FIRST + NOON + EAST),
    ("station=A*", 200, OVER + FIRST + NOON + LONG + EAST), ("loc=00", 200, OVER + FIRST + NOON),
    ("location=--", 200, EAST), ("loc=%20%20", 200, EAST), ("location=++", 200, EAST), ("cha=?HE", 200, EAST),
    ("channel=BH?", 200, OVER + FIRST + NOON + EAST), ("cha=LHZ,BHE", 200, LONG + EAST),
    ("net=IU,XX&sta=ANMO&loc=00,--&cha=BH*", 200, OVER + FIRST + NOON + EAST),
    ("net=IU&start=2024-01-01T00:00:06", 200, FIRST + NOON), ("net=IU&starttime=2024-01-01", 200, OVER + FIRST + NOON),
    ("net=IU&end=2024-01-01", 200, OVER), ("net=IU&endtime=2024-01-01T00:00:06.000001Z", 200, OVER + FIRST),
    ("net=IU&start=2024-01-01T12:00:00&end=2024-01-01T12:00:01", 200, NOON),
    ("net=IU&start=2024-001T12&end=2024-002", 200, NOON), ("net=I%55", 200, OVER + FIRST + NOON),
    ("net=IU&format=miniseed&nodata=404&quality=B", 200, OVER + FIRST + NOON),
    ("net=IU&&sta=", 200, OVER + FIRST + NOON), ("net=IU&quality=D", 200, OVER + FIRST + NOON),
    ("net=IU&quality=M", 204, b""), ("quality=Q&nodata=404", 404, "no data"),
    ("net=IU&minimumlength=32", 200, OVER + FIRST), ("net=IU&minimumlength=32.001", 204, b""),
    ("net=IU&minimumlength=0.0", 200, OVER + FIRST + NOON), ("net=IU&longestonly=TRUE", 200, OVER + FIRST),
    ("longestonly=true&net=IU,XX&cha=BH?", 200, OVER + FIRST + EAST),
    ("net=IU&longestonly=false", 200, OVER + FIRST + NOON), ("net=IU&quality=D&longestonly=true", 200, OVER + FIRST),
    ("net=ZZ", 204, b""), ("net=ZZ&nodata=204", 204, b""), ("net=ZZ&nodata=404", 404, "no data match the request"),
    ("net=IU&start=2030-01-01", 204, b""), ("network=IU&net=IU", 400, "network: given twice"),
    ("net=IU&net=", 400, "network: given twice"), ("bogus=1", 400, "bogus: no such parameter; there are starttime, "),
    ("NET=IU", 400, "NET: no such parameter"), ("net", 400, "net: a parameter is given as name=value"),
    ("net=I/U", 400, "I/U: no code of letters"), ("sta=..", 400, "..: no code of letters"),
    ("net=IU,", 400, ": no code of letters"), ("net=%", 400, "%: a percent sign without two hexadecimal digits"),
    ("net=%zz", 400, "a percent sign without"), ("net=%00", 400, "?: no code of letters"),
    ("net=%ff", 400, "%ff: not in ASCII"), ("net=\xe9", 400, "?: not in ASCII"),
    ("sta=" + "A" * 65, 400, "a code of 65 characters"), ("start=yesterday", 400, "yesterday: no time, as 2024-05-14"),
    ("start=2024-13-01", 400, "2024-13-01: no time"), ("end=2024-01-01T25", 400, "2024-01-01T25: no time"),
    ("start=2024-01-02&end=2024-01-01", 400, "2024-01-01: not after 2024-01-02"),
    ("start=2024-01-02&end=2024-01-02", 400, "2024-01-02: not after 2024-01-02"),
    ("quality=X", 400, "quality=X: not accepted; it is D, R, Q, M or B"),
    ("minimumlength=-1", 400, "minimumlength=-1: not accepted; it is seconds"),
    ("minimumlength=1e3", 400, "not accepted; it is seconds"), ("longestonly=1", 400, "it is true or false"),
    ("format=sac", 400, "format=sac: not accepted; it is miniseed"), ("nodata=200", 400, "it is 204 or 404"),
    ("net=" + ",".join("A" * 40) + "&sta=" + ",".join("B" * 40), 413, "1600 patterns of channels, and 1000 are taken"),
    ("net=IU&" + "sta=" + "A" * 70000, 414, "the request has more than 65536 bytes"),
]
# What stands in a body, and what comes.
BODIES: list[tuple[str, int, object]] = [
    (LINE, 200, OVER + FIRST + NOON), (f"{LINE}\n{LINE}\n", 200, OVER + FIRST + NOON),
    (f"quality=D\nminimumlength=0.0\nlongestonly=false\nformat=miniseed\nnodata=404\n{LINE}\n", 200,
     OVER + FIRST + NOON),
    (f"quality = M\n{LINE}", 204, b""), (f"quality=M\nnodata=404\n{LINE}", 404, "no data match the request"),
    (f"longestonly=true\r\n{LINE}\r\n", 200, OVER + FIRST), (f"minimumlength=40\n{LINE}", 204, b""),
    ("XX * -- BHE 2024-01-01T00:00:00 2024-01-02T00:00:00.5\nIU * * * 2023-01-01 2024-01-01\n", 200, EAST + OVER),
    ("", 400, "no line NET STA LOC CHA START END"), ("quality=D\n", 400, "no line NET STA LOC CHA START END"),
    ("IU ANMO 00 BHZ 2024-01-01", 400, "line 1: 5 columns, and NET STA LOC CHA START END are wanted"),
    (f"{LINE}\nquality=D\n", 400, "line 2: 1 columns"),
    (f"bogus=1\n{LINE}", 400, "line 1: bogus: no parameter of a POST"),
    (f"net=IU\n{LINE}", 400, "line 1: net: no parameter of a POST"),
    (f"quality=X\n{LINE}", 400, "quality=X: not accepted"),
    (f"quality=D\nquality=D\n{LINE}", 400, "quality: given twice"),
    ("IU ANMO 00 B/Z 2024-01-01 2024-01-02", 400, "line 1: B/Z: no code of letters"),
    ("IU ANMO 00 BHZ 2024-01-02 2024-01-01", 400, "line 1: 2024-01-01: not after 2024-01-02"),
    ("\xe9", 400, "the body isn't in ASCII"), (f"{LINE}\n" * 1001, 413, "more than 1000 lines"),
    ("x" * (2**20 + 1), 413, "the body has more than 1048576 bytes"),
]
# Methods, targets, and what comes.
TARGETS: list[tuple[str, str, int, str]] = [
    ("GET", "/fdsnws/dataselect/1/version", 200, "1.1.0\n"), ("GET", "/fdsnws/dataselect/1", 200, "Make a request"),
    ("PUT", QUERY, 405, "PUT: this address takes GET, HEAD, POST"),
    ("DELETE", f"{QUERY}?net=IU", 405, "this address takes"),
    ("POST", "/fdsnws/dataselect/1/version", 405, "GET, HEAD"),
    ("GET", "/fdsnws/dataselect/1/queryauth", 404, "nothing is at this address"),
    ("GET", "/fdsnws/", 404, "requests are at"),
    ("GET", f"{QUERY}/", 404, "nothing is at"), ("GET", "/etc/passwd", 404, "nothing is at"),
    ("GET", "/../../../../etc/passwd", 404, "nothing is at"), ("GET", "/fdsnws/dataselect/1/../query", 404, "nothing"),
    ("POST", QUERY, 400, "a POST says by Content-Length how long its body is"),
]
FORM = re.compile(r"Error (\d{3}): [A-Z][a-z A-Z]+\n\n.+\n\nUsage details are available from http://here:1/fdsnws/"
                  r"dataselect/1/\n\nRequest:\nhttp://here:1/[^\n]*\n\nRequest Submitted:\n"
                  r"\d{4}-\d\d-\d\dT\d\d:\d\d:\d\d\n\nService version:\n1\.1\.0\n")


def seen(reply: Reply, wanted: object) -> tuple[object, ...]:
    """What is compared of a reply: of an error its form, and that it has a text."""
    if isinstance(wanted, bytes):
        return reply.status, reply.headers.get("content-type", ""), reply.body
    found = FORM.fullmatch(reply.text)
    return reply.status, reply.headers["content-type"], found and int(found[1]), wanted in reply.text or reply.text


def wanted_of(status: int, wanted: object) -> tuple[object, ...]:
    """What must be seen of it."""
    if isinstance(wanted, bytes):
        return status, MINISEED if status == 200 else "", wanted
    return status, "text/plain; charset=utf-8", status, True


def rules(folder: Path) -> Cases:
    """Each parameter, by its names; each form that isn't accepted; each status with its text."""
    root = folder / "sound"
    write_tree(root, TREE)
    with serving(root) as service:
        for query, status, wanted in RULES:
            reply = service.query(query)
            if status == 414:
                yield Fact("a query that is too long", (414, True), (reply.status, "65536 bytes are taken" in reply.text
                                                                     or "has more than 65536 bytes" in reply.text))
                continue
            yield Fact(f"?{query[:60]}", wanted_of(status, wanted), seen(reply, wanted))
        for body, status, wanted in BODIES:
            reply = service.post(body.encode("latin-1"))
            yield Fact(f"POST {body[:60]!r}", wanted_of(status, wanted), seen(reply, wanted))
        for method, target, status, part in TARGETS:
            reply = service.get(target, method)
            yield Fact(f"{method} {target}", (status, True), (reply.status, part in reply.text or reply.text))
        yield from heads(service)
        yield Fact("a body that is shorter than it says", 400, short_body(service).status)
        expecting = service.get(QUERY, "POST", f"Expect: 100-continue\r\nContent-Length: {len(LINE)}\r\n\r\n{LINE}")
        yield Fact("a client that asks whether it may send its body", (200, OVER + FIRST + NOON),
                   (expecting.status, expecting.body))
    yield from limited(root)
    for words, why in ((["--port", "70000"], "--port: '70000' is no number from 0 to 65535"),
                       (["--limit", "0"], f"--limit: '0' is no number from 1 to {2**63 - 1}"),
                       (["--limit", "much"], f"--limit: 'much' is no number from 1 to {2**63 - 1}")):
        came = tool("fdsnws", *words, str(root))
        yield Fact(f"fdsnws {' '.join(words)}", (3, f"fdsnws: argument {why}\n".encode()), (came.status, came.err))
    yield Fact("fdsnws without a folder", 3, tool("fdsnws").status)
    yield Fact("fdsnws of no folder", (2, f"fdsnws: {root}/none: no such folder\n".encode()),
               (lambda came: (came.status, came.err))(tool("fdsnws", str(root / "none"))))
    yield Fact("fdsnws of the folder of a year",
               (2, f"fdsnws: {root}/2024: the folder of a year; the root of the archive is {root}\n".encode()),
               (lambda came: (came.status, came.err))(tool("fdsnws", str(root / "2024"))))
    yield holds("the help has an example", b"example:\n  fdsnws " in tool("fdsnws", "--help").out)


def heads(service: Service) -> Cases:
    """What has no body, and what says how long it is."""
    reply = service.get(f"{QUERY}?net=IU", "HEAD")
    yield Fact("HEAD of a request", (200, MINISEED, None, b""),
               (reply.status, reply.headers.get("content-type"), reply.headers.get("content-length"), reply.body))
    whole, head = (service.get("/fdsnws/dataselect/1/version", method) for method in ("GET", "HEAD"))
    yield Fact("HEAD of what has a length", (whole.headers["content-length"], b""),
               (head.headers.get("content-length"), head.body))
    none = service.query("net=ZZ")
    yield Fact("an answer without data has no length", None, none.headers.get("content-length"))
    reply = service.get(QUERY, "PUT")
    yield Fact("the methods that there are", "GET, HEAD, POST", reply.headers.get("allow"))
    wadl = service.get("/fdsnws/dataselect/1/application.wadl")
    names = [one.get("name") for one in xml.etree.ElementTree.fromstring(wadl.text).iter()
             if one.tag.endswith("}param")]
    yield Fact("the parameters of the description", (200, sorted([
        "starttime", "endtime", "network", "station", "location", "channel", "quality", "minimumlength", "longestonly",
        "format", "nodata"])), (wadl.status, sorted(names)))
    proxied = service.get(f"{QUERY}?bogus=1", headers="X-Forwarded-Proto: https\r\n")
    yield holds("an address behind a proxy", "https://here:1/fdsnws/dataselect/1/" in proxied.text, proxied.text)


def short_body(service: Service) -> Reply:
    """What comes of a POST that ends too early."""
    with service.connected() as connection:
        connection.sendall(f"POST {QUERY} HTTP/1.1\r\nContent-Length: 100\r\n\r\n{LINE}".encode())
        connection.shutdown(socket.SHUT_WR)
        return reply_in(all_of(connection))


def limited(root: Path) -> Cases:
    """An answer that is larger than the limit is refused, and one that isn't comes, however large its files are."""
    with serving(root, "--limit", "256") as service:
        for query, status, wanted in [("net=IU", 413, "the answer has more than 256 bytes; ask for less at once"),
                                      ("net=IU&end=2024-01-01T00:00:07", 200, OVER + FIRST),
                                      ("net=IU&start=2024-01-01T12", 200, NOON)]:
            yield Fact(f"at most 256 bytes, ?{query}", wanted_of(status, wanted), seen(service.query(query), wanted))


def against_extract(folder: Path) -> Cases:
    """Requests of trees at random: by GET, by short names and by POST the same bytes as `extract` writes."""
    longs, shorts = (["network", "station", "location", "channel", "starttime", "endtime"],
                     ["net", "sta", "loc", "cha", "start", "end"])
    for seed in range(SEED, SEED + REQUESTS // 10):
        source, root = Random(seed), folder / str(seed)
        write_tree(root, {path: b"".join(items) for path, items in made(source).files.items()})
        with serving(root) as service:
            for _ in range(10):
                name, (begin, end) = pattern(source), window(source)
                values = [*("--" if not field else field for field in name.split("_")), begin, end]
                words = ["--channels", "_".join(values[:4]), "--from", begin, "--until", end]
                _, wanted, _ = extracted(root, *words)
                came = [service.query("&".join(map("=".join, zip(names, values)))) for names in (longs, shorts)]
                came.append(service.post(lines_as_body([" ".join(values)])))
                status = 200 if wanted else 204
                yield Fact(f"the tree of seed {seed}, {' '.join(values)}", [(status, wanted)] * 3,
                           [(reply.status, reply.body) for reply in came])
            lines = [" ".join([*(field or "--" for field in pattern(source).split("_")), *window(source)])
                     for _ in range(5)]
            path = folder / "requests"
            path.write_bytes(lines_as_body(lines))
            yield Fact(f"the tree of seed {seed}, five lines", extracted(root, "--list", str(path))[1],
                       service.post(lines_as_body(lines)).body)


def large_tree(root: Path, megabytes: int) -> bytes:
    """A tree of a channel, a day of so many megabytes; its bytes."""
    begin = datetime.datetime(2024, 1, 1)
    some = b"".join(at(begin + datetime.timedelta(seconds=number), codes=Z, samples=20, exponent=12, sequence=number)
                    for number in range(256))
    write_tree(root, {path_of("IU.ANMO.00.BHZ", DAY): some * megabytes})
    return some * megabytes


def at_once(service: Service, whole: bytes) -> tuple[int, list[tuple[str, bool]]]:
    """Fifty clients: ten read a byte a second, ten leave, and thirty read all; how many of these forty were done while
    the ten still read, and of each whether it was right."""
    results: list[tuple[str, bool]] = []
    is_over = threading.Event()

    def client(kind: str) -> None:
        size = 0
        with service.connected() as connection:
            connection.sendall(f"GET {QUERY}?net=IU HTTP/1.1\r\nHost: here\r\n\r\n".encode())
            if kind == "slow":
                size = len(connection.recv(1))
                while not is_over.wait(1):
                    size += len(connection.recv(1))
            elif kind == "leaves":
                size = len(connection.recv(1000))
            else:
                while part := connection.recv(2**18):
                    size += len(part)
        is_right = len(whole) < size < len(whole) + 1000 if kind == "reads" else size > 0
        results.append((kind, is_right))

    kinds = ["slow", "leaves", "reads", "reads", "reads"] * 10
    threads = [threading.Thread(target=client, args=(kind,)) for kind in kinds]
    for thread in threads:
        thread.start()
    until = time.monotonic() + LIMIT
    while len(results) < 40 and time.monotonic() < until:
        time.sleep(0.05)
    done = len(results)
    is_over.set()
    for thread in threads:
        thread.join(LIMIT)
    return done, results


def clients(folder: Path) -> Cases:
    """Many at once: none holds up another; what was begun for those that have gone ends; and memory is bounded."""
    root = folder / "large"
    whole = large_tree(root, 8)
    with serving(root) as service:
        first = service.query("net=IU")
        yield Fact("a large answer", (200, len(whole), True), (first.status, len(first.body), first.body == whole))
        done, came = at_once(service, whole)
        yield Fact("fifty clients are served right", {"slow": 10, "leaves": 10, "reads": 30},
                   {kind: sum(right for other, right in came if other == kind) for kind in ("slow", "leaves", "reads")})
        yield Fact("nobody waits for those that read slowly", 40, done)
        yield holds("what was begun for clients that have gone ends", service.children_come(False), service.children())
        yield holds("memory of fifty clients at once", service.memory() < MEMORY, service.memory())
        until = time.monotonic() + 20
        while errors_of(root).count(" bytes cut off after ") < 20 and time.monotonic() < until:
            time.sleep(0.05)
        yield Fact("answers that were cut off, and whole ones", (20, 31),
                   (errors_of(root).count(" bytes cut off after "), errors_of(root).count(f" {len(whole)} bytes ")))
    silent = folder / "silent"
    silent.write_text("#!/bin/sh\nexec sleep 300\n", encoding="utf-8")
    silent.chmod(0o755)
    with serving(root, program=silent) as service:
        for query in ("net=IU", "net=IU&minimumlength=1"):
            with service.connected() as connection:
                connection.sendall(f"GET {QUERY}?{query} HTTP/1.1\r\nHost: here\r\n\r\n".encode())
                yield holds(f"a run is begun, ?{query}", service.children_come(True))
            yield holds(f"it ends where its client has gone before a byte, ?{query}", service.children_come(False))
    yield from leaving_later(folder / "sound")


def leaving_later(root: Path) -> Cases:
    """What is begun once records were selected ends too where the client has gone: to know which of them a second line
    asks for, or which are taken away."""
    folder = root.parent
    begun, program = folder / "begun", folder / "shows_late"
    program.write_text(f'#!/bin/sh\n[ "$1" = select ] && exec {PROGRAM} "$@"\ntouch {begun}\nexec sleep 300\n',
                       encoding="utf-8")
    program.chmod(0o755)
    lines = f"{LINE}\n{LINE.replace('ANMO', '*')}\n"
    requests = {word: f"GET {QUERY}?net=IU&{word} HTTP/1.0\r\n\r\n"
                for word in ("minimumlength=1", "longestonly=true", "quality=D")}
    requests["a second line"] = f"POST {QUERY} HTTP/1.0\r\nContent-Length: {len(lines)}\r\n\r\n{lines}"
    with serving(root, program=program) as service:
        for name, request in requests.items():
            begun.unlink(missing_ok=True)
            with service.connected() as connection:
                connection.sendall(request.encode())
                until = time.monotonic() + LIMIT
                while not begun.exists() and time.monotonic() < until:
                    connection.settimeout(0.05)
                    with contextlib.suppress(socket.timeout):
                        connection.recv(2**20)
            yield holds(f"a run is begun, {name}", begun.exists())
            yield holds(f"it ends where its client has gone, {name}", service.children_come(False))


@contextlib.contextmanager
def in_this_process(root: Path) -> Iterator[Service]:
    """A service over a tree in a thread of this process, which reports nothing."""
    with mock.patch.object(mseed_tools.serving, "told"), \
            mseed_tools.serving.Server(("127.0.0.1", 0), mseed_tools.service.Service(
                root, program=mseed_tools.program.Program(str(PROGRAM)), tell=lambda line: None)) as server:
        thread = threading.Thread(target=server.serve_forever)
        thread.start()
        try:
            yield Service(None, server.server_port, None)
        finally:
            server.shutdown()
            thread.join()


def slow_to_ask(folder: Path) -> Cases:
    """Clients that send their request a byte at a time, for longer than they may."""
    with mock.patch.object(mseed_tools.serving, "TO_ASK", 1), in_this_process(folder / "sound") as service:
        for name, begun, wanted in (("a request", f"GET {QUERY}?net=IU HTTP/1.1\r\nX: ", b""),
                                    ("a body", f"POST {QUERY} HTTP/1.1\r\nContent-Length: 1000\r\n\r\n", b"400")):
            with service.connected() as link:
                link.sendall(begun.encode())
                began, link_is_up = time.monotonic(), True
                while link_is_up and time.monotonic() - began < 60:
                    time.sleep(0.05)
                    with contextlib.suppress(ConnectionError):
                        link.sendall(b"x")
                    link_is_up = not select.select([link], [], [], 0)[0]
                came = all_of(link)
            yield holds(f"{name} that doesn't become whole is given up", time.monotonic() - began < 30 and
                        came[9:12] == wanted, came)
        yield Fact("a whole one is answered", (200, OVER + FIRST + NOON), service.query("net=IU")[::2])


def answered(service: Service) -> Reply:
    """What a client is told that asks for nothing."""
    with service.connected() as link:
        return reply_in(all_of(link))


def crowded(folder: Path) -> Cases:
    """Clients that can't be answered are told so, and others are answered once that can be."""
    root = folder / "crowded"
    write_tree(root, TREE)
    with serving(root) as service, contextlib.ExitStack() as links:
        for _ in range(mseed_tools.serving.MOST_CLIENTS):
            links.enter_context(service.connected())
        yield Fact("one client more than are answered at once", 503, answered(service).status)
        until = time.monotonic() + 20
        while not errors_of(root) and time.monotonic() < until:
            time.sleep(0.05)
    log = errors_of(root)
    yield holds("it is logged", re.match(r'127\.0\.0\.1 "" 503 \d+ bytes [0-9.]+ s\n', log), log)
    with in_this_process(root) as service:
        with mock.patch.object(threading.Thread, "start", side_effect=RuntimeError("can't start new thread")):
            came = {answered(service).status for _ in range(mseed_tools.serving.MOST_CLIENTS + 1)}
        yield Fact("without threads, and with some again", ({503}, 200), (came, service.query("net=IU").status))


def few_files(folder: Path) -> Cases:
    """Where no more files can be open, none stays open of a run that wasn't begun, and no run stays."""
    program, path = mseed_tools.program.Program(str(PROGRAM)), str(folder / "sound" / path_of("IU.ANMO.00.BHZ", DAY))
    full = OSError(errno.EMFILE, os.strerror(errno.EMFILE))
    for name, call in (("scratch", "mseed_tools.selecting.scratch"), ("pipe", "mseed_tools.selecting.os.pipe")):
        before = sorted(os.listdir("/proc/self/fd"))
        with mock.patch(call, side_effect=full), contextlib.suppress(OSError):
            mseed_tools.selecting.Run(program, ["show"], None)
        yield Fact(f"files of a run without a {name}", before, sorted(os.listdir("/proc/self/fd")))
    before = sorted(os.listdir("/proc/self/fd"))
    with mock.patch("mseed_tools.selecting.scratch", side_effect=[mseed_tools.program.scratch(), full]), \
            contextlib.suppress(OSError):
        list(mseed_tools.lengths.records(program, path, None))
    gc.collect()
    yield Fact("files of two runs of which the second can't be begun", before, sorted(os.listdir("/proc/self/fd")))


def failing(folder: Path) -> Cases:
    """A program that fails: before the first byte that is a status; after it nobody takes a part for all."""
    root = folder / "sound"
    for text, is_begun in (("echo 'mseed: no memory' >&2; exit 2", False),
                           (f"{PROGRAM} \"$@\"; kill -9 $$", True)):
        program = folder / "failing"
        program.write_text(f"#!/bin/sh\n{text}\n", encoding="utf-8")
        program.chmod(0o755)
        with serving(root, program=program) as service:
            if not is_begun:
                reply = service.query("net=IU")
                yield Fact("a program without memory", (500, True), (reply.status, "Error 500: Internal server error\n"
                                                                     in reply.text))
                continue
            yield holds("an answer that is cut off is no whole one", is_reset(service, "net=IU"))
        yield holds("what failed is reported", "ToolError" in errors_of(root), errors_of(root))


def is_reset(service: Service, query: str, half_closed_after: Optional[int] = None) -> bool:
    """Whether the connection of a client that asks for records is reset, so that what came is no whole answer. Where a
    number is given, the client closes its half once it has so many bytes."""
    with service.connected() as connection:
        connection.sendall(f"GET {QUERY}?{query} HTTP/1.1\r\nHost: here\r\n\r\n".encode())
        if half_closed_after is not None:
            all(connection.recv(1) for _ in range(half_closed_after))
            connection.shutdown(socket.SHUT_WR)
        try:
            while connection.recv(2**16):
                pass
        except ConnectionResetError:
            return True
    return False


def half_closed(folder: Path) -> Cases:
    """A client that closes its half of the connection counts as gone where it has to wait: its connection is cut, so
    that it never takes no answer, or a part of one, for all that there is."""
    root = folder / "sound"
    for when, after, text, line in (
            ("before the answer", 0, "exec sleep 300", "- 0 bytes cut off after"),
            ("within the answer", 1, f"{PROGRAM} \"$@\"; exec sleep 300", r"200 \d+ bytes cut off after")):
        program = folder / "waiting"
        program.write_text(f"#!/bin/sh\n{text}\n", encoding="utf-8")
        program.chmod(0o755)
        with serving(root, program=program) as service:
            yield holds(f"half of the connection is closed {when}", is_reset(service, "net=IU", after))
            yield holds(f"what is selected ends, {when}", service.children_come(False))
            until = time.monotonic() + 20
            while not errors_of(root) and time.monotonic() < until:
                time.sleep(0.05)
        yield holds(f"it is logged, {when}", re.fullmatch(f'127.0.0.1 ".*" {line} [0-9.]+ s\n', errors_of(root)),
                    errors_of(root))


def damaged(folder: Path) -> Cases:
    """A damaged file is reported, and what is sound of it is sent."""
    root = folder / "damaged"
    day = path_of("IU.ANMO.00.BHZ", DAY)
    write_tree(root, {**TREE, day: FIRST + bytes(128) + NOON})
    with serving(root) as service:
        yield Fact("a damaged tree", (200, OVER + FIRST + NOON), service.query("net=IU")[::2])
    yield holds("it is reported", f"{root / day}: fault at 128 notdata, 128 bytes skipped\n" in errors_of(root),
                errors_of(root))


def no_log(folder: Path) -> Cases:
    """Where the log can't be written, requests are answered all the same."""
    root = folder / "unlogged"
    write_tree(root, TREE)
    (folder / "unlogged.errors").symlink_to("/dev/full")
    with serving(root) as service:
        for query, status in (("net=IU", 200), ("net=ZZ", 204), ("net=..", 400)):
            yield Fact(f"a log that is full, ?{query}", (status, False),
                       (service.query(query).status, is_reset(service, query)))


WORDS = ["..", "../..", "/etc/passwd", "%2e%2e%2f", "%00", "\\", "*", "?", "%", "%25", "%ff", "\x00", "a" * 300, "--",
         "IU", "ANMO", "`id`", "$(id)", ";id", "|id", "'", '"', "<script>", "2024-01-01", "-", "file:///etc/passwd",
         "%0d%0a", ",", "~root", "/proc/self/environ", "{}", "..%c0%af", "=", "net=IU", "1" * 400, "\xe9", "--output",
         "@/etc/passwd"]
NAMES = ["net", "network", "sta", "station", "loc", "location", "cha", "channel", "start", "starttime", "end",
         "endtime", "quality", "minimumlength", "longestonly", "nodata", "format", "root", "state", "file", "",
         "..", "%00"]
PATHS = ["/", QUERY, "/fdsnws/dataselect/1/", "/fdsnws/dataselect/1/version", "/fdsnws/dataselect/1/application.wadl",
         "/fdsnws", "//", "/2023/IU/ANMO/BHZ.D/IU.ANMO.00.BHZ.D.2023.365"]


def harmful(source: Random) -> bytes:
    """A request that means harm."""
    path = source.choice(PATHS) if source.randrange(3) else "/" + "/".join(
        source.choice(WORDS) for _ in range(source.randrange(1, 9)))
    query = "&".join(f"{source.choice(NAMES)}={source.choice(WORDS)}{source.choice(['', '', source.choice(WORDS)])}"
                     for _ in range(source.randrange(0, 4)))
    kind = source.randrange(10)
    if kind == 0:
        body = "\n".join(" ".join(source.choice(WORDS) for _ in range(source.randrange(1, 8))) for _ in range(5))
        return f"POST {QUERY} HTTP/1.1\r\nContent-Length: {len(body)}\r\n\r\n{body}".encode("latin-1")
    if kind == 1:
        return bytes(source.randrange(256) for _ in range(source.randrange(1, 200))) + b"\r\n\r\n"
    headers = f"Host: {source.choice(WORDS)}\r\nContent-Length: {source.choice(['0', '-1', 'x', '9' * 30])}\r\n"
    method = source.choice(["GET", "GET", "GET", "HEAD", "OPTIONS", "TRACE", "get", "\x00"])
    return f"{method} {path}{'?' * bool(query)}{query} HTTP/1.{source.choice('019')}\r\n{headers}\r\n".encode("latin-1")


def harm(folder: Path) -> Cases:
    """Requests that mean harm: what is opened lies in the tree, and no answer is a fault of the service."""
    root, log, spool = folder / "sound", folder / "opened", folder / "spool"
    (folder / "passwd").write_text("secret")
    spool.mkdir()
    with serving(root, log=log, env={"TMPDIR": str(spool)}) as service:
        for warm in ("net=IU&minimumlength=1", "net=%ff", "net=IU"):
            service.query(warm)
        service.get("/")
        service.post(LINE.encode())
        service.opened()
        statuses: list[int] = []
        share = range(SEED, SEED + 4)

        def ask(seed: int) -> None:
            source = Random(seed)
            statuses.extend(service.raw(harmful(source)).status for _ in range(HARMFUL // len(share)))

        threads = [threading.Thread(target=ask, args=(seed,)) for seed in share]
        for thread in threads:
            thread.start()
        for thread in threads:
            thread.join()
        yield Fact("harmful requests", HARMFUL // 4 * 4, len(statuses))
        yield Fact("their statuses", set(), set(statuses) - {200, 204, 400, 404, 405})
        yield holds("some are carried out, and some refused", statuses.count(200) > 10 and statuses.count(400) > 100)
        yield from sizes(service)
        lines = service.opened()
        yield holds("files were opened in the tree", any(f"open {root}/" in line for line in lines))
        yield Fact("what was opened elsewhere", [], elsewhere(lines, [root, spool]))
        yield holds("memory after all of it", service.memory() < MEMORY, service.memory())
        yield Fact("it still serves", (200, OVER + FIRST + NOON), service.query("net=IU")[::2])
    yield Fact("nothing is left of what was laid down", [], os.listdir(spool))
    others = [line for line in errors_of(root).splitlines()
              if not re.fullmatch(r'127\.0\.0\.1 ".*" [0-9]+ \d+ bytes .* s', line)]
    yield Fact("what was reported besides the requests", [], others[:10])


def elsewhere(lines: Sequence[str], places: Sequence[Path]) -> list[str]:
    """What was opened, or run, that isn't below some places, nor the program, and no file without a name."""
    allowed = tuple(f"{place}" for place in places)
    return sorted({line for line in lines for kind, _, what in [line.partition(" ")]
                   if not what.startswith(allowed) and not what.isdigit()
                   and not (kind == "os.posix_spawn" and what == str(PROGRAM))})[:10]


def sizes(service: Service) -> Cases:
    """Large requests, and some that ask for very much."""
    wide, window = "* * * * 1900-01-01 2100-01-01\n", "* * * 2024-01-01 2024-01-02\n"
    codes = ["".join(two) for two in itertools.product("ABCDEFGHIJKLMNOPQRSTUVWXYZ0123456789", repeat=2)]
    for name, content, status in [
        ("1 MB of parameters", f"GET {QUERY}?net={'A,' * 2**19} HTTP/1.1\r\n\r\n", 414),
        ("1 MB of headers", f"GET {QUERY} HTTP/1.1\r\n" + f"X: {'a' * 1000}\r\n" * 1000 + "\r\n", 431),
        ("99 headers of 64 KB", f"GET {QUERY} HTTP/1.1\r\n" + f"X: {'a' * 64000}\r\n" * 99 + "\r\n", 431),
        ("a header of 64 KB", f"GET {QUERY}?net=ZZ HTTP/1.1\r\nX: {'a' * 64000}\r\n\r\n", 204),
        ("100 headers", f"GET {QUERY} HTTP/1.1\r\n" + "X: a\r\n" * 100 + "\r\n", 431),
        ("an empty line", "\r\n\r\n", 400),
    ]:
        yield Fact(name, status, service.raw(content.encode()).status)
    for name, body, status in [
        ("ten thousand lines", wide * 10000, 413), ("a thousand lines", wide * 1000, 200),
        ("a megabyte of one line", "a" * 2**20, 400), ("ten megabytes", "a" * 10**7, 413),
        ("three hundred lists of a thousand", f"{','.join(codes[:1000])} {window}" * 300, 413),
        ("two lists of five hundred", f"{','.join(codes[:500])} {window}{','.join(codes[500:1000])} {window}", 200),
        ("a thousand channels, line by line", "".join(f"{code} {window}" for code in codes[:1000]), 200),
        ("a megabyte of codes", f"{'ab,' * 340000}ab {window}", 413),
        ("a megabyte of short lines", "ab\n" * 340000, 400), ("a megabyte of words", "ab " * 340000, 400),
        ("a megabyte of empty lines", "\n" * 2**20, 400),
    ]:
        yield Fact(f"a POST of {name}", status, service.post(body.encode()).status)


SERVE = """
import sys
sys.path.insert(0, sys.argv[1])
from wsgiref.simple_server import make_server
from wsgiref.validate import validator
import mseed.fdsnws
with make_server("127.0.0.1", 0, validator(mseed.fdsnws.application(sys.argv[2]))) as server:
    print(f"http://127.0.0.1:{server.server_port}/", flush=True)
    for _ in range(6):
        server.handle_request()
"""


def other_servers(folder: Path) -> Cases:
    """The application of the package: by the plain server of Python, which checks each call; and by others, where they
    are installed."""
    root, env = folder / "sound", {**os.environ, "MSEED": str(PROGRAM), "PYTHONPATH": str(ROOT / "python")}
    run = subprocess.Popen([sys.executable, "-W", "error", "-c", SERVE, str(ROOT / "python"), str(root)], env=env,
                           stdout=subprocess.PIPE, stderr=subprocess.PIPE)
    try:
        port = int(run.stdout.readline().rpartition(b":")[2].strip(b"/\n"))
        service = Service(run, port, None)
        for query, status, wanted in [("net=IU", 200, OVER + FIRST + NOON), ("net=ZZ", 204, b""),
                                      ("net=IU&longestonly=true", 200, OVER + FIRST), ("net=..", 400, "no code")]:
            reply = service.query(query)
            yield Fact(f"by wsgiref as it stands, ?{query}", wanted_of(status, wanted), seen(reply, wanted))
        yield Fact("a page by wsgiref as it stands", 200, service.get("/").status)
        yield Fact("a POST by wsgiref as it stands", (200, OVER + FIRST + NOON), service.post(LINE.encode())[::2])
        yield holds("nothing is wrong by its checks", b"Error" not in run.communicate(timeout=60)[1])
    finally:
        run.kill()
        run.communicate()
    yield from by("gunicorn", lambda port: ["gunicorn", "--bind", f"127.0.0.1:{port}", "--threads", "4",
                                            f"mseed.fdsnws:application({str(root)!r})"], env)
    yield from by("waitress", lambda port: ["waitress-serve", f"--listen=127.0.0.1:{port}", "--call",
                                            "mseed.fdsnws:from_environment"], {**env, "MSEED_ARCHIVE": str(root)})


def by(name: str, words_of: Callable[[int], list[str]], env: dict[str, str]) -> Cases:
    """The application by another server."""
    with socket.create_server(("127.0.0.1", 0)) as free:
        port = free.getsockname()[1]
    words = words_of(port)
    if shutil.which(words[0]) is None:
        yield Skipped(f"the service by {name}", name)
        return
    run = subprocess.Popen(words, env=env, stdout=subprocess.DEVNULL, stderr=subprocess.PIPE)
    service = Service(run, port, None)
    try:
        until = time.monotonic() + 60
        while time.monotonic() < until and run.poll() is None:
            try:
                service.get("/fdsnws/dataselect/1/version", headers="Connection: close\r\n")
                break
            except OSError:
                time.sleep(0.1)
        for query, status, wanted in [("net=IU", 200, OVER + FIRST + NOON), ("net=..", 400, "no code")]:
            reply = service.get(f"{QUERY}?{query}", headers="Connection: close\r\n")
            body = unchunked(reply)
            yield Fact(f"by {name}, ?{query}", (status, True),
                       (reply.status, body == wanted if status == 200 else wanted in reply.text))
    finally:
        run.terminate()
        run.communicate(timeout=60)


def unchunked(reply: Reply) -> bytes:
    """The body of a reply, which may have come in pieces."""
    if reply.headers.get("transfer-encoding") != "chunked":
        return reply.body
    rest, parts = reply.body, []
    while rest:
        size, _, rest = rest.partition(b"\r\n")
        parts.append(rest[: int(size, 16)])
        rest = rest[int(size, 16) + 2 :]
    return b"".join(parts)


def by_others(folder: Path) -> Cases:
    """What a program of others reads of an answer."""
    if shutil.which("mseed2sac") is None:
        yield Skipped("what mseed2sac reads of an answer", "mseed2sac")
        return
    root, path = folder / "packed", folder / "answer.mseed"
    content = (ROOT / "samples" / "steim2.mseed").read_bytes()
    write_tree(root, {"2024/XA/ANMO/BHZ.D/XA.ANMO.00.BHZ.D.2024.001": content})
    with serving(root) as service:
        path.write_bytes(service.query("net=XA&start=2024-01-01&end=2024-01-02").body)
    run = subprocess.run(["mseed2sac", "-f", "1", str(path)], cwd=folder, capture_output=True, text=True, check=False)
    texts = [one.read_text(encoding="ascii") for one in folder.glob("XA.ANMO.00.BHZ.*")]
    # The samples come after thirty lines of a header.
    yield Fact("what mseed2sac reads of an answer", (0, [2043]),
               (run.returncode, [len(text.split("\n", 30)[30].split()) for text in texts]))


def rows() -> Cases:
    """All of them."""
    with tempfile.TemporaryDirectory() as name:
        folder = Path(name)
        yield from rules(folder)
        yield from damaged(folder)
        yield from no_log(folder)
        yield from failing(folder)
        yield from half_closed(folder)
        yield from by_others(folder)
        yield from other_servers(folder)
        yield from against_extract(folder / "random")
        yield from clients(folder)
        yield from slow_to_ask(folder)
        yield from crowded(folder)
        yield from few_files(folder)
        yield from harm(folder)
