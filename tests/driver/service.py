"""A service of `tools/fdsnws` that runs for a test, and what it opens."""

from __future__ import annotations

import contextlib
import os
import re
import socket
import subprocess
import sys
import time
from pathlib import Path
from typing import Iterator, Mapping, NamedTuple, Optional, Sequence

from driver.program import LIMIT, PROGRAM
from driver.tools import TOOLS

QUERY = "/fdsnws/dataselect/1/query"
# What a process opens is noted from its beginning on, a line each: how, and what.
WATCH = """
import os, runpy, sys
log = os.open(sys.argv[1], os.O_WRONLY | os.O_APPEND | os.O_CREAT)
def seen(event, arguments):
    if event in ("open", "os.scandir", "os.listdir", "os.posix_spawn", "subprocess.Popen", "os.exec", "os.system"):
        os.write(log, f"{event} {arguments[0]}\\n".encode("utf-8", "surrogateescape"))
sys.addaudithook(seen)
sys.argv, sys.path[0] = sys.argv[2:], os.path.dirname(sys.argv[2])
runpy.run_path(sys.argv[0], run_name="__main__")
"""


class Reply(NamedTuple):
    """What a service answered: the status, the headers by their names in small letters, and the body."""

    status: int
    headers: dict[str, str]
    body: bytes

    @property
    def text(self) -> str:
        """The body as a text."""
        return self.body.decode("utf-8", "replace")


class Service:
    """A service that runs."""

    def __init__(self, process: subprocess.Popen[bytes], port: int, log: Optional[Path]):
        self.process, self.port, self.log = process, port, log

    def connected(self, limit: float = LIMIT) -> socket.socket:
        """A connection to it."""
        return socket.create_connection(("127.0.0.1", self.port), timeout=limit)

    def raw(self, content: bytes) -> Reply:
        """What comes of these bytes; status 0 where nothing does."""
        with self.connected() as connection:
            with contextlib.suppress(ConnectionError):
                connection.sendall(content)
            return reply_in(all_of(connection))

    def get(self, target: str, method: str = "GET", headers: str = "") -> Reply:
        """What comes of a request by its target."""
        return self.raw(f"{method} {target} HTTP/1.1\r\nHost: here:1\r\n{headers}\r\n".encode("latin-1"))

    def query(self, query: str) -> Reply:
        """What comes of a request for records."""
        return self.get(f"{QUERY}?{query}")

    def post(self, body: bytes, target: str = QUERY, length: Optional[object] = None) -> Reply:
        """What comes of a POST."""
        size = len(body) if length is None else length
        head = f"POST {target} HTTP/1.1\r\nHost: here:1\r\nContent-Length: {size}\r\n\r\n"
        return self.raw(head.encode("latin-1") + body)

    def memory(self) -> int:
        """The most memory that it had, in KiB."""
        text = Path(f"/proc/{self.process.pid}/status").read_text(encoding="ascii")
        return int(re.search(r"VmHWM:\s+(\d+) kB", text)[1])

    def children(self) -> list[int]:
        """The processes that it has begun."""
        found = []
        for path in Path("/proc").glob("[0-9]*/stat"):
            with contextlib.suppress(OSError):
                fields = path.read_text(encoding="latin-1").rpartition(")")[2].split()
                if int(fields[1]) == self.process.pid and fields[0] != "Z":
                    found.append(int(path.parent.name))
        return found

    def children_come(self, are_there: bool, limit: float = 20) -> bool:
        """Whether it has some soon, or none."""
        until = time.monotonic() + limit
        while time.monotonic() < until:
            if bool(self.children()) == are_there:
                return True
            time.sleep(0.05)
        return False

    def opened(self) -> list[str]:
        """What it has opened since this was called last."""
        lines = self.log.read_text(encoding="utf-8", errors="surrogateescape").splitlines() if self.log else []
        if self.log:
            os.truncate(self.log, 0)
        return lines


def all_of(connection: socket.socket) -> bytes:
    """All that comes."""
    parts = []
    with contextlib.suppress(ConnectionError):
        while part := connection.recv(2**16):
            parts.append(part)
    return b"".join(parts)


def reply_in(content: bytes) -> Reply:
    """A reply by its bytes; one that a server announced that it goes on aside."""
    head, _, body = content.partition(b"\r\n\r\n")
    if head.startswith(b"HTTP/1.1 100"):
        head, _, body = body.partition(b"\r\n\r\n")
    first, *lines = head.decode("latin-1").split("\r\n")
    found = re.match(r"HTTP/1\.[01] (\d{3}) ", first)
    pairs = (line.partition(":") for line in lines)
    return Reply(int(found[1]) if found else 0, {name.lower(): value.strip() for name, _, value in pairs}, body)


@contextlib.contextmanager
def serving(root: Path, *words: str, log: Optional[Path] = None, program: Path = PROGRAM,
            env: Mapping[str, str] = {}) -> Iterator[Service]:
    """A service over a tree, of which what it opens is noted in a file."""
    call = [str(TOOLS / "fdsnws"), "--port", "0", *words, str(root)]
    first = [sys.executable, "-c", WATCH, str(log)] if log else [sys.executable]
    errors = open(root.parent / f"{root.name}.errors", "wb")
    process = subprocess.Popen([*first, *call], stdin=subprocess.DEVNULL, stdout=subprocess.PIPE, stderr=errors,
                               env={**os.environ, "MSEED": str(program), **env})
    try:
        line = process.stdout.readline().decode()
        found = re.fullmatch(r"http://127\.0\.0\.1:(\d+)/\n", line)
        if not found:
            raise RuntimeError(f"fdsnws said {line!r}")
        yield Service(process, int(found[1]), log)
    finally:
        process.kill()
        process.wait(LIMIT)
        process.stdout.close()
        errors.close()


def errors_of(root: Path) -> str:
    """What the last service over a tree has reported."""
    return (root.parent / f"{root.name}.errors").read_text(encoding="utf-8", errors="replace")


def lines_as_body(lines: Sequence[str]) -> bytes:
    """The body of a POST."""
    return "".join(f"{line}\n" for line in lines).encode()
