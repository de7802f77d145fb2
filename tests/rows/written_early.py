"""What is on standard output while the input is still open: of what is due, at most 65,535 bytes wait to be written,
whichever command gathers them. The records of the input lie an hour before and after one another by turns, so that each
has a finding; between two parts of an audit there is one too."""

from __future__ import annotations

import os
import select
import subprocess
import threading
from typing import Sequence

from driver.program import LIMIT, PROGRAM
from driver.records import record
from driver.rows import Cases, holds
from models.parts import audit_part

BHZ = "XX_STA__BHZ"
SIZE, COUNT = 128, 4000
# At most so many bytes wait.
MOST = 65535
# The seconds in which what is due has to come.
LONG = 30
HOUR = 3600 * 10**6
PAIR = record() + record(hour=1)
ARCHIVE = PAIR * (COUNT // 2)


def finding(index: int) -> str:
    """The line of a record's finding."""
    found = f"gap {HOUR - 800000}" if index % 2 else f"overlap {HOUR + 800000}"
    return f"{SIZE * index} {BHZ} record {index + 1} start 2024-01-01T0{index % 2}:00:00.000000 {found}\n"


def listed(index: int) -> str:
    """The line of a record in a listing."""
    return (f"{SIZE * index} {BHZ} D length {SIZE} samples 16 start 2024-01-01T0{index % 2}:00:00.000000 rate 20/1 "
            "encoding 3 big\n")


def comes(name: str, words: Sequence[str], input: bytes, due: bytes) -> Cases:
    """Gives a command an input that stays open, and looks at what comes of it."""
    with subprocess.Popen([str(PROGRAM), *words], stdin=subprocess.PIPE, stdout=subprocess.PIPE,
                          stderr=subprocess.PIPE, bufsize=0) as run:
        feeding = threading.Thread(target=run.stdin.write, args=(input,), daemon=True)
        feeding.start()
        came = b""
        while len(came) < len(due) - MOST and select.select([run.stdout], [], [], LONG)[0]:
            more = os.read(run.stdout.fileno(), 1 << 20)
            if not more:
                break
            came += more
        yield holds(f"{name}: all but {MOST} bytes are written while the input is open", len(came) >= len(due) - MOST,
                    f"{len(came)} of {len(due)} bytes")
        yield holds(f"{name}: what is written is the beginning of what is due", due.startswith(came), came[-200:])
        feeding.join(LIMIT)
        run.communicate(timeout=LIMIT)


def rows() -> Cases:
    """Each command that writes before its input has ended."""
    due = "".join(map(finding, range(1, COUNT))).encode()
    yield from comes("audit --each", ["audit", "--each"], ARCHIVE, due)
    yield from comes("show", ["show"], ARCHIVE, "".join(map(listed, range(COUNT))).encode())
    yield from comes("select", ["select"], ARCHIVE, ARCHIVE)
    parts = b"".join(audit_part(record(hour=index % 2))[0] for index in range(COUNT))
    yield from comes("join --each", ["join", "--each"], parts, due)
