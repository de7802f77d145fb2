"""One archive, audited by several processes at once through `xargs -P` by bench/audit_by_cores.sh: what is written,
and the status, are those of one audit."""

from __future__ import annotations

import shutil
import subprocess
import tempfile
from pathlib import Path
from typing import Iterator

from driver.program import LIMIT, PROGRAM, ROOT
from driver.records import record
from driver.rows import Cases, Fact, Result, Row, Skipped

SCRIPT = ROOT / "bench" / "audit_by_cores.sh"
WANTED = ["sh", "xargs", "dd", "seq", "mktemp"]
CODES = [b"STA    BHEXX", b"STA    BHNXX", b"STA    BHZXX"]


def sound(count: int) -> list[bytes]:
    """So many records of three channels in turn, each channel continuous."""
    records = []
    for index in range(count):
        seconds, fraction = divmod(index // 3 * 8000, 10000)
        records.append(record(codes=CODES[index % 3], minute=seconds // 60, second=seconds % 60, fraction=fraction))
    return records


def archives() -> Iterator[tuple[str, bytes]]:
    """Archives of records of 128 bytes, by what they are."""
    records = sound(700)
    yield "nothing", b""
    yield "one record", records[0]
    yield "a sound one", b"".join(records)
    yield "one with gaps", b"".join(one for index, one in enumerate(records) if index % 50)
    yield "one with records out of order", b"".join(records[100:] + records[:100])
    yield "one whose last record is cut off", b"".join(records)[:-28]
    yield "one that ends in junk", b"".join(records) + b"junk" * 200
    yield "one with junk in its middle", b"".join(records[:300] + [b"junk" * 32] + records[300:])
    yield "one with silent records", b"".join(one for two in zip(records, [record(samples=0)] * 700) for one in two)


def audited(archive: Path, cores: int, pieces: int) -> Result:
    """The audit of an archive in pieces, by so many processes at once."""
    words = [str(SCRIPT), str(PROGRAM), str(archive), "128", str(cores), str(pieces)]
    run = subprocess.run(words, stdin=subprocess.DEVNULL, stdout=subprocess.PIPE, stderr=subprocess.PIPE, timeout=LIMIT,
                         check=False)
    return Result(run.returncode, run.stdout, run.stderr)


def rows() -> Cases:
    """All of them."""
    lacking = [name for name in WANTED if shutil.which(name) is None]
    if lacking:
        yield Skipped("an archive audited by several processes", lacking[0])
        return
    with tempfile.TemporaryDirectory() as folder:
        path = Path(folder) / "archive.mseed"
        for name, archive in archives():
            path.write_bytes(archive)
            whole = Row("", archive, ["audit"], 0).run()
            for cores, pieces in ((1, 1), (1, 4), (2, 2), (4, 4), (4, 33)):
                yield Fact(f"{name}, in {pieces} pieces, {cores} at once", whole, audited(path, cores, pieces))
