"""What `select` writes is read by libmseed: of each record that is asked for the channel, start, rate and samples that it
reads of the whole archive, and of no other."""

from __future__ import annotations

import random
import subprocess
import tempfile
from pathlib import Path
from typing import Optional

from driver.helpers import built
from driver.rows import Cases, Fact, Row, Skipped, holds
from models.auditing import cut
from models.selecting import Selection, select
from models.stretch_archives import archive_at_random
from models.windows import bounds_near, in_range, word_of
from rows.interop import LIBMSEED, is_installed

ARCHIVES = 200


def lines_of(program: Path, archive: bytes, path: Path) -> Optional[list[str]]:
    """A line for each record with samples, as libmseed reads it; nothing where it can't read all of them."""
    path.write_bytes(archive)
    run = subprocess.run([str(program), str(path)], stdout=subprocess.PIPE, stderr=subprocess.DEVNULL, text=True,
                         timeout=60, check=False)
    return run.stdout.splitlines() if run.returncode == 0 else None


def rows() -> Cases:
    """Archives at random, each by one window."""
    program = built("samples_by_libmseed.c", "samples_by_libmseed", ["-Wall", "-Wextra", "-lmseed"]) \
        if is_installed() else None
    if program is None:
        yield Skipped("records that are selected, read by libmseed", LIBMSEED)
        return
    there = Row("select of nothing", b"", ["select"], 0)
    yield there
    if there.run().status != 0:
        return
    source, tried, parted = random.Random(20240516), 0, 0
    with tempfile.TemporaryDirectory() as folder:
        path = Path(folder) / "archive.mseed"
        for number in range(2 * ARCHIVES):
            archive = archive_at_random(source)
            records = [record for _, record in cut(archive)[0]]
            whole = lines_of(program, archive, path)
            if not whole or len(whole) != sum(record.count > 0 for record in records):
                continue
            first, last = sorted(in_range(bounds_near(source, records)) for _ in range(2))
            asked = Selection("*_*_*_*Z,*_*_*_*E", word_of(source, first), word_of(source, last + 1))
            written = [record for record in records if record.count]
            wanted = [line for record, line in zip(written, whole) if asked.asks_for(record)]
            came = Row("", archive, ["select", *asked.words()], 0).run()
            read = lines_of(program, came.out, path) if came.out else []
            yield Fact(f"archive {number}: {' '.join(asked.words())}", (select(archive, asked)[2], wanted),
                       (came.status, read))
            tried, parted = tried + 1, parted + (0 < len(wanted) < len(whole))
    yield holds("enough archives are read, and windows part them", tried >= ARCHIVES // 2 and parted >= tried // 4,
                (tried, parted))
