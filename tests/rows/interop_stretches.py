"""Archives with gaps and clocks that drift, packed anew by stretches: libmseed reads the same samples of what is written
as of what was read, each at the same time, to a quarter of its period."""

from __future__ import annotations

import random
import subprocess
import tempfile
from pathlib import Path
from typing import NamedTuple, Optional

from driver.helpers import built
from driver.rows import Cases, Fact, Row, Skipped, holds
from models.series import CODES
from models.stretch_archives import archive_at_random
from models.stretches import restretched
from rows.interop import LIBMSEED, is_installed

ARCHIVES = 200


class Sample(NamedTuple):
    """A sample, its time in microseconds, and the samples of a second of its record."""

    value: int
    time: float
    rate: float


def samples_in(program: Path, archive: bytes, path: Path) -> Optional[dict[str, list[Sample]]]:
    """The samples of each channel, in the order of its records, as libmseed reads them; nothing where it can't: it
    reads no record without samples that has no valid time."""
    path.write_bytes(archive)
    run = subprocess.run([str(program), str(path)], stdout=subprocess.PIPE, stderr=subprocess.DEVNULL, text=True,
                         timeout=60, check=False)
    if run.returncode != 0:
        return None
    found: dict[str, list[Sample]] = {}
    for line in run.stdout.splitlines():
        name, start, rate, *values = line.split()
        for place, value in enumerate(values):
            time = int(start) + place * 1e6 / float(rate)
            found.setdefault(name, []).append(Sample(int(value), time, float(rate)))
    return found


def moved(before: Sample, after: Sample) -> bool:
    """Whether a sample's time moved by more than a quarter of its period. Times are read to a microsecond, twice."""
    return abs(after.time - before.time) > 1e6 / (4 * before.rate) + 3


def difference(old: dict[str, list[Sample]], new: Optional[dict[str, list[Sample]]]) -> str:
    """What differs between the samples of an archive and those of what it is packed into."""
    if new is None:
        return "not read"
    if {name: [sample.value for sample in samples] for name, samples in old.items()} != {
            name: [sample.value for sample in samples] for name, samples in new.items()}:
        return "the samples"
    if any(moved(before, after) for name, samples in old.items() for before, after in zip(samples, new[name])):
        return "the times"
    return ""


def rows() -> Cases:
    """Archives at random that can be packed."""
    program = built("samples_by_libmseed.c", "samples_by_libmseed", ["-Wall", "-Wextra", "-lmseed"]) \
        if is_installed() else None
    if program is None:
        yield Skipped("archives that are packed by stretches, read by libmseed", LIBMSEED)
        return
    source, tried = random.Random(20240515), 0
    with tempfile.TemporaryDirectory() as folder:
        for number in range(2 * ARCHIVES):
            archive, encoding = archive_at_random(source), source.choice(list(CODES))
            exponent = source.randrange(7, 13)
            if restretched(archive, exponent, CODES[encoding])[2] != 0:
                continue
            path = Path(folder) / "archive.mseed"
            old = samples_in(program, archive, path)
            if old is None:
                continue
            tried += 1
            words = ["repack", "--stretches", "--length", str(2**exponent), "--encoding", encoding]
            packed = Row("", archive, words, 0).run()
            yield Fact(f"archive {number} by stretches into {2**exponent} bytes of {encoding}", (0, b"", ""),
                       (packed.status, packed.err, difference(old, samples_in(program, packed.out, path))))
    yield holds("enough archives can be packed", tried >= ARCHIVES, tried)
