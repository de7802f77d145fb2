"""Reads the samples of the repository, and mixtures of the records of one, from whatever an archive may be in and with
windows of few bytes, and compares the traces with those of the second program.

    library_reading.py SAMPLES FOLDER SEED MIXTURES

Prints what differs, and at last how many archives were read.
"""

import io
import os
import sys
import threading
from contextlib import contextmanager
from pathlib import Path
from random import Random
from typing import Any, Iterator, List

sys.path.insert(0, str(Path(__file__).resolve().parents[1]))

import mseed
from driver.records import at, changed
from library_archives import expected_traces, left_out_of

# Bytes of an archive that are read at once. A window may end within a record, and hold one or none.
WINDOWS = [64, 200, 700, 5000, 1 << 21]
WAYS = ["a path", "a FIFO", "a pipe", "bytes", "a bytearray", "a file in memory"]
LENGTH, RECORDS = 512, 40


@contextmanager
def written(archive: bytes, to: Any, source: Random) -> Iterator[None]:
    """Writes an archive to a path or a descriptor meanwhile, some bytes at a time."""

    def write() -> None:
        with open(to, "wb", buffering=0) as file:
            begin = 0
            while begin < len(archive):
                begin += file.write(archive[begin : begin + source.choice([1, 300, 4000, 100_000])]) or 0

    thread = threading.Thread(target=write)
    thread.start()
    yield
    thread.join()


def read(archive: bytes, way: str, folder: Path, source: Random) -> mseed._reading.Traces:
    """The traces of an archive that comes in a way."""
    path = folder / "archive.mseed"
    path.unlink(missing_ok=True)
    if way == "a path":
        path.write_bytes(archive)
        return mseed.read(path, skip=True)
    if way == "a FIFO":
        os.mkfifo(path)
        with written(archive, path, source):
            return mseed.read(path, skip=True)
    if way == "a pipe":
        end, begin = os.pipe()
        with open(end, "rb", buffering=0) as file, written(archive, begin, source):
            return mseed.read(file, skip=True)
    taken = {"bytes": bytes, "a bytearray": bytearray, "a file in memory": io.BytesIO}[way]
    return mseed.read(taken(archive), skip=True)


def mixture(records: List[bytes], source: Random) -> bytes:
    """Some records, most of them in their order: some are lost, come twice, have no samples, or a last one that isn't
    the header's, and bytes that begin no record stand between some."""
    mixed: List[bytes] = []
    first = source.randrange(len(records) - RECORDS)
    for record in records[first : first + RECORDS]:
        manner = source.randrange(20)
        if manner == 0:
            continue
        if manner == 1:
            mixed.append(record)
        if manner == 2:
            record = changed(record, [at(30, 0, 0)])
        if manner == 3:
            record = changed(record, [at(72, record[72] ^ 1)])
        if manner == 4:
            mixed.append(bytes(source.choice([64, 128, 512])))
        if manner == 5 and mixed:
            mixed[-1], record = record, mixed[-1]
        mixed.append(record)
    return b"".join(mixed)


def archives(samples: Path, source: Random, mixtures: int) -> Iterator[bytes]:
    """All of them."""
    for path in sorted(samples.glob("*.mseed")):
        yield path.read_bytes()
    network = (samples / "network.mseed").read_bytes()
    records = [network[begin : begin + LENGTH] for begin in range(0, len(network), LENGTH)]
    for _ in range(mixtures):
        yield mixture(records, source)


def main() -> None:
    """Reads each archive in each way."""
    folder, source, count = Path(sys.argv[2]), Random(int(sys.argv[3])), 0
    for number, archive in enumerate(archives(Path(sys.argv[1]), source, int(sys.argv[4]))):
        traces, skipped = expected_traces(archive)
        expected = [trace.piece(0, len(trace.values)) for trace in traces]
        for way in WAYS:
            mseed._windows.AT_ONCE = source.choice(WINDOWS)
            came = read(archive, way, folder, source)
            shown = [(t.key, t.first_record, t.start_ns, t.factor, t.multiplier, t.samples.tolist()) for t in came]
            if (shown, left_out_of(came.skipped)) != (expected, skipped):
                print(f"archive {number}, {way}, windows of {mseed._windows.AT_ONCE}: "
                      f"{len(shown)} traces for {len(expected)}, {came.skipped} for {skipped}")
            count += 1
    print(f"{count} archives")


if __name__ == "__main__":
    main()
