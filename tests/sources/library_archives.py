"""Compares the package with the program, and with the second programs of tests/models, over archives at random.

    library_archives.py SEED ARCHIVES SERIES

Prints what differs, and at last how many archives, traces and packings were compared.
"""

import io
import sys
from pathlib import Path
from random import Random
from typing import Any, Dict, List, Tuple

sys.path.insert(0, str(Path(__file__).resolve().parents[1]))

import mseed
from driver.batches import Batch
from models.auditing import Record, channels_of, findings, record_of, scan, time_of
from models.packing import Series, packed
from models.series import series_for
from mseed._auditing import BORDERS, audited
from mseed._library import Progress, Row
from mseed._records import rows_into
from rows.damaged_archives import damaged

TIMES = ["", "year", "day", "hour", "minute", "second", "fraction"]


def differs(what: str, archive: bytes, expected: Any, came: Any) -> None:
    """Prints a difference."""
    print(f"{what} of {archive.hex()[:200]}.. ({len(archive)} bytes)")
    print(f"  expected {expected!r:.600}\n  came     {came!r:.600}")


class Expected:
    """A trace: its key, and of each sample its value, the number of its record, and its time by it; and the factor and
    the multiplier of that record."""

    def __init__(self, key: bytes):
        self.key, self.values = key, []
        self.places: List[Tuple[int, int, int, int]] = []

    def add(self, number: int, record: Record) -> None:
        """Adds the samples of a record."""
        num, den = record.rate()
        for index, value in enumerate(record.read()):
            self.values.append(value)
            start = record.start() * 1000 + index * den * 10**9 // num
            self.places.append((number, start, record.factor, record.multiplier))

    def piece(self, begin: int, end: int) -> Tuple[Any, ...]:
        """What is said of some of its samples."""
        return (self.key, *self.places[begin], self.values[begin:end])


def cut_on(archive: bytes) -> Tuple[List[Tuple[int, Record]], List[Tuple[int, int, str, int]]]:
    """The records with their offsets, and the bytes that begin none, each with the number of the next record, their
    offset, why, and how many they are: after them reading goes on at the next multiple of 64 that a record begins."""
    records, holes, at, hole = [], [], 0, None
    while at < len(archive):
        answer, value = scan(archive[at : at + 2**20 + 1])
        if answer == "record":
            if hole is not None:
                holes.append((*hole, at - hole[1]))
            hole = None
            records.append((at, record_of(archive[at : at + value])))
            at += value
            continue
        if hole is None:
            hole = (len(records) + 1, at, value if answer == "not" else f"truncated {len(archive) - at}")
        at = (at // 64 + 1) * 64
    if hole is not None:
        holes.append((*hole, len(archive) - hole[1]))
    return records, holes


def expected_traces(archive: bytes) -> Tuple[List[Expected], List[Tuple[int, int, str, int]]]:
    """The traces of an archive, and what is left out, by the second program."""
    records, skipped = cut_on(archive)
    found = {number: why for channel in channels_of(records).values() for number, _, why in findings(channel)}
    traces: List[Expected] = []
    going: Dict[bytes, Expected] = {}
    for number, (offset, record) in enumerate(records, 1):
        if record.count == 0:
            continue
        why = found.get(number)
        if why and why.split(" ")[0] not in BORDERS:
            going.pop(record.key, None)
            skipped.append((number, offset, why, len(record.bytes)))
            continue
        if why or record.key not in going:
            going[record.key] = Expected(record.key)
            traces.append(going[record.key])
        going[record.key].add(number, record)
    return traces, sorted(skipped, key=lambda left_out: left_out[1])


def left_out_of(errors: List[mseed.RecordError]) -> List[Tuple[int, int, str, int]]:
    """What the package says of it."""
    return [(error.number, error.offset, error.reason, error.length) for error in errors]


def compare_pieces(archive: bytes, source: Random) -> None:
    """Compares the pieces of the traces, of each channel in their order."""
    traces, skipped = expected_traces(archive)
    most = source.choice([1, 3, 100, 10**6])
    expected: Dict[bytes, List[Tuple]] = {}
    for trace in traces:
        size = len(trace.values)
        expected.setdefault(trace.key, []).extend(
            (*trace.piece(at, min(at + most, size)), at, at + most < size) for at in range(0, size, most))
    came: Dict[bytes, List[Tuple]] = {}
    pieces = mseed.iterate(io.BytesIO(archive), samples=most, skip=True)
    for p in pieces:
        came.setdefault(p.key, []).append((p.key, p.first_record, p.start_ns, p.factor, p.multiplier,
                                           p.samples.tolist(), p.index, p.goes_on))
    if came != expected or left_out_of(pieces.skipped) != skipped:
        differs(f"pieces of {most}", archive, (expected, skipped), (came, left_out_of(pieces.skipped)))


def shown(row: Row) -> str:
    """The beginning of the line of `mseed show` for a record."""
    key = bytes(row.key)
    name = "_".join("".join(chr(b) if 33 <= b <= 126 else "?" for b in code.rstrip(b" \0"))
                    for code in (key[:2], key[2:7], key[7:9], key[9:]))
    start = f"fault {TIMES[row.time]}" if row.time else time_of(row.start)
    rate = f"{row.num}/{row.den}" if row.den else "none"
    return f"{row.offset} {name} {chr(row.quality)} length {row.length} samples {row.samples} start {start} " \
        f"rate {rate} encoding {row.encoding} "


def compare(archive: bytes, batch: Batch) -> int:
    """Compares what is reported of an archive; how many traces it has."""
    for call, words in (("mseed_audit", ["audit"]), ("mseed_audit_each", ["audit", "--each"]),
                        ("mseed_part", ["audit", "--part"])):
        run = batch.run(words, archive)
        text, status, _ = audited(call, archive)
        if (run.out.decode(), run.status) != (text, status):
            differs(call, archive, (run.out, run.status), (text, status))
    lines = batch.run(["show"], archive).out.decode().splitlines()
    rows, progress = (Row * (len(archive) // 128 + 1))(), Progress()
    rows_into(rows, archive, len(archive), 0, progress)
    heads = [shown(rows[index]) for index in range(progress.rows)]
    if f"records {len(heads)}" not in lines or not all(line.startswith(head) for head, line in zip(heads, lines)):
        differs("rows", archive, lines, heads)
    traces, skipped = expected_traces(archive)
    expected = [trace.piece(0, len(trace.values)) for trace in traces]
    came = mseed.read(archive, skip=True)
    values = [(t.key, t.first_record, t.start_ns, t.factor, t.multiplier, t.samples.tolist()) for t in came]
    if values != expected or left_out_of(came.skipped) != skipped:
        differs("traces", archive, (expected, skipped), (values, left_out_of(came.skipped)))
    try:
        mseed.read(archive)
        first = []
    except mseed.RecordError as error:
        first = left_out_of([error])
    if first != skipped[:1]:
        differs("the error", archive, skipped[:1], first)
    return len(values)


def compare_packing(source: Random) -> None:
    """Packs a series, and compares the records with those of the second program."""
    encoding, exponent = source.choice([1, 3, 10, 11]), source.randrange(7, 13)
    series = series_for(source, b"STA  00BHZXX", exponent, encoding)
    series = Series(series.codes, series.start, series.factor, series.multiplier, series.samples, series.steps[:1])
    key = series.codes[10:12] + series.codes[:5] + series.codes[5:7] + series.codes[7:10]
    trace = mseed.Trace("XX", "STA", "00", "BHZ", series.start * 1000, series.factor, series.multiplier,
                        series.samples, 0, key)
    names = {1: "int16", 3: "int32", 10: "steim1", 11: "steim2"}
    num, den = series.rate()
    if num > 500_000 * den:
        return
    records = b"".join(packed(series, exponent, encoding))
    came = mseed.pack(trace, length=2**exponent, encoding=names[encoding],
                      leap=series.steps[0] if series.steps else None)
    if came != records:
        differs("packing", records, records, came)


def main() -> None:
    """Compares so many of each."""
    seed, archives, series = (int(word) for word in sys.argv[1:4])
    source, traces = Random(seed), 0
    with Batch() as batch:
        for _ in range(archives):
            archive = damaged(source)
            # As if memory were small, too.
            mseed._windows.AT_ONCE = source.choice([64, 200, 1000, 1 << 21])
            traces += compare(archive, batch)
            compare_pieces(archive, source)
    for _ in range(series):
        compare_packing(source)
    print(f"{archives} archives {series} packings")
    if not traces > archives // 2:
        print(f"{traces} traces are too few")


if __name__ == "__main__":
    main()
