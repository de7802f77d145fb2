"""Parts of archives, byte for byte: of rows, and of archives at random, sound and damaged, of up to twelve channels,
that are cut into up to eight pieces, against a second program (models/parts.py)."""

from __future__ import annotations

from random import Random
from typing import Iterator

from driver.batches import Batch
from driver.program import SAMPLES
from driver.records import frame, next_record, record
from driver.rows import Cases, Fact, Result, Row, both, holds
from models.auditing import cut
from models.parts import audit_part
from models.series import interleaved, records_for, series_for
from rows.damaged_archives import harm, with_byte

SEED = 20260214
COUNT = 1000
MOST_PIECES = 8

KEY = "58585354412020202042485A"
BHZ = "XX_STA__BHZ"
FIRST, LATE = record(), record(fraction=8250, micros=1)
SILENT = record(samples=0)
START, LATER = 1704067200000000, 1704067200825001
OF_FIRST = f"{KEY} records 1 samples 16 head 1 0 {START} 20/1 tail {START} 16 20/1 none findings 0"
OF_LATE = OF_FIRST.replace(str(START), str(LATER))
OF_BOTH = (f"{KEY} records 2 samples 32 head 1 0 {START} 20/1 tail {LATER} 16 20/1 none findings 1 "
           "first 2 128 gap 25001")
# The rate whose period is the longest, 2^30 seconds, and two records of it, the second a second after the first.
SLOWEST = {"factor": -32768, "multiplier": -32768, "samples": 8590, "encoding": 1, "exponent": 15, "data": bytes(17180)}
SLOW = record(**SLOWEST) + record(second=1, **SLOWEST)
OVERLAP = "overlap 9223442268159000000"


def part(*lines: str) -> str:
    """The text of a part with these lines after its first."""
    return "".join(f"{line}\n" for line in ("mseed part 1", *lines))


def cuts(name: str, status: int, archive: bytes, *lines: str) -> Iterator[Row]:
    """The part of an archive."""
    yield from both(Row(f"the part of {name}", archive, ["audit", "--part"], status, part(*lines).encode()))


def worked() -> Cases:
    """The sample with a gap, as a whole and in two; nothing; and the longest period."""
    sample = (SAMPLES / "gap.mseed").read_bytes()
    yield from cuts("the first 128 bytes of the sample with a gap", 0, sample[:128], OF_FIRST, "records 1 bytes 128")
    yield from cuts("the rest of it", 0, sample[128:], OF_LATE, "records 1 bytes 128")
    yield from cuts("the sample with a gap", 1, sample, OF_BOTH, "records 2 bytes 256")
    found = f"128 {BHZ} record 2 start 2024-01-01T00:00:00.825001 gap 25001\n"
    for words in (["audit", "--part", "--each"], ["audit", "--each", "--part"]):
        yield Row(f"the sample with a gap, {' '.join(words)}", sample, words, 1,
                  (found + part(OF_BOTH, "records 2 bytes 256")).encode())
    yield from cuts("nothing", 0, b"", "records 0 bytes 0")
    yield Row("the part of nothing, each finding", b"", ["audit", "--part", "--each"], 0,
              part("records 0 bytes 0").encode())
    yield from cuts("records without samples", 0, SILENT + SILENT, "records 2 bytes 256")
    yield Row("the part of two records of the longest period", SLOW, ["audit", "--part"], 1, part(
        f"{KEY} records 2 samples 17180 head 1 0 {START} 1/1073741824 tail {START + 10**6} 8590 1/1073741824 none "
        f"findings 1 first 2 32768 {OVERLAP}", "records 2 bytes 65536").encode())


def of_one(head: str, tail: str, findings: str, samples: int = 16) -> str:
    """The line of a channel of one record."""
    return f"{KEY} records 1 samples {samples} head {head} tail {tail} findings {findings}"


def channels() -> Cases:
    """What a part keeps of a channel's first record and of its last one."""
    whole, one = "records 1 bytes 128", f"1 0 {START} 20/1"
    yield from cuts("a start that is no time", 1, record(day=366, year=2023),
                    of_one("none", "none", "1 first 1 0 time day"), whole)
    yield from cuts("no rate", 1, record(factor=0), of_one("none", "none", "1 first 1 0 norate"), whole)
    yield from cuts("an encoding that isn't read", 1, record(encoding=4),
                    of_one("none", f"{START} 16 20/1 none", "1 first 1 0 encoding 4"), whole)
    yield from cuts("a bad constant", 1, frame("01000000 00000005 00000007 00010000", 2),
                    of_one("none", f"{START} 2 20/1 none", "1 first 1 0 lastdiffers 6 7", 2), whole)
    for activity, flags in ((0, "none"), (16, "positive"), (32, "negative"), (48, "both")):
        yield from cuts(f"a record with activity {activity}", 0, record(activity=activity),
                        of_one(one, f"{START} 16 20/1 {flags}", "0"), whole)
    yield from cuts("a record before 1970", 0, record(year=1969, day=365, hour=23, minute=59, second=59),
                    of_one("1 0 -1000000 20/1", "-1000000 16 20/1 none", "0"), whole)
    yield from cuts("a record of 1800", 0, record(year=1900, correction=-2**31),
                    of_one("1 0 -2209203548364800 20/1", "-2209203548364800 16 20/1 none", "0"), whole)
    yield from cuts("a rate that isn't reduced", 0, record(factor=-20, multiplier=40),
                    of_one(f"1 0 {START} 40/20", f"{START} 16 40/20 none", "0"), whole)
    yield from cuts("a good record after a bad one", 1, record(encoding=4) + next_record(),
                    f"{KEY} records 2 samples 32 head none tail {START + 800000} 16 20/1 none "
                    "findings 1 first 1 0 encoding 4", "records 2 bytes 256")
    yield from cuts("a bad record after a good one", 1, FIRST + record(hour=24),
                    f"{KEY} records 2 samples 32 head {one} tail none findings 1 first 2 128 time hour",
                    "records 2 bytes 256")
    yield from cuts("two channels between records without samples, and a fault", 2,
                    SILENT + record(codes=b"STB    BHZXX") + SILENT + FIRST + FIRST[:100],
                    OF_FIRST.replace("head 1 0", "head 4 384"),
                    OF_FIRST.replace(KEY, "58585354422020202042485A").replace("head 1 0", "head 2 128"),
                    "records 4 bytes 512", "fault at 512 truncated 100")
    yield from cuts("a key of other bytes", 0, record(codes=bytes([0, 32, 10, 255, 0, 48, 0, 66, 72, 90, 35, 126])),
                    OF_FIRST.replace(KEY, "237E00200AFF00300042485A"), whole)
    yield from cuts("no record", 2, b"no record", "records 0 bytes 0", "fault at 0 truncated 9")
    yield from cuts("a record of another length", 2, FIRST + record(exponent=6),
                    OF_FIRST, whole, "fault at 128 length 6")


def records_at_random(source: Random) -> list[bytes]:
    """The records of a few channels, those of one in the order of a series, or of one series after another, some of
    them lost and others with both leap flags; and between them some that have no samples."""
    lists, is_sound = [], source.randrange(3) == 0
    for number in range(source.choice([1, 2, 3, 12])):
        some: list[bytes] = []
        for _ in range(1 if is_sound else source.choice([1, 2, 3])):
            series = series_for(source, b"STA%02d00BHZXX" % number, 7, source.choice([1, 3, 10, 11]))
            some += records_for(source, series)[: source.randrange(1, 6)]
        if not is_sound:
            some = [with_byte(one, 36, one[36] | source.choice([0, 0, 0, 48])) for one in some if source.randrange(6)]
        lists.append(some)
    records = list(interleaved(source, lists))
    for _ in range(source.choice([0, 0, 1, 3])):
        records.insert(source.randrange(len(records) + 1), SILENT)
    return records


def at_random(source: Random) -> bytes:
    """An archive, sound or damaged."""
    records = records_at_random(source)
    for _ in range(source.choice([0, 0, 1, 1, 2, 5])):
        if records and all(records):
            harm(source, records)
    archive = b"".join(records)
    return archive[: source.randrange(len(archive) + 1)] if source.randrange(8) == 0 else archive


def in_pieces(source: Random, archive: bytes) -> list[bytes]:
    """The archive, cut between records; some pieces may be empty."""
    records, end, _ = cut(archive)
    borders = [offset for offset, _ in records] + [end]
    places = sorted(source.choice(borders) for _ in range(source.randrange(MOST_PIECES)))
    return [archive[begin:end] for begin, end in zip([0, *places], [*places, len(archive)])]


def random_archives(count: int) -> Cases:
    """Archives at random, each cut in some way."""
    seen = {0: 0, 1: 0, 2: 0}
    with Batch() as batch:
        for seed in range(SEED, SEED + count):
            source, name = Random(seed), f"the archive of seed {seed}"
            archive = at_random(source)
            pieces = in_pieces(source, archive)
            seen[audit_part(archive)[1]] += 1
            for each, words in ((False, ["audit", "--part"]), (True, ["audit", "--part", "--each"])):
                wanted = [Result(status, out, b"") for out, status in (audit_part(piece, each) for piece in pieces)]
                yield Fact(f"{name}: {' '.join(words)} of {len(pieces)} pieces", wanted,
                           [batch.run(words, piece) for piece in pieces])
    yield holds("the archives are of all kinds: continuous, broken and with a fault", min(seen.values()) > count // 10,
                seen)


def rows() -> Cases:
    """All of them."""
    yield from worked()
    yield from channels()
    yield from random_archives(COUNT)
