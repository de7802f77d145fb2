"""Compares what the package selects, and what it reads of a selection, with the second program of tests/models, over
archives and windows at random.

    library_selections.py SEED ARCHIVES

Prints what differs, and at last how many selections were compared.
"""

import sys
import warnings
from pathlib import Path
from random import Random
from typing import Any, Callable, Dict, List, Tuple

sys.path.insert(0, str(Path(__file__).resolve().parents[1]))

import mseed
from library_archives import cut_on
from models.auditing import name_of
from models.selecting import Selection, select
from models.windows import archive_for, selection_for

WINDOWS = 8


def selected(archive: bytes, asked: Selection) -> Tuple[bytes, List[str]]:
    """What the package selects, and what it reports beside, in the words of the program."""
    with warnings.catch_warnings(record=True) as reported:
        warnings.simplefilter("always")
        try:
            out = mseed.select(archive, channels=asked.channels, start=asked.start, end=asked.end)
        except mseed.RecordError as error:
            return b"", [f"mseed: fault at {error.offset} {error.reason}"]
    return out, [f"mseed: {one.message}" for one in reported]


def wanted(archive: bytes, asked: Selection) -> Tuple[bytes, List[str]]:
    """The same by the second program. Where the archive has a fault, the package reports that alone."""
    out, errors, status = select(archive, asked)
    lines = errors.decode("ascii").splitlines()
    return (out, lines) if status == 0 else (b"", lines[-1:])


def quiet(call: Callable[..., Any], *values: Any, asked: Selection, **more: Any) -> Any:
    """What a call returns, or the place of what it raises, without what it warns of."""
    with warnings.catch_warnings():
        warnings.simplefilter("ignore")
        try:
            return call(*values, channels=asked.channels, start=asked.start, end=asked.end, **more)
        except mseed.RecordError as error:
            return place_of(error)


def place_of(error: mseed.RecordError) -> Tuple[Any, ...]:
    """What is said of a record or of bytes that are left out."""
    return error.number, error.offset, error.reason, error.name


def shown(traces: List[mseed.Trace]) -> List[Tuple[Any, ...]]:
    """What is said of traces."""
    return [(one.key, one.first_record, one.start_ns, one.factor, one.multiplier, one.samples.tolist())
            for one in traces]


def in_pieces(archive: bytes, asked: Selection, most: int) -> Tuple[List[Tuple[Any, ...]], List[Tuple[Any, ...]]]:
    """The traces of an archive by its pieces, by channel and each channel's in order, and what is left out."""
    found: Dict[bytes, List[List[Any]]] = {}
    pieces = quiet(mseed.iterate, archive, asked=asked, samples=most, skip=True)
    with warnings.catch_warnings():
        warnings.simplefilter("ignore")
        for one in pieces:
            if one.index == 0:
                said = [one.key, one.first_record, one.start_ns, one.factor, one.multiplier, []]
                found.setdefault(one.key, []).append(said)
            found[one.key][-1][-1] += one.samples.tolist()
    return ([tuple(said) for key in sorted(found) for said in found[key]],
            sorted(map(place_of, pieces.skipped)))


def reads_as(archive: bytes, asked: Selection, source: Random) -> bool:
    """Whether what is read of the records that are asked for is what is read of them alone; with `skip` around what is
    no record, and without it up to what is left out first."""
    records, holes = cut_on(archive)
    whole, before = b"".join(record.bytes for _, record in records), select(archive, asked)[0]
    wanted, begun = (mseed.read(some, skip=True) for some in (select(whole, asked)[0], before))
    mseed._windows.AT_ONCE = mseed._selecting.AT_ONCE = source.choice([64, 200, 1000, 1 << 21])
    came = quiet(mseed.read, archive, asked=asked, skip=True)
    left_out = sorted([*((*hole[:3], "") for hole in holes), *map(place_of, wanted.skipped)])
    is_same = (shown(came), sorted(map(place_of, came.skipped))) == (shown(wanted), left_out)
    by_channel = sorted(shown(wanted), key=lambda said: said[0])
    is_same &= in_pieces(archive, asked, source.choice([1, 3, 10**6])) == (by_channel, left_out)
    first = [*map(place_of, begun.skipped), *((*hole[:3], "") for hole in holes)][:1]
    stopped = quiet(mseed.read, archive, asked=asked)
    return is_same and (stopped == first[0] if first else shown(stopped) == shown(wanted))


def main() -> None:
    """Over so many archives, some windows each."""
    source, archives, count = Random(int(sys.argv[1])), int(sys.argv[2]), 0
    for number in range(archives):
        archive = archive_for(source)
        for _ in range(WINDOWS):
            asked = selection_for(source, archive)
            if not asked.is_good():
                continue
            count += 1
            if selected(archive, asked) != wanted(archive, asked):
                print(f"archive {number}: {asked}")
            if asked.words() and not reads_as(archive, asked, source):
                print(f"archive {number}: {asked} is read otherwise")
        for trace in mseed.read(archive, skip=True):
            same = [one.key for one in mseed.read(archive, skip=True, channels=trace.id)]
            if trace.key not in same or trace.name != name_of(trace.key):
                print(f"archive {number}: {trace.id} isn't taken")
    print(f"{count} selections")


if __name__ == "__main__":
    main()
