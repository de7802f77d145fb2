"""Archives at random that are cut between records, and others that end by faults, one after another: their parts,
joined in order and by way of other joint parts, give what an audit gives of the whole."""

from __future__ import annotations

import re
from collections import Counter
from concurrent.futures import ProcessPoolExecutor
from random import Random
from typing import Callable, Iterable, Sequence

from driver.batches import Batch
from driver.rows import Cases, Fact, Result, holds
from models.parts import join
from rows.parts import MOST_PIECES, at_random, in_pieces

SEED = 20260315
COUNT = 2000
LISTS = 400

BEGIN = b"mseed part 1\n"
COUNTS = re.compile(rb"^records (\d+) bytes (\d+)$", re.MULTILINE)
FAULT = re.compile(rb"^fault at .*\n", re.MULTILINE)
FINDING = re.compile(rb"^(\d+) (\S+) record (\d+) ", re.MULTILINE)

Run = Callable[[str, bytes], Result]
# What was seen of a seed, and of which kinds it is.
Seen = tuple[list[Fact], list[str]]


def runner(batch: Batch) -> Run:
    """Runs the program with these arguments."""
    return lambda words, input: batch.run(words.split(), input)


def counts_of(part: bytes) -> tuple[int, int]:
    """The records and the bytes of a part."""
    records, bytes = map(int, COUNTS.search(part).groups())
    return records, bytes


def gone_up(lines: bytes, records: int, bytes: int) -> list[bytes]:
    """The lines of findings after so many records and bytes."""
    def risen(line: re.Match[bytes]) -> bytes:
        return b"%d %s record %d " % (int(line[1]) + bytes, line[2], int(line[3]) + records)

    return FINDING.sub(risen, lines).splitlines(keepends=True)


def by_offset(line: bytes) -> int:
    """The offset of a line of a finding."""
    offset = line.partition(b" ")[0]
    return int(offset) if offset.isdigit() else 0


def merged(texts: Sequence[bytes], parts: Sequence[bytes], borders: bytes) -> bytes:
    """The lines of findings before each of these parts, after the records of the parts before, and those of the
    borders, by their offsets."""
    lines, records, size = borders.splitlines(keepends=True), 0, 0
    for text, part in zip(texts, parts):
        lines += gone_up(text.removesuffix(part), records, size)
        records, size = (sum(both) for both in zip((records, size), counts_of(part)))
    return b"".join(sorted(lines, key=by_offset))


def in_groups(source: Random, parts: Sequence[bytes]) -> list[bytes]:
    """The parts one after another, in up to four groups, some of which may be empty."""
    places = sorted(source.randrange(len(parts) + 1) for _ in range(source.randrange(4)))
    return [b"".join(parts[begin:end]) for begin, end in zip([0, *places], [*places, len(parts)])]


def cut_archive(seed: int) -> Seen:
    """An archive in pieces, and whole."""
    source = Random(seed)
    archive = at_random(source)
    pieces = in_pieces(source, archive)
    with Batch() as batch:
        run = runner(batch)
        texts = [run("audit --part --each", piece).out for piece in pieces]
        parts = [text[text.index(BEGIN) :] for text in texts]
        text, audited = b"".join(parts), run("audit", archive)
        joint = [run("join --part", group).out for group in in_groups(source, parts)]
        borders, each = join(text, each=True)[1], run("join --each", text)
        name = f"the archive of seed {seed}, in {len(pieces)} pieces"
        facts = [
            Fact(f"{name}: join", audited, run("join", text)),
            Fact(f"{name}: join --each", audited._replace(out=borders), each),
            Fact(f"{name}: the lines of the pieces and of the borders, by offset", run("audit --each", archive).out,
                 merged(texts, parts, each.out.removesuffix(audited.out)) + audited.out),
            Fact(f"{name}: join, by way of {len(joint)} joint parts", (audited, run("audit --part", archive)),
                 (run("join", b"".join(joint)), run("join --part", b"".join(joint)))),
        ]
    kinds = {f"status {audited.status}": True, "a border with a finding": len(borders) > len(audited.out),
             "a piece with a finding": texts != parts, "all pieces": len(pieces) == MOST_PIECES}
    return facts, [kind for kind, is_so in kinds.items() if is_so]


def with_faults(text: bytes, faults: int) -> bytes:
    """The text of an audit after so many faults."""
    return text + (b"faults %d\n" % faults if faults else b"")


def past(run: Run, source: Random, name: str, archives: Sequence[bytes], parts: Sequence[bytes]) -> list[Fact]:
    """With `--past-faults`: an audit of the records before each fault, and the number of faults, also where the parts
    are joined by way of other joint parts."""
    sound = b"".join(archive[: counts_of(part)[1]] for archive, part in zip(archives, parts))
    found = [(number, FAULT.search(part)) for number, part in enumerate(parts, 1)]
    reported = b"".join(b"mseed: part %d %s" % (number, fault[0]) for number, fault in found if fault)
    audited, faults = run("audit", sound), reported.count(b"\n")
    wanted = Result(2 if faults else audited.status, with_faults(audited.out, faults), b"")
    joint = b"".join(run("join --past-faults --part", group).out for group in in_groups(source, parts))
    return [Fact(f"{name}: join --past-faults", wanted._replace(err=reported),
                 run("join --past-faults", b"".join(parts))),
            *(Fact(f"{name}: {words}, by way of joint parts", wanted, run(words, joint))
              for words in ("join", "join --past-faults"))]


def faulty_archives(seed: int) -> Seen:
    """Archives of which some end by a fault: the joint audit is that of the archives up to the first of these, and with
    the options it is what the second program says."""
    source, name = Random(seed), f"the archives of seed {seed}"
    archives = [at_random(source) for _ in range(source.randrange(2, 7))]
    with Batch() as batch:
        run = runner(batch)
        parts = [run("audit --part", archive).out for archive in archives]
        are_faulty = [bool(FAULT.search(part)) for part in parts]
        end = are_faulty.index(True) + 1 if any(are_faulty) else len(parts)
        text = b"".join(parts)
        facts = [Fact(f"{name}: join", run("audit", b"".join(archives[:end])), run("join", text)),
                 *past(run, source, name, archives, parts)]
        for words in ("--part", "--past-faults --part"):
            wanted = Result(*join(text, "--part" in words, past_faults="--past-faults" in words))
            for more in ("", f" --expect {len(parts)}"):
                facts.append(Fact(f"{name}: join {words}{more}", wanted, run(f"join {words}{more}", text)))
    kinds = {"a fault in the middle": end < len(parts), "several faults": sum(are_faulty) > 1,
             "no fault": not any(are_faulty)}
    return facts, [kind for kind, is_so in kinds.items() if is_so]


ARCHIVE_KINDS = ["status 0", "status 1", "status 2", "a border with a finding", "a piece with a finding", "all pieces"]
LIST_KINDS = ["a fault in the middle", "several faults", "no fault"]


def of_seeds(seen: Iterable[Seen], what: str, kinds: Sequence[str], count: int) -> Cases:
    """What was seen of each seed; and each of the kinds has come often enough."""
    found: Counter[str] = Counter()
    for facts, kinds_of in seen:
        yield from facts
        found.update(kinds_of)
    yield holds(f"the {what} are of all kinds", all(found[kind] > count // 20 for kind in kinds), found)


def rows() -> Cases:
    """All of them, by two processes."""
    with ProcessPoolExecutor(2) as pool:
        seen = pool.map(cut_archive, range(SEED, SEED + COUNT), chunksize=20)
        yield from of_seeds(seen, "archives", ARCHIVE_KINDS, COUNT)
        seen = pool.map(faulty_archives, range(SEED + COUNT, SEED + COUNT + LISTS), chunksize=20)
        yield from of_seeds(seen, "lists", LIST_KINDS, LISTS)
