"""Texts of parts against a second program (models/parts.py): each byte of some parts in turn changed, dropped and
doubled; and parts at random, with numbers up to the largest, that no archive has."""

from __future__ import annotations

from collections import Counter
from random import Random
from typing import Optional, Sequence

from driver.batches import Batch
from driver.rows import Cases, Fact, Result, holds
from models.parts import join
from rows.join import BHN_KEY, FIRST_INSTANT, LAST_INSTANT, LAST_KEY, NEXT, ONE, SECOND, channel, counts
from rows.join_archives import in_groups
from rows.join_lines import FAULTS, LARGEST, OPTIONS, REASONS
from rows.parts import KEY, OF_LATE, START, part

SEED = 20260415
COUNT = 2000

# Each set of options that go together.
ALL = [*OPTIONS, ["--each"], ["--each", "--past-faults"]]


def joined(text: bytes, words: Sequence[str], expect: Optional[int] = None) -> Result:
    """What the second program says of parts, with these options."""
    return Result(*join(text, "--part" in words, "--each" in words, "--past-faults" in words, expect=expect))


# Parts of which each byte is changed.
TRIED = (part(channel(BHN_KEY, head="none", tail="none", findings="1 first 1 0 time year"),
              channel(head=f"2 128 {START} 20/1", findings="2 first 1 0 lastdiffers -6 7"), counts(3, 256))
         + part(OF_LATE, ONE, "faults 2", "fault at 128 truncated 10") + NEXT).encode()
IN_PLACE = [b"", b"0", b"1", b"9", b"\n", b" ", b"-", b"A", b"a", b"\0", b"\xff", b" \n"]


def bytes_changed() -> Cases:
    """Each byte in turn is another one, or dropped, or doubled: what comes is what the second program says, which is a
    joint part or one bad line."""
    seen = {"accepted": 0, "refused": 0}
    with Batch() as batch:
        for offset in range(len(TRIED)):
            byte = TRIED[offset : offset + 1]
            for number, other in enumerate([byte * 2, bytes([byte[0] ^ 1]), bytes([byte[0] ^ 32]), *IN_PLACE]):
                if other == byte:
                    continue
                text = TRIED[:offset] + other + TRIED[offset + 1 :]
                words = ALL[(offset + number) % len(ALL)]
                wanted = joined(text, words)
                seen["refused" if b"bad part" in wanted.err else "accepted"] += 1
                yield Fact(f"{other!r} in the place of byte {offset}: join {' '.join(words)}", wanted,
                           batch.run(["join", *words], text))
    yield holds("some of them are accepted, and most refused", seen["refused"] > 5 * seen["accepted"] > 2500, seen)


KEYS = sorted(["58585354410000202042485A", BHN_KEY, KEY, LAST_KEY, "F" * 24])
RATIOS = ["20/1", "20/1", "20/1", "40/2", "1/1", "19/1", f"1/{2**30}", f"{2**30}/1", f"{2**30}/{2**30}", "100/3"]


def number_for(source: Random) -> int:
    """A number of a part, mostly a small one."""
    return source.choice([0, 1, 2, source.randrange(1000), source.randrange(10**6), source.getrandbits(40)]
                         if source.randrange(60) else [LARGEST, LARGEST - 1, LARGEST // 2, source.getrandbits(63)])


def start_for(source: Random) -> int:
    """An instant, mostly one of a few that follow one another at 20 samples a second."""
    if source.randrange(3) == 0:
        return source.choice([FIRST_INSTANT, LAST_INSTANT, 0, -1, source.randrange(FIRST_INSTANT, LAST_INSTANT)])
    return START + source.randrange(8) * 800000 + source.choice([0, 0, 25000, 25001, -25001, SECOND])


def channel_for(source: Random, key: str) -> str:
    """The line of a channel."""
    head = f"{number_for(source)} {number_for(source)} {start_for(source)} {source.choice(RATIOS)}"
    tail = (f"{start_for(source)} {source.choice([16] * 8 + [1, 65535])} {source.choice(RATIOS)} "
            f"{source.choice(['none'] * 6 + ['positive', 'negative', 'both'])}")
    findings = "0"
    if source.randrange(3) == 0:
        first = f"{number_for(source)} {number_for(source)} {source.choice(REASONS)}"
        findings = f"{max(1, number_for(source))} first {first}"
        head, tail = (source.choice(["none", end]) for end in (head, tail))
    return channel(key, number_for(source), number_for(source), head, tail, findings)


def part_for(source: Random) -> str:
    """A part; now and then with lines out of order, or one that lacks."""
    keys = sorted(source.sample(KEYS, source.randrange(5)))
    bytes = number_for(source)
    lines = [*(channel_for(source, key) for key in keys), counts(number_for(source), bytes)]
    lines += [f"faults {max(1, number_for(source))}"] if source.randrange(4) == 0 else []
    lines += [f"fault at {bytes} {source.choice(FAULTS)}"] if source.randrange(5) == 0 else []
    if source.randrange(40) == 0:
        source.shuffle(lines)
    if source.randrange(40) == 0:
        lines.pop(source.randrange(len(lines)))
    return part(*lines)


def kinds_of(each: Result) -> list[str]:
    """What came of some parts of which each border was reported."""
    if b"bad part" in each.err:
        return ["refused", "refused after a border"] if each.out else ["refused"]
    if b" parts, not " in each.err:
        return ["miscounted", "miscounted with a border"] if each.out else ["miscounted"]
    return ["accepted", "accepted with a fault"] if each.status == 2 else ["accepted"]


def at_random() -> Cases:
    """Parts at random, with three sets of the options, and by way of joint parts."""
    kinds: Counter[str] = Counter()
    with Batch() as batch:
        for seed in range(SEED, SEED + COUNT):
            source, name = Random(seed), f"the parts of seed {seed}"
            parts = [part_for(source).encode() for _ in range(source.randrange(1, 6))]
            text = b"".join(parts)
            kinds.update(kinds_of(joined(text, ["--each"])))
            for words in source.sample(ALL, 3):
                yield Fact(f"{name}: join {' '.join(words)}", joined(text, words), batch.run(["join", *words], text))
                expect = max(1, len(parts) + source.choice([-2, -1, 0, 0, 1, 10**6]))
                wanted = joined(text, words, expect)
                kinds.update(kinds_of(wanted))
                yield Fact(f"{name}: join {' '.join(words)} --expect {expect}", wanted,
                           batch.run(["join", *words, "--expect", str(expect)], text))
            groups = in_groups(source, parts)
            if not any(b"bad part" in joined(some, ["--part"]).err for some in [text, *groups]):
                kinds.update(["joined by way of joint parts"])
                joint = b"".join(batch.run(["join", "--part"], group).out for group in groups)
                for words in ([], ["--part"]):
                    yield Fact(f"{name}: join {' '.join(words)}, by way of {len(groups)} joint parts",
                               joined(text, words), batch.run(["join", *words], joint))
    yield holds("the parts are of all kinds", len(kinds) == 7 and min(kinds.values()) > COUNT // 40, kinds)


def rows() -> Cases:
    """All of them."""
    yield from bytes_changed()
    yield from at_random()
