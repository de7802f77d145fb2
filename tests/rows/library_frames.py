"""The library reads Steim frames as their words spell: frames whose words are all of one code but for one at most, and
mixed ones, of records that end at any difference and begin near the limits of 32 bits or far from them. What they spell
is taken from the table of models/steim_words.py."""

from __future__ import annotations

import hashlib
import os
import random
import struct
import tempfile
from pathlib import Path

from driver.library import PYTHON, WANTS, library, python
from driver.records import record
from driver.rows import Cases, Fact, Skipped
from models.steim_words import differences

RECORDS = 2000
# By how many bits codes are shifted in a frame's first word.
SHIFTS = range(28, -2, -2)
# Codes of a frame's words: all 1, all 2, all 3, and mixtures.
KINDS = [(1,), (2,), (3,), (1, 2), (1, 3), (1, 2, 3), (0, 1, 2, 3)]
ENCODINGS = {"One": 10, "Two": 11}
FIRSTS = [0, 2**31 - 1, -(2**31), 2**31 - 5000, 5000 - 2**31, 2**31 - 2**20, 2**20 - 2**31, 123456]

READ = """
import ctypes, hashlib, sys
from mseed._library import LIBRARY, Progress, Row
data = open(sys.argv[1], "rb").read()
rows, samples, progress = (Row * (len(data) // 512 + 1))(), (ctypes.c_int32 * (2 * len(data)))(), Progress()
LIBRARY.mseed_read(data, len(data), 0, rows, len(rows), samples, len(samples), ctypes.byref(progress))
print([row.code for row in rows[:progress.rows]].count(0), progress.rows, progress.filled,
      hashlib.sha256(bytes(samples)[: 4 * progress.filled]).hexdigest())
"""


def word_of(source: random.Random, scheme: str, code: int) -> int:
    """A word that spells something under its code; one in four is of the least or the greatest differences."""
    while True:
        word = source.choice([source.getrandbits(32)] * 3 + [0x80808080, 0x7F7F7F7F, 0xA0000000, 0x9FFF7FFF])
        if differences(scheme, code, word) is not None:
            return word


def frames_of(source: random.Random, scheme: str) -> tuple[list[list[int]], list[int]]:
    """Seven frames, and the differences that their words spell."""
    frames, spelled = [], []
    kind = source.choice(KINDS)
    for frame in range(7):
        words = [0]
        other = source.randrange(1, 40)
        for place, shift in enumerate(SHIFTS, 1):
            if frame == 0 and place < 3:
                words.append(0)
                continue
            code = source.choice(kind) if place != other else source.randrange(4)
            word = word_of(source, scheme, code)
            spelled += differences(scheme, code, word) or []
            words[0] |= code << shift
            words.append(word)
        frames.append(words)
    return frames, spelled


def one(source: random.Random) -> tuple[bytes, list[int]]:
    """A record, and its samples: none where one of them leaves 32 bits."""
    scheme = source.choice(list(ENCODINGS))
    frames, spelled = frames_of(source, scheme)
    count = source.choice([len(spelled), source.randrange(1, len(spelled) + 1)])
    samples = [source.choice(FIRSTS)]
    for difference in spelled[1:count]:
        samples.append(samples[-1] + difference)
    fits = all(-(2**31) <= sample < 2**31 for sample in samples)
    frames[0][1], frames[0][2] = samples[0] % 2**32, samples[-1] % 2**32
    data = b"".join(struct.pack(">16I", *words) for words in frames)
    made = record(samples=len(samples), encoding=ENCODINGS[scheme], exponent=9, frames=7, data=data)
    return made, samples if fits else []


def rows() -> Cases:
    """All of them."""
    built = library()
    if built is None or not os.path.exists(PYTHON):
        yield Skipped("Steim frames", WANTS)
        return
    source = random.Random(20260201)
    made = [one(source) for _ in range(RECORDS)]
    samples = [sample for _, some in made for sample in some]
    told = hashlib.sha256(struct.pack(f"<{len(samples)}i", *samples)).hexdigest()
    expected = f"{sum(1 for _, some in made if some)} {RECORDS} {len(samples)} {told}\n"
    with tempfile.TemporaryDirectory() as folder:
        path = Path(folder) / "frames.mseed"
        path.write_bytes(b"".join(data for data, _ in made))
        ended = python(built, ["-c", READ, str(path)], numpy=False)
    yield Fact("samples of Steim frames", expected, ended.stdout.decode() + ended.stderr.decode())
