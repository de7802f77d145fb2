"""A hundred words of Steim frames and the differences that they spell, by the tables of the SEED manual's appendix B: a
word is written as 32 binary digits and cut into fields from the left. They are the rows of a test of mseed_steim.

`python3 -m models.steim_words`, in the folder tests, prints them.
"""

from __future__ import annotations

import random
import re
from typing import Iterator, Optional

GROUPS = {
    ("One", 1): {None: (0, 8, 4)},
    ("One", 2): {None: (0, 16, 2)},
    ("One", 3): {None: (0, 32, 1)},
    ("Two", 1): {None: (0, 8, 4)},
    ("Two", 2): {"01": (2, 30, 1), "10": (2, 15, 2), "11": (2, 10, 3)},
    ("Two", 3): {"00": (2, 6, 5), "01": (2, 5, 6), "10": (4, 4, 7)},
}


def number(digits: str) -> int:
    """A number of binary digits, of which the first is its sign."""
    return int(digits, 2) - (2 ** len(digits) if digits[0] == "1" else 0)


def differences(scheme: str, code: int, word: int) -> Optional[list[int]]:
    """What a word spells under a code; nothing where it means nothing."""
    if code == 0:
        return []
    digits = format(word, "032b")
    rows = GROUPS[scheme, code]
    row = rows.get(None) or rows.get(digits[:2])
    if row is None:
        return None
    skipped, width, count = row
    return [number(digits[skipped + i * width : skipped + (i + 1) * width]) for i in range(count)]


STEIM_2 = [("Two", 2), ("Two", 3), ("Two", 3), ("Two", 2), ("Two", 1)]


def words() -> Iterator[tuple[str, int, int]]:
    """Schemes, codes and words at random."""
    source = random.Random(20240101)
    kinds = [(s, c) for s in ("One", "Two") for c in range(4)]
    for i in range(100):
        scheme, code = STEIM_2[i // 2 % 5] if i % 2 else kinds[i // 2 % 8]
        word = source.getrandbits(32)
        if i % 7 == 0:
            word &= 0xC7FF_FFFF
        if i % 11 == 0:
            word = (word & 0xC000_0000) | 0x2000_0000
        yield scheme, code, word


def row(scheme: str, code: int, word: int) -> str:
    """A row of the test: the differences, or none of a bad word."""
    found = differences(scheme, code, word)
    spelled = "None" if found is None else f"Some(&[{', '.join(map(str, found))}])"
    return f"(Scheme::{scheme}, {code}, 0x{word:08X}, {spelled})"


def plain(text: str) -> str:
    """The text without what a formatter may change."""
    return re.sub(r",(?=[\])])", "", re.sub(r"[\s_]+", "", text)).lower()


def rows() -> list[str]:
    """The rows of the test."""
    return [row(*word) for word in words()]


if __name__ == "__main__":
    print("\n".join(f"    {one}," for one in rows()))
