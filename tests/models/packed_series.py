"""Made series, packed into Steim frames by the tables of the SEED manual's appendix B: each word is the first row of
the table that holds the differences that come next, from the row of the most on, and is written as 32 binary digits. A
hash of all frames of each series stands in a test of mseed_steim.

`python3 -m models.packed_series`, in the folder tests, prints the rows of that test.
"""

from __future__ import annotations

from typing import Iterator, Sequence

MODULUS = 2**64

# How many differences of how many bits, the code, and the digits in front: from the most on.
ROWS = {
    "One": [(4, 8, "01", ""), (2, 16, "10", ""), (1, 32, "11", "")],
    "Two": [
        (7, 4, "11", "1000"),
        (6, 5, "11", "01"),
        (5, 6, "11", "00"),
        (4, 8, "01", ""),
        (3, 10, "10", "11"),
        (2, 15, "10", "10"),
        (1, 30, "10", "01"),
    ],
}

# Widths of differences in bits, by the names that they have in the test.
WIDTHS = {
    "EACH": [0, 4, 5, 6, 8, 10, 15, 30],
    "NARROW": [4, 4, 4, 5, 5, 5, 6, 8],
    "WIDE": [8, 8, 10, 10, 10, 15, 15, 4],
    "LARGE": [8, 8, 8, 8, 16, 16, 8, 32],
    "LIMITS": [7, 8, 9, 15, 16, 17, 0, 32],
    "HALVES": [16, 15, 17, 15, 16, 10, 15, 29],
    **{f"[{width}; 8]": [width] * 8 for width in (0, 4, 5, 6, 8, 10, 15, 16, 29, 30, 32)},
}

# A scheme, widths, and a mask under which a random number is 0 where the width may change.
SERIES = [
    *[("Two", f"[{width}; 8]", 0) for width in (0, 4, 5, 6, 8, 10, 15, 29, 30)],
    *[("Two", "EACH", mask) for mask in (0, 3, 15, 127)],
    *[("Two", "NARROW", mask) for mask in (0, 7)],
    ("Two", "WIDE", 3),
    *[("One", f"[{width}; 8]", 0) for width in (0, 8, 16, 32)],
    ("One", "LARGE", 0),
    *[("One", "LIMITS", mask) for mask in (3, 31)],
    *[("Two", "HALVES", mask) for mask in (0, 7)],
]

LONGEST = 7056
LENGTHS = [0, 1, 2, 7, 8, 56, 57, 58, 63, 64, 65, 71, 111, 112, 113, 120, 121, 122, 127, 128, 783, 784, 785, LONGEST]
SIZES = [64, 128, 448, 4032]


def randoms(state: int) -> Iterator[int]:
    """Random numbers (splitmix64)."""
    while True:
        state = (state + 0x9E37_79B9_7F4A_7C15) % MODULUS
        mixed = (state ^ state >> 30) * 0xBF58_476D_1CE4_E5B9 % MODULUS
        mixed = (mixed ^ mixed >> 27) * 0x94D0_49BB_1331_11EB % MODULUS
        yield mixed ^ mixed >> 31


def signed(number: int, width: int) -> int:
    """The number that so many bits spell."""
    return number - (2**width if number >= 2 ** (width - 1) else 0)


def difference(width: int, random: int) -> int:
    """A difference of so many bits: often at a limit, and where 30 bits hold that, at times just after one."""
    if width == 0:
        return 0
    half, case = 2 ** (width - 1), random % 64
    if case < 2 and width < 30:
        return [half, -half - 1][case]
    if case < 30:
        return half - 1 if case < 16 else -half
    return signed(random >> 32 + 32 - width, width)


def differences(seed: int, widths: Sequence[int], mask: int) -> Iterator[int]:
    """The differences of a series."""
    source, width = randoms(seed), widths[0]
    for _ in range(LONGEST):
        chosen = next(source)
        if chosen & mask == 0:
            width = widths[chosen // 1024 % 8]
        yield difference(width, next(source))


def word(scheme: str, left: Sequence[int]) -> tuple[int, str, int]:
    """How many of the differences the fullest word takes, its code and the word."""
    for count, width, code, head in ROWS[scheme]:
        half, taken = 2 ** (width - 1), left[:count]
        if len(taken) == count and -half <= min(taken) and max(taken) < half:
            return count, code, int(head + "".join(format(one % 2**width, f"0{width}b") for one in taken), 2)
    raise ValueError("no word holds the first difference")


def frames(scheme: str, diffs: Sequence[int], size: int) -> Iterator[bytes]:
    """Frames of a size in turn until all is packed, and how many differences and words are in them, of 8 bytes each."""
    used = 0
    while True:
        packed, begun, words = bytearray(), used, 0
        for _ in range(size // 64):
            codes, data = ["00"] * 16, [0] * 16
            for index in range(1 if packed else 3, 16):
                if used < len(diffs):
                    count, codes[index], data[index] = word(scheme, diffs[used : used + 7])
                    used, words = used + count, words + 1
            data[0] = int("".join(codes), 2)
            packed += b"".join(one.to_bytes(4, "big") for one in data)
        yield bytes(packed) + (used - begun).to_bytes(8, "big") + words.to_bytes(8, "big")
        if used == len(diffs):
            return


def hashed(number: int, text: bytes) -> int:
    """The hash of some bytes after those of a hash (FNV-1a)."""
    for byte in text:
        number = (number ^ byte) * 0x100_0000_01B3 % MODULUS
    return number


def rows() -> Iterator[str]:
    """The rows of the test."""
    for seed, (scheme, widths, mask) in enumerate(SERIES):
        diffs, number = list(differences(seed, WIDTHS[widths], mask)), 0xCBF2_9CE4_8422_2325
        for length in LENGTHS:
            for size in SIZES:
                for text in frames(scheme, diffs[:length], size):
                    number = hashed(number, text)
        yield f"(Scheme::{scheme}, {widths}, {mask}, 0x{number:016X})"


if __name__ == "__main__":
    print("\n".join(f"    {one}," for one in rows()))
