"""Series of all kinds, packed anew by the program into each length and encoding, and compared with the rules of
docs/format.md as models/packing.py has them.

What the program writes has to be what the rules say, byte for byte; the audit has to call each channel continuous;
packed again it has to stay as it is; and its samples have to be those of the series.
"""

from __future__ import annotations

import random
from typing import Sequence

from driver.rows import Cases, Fact, Row
from models.packing import Series, packed, read
from models.series import CODES, interleaved, records_for, series_for

NAMES = sorted(b"STA%02d00BHZXX" % number for number in range(30))


def wrong_with(archive: bytes, wanted: Sequence[Series], exponent: int, encoding: str) -> str:
    """What is wrong with how the program packs an archive; nothing where nothing is."""
    words = ["repack", "--length", str(2**exponent), "--encoding", encoding]
    status, output, errors, _ = Row("", archive, words, 0).run()
    if status != 0 or errors:
        return f"status {status}, {errors!r}"
    if output != b"".join(record for series in wanted for record in packed(series, exponent, CODES[encoding])):
        return "not as the rules say"
    if [series.values() for series in read(output)] != [series.values() for series in wanted]:
        return "not read back"
    if Row("", output, words, 0).run()[:3] != (0, output, b""):
        return "not the same again"
    audited = Row("", output, ["audit"], 0).run()
    if audited.status != 0 or audited.out.count(b" continuous ") != len(wanted):
        return "not continuous"
    return ""


def rows() -> Cases:
    """All of them."""
    source = random.Random(20240101)
    for exponent in range(7, 13):
        for encoding, code in CODES.items():
            for turn in range(3):
                wanted = [series_for(source, name, exponent, code) for name in NAMES]
                archive = b"".join(interleaved(source, [records_for(source, series) for series in wanted]))
                name = f"series {turn} packed into {2**exponent} bytes of {encoding}"
                yield Fact(name, "", wrong_with(archive, wanted, exponent, encoding))
