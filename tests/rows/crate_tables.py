"""The tables in the tests of two crates are those that second programs make: a hundred words of Steim frames and the
hashes of packed series for mseed_steim, and a stream of command lines for slink_wire."""

from __future__ import annotations

import re

from driver.program import CRATES
from driver.rows import Cases, holds
from models import command_lines, packed_series, steim_words


def rows() -> Cases:
    """All of them."""
    table = steim_words.plain((CRATES / "mseed_tests/src/steim/words.rt").read_text(encoding="utf-8"))
    for row in steim_words.rows():
        yield holds(f"the words of frames have {row}", steim_words.plain(row) in table, "no such row")
    table = steim_words.plain((CRATES / "mseed_tests/src/steim/packed_series.rt").read_text(encoding="utf-8"))
    for row in packed_series.rows():
        yield holds(f"the packed series have {row}", steim_words.plain(row) in table, "no such row")
    stream = re.sub(r"\s+", "", (CRATES / "slink_tests/src/wire/stream.rt").read_text(encoding="utf-8"))
    pieces, commands = command_lines.rows()
    for name, lines in (("pieces", pieces), ("commands", commands)):
        text = re.sub(r"\s+", "", ",".join(lines) + ",")
        yield holds(f"the stream of lines has its {name}", text in stream.replace(",}", "}"), text[:200])
