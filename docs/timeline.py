#!/usr/bin/env python3
"""Draws docs/timeline.svg by tools/timeline: the sample network, whose nearest station has a damage on each channel.

    timeline.py [FILE]

The program is the one that MSEED names, or that of the repository.
"""

from __future__ import annotations

import os
import re
import subprocess
import sys
import tempfile
from pathlib import Path
from typing import Iterator

ROOT = Path(__file__).resolve().parents[1]
PROGRAM = os.environ.get("MSEED", str(ROOT / "crates" / "mseed" / "out" / "mseed"))
TITLE = "The sample network: a gap, an overlap, and a bad constant at the nearest station"
# Of each of these samples, the records of channels whose names begin so.
TAKEN = {"network_bad_constant": "XX_KILN__BHE", "network_overlap": "XX_KILN__BHN", "network_gap": "XX_KILN__BHZ",
         "network": ("XX_MOOR", "XX_TARN")}


def records() -> Iterator[bytes]:
    """The records of the drawing."""
    for name, beginnings in TAKEN.items():
        archive = (ROOT / "samples" / f"{name}.mseed").read_bytes()
        listed = subprocess.run([PROGRAM, "show"], input=archive, stdout=subprocess.PIPE, check=True).stdout.decode()
        for offset, channel, length in re.findall(r"^(\d+) (\S+) . length (\d+)", listed, re.MULTILINE):
            if channel.startswith(beginnings):
                yield archive[int(offset) : int(offset) + int(length)]


def main() -> int:
    """Draws it."""
    with tempfile.NamedTemporaryFile() as file:
        file.write(b"".join(records()))
        file.flush()
        drawn = sys.argv[1] if len(sys.argv) > 1 else str(ROOT / "docs" / "timeline.svg")
        words = ["--title", TITLE, "--output", drawn]
        return subprocess.run([sys.executable, str(ROOT / "tools" / "timeline"), *words, file.name],
                              env={**os.environ, "MSEED": PROGRAM}, check=False).returncode


if __name__ == "__main__":
    sys.exit(main())
