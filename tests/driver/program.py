"""Where the repository and the program are."""

from __future__ import annotations

import os
from pathlib import Path

ROOT = Path(__file__).resolve().parents[2]
CRATES = ROOT / "crates"
SAMPLES = ROOT / "samples"
SOURCES = ROOT / "tests" / "sources"

# Where a build leaves the program, and the one that is tested: that of the build, or the one that $MSEED names.
BUILT = CRATES / "mseed" / "out" / "mseed"
PROGRAM = Path(os.path.abspath(os.environ.get("MSEED") or BUILT))

# The seconds that anything may take, on a machine that is busy with other things too.
LIMIT = 400
