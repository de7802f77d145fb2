#!/usr/bin/env python3
"""Counts the instructions of the program's commands over archives that are the same in every run, by callgrind.

    bench/instructions.py [--write]

The program is that of the build, or the one that MSEED names. For each command it prints its instructions, and how many
times those of bench/instructions.txt they are. With --write they are written there, with the toolchain that is here:
tests/rows/instructions.py fails where a command takes more than 1.02 of them.
"""

from __future__ import annotations

import argparse
import sys
from pathlib import Path

sys.path.insert(0, str(Path(__file__).resolve().parents[1] / "tests"))

from driver.instructions import FIGURES, Figures, counts, read, text_of, toolchain  # noqa: E402


def main() -> None:
    """Counts, prints and writes."""
    parser = argparse.ArgumentParser(description="Counts the instructions of the program's commands, by callgrind.",
                                     epilog="Example: bench/instructions.py --write")
    parser.add_argument("--write", action="store_true", help="write them into bench/instructions.txt")
    given = parser.parse_args()
    kept = read(FIGURES.read_text(encoding="ascii")).of if FIGURES.exists() else {}
    counted = {}
    for job, count in counts():
        counted[job.name()] = count
        ratio = f"{count / kept[job.name()]:.3f}" if job.name() in kept else "new"
        print(f"{job.name():44} {count:12,} {ratio:>6}", flush=True)
    if given.write:
        FIGURES.write_text(text_of(Figures(toolchain() or sys.exit("no rt here"), counted)), encoding="ascii")


if __name__ == "__main__":
    main()
