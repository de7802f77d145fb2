#!/usr/bin/env python3
"""Runs the tests.

    tests/run.py [--gate] [-j N] [-v] [NAME ..]
    tests/run.py --list

Runs the row files in tests/rows, N side by side (as many as there are cores, where no number is given), or those that
are named. The program is that of the build, or the one that $MSEED names; where there is none, it is built first. A row
that fails is printed with what was expected and what came, with -v also each one that passes. What isn't installed is
counted as skipped and named.

With --gate the toolchain's own gate (`rt ci`, called by crates/prove.py) runs before, from nothing, and its count is
added, where an edit of crates/NAME/must-fail that shows nothing counts as failed. Then `make lib` has to build the
library, and rows run over what the gate has built, whatever $MSEED and $MSEED_LIB name. At last a tenth of the edits of
tests/must-fail is tried (edits.py), and what it all took stands before the last line, which is `N passed, M failed`.
"""

from __future__ import annotations

import argparse
import os
import re
import resource
import shutil
import signal
import subprocess
import sys
import time
from pathlib import Path

import edits
from driver import library
from driver.counting import Count, names
from driver.program import BUILT, PROGRAM, ROOT
from driver.side_by_side import run_all, run_and_report

# What may name another program and another library than those that were built: not to the gate.
NAMED = ("MSEED", "MSEED_LIB")


def gate() -> Count:
    """Runs the toolchain's gate, shows what it prints, and counts what its last line counts. A gate that fails without
    such a line, or that ran nothing, is a failure. It leaves the program that it proved and built, and what it proved
    of the libraries, over which `make lib` builds the one for C."""
    BUILT.unlink(missing_ok=True)
    shutil.rmtree(library.BUILT, ignore_errors=True)
    last, named = "", "rt ci"
    with subprocess.Popen([sys.executable, "crates/prove.py", "--gate"], cwd=ROOT, stdout=subprocess.PIPE,
                          stderr=subprocess.STDOUT, text=True, errors="replace") as run:
        for line in run.stdout:
            print(line, end="", flush=True)
            last = line if re.match(r"\d+ passed, \d+ failed", line) else last
            named = line.strip() if line.startswith("rt: FAILED: ") else named
    found = re.match(r"(\d+) passed, (\d+) failed(?:, (\d+) skipped)?", last)
    count = Count(int(found[1]), int(found[2]), ["of the gate"] * int(found[3] or 0)) if found else Count()
    if not count.passed + count.failed or run.returncode != 0 and not count.failed:
        print(f"FAILED rt ci: status {run.returncode}, {last.strip() or 'and no count'}")
        count.failed += 1
    count.failures = [named] * min(1, count.failed)
    return count


def library_of_gate() -> Count:
    """Has `make lib` build the library over what the gate has proved. Where it fails, it shows what was said: that is a
    failure, and not for want of anything. Without a C compiler there is none, and rows skip it."""
    if shutil.which("cc") is None:
        return Count()
    status, said = library.build()
    if status == 0 and (library.BUILT / library.SHARED).exists():
        return Count()
    print(f"{said}FAILED make lib: status {status}")
    # So that it isn't tried once more for the rows.
    library.LATE.parent.mkdir(exist_ok=True)
    library.LATE.touch()
    return Count.failure("make lib")


def edits_in_turn() -> Count:
    """Tries the tenth of tests/must-fail whose turn it is. Where one isn't refused for what it does, it is named."""
    part, parts = edits.turn(), edits.tenths()
    print(f"edits of tests/must-fail: tenth {part + 1} of {len(parts)}, {len(parts[part])} edits", flush=True)
    status = edits.tried_by_gate(parts[part])
    if status == 0:
        return Count(passed=len(parts[part]))
    print(f"FAILED tests/edits.py --tenth: status {status}")
    return Count.failure("tests/edits.py --tenth")


def is_built() -> bool:
    """Whether there is a program to test; where none was built, it is built."""
    if PROGRAM != BUILT or os.access(PROGRAM, os.X_OK):
        return os.access(PROGRAM, os.X_OK)
    return subprocess.run(["make", "--silent", "build"], cwd=ROOT, check=False).returncode == 0


def taken(began: float) -> str:
    """What the processes that have ended took, in minutes: by the clock since `began`, and of processors."""
    used = resource.getrusage(resource.RUSAGE_CHILDREN)
    minutes = (time.monotonic() - began) / 60
    return f"took {minutes:.1f} minutes, of processors {used.ru_utime / 60:.1f} user and {used.ru_stime / 60:.1f} sys"


def arguments() -> argparse.Namespace:
    """The words of the command line."""
    parser = argparse.ArgumentParser(description="Runs the tests.", epilog="Without names, all row files are run.")
    parser.add_argument("names", nargs="*", metavar="NAME", help="a row file, by its name")
    parser.add_argument("--gate", action="store_true", help="run `rt ci` first, and count it")
    parser.add_argument("--list", action="store_true", help="list the row files")
    parser.add_argument("-j", "--jobs", type=int, default=os.cpu_count() or 1, help="row files side by side")
    parser.add_argument("-v", "--verbose", action="store_true", help="print each row that passes")
    parser.add_argument("--report", type=Path, help=argparse.SUPPRESS)
    given = parser.parse_args()
    unknown = [name for name in given.names if name not in names()]
    if unknown:
        parser.error(f"no row file {', '.join(unknown)}; there are {', '.join(names())}")
    return given


def main() -> int:
    """Runs what the arguments ask for. The status is 1 where anything failed."""
    # Where a shell has put this behind it, SIGINT is ignored, and it would be by all that is started here.
    signal.signal(signal.SIGINT, signal.default_int_handler)
    given = arguments()
    if given.list:
        print("\n".join(names()))
        return 0
    if given.report:
        run_and_report(given.names[0], given.verbose, given.report)
        return 0
    if given.gate and any(name in os.environ for name in NAMED):
        rest = {name: value for name, value in os.environ.items() if name not in NAMED}
        os.execve(sys.executable, [sys.executable, *sys.argv], rest)
    began = time.monotonic()
    count = gate() if given.gate else Count()
    count.add(library_of_gate() if given.gate else Count())
    chosen = given.names or names()
    if is_built():
        # So that nothing is proved beside the rows.
        if any(name.startswith("library") for name in chosen) and library.library() is None:
            # By the gate it is counted already.
            count.add(Count.failure("make lib") if library.can_be_built() and not given.gate else Count())
        count.add(run_all(chosen, max(1, given.jobs), given.verbose))
    else:
        print(f"FAILED {PROGRAM}: no program")
        count.add(Count.failure(str(PROGRAM)))
    if given.gate:
        count.add(edits_in_turn())
        print(taken(began))
    print(count.lines())
    return 1 if count.failed else 0


if __name__ == "__main__":
    sys.exit(main())
