#!/usr/bin/env python3
"""Tries the wrong bodies of tests/must-fail, which the toolchain's gate leaves: the prover has to refuse each.

    edits.py [CRATE ..]
    edits.py --tenth

They are the files tests/must-fail/CRATE/NAME.edit, written as those of crates/CRATE/must-fail. They are tried on a copy
of the crates, over what the toolchain keeps of checks on this machine; where it keeps nothing, the crates are proved
first, and what they stand on side by side by crates/prove.py. Without names, those of all crates are tried. With
--tenth it is a tenth of the list, as `make test` does: which one goes by a checksum of the crates and of all edits, so
that another one has its turn after a change of either, and the same tree has the same tenth. These are tried by the
toolchain's gate, which proves nothing again that it has proved on this machine.

The status is 0 where each is refused for what it does. One that can't be applied shows nothing, and neither does one
that is refused for its shape alone: only since a proof file names what the edit took away, as `rt` says of it.
"""

from __future__ import annotations

import argparse
import hashlib
import re
import shutil
import subprocess
import sys
import tempfile
from pathlib import Path
from typing import Sequence

from driver.program import CRATES, ROOT
from driver.proving import prove
from driver.toolchain import copied

EDITS = ROOT / "tests" / "must-fail"
PARTS = 10
# What a crate is made of.
SOURCES = ["src", "specs", "proofs"]


def edits_of(crates: Sequence[str] = ()) -> list[Path]:
    """The edits of these crates, or of all, crate by crate."""
    return [path for path in sorted(EDITS.glob("*/*.edit")) if not crates or path.parent.name in crates]


def tenths() -> list[list[Path]]:
    """The edits of all crates in ten parts, each of neighbours, so that it is of few crates."""
    edits = edits_of()
    return [edits[len(edits) * part // PARTS : len(edits) * (part + 1) // PARTS] for part in range(PARTS)]


def turn(crates: Path = CRATES, edits: Path = EDITS) -> int:
    """The part whose turn it is: the first 8 bytes of a checksum of what the crates are made of and of all edits,
    modulo the number of parts."""
    found = hashlib.sha256()
    for folder, names in ((crates, [f"*/{part}/**/*" for part in SOURCES]), (edits, ["*/*.edit"])):
        for path in sorted(path for name in names for path in folder.glob(name) if path.is_file()):
            found.update(f"{path.relative_to(folder)}\0".encode() + hashlib.sha256(path.read_bytes()).digest())
    return int.from_bytes(found.digest()[:8], "big") % PARTS


def placed(folder: Path, edits: Sequence[Path]) -> list[str]:
    """A copy of the crates of these edits and of those below them, which have these in place of their own; and the
    crates of the edits."""
    crates = sorted({edit.parent.name for edit in edits})
    there = copied(folder, crates)
    for name in ("prove.py", "minutes.txt"):
        shutil.copy(CRATES / name, there)
    for edit in edits:
        to = there / edit.parent.name / "must-fail"
        to.mkdir(exist_ok=True)
        shutil.copy(edit, to)
    return crates


def tried(edits: Sequence[Path]) -> int:
    """Has the toolchain try edits, and shows what it says. The status is 0 where it refused each for what it does."""
    with tempfile.TemporaryDirectory() as room:
        crates = placed(Path(room), edits)
        for crate in crates:
            # The toolchain would prove them one after another, each by one process.
            subprocess.run([sys.executable, "crates/prove.py", "--keep", crate], cwd=room, check=False)
        return judged(["rt", "must-fail", *crates], Path(room), edits)


def tried_by_gate(edits: Sequence[Path]) -> int:
    """The same by the toolchain's gate."""
    with tempfile.TemporaryDirectory() as room:
        placed(Path(room), edits)
        return judged(["rt", "ci"], Path(room), edits)


def judged(words: Sequence[str], room: Path, edits: Sequence[Path]) -> int:
    """Runs a command of the toolchain that tries edits, shows what it says, and names those that it didn't refuse, or
    refused for their shape alone: it lets these pass."""
    refused, idle = set(), set()
    with subprocess.Popen(words, cwd=room, stdout=subprocess.PIPE, stderr=subprocess.STDOUT, text=True,
                          errors="replace") as run:
        for line in run.stdout:
            print(line, end="", flush=True)
            found = prove.idle_edit(line)
            idle |= {found[0]} if found and found[1] else set()
            refused |= set(re.findall(r"must-fail (\S+\.edit): refused, as it must be", line))
    lacking = {f"{edit.parent.name}/{edit.name}" for edit in edits} - refused
    for what, names in (("not refused", lacking), ("refused for their shape alone", idle)):
        if names:
            print(f"{what}: {', '.join(sorted(names))}")
    return 1 if run.returncode or lacking or idle else 0


def main() -> int:
    """Tries what the arguments name."""
    parser = argparse.ArgumentParser(description="Tries the wrong bodies of tests/must-fail.",
                                     epilog="Example: tests/edits.py mseed_join")
    parser.add_argument("crates", nargs="*", metavar="CRATE", help="those of this crate; without names, of all")
    parser.add_argument("--tenth", action="store_true", help="the tenth of all whose turn it is")
    given = parser.parse_args()
    there = {path.parent.name for path in edits_of()}
    unknown = [crate for crate in given.crates if crate not in there]
    if unknown:
        parser.error(f"no edits of {unknown[0]} in tests/must-fail")
    return tried_by_gate(tenths()[turn()]) if given.tenth else tried(edits_of(given.crates))


if __name__ == "__main__":
    sys.exit(main())
