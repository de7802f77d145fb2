"""The toolchain, over a copy of some crates."""

from __future__ import annotations

import shutil
import subprocess
from pathlib import Path
from typing import Sequence

from driver.program import CRATES, ROOT
from driver.proving import prove

TOOLCHAIN = "the toolchain, rt"


def is_installed() -> bool:
    """Whether the toolchain is there."""
    return shutil.which("rt") is not None


def copied(folder: Path, crates: Sequence[str], more: str = "") -> Path:
    """A copy of these crates and of those below them, without their edits and what was built, with another line in
    crates.txt: the folder of its crates."""
    shutil.copy(ROOT / "HANDLES", folder)
    every = {at for crate in crates for at in [crate, *prove.below(crate)]}
    text = "\n".join([line for at, line in prove.lines().items() if at in every] + [more])
    (folder / "crates.txt").write_text(f"{text}\n", encoding="utf-8")
    for crate in every:
        shutil.copytree(CRATES / crate, folder / "crates" / crate, ignore=shutil.ignore_patterns("out", "must-fail"))
    return folder / "crates"


def rt(folder: Path, words: Sequence[str], input: bytes = b"") -> subprocess.CompletedProcess:
    """Runs the toolchain in a folder."""
    return subprocess.run(["rt", *words], cwd=folder, input=input, stdout=subprocess.PIPE, stderr=subprocess.PIPE,
                          timeout=1200, check=False)
