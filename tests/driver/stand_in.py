"""A copy of what builds the program, beside a stand-in for the toolchain, which proves nothing."""

from __future__ import annotations

import os
import re
import shutil
import subprocess
from pathlib import Path
from typing import Mapping

from driver.program import LIMIT, PROGRAM, ROOT, SAMPLES, SOURCES

FILES = ["Makefile", "VERSION", "HANDLES", "crates.txt", "crates/prove.py", "crates/minutes.txt"]
# What is said where something has to be proved, at first and of each crate.
FIRST = re.compile(r"Proving and building: about \d+ min for \d+ crates\.")
NEXT = re.compile(r"(\w+): (\d+) of (\d+) crates proved, about (\d+) min left")
LONG = "Proving and building."


class Copy:
    """The copy, and the stand-in."""

    def __init__(self, folder: Path):
        self.folder, self.bin, self.log = folder / "copy", folder / "kit" / "bin", folder / "log"
        for name in (*FILES, *self.sources()):
            (self.folder / name).parent.mkdir(parents=True, exist_ok=True)
            shutil.copy(ROOT / name, self.folder / name)
        shutil.copytree(SAMPLES, self.folder / "samples")
        self.bin.mkdir(parents=True)
        for name in ("rt", "rattle", "rattle-link"):
            (self.bin / name).symlink_to(SOURCES / "local_rt.sh")

    def source(self, crate: str) -> Path:
        """The one of a crate."""
        return self.folder / "crates" / crate / "src" / ("main.rt" if crate == "mseed" else "lib.rt")

    def change(self, crate: str) -> None:
        """Adds a line to it."""
        with self.source(crate).open("a", encoding="utf-8") as file:
            file.write("// One more line.\n")

    @staticmethod
    def sources() -> list[str]:
        """A source of each crate."""
        found = [path for name in ("lib.rt", "main.rt") for path in (ROOT / "crates").glob(f"*/src/{name}")]
        return [str(path.relative_to(ROOT)) for path in found]

    def environment(self, **more: str) -> Mapping[str, str]:
        """What a command gets in which the stand-in is the toolchain."""
        env = {**os.environ, "PATH": f"{self.bin}:{os.environ['PATH']}", "RT_PROGRAM": str(PROGRAM),
               "RT_LOG": str(self.log), **more}
        for name in ("MAKEFLAGS", "MAKELEVEL", "MFLAGS", "FILE", "OUT"):
            env.pop(name, None)
        return env

    def make(self, *words: str, version: str = "a kit") -> tuple[int, list[str], str]:
        """How `make` ends, the lines that it writes, and what it reports. Where something had to be proved the line of
        each crate is left out, and the first one is LONG."""
        run = subprocess.run(["make", *words], cwd=self.folder, env=self.environment(RT_VERSION=version),
                             stdin=subprocess.DEVNULL, stdout=subprocess.PIPE, stderr=subprocess.PIPE, text=True,
                             timeout=LIMIT, check=False)
        lines = [LONG if FIRST.fullmatch(line) else line for line in run.stdout.splitlines()]
        return run.returncode, [line for line in lines if not NEXT.fullmatch(line)], run.stderr

    def proving(self, *words: str, **more: str) -> subprocess.Popen:
        """Begins crates/prove.py, with more for the stand-in in its environment."""
        return subprocess.Popen(["python3", "crates/prove.py", *words], cwd=self.folder, env=self.environment(**more),
                                stdin=subprocess.DEVNULL, stdout=subprocess.PIPE, stderr=subprocess.STDOUT, text=True)

    def prove(self, *words: str, **more: str) -> tuple[int, list[str]]:
        """How crates/prove.py ends, and the lines that it writes."""
        run = self.proving(*words, **more)
        said = run.communicate(timeout=LIMIT)[0]
        return run.returncode, said.splitlines()

    def logged(self) -> list[tuple[str, str]]:
        """What the stand-in was asked for since the last call of this, in turn: `begin` or `end`, and the crate."""
        found = self.log.read_text(encoding="ascii").split() if self.log.exists() else []
        self.log.unlink(missing_ok=True)
        return list(zip(found[::2], found[1::2]))
