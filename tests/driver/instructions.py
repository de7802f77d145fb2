"""The instructions that the program takes over inputs which are the same in every run, counted by callgrind, beside the
figures of bench/instructions.txt.

The figures are those of one toolchain, which the first line names, with the kind of machine and the C library; a line
after it is the words of a command, `<`, its input's name in models/workloads.py, and the figure. So that a count is
the same in every run, and on every machine, the program's path and its environment have always the same length, and the
C library copies as on any machine of the kind: where it copies by one instruction, that is counted for each byte.
"""

from __future__ import annotations

import platform
import re
import shutil
import subprocess
import tempfile
from pathlib import Path
from typing import Iterator, NamedTuple, Optional

from driver.program import LIMIT, PROGRAM, ROOT
from models.workloads import INPUTS

FIGURES = ROOT / "bench" / "instructions.txt"
VALGRIND = "valgrind"
# More hundredths of a figure fail, and fewer are reported.
MOST, FEWEST = 102, 98
# What is counted over each input, and the inputs of which a channel is broken.
AUDITED, PACKED = ["audit", "audit --each", "audit --part", "show"], ["repack", "repack --stretches"]
COMMANDS = {
    "one_channel": AUDITED + PACKED, "unequal_rates": AUDITED + PACKED, "steim_1_long": AUDITED + PACKED,
    "integers_in_turn": AUDITED + PACKED, "out_of_order": AUDITED + PACKED[1:], "near_the_limits": AUDITED + PACKED,
    "gappy": AUDITED + PACKED[1:], "few_samples": AUDITED[:1] + PACKED, "empty_first_frame": AUDITED[:1] + PACKED,
    "many_channels": AUDITED, "parts_by_days": ["join"], "parts_by_paths": ["join"], "parts_of_new_channels": ["join"]}
BROKEN = ["out_of_order", "gappy", "parts_by_days", "parts_by_paths"]
ENVIRONMENT = {"LC_ALL": "C", "GLIBC_TUNABLES": "glibc.cpu.hwcaps=-AVX,-AVX2,-ERMS"}


class Job(NamedTuple):
    """A command over an input, and the status with which it ends."""

    words: str
    input: str
    status: int

    def name(self) -> str:
        """How its line begins."""
        return f"{self.words} < {self.input}"


def jobs() -> Iterator[Job]:
    """All that is counted."""
    for input, commands in COMMANDS.items():
        for words in commands:
            yield Job(words, input, int(input in BROKEN and words not in ("show", "repack --stretches")))


class NotCounted(Exception):
    """A command that ended as it must not, with what it wrote."""


class Counting:
    """A folder in which commands are counted, with their inputs."""

    def __init__(self, folder: Path):
        self.folder = folder
        shutil.copy(PROGRAM, folder / "mseed")

    def count(self, job: Job) -> int:
        """The instructions of a command. Raises NotCounted where its status isn't the one that it must have."""
        input, log = self.folder / job.input, self.folder / "log"
        if not input.exists():
            input.write_bytes(b"".join(INPUTS[job.input]()))
        words = [shutil.which(VALGRIND) or VALGRIND, "--tool=callgrind", "--callgrind-out-file=/dev/null",
                 "--log-file=log", "./mseed", *job.words.split()]
        with input.open("rb") as source:
            run = subprocess.run(words, cwd=self.folder, env=ENVIRONMENT, stdin=source, timeout=LIMIT, check=False,
                                 stdout=subprocess.DEVNULL, stderr=subprocess.PIPE)
        found = re.search(r"Collected : (\d+)", log.read_text(encoding="ascii", errors="replace"))
        if run.returncode != job.status or not found:
            raise NotCounted(f"{job.name()}: status {run.returncode}, {run.stderr.decode(errors='replace')}")
        return int(found[1])


def counts() -> Iterator[tuple[Job, int]]:
    """Each command with its instructions."""
    with tempfile.TemporaryDirectory() as folder:
        counting = Counting(Path(folder))
        for job in jobs():
            yield job, counting.count(job)


def toolchain() -> Optional[str]:
    """The toolchain that is here, as `rt version` says it, with the machine and its C library, if there is one."""
    if shutil.which("rt") is None:
        return None
    version = subprocess.run(["rt", "version"], stdout=subprocess.PIPE, text=True, check=False).stdout.strip()
    return ", ".join([version, platform.machine(), " ".join(platform.libc_ver())])


class Figures(NamedTuple):
    """What bench/instructions.txt says: the toolchain, and the figure of each command."""

    toolchain: str
    of: dict[str, int]


def read(text: str) -> Figures:
    """The figures of a text."""
    first, *lines = text.splitlines()
    return Figures(first, {name: int(figure) for name, _, figure in (line.rpartition(" ") for line in lines)})


def text_of(figures: Figures) -> str:
    """The text of figures."""
    return "".join(f"{line}\n" for line in [figures.toolchain, *(f"{name} {of}" for name, of in figures.of.items())])


def limit_of(figure: int) -> str:
    """What is wanted of a command."""
    return f"at most 1.{MOST - 100:02} of {figure:,} instructions"


def judged(figure: int, count: int) -> str:
    """What came of it: what is wanted, or by how much it is more."""
    return limit_of(figure) if 100 * count <= MOST * figure else f"{count:,}, which are {count / figure:.3f} of it"


def reported(name: str, figure: int, count: int) -> Optional[str]:
    """What is reported of a command that takes fewer instructions than its figure by more than a little."""
    if 100 * count >= FEWEST * figure:
        return None
    return f"{name}: {count:,} instructions, {count / figure:.3f} of the figure: bench/instructions.py --write"
