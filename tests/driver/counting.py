"""The one way of counting: what passed, what failed, and what was skipped for want of something."""

from __future__ import annotations

import importlib
import sys
import time
import traceback
from dataclasses import dataclass, field
from pathlib import Path

from driver.rows import Case, Cases, Skipped

# So many of those that failed are named once more at the end.
NAMED_AGAIN = 20


@dataclass
class Count:
    """What came of the rows of a file, or of several."""

    passed: int = 0
    failed: int = 0
    skipped: list[str] = field(default_factory=list)
    # What failed, by name, each shown where it did.
    failures: list[str] = field(default_factory=list, compare=False)

    @classmethod
    def failure(cls, name: str) -> Count:
        """That one thing failed."""
        return cls(failed=1, failures=[name])

    def add(self, other: Count) -> None:
        """Counts what another has counted."""
        self.passed += other.passed
        self.failed += other.failed
        self.skipped += other.skipped
        self.failures += other.failures

    def lines(self) -> str:
        """The last lines of a run: what was skipped, if anything, what failed, named once more, and the count."""
        lines = [f"skipped {name}" for name in self.skipped]
        if self.skipped:
            lines.append(f"{len(self.skipped)} skipped: what they want isn't installed")
        lines += [f"FAILED, as shown above: {name}" for name in self.failures[:NAMED_AGAIN]]
        return "\n".join([*lines, f"{self.passed} passed, {self.failed} failed"])


def names() -> list[str]:
    """The row files, by name."""
    folder = Path(__file__).resolve().parents[1] / "rows"
    return sorted(path.stem for path in folder.glob("*.py") if path.stem != "__init__")


def cases_of(name: str) -> Cases:
    """The rows of a file."""
    return importlib.import_module(f"rows.{name}").rows()


def judge(case: Case, count: Count, is_verbose: bool) -> None:
    """Runs a row and counts it; one that fails is printed with what was expected and what came."""
    if isinstance(case, Skipped):
        count.skipped.append(f"{case.name}: wants {case.wants}")
        return
    fault = case.fault()
    if fault is None:
        count.passed += 1
        if is_verbose:
            print(f"ok {case.name}")
        return
    count.add(Count.failure(case.name))
    print(f"FAILED {case.name}\n  expected: {fault.expected}\n  came:     {fault.came}")


def run_file(name: str, is_verbose: bool) -> Count:
    """Runs all rows of a file. One that breaks off, or has no rows, is a failure."""
    count, begun = Count(), time.monotonic()
    try:
        for case in cases_of(name):
            judge(case, count, is_verbose)
    except Exception:
        count.add(Count.failure("broke off"))
        print(f"FAILED {name}: broke off\n{traceback.format_exc()}")
    if not (count.passed or count.failed or count.skipped):
        count.add(Count.failure("no rows"))
        print(f"FAILED {name}: no rows")
    count.failures = [f"{name}: {failure}" for failure in count.failures]
    print(f"{name}: {count.passed} passed, {count.failed} failed in {time.monotonic() - begun:.0f} s")
    sys.stdout.flush()
    return count
