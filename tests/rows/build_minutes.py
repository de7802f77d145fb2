"""Where the minutes of a first build go, by what checks have kept (tests/minutes.py): over files as a check writes
them, with records of declarations between other bytes."""

from __future__ import annotations

import json
import tempfile
from pathlib import Path
from unittest import mock

import minutes
from driver.rows import Cases, Fact

# A crate with a derived implementation.
SOURCE = "#[derive(Clone, thiserror::Error)]\n/// A fault.\npub enum Fault {}\n"
# Modules, their declarations with steps to elaborate them, and whether a tactic was tried; and the part and the owner.
KEPT = [
    ("a-proofs.read.take.Proof", [("open", 2_000_000, True)], "searched", "read::take"),
    ("a-proofs.read.take.Met", [("met", 1_000_000, False)], "steps", "read::take"),
    ("a-proofs.read.take.Goals", [("open", 1_000_000, False)], "rest", "read::take"),
    ("a-proofs.read.take.Answers", [("open", 1_000_000, True)], "answers", "read::take"),
    ("a-proofs.read.fn.take.all+FnMut.call_mut.Tie", [("tied", 1_000_000, False)], "steps", "read::take"),
    ("a-proofs.Sums", [("sum_of", 3_000_000, True)], "lemmas", "Sums.sum_of"),
    ("a-proofs.fault.FaultError.source.Lts", None, "derived", "FaultError::source"),
    ("a-specs.contracts.read.take", [("take", 1_000_000, False)], "contracts", "read::take"),
]


def record_of(name: str, steps: int, is_tried: bool) -> dict:
    """A declaration's record, without what isn't read of it."""
    return {"aux": [], "calls": [["search", [0, 5], steps]] if is_tried else [], "name": name, "steps": [steps, 0, 0]}


def keep(crates: Path) -> None:
    """Writes a crate, and what a check has kept of it."""
    files = {"src/lib.rt": SOURCE, "proofs/Sums.antt": "", "proofs/read/take/Answers.antt": ""}
    for name, text in files.items():
        (crates / "a" / name).parent.mkdir(parents=True, exist_ok=True)
        (crates / "a" / name).write_text(text, encoding="utf-8")
    kept = crates / "a" / "out" / "incremental" / "of-a-toolchain"
    (kept / "records").mkdir(parents=True)
    for name, declared, *_ in KEPT:
        (kept / f"Rattle-{name}.oantt").write_bytes(bytes(1_000_000) if declared is None else b"")
        if declared is not None:
            lists = (json.dumps([record_of(*one)], separators=(",", ":")).encode() for one in declared)
            (kept / "records" / f"Rattle-{name}.decls.oantt").write_bytes(b"\xff[\x80".join([b"", *lists, b""]))


def rows() -> Cases:
    """All of them."""
    with tempfile.TemporaryDirectory() as folder, mock.patch.object(minutes, "CRATES", Path(folder)):
        keep(Path(folder))
        spent = list(minutes.spent_on("a"))
    for name, declared, part, owner in KEPT:
        steps = sum(steps for _, steps, _ in declared or [])
        seconds = steps * minutes.ELABORATED / 1e6 if declared else minutes.SPELLED
        found = [one for one in spent if (one.part, one.owner) == (part, owner) and abs(one.seconds - seconds) < 0.01]
        yield Fact(f"the part, the owner and the seconds of {name}", True, bool(found))
    yield Fact("the goals that are searched for", 1, sum(one.goals for one in spent))
    yield Fact("a row of a table", "| `a` | 1.2 | 3 |", minutes.row("`a`", 1.23, 3))
