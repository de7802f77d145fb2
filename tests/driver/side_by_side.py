"""Row files side by side, each in a process of its own, which is over within a time, with whatever it started."""

from __future__ import annotations

import contextlib
import json
import os
import signal
import subprocess
import sys
import tempfile
from concurrent.futures import ThreadPoolExecutor, as_completed
from dataclasses import asdict
from pathlib import Path
from typing import Sequence

from driver.counting import Count, run_file

# The seconds that a row file may take.
MOST = 1200
# Those that take longest begin first.
LONGEST = ["library", "first_build_sums", "library_python", "schedules", "tools_fetch_on_sds", "relay",
           "damaged_archives", "join_archives", "join_texts", "parts", "join_devices", "join_lines", "repack_series",
           "serve_archives", "devices", "recipes", "instructions", "long_inputs", "audit"]


def run_all(names: Sequence[str], jobs: int, is_verbose: bool) -> Count:
    """Runs row files, so many side by side, and prints what each of them has printed once it is over."""
    total = Count()
    ordered = sorted(names, key=lambda name: LONGEST.index(name) if name in LONGEST else len(LONGEST))
    with ThreadPoolExecutor(jobs) as pool:
        for run in as_completed([pool.submit(run_alone, name, is_verbose) for name in ordered]):
            count, text = run.result()
            print(text, end="", flush=True)
            total.add(count)
    return total


def run_alone(name: str, is_verbose: bool) -> tuple[Count, str]:
    """Runs a row file in a process of its own: its count, and what it printed."""
    with tempfile.TemporaryDirectory() as folder:
        report, log = Path(folder) / "count", Path(folder) / "log"
        words = [sys.executable, sys.argv[0], "--report", str(report), *["--verbose"] * is_verbose, name]
        with log.open("wb") as file:
            process = subprocess.Popen(words, stdin=subprocess.DEVNULL, stdout=file, stderr=file,
                                       start_new_session=True)
        try:
            process.wait(MOST)
        except subprocess.TimeoutExpired:
            pass
        finally:
            with contextlib.suppress(ProcessLookupError):
                os.killpg(process.pid, signal.SIGKILL)
            process.wait()
        text = log.read_text(encoding="utf-8", errors="replace")
        if report.exists():
            return Count(**json.loads(report.read_text(encoding="ascii"))), text
        failure = f"{name}: status {process.returncode}, and no count"
        return Count.failure(failure), f"{text}FAILED {failure}\n"


def run_and_report(name: str, is_verbose: bool, report: Path) -> None:
    """Runs a row file in this process, and writes its count."""
    report.write_text(json.dumps(asdict(run_file(name, is_verbose))), encoding="ascii")
