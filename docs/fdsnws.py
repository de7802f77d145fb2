#!/usr/bin/env python3
"""Draws docs/fdsnws.png: the page of tools/fdsnws over a tree of the samples, after its button was pressed, as Debian's
Chromium shows it.

    fdsnws.py [FILE [WIDTH]]

The program is the one that MSEED names, or that of the repository.
"""

from __future__ import annotations

import os
import re
import subprocess
import sys
import tempfile
from pathlib import Path

ROOT = Path(__file__).resolve().parents[1]
sys.path.insert(0, str(ROOT / "tests"))

from driver.browser import Browser  # noqa: E402
from driver.records import record  # noqa: E402
from driver.tools import integers  # noqa: E402

PROGRAM = os.environ.get("MSEED", str(ROOT / "crates" / "mseed" / "out" / "mseed"))
# A field of the form, and what is put into it.
GIVEN = {"network": "XX", "station": "KILN", "channel": "BH?", "starttime": "2024-05-14T03:20",
         "endtime": "2024-05-14T03:21"}
# The days of the year of which the made channels have files; a day is missing where one is left out.
DAYS = {"XX_KILN__BHZ": range(131, 139), "XX_KILN__BHN": (131, 132, 133, 136, 137, 138),
        "XX_KILN__BHE": range(132, 137), "XX_MOOR__BHZ": range(131, 139), "XX_TARN__LOG": (131, 135)}


def make_tree(root: Path) -> None:
    """Makes the tree: whole days of one sample a second, and a log."""
    for name, days in DAYS.items():
        network, station, location, channel = name.split("_")
        folder = root / "2024" / network / station / f"{channel}.D"
        folder.mkdir(parents=True, exist_ok=True)
        codes = f"{station:5}{location:2}{channel:3}{network:2}".encode()
        for day in days:
            if channel == "LOG":
                made = [record(codes=codes, day=day, encoding=0, factor=0, multiplier=0, data=b"locked")]
            else:
                made = integers(codes, (2024, day, 86400))
            (folder / f"{network}.{station}.{location}.{channel}.D.2024.{day:03}").write_bytes(b"".join(made))


def pressed(browser: Browser, url: str, width: int) -> None:
    """Opens the page, fills its form, and presses its button."""
    browser.open(url, width)
    for name, value in GIVEN.items():
        browser.value(f"document.querySelector('[name={name}]').value = '{value}'")
    browser.value("document.querySelector('button').click()")
    if not browser.come("document.readyState == 'complete' && document.querySelector('#url') !== null"):
        raise RuntimeError("nothing comes of the button")


def main() -> int:
    """Draws it."""
    drawn = sys.argv[1] if len(sys.argv) > 1 else str(ROOT / "docs" / "fdsnws.png")
    width = int(sys.argv[2]) if len(sys.argv) > 2 else 1000
    with tempfile.TemporaryDirectory() as name:
        root, state = Path(name) / "archive", Path(name) / "state"
        make_tree(root)
        env = {**os.environ, "MSEED": PROGRAM}
        subprocess.run([sys.executable, str(ROOT / "tools" / "sds"), "--state", str(state), str(root)], env=env,
                       stdout=subprocess.DEVNULL, check=False)
        run = subprocess.Popen([sys.executable, str(ROOT / "tools" / "fdsnws"), "--port", "0", "--state", str(state),
                                str(root)], env=env, stdout=subprocess.PIPE, stderr=subprocess.DEVNULL, text=True)
        try:
            url = re.sub("127.0.0.1", "localhost", run.stdout.readline().strip())
            with Browser(Path(name) / "profile") as browser:
                pressed(browser, url, width)
                Path(drawn).write_bytes(browser.picture(1600))
        finally:
            run.kill()
            run.wait()
            run.stdout.close()
    return 0


if __name__ == "__main__":
    sys.exit(main())
