#!/usr/bin/env python3
"""Writes what the commands print that the manual pages show into the pages, where the program is built. The row file
man_pages compares the two."""

from __future__ import annotations

import sys
import tempfile

from documents.manual import EXAMPLES, PAGES, printed
from driver.program import PROGRAM


def main() -> None:
    """Writes each page anew."""
    if not PROGRAM.exists():
        sys.exit(f"{PROGRAM} isn't there: the pages stay as they are.")
    with tempfile.TemporaryDirectory() as folder:
        for page in PAGES:
            text = page.read_text(encoding="utf-8")
            page.write_text(EXAMPLES.sub(lambda block: printed(block.group(), folder), text), encoding="utf-8")


if __name__ == "__main__":
    main()
