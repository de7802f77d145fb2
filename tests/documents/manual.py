"""The manual pages: what they name and show."""

from __future__ import annotations

import os
import re
import shutil
import subprocess
from pathlib import Path
from typing import Optional

from documents.tool_pages import tool_pages
from driver.examples import printed_by
from driver.program import ROOT

# Those of the program and of its commands; those of the tools are written by the tools' own words.
PAGES = sorted(set((ROOT / "man").iterdir()) - set(tool_pages()))
EXAMPLES = re.compile(r"(?<=^\.Bd -literal -offset indent\n)\$ .*?(?=^\.Ed\n)", re.MULTILINE | re.DOTALL)


def warnings(page: Path) -> Optional[str]:
    """What is wrong with a page's form; nothing where no program is there that would say so."""
    if shutil.which("mandoc"):
        words = ["mandoc", "-T", "lint", "-W", "warning", str(page)]
        return subprocess.run(words, capture_output=True, text=True, check=False).stdout
    if shutil.which("man"):
        words = ["man", "--warnings=w", "--local-file", str(page)]
        return subprocess.run(words, capture_output=True, text=True, check=False,
                              env={**os.environ, "LC_ALL": "C.UTF-8", "MANPAGER": "cat"}).stderr
    return None


def printed(block: str, folder: str) -> str:
    """An example with what its commands print."""
    found = ""
    for command in re.findall(r"^\$ ((?:.*\\e\n)*.*)\n", block, re.MULTILINE):
        found += f"$ {command}\n" + printed_by(command.replace("\\e", "\\"), folder)
    return found


def options_named(text: str) -> set[str]:
    """The options that a page names."""
    return set(re.findall(r"^\.(?:It |Op )?Fl -([a-z-]+)", text, re.MULTILINE))
