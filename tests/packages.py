#!/usr/bin/env python3
"""Installs the packages of tests/packages.txt that are missing, by apt-get where that is there and may install.

What can't be had is left out: the tests skip what wants it, count it and name it.
"""

from __future__ import annotations

import os
import shutil
import subprocess
from pathlib import Path

LIST = Path(__file__).with_name("packages.txt")
QUICK = ["-o", "Acquire::http::Timeout=20", "-o", "Acquire::Retries=0"]


def packages() -> list[str]:
    """The first word of each line of the list."""
    lines = LIST.read_text(encoding="utf-8").splitlines()
    return [line.split()[0] for line in lines if line.strip() and not line.startswith("#")]


def is_installed(package: str) -> bool:
    """Whether a package is there."""
    words = ["dpkg-query", "--show", "--showformat=${Status}", package]
    found = subprocess.run(words, stdout=subprocess.PIPE, stderr=subprocess.DEVNULL, text=True, check=False)
    return found.stdout.endswith(" installed")


def apt_get(*words: str) -> None:
    """Runs apt-get, whose failure is no failure here."""
    command = ["apt-get", *QUICK, *words]
    if os.getuid() != 0:
        command = ["sudo", "--non-interactive", *command]
    if shutil.which(command[0]):
        subprocess.run(command, env={**os.environ, "DEBIAN_FRONTEND": "noninteractive"}, stdin=subprocess.DEVNULL,
                       check=False)


def main() -> None:
    """Installs what is missing, one by one, so that each is there that can be had."""
    if not shutil.which("apt-get"):
        print(f"No apt-get here. Tests want {', '.join(packages())}.")
        return
    missing = [package for package in packages() if not is_installed(package)]
    if missing:
        apt_get("update")
    for package in missing:
        apt_get("install", "--yes", "--no-install-recommends", package)
    for package in packages():
        print(f"{package} is {'' if is_installed(package) else 'not '}installed")


if __name__ == "__main__":
    main()
