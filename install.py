#!/usr/bin/env python3
"""Puts what was built in its place, and takes it away again.

    install.py program FILE --prefix PREFIX [--destdir FOLDER]
    install.py library FOLDER --prefix PREFIX [--destdir FOLDER] --python-dir FOLDER
    install.py uninstall --prefix PREFIX [--destdir FOLDER]

The Makefile calls it, with what was built. Each file and each new folder is noted in PREFIX/lib/mseed/installed, by
which `uninstall` removes them, and no others.
"""

from __future__ import annotations

import argparse
import contextlib
import os
import shutil
import site
import subprocess
import sys
from pathlib import Path
from typing import Iterator, NamedTuple, Optional

ROOT = Path(__file__).resolve().parent
SHARED = "libmseed_c.so"
VERSION = (ROOT / "VERSION").read_text(encoding="ascii").strip()
NOTES = "lib/mseed/installed"
# Where ldconfig is, also where the path of a user that became root doesn't name it.
SYSTEM = os.pathsep.join([os.environ.get("PATH", ""), "/usr/sbin", "/sbin"])


class Thing(NamedTuple):
    """What is put at a path: content with a mode, or a link."""

    path: str
    content: bytes = b""
    mode: int = 0o644
    link: str = ""


def copied(path: str, source: Path, mode: int = 0o644) -> Thing:
    """A file as it is."""
    return Thing(path, source.read_bytes(), mode)


def filled(path: str, source: Path, prefix: str) -> Thing:
    """A file in which the version and the prefix are put in."""
    text = source.read_text(encoding="utf-8").replace("@VERSION@", VERSION).replace("@PREFIX@", prefix)
    return Thing(path, text.encode("utf-8"))


def program(built: Path, prefix: str) -> Iterator[Thing]:
    """The program and the tools, which are on the path as `mseed-sds` and the like, with their manual pages and their
    completion for bash, which is looked for by the name of what is completed."""
    completions = f"{prefix}/share/bash-completion/completions"
    yield copied(f"{prefix}/bin/mseed", built, 0o755)
    yield copied(f"{completions}/mseed", ROOT / "completion" / "mseed.bash")
    yield copied(f"{completions}/mseed-tools", ROOT / "completion" / "mseed-tools.bash")
    for page in sorted((ROOT / "man").glob("*.1")):
        yield filled(f"{prefix}/share/man/man1/{page.name}", page, prefix)
    for source in sorted((ROOT / "tools" / "mseed_tools").rglob("*.py")):
        yield copied(f"{prefix}/lib/mseed/tools/{source.relative_to(ROOT / 'tools')}", source)
    for tool in sorted((ROOT / "tools").iterdir()):
        if tool.is_file() and os.access(tool, os.X_OK):
            yield copied(f"{prefix}/lib/mseed/tools/{tool.name}", tool, 0o755)
            name = f"mseed-{tool.name.replace('_', '-')}"
            yield Thing(f"{prefix}/bin/{name}", link=f"../lib/mseed/tools/{tool.name}")
            yield Thing(f"{completions}/{name}", link="mseed-tools")


def library(built: Path, prefix: str, python_dir: str) -> Iterator[Thing]:
    """The library with its header, by pkg-config, and the package for Python."""
    yield copied(f"{prefix}/include/mseed.h", ROOT / "include" / "mseed.h")
    yield copied(f"{prefix}/lib/libmseed_c.a", built / "libmseed_c.a")
    yield copied(f"{prefix}/lib/{SHARED}", built / SHARED, 0o755)
    yield filled(f"{prefix}/lib/pkgconfig/mseed.pc", ROOT / "include" / "mseed.pc.in", prefix)
    for source in sorted((ROOT / "python" / "mseed").iterdir()):
        if source.is_file():
            yield copied(f"{python_dir}/mseed/{source.name}", source)


class Root:
    """The files below a root, and what was noted of them."""

    def __init__(self, destdir: str, prefix: str) -> None:
        self.destdir, self.notes = destdir, f"{prefix}/{NOTES}"
        try:
            text = Path(self.at(self.notes)).read_text(encoding="utf-8")
        except FileNotFoundError:
            text = ""
        self.noted = dict.fromkeys(text.splitlines())

    def at(self, path: str) -> str:
        """Where a path is below the root."""
        return self.destdir + path

    def make_folder(self, path: str) -> None:
        """Makes a folder, and those above it, that of the root too."""
        if os.path.isdir(self.at(path)):
            return
        if path in ("", "/"):
            if self.destdir:
                os.makedirs(self.destdir, exist_ok=True)
            return
        self.make_folder(os.path.dirname(path))
        os.mkdir(self.at(path))
        os.chmod(self.at(path), 0o755)
        self.noted[f"{path}/"] = None

    def put(self, thing: Thing) -> None:
        """Puts a file or a link, in the place of what was there."""
        self.make_folder(os.path.dirname(thing.path))
        new = f"{self.at(thing.path)}.new"
        # What a run that was killed has begun.
        with contextlib.suppress(FileNotFoundError):
            os.unlink(new)
        if thing.link:
            os.symlink(thing.link, new)
        else:
            Path(new).write_bytes(thing.content)
            os.chmod(new, thing.mode)
        os.replace(new, self.at(thing.path))
        self.noted[thing.path] = None

    def note(self) -> None:
        """Writes what is noted."""
        self.make_folder(os.path.dirname(self.notes))
        self.noted[self.notes] = None
        self.put(Thing(self.notes, "".join(f"{path}\n" for path in self.noted).encode("utf-8")))

    def remove(self) -> None:
        """Removes what is noted, with what Python made of it, and folders that are empty then."""
        for path in self.noted:
            if not path.endswith("/") and os.path.lexists(self.at(path)):
                os.unlink(self.at(path))
        for path in sorted((path for path in self.noted if path.endswith("/")), reverse=True):
            shutil.rmtree(f"{self.at(path)}__pycache__", ignore_errors=True)
            if os.path.isdir(self.at(path)) and not os.listdir(self.at(path)):
                os.rmdir(self.at(path))


def ldconfig(*words: str) -> Optional[str]:
    """What `ldconfig` prints; nothing where it isn't there, or may not do that."""
    found = shutil.which("ldconfig", path=SYSTEM)
    if found is None:
        return None
    run = subprocess.run([found, *words], stdout=subprocess.PIPE, stderr=subprocess.DEVNULL, text=True, check=False)
    return run.stdout if run.returncode == 0 else None


def refresh(destdir: str) -> None:
    """Makes the system's loader look anew, where that may be."""
    if not destdir and os.geteuid() == 0:
        ldconfig()


def report_library(given: argparse.Namespace) -> None:
    """Says where the library is, and what programs and Python need to find it, if anything."""
    lib = f"{given.prefix}/lib"
    print(f"Installed the library in {given.destdir}{lib}, mseed.h, and the Python package in "
          f"{given.destdir}{given.python_dir}.")
    if given.destdir or f"=> {lib}/{SHARED}\n" not in (ldconfig("-p") or ""):
        print(f"Programs find the library once root has run ldconfig, if that looks in {lib}; else by "
              f"LD_LIBRARY_PATH={lib}.")
    if given.python_dir not in [*site.getsitepackages(), site.getusersitepackages()]:
        print(f"{sys.executable} finds the package by PYTHONPATH={given.python_dir}.")


def given_words() -> argparse.Namespace:
    """What the arguments ask for."""
    parser = argparse.ArgumentParser(description="Puts what was built in its place, and takes it away again.")
    parser.add_argument("work", choices=["program", "library", "uninstall"])
    parser.add_argument("built", type=Path, nargs="?")
    parser.add_argument("--prefix", required=True)
    parser.add_argument("--destdir", default="")
    parser.add_argument("--python-dir", default="")
    given = parser.parse_args()
    given.prefix = os.path.abspath(given.prefix).rstrip("/")
    given.destdir = given.destdir and os.path.abspath(given.destdir).rstrip("/")
    return given


def main() -> int:
    """Does what the arguments ask for."""
    given = given_words()
    root = Root(given.destdir, given.prefix)
    if given.work == "uninstall":
        if not root.noted:
            print(f"Nothing is installed: {root.at(root.notes)} isn't there.", file=sys.stderr)
            return 1
        root.remove()
        refresh(given.destdir)
        print(f"Removed what was installed below {given.destdir}{given.prefix}.")
        return 0
    is_program = given.work == "program"
    try:
        for thing in program(given.built, given.prefix) if is_program else library(given.built, given.prefix,
                                                                                  given.python_dir):
            root.put(thing)
    finally:
        # What was put is taken away by `uninstall`, also where it isn't all.
        if root.noted:
            root.note()
    if is_program:
        print(f"Installed {given.destdir}{given.prefix}/bin/mseed, its pages, and the tools as mseed-sds and the like.")
        return 0
    refresh(given.destdir)
    report_library(given)
    return 0


if __name__ == "__main__":
    try:
        sys.exit(main())
    except OSError as error:
        sys.exit(f"install: {error.filename}: {error.strerror}")
