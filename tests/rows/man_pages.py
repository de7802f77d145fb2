"""The manual pages: each is without a warning of mandoc or man, each command that it shows prints what stands there,
and the options that the page of a command names are those of the command's help, which has an example. The help of the
program says at once how a file is named; the version is that of the file VERSION."""

from __future__ import annotations

import re
import tempfile

from documents.manual import EXAMPLES, PAGES, options_named, printed, warnings
from driver.program import ROOT
from driver.rows import Cases, Fact, Row, Skipped, holds


def help_of(command: str) -> str:
    """The help of a command."""
    return Row("", b"", [command, "--help"], 3).run().err.decode()


def options_of(text: str) -> set[str]:
    """The options that a help lists, but for that which asks for it."""
    return set(re.findall(r"^ +--([a-z][a-z-]*)", text, re.MULTILINE)) - {"help"}


def texts() -> Cases:
    """The help and the version, which the parser writes to standard error, with status 3."""
    found = {}
    for word in ("--help", "--version"):
        run = Row("", b"", [word], 3).run()
        yield Fact(f"{word} has status 3, and no output", (3, b""), (run.status, run.out))
        found[word] = run.err.decode()
    first = found["--help"].splitlines()[1]
    yield holds("the help says at once how a file is named", "mseed audit my.mseed" in first, first)
    for page in PAGES:
        command = page.stem.partition("-")[2]
        if command:
            text = help_of(command)
            example = re.search(rf"^ +mseed {command} .*\.(mseed|part)$", text, re.MULTILINE)
            yield holds(f"the help has an example of {command}", example, text)
            yield Fact(f"the options of the page of {command}, and of its help",
                       sorted(options_named(page.read_text(encoding="utf-8"))), sorted(options_of(text)))
    version = (ROOT / "VERSION").read_text(encoding="utf-8")
    yield Fact("the version is that of VERSION", f"mseed {version}", found["--version"])


def rows() -> Cases:
    """All of them."""
    for page in PAGES:
        text, found = page.read_text(encoding="utf-8"), warnings(page)
        if found is None:
            yield Skipped(f"the form of {page.name}", "mandoc or man")
        else:
            yield Fact(f"the form of {page.name}", "", found)
        versions = text.count(".Os mseed @VERSION@\n")
        yield Fact(f"{page.name}: its version is put in by `make install`", 1, versions)
        with tempfile.TemporaryDirectory() as folder:
            for number, block in enumerate(EXAMPLES.findall(text), 1):
                yield Fact(f"{page.name}: example {number}", block, printed(block, folder))
    yield from texts()
