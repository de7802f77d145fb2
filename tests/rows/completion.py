"""The completion for bash: it proposes the commands and the options that the help names, of each command those of its
manual page, the values of those that have few, and files where a command takes files."""

from __future__ import annotations

import re
import subprocess
from typing import Iterator, NamedTuple

from documents.manual import PAGES, options_named
from driver.program import ROOT
from driver.rows import Cases, Fact, Row

COMPLETION = ROOT / "completion" / "mseed.bash"
COMMANDS = ["audit", "join", "show", "select", "repack", "serve", "fetch"]
FEED = ["serve", "fetch"]

# What is proposed for the last of the arguments, and whether files would be, if nothing is.
SCRIPT = """
compopt() { files=; }
complete() { :; }
. "$0"
files=files COMP_WORDS=("$@") COMP_CWORD=$(($# - 1))
_mseed
printf '%s\\n' "$files" "${COMPREPLY[@]}"
"""


class Proposed(NamedTuple):
    """What is proposed."""

    words: list[str]
    is_files: bool


def proposed_for(*words: str) -> Proposed:
    """What is proposed for the last of these arguments, those after the program's name."""
    run = subprocess.run(["bash", "-c", SCRIPT, str(COMPLETION), "mseed", *words], stdin=subprocess.DEVNULL,
                         stdout=subprocess.PIPE, stderr=subprocess.STDOUT, text=True, check=False)
    files, *found = run.stdout.splitlines()
    found = sorted(word for word in found if word)
    return Proposed(found, not found and files == "files")


def options() -> Cases:
    """The options are those of the help, and of each command those of its page."""
    overview = Row("", b"", ["--help"], 3).run().err.decode()
    commands = re.findall(r"^  ([a-z]+)  +[a-z]", overview.partition("Commands:")[2], re.MULTILINE)
    yield Fact("the commands are those of the help", sorted([*commands, "--help", "--version"]), proposed_for("").words)
    for page in PAGES:
        command = page.stem.partition("-")[2]
        if command:
            wanted = sorted(f"--{option}" for option in options_named(page.read_text(encoding="utf-8")))
            yield Fact(f"the options of {command}", wanted, proposed_for(command, "-").words)
            text = Row("", b"", [command, "--help"], 3).run().err.decode()
            listed = set(re.findall(r"^ +(--[a-z][a-z-]*)", text, re.MULTILINE)) - {"--help"}
            yield Fact(f"the options of {command}, by its help", sorted(listed), proposed_for(command, "--").words)


def values() -> Iterator[tuple[list[str], list[str], bool]]:
    """Words, what is proposed for the last of them, and whether files are."""
    yield [""], sorted([*COMMANDS, "--help", "--version"]), False
    yield ["s"], ["select", "serve", "show"], False
    yield ["x"], [], False
    yield ["--e"], [], False
    for command in COMMANDS:
        is_of_files = command not in FEED
        yield [command, ""], [], is_of_files
        yield [command, "a"], [], is_of_files
        yield [command, "--", "-"], [], is_of_files
        yield [command, "<", "-"], [], True
        yield [command, ">>", ""], [], True
    yield ["audit", "join", "--e"], ["--each"], False
    yield ["-x", "audit", "--e"], [], False
    yield ["join", "--e"], ["--each", "--expect"], False
    yield ["join", "--expect", ""], [], False
    yield ["join", "--expect", "2", ""], [], True
    yield ["select", "--"], ["--channels", "--from", "--until"], False
    yield ["select", "--from", ""], [], False
    yield ["select", "--until", "2024-05-14", ""], [], True
    yield ["show", "--channels", ""], [], False
    yield ["repack", "--length", ""], ["1024", "128", "2048", "256", "4096", "512"], False
    yield ["repack", "--length", "=", ""], ["1024", "128", "2048", "256", "4096", "512"], False
    yield ["repack", "--length", "="], ["1024", "128", "2048", "256", "4096", "512"], False
    yield ["repack", "--length", "=", "5"], ["512"], False
    yield ["repack", "--encoding", "steim"], ["steim1", "steim2"], False
    yield ["repack", "--encoding", "steim1", "my"], [], True
    yield ["serve", "--li"], ["--live"], False
    yield ["serve", "--address", ""], [], False
    yield ["fetch", "--port", ""], [], False


def rows() -> Cases:
    """All of them."""
    yield from options()
    for words, wanted, is_files in values():
        yield Fact(f"mseed {' '.join(words)}", Proposed(wanted, is_files), proposed_for(*words))
