"""The manual pages of the tools and their completion for bash are those that follow from what the tools take, which is
what their help says; a page has no warning of mandoc or man, and the completion proposes the options of each tool, the
values of those that have few, and files."""

from __future__ import annotations

import re
import subprocess
from typing import Iterator

from documents.manual import PAGES, warnings
from documents.tool_pages import COMPLETION, tool_pages, undated, written
from documents.tool_words import Tool, installed_name, paths, tools
from driver.program import ROOT
from driver.rows import Cases, Fact, Skipped, holds
from driver.tools import tool
from rows.completion import COMMANDS, SCRIPT, Proposed

MEND = "tests/tool_pages.py writes it anew"


def pages(of: list[Tool]) -> Cases:
    """Each page, and the completion, as it should be."""
    for path, text in written(of).items():
        came = path.read_text(encoding="utf-8") if path.exists() else None
        yield Fact(f"{path.relative_to(ROOT)}: {MEND}", undated(text), came and undated(came))
    for page in tool_pages():
        found = warnings(page)
        if found is None:
            yield Skipped(f"the form of {page.name}", "mandoc or man")
        else:
            yield Fact(f"the form of {page.name}", "", found)
        first = page.read_text(encoding="utf-8").split("\n")[0]
        yield holds(f"{page.name} has a date", re.fullmatch(r"\.Dd [A-Z][a-z]+ \d+, \d{4}", first), first)
    commands = [page.stem.partition("-")[2] for page in PAGES]
    yield Fact("the other pages are those of the program and of its commands", sorted(["", *COMMANDS]),
               sorted(commands))


def in_help(of: Tool, name: str) -> Cases:
    """What is said of a tool is what its help says: each option with its value, and each other argument."""
    help_of = tool(name, "--help").out.decode()
    listed = re.findall(r"^  ((?:-\S+(?: [^ ,]+)?, )*-\S+)(?: (\S+))?(?:  .*)?$", help_of, re.MULTILINE)
    came = [(re.findall(r"(?<!\S)--?[a-z][a-z-]*", options), value) for options, value in listed]
    wanted = [(word.options, "{" + ",".join(word.choices) + "}" if word.choices else word.value)
              for word in of.words if word.options]
    yield Fact(f"the options in the help of {name}", sorted(wanted), sorted(came))
    page = next(page for page in tool_pages() if page.stem == of.name).read_text(encoding="utf-8")
    for word in of.words:
        names = [f"Fl {option[1:]}" for option in word.options] or [f"Ar {word.value}"]
        item = re.escape(".It " + " , ".join(names))
        yield holds(f"{of.name}: {names[-1]} in its page", re.search(rf"^{item}( Ar .*)?$", page, re.MULTILINE), page)


def proposed_for(*words: str) -> Proposed:
    """What is proposed for the last of these arguments, of which the first is the program's name."""
    script = SCRIPT.replace("\n_mseed\n", "\n_mseed_tool\n")
    run = subprocess.run(["bash", "-c", script, str(COMPLETION), *words], stdin=subprocess.DEVNULL,
                         stdout=subprocess.PIPE, stderr=subprocess.STDOUT, text=True, check=False)
    files, *found = run.stdout.splitlines()
    found = sorted(word for word in found if word)
    return Proposed(found, not found and files == "files")


def completions(of: Tool) -> Iterator[tuple[list[str], list[str], bool]]:
    """Arguments of a tool, what is proposed for the last of them, and whether files are."""
    yield ["-"], sorted(option for word in of.words for option in word.options), False
    yield [""], [], True
    yield ["a"], [], True
    yield ["--", "-"], [], True
    yield ["--no-such", "<", "-"], [], True
    for word in of.words:
        for option in word.options:
            if word.value and word.choices:
                yield [option, ""], sorted(word.choices), False
            elif word.value:
                yield [option, ""], [], word.is_file()
                yield [option, "=", "x"], [], word.is_file()
            else:
                yield [option, ""], [], True


def rows() -> Cases:
    """All of them."""
    every = tools()
    yield from pages(every)
    for one, path in zip(every, paths()):
        yield Fact(f"the name of {path.name}", installed_name(path), one.name)
        yield from in_help(one, path.name)
        for words, wanted, is_files in completions(one):
            yield Fact(f"{one.name} {' '.join(words)}", Proposed(wanted, is_files), proposed_for(one.name, *words))
    text = COMPLETION.read_text(encoding="utf-8")
    named = re.search(r"^complete .* _mseed_tool ((?:.*\\\n)*.*)$", text, re.MULTILINE)
    yield Fact("what is completed", [one.name for one in every], named[1].replace("\\", "").split() if named else None)
