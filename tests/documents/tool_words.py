"""What the tools take, as their own parsers have it: a tool is each program in `tools`, and what is said of one follows
from its file alone."""

from __future__ import annotations

import argparse
import importlib.machinery
import importlib.util
import os
import sys
from pathlib import Path
from typing import Iterator, NamedTuple, NoReturn, Optional
from unittest import mock

from driver.program import ROOT

TOOLS = ROOT / "tools"
# Values that are the names of files or folders.
FILES = ("FILE", "FOLDER", "OUT", "PATH", "ROOT")


class Found(Exception):
    """A parser that was about to read a command line."""

    def __init__(self, parser: argparse.ArgumentParser):
        super().__init__(parser.prog)
        self.parser = parser


class Word(NamedTuple):
    """An argument: the options by which it is given, none of one that stands by itself; the name of its value, if it
    has one, the values that there are, where these are few, and its help; whether it has to be there, how often it may
    be, and the group of which one excludes the others."""

    options: list[str]
    value: str
    choices: list[str]
    help: str
    is_required: bool
    count: Optional[str]
    group: int

    def is_file(self) -> bool:
        """Whether its value is the name of a file or of a folder."""
        return self.value in FILES

    def first(self) -> str:
        """The option by which it is named: the long one."""
        return next((option for option in self.options if option.startswith("--")), self.options[0])


class Tool(NamedTuple):
    """A tool: the name by which it is installed, what its help says before and after its arguments, and these."""

    name: str
    about: str
    after: str
    words: list[Word]


def paths() -> list[Path]:
    """The tools."""
    return sorted(path for path in TOOLS.iterdir() if path.is_file() and os.access(path, os.X_OK))


def installed_name(path: Path) -> str:
    """The name by which `make install` puts a tool on the path."""
    return f"mseed-{path.name.replace('_', '-')}"


def parser_of(path: Path) -> argparse.ArgumentParser:
    """The parser of a tool, which is run as far as to it."""
    if str(TOOLS) not in sys.path:
        sys.path.insert(0, str(TOOLS))
    name = f"tool_{path.name}"
    loader = importlib.machinery.SourceFileLoader(name, str(path))
    spec = importlib.util.spec_from_loader(name, loader)
    assert spec is not None
    module = importlib.util.module_from_spec(spec)

    def found(self: argparse.ArgumentParser, *_: object, **__: object) -> NoReturn:
        raise Found(self)

    with mock.patch.object(sys, "argv", [installed_name(path)]), mock.patch.object(sys, "dont_write_bytecode", True), \
            mock.patch("mseed_tools.command.Parser.parse_args", found):
        loader.exec_module(module)
        try:
            module.main()
        except Found as one:
            return one.parser
    raise ValueError(f"{path}: reads no command line")


def words_of(parser: argparse.ArgumentParser) -> Iterator[Word]:
    """The arguments of a parser."""
    groups = {id(action): number for number, group in enumerate(parser._mutually_exclusive_groups, 1)
              for action in group._group_actions}
    formatter = parser._get_formatter()
    for action in parser._actions:
        has_value = action.nargs != 0
        named = action.metavar or (action.dest.upper() if action.option_strings else action.dest)
        assert action.help, action
        text = formatter._expand_help(action)
        yield Word(list(action.option_strings), str(named) if has_value else "", list(map(str, action.choices or ())),
                   text, action.required, str(action.nargs) if action.nargs in ("*", "+", "?") else None,
                   groups.get(id(action), 0))


def tool_at(path: Path) -> Tool:
    """A tool."""
    parser = parser_of(path)
    return Tool(installed_name(path), parser.description or "", parser.epilog or "", list(words_of(parser)))


def tools() -> list[Tool]:
    """All of them."""
    return [tool_at(path) for path in paths()]
