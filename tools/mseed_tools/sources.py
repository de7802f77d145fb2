"""What the tools over channels read: files one after another, or the channels of a tree."""

from __future__ import annotations

import argparse
import datetime
import os
from typing import NamedTuple, Sequence

from mseed_tools.command import Parser, tell
from mseed_tools.joining import Channel, Files, joined
from mseed_tools.program import ToolError, find
from mseed_tools.reading import unread
from mseed_tools.report import reports_of
from mseed_tools.running import Bar, in_order
from mseed_tools.state import State
from mseed_tools.tree import DayFile, filled_tree_at


class Source(NamedTuple):
    """Files, what was read of them, the channels over them, and the paths of what isn't read since it stands in no
    place of the layout."""

    files: Files
    channels: list[Channel]
    misplaced: Sequence[str] = ()

    def reported(self) -> bool:
        """Tells what reading was faulty, or wasn't done, on standard error, and whether there was any."""
        lines = []
        for path, reading in zip(self.files.paths, self.files.readings):
            lines += [f"{path}: fault at {fault.at} {fault.why}, {fault.skipped} bytes skipped"
                      for fault in reading.faults]
            lines += [f"{path}: {'changed' if reading.problem == 'changed' else 'fault at 0 read'}"] \
                if reading.problem else []
        lines += [f"{path}: misplaced" for path in self.misplaced]
        for line in lines:
            tell(line)
        return bool(lines)


def sources_of(parser: Parser, given: argparse.Namespace) -> list[Source]:
    """What the paths of the arguments name."""
    folders = [path for path in given.paths if os.path.isdir(path)]
    if folders and len(given.paths) > 1:
        parser.error("a folder stands alone")
    program = find()
    if folders:
        root = folders[0]
        tree, state = filled_tree_at(root), State(given.state, root, program.identity())
        sources = []
        for report in reports_of(program, tree, given.jobs, state):
            paths = [os.path.join(root, file.path) for file in report.files]
            channels = [report.channel] if report.channel else []
            sources.append(Source(Files(program, paths, report.readings), channels))
        paths, misplaced = ([os.path.join(root, path) for path in some] for some in (tree.unread, tree.misplaced))
        return [*sources, Source(Files(program, paths, [unread("read") for _ in paths]), [], misplaced)]
    if given.state:
        parser.error("--state goes with a folder")
    for path in given.paths:
        if not os.path.exists(path):
            raise ToolError(f"{path}: no such file")
    files = [DayFile(path, "", datetime.date.min) for path in given.paths]
    bar = Bar(sum(os.path.getsize(path) for path in given.paths))
    state = State(None, "", program.identity())
    readings = [reading for _, reading in in_order(program, "", files, given.jobs, state, bar)]
    whole = Files(program, list(given.paths), readings)
    return [Source(whole, list(joined(whole).values()))]
