"""What `sds` says of an archive."""

from __future__ import annotations

import datetime
import functools
import itertools
import json
import operator
import os
from typing import Iterator, NamedTuple, Optional

from mseed_tools.command import write
from mseed_tools.covering import Span, absent, merged
from mseed_tools.instants import seconds_of, time_of
from mseed_tools.joining import Channel, Files, joined
from mseed_tools.program import Program, find
from mseed_tools.reading import Reading
from mseed_tools.running import Bar, in_order
from mseed_tools.state import State
from mseed_tools.texts import Found, name_of
from mseed_tools.tree import DayFile, Tree, days_in_words, missing_between, tree_at
from mseed_tools.verdict import keep

NOTHING = ("records 0 samples 0 from none to none gaps 0 0.000000 s absent 0.000000 s overlaps 0 0.000000 s "
           "findings 0")


class ChannelReport(NamedTuple):
    """What there is of a channel: its files with what was read of them, what stands in it, if it has samples, and the
    time that its records cover, by time."""

    name: str
    files: list[DayFile]
    readings: list[Reading]
    channel: Optional[Channel]
    spans: list[Span]

    def days(self) -> set[datetime.date]:
        """The days of which there are records."""
        return {day for reading in self.readings for day in reading.covered.days}

    def begin(self) -> Optional[int]:
        """The first sample's time."""
        return self.spans[0].begin if self.spans else None

    def end(self) -> Optional[int]:
        """The end of the last sample."""
        return int(max(span.end for span in self.spans)) if self.spans else None

    def missing(self) -> list[tuple[str, str]]:
        """The days that are missing, as runs. Logs are written when there is something to say: none of theirs does."""
        if self.channel is None or not self.channel.is_decoded:
            return []
        return days_in_words(missing_between(self.days()))

    def amiss(self) -> Iterator[tuple[str, dict[str, object]]]:
        """What is amiss in each file, by a word, with its values in the order of its line."""
        for file, reading in zip(self.files, self.readings):
            names = {name_of(kept.key): None for piece in reading.pieces for kept in piece.part.channels}
            for name in sorted(names):
                if name != self.name:
                    yield "foreign", {"file": file.path, "channel": name}
            others = [day for day in reading.covered.days if day != file.day]
            if others:
                yield "misdated", {"file": file.path, "days": days_in_words(others)}
            for fault in reading.faults:
                yield "fault", {"file": file.path, "at": fault.at, "fault": fault.why, "skipped": fault.skipped}
            if reading.problem == "read":
                yield "fault", unread_at(file.path)
            elif reading.problem is not None:
                yield reading.problem, {"file": file.path}
            elif reading.stamp.size == 0:
                yield "empty", {"file": file.path}


def unread_at(path: str) -> dict[str, object]:
    """The fault of a file, or of a folder, that can't be read."""
    return {"file": path, "at": 0, "fault": "read", "skipped": 0}


class Audit(NamedTuple):
    """What is reported of a tree."""

    tree: Tree
    reports: list[ChannelReport]

    def totals(self) -> dict[str, int]:
        """The last line."""
        states = [report.channel.state for report in self.reports if report.channel]
        amiss = [word for report in self.reports for word, _ in report.amiss()]
        sizes = [reading.stamp.size for report in self.reports for reading in report.readings]
        return {"files": len(sizes), "bytes": sum(sizes), "channels": len(states),
                **{state: states.count(state) for state in ("continuous", "broken", "undecoded")},
                "faults": amiss.count("fault") + amiss.count("changed") + len(self.tree.unread)}


def reports_of(program: Program, tree: Tree, jobs: int, state: State) -> Iterator[ChannelReport]:
    """What there is of each channel, one after another; a tree is read as far as the reports are taken."""
    bar = Bar(sum(size_of(tree, file) for file in tree.files))
    read = in_order(program, tree.root, tree.files, jobs, state, bar)
    for name, some in itertools.groupby(read, lambda pair: pair[0].channel):
        pairs = list(some)
        files, readings = [file for file, _ in pairs], [reading for _, reading in pairs]
        paths = [os.path.join(tree.root, file.path) for file in files]
        found = joined(Files(program, paths, readings), functools.partial(operator.eq, name))
        spans = merged(span for reading in readings for span in reading.covered.spans)
        yield ChannelReport(name, files, readings, found.get(name), spans)


def size_of(tree: Tree, file: DayFile) -> int:
    """How long a file is, as far as that can be known."""
    try:
        return os.stat(os.path.join(tree.root, file.path)).st_size
    except OSError:
        return 0


def audited(root: str, jobs: int, state: Optional[str]) -> Audit:
    """Audits a tree. Where a folder keeps what was read, it keeps what is said too, before another run may hold it.
    Raises ToolError where it can't, or another run holds it."""
    program = find()
    tree = tree_at(root)
    kept = State(state, root, program.identity())
    audit = Audit(tree, list(reports_of(program, tree, jobs, kept)))
    if state is not None:
        keep(state, summary_of(audit), status_of(audit))
    kept.release()
    return audit


def line_of(report: ChannelReport) -> str:
    """The line of a channel."""
    channel = report.channel
    if channel is None:
        return f"{report.name} days 0 {NOTHING}"
    what = (f"days {len(report.days())} records {channel.records} samples {channel.samples} "
            f"from {time_of(report.begin())} to {time_of(report.end())}")
    if not channel.is_decoded:
        return f"{channel.name} undecoded {what}"
    for kind in ("gap", "overlap"):
        lengths = channel.of_kind(kind)
        what += f" {kind}s {len(lengths)} {seconds_of(sum(lengths))} s"
        what += f" absent {seconds_of(absent(report.spans))} s" if kind == "gap" else ""
    return f"{channel.name} {what} findings {channel.findings}{first_of(report)}"


def first_of(report: ChannelReport) -> str:
    """What is found first in a channel, in the words of an audit, and in which file, where something is."""
    for path, found in findings_of(report):
        return f" first record {found.number} offset {found.offset} {found.why} in {path}"
    return ""


def runs_in_words(runs: list[tuple[str, str]]) -> str:
    """Runs of days."""
    return " ".join(first if first == last else f"{first}..{last}" for first, last in runs)


def lines_of(report: ChannelReport) -> Iterator[str]:
    """The lines of a channel."""
    yield line_of(report)
    if report.missing():
        yield f"  missing {runs_in_words(report.missing())}"
    for word, values in report.amiss():
        if word == "fault":
            yield f"  {fault_in_words(values)}"
        else:
            yield f"  {word} " + " ".join(runs_in_words(value) if isinstance(value, list) else str(value)
                                          for value in values.values())


def fault_in_words(values: dict[str, object]) -> str:
    """A fault."""
    return "fault {file} at {at} {fault}, {skipped} bytes skipped".format(**values)


def findings_of(report: ChannelReport) -> Iterator[tuple[str, Found]]:
    """Each record of a channel with a finding: its file, and what is found."""
    if report.channel and report.channel.is_decoded:
        for at in report.channel.found:
            yield report.files[at.file].path, at.found


def each_of(audit: Audit) -> Iterator[tuple[str, Found]]:
    """Each record with a finding, channel after channel."""
    return (one for report in audit.reports for one in findings_of(report))


def finding_in_json(path: str, found: Found) -> dict[str, object]:
    """A record with a finding, by words."""
    return {"file": path, **found._asdict()}


def print_text(audit: Audit, is_each: bool) -> None:
    """Writes the report."""
    lines = []
    for path, found in each_of(audit) if is_each else ():
        lines.append(f"{path} {found.offset} {found.name} record {found.number} start {found.start} {found.why}")
    write("".join(f"{line}\n" for line in [*lines, *summary_of(audit)]))


def summary_of(audit: Audit) -> list[str]:
    """The lines of the channels, and those after them."""
    lines = [line for report in audit.reports for line in lines_of(report)]
    lines += [fault_in_words(unread_at(path)) for path in audit.tree.unread]
    lines += [f"misplaced {path}" for path in audit.tree.misplaced]
    return [*lines, " ".join(f"{word} {number}" for word, number in audit.totals().items())]


def channel_in_json(report: ChannelReport) -> dict[str, object]:
    """What is reported of a channel, by the words of its line."""
    channel = report.channel
    outcome: dict[str, object] = {"channel": report.name, "state": channel.state if channel else "empty",
                                  "days": len(report.days()), "records": channel.records if channel else 0,
                                  "samples": channel.samples if channel else 0,
                                  "from": report.begin(), "to": report.end()}
    for kind in ("gap", "overlap") if channel is None or channel.is_decoded else ():
        lengths = channel.of_kind(kind) if channel else []
        outcome[f"{kind}s"] = {"count": len(lengths), "microseconds": sum(lengths)}
    if channel is None or channel.is_decoded:
        outcome["absent"] = absent(report.spans)
        outcome["findings"] = channel.findings if channel else 0
        outcome["first"] = next((finding_in_json(*one) for one in findings_of(report)), None)
    outcome["missing"] = [list(run) for run in report.missing()]
    for word in ("foreign", "misdated", "fault", "changed", "empty"):
        outcome[word] = [values for other, values in report.amiss() if other == word]
    return outcome


def print_json(audit: Audit, is_each: bool) -> None:
    """Writes the report as JSON."""
    outcome: dict[str, object] = {"channels": [channel_in_json(report) for report in audit.reports],
                                  "fault": [unread_at(path) for path in audit.tree.unread],
                                  "misplaced": audit.tree.misplaced, "total": audit.totals()}
    if is_each:
        outcome["each"] = [finding_in_json(*one) for one in each_of(audit)]
    write(json.dumps(outcome, indent=1) + "\n")


def status_of(audit: Audit) -> int:
    """The status: that of an audit."""
    totals = audit.totals()
    words = {word for report in audit.reports for word, _ in report.amiss()}
    if totals["faults"]:
        return 2
    return 1 if totals["broken"] or words & {"foreign", "misdated"} or audit.tree.misplaced else 0
