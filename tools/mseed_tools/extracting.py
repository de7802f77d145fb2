"""Records out of a tree: request by request, channel by channel, and then by day."""

from __future__ import annotations

import datetime
import itertools
import os
from collections import OrderedDict, deque
from typing import Callable, Deque, Iterable, Iterator, NamedTuple, Optional, Sequence

from mseed_tools.asking import Asked, Request
from mseed_tools.files import opened
from mseed_tools.program import Program, ToolError
from mseed_tools.searching import Search, everywhere
from mseed_tools.selecting import AT_ONCE, Selection
from mseed_tools.spans import Spans, joined
from mseed_tools.tree import DayFile

# Of so many files it is kept which of their records were written, where several requests ask for these.
MOST_KEPT = 1024


class Source(NamedTuple):
    """A file that is read for a request, by the number of that request."""

    number: int
    file: DayFile


class Extraction:
    """What is asked for out of a tree. What reading was faulty is told as it is found."""

    def __init__(self, program: Program, root: str, requests: Sequence[Request], tell: Callable[[str], None],
                 jobs: int = 1, at_once: int = AT_ONCE, is_everywhere: bool = False,
                 is_gone: Optional[Callable[[], bool]] = None, output: Optional[os.stat_result] = None):
        self.program, self.root, self.tell = program, root, tell
        self.jobs, self.at_once, self.is_everywhere, self.is_gone = jobs, at_once, is_everywhere, is_gone
        self.output, self.search = output, Search(root)
        self.asked = [Asked(request) for request in dict.fromkeys(requests)]
        self.is_faulty, self.without_time = False, 0
        self.unread: set[str] = set()
        # Which records of a file the requests before one of this number have asked for.
        self.written: OrderedDict[str, tuple[int, Spans]] = OrderedDict()

    def sources(self) -> Iterator[Source]:
        """The files that are read, in their order."""
        for number, asked in enumerate(self.asked):
            if self.is_everywhere:
                yield from (Source(number, DayFile(path, "", datetime.date.min)) for path in everywhere(self.root))
                continue
            yield from (Source(number, file) for file in self.search.files(asked))
            for path in sorted(set(self.search.walk.tree.unread) - self.unread):
                self.unread.add(path)
                self.fault(os.path.join(self.root, path), "fault at 0 read")
            self.search.walk.tree.unread.clear()

    def channels(self) -> Iterator[Iterator[bytes]]:
        """The records of each channel for each request, as bytes."""
        for _, sources in itertools.groupby(self.sources(), lambda source: (source.number, source.file.channel)):
            yield self.chunks(sources)

    def chunks(self, sources: Optional[Iterable[Source]] = None) -> Iterator[bytes]:
        """The records, as bytes: those of these files, or of all."""
        waiting: Deque[tuple[Source, Optional[Selection]]] = deque()
        try:
            for source in self.sources() if sources is None else sources:
                waiting.append((source, self.begun(source)))
                if len(waiting) >= self.jobs:
                    yield from self.taken(*waiting[0])
                    waiting.popleft()
            while waiting:
                yield from self.taken(*waiting[0])
                waiting.popleft()
        finally:
            for _, selection in waiting:
                if selection is not None:
                    selection.close()

    def path_of(self, source: Source) -> str:
        """The path of a file."""
        return os.path.join(self.root, source.file.path)

    def selection(self, number: int, command: str, path: str) -> Selection:
        """What is read of a file for a request. Raises ToolError where it is what is written."""
        found = Selection(self.program, [command, *self.asked[number].request.words()], path, self.at_once)
        if found.problem is None and self.output is not None and os.path.samestat(found.status, self.output):
            found.close()
            raise ToolError(f"{path}: is the output")
        return found

    def begun(self, source: Source) -> Optional[Selection]:
        """What is begun to be read of a file; nothing where a request before has read it, and less is left of it."""
        return None if self.before(source) else self.selection(source.number, "select", self.path_of(source))

    def taken(self, source: Source, selection: Optional[Selection]) -> Iterator[bytes]:
        """What is selected of a file."""
        if selection is None:
            yield from self.left(source)
            return
        if selection.problem is not None:
            self.fault(selection.path, "fault at 0 read")
        else:
            yield from selection.chunks(self.is_gone)
        for fault in selection.faults:
            self.fault(selection.path, f"fault at {fault.at} {fault.why}, {fault.skipped} bytes skipped")
        self.without_time += selection.without_time
        selection.close()

    def fault(self, path: str, what: str) -> None:
        """Tells what is faulty in a file or folder."""
        self.is_faulty = True
        self.tell(f"{path}: {what}")

    def before(self, source: Source) -> list[int]:
        """The requests before this one that have read its file."""
        if self.is_everywhere or not source.number:
            return list(range(source.number))
        return [number for number in range(source.number) if self.search.reads(self.asked[number], source.file)]

    def left(self, source: Source) -> Iterator[bytes]:
        """The records of a file that no request before has asked for."""
        path = self.path_of(source)
        done, spans = self.written.pop(path, (0, Spans()))
        for number in self.before(source):
            if number >= done:
                spans.add(self.places(number, path))
        own = list(self.places(source.number, path))
        try:
            with opened(path) as file:
                for begin, end in joined(place for place in own if place[0] not in spans):
                    for at in range(begin, end, self.at_once):
                        yield os.pread(file, min(self.at_once, end - at), at)
        except OSError:
            # The request that came to it first has told so.
            self.is_faulty = True
        spans.add(own)
        self.written[path] = source.number + 1, spans
        if len(self.written) > MOST_KEPT:
            self.written.popitem(last=False)

    def places(self, number: int, path: str) -> Iterator[tuple[int, int]]:
        """Where the records of a file stand that a request asks for; nowhere where it can't be read, of which the
        request that came to it first has told."""
        selection = self.selection(number, "show", path)
        try:
            if selection.problem is None:
                yield from selection.places(self.is_gone)
            else:
                self.is_faulty = True
        finally:
            selection.close()
