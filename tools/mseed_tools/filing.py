"""Records that are put into a tree, each at the end of the file of its day, and each once.

A file's length is kept in the ledger before anything is added to it, and again once what was added is on the disk. So a
run that didn't end, whether it or the machine was stopped, leaves files that are cut back to what was kept.
"""

from __future__ import annotations

import bisect
import contextlib
import datetime
import operator
import os
import time
from collections import defaultdict
from typing import Optional

from mseed_tools.filed import ALWAYS, UNFILED, Counts, Filed, stamp_of
from mseed_tools.files import locked, open_at_once
from mseed_tools.folders import Folders, is_cut, opened_to_read, opened_to_write, sync_folder
from mseed_tools.judged import NO_TIME, Judged, judged, mark_of, pieces_of
from mseed_tools.ledger import Ledger, Stamp
from mseed_tools.program import Program, ToolError
from mseed_tools.tree import path_of, tree_at

FOLDER = ".mseed"
# So many bytes wait to be written, so many files are open, if the system lets them be, and remembered, and so many
# digests are held, about 120 MB.
MOST_WAITING, MOST_OPEN, MOST_FILES, MOST_MARKS = 2**23, 1024, 2**16, 2**20
# A run takes fewer files than these besides.
OTHERS = 16
# What was taken is committed after so many bytes, or seconds.
MOST_ADDED, LONGEST = 2**27, 5.0
# Records of a feed that aren't framed stand at multiples of this.
STEP, LENGTH = 128, 512


class Filing:
    """A tree into which this process alone puts records. What was put lasts once it is committed; where a block over it
    is left by an error, all behind the last commit is taken back."""

    def __init__(self, program: Program, root: str):
        self.program, self.root = program, root.rstrip("/") or "/"
        self.places: dict[tuple[str, str], Filed] = {}
        self.files: dict[str, Filed] = {}
        self.written: dict[str, Filed] = {}
        self.waiting: list[Filed] = []
        self.size = self.open = self.added = self.held = 0
        self.most_open = max(1, open_at_once(MOST_OPEN + OTHERS) - OTHERS)
        self.begun = time.monotonic()
        self.counts = self.committed = Counts()
        self.folders = Folders(self.root)
        folder = self.at(FOLDER)
        if os.path.isdir(self.root) and not os.path.isdir(folder):
            # A folder within an archive is no root of one.
            tree_at(self.root)
        self.folders.make(folder)
        self.lock = locked(os.path.join(folder, "lock"))
        self.ledger = Ledger(os.path.join(folder, "kept.sqlite3"))
        self.folders.use(folder)
        self.folders.sync()
        with contextlib.suppress(PermissionError):
            sync_folder(os.path.dirname(os.path.realpath(self.root)))
        self.cut_back()

    def __enter__(self) -> Filing:
        return self

    def __exit__(self, kind: object, error: object, trace: object) -> None:
        try:
            if kind is None:
                self.commit()
                self.ledger.close_files()
                self.ledger.close()
                return
        except BaseException:
            self.give_up()
            raise
        self.give_up()

    def at(self, path: str) -> str:
        """Where a path below the root is."""
        return os.path.join(self.root, path)

    def give_up(self) -> None:
        """Takes back what wasn't committed. Where that can't be done now, the next run does it first."""
        with contextlib.suppress(OSError, ToolError):
            for file in self.written.values():
                self.close(file)
            self.ledger.roll_back()
            self.cut_back()
            self.ledger.close()

    def cut_back(self) -> None:
        """Cuts the files that a run which didn't end has left longer than it kept."""
        kept = self.ledger.open_files()
        changed = [path for path, length in kept if not is_cut(self.at(path), length)]
        if kept:
            self.ledger.close_files(changed)

    def take(self, content: bytes, found: Judged) -> None:
        """Takes the records of some bytes. Those of a channel of which each begins later than all before in its file
        are added as they stand: none of them can be there already. Any other is looked for."""
        channels: defaultdict[str, list[int]] = defaultdict(list)
        for place, name in enumerate(found.names):
            channels[name].append(place)
        others: list[int] = []
        for name, places in channels.items():
            others += self.take_later(name, places, content, found)
        known = unfiled = 0
        for place in sorted(others):
            file, is_known = self.take_one(place, content, found)
            known += is_known and file.path != UNFILED
            unfiled += file.path == UNFILED
        count = len(found.names)
        self.count(Counts(count, count - known - unfiled, known, unfiled))
        if self.size >= MOST_WAITING:
            self.write_out()

    def take_later(self, name: str, places: list[int], content: bytes, found: Judged) -> list[int]:
        """Takes the records of a channel, of which each begins later than all before. Gives those that it leaves."""
        offsets, starts, at = found.offsets, [found.starts[place] for place in places], 0
        if not all(map(operator.lt, starts, starts[1:])):
            return places
        while at < len(places):
            file = self.placed(name, starts[at])
            if file.marks is not None or starts[at] <= file.latest:
                break
            end = bisect.bisect_left(starts, file.end, at)
            file.latest, first, last = starts[end - 1], places[at], places[end - 1]
            if last - first == end - 1 - at:
                self.wait(file, [content[offsets[first] : offsets[last + 1]]])
            else:
                self.wait(file, [content[offsets[place] : offsets[place + 1]] for place in places[at:end]])
            at = end
        return places[at:]

    def take_one(self, place: int, content: bytes, found: Judged) -> tuple[Filed, bool]:
        """Takes a record. Its file, and whether it stands there already."""
        record = content[found.offsets[place] : found.offsets[place + 1]]
        file = self.placed(found.names[place], found.starts[place])
        is_known = self.is_known(file, found.starts[place], record)
        if not is_known:
            self.wait(file, [record])
        return file, is_known

    def wait(self, file: Filed, parts: list[bytes]) -> None:
        """Lets records wait until they are written."""
        if not file.parts:
            self.waiting.append(file)
        file.parts += parts
        self.size += sum(map(len, parts))

    def count(self, more: Counts) -> None:
        """Counts more records."""
        self.counts = Counts(*(before + new for before, new in zip(self.counts, more)))

    def placed(self, name: str, start: str) -> Filed:
        """The file of a channel's day."""
        day = start[:10]
        file = self.places.get((name, day))
        if file is None:
            is_known = not start.startswith(NO_TIME)
            path = path_of(name.split("_"), datetime.date.fromisoformat(day)) if is_known else None
            file = self.files.get(path or UNFILED) or self.met(path or UNFILED)
            file.end = f"{day}~" if path else ""
            self.places[name, day] = file
        return file

    def met(self, path: str) -> Filed:
        """A file as it stands in the tree. Where it is as it was kept, it isn't read."""
        file = Filed(path)
        try:
            file.stamp = stamp_of(os.stat(self.at(path)))
        except FileNotFoundError:
            file.stamp = None
        if file.stamp is not None:
            kept = self.ledger.kept(path)
            if kept is not None and kept.stamp == file.stamp:
                file.length, file.latest = file.stamp.length, kept.latest
            else:
                self.read(file)
        self.files[path] = file
        return file

    def read(self, file: Filed) -> None:
        """Reads which start is the latest in a file. Raises ToolError where it doesn't end where a record ends: what is
        added there would be lost on readers."""
        whole = self.at(file.path)
        with opened_to_read(whole) as descriptor:
            file.stamp = stamp_of(os.fstat(descriptor))
            file.length = file.stamp.length
            if file.path == UNFILED:
                return
            at, end = 0, 0
            fault: Optional[str] = None
            for at, piece in pieces_of(self.program, descriptor, file.length):
                end, fault = at + piece.end, piece.fault
                file.latest = max(file.latest, piece.latest())
        if fault is not None:
            raise ToolError(f"{whole}: fault at {end} {fault}: cut it there, or take it away; nothing is added to a "
                            "file that doesn't end where a record ends")

    def is_known(self, file: Filed, start: str, record: bytes) -> bool:
        """Whether a record stands in a file, or waits to be written; if not, it does from here on. One that begins
        later than all others can't."""
        if file.marks is None:
            if start > file.latest:
                file.latest = start
                return False
            if file.parts:
                self.write_out()
            file.marks = self.marks_of(file)
            self.held += len(file.marks)
            self.shed(file)
        mark = mark_of(record)
        if mark in file.marks:
            return True
        file.marks.add(mark)
        self.held += 1
        file.latest = max(file.latest, start) if file.path != UNFILED else ALWAYS
        return False

    def marks_of(self, file: Filed) -> set[bytes]:
        """The digests of a file's records. What is in the file lasts from here on, since a feed goes on behind what is
        known."""
        marks: set[bytes] = set()
        if file.length == 0:
            return marks
        with opened_to_read(self.at(file.path)) as descriptor:
            os.fsync(descriptor)
            for at, piece in pieces_of(self.program, descriptor, file.length):
                with open(descriptor, "rb", buffering=2**20, closefd=False) as records:
                    records.seek(at)
                    marks.update(mark_of(records.read(end - begin))
                                 for begin, end in zip(piece.offsets, piece.offsets[1:]))
            if file.path == UNFILED:
                with open(descriptor, "rb", closefd=False) as records:
                    records.seek(0)
                    content = records.read()
                marks.update(mark_of(content[at : at + LENGTH]) for at in range(0, len(content) - LENGTH + 1, STEP))
        self.folders.use(os.path.dirname(self.at(file.path)))
        return marks

    def shed(self, file: Optional[Filed] = None) -> None:
        """Drops the digests of files, but for one of them, as long as there are too many; they can be had again."""
        for one in list(self.files.values()) if self.held > MOST_MARKS else ():
            if one.marks is not None and one is not file and self.held > MOST_MARKS:
                self.held -= len(one.marks)
                one.marks = None

    def write_out(self) -> None:
        """Adds to the files what waits. The lengths of those that this run hasn't added to are kept first."""
        waiting, self.waiting, self.size = self.waiting, [], 0
        for file in waiting:
            if file.path not in self.written:
                self.confirm(file)
        fresh = [file for file in waiting if not file.is_begun]
        if fresh:
            self.ledger.keep(file.kept() for file in fresh)
        for file in fresh:
            file.is_begun = True
        for file in waiting:
            self.add(file)

    def confirm(self, file: Filed) -> None:
        """Looks at a file anew where somebody else has changed it."""
        try:
            stamp: Optional[Stamp] = stamp_of(os.stat(self.at(file.path)))
        except FileNotFoundError:
            stamp = None
        if stamp == file.stamp:
            return
        records, file.parts, file.is_begun = self.records_in(file), [], False
        self.held, file.marks = self.held - len(file.marks or ()), None
        file.stamp, file.length = None, 0
        if stamp is not None:
            self.read(file)
        file.parts = [record for start, record in records if not self.is_known(file, start, record)]
        if file.path != UNFILED:
            self.count(Counts(0, len(file.parts) - len(records), len(records) - len(file.parts), 0))

    def records_in(self, file: Filed) -> list[tuple[str, bytes]]:
        """The records that wait for a file, to be looked for in it."""
        if file.path == UNFILED:
            return [(NO_TIME, part) for part in file.parts]
        content = b"".join(file.parts)
        offsets = judged(self.program, content).offsets
        return [("", content[begin:end]) for begin, end in zip(offsets, offsets[1:])]

    def add(self, file: Filed) -> None:
        """Writes at the end of a file what waits for it."""
        whole, content = self.at(file.path), b"".join(file.parts)
        file.parts = []
        try:
            if file.file is None:
                self.open_file(file, whole)
            view = memoryview(content)
            while view and file.file is not None:
                view = view[os.write(file.file, view):]
        except OSError as error:
            raise OSError(error.errno, error.strerror, error.filename or whole) from error
        file.length += len(content)
        self.added += len(content)

    def open_file(self, file: Filed, whole: str) -> None:
        """Opens a file to add to it, and makes it where it isn't there."""
        if self.open >= self.most_open:
            self.sync_files()
        folder, is_new = os.path.dirname(whole), not os.path.exists(whole)
        if is_new:
            self.folders.make(folder)
        file.file = opened_to_write(whole, os.O_WRONLY | os.O_APPEND | os.O_CREAT)
        self.open += 1
        self.written[file.path] = file
        self.folders.use(folder)
        if is_new:
            self.folders.changed.add(folder)
        status = os.fstat(file.file)
        file.inode = status.st_ino
        if status.st_size != file.length:
            raise ToolError(f"{whole}: somebody else writes it")

    def close(self, file: Filed) -> None:
        """Closes a file, if it is open."""
        if file.file is not None:
            descriptor, file.file = file.file, None
            self.open -= 1
            os.close(descriptor)

    def sync_files(self) -> None:
        """Lets last what was added, and closes the files."""
        for file in self.written.values():
            if file.file is not None:
                try:
                    os.fsync(file.file)
                except OSError as error:
                    raise OSError(error.errno, error.strerror, self.at(file.path)) from error
                self.close(file)

    def commit(self, feed: str = "", numbers: Optional[dict[str, int]] = None) -> None:
        """Lets last all that was taken, and with it the numbers by which a feed goes on."""
        self.write_out()
        self.sync_files()
        self.folders.sync()
        for file in self.written.values():
            self.look_at(file)
        if self.written or numbers:
            self.ledger.keep([file.kept() for file in self.written.values()], feed, numbers)
        self.written, self.added, self.committed, self.begun = {}, 0, self.counts, time.monotonic()
        self.shed()
        if len(self.files) > MOST_FILES:
            self.files, self.places, self.held = {}, {}, 0

    def settle(self) -> None:
        """Commits what was taken, where that is much, or was begun some time ago."""
        if self.added >= MOST_ADDED or time.monotonic() - self.begun >= LONGEST:
            self.commit()

    def look_at(self, file: Filed) -> None:
        """Sees that a file is where it was written, with all that was added. Whatever somebody else has added meanwhile
        is kept too, and read before more is added."""
        try:
            status = os.stat(self.at(file.path))
        except FileNotFoundError:
            status = None
        if status is None or status.st_ino != file.inode or status.st_size < file.length:
            raise ToolError(f"{self.at(file.path)}: was taken away, replaced or cut while it was written")
        file.stamp = stamp_of(status)
        if status.st_size > file.length:
            file.length, file.stamp = status.st_size, Stamp(status.st_ino, status.st_size, 0)
