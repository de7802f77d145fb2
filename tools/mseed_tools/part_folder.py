"""Parts of many files in a folder that machines share: one file a part, each whole, and their join."""

from __future__ import annotations

import contextlib
import json
import os
from typing import IO, Iterator, NamedTuple, Optional, Sequence

from mseed_tools.files import content_of, drop_begun, locked, opened, write_whole
from mseed_tools.joining import joined_by
from mseed_tools.program import Done, Program, ToolError
from mseed_tools.reading import stamp_of
from mseed_tools.texts import PART
from mseed_tools.tree import filled_tree_at

LIST = "files.json"
# What can't be read, as a file of that name is.
UNREADABLE = "/"


class Part(NamedTuple):
    """A file, what it is known by, and where its part is."""

    source: str
    stamp: Optional[list[int]]
    path: str

    def text(self) -> bytes:
        """Its part; nothing where none was made, or what is there isn't whole."""
        try:
            text = content_of(self.path)
        except OSError:
            return b""
        return text if PART.fullmatch(text) else b""

    def size(self) -> int:
        """How many bytes its file has."""
        return self.stamp[0] if self.stamp else 0

    def is_made(self) -> bool:
        """Whether its part was made, and is whole."""
        return bool(self.text())


def sources_in(paths: Sequence[str], lists: Sequence[str]) -> list[str]:
    """The files that arguments name: files, the trees of folders, and files that list others, a line each. Folders of a
    tree that can't be read come after its files, as files that can't be."""
    sources = []
    for path in paths:
        if os.path.isdir(path):
            tree = filled_tree_at(path)
            sources += [os.path.join(path, one) for one in [*(file.path for file in tree.files), *tree.unread]]
        else:
            sources.append(path)
    for path in lists:
        with open(path, encoding="utf-8", errors="surrogateescape") as file:
            sources += [line for line in file.read().split("\n") if line]
    return [os.path.abspath(source) for source in sources]


def stamp_at(path: str) -> Optional[list[int]]:
    """What a file is known by; nothing where there is none."""
    try:
        return list(stamp_of(os.stat(path)))
    except OSError:
        return None


def parts_of(folder: str) -> list[Part]:
    """The parts of a folder, made or not, in the order of their files."""
    try:
        listed = json.loads(content_of(os.path.join(folder, LIST)))["files"]
    except (OSError, ValueError, KeyError, TypeError) as error:
        raise ToolError(f"{folder}: lists no files: {error}") from error
    return [Part(source, stamp, os.path.join(folder, f"{number:08}.part"))
            for number, (source, stamp) in enumerate(listed, 1)]


def held(folder: str) -> IO[bytes]:
    """A folder that one run at a time may hold, made where there is none."""
    try:
        os.makedirs(folder, exist_ok=True)
        lock = locked(os.path.join(folder, "lock"))
        drop_begun(folder)
        return lock
    except OSError as error:
        raise ToolError(f"{folder}: {error.strerror}") from error


def prepared(folder: str, sources: Sequence[str], program: Program) -> list[Part]:
    """Lists files in a folder; parts of other files, of files that changed and of another program are dropped. Gives
    the parts that are still to be made."""
    identity = program.identity()
    try:
        before = json.loads(content_of(os.path.join(folder, LIST)))
        known = before["files"] if before["program"] == identity else []
    except (OSError, ValueError, KeyError, TypeError):
        known = []
    listed = [[source, stamp_at(source)] for source in sources]
    kept = {number for number, (old, new) in enumerate(zip(known, listed), 1) if old == new and new[1] is not None}
    for name in os.listdir(folder):
        number, _, kind = name.partition(".")
        if kind.startswith("part") and not (kind == "part" and number.isdigit() and int(number) in kept):
            os.unlink(os.path.join(folder, name))
    write_whole(os.path.join(folder, LIST), json.dumps({"program": identity, "files": listed}).encode("ascii"))
    missing = [part for part in parts_of(folder) if not part.is_made()]
    for part in missing:
        with contextlib.suppress(FileNotFoundError):
            os.unlink(part.path)
    return missing


@contextlib.contextmanager
def source_at(path: str) -> Iterator[int]:
    """A file, as a descriptor; where it can't be read, what can't be either."""
    with contextlib.ExitStack() as files:
        try:
            file = files.enter_context(opened(path))
        except OSError:
            file = os.open(UNREADABLE, os.O_RDONLY)
            files.callback(os.close, file)
        yield file


def make(program: Program, part: Part) -> None:
    """Makes a part. Of a file that can't be read it is the program's of what can't be read. Raises ToolError where the
    file isn't the one that was listed, or changes meanwhile."""
    with source_at(part.source) as file:
        done = program.run(["audit", "--part"], file)
    if stamp_at(part.source) != part.stamp:
        raise ToolError(f"{part.source}: changed")
    text = done.out.encode("ascii")
    if not PART.fullmatch(text):
        raise ToolError(f"{part.source}: status {done.status}, {done.err.strip()}")
    write_whole(part.path, text)


def run_of(parts: Sequence[Part], number: int, count: int) -> Sequence[Part]:
    """The parts of the task with this number, from 1, of so many: a run of them, as long as the others or one more."""
    return parts[len(parts) * (number - 1) // count : len(parts) * number // count]


def joined(program: Program, parts: Sequence[Part], is_part: bool = False) -> Done:
    """What the program says of all parts, one after another. Raises ToolError where one wasn't made."""
    texts = [part.text() for part in parts]
    for part, text in zip(parts, texts):
        if not text:
            raise ToolError(f"{part.source}: has no part")
    return joined_by(program, texts, is_part)
