"""Folders that are made, and files that are cut, so that it lasts whatever happens to the machine."""

from __future__ import annotations

import contextlib
import errno
import os
import stat
import sys
from typing import Iterator

from mseed_tools.files import opened
from mseed_tools.program import ToolError

NO_FILE = "is no regular file"


class Folders:
    """The folders of a tree: what was made in them lasts once they are synced."""

    def __init__(self, root: str):
        self.root = root
        self.synced: set[str] = set()
        self.changed: set[str] = set()

    def make(self, folder: str) -> None:
        """Makes a folder where there is none, and those above it."""
        try:
            os.mkdir(folder)
        except FileExistsError:
            if not os.path.isdir(folder):
                raise NotADirectoryError(errno.ENOTDIR, os.strerror(errno.ENOTDIR), folder) from None
            return
        except FileNotFoundError:
            above = os.path.dirname(folder)
            if above in ("", folder):
                raise
            self.make(above)
            os.mkdir(folder)
        self.changed.add(os.path.dirname(folder) or os.curdir)

    def use(self, folder: str) -> None:
        """What is in a folder has to last, whoever made it: it and those above it, up to the root, are synced once."""
        while folder not in self.synced:
            self.changed.add(folder)
            if folder in (self.root, os.path.dirname(folder)):
                return
            folder = os.path.dirname(folder)

    def sync(self) -> None:
        """Lets last what was made."""
        for folder in sorted(self.changed):
            sync_folder(folder)
        self.synced |= self.changed
        self.changed.clear()


def sync_folder(folder: str) -> None:
    """Lets last which names are in a folder. Not every file system can, and who can't says so."""
    file = os.open(folder or os.curdir, os.O_RDONLY | os.O_DIRECTORY)
    try:
        os.fsync(file)
    except OSError as error:
        if error.errno != errno.EINVAL:
            raise OSError(error.errno, error.strerror, folder) from error
    finally:
        os.close(file)


@contextlib.contextmanager
def opened_to_read(path: str) -> Iterator[int]:
    """A file of the tree, which is a regular one. Raises ToolError where it is none."""
    try:
        with opened(path) as file:
            yield file
    except OSError as error:
        if error.strerror == "not a regular file":
            raise ToolError(f"{path}: {NO_FILE}") from error
        raise


def opened_to_write(path: str, flags: int) -> int:
    """A regular file, as a descriptor. Raises ToolError where it is none, and waits for no reader of a FIFO."""
    with contextlib.suppress(FileNotFoundError):
        if not stat.S_ISREG(os.stat(path).st_mode):
            raise ToolError(f"{path}: {NO_FILE}")
    file = os.open(path, flags | os.O_NONBLOCK, 0o666)
    if not stat.S_ISREG(os.fstat(file).st_mode):
        os.close(file)
        raise ToolError(f"{path}: {NO_FILE}")
    return file


def is_cut(path: str, length: int) -> bool:
    """Cuts a file to the length that was kept. Where somebody has taken it away, or has cut it further, it isn't, and
    that is told."""
    try:
        file = opened_to_write(path, os.O_RDWR)
    except FileNotFoundError:
        if length:
            print(f"{path}: is gone, with {length} bytes that were kept", file=sys.stderr)
        return False
    try:
        size = os.fstat(file).st_size
        if size < length:
            print(f"{path}: has {size} of {length} bytes that were kept", file=sys.stderr)
            return False
        if size > length:
            os.ftruncate(file, length)
            os.fsync(file)
        return True
    except OSError as error:
        raise OSError(error.errno, error.strerror, path) from error
    finally:
        os.close(file)
