"""How files are opened and written: those of an archive, and those that tools keep."""

from __future__ import annotations

import contextlib
import errno
import fcntl
import os
import resource
import stat
from typing import IO, Iterator, Optional

from mseed_tools.program import ToolError

# What a file is called until it is whole.
BEGUN = ".mseed-new"


@contextlib.contextmanager
def opened(path: str) -> Iterator[int]:
    """A file that is read, as a descriptor. Raises OSError where it is no regular file, and waits for none: whoever
    opens a FIFO to read it would wait until somebody writes into it."""
    file = os.open(path, os.O_RDONLY | os.O_NONBLOCK)
    try:
        if not stat.S_ISREG(os.fstat(file).st_mode):
            raise OSError(errno.EINVAL, "not a regular file", path)
        yield file
    finally:
        os.close(file)


def open_at_once(most: int) -> int:
    """How many files this process may have open, of so many that are wanted, once it has asked for them."""
    soft, hard = resource.getrlimit(resource.RLIMIT_NOFILE)
    if 0 <= soft < most:
        with contextlib.suppress(ValueError, OSError):
            resource.setrlimit(resource.RLIMIT_NOFILE, (most if hard < 0 else min(hard, most), hard))
    soft, _ = resource.getrlimit(resource.RLIMIT_NOFILE)
    return most if soft < 0 else min(soft, most)


def content_of(path: str) -> bytes:
    """All of a file. Raises OSError where it is no regular file."""
    with opened(path) as descriptor, open(descriptor, "rb", closefd=False) as file:
        return file.read()


def write_whole(path: str, content: bytes) -> None:
    """Writes a file by a rename: it has its old content or this one, whenever it is looked at. Where a link stands,
    that is the file to which it leads; its owner and rights stay. What is no regular file, as a FIFO or a device, is
    written into, and so is what has no name, as standard output may. Raises OSError, which names the path."""
    try:
        target, before = os.path.realpath(path), status_of(path)
        named = status_of(target)
        if before is None or stat.S_ISREG(before.st_mode) and named and os.path.samestat(before, named):
            replace(target, content, before)
        else:
            with open(path, "wb") as file:
                file.write(content)
    except OSError as error:
        raise OSError(error.errno, error.strerror, path) from error


def status_of(path: str) -> Optional[os.stat_result]:
    """The status of a file, or of the one to which a link leads; nothing where there is none."""
    try:
        return os.stat(path)
    except FileNotFoundError:
        return None


def replace(path: str, content: bytes, before: Optional[os.stat_result]) -> None:
    """Puts a file with this content, and with the owner and the rights of the one before, in its place. The content is
    on the disk before the file has its name."""
    begun = os.path.join(os.path.dirname(path), f".{os.urandom(8).hex()}{BEGUN}")
    try:
        with open(begun, "xb") as file:
            if before is not None:
                with contextlib.suppress(PermissionError):
                    os.fchown(file.fileno(), before.st_uid, before.st_gid)
                os.fchmod(file.fileno(), stat.S_IMODE(before.st_mode))
            file.write(content)
            file.flush()
            os.fsync(file.fileno())
        os.replace(begun, path)
    except BaseException:
        with contextlib.suppress(FileNotFoundError):
            os.unlink(begun)
        raise


def drop_begun(folder: str) -> None:
    """Removes what runs that were killed had begun to write below a folder, which this run holds."""
    for path, _, names in os.walk(folder):
        for name in names:
            if name.endswith(BEGUN):
                os.unlink(os.path.join(path, name))


def locked(path: str) -> IO[bytes]:
    """A file that one process at a time may hold, made where there is none. Raises ToolError where another does, and
    OSError where it can't be written."""
    file = os.fdopen(os.open(path, os.O_WRONLY | os.O_APPEND | os.O_CREAT | os.O_NONBLOCK, 0o666), "ab")
    try:
        fcntl.flock(file, fcntl.LOCK_EX | fcntl.LOCK_NB)
    except OSError as error:
        file.close()
        raise ToolError(f"{path}: held by another run") from error
    return file
