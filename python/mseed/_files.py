"""Files that are written."""

import os
import secrets
import stat
from contextlib import suppress
from typing import Optional, Sequence

# Where a path may lead to a descriptor that somebody holds.
HELD = ("/dev/", "/proc/")


def write_whole(path: str, content: Sequence[bytes]) -> None:
    """Writes a file whole, or leaves it as it was: where the path is a link, the link's target. What is there and no
    regular file, as a FIFO or a device, is written into.
    """
    try:
        mode = _mode_of(path)
        if mode is not None and not stat.S_ISREG(mode) or os.path.abspath(path).startswith(HELD):
            with open(path, "wb") as file:
                file.writelines(content)
        else:
            _replace(os.path.realpath(path), mode, content)
    except OSError as error:
        # By the name that the caller knows.
        raise OSError(error.errno, error.strerror, path) from error


def _replace(path: str, mode: Optional[int], content: Sequence[bytes]) -> None:
    """Writes a file of this mode beside what is there, and puts it in its place."""
    new = f"{path}.{secrets.token_hex(4)}.new"
    descriptor = os.open(new, os.O_WRONLY | os.O_CREAT | os.O_EXCL | os.O_CLOEXEC, 0o666)
    try:
        with open(descriptor, "wb") as file:
            if mode is not None:
                os.fchmod(descriptor, stat.S_IMODE(mode))
            file.writelines(content)
        os.replace(new, path)
    except BaseException:
        with suppress(OSError):
            os.unlink(new)
        raise


def _mode_of(path: str) -> Optional[int]:
    """The mode of what is there, if anything is."""
    try:
        return os.stat(path).st_mode
    except FileNotFoundError:
        return None
