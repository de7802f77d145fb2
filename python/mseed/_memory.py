"""Bytes and samples in memory: NumPy arrays where NumPy is there, else memoryviews."""

import ctypes
import io
import mmap
import operator
import os
from array import array
from contextlib import contextmanager
from typing import TYPE_CHECKING, Any, BinaryIO, Iterator, Sequence, Union, cast

try:
    import numpy as numpy
except ImportError:
    numpy = None  # type: ignore[assignment]

# A path, the bytes of an archive, or a binary file that is open, from where it stands to its end.
Archive = Union[str, "os.PathLike[str]", bytes, bytearray, memoryview, BinaryIO]

# 32-bit counts: a NumPy array of int32, or a memoryview of such items where NumPy isn't there.
if TYPE_CHECKING:
    from numpy.typing import NDArray

    Samples = NDArray[numpy.int32]
else:
    Samples = memoryview if numpy is None else numpy.ndarray

LIMIT = 1 << 31

# Samples that grow are copied up to so many bytes of them; the system moves more.
FEW = 1 << 16

# Memory that no file is behind, and that no other process shares.
_OWN = mmap.MAP_PRIVATE | mmap.MAP_ANONYMOUS


@contextmanager
def opened(archive: Archive) -> Iterator[BinaryIO]:
    """An archive as a file, which is closed afterwards if it was opened here.

    TypeError where it is none.
    """
    if isinstance(archive, (str, os.PathLike)):
        with open(archive, "rb", buffering=0) as file:
            yield file
    elif hasattr(archive, "read"):
        yield cast(BinaryIO, archive)
    elif isinstance(archive, bytes):
        yield io.BytesIO(archive)
    else:
        yield cast(BinaryIO, _Bytes(_view_of(archive)))


class _Bytes(io.RawIOBase):
    """Bytes that somebody holds, as a file, of which no more is copied than is read."""

    def __init__(self, view: memoryview) -> None:
        self._view, self._at = view, 0

    def readable(self) -> bool:
        """Whether it can be read."""
        return True

    def readinto(self, buffer: Any) -> int:
        """Copies the next bytes, and says how many."""
        part = self._view[self._at : self._at + len(buffer)]
        buffer[: len(part)] = part
        self._at += len(part)
        return len(part)


def _view_of(archive: Any) -> memoryview:
    """The bytes of an archive that lies in memory.

    TypeError where it doesn't.
    """
    try:
        view = memoryview(archive)
    except TypeError:
        raise TypeError(f"an archive is a path, bytes, or a binary file that is open, not {named(archive)}") from None
    return view.cast("B") if view.contiguous and view.nbytes else memoryview(bytes(view))


def bytes_of(archive: Archive) -> bytes:
    """The bytes of an archive: those of the file at a path, the rest of a file that is open, or those that are given.

    TypeError where it is none.
    """
    if isinstance(archive, bytes):
        return archive
    if isinstance(archive, (str, os.PathLike)) or hasattr(archive, "read"):
        with opened(archive) as file:
            return read_from(file, -1)
    return bytes(_view_of(archive))


def read_from(file: BinaryIO, size: int) -> bytes:
    """The next bytes of a file: at most so many, all with -1, and none at its end.

    TypeError where it isn't open for bytes.
    """
    data = file.read(size)
    if not isinstance(data, bytes):
        raise TypeError(f"an archive is a file that is open for bytes: what is read of this one is a {named(data)}")
    return data


def named(value: object) -> str:
    """The name of a value's type."""
    return type(value).__name__


def whole(what: str, value: Any) -> int:
    """A value that is a whole number.

    TypeError, with what it is, where it is none.
    """
    try:
        return operator.index(value)
    except TypeError:
        raise TypeError(f"{what} is an int, not {named(value)}") from None


def address_of(data: bytes) -> int:
    """Where bytes lie. They have to be kept as long as it is used."""
    return ctypes.cast(ctypes.c_char_p(data), ctypes.c_void_p).value or 0


def room_for(count: int) -> Samples:
    """Places for so many samples, of which nothing is known yet."""
    if numpy is not None:
        return numpy.empty(max(count, 1), numpy.int32)
    return memoryview(bytearray(4 * max(count, 1))).cast("i")


def address_in(samples: Samples, index: int) -> int:
    """Where the sample at an index lies."""
    if numpy is not None:
        return int(samples.ctypes.data) + 4 * index
    return ctypes.addressof(ctypes.c_char.from_buffer(samples)) + 4 * index


def joined(parts: Sequence[Samples]) -> Samples:
    """Samples one after another, at a place of their own."""
    if numpy is not None:
        return numpy.concatenate(parts)
    return memoryview(bytearray().join(parts)).cast("i")


def zeros(size: int) -> mmap.mmap:
    """So many bytes that are 0, of which no page is in memory until something is written to it."""
    return mmap.mmap(-1, size, _OWN)


class Grown:
    """Samples that come some at a time, at one place that grows: they aren't there twice."""

    def __init__(self) -> None:
        """None yet."""
        self._room: Union[bytearray, mmap.mmap] = bytearray()
        self._count = 0

    def place_for(self, count: int) -> int:
        """The address of room for some samples more, after those that are there. It is theirs until others come."""
        at, self._count = 4 * self._count, self._count + count
        if 4 * self._count > len(self._room):
            self._grow(4 * self._count)
        return ctypes.addressof(ctypes.c_char.from_buffer(self._room, at))

    def _grow(self, size: int) -> None:
        """Makes room for so many bytes."""
        pages = -(-(size + size // 8) // mmap.PAGESIZE) * mmap.PAGESIZE
        if isinstance(self._room, mmap.mmap):
            # The system moves pages to where there are more of them, and copies none.
            self._room.resize(pages)
        elif size <= FEW:
            self._room.extend(bytes(size - len(self._room)))
        else:
            few, self._room = self._room, zeros(pages)
            self._room[: len(few)] = few

    def samples(self) -> Samples:
        """All of them."""
        if numpy is not None:
            return numpy.frombuffer(self._room, numpy.int32, self._count)
        return memoryview(self._room)[: 4 * self._count].cast("i")


def samples_from(given: Any) -> Samples:
    """Samples as 32-bit integers, one after another. Those that are so already aren't copied.

    TypeError where some aren't integers, OverflowError where some have more than 32 bits.
    """
    if numpy is not None:
        found = numpy.asarray(given)
        if found.size == 0:
            return numpy.zeros(0, numpy.int32)
        if found.ndim != 1 or found.dtype.kind not in "iu":
            raise TypeError("samples are integers in one dimension")
        if found.dtype.itemsize > 4 or found.dtype == numpy.uint32:
            if int(found.min()) < -LIMIT or int(found.max()) >= LIMIT:
                raise OverflowError("a sample has more than 32 bits")
        return numpy.ascontiguousarray(found, numpy.int32)
    if isinstance(given, memoryview) and given.format == "i" and given.contiguous and not given.readonly:
        return given
    try:
        return memoryview(given if isinstance(given, array) and given.typecode == "i" else array("i", given))
    except TypeError:
        raise TypeError("samples are integers in one dimension") from None
