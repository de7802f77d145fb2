"""Archives that are audited, listed and packed over an input that fails after so many bytes, and onto an output and a
standard error that do, whether they move all bytes of a call or one or two."""

from __future__ import annotations

from typing import Sequence

from driver.helpers import COMPILER, library, preloaded
from driver.program import SAMPLES
from driver.records import payload, record
from driver.rows import Cases, Row, Skipped
from driver.texts import DEVICE_ERROR, WRITE_FAILED

TWO = (SAMPLES / "two_records.mseed").read_bytes()
ONE = TWO[:128]
# All that a call moves, where it is more than any text here.
WHOLE = 65536

START = "2024-01-01T00:00:00.000000"
CHANNEL = f"XX_STA__BHZ continuous {START} rate 20/1 records"
AUDIT_OF_ONE = f"{CHANNEL} 1 samples 16\nrecords 1 channels 1\n"
AUDIT_OF_TWO = f"{CHANNEL} 2 samples 32\nrecords 2 channels 1\n"
RECORD = "XX_STA__BHZ D length 128 samples 16 start"
LINE = f"0 {RECORD} {START} rate 20/1 encoding 3 big\n"
NEXT_LINE = f"128 {RECORD} 2024-01-01T00:00:00.800000 rate 20/1 encoding 3 big\n"


def fails_to_write(failing: str, text: bytes, piece: int, archive: bytes, words: Sequence[str]) -> Cases:
    """Each prefix of the text is all that the output takes."""
    for room in range(len(text)):
        yield Row(f"{' '.join(words)} onto an output that takes {room} bytes, {piece} at once", archive, words, 2,
                  text[:room], WRITE_FAILED, env=preloaded(failing, WRITE_ROOM=room, PIECE=piece))
    yield Row(f"{' '.join(words)} onto an output that takes {len(text)} bytes, {piece} at once", archive, words, 0,
              text, env=preloaded(failing, WRITE_ROOM=len(text), PIECE=piece))


def fails_to_read(failing: str, size: int, words: Sequence[str], out: str, err: str = "") -> Cases:
    """So many bytes are all that the input brings, at once or one after another."""
    for piece in (1, WHOLE):
        if piece > 1 or size in (0, 1, 47, 48, 63, 64, 127, 128, 200, 255, 256):
            yield Row(f"{' '.join(words)} over an input that fails after {size} bytes, {piece} at once", TWO, words, 2,
                      out.encode(), err.encode() + DEVICE_ERROR, env=preloaded(failing, READ_ROOM=size, PIECE=piece))


def outputs(failing: str) -> Cases:
    """Outputs that fail."""
    packed = record(samples=32, encoding=11, exponent=7, frames=1, data=payload(
        "03FD0000 00000000 0000001F 80111111 81111111 81111111 81111111 01010101"))
    for words in ("repack --length 128", "repack --stretches --length 128"):
        yield from fails_to_write(failing, packed, WHOLE, TWO, words.split())
    yield from fails_to_write(failing, AUDIT_OF_TWO.encode(), 2, TWO, ["audit"])
    yield from fails_to_write(failing, f"{LINE}records 1\n".encode(), 2, ONE, ["show"])


def inputs(failing: str) -> Cases:
    """Inputs that fail."""
    for size in range(257):
        yield from fails_to_read(failing, size, ["repack", "--length", "128"], "", f"mseed: fault at {size} read\n")
    for size in range(257):
        whole = size // 128
        audited = ["records 0 channels 0\n", AUDIT_OF_ONE, AUDIT_OF_TWO][whole]
        listed = "".join([LINE, NEXT_LINE][:whole]) + f"records {whole}\n"
        fault = f"fault at {128 * whole} read\n"
        yield from fails_to_read(failing, size, ["audit"], audited + fault)
        yield from fails_to_read(failing, size, ["show"], listed + fault)


def errors(failing: str) -> Cases:
    """A standard error that takes each prefix of a line, or of two, and no more."""
    for status, line, settings, words in (
        (3, b"mseed: bad value\nmseed: an empty argument: it names no file\n", {}, ["audit", ""]),
        (3, b"mseed: bad value\nmseed: --leave: only with --stretches\n", {}, ["repack", "--leave"]),
        (2, WRITE_FAILED, {"WRITE_ROOM": 0}, ["audit"]),
        (2, WRITE_FAILED, {"WRITE_ROOM": 0}, ["show"]),
    ):
        for room in range(len(line)):
            for piece in (2, WHOLE):
                name = f"{' '.join(words)} onto a standard error that takes {room} bytes, {piece} at once"
                yield Row(name, TWO, words, status, b"", line[:room],
                          env=preloaded(failing, ERROR_ROOM=room, PIECE=piece, **settings))
    yield Row("a standard error that nothing is written on", TWO, ["audit"], 0, AUDIT_OF_TWO.encode(),
              env=preloaded(failing, ERROR_ROOM=0))


def rows() -> Cases:
    """All of them."""
    failing = library("failing_devices")
    if failing is None:
        yield Skipped("devices that fail", COMPILER)
        return
    yield from outputs(failing)
    yield from inputs(failing)
    yield from errors(failing)
