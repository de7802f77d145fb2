"""Texts that are expected but not byte for byte, in the place of bytes."""

from __future__ import annotations

from dataclasses import dataclass
from typing import Optional, Union

WRITE_FAILED = b"mseed: write failed\n"
NO_MEMORY = b"mseed: no memory\n"
LINK_FAILED = b"mseed: link failed\n"
REFUSED = b"mseed: refused\n"
BAD_FEED = b"mseed: bad feed\n"

# Why a read failed, of an input that has no name.
DEVICE_ERROR = b"mseed: input/output error\n"
IS_DIRECTORY = b"mseed: is a directory\n"
IS_CLOSED = b"mseed: bad file descriptor\n"


def keeps(place: str, kept: int, came: int) -> bytes:
    """The line of `serve` about a station of which more records came than its ring keeps."""
    return f"mseed: {place} keeps the last {kept} of {came} records\n".encode()


def unlistened(port: int, reason: str = "address in use", address: str = "127.0.0.1") -> bytes:
    """The two lines of a `serve` that can't listen at a port of an address."""
    return LINK_FAILED + f"mseed: cannot listen at {address}:{port}: {reason}\n".encode()


# Why a link of `fetch` comes to no end.
CLOSED = "closed by the server before the end"
LONG_HANDSHAKE = "the handshake took too long"
TIMED_OUT = "timed out"


def undialled(port: int, reason: str = "connection refused", host: str = "127.0.0.1") -> bytes:
    """The two lines of a `fetch` whose last try had no link."""
    return LINK_FAILED + f"mseed: cannot connect to {host}:{port}: {reason}\n".encode()


def lost(port: int, reason: str = CLOSED, host: str = "127.0.0.1") -> bytes:
    """The two lines of a `fetch` whose last link came to no end."""
    return LINK_FAILED + f"mseed: lost the connection to {host}:{port}: {reason}\n".encode()


def printed(given: bytes) -> bytes:
    """What was given, as a line shows it: each byte outside 32 to 126 as `?`, of more than 60 bytes the first 57 and
    `...`."""
    kept = given if len(given) <= 60 else given[:57]
    return bytes(byte if 32 <= byte <= 126 else 63 for byte in kept) + b"..." * (len(given) > 60)


def replied(place: str, want: Optional[int], words: str, reply: bytes) -> bytes:
    """A line about the reply to a station, or to the number that was wanted of it: an `ERROR` alone is left out."""
    wanted = "" if want is None else f" from {want:06X}"
    more = b"" if reply in (b"", b"ERROR") else b": " + printed(reply)
    return f"mseed: {place}{wanted}: {words}".encode() + more + b"\n"


def refused(place: str, want: Optional[int] = None, reply: bytes = b"ERROR") -> bytes:
    """The two lines of a `fetch` of which the server refuses a station, with the number that was wanted of it."""
    return REFUSED + replied(place, want, "the server refuses it", reply)


def gap(place: str, want: int, got: int) -> bytes:
    """The two lines of a `fetch` to which another record came than the one that was wanted."""
    return BAD_FEED + f"mseed: {place}: record {want:06X} was wanted, and {got:06X} came\n".encode()


def unanswered(place: str, want: Optional[int] = None, reply: bytes = b"") -> bytes:
    """The two lines of a `fetch` to which no reply came that says whether a station is granted."""
    return BAD_FEED + replied(place, want, "the reply is neither OK nor ERROR", reply)


def strange(*codes: bytes) -> bytes:
    """The two lines of a `fetch` to which a record of another station came, by the network and the station in its header:
    each without the spaces and NULs at its end, and each byte outside 33 to 126 as `?`."""
    shown = (bytes(byte if 33 <= byte <= 126 else 63 for byte in code.rstrip(b" \0")) for code in codes)
    return BAD_FEED + b"mseed: a record of " + b"_".join(shown) + b" came, which is none of the stations\n"


def garbage(packets: int) -> bytes:
    """The two lines of a `fetch` to which bytes came that are neither a packet nor the end, after so many packets."""
    before = f"{packets} packet" + "s" * (packets != 1)
    return BAD_FEED + f"mseed: bytes came that are neither a packet nor the end, after {before}\n".encode()


def foreign(number: int, place: str, size: int) -> str:
    """Why a record isn't served, and the line more, without what begins the first one and ends the last one."""
    return f"record {number} is not of this feed\nmseed: record {number} is of {place}, and has {size} bytes"


def place_of(record: bytes) -> str:
    """Network and station of a record as a line says them: each without the spaces and NULs at its end, and each byte
    outside 32 to 126 as `?`."""
    text = record[18:20].rstrip(b" \0") + b"_" + record[8:13].rstrip(b" \0")
    return "".join(chr(byte) if 32 <= byte <= 126 else "?" for byte in text)


def broken(name: str, record: int, offset: int, why: str) -> bytes:
    """The line about a channel that is broken, and the one with its finding."""
    return f"mseed: {name} is broken\nmseed: record {record} offset {offset} {why}\n".encode()


# Why a series can't be packed, as the line behind `does not fit` says it, and its number.
def high_rate(rate: str) -> tuple[int, str]:
    """Of a rate that is too high."""
    return 2, f"its rate is {rate} samples a second, over 500000, the most that is packed"


def time_outside(number: int, instant: str) -> tuple[int, str]:
    """Of a sample, by its number from 1, whose time lies in no year from 1900 to 2100: its instant."""
    outside = "rounded to 0.0001 seconds lies in no year from 1900 to 2100"
    return 3, f"the time of sample {number} is {instant}, which {outside}"


def large_sample(number: int, sample: int) -> tuple[int, str]:
    """Of a sample that 16 bits don't hold, by its number from 1."""
    return 4, f"sample {number} is {sample}, outside -32768 to 32767, which int16 holds"


def large_difference(number: int, difference: int, encoding: str = "steim2") -> tuple[int, str]:
    """And of one that is too far from the sample before."""
    held = {"steim1": "-2147483648 to 2147483647", "steim2": "-536870912 to 536870911"}[encoding]
    return 5, f"the difference before sample {number} is {difference}, outside {held}, which {encoding} holds"


@dataclass(frozen=True)
class About:
    """What the parser of the command line writes about a word, in its own text."""

    word: str

    def matches(self, text: bytes) -> bool:
        """Whether the parser wrote this."""
        return self.word.encode() in text and b"mseed: bad value" not in text


@dataclass(frozen=True)
class BadValue:
    """That an argument means nothing, and a line more, which names it and says what would be right."""

    about: str = ""

    def matches(self, text: bytes) -> bool:
        """Whether the two lines are these."""
        first, _, more = text.partition(b"\n")
        return (first == b"mseed: bad value" and more.startswith(b"mseed: ") and more.endswith(b"\n")
                and more.count(b"\n") == 1 and self.about.encode() in more)


BAD_VALUE = BadValue()


@dataclass(frozen=True)
class Without:
    """Any text that has no such text in it."""

    words: bytes

    def matches(self, text: bytes) -> bool:
        """Whether the text is missing."""
        return self.words not in text


@dataclass(frozen=True)
class PrefixOf:
    """As many bytes of a text as there are."""

    text: bytes

    def matches(self, text: bytes) -> bool:
        """Whether the text goes on where this one ends."""
        return self.text.startswith(text)


Expected = Union[bytes, About, BadValue, Without, PrefixOf]


def matches(expected: Expected, text: bytes) -> bool:
    """Whether a text is the one expected."""
    return text == expected if isinstance(expected, bytes) else expected.matches(text)


def shown(text: object) -> str:
    """A text as a failure shows it, cut where it is long."""
    whole = repr(text)
    return whole if len(whole) <= 2000 else f"{whole[:2000]} .. ({len(whole)} characters)"
