"""The audit of an archive."""

import ctypes
from dataclasses import dataclass
from typing import List, Tuple

from mseed._library import LIBRARY, NO_MEMORY, Totals
from mseed._memory import Archive, address_of, bytes_of

# What is found of the border between a record and the one before it; all else is found of the record itself.
BORDERS = ("ratechange", "leap", "gap", "overlap")
# The room for a text at first, and for the line of a channel, which is shorter.
ROOM, LINE = 1 << 16, 200


@dataclass(frozen=True)
class Finding:
    """What an audit finds of one record; or, with an empty name, why the archive doesn't end where a record ends."""

    offset: int
    """Where the record begins, or none does, in bytes from the archive's beginning."""
    name: str
    """The channel's name: network, station, location and channel, joined by underscores; empty where no record
    begins."""
    number: int
    """The record's number among all of the archive, from 1; that of the next one, where none begins."""
    start: str
    """The time of its first sample (UTC), or "fault" and the field that is out of its range; empty where no record
    begins."""
    reason: str
    """Why it is named, in the words of the program, as "gap 72100000": microseconds."""

    @property
    def kind(self) -> str:
        """The first word of the reason."""
        return self.reason.split(" ", 1)[0]

    @property
    def is_own(self) -> bool:
        """Whether it is of the record itself, and not of how it follows the one before it."""
        return self.kind not in BORDERS


@dataclass(frozen=True)
class Audit:
    """What the audit of an archive says."""

    text: str
    """The text of `mseed audit`."""
    status: int
    """0: each channel is continuous; 1: some channel is broken; 2: the archive doesn't end where a record ends."""
    records: int
    """The records, those without samples too."""
    channels: int
    """The channels with samples."""
    broken: int
    """Those of them that are broken."""

    def __bool__(self) -> bool:
        """Whether nothing is wrong."""
        return self.status == 0


def audited(call: str, data: bytes, room: int = ROOM) -> Tuple[str, int, Totals]:
    """The text that a call writes about an archive, its status and its totals. Where the text needs more room than is
    given to it at first, the archive is audited twice."""
    totals = Totals()
    while True:
        text = ctypes.create_string_buffer(room)
        status = getattr(LIBRARY, call)(address_of(data), len(data), text, room, ctypes.byref(totals))
        if status == NO_MEMORY:
            raise MemoryError(f"{call} had no memory")
        if totals.length <= room:
            return ctypes.string_at(text, totals.length).decode("ascii"), status, totals
        room = totals.length


def audit(archive: Archive) -> Audit:
    """Audits an archive: which channels are continuous, and where each of the others breaks first.

    archive: a path, bytes, or a binary file that is open.
    """
    text, status, totals = audited("mseed_audit", bytes_of(archive))
    return Audit(text, status, totals.records, totals.channels, totals.broken)


def part(archive: Archive) -> str:
    """The part of an archive, which `mseed join` reads: the text of `mseed audit --part`.

    archive: a path, bytes, or a binary file that is open.
    """
    return audited("mseed_part", bytes_of(archive))[0]


def findings(archive: Archive) -> List[Finding]:
    """Each record of an archive with a finding, in the archive's order. Where the archive doesn't end where a record
    ends, the last one has an empty name: it says where no record begins, and why.

    archive: a path, bytes, or a binary file that is open.
    """
    text, _, totals = audited("mseed_audit_each", bytes_of(archive))
    found, last = _findings_of(text), text.splitlines()[-1].split(" ", 3)
    if last[:2] == ["fault", "at"]:
        found.append(Finding(int(last[2]), "", totals.records + 1, "", last[3]))
    return found


def findings_in(data: bytes, channels: int) -> List[Finding]:
    """Each record with a finding, of an archive of so many channels."""
    return _findings_of(audited("mseed_audit_each", data, ROOM + channels * LINE)[0])


def _findings_of(text: str) -> List[Finding]:
    """The findings of the lines that stand before those of the channels."""
    found = []
    for line in text.splitlines():
        words = line.split(" ")
        if len(words) < 7 or words[2] != "record" or words[4] != "start":
            break
        # The start is one word, or "fault" and a field.
        length = 2 if words[5] == "fault" else 1
        start, why = " ".join(words[5 : 5 + length]), " ".join(words[5 + length :])
        found.append(Finding(int(words[0]), words[1], int(words[3]), start, why))
    return found
