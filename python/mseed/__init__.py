"""miniSEED (SEED Reference Manual 2.4) by the proved reader, auditor and packer of mseed.

    import mseed

    for trace in mseed.read("day.mseed"):
        print(trace.id, trace.start, trace.rate, trace.samples.max())

Times are nanoseconds since 1970-01-01T00:00:00 (UTC) or datetimes, rates samples a second, samples counts. Any thread
may call at any time; while the library works, others go on.
"""

from mseed._auditing import Audit, Finding, audit, findings, part
from mseed._memory import Archive, Samples
from mseed._packing import PackError, make, pack, write
from mseed._pieces import Piece, Pieces, iterate
from mseed._reading import Traces, read
from mseed._records import RecordError
from mseed._selecting import select
from mseed._trace import Trace
from mseed._version import __version__

__all__ = [
    "Archive", "Audit", "Finding", "PackError", "Piece", "Pieces", "RecordError", "Samples", "Trace", "Traces",
    "__version__", "audit", "findings", "iterate", "make", "pack", "part", "read", "select", "write",
]
