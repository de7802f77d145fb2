"""Traces: samples that follow one another."""

from dataclasses import dataclass, field
from datetime import datetime, timedelta, timezone
from fractions import Fraction
from typing import Any

from mseed._memory import Samples, numpy

EPOCH = datetime(1970, 1, 1, tzinfo=timezone.utc)


@dataclass(frozen=True, eq=False)
class Trace:
    """Samples of one channel, each a sample period after the one before it."""

    network: str
    """The network's code."""
    station: str
    """The station's code."""
    location: str
    """The location's code."""
    channel: str
    """The channel's code."""
    start_ns: int
    """The time of the first sample, in nanoseconds since 1970-01-01T00:00:00 (UTC, each day with 86,400 seconds)."""
    factor: int
    """The factor of the rate in the header: samples a second where positive, seconds a sample where negative."""
    multiplier: int
    """The multiplier of the rate in the header: it multiplies where it is positive, and divides where negative."""
    samples: Samples = field(repr=False)
    """The samples, in counts: a NumPy array of int32, or a memoryview where NumPy isn't there."""
    first_record: int = 0
    """The number of the record in which the first sample stands, from 1; 0 where it comes from no archive."""
    key: bytes = field(default=b"", repr=False)
    """The codes as they stand in the header: 2, 5, 2 and 3 bytes."""

    @property
    def name(self) -> str:
        """The channel's name, as findings, errors and the program have it: network, station, location and channel,
        joined by underscores."""
        return f"{self.network}_{self.station}_{self.location}_{self.channel}"

    @property
    def id(self) -> str:
        """The same with dots, as other programs have it. Where channels are asked for, either is taken."""
        return f"{self.network}.{self.station}.{self.location}.{self.channel}"

    @property
    def start(self) -> datetime:
        """The time of the first sample (UTC), to a microsecond."""
        return EPOCH + timedelta(microseconds=self.start_ns // 1000)

    @property
    def exact_rate(self) -> Fraction:
        """The sample rate in samples a second, exactly."""
        rate = Fraction(1)
        for part in (self.factor, self.multiplier):
            rate = rate * part if part > 0 else rate / -part
        return rate

    @property
    def rate(self) -> float:
        """The sample rate in samples a second."""
        return float(self.exact_rate)

    @property
    def end_ns(self) -> int:
        """The time of the last sample, in nanoseconds since 1970-01-01T00:00:00, rounded down."""
        return self.start_ns + int(Fraction((len(self.samples) - 1) * 10**9) / self.exact_rate)

    def __len__(self) -> int:
        """The number of samples."""
        return len(self.samples)

    def to_obspy(self) -> Any:
        """The trace as an obspy.Trace, over the same samples.

        ImportError where ObsPy isn't there.
        """
        import obspy  # type: ignore[import]

        header = {
            "network": self.network,
            "station": self.station,
            "location": self.location,
            "channel": self.channel,
            "starttime": obspy.UTCDateTime(ns=self.start_ns),
            "sampling_rate": self.rate,
        }
        data = self.samples if numpy is not None else self.samples.tolist()
        return obspy.Trace(data=data, header=header)
