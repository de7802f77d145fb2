"""Stands in for ObsPy, which Debian doesn't have: the constructors that ObsPy's documents describe, of Trace (data,
header) and of UTCDateTime (ns)."""


class UTCDateTime:
    """An instant, in nanoseconds since 1970."""

    def __init__(self, *, ns: int) -> None:
        self.ns = ns


class Trace:
    """Samples, and what a header says of them."""

    def __init__(self, data=(), header=None) -> None:
        self.data, self.stats = data, dict(header or {})
