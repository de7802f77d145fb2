"""A stand-in for Dask's `distributed`, which does each thing at once, in this process. Of the calls of a map the one
that $KILLED names, from 1, and those after it aren't done: it is as if their worker was killed each time."""

from __future__ import annotations

import os
import sys
from typing import Any, Callable, Iterable


class KilledWorker(Exception):
    """What is raised for a call whose workers were killed."""


class Future:
    """What came."""

    def __init__(self, value: Any):
        self.value = value

    def result(self) -> Any:
        """It."""
        return self.value


class LocalCluster:
    """This process."""

    def __init__(self, **options: object):
        self.options = options

    def close(self) -> None:
        """Nothing is left."""


class Client:
    """Does what it is given."""

    def __init__(self, where: object):
        self.where = where

    def __enter__(self) -> Client:
        return self

    def __exit__(self, *_: object) -> None:
        """Nothing is left."""

    def submit(self, function: Callable, *given: Any, pure: bool = True) -> Future:
        """One call; what came of others is taken from lists too."""
        known = []
        for some in given:
            is_list = isinstance(some, list) and some and isinstance(some[0], Future)
            known.append([one.value for one in some] if is_list else some)
        return Future(function(*known))

    def map(self, function: Callable, some: Iterable[Any], pure: bool = True) -> list[Future]:
        """A call each. What Dask itself reports goes to standard error."""
        print("distributed.worker - INFO - begun", file=sys.stderr)
        killed = int(os.environ.get("KILLED", 0))
        return [Future(KilledWorker("worker was killed") if killed and number >= killed else function(one))
                for number, one in enumerate(some, 1)]

    def gather(self, futures: list[Future]) -> list[Any]:
        """What came of each."""
        for one in futures:
            if isinstance(one.value, KilledWorker):
                raise one.value
        return [one.value for one in futures]
