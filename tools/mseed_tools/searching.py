"""Which files of a tree can hold what is asked for."""

from __future__ import annotations

import bisect
import datetime
import itertools
import os
from typing import Callable, Iterator, Optional, Sequence

from mseed_tools.asking import DAY, Asked
from mseed_tools.program import ToolError
from mseed_tools.tree import DayFile, Walk, is_year, place_of, refuse_within, tree_at

# Where a channel has no file of the day before a window, the one before is looked for in so many years.
YEARS_BEFORE = 1


class Search:
    """A way through an archive, along the folders and files that a request may want. A request never names one: what
    is there is held against it."""

    def __init__(self, root: str):
        self.root, self.walk = root, Walk(root)
        # The day that a file's next one is of.
        self.kept: Optional[tuple[str, datetime.date]] = None

    def below(self, names: list[str], is_asked: Callable[[str], bool]) -> Iterator[str]:
        """The names of the folders in a folder that are asked for."""
        for entry in self.walk.listed(names):
            if is_asked(entry.name):
                try:
                    if entry.is_dir():
                        yield entry.name
                except OSError:
                    self.walk.tree.unread.append(os.path.join(*names, entry.name))

    def years(self, asked: Asked) -> list[str]:
        """The years of which files may be asked for, ascending."""
        first = (asked.first - DAY).year - YEARS_BEFORE if asked.first > datetime.date.min else 0
        return [year for year in self.below([], is_year) if first <= int(year) <= asked.last.year]

    def stations(self, years: Sequence[str], asked: Asked) -> list[tuple[str, str]]:
        """The stations of these years that may be asked for, in the order of their channels' names."""
        found = {(network, station) for year in years
                 for network in self.below([year], lambda name: asked.has_place([name]))
                 for station in self.below([year, network], lambda name: asked.has_place([network, name]))}
        return sorted(found, key=lambda codes: f"{codes[0]}_{codes[1]}_")

    def folders(self, years: Sequence[str], station: tuple[str, str], asked: Asked) -> Iterator[list[str]]:
        """The folders of a station's channels that may be asked for."""

        def is_asked(name: str) -> bool:
            return name.endswith(".D") and asked.has_place([*station, name[:-2]])

        for year in years:
            above = [year, *station]
            if os.path.isdir(os.path.join(self.root, *above)):
                yield from ([*above, name] for name in self.below(above, is_asked))

    def locations(self, folder: list[str], asked: Asked) -> set[str]:
        """The locations of a channel's folder that may be asked for."""
        network, station, channel = folder[1], folder[2], folder[3][:-2]
        begin, end = f"{network}.{station}.", f".{channel}"
        # All but the last three parts of a name, which are of a kind, a year and a day.
        heads = {name.rsplit(".", 3)[0] for name in self.walk.names_in(folder)}
        found = {head[len(begin) : -len(end)] for head in heads
                 if head.startswith(begin) and head.endswith(end) and head.count(".") == 3}
        return {location for location in found if asked.has_place([network, station, channel, location])}

    def days(self, folder: list[str], location: str, first: datetime.date, last: datetime.date) -> Iterator[DayFile]:
        """The files of a channel, ascending, from a day to another, and the last one before them. Only of these it is
        seen whether their days exist, since there are many."""
        begin, end = (f"{day.year:04}.{day.timetuple().tm_yday:03}" for day in (first, last))
        head = ".".join([folder[1], folder[2], location, folder[3], ""])
        names = [name for name in self.walk.names_in(folder) if name.startswith(head) and name[len(head) :] <= end]
        number = bisect.bisect_left(names, head + begin)
        yield from itertools.islice(filter(None, (file_of(folder, name) for name in reversed(names[:number]))), 1)
        yield from filter(None, (file_of(folder, name) for name in names[number:]))

    def channels(self, years: Sequence[str], station: tuple[str, str],
                 asked: Asked) -> dict[tuple[str, str], list[list[str]]]:
        """The channels of a station, ascending by their names, each by its location and channel with its folders."""
        found: dict[tuple[str, str], list[list[str]]] = {}
        for folder in self.folders(years, station, asked):
            for location in self.locations(folder, asked):
                found.setdefault((location, folder[3][:-2]), []).append(folder)
        return dict(sorted(found.items(), key=lambda one: "_".join(one[0])))

    def files(self, asked: Asked) -> Iterator[DayFile]:
        """The files that can hold what is asked for, channel by channel, ascending, and then by day: those of the
        window's days, and the one of the day before, or the last one before that there is, whose last record may reach
        into the window."""
        years = self.years(asked)
        for station in self.stations(years, asked):
            for (location, _), folders in self.channels(years, station, asked).items():
                before: Optional[DayFile] = None
                for folder in folders:
                    for file in self.days(folder, location, asked.first, asked.last):
                        if file.day < asked.first:
                            before = file
                            continue
                        if before:
                            yield before
                            before = None
                        yield file
                if before:
                    yield before

    def reads(self, asked: Asked, file: DayFile) -> bool:
        """Whether a file is among those that can hold what is asked for."""
        codes = os.path.basename(file.path).split(".")
        if file.day > asked.last or not asked.has_place(with_location_last(codes)):
            return False
        if file.day >= asked.first:
            return True
        is_near = int(codes[5]) >= (asked.first - DAY).year - YEARS_BEFORE
        return is_near and self.next_day(file) >= asked.first

    def next_day(self, file: DayFile) -> datetime.date:
        """The next day of which there is a file of the same channel; the last of all days where there is none."""
        if self.kept is None or self.kept[0] != file.path:
            year, *folder = file.path.split(os.sep)[:4]
            location, found = os.path.basename(file.path).split(".")[2], datetime.date.max
            for number in range(int(year), int(year) + YEARS_BEFORE + 1):
                names = [f"{number:04}", *folder]
                if found == datetime.date.max and os.path.isdir(os.path.join(self.root, *names)):
                    days = (other.day for other in self.days(names, location, file.day + DAY, datetime.date.max))
                    found = next((day for day in days if day > file.day), found)
            self.kept = file.path, found
        return self.kept[1]

    def must_be_root(self) -> None:
        """Raises ToolError where this is no root of an archive: files are there, and no year's folder."""
        if self.walk.listed([]) and not any(self.below([], is_year)):
            refuse_within(self.root)
            raise ToolError(f"{self.root}: no folder of a year, as an archive in the SDS layout has them")


def file_of(folder: list[str], name: str) -> Optional[DayFile]:
    """The file of a name in a folder, where that is its place."""
    place = place_of(name)
    if place is None or place[0] != folder:
        return None
    return DayFile(os.path.join(*folder, name), "_".join(name.split(".")[:4]), place[1])


def with_location_last(names: Sequence[str]) -> list[str]:
    """The codes in the name of a file, in the order of the folders, and then the location."""
    return [names[0], names[1], names[3], names[2]]


def everywhere(root: str) -> Iterator[str]:
    """The paths of all files below a root: those in their places, channel by channel and then by day, and then those in
    none. Hidden ones aside, and folders of other kinds of data."""
    tree = tree_at(root)
    for file in tree.files:
        yield file.path
    for path in tree.misplaced:
        if not os.path.isdir(os.path.join(root, path)):
            yield path
            continue
        for folder, folders, files in os.walk(os.path.join(root, path)):
            folders[:] = sorted(name for name in folders if not name.startswith("."))
            yield from (os.path.relpath(os.path.join(folder, name), root) for name in sorted(files)
                        if not name.startswith("."))
