"""Archives in the SDS layout: `YEAR/NET/STA/CHAN.D/NET.STA.LOC.CHAN.D.YEAR.DAY` below a root."""

from __future__ import annotations

import calendar
import datetime
import os
import re
from typing import Iterator, NamedTuple, Optional, Sequence

from mseed_tools.program import ToolError

# Folders of the layout that hold no waveforms: events, logs, timing, calibrations, responses and opaque data.
OTHERS = re.compile(r".+\.[ELTCRO]")
YEAR = re.compile(r"[0-9]{4}")
# A code that can be part of a path.
CODE = re.compile(r"[A-Za-z0-9-]+")
# The folders of the layout by what they hold, from that of a file up.
LEVELS = ["channel", "station", "network", "year"]
PLACE = "YEAR/NET/STA/CHAN.D/NET.STA.LOC.CHAN.D.YEAR.DAY"
# In so many folders a file's place is looked for below what is no root.
MOST_FOLDERS = 1000


class DayFile(NamedTuple):
    """A file in its place: its path below the root, the channel that its name says, and its day."""

    path: str
    channel: str
    day: datetime.date

    @property
    def year(self) -> str:
        """What the files of its channel and year have in common."""
        return self.path.rpartition(".")[0]


class Tree(NamedTuple):
    """The files of an archive, channel after channel and in each day after day, the paths of what stands in no place of
    the layout, and those of folders that can't be read."""

    root: str
    files: list[DayFile]
    misplaced: list[str]
    unread: list[str]


def day_of(year: str, number: str) -> datetime.date:
    """A day by its year and its number in it. Raises ValueError where there is none."""
    if not re.fullmatch(r"[0-9]{3}", number) or not 1 <= int(number) <= 365 + calendar.isleap(int(year)):
        raise ValueError(number)
    return datetime.date(int(year), 1, 1) + datetime.timedelta(days=int(number) - 1)


def place_of(name: str) -> Optional[tuple[list[str], datetime.date]]:
    """The folders, from the year down, in which a file of this name has its place, and its day; nothing for the name of
    no file of a day."""
    parts = name.split(".")
    try:
        if len(parts) != 7 or parts[4] != "D" or not is_year(parts[5]):
            return None
        return [parts[5], parts[0], parts[1], f"{parts[3]}.D"], day_of(parts[5], parts[6])
    except ValueError:
        return None


def path_of(codes: Sequence[str], day: datetime.date) -> Optional[str]:
    """Where below the root the file of a day has its place, by network, station, location and channel. Nothing for
    codes that have none: each is of letters, digits and `-`, and only that of the location may be empty."""
    if len(codes) != 4:
        return None
    network, station, location, channel = codes
    if not all(CODE.fullmatch(code) for code in (network, station, location or "-", channel)):
        return None
    year = f"{day.year:04}"
    name = f"{network}.{station}.{location}.{channel}.D.{year}.{day.timetuple().tm_yday:03}"
    return os.path.join(year, network, station, f"{channel}.D", name)


def is_year(name: str) -> bool:
    """Whether a folder of this name is that of a year."""
    return YEAR.fullmatch(name) is not None and name != "0000"


class Walk:
    """A way through an archive, which notes what it finds."""

    def __init__(self, root: str):
        self.root = root
        self.tree = Tree(root, [], [], [])

    def listed(self, names: list[str]) -> list[os.DirEntry[str]]:
        """What is in a folder, ascending; hidden names, which programs that copy files give them meanwhile, aside.
        Raises ToolError where the root can't be read."""
        try:
            with os.scandir(os.path.join(self.root, *names)) as some:
                return sorted((entry for entry in some if not entry.name.startswith(".")), key=lambda one: one.name)
        except OSError as error:
            self.cannot_list(names, error)
            return []

    def names_in(self, names: list[str]) -> list[str]:
        """The names alone of what is in a folder, as `listed` has them: of a folder that has many."""
        try:
            return sorted(name for name in os.listdir(os.path.join(self.root, *names)) if not name.startswith("."))
        except OSError as error:
            self.cannot_list(names, error)
            return []

    def cannot_list(self, names: list[str], error: OSError) -> None:
        """Notes that a folder can't be read. Raises ToolError where that is the root."""
        if not names:
            raise ToolError(f"{self.root}: {error.strerror}") from error
        self.tree.unread.append(os.path.join(*names))

    def within(self, names: list[str]) -> Iterator[tuple[list[str], bool]]:
        """What is in a folder, by its names below the root, and whether it is a folder."""
        for entry in self.listed(names):
            try:
                yield [*names, entry.name], entry.is_dir()
            except OSError:
                self.tree.unread.append(os.path.join(*names, entry.name))

    def folders(self, names: list[str]) -> Iterator[list[str]]:
        """The folders in a folder; what is none is misplaced."""
        for below, is_folder in self.within(names):
            if is_folder and (names or is_year(below[0])):
                yield below
            else:
                self.tree.misplaced.append(os.path.join(*below))

    def channels(self) -> Iterator[list[str]]:
        """The folders of channels."""
        for year in self.folders([]):
            for network in self.folders(year):
                for station in self.folders(network):
                    for channel, is_folder in self.within(station):
                        if is_folder and channel[3].endswith(".D"):
                            yield channel
                        elif not is_folder or not OTHERS.fullmatch(channel[3]):
                            self.tree.misplaced.append(os.path.join(*channel))

    def walked(self) -> Tree:
        """All that there is."""
        for channel in self.channels():
            for entry in self.listed(channel):
                path, place = os.path.join(*channel, entry.name), place_of(entry.name)
                if place is not None and place[0] == channel:
                    self.tree.files.append(DayFile(path, "_".join(entry.name.split(".")[:4]), place[1]))
                else:
                    self.tree.misplaced.append(path)
        for some in (self.tree.misplaced, self.tree.unread):
            some.sort()
        self.tree.files.sort(key=lambda file: (file.channel, file.day))
        return self.tree


def tree_at(root: str) -> Tree:
    """The archive at a root. Raises ToolError where the root can't be read, or is a folder within an archive."""
    tree = Walk(root).walked()
    if tree.misplaced and not tree.files:
        refuse_within(root)
    return tree


def filled_tree_at(root: str) -> Tree:
    """The archive at a root. Raises ToolError also where no file below the root is one of an archive: what would be
    said of nothing would be taken for what is said of the files."""
    tree = tree_at(root)
    if not tree.files and not tree.unread:
        raise ToolError(f"{root}: no file of an SDS tree, as {PLACE}")
    return tree


def refuse_within(root: str) -> None:
    """Raises ToolError where files below what is named as a root stand in their places, but for the folders that lack
    below it, as those of a year's folder do; and says where the root is."""
    for count, (path, folders, files) in enumerate(os.walk(root, followlinks=True)):
        below = os.path.relpath(path, root).split(os.sep) if path != root else []
        for place in filter(None, map(place_of, sorted(files))):
            above = place[0][: 4 - len(below)]
            is_named = os.path.abspath(root).split(os.sep)[-len(above):] == above
            if place[0][4 - len(below):] == below and (below or is_named):
                where = os.path.abspath(os.path.join(os.path.abspath(root), *[os.pardir] * len(above)))
                raise ToolError(f"{root}: the folder of a {LEVELS[len(below)]}; the root of the archive is "
                                f"{where if is_named else 'the folder above the years'}")
        folders[:] = sorted(folders) if len(below) < 3 else []
        if count == MOST_FOLDERS:
            return


def days_in_words(days: list[datetime.date]) -> list[tuple[str, str]]:
    """Days, ascending, as runs, each by its first and its last one."""
    runs: list[list[datetime.date]] = []
    for day in days:
        if runs and day - runs[-1][1] == datetime.timedelta(days=1):
            runs[-1][1] = day
        else:
            runs.append([day, day])
    return [(first.isoformat(), last.isoformat()) for first, last in runs]


def missing_between(days: set[datetime.date]) -> list[datetime.date]:
    """The days between the first and the last that aren't there."""
    if not days:
        return []
    first, last = min(days), max(days)
    return [day for day in (first + datetime.timedelta(days=number) for number in range((last - first).days))
            if day not in days]
