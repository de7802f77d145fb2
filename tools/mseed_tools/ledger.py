"""What is kept of a tree that tools write: how long its files are, and the numbers by which feeds go on. Both change in
one transaction, of a database in the tree's folder `.mseed`."""

from __future__ import annotations

import contextlib
import sqlite3
import time
from typing import Iterable, Iterator, NamedTuple, Optional

from mseed_tools.program import ToolError

FORM = 1
# What is kept of a file that nobody has written for so many seconds is dropped.
LONG = 30 * 86400
# With these a transaction is on the disk once it is committed, whatever happens then.
DURABLE = ("PRAGMA locking_mode = EXCLUSIVE", "PRAGMA journal_mode = TRUNCATE", "PRAGMA synchronous = EXTRA",
           "PRAGMA temp_store = MEMORY")
TABLES = (
    "CREATE TABLE files (path TEXT PRIMARY KEY, length INTEGER NOT NULL, latest TEXT NOT NULL, inode INTEGER NOT NULL, "
    "changed INTEGER NOT NULL, is_open INTEGER NOT NULL, seen INTEGER NOT NULL) WITHOUT ROWID",
    "CREATE TABLE numbers (feed TEXT, place TEXT, next INTEGER NOT NULL, PRIMARY KEY (feed, place)) WITHOUT ROWID",
    f"PRAGMA user_version = {FORM}")


class Stamp(NamedTuple):
    """By what a file is known to be the one that was written, and to be as it was left."""

    inode: int
    length: int
    changed: int


class Kept(NamedTuple):
    """What is kept of a file: its stamp, and the latest start of its records."""

    path: str
    stamp: Stamp
    latest: str


class Ledger:
    """The database. Whoever has it holds the tree's lock."""

    def __init__(self, path: str):
        self.path = path
        with self.told():
            self.base = sqlite3.connect(path, isolation_level=None, timeout=0)
            for pragma in DURABLE:
                self.base.execute(pragma)
            form = self.base.execute("PRAGMA user_version").fetchone()[0]
            if form not in (0, FORM):
                raise ToolError(f"{path}: of form {form}, which another version wrote")
        if form == 0:
            with self.transaction():
                for table in TABLES:
                    self.base.execute(table)

    @contextlib.contextmanager
    def told(self) -> Iterator[None]:
        """Raises ToolError in the place of the database's errors."""
        try:
            yield
        except sqlite3.Error as error:
            raise ToolError(f"{self.path}: {error}") from error

    @contextlib.contextmanager
    def transaction(self) -> Iterator[None]:
        """What is done here is on the disk behind it, all or nothing."""
        with self.told():
            self.base.execute("BEGIN IMMEDIATE")
            try:
                yield
                self.base.execute("COMMIT")
            except BaseException:
                self.roll_back()
                raise

    def roll_back(self) -> None:
        """Drops what was begun, if anything."""
        if self.base.in_transaction:
            self.base.execute("ROLLBACK")

    def open_files(self) -> list[tuple[str, int]]:
        """The files, with the lengths that were kept, to which a run that didn't end may have added more."""
        with self.told():
            return self.base.execute("SELECT path, length FROM files WHERE is_open ORDER BY path").fetchall()

    def kept(self, path: str) -> Optional[Kept]:
        """What is kept of a file."""
        with self.told():
            row = self.base.execute("SELECT inode, length, changed, latest FROM files WHERE path = ?",
                                    (path,)).fetchone()
        return Kept(path, Stamp(*row[:3]), row[3]) if row else None

    def numbers(self, feed: str) -> dict[str, int]:
        """The number of the next record of each place of a feed."""
        with self.told():
            return dict(self.base.execute("SELECT place, next FROM numbers WHERE feed = ?", (feed,)).fetchall())

    def keep(self, files: Iterable[Kept], feed: str = "", numbers: Optional[dict[str, int]] = None) -> None:
        """Keeps what is on the disk. From here on until the end of this run more may be added to these files."""
        now = int(time.time())
        with self.transaction():
            self.base.executemany("REPLACE INTO files VALUES (?, ?, ?, ?, ?, 1, ?)",
                                  ((path, stamp.length, latest, stamp.inode, stamp.changed, now)
                                   for path, stamp, latest in files))
            self.base.executemany("REPLACE INTO numbers VALUES (?, ?, ?)",
                                  ((feed, place, number) for place, number in (numbers or {}).items()))

    def close_files(self, changed: Iterable[str] = ()) -> None:
        """Nothing more is added to any file. Of those that aren't as they were kept nothing is kept any more."""
        with self.transaction():
            self.base.execute("UPDATE files SET is_open = 0 WHERE is_open")
            self.base.executemany("DELETE FROM files WHERE path = ?", ((path,) for path in changed))
            self.base.execute("DELETE FROM files WHERE seen < ?", (int(time.time()) - LONG,))

    def close(self) -> None:
        """Lets go of the database."""
        with self.told():
            self.base.close()
