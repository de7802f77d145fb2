"""Archives cut into files at any byte, as files and as one input: the same output, status and standard error, but for
the last line there, which says in which file a fault lies. Rows of selections.py compare the one input with the second
program in Python; here the words are compared with it (models/selecting.py)."""

from __future__ import annotations

import os
import tempfile
from random import Random
from typing import Callable, Sequence

from driver.batches import Batch
from driver.records import next_record, record
from driver.rows import Cases, Fact, Result, Row, holds, in_memory
from models.selecting import Ended, Selection, audit, fault_line, repack, select, show

SEED = 20260528
COUNT = 10_000
MOST_FILES = 5

# The records that archives are made of: of two channels, late and early, with bad starts and without samples, and
# some that a cut or a doubled byte makes no record.
RECORDS = [record(), next_record(), record(second=1, fraction=6000), record(fraction=8250, micros=1), record(hour=24),
           record(samples=0), record(factor=0), record(codes=b"STA    BHNXX"), record(second=30, order="<"),
           record(exponent=8), record(exponent=9, encoding=5)]
JUNK = [b"x", b"no record" * 6, b"MS\x03", record()[:60], record()[:127], b"\0" * 200]
WINDOW = Selection(None, "2024-01-01T00:00:00.75", "2024-01-01T00:00:30")

# Each command, and what must come of it over one input.
COMMANDS: list[tuple[list[str], Callable[[bytes], Ended]]] = [
    (["audit"], audit),
    (["audit", "--each"], lambda archive: audit(archive, each=True)),
    (["show"], show),
    (["select"], select),
    (["select", *WINDOW.words()], lambda archive: select(archive, WINDOW)),
    (["audit", *WINDOW.words()], lambda archive: audit(archive, WINDOW)),
    (["show", "--channels=*_*_*_BHZ"], lambda archive: show(archive, Selection("*_*_*_BHZ"))),
    (["repack"], repack),
    (["repack", "--stretches", "--leave"], lambda archive: repack(archive, stretches=True, leave=True)),
]


class Files(Batch):
    """Runs over files in memory, which are named by their descriptors."""

    def __enter__(self) -> Files:
        super().__enter__()
        self.named = [in_memory() for _ in range(MOST_FILES)]
        for file in self.named:
            os.set_inheritable(file.fileno(), True)
        return self

    def __exit__(self, *ended) -> None:
        for file in self.named:
            file.close()
        super().__exit__(*ended)

    def word(self, index: int) -> str:
        """The name of a file."""
        return f"/dev/fd/{self.named[index].fileno()}"

    def run_over(self, command: Sequence[str], pieces: Sequence[bytes], given: int) -> Result:
        """A run over pieces as files; the one at `given`, if it is there, is standard input."""
        for file, piece in zip(self.named, pieces):
            file.seek(0)
            file.truncate()
            file.write(piece)
        return self.run([*command, *self.words(pieces, given)], pieces[given] if given < len(pieces) else b"")

    def words(self, pieces: Sequence[bytes], given: int) -> list[str]:
        """The arguments that name them."""
        return ["-" if index == given else self.word(index) for index in range(len(pieces))]


def archive_for(source: Random) -> bytes:
    """A few records, and now and then what is none."""
    records = [source.choice(RECORDS) for _ in range(source.randrange(5))]
    if source.randrange(3) == 0:
        records.insert(source.randrange(len(records) + 1), source.choice(JUNK))
    archive = b"".join(records)
    return archive[: source.randrange(len(archive) + 1)] if source.randrange(5) == 0 else archive


def cut_anywhere(source: Random, archive: bytes) -> list[bytes]:
    """The archive in up to five pieces, some of them empty; one in three is cut where records end."""
    places = range(0, len(archive) + 1, 128 if source.randrange(3) == 0 else 1)
    cuts = sorted(source.choice(places) for _ in range(source.randrange(MOST_FILES)))
    return [archive[begin:end] for begin, end in zip([0, *cuts], [*cuts, len(archive)])]


def is_there(command: list[str]) -> bool:
    """Whether a command is there, and takes its options."""
    return Row("", b"", [*command, "/dev/null"], 0).run().status == 0


def cuts() -> Cases:
    """Each archive is cut once, and goes to one of the commands that are there: as files, and as one input."""
    blamed, commands = set(), [one for one in COMMANDS if is_there(one[0])]
    with Files() as files:
        for seed in range(SEED, SEED + COUNT):
            source = Random(seed)
            archive = archive_for(source)
            pieces, given = cut_anywhere(source, archive), source.randrange(2 * MOST_FILES)
            command, of_one = source.choice(commands)
            out, err, status = of_one(archive)
            words = files.words(pieces, given)
            last = fault_line(archive, [(word.encode(), len(piece)) for word, piece in zip(words, pieces)])
            blamed.add(last.split(b" ")[3] if last else b"")
            came = files.run_over(command, pieces, given)
            yield Fact(f"seed {seed}: {' '.join(command)}, files of {[len(piece) for piece in pieces]} bytes",
                       (out, err + last, status), (came.out, came.err, came.status))
            one = files.run(command, archive)
            yield Fact(f"seed {seed}: {' '.join(command)}, one input", (out, err, status), (one.out, one.err, one.status))
    are_all = len(blamed) == MOST_FILES + 2
    yield holds("faults lie in each of the files, in standard input, and in none", are_all, blamed)


def rows() -> Cases:
    """All of them. A command that isn't there, or no line that says in which file a fault lies, is one failure, and not
    thousands."""
    for command, _ in COMMANDS:
        yield holds(f"{' '.join(command)} is there", is_there(command))
    with tempfile.TemporaryDirectory() as folder:
        path = os.path.join(folder, "a.mseed")
        with open(path, "wb") as file:
            file.write(JUNK[1])
        reports = Row("in which file a fault lies", b"", ["show", path], 2, b"records 0\nfault at 0 notdata\n",
                    b"mseed: fault in %b at 0\n" % os.fsencode(path))
        yield reports
        does_report = reports.fault() is None
    if does_report:
        yield from cuts()
