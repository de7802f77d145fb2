"""Arguments after a command name files, whose bytes, one after another, are its input."""

from __future__ import annotations

import os
import random
import re
import subprocess
import tempfile
import threading
from pathlib import Path
from typing import Iterator, Optional, Sequence

from driver.program import LIMIT, PROGRAM, SAMPLES
from driver.records import next_record, record
from driver.rows import Cases, Fact, Row, Word, holds
from driver.texts import BAD_VALUE, WRITE_FAILED
from models.parts import flaw

TWO = SAMPLES / "two_records.mseed"
ARCHIVE = TWO.read_bytes()
COMMANDS: list[list[Word]] = [["audit"], ["audit", "--each"], ["audit", "--part"], ["show"], ["repack"],
                              ["repack", "--stretches"]]

# Nobody's number on the systems that the tests run on.
NOBODY = 65534


def cannot_read(word: bytes, reason: bytes = b"not found") -> bytes:
    """The line of a file that can't be read: what isn't a printable character of ASCII is reported as `?`."""
    shown = bytes(b if 32 <= b <= 126 else ord("?") for b in word)
    return b"mseed: cannot read " + shown + b": " + reason + b"\n"


def pieces(archive: bytes, cuts: Sequence[int]) -> Iterator[bytes]:
    """An archive, cut at these places."""
    bounds = [0, *cuts, len(archive)]
    for begin, end in zip(bounds, bounds[1:]):
        yield archive[begin:end]


def written(folder: Path, contents: Sequence[bytes]) -> list[str]:
    """Files with these contents."""
    names = []
    for index, bytes_of in enumerate(contents):
        path = folder / f"{index}.mseed"
        path.write_bytes(bytes_of)
        names.append(str(path))
    return names


def named(folder: Path) -> Cases:
    """Files as they are named, and a sound archive in one and in two of them."""
    whole = {tuple(command): Row("", ARCHIVE, command, 0).run() for command in COMMANDS}
    halves = written(folder, list(pieces(ARCHIVE, [128])))
    for command in COMMANDS:
        ended = whole[tuple(command)]
        for name, words in [("one file", [str(TWO)]), ("two files", halves), ("after --", ["--", str(TWO)])]:
            yield Row(f"{command} of {name}", b"", [*command, *words], *ended[:3])
        yield Row(f"{command} of a file and standard input", ARCHIVE[128:], [*command, halves[0], "-"], *ended[:3])
        yield Row(f"{command} of standard input and a file", ARCHIVE[:128], [*command, "-", halves[1]], *ended[:3])
    part = whole[("audit", "--part")]
    (folder / "part").write_bytes(part.out)
    joined = Row("", part.out * 2, ["join"], 1).run()
    yield Row("join of a part twice", b"", ["join", str(folder / "part"), str(folder / "part")], *joined[:3])
    for name in [b"a\nb", b"\xff\xfe", b"-x", b"\x01", "é".encode()]:
        path = os.path.join(os.fsencode(folder), name)
        with open(path, "wb") as file:
            file.write(ARCHIVE)
        yield Row(f"a file named {name!r}", b"", ["audit", path], *whole[("audit",)][:3])


def refused(folder: Path) -> Cases:
    """Arguments that name nothing that can be read: nothing is done then, and the first of them is reported."""
    good, none, directory = str(TWO), str(folder / "none"), str(folder)
    for command in (["audit"], ["join"], ["show"], ["repack"]):
        for words, word in [([none], none), ([good, none], none), ([good, directory, none], directory)]:
            reason = b"is a directory" if word == directory else b"not found"
            yield Row(f"{command} {words}", ARCHIVE, [*command, *words], 2, b"", cannot_read(word.encode(), reason),
                      left=len(ARCHIVE))
    for name in (b"no\nne", b"n\xff", b"~"):
        path = os.path.join(os.fsencode(folder), name)
        yield Row(f"no file {name!r}", b"", ["audit", path], 2, b"", cannot_read(path))
    long = "x" * 5000
    yield Row("a long word", b"", ["audit", long], 2, b"", cannot_read(long.encode(), b"file name too long"))
    for words in ([b"audit", b"audit"], [b"join", b"audit"], [b"show", b"XX_STB"], [b"join", b"no \xff"],
                  [b"audit", b"--", b"-\xff"]):
        yield Row(f"not there {words}", ARCHIVE, words, 2, b"", cannot_read(words[-1]), left=len(ARCHIVE))
    for words in (["audit", ""], ["audit", none, ""], ["audit", "-", "-"], ["show", "-", good, "-"]):
        yield Row(f"bad {words}", ARCHIVE, words, 3, b"", BAD_VALUE)
    for words in ([b"audit", b"-\xff"], [b"\xff"]):
        yield Row(f"bad {words}", ARCHIVE, words, 3, b"", BAD_VALUE)
    loop, other = folder / "loop", folder / "other"
    loop.symlink_to(other)
    other.symlink_to(loop)
    yield Row("links that lead to one another", b"", ["audit", str(loop)], 2, b"",
              cannot_read(str(loop).encode(), b"too many levels of symbolic links"))
    yield Row("below a file", b"", ["audit", f"{good}/below"], 2, b"",
              cannot_read(f"{good}/below".encode(), b"not a directory"))


def output(folder: Path) -> Cases:
    """The regular file that standard output writes into is not read."""
    path = folder / "grown"
    path.write_bytes(ARCHIVE)
    with open(path, "ab") as out:
        ran = subprocess.run([PROGRAM, "audit", str(TWO), str(path)], stdout=out, stderr=subprocess.PIPE,
                             stdin=subprocess.DEVNULL, timeout=LIMIT, check=False)
    yield Fact("audit of its own output", (2, cannot_read(str(path).encode(), b"is the output")),
               (ran.returncode, ran.stderr))
    yield holds("its output is untouched", path.read_bytes() == ARCHIVE, path.stat().st_size)


def unreadable(folder: Path) -> Cases:
    """A file that may not be read, reported before anything is read where its name is UTF-8, and else in its turn."""
    if os.geteuid() != 0:
        return
    [good] = written(folder, [ARCHIVE])
    for name in (b"locked", b"\xc3\xa9", b"l\xff"):
        path = os.path.join(os.fsencode(folder), name)
        Path(os.fsdecode(path)).write_bytes(ARCHIVE)
        os.chmod(path, 0)
        if name == b"l\xff":
            ran = subprocess.run([PROGRAM, "show", good, path], capture_output=True, timeout=LIMIT, check=False,
                                 user=NOBODY)
            yield Fact(f"show of {name!r}, without permission", (2, cannot_read(path, b"permission denied")),
                       (ran.returncode, ran.stderr))
            continue
        for command in (*COMMANDS, ["join"], ["select"]):
            for before in ("/dev/null", good, "-"):
                with open(good, "rb") as given:
                    ran = subprocess.run([PROGRAM, *command, before, path], capture_output=True, timeout=LIMIT,
                                         check=False, user=NOBODY, stdin=given)
                    unread = len(ARCHIVE) - os.lseek(given.fileno(), 0, os.SEEK_CUR)
                yield Fact(f"{command} of {os.path.basename(before)}, and of {name!r}, without permission",
                           (2, b"", cannot_read(path, b"permission denied"), len(ARCHIVE)),
                           (ran.returncode, ran.stdout, ran.stderr, unread))
    yield from opened_once(folder)


def opened_once(folder: Path) -> Cases:
    """A pipe of any name is opened in its turn, and once: whoever writes into it is read to the end."""
    for name in (b"pipe", b"p\xff"):
        path = os.path.join(os.fsencode(folder), name)
        os.mkfifo(path)
        writer = threading.Thread(target=Path(os.fsdecode(path)).write_bytes, args=(ARCHIVE[100:],), daemon=True)
        begin = written(folder, [ARCHIVE[:100]])[0]
        writer.start()
        try:
            ran = subprocess.run([PROGRAM, "select", begin, path], capture_output=True, timeout=20, check=False,
                                 stdin=subprocess.DEVNULL)
            came = ran.returncode, ran.stdout, ran.stderr
        except subprocess.TimeoutExpired:
            came = "no end"
        yield Fact(f"a pipe named {name!r}", (0, ARCHIVE, b""), came)


def piped(folder: Path) -> Cases:
    """Pipes are opened in their turn alone."""
    ended = Row("", ARCHIVE, ["audit"], 0).run()
    script = f'"$0" audit <(head -c 100 {TWO}) /dev/null <(tail -c +101 {TWO})'
    ran = subprocess.run(["bash", "-c", script, PROGRAM], capture_output=True, timeout=LIMIT, check=False,
                         stdin=subprocess.DEVNULL)
    yield Fact("pipes", tuple(ended)[:3], (ran.returncode, ran.stdout, ran.stderr))


def many(folder: Path) -> Cases:
    """Ten thousand arguments with sixty-four descriptors."""
    names = written(folder, [record(), next_record()])
    words = [*names[:1], *["/dev/null", str(folder / "empty")] * 5000, *names[1:]]
    (folder / "empty").write_bytes(b"")
    ran = subprocess.run(["bash", "-c", 'ulimit -n 64; exec "$0" "$@"', PROGRAM, "audit", *words],
                         capture_output=True, timeout=LIMIT, check=False, stdin=subprocess.DEVNULL)
    ended = Row("", record() + next_record(), ["audit"], 0).run()
    yield Fact("ten thousand words", tuple(ended)[:3], (ran.returncode, ran.stdout, ran.stderr))


def cut_anywhere(folder: Path) -> Cases:
    """Sound archives cut at any byte, as files and as one input."""
    rng = random.Random(56)
    for index in range(200):
        archive = b"".join(record(fraction=0, minute=minute) for minute in range(rng.randrange(1, 6)))
        cuts = sorted(rng.randrange(len(archive) + 1) for _ in range(rng.randrange(6)))
        command = rng.choice(COMMANDS)
        names = written(folder, list(pieces(archive, cuts)))
        ended = Row("", archive, command, 0).run()
        yield Row(f"{command} cut at {cuts} of {len(archive)}, {index}", b"", [*command, *names], *ended[:3])


def fault_in(word: str, offset: int) -> bytes:
    """The line of a fault in a file."""
    return f"mseed: fault in {word} at {offset}\n".encode()


JUNK = b"x" * 60
LONG = record(exponent=9)
# Files that end with a fault, and of which file and place it is reported.
FAULTS: list[tuple[str, list[bytes], int, int]] = [
    ("junk at the end of the first", [record() + JUNK, next_record(), record()], 0, 128),
    ("junk at the end of the middle one", [record(), next_record() + JUNK, record()], 1, 128),
    ("junk at the end of the last", [record(), next_record(), record() + JUNK], 2, 128),
    ("junk at the begin of the first", [JUNK + record(), record()], 0, 0),
    ("junk between records", [record(), record() + JUNK + record() * 3], 1, 128),
    # A file that ends within a record takes the next one's bytes: it is reported of that record.
    ("the first ends within a record", [record() + record()[:100], record()], 0, 128),
    ("the first ends within its one record", [record()[:100], record()], 0, 0),
    ("the middle one ends within a record", [record(), record()[:127], record()], 1, 0),
    ("it reaches over two", [record() + LONG[:300], record()[:100], b"", record() * 4], 0, 128),
    ("the first ends within a header", [record() + record()[:46], record()], 0, 128),
    # After a record that ends with its file, the fault is reported of the file that is none.
    ("a file of junk after a sound one", [record() * 3, JUNK], 1, 0),
    ("a file of junk between sound ones", [record(), record() * 2, JUNK, record()], 2, 0),
    ("a file of junk after an empty one", [record(), b"", JUNK], 2, 0),
    ("a file of junk after empty ones", [b"", record() * 2, b"", b"", b"", JUNK, b""], 5, 0),
    ("a file of junk alone, after an empty one", [b"", JUNK], 1, 0),
    ("a file of junk after a long one", [record() * 50, LONG, JUNK * 200, record()], 2, 0),
    ("a file of one byte after a sound one", [record(), b"x"], 1, 0),
    ("a piece of a record after a sound one", [record(), record()[:60]], 1, 0),
    ("a file of junk after one in two files", [record()[:100], record()[100:], JUNK], 0, 0),
    ("a file of junk after one in three files", [record() + LONG[:1], b"", LONG[1:300], LONG[300:], b"", JUNK], 0, 128),
    ("a file of junk after one in two files, and a sound one", [record()[:100], record()[100:], record(), JUNK], 3, 0),
    ("a file of junk after one in two files, and a sound one there", [record()[:100], record()[100:] + record(), JUNK],
     2, 0),
    ("a piece of a record after one in two files", [record()[:100], record()[100:] + record()[:99]], 0, 0),
    ("a piece in two files after a sound one", [record(), LONG[:60], LONG[60:90]], 1, 0),
    ("a piece that begins in a sound file", [record() + LONG[:60], LONG[60:90]], 0, 128),
    ("a header that two files have, and is none", [record() + record()[:46], b"\0\0" + record()[48:]], 0, 128),
    ("junk that begins in a sound file", [record() + JUNK[:7], JUNK[7:]], 0, 128),
    # A record that is cut off at the end is reported itself.
    ("the last ends within a record", [record() * 2, record() + record()[:100]], 1, 128),
    ("the last ends within its one record", [record() * 2, record()[:100]], 1, 0),
    ("the last ends within a header", [record(), record()[:20]], 1, 0),
    ("one file that ends within a record", [record() + record()[:100]], 0, 128),
    ("empty ones after", [record(), record()[:100], b"", b""], 1, 0),
    ("one record in three files", [record(), LONG[:50], LONG[50:60], LONG[60:500]], 1, 0),
    # But for one that reaches over from another file, since that one is at fault.
    ("a long record takes a piece", [LONG[:500], b"y" * 12 + b"0000"], 0, 0),
]


def faults(folder: Path) -> Cases:
    """A fault of the input is reported last, of the file in which it lies."""
    for name, contents, file, offset in FAULTS:
        names = written(folder, contents)
        reported = fault_in(names[file], offset)
        for command in (*COMMANDS, ["select"]):
            ended = Row("", b"".join(contents), command, 2).run()
            yield Row(f"{command}, {name}", b"", [*command, *names], 2, ended.out, ended.err + reported)
            if command == ["show"]:
                yield Row(f"{command}, {name}, a full device", b"", [*command, *names], 2, b"", WRITE_FAILED,
                          out_to="/dev/full")
        ended = Row("", b"".join(contents), ["audit"], 2).run()
        yield Row(f"standard input, {name}", contents[0], ["audit", "-", *names[1:]], 2, ended.out,
                  fault_in("-", offset) if file == 0 else reported)
        script = '"$0" show ' + " ".join(f'<(cat "${index + 1}")' for index in range(len(names)))
        ran = subprocess.run(["bash", "-c", script, PROGRAM, *names], capture_output=True, timeout=LIMIT, check=False,
                             stdin=subprocess.DEVNULL)
        yield holds(f"pipes, {name}", re.fullmatch(rb"mseed: fault in /dev/fd/\d+ at %d\n" % offset, ran.stderr),
                    ran.stderr)
    path = os.path.join(os.fsencode(folder), b"a\n\xff")
    with open(path, "wb") as file:
        file.write(JUNK)
    yield Row("a fault in a file whose name is no text", b"", ["audit", path], 2, b"records 0 channels 0\n"
              b"fault at 0 notdata\n", b"mseed: fault in " + os.fsencode(folder) + b"/a?? at 0\n")


def pieces_with_faults(folder: Path) -> Cases:
    """Archives with junk or a cut, in files: the place is that of a plain reading of the rule."""
    rng = random.Random(57)
    for index in range(300):
        contents = []
        for _ in range(rng.randrange(1, 6)):
            size = rng.randrange(4)
            contents.append(b"".join(record(exponent=rng.randrange(7, 10)) for _ in range(size)))
        hit = rng.randrange(len(contents))
        cut = rng.randrange(len(contents[hit]) + 1)
        contents[hit] = contents[hit][:cut] + (JUNK if rng.randrange(2) else b"")
        ended = Row("", b"".join(contents), ["show"], 2).run()
        lines = ended.out.splitlines()
        if ended.status == 0:
            continue
        fault = lines[-1].split()
        begins = [int(line.split()[0]) for line in lines[:-2]]
        file, offset = told_place([len(piece) for piece in contents], int(fault[2]), begins[-1] if begins else None)
        names = written(folder, contents)
        yield Row(f"{[len(piece) for piece in contents]}, {index}", b"", ["show", *names], 2, ended.out,
                  fault_in(names[file], offset))


def told_place(sizes: Sequence[int], fault: int, last: Optional[int]) -> tuple[int, int]:
    """The file of which a fault is reported, and the place in it, by the sizes of the files: that of the record before
    it, if that reaches over the end of its file, and else its own."""
    def place(offset: int) -> tuple[int, int]:
        bounds = [sum(sizes[:index]) for index in range(len(sizes))]
        file = max(index for index, bound in enumerate(bounds) if bound <= offset and (bound < sum(sizes) or not bound))
        return file, offset - bounds[file]

    if last is not None and place(last)[0] != place(fault - 1)[0]:
        return place(last)
    return place(fault)


def bad_parts(folder: Path) -> Cases:
    """A bad part is reported of the file in which its line begins; where the text ends within a part, of the last."""
    part = Row("", ARCHIVE, ["audit", "--part"], 0).run().out
    lines = part.splitlines(keepends=True)
    for name, contents, line, file, offset in [
        ("a word in the first", [b"x\n", part], 1, 0, 0),
        ("a word after the first", [part, b"x\n" + part], len(lines) + 1, 1, 0),
        ("a word within the second", [part, lines[0] + b"x\n", part], len(lines) + 2, 1, len(lines[0])),
        ("a word within a piece", [part, lines[0][:5], lines[0][5:] + b"x\n", part], len(lines) + 2, 2,
         len(lines[0]) - 5),
        ("a line that begins in a file and goes on in the next", [part + lines[0][:5], b"x\n"], len(lines) + 1, 0,
         len(part)),
        ("a part without its end", [part, part[: -len(lines[-1])]], 2 * len(lines), 1, len(part) - len(lines[-1])),
        ("a line without its end", [part, part[:-1]], 2 * len(lines), 1, len(part) - len(lines[-1])),
        ("an empty file after a part without its end", [part, lines[0], b""], len(lines) + 2, 2, 0),
    ]:
        names = written(folder, contents)
        reported = b"mseed: bad part at line %d\n" % line + flaw(b"".join(contents)).encode()
        reported += fault_in(names[file], offset)
        for command in (["join"], ["join", "--part"], ["join", "--each"], ["join", "--expect", "9"]):
            ended = Row("", b"".join(contents), command, 2).run()
            yield Row(f"{command}, {name}", b"", [*command, *names], 2, ended.out, reported)
    faulty = Row("", ARCHIVE + JUNK, ["audit", "--part"], 2).run().out
    names = written(folder, [part, faulty])
    ended = Row("", part + faulty, ["join"], 2).run()
    yield Row("an archive's fault isn't the input's", b"", ["join", *names], 2, ended.out, b"")
    yield Row("fewer parts than expected", b"", ["join", "--expect", "3", *names], 2, b"", b"mseed: 2 parts, not 3\n")


def failed_reads(folder: Path) -> Cases:
    """A file that fails in its turn is reported last; after a failed write or want of memory nothing is."""
    good = written(folder, [ARCHIVE])[0]
    failing = "/proc/self/mem"
    reported = cannot_read(failing.encode(), b"input/output error")
    fault = b"mseed: fault at %d read\n" % len(ARCHIVE)
    yield Row("audit", b"", ["audit", good, failing], 2, Row("", ARCHIVE, ["audit"], 0).run().out + fault[7:], reported)
    yield Row("show", b"", ["show", good, failing], 2, Row("", ARCHIVE, ["show"], 0).run().out + fault[7:], reported)
    yield Row("select", b"", ["select", good, failing], 2, ARCHIVE, fault + reported)
    yield Row("repack", b"", ["repack", good, failing], 2, b"", fault + reported)
    for command in (["audit"], ["show"], ["select"]):
        yield Row(f"{command}, a full device", b"", [*command, good, failing], 2, b"", WRITE_FAILED, out_to="/dev/full")


def rows() -> Cases:
    """All of them."""
    for make in (named, refused, output, unreadable, piped, many, cut_anywhere, faults, pieces_with_faults, bad_parts,
                 failed_reads):
        with tempfile.TemporaryDirectory() as folder:
            os.chmod(folder, 0o755)
            yield from make(Path(folder))
