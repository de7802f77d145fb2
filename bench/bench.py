#!/usr/bin/env python3
"""Measures mseed side by side with libmseed over archives made here.

    bench.py MSEED [--rounds 5] [--megabytes 100] [--commands audit show repack] [--archives NAME ..]
             [--count] [--write]

Each program does the same work over the same archive in turn, round after round, so that load from
elsewhere falls on all alike; every other round goes in reverse. What counts is user and system time. The
ratio, libmseed / mseed, is above 1 where mseed is faster; it is the median of the rounds' ratios. With
--count the instructions of one run are counted too, by valgrind over eight megabytes: a record, or of repack a sample.
With --write they are counted, so is what select takes, with nothing beside it, and what was measured is written into
the tables of docs/performance.md.

Wants a C compiler and Debian's libmseed-dev; --count and --write want valgrind. What it builds and the archives go to
a temporary folder.
"""

import argparse
import hashlib
import os
import re
import shutil
import statistics
import subprocess
import sys
import tempfile

from tables import table, write

HERE = os.path.dirname(os.path.abspath(__file__))
FOLDER = os.path.join(tempfile.gettempdir(), "mseed-bench-of-" + str(os.getuid()))
ENCODINGS = {"int16": 1, "int32": 3, "steim1": 10, "steim2": 11}
ARCHIVES = ["steim2_512", "steim1_512", "steim2_4096", "int32_512"]
SPELLED = {"int16": "integers of 16 bits", "int32": "integers of 32 bits", "steim1": "Steim-1", "steim2": "Steim-2"}


def build():
    """Builds the programs of this folder over libmseed."""
    os.makedirs(FOLDER, exist_ok=True)
    for name in ("audit_by_libmseed", "show_by_libmseed", "repack_by_libmseed", "make_archive", "measure"):
        source = os.path.join(HERE, name + ".c")
        call = ["cc", "-O2", "-ffp-contract=off", "-o", os.path.join(FOLDER, name), source]
        subprocess.run(call if name == "measure" else call + ["-lmseed"], check=True)


def make_archive(name, megabytes):
    """The path of an archive, such as steim2_512: an encoding and a length of records. One that stands there was made
    whole, by the same source of what makes it."""
    with open(os.path.join(HERE, "make_archive.c"), "rb") as source:
        made_by = hashlib.sha256(source.read()).hexdigest()[:12]
    path = os.path.join(FOLDER, f"{name}_{megabytes}_{made_by}.mseed")
    if not os.path.exists(path):
        encoding, length = name.split("_")
        subprocess.run([os.path.join(FOLDER, "make_archive"), "-o", f"{path}.new", "-m", str(megabytes),
                        "-E", str(ENCODINGS[encoding]), "-R", length], check=True, stderr=subprocess.DEVNULL)
        os.replace(f"{path}.new", path)
    return path


def programs(mseed, command):
    peer = [os.path.join(FOLDER, f"{command}_by_libmseed")]
    if command == "repack":
        peer.append("-t")
    return {"libmseed": peer, "mseed": [mseed, command]}


def measure(call, archive, output="/dev/null"):
    """User and system seconds, and peak memory in MiB."""
    words = subprocess.run([os.path.join(FOLDER, "measure"), archive, output, *call],
                           check=True, capture_output=True, text=True).stdout.split()
    if int(words[5]) > 1:
        sys.exit(f"{' '.join(call)}: status {words[5]}")
    return float(words[0]), int(words[4]) / 1024


def instructions(call, archive):
    """The instructions of one run."""
    with open(archive, "rb") as source:
        call = ["valgrind", "--tool=cachegrind", "--cache-sim=no", "--cachegrind-out-file=/dev/null", *call]
        reported = subprocess.run(call, stdin=source, stdout=subprocess.DEVNULL, stderr=subprocess.PIPE,
                                  text=True).stderr
    return int(re.search(r"I +refs: +([\d,]+)", reported).group(1).replace(",", ""))


def channels_of(mseed, archive):
    """The lines of an archive's continuous channels, in words: the name first, the number of samples last."""
    text = subprocess.run([mseed, "audit", archive], stdout=subprocess.PIPE, check=True, text=True).stdout
    return [line.split() for line in text.splitlines() if " continuous " in line]


def samples_in(mseed, archive):
    """How many samples an archive has whose channels are continuous."""
    return sum(int(words[-1]) for words in channels_of(mseed, archive))


def selections(mseed, options):
    """The rows of the table of select, over an archive that is named: what is asked for, and what that takes."""
    archives = [make_archive(ARCHIVES[0], megabytes) for megabytes in (options.megabytes, 8)]
    sizes = [os.path.getsize(archive) for archive in archives]
    channel = channels_of(mseed, archives[0])[0][0]
    for name, asked in (("nothing, by `--channels ___`", ["--channels", "___"]),
                        ("nothing, by `--until 2000-01-01`", ["--until", "2000-01-01"]),
                        ("one channel of twelve", ["--channels", channel]), ("everything", [])):
        large, small = ([mseed, "select", *asked, archive] for archive in archives)
        cost = statistics.median(measure(large, os.devnull)[0] for _ in range(options.rounds))
        counted = instructions(small, os.devnull) / (sizes[1] / 512)
        yield [name, f"{cost:.3f}", f"{sizes[0] / cost / 1e9:.1f}", f"{counted:,.0f}"]


class Row:
    """What was measured of a command over an archive: medians of the rounds, by program."""

    def __init__(self, mseed, command, name, options):
        self.command, self.name = command, name
        self.archive = make_archive(name, options.megabytes)
        self.calls = programs(mseed, command)
        self.peak = {who: 0.0 for who in self.calls}
        self.instructions = {}
        self.run(options.rounds)
        if options.count or options.write:
            small = make_archive(name, 8)
            records = os.path.getsize(small) // int(name.split("_")[1])
            units = samples_in(mseed, small) if command == "repack" else records
            self.instructions = {who: instructions(call, small) / units for who, call in self.calls.items()}

    def run(self, rounds):
        seconds = {who: [] for who in self.calls}
        for turn in range(rounds):
            for who in list(self.calls)[:: -1 if turn % 2 else 1]:
                cost, memory = measure(self.calls[who], self.archive)
                seconds[who].append(cost)
                self.peak[who] = max(self.peak[who], memory)
        self.ratio = statistics.median(a / b for a, b in zip(seconds["libmseed"], seconds["mseed"]))
        self.speed = {who: os.path.getsize(self.archive) / statistics.median(seconds[who]) / 1e6 for who in self.calls}

    def check(self):
        """Both programs say the same, but of packing, where they may differ."""
        texts = {who: os.path.join(FOLDER, f"{who}.text") for who in self.calls}
        for who, call in self.calls.items():
            measure(call, self.archive, texts[who])
        with open(texts["libmseed"], "rb") as one, open(texts["mseed"], "rb") as other:
            if one.read() != other.read():
                sys.exit(f"{self.command} {self.name}: the texts differ: {texts['libmseed']} {texts['mseed']}")

    def line(self):
        return f"{self.command:7} {self.name:12} {self.ratio:5.2f}" \
            + "".join(f" {self.speed[who]:8.0f} {self.peak[who]:7.1f}" for who in self.calls) \
            + "".join(f" {self.instructions[who]:9.1f}" for who in self.instructions)

    def cells(self):
        """The row of a table."""
        encoding, length = self.name.split("_")
        digits = 1 if self.command == "repack" else 0
        return [f"`{self.command}`", f"{SPELLED[encoding]}, records of {int(length):,} bytes", f"{self.ratio:.1f}",
                *(f"{self.peak[who]:.1f}" for who in self.calls),
                *(f"{self.instructions[who]:,.{digits}f}" for who in self.calls)]


def write_tables(rows):
    """Those of audit and show count instructions by the record, that of repack by the sample."""
    for name, unit, commands in (("audit and show", "record", ("audit", "show")), ("repack", "sample", ("repack",))):
        heads = ["command", "archive", "times libmseed", "peak MiB, libmseed", "`mseed`",
                 f"instructions a {unit}, libmseed", "`mseed`"]
        write(name, table(heads, [row.cells() for row in rows if row.command in commands]))


def write_selections(mseed, options):
    """The table of select."""
    rows = list(selections(mseed, options))
    print("\n".join("  ".join(row) for row in rows), flush=True)
    write("select", table(["what is asked for", "seconds", "GB/s", "instructions a record"], rows))


def main():
    parser = argparse.ArgumentParser(description=__doc__, formatter_class=argparse.RawDescriptionHelpFormatter)
    parser.add_argument("mseed")
    parser.add_argument("--rounds", type=int, default=5)
    parser.add_argument("--megabytes", type=int, default=100)
    parser.add_argument("--commands", nargs="+", default=["audit", "show", "repack"])
    parser.add_argument("--archives", nargs="+", default=ARCHIVES)
    parser.add_argument("--count", action="store_true")
    parser.add_argument("--write", action="store_true")
    options = parser.parse_args()
    if (options.count or options.write) and not shutil.which("valgrind"):
        sys.exit("instructions are counted by valgrind, which isn't installed")
    if options.write and (options.commands, options.archives) != (["audit", "show", "repack"], ARCHIVES):
        sys.exit("the tables are written as a whole")
    build()
    print("                        ratio  libmseed            mseed              instructions")
    print("command archive         times     MB/s     MiB     MB/s     MiB  libmseed     mseed")
    rows = []
    for command in options.commands:
        for name in options.archives:
            row = Row(os.path.abspath(options.mseed), command, name, options)
            print(row.line(), flush=True)
            if command != "repack":
                row.check()
            rows.append(row)
    if options.write:
        write_tables(rows)
        write_selections(os.path.abspath(options.mseed), options)


if __name__ == "__main__":
    main()
