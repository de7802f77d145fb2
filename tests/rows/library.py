"""The library for C: the header by itself, the examples of the README and the cookbook, and the calls between pages
that can't be touched, under valgrind, by eight threads at once, and with memory refused."""

from __future__ import annotations

import os
import re
import shutil
import subprocess
import tempfile
from pathlib import Path

from driver.library import HEADERS, PYTHON, WANTS, compiled, has_numpy, library, python
from driver.program import CRATES, ROOT, SAMPLES, SOURCES
from driver.rows import Cases, Fact, Skipped, holds
from models.auditing import channels_of, cut, findings, name_of, time_of

# How far apart the beginnings and the changed bytes of an archive are.
STEPS = {"two_records": 1, "gap": 1, "steim2": 1, "steim2_one_bit": 1, "network_gap": 17, "network_bad_constant": 23,
         "network_junk": 29, "network_overlap": 31, "network_drift": 37, "network_cut": 41}

# The examples, as blocks of pages: the language, and the place among the page's blocks in it.
EXAMPLES = [("docs/cookbook.md", "c", 0), ("README.md", "python", 0), ("README.md", "python", 1)]

STANDARDS = [("cc", "c89"), ("cc", "c99"), ("cc", "c11"), ("c++", "c++98"), ("c++", "c++11"), ("c++", "c++17")]

ALONE = """
#include "mseed.h"
int main (void) { return mseed_why (MSEED_OK)[0] == 'o' && sizeof (mseed_row) == 72 ? 0 : 1; }
"""


def ran(words: list[str], seconds: int = 600) -> str:
    """What a program prints, and its status, where that isn't 0."""
    run = subprocess.run(words, stdout=subprocess.PIPE, stderr=subprocess.STDOUT, text=True, timeout=seconds,
                         check=False)
    return run.stdout + (f"status {run.returncode}" if run.returncode else "")


def header(folder: Path) -> Cases:
    """The header compiles without a warning, by C89 to C++."""
    for compiler, standard in STANDARDS:
        if shutil.which(compiler) is None:
            yield Skipped(f"the header by {standard}", compiler)
            continue
        code = folder / ("alone.c" if compiler == "cc" else "alone.cc")
        code.write_text(ALONE, encoding="ascii")
        words = [compiler, f"-std={standard}", "-Wall", "-Wextra", "-Wpedantic", "-Werror", f"-I{HEADERS}", "-o",
                 str(folder / "alone"), str(code)]
        yield Fact(f"the header by {standard}", "", ran(words) or ran([str(folder / "alone")]))


def codes() -> Cases:
    """Each code of the header is one of the contracts, and the other way round; its words are the documents'."""
    text = (HEADERS / "mseed.h").read_text(encoding="ascii")
    named = {name: int(number) for name, number in re.findall(r"^  (MSEED_\w+) = (\d+),?$", text, re.MULTILINE)}
    codes = {number for name, number in named.items() if f"case {name}: return" in text}
    spec = (CRATES / "mseed_c" / "specs" / "Codes.antt").read_text(encoding="utf-8")
    asked = (CRATES / "mseed_c" / "specs" / "Asked.antt").read_text(encoding="utf-8")
    spelled = {int(number) for number in [*re.findall(r"^code_of\w* .*= (\d+)$", spec, re.MULTILINE),
                                          *re.findall(r"IsSelectOutcome .* (\d+)$", asked, re.MULTILINE)]}
    yield Fact("the codes of the header are those of the contracts", sorted(spelled | {0, 1, 2}), sorted(codes))
    words = dict(re.findall(r'case (MSEED_\w+): return "([^"]*)";', text))
    documents = (ROOT / "docs" / "texts.md").read_text(encoding="utf-8")
    for name, number in named.items():
        if name in words and (number == 6 or 16 <= number < 40):
            yield holds(f"{words[name]} is a word of the documents", re.search(rf"`{words[name]}[ `]", documents))
    package = (ROOT / "python" / "mseed" / "_library.py").read_text(encoding="ascii")
    listed = {int(number): word for number, word in re.findall(r'(\d+): "([^"]*)"', package)}
    yield Fact("the words of the package are those of the header",
               {named[name]: word for name, word in words.items()}, listed)


def sweeps(built: Path, folder: Path) -> Cases:
    """Each sample between pages that can't be touched, whole, cut and with each byte changed; a few under valgrind."""
    program = folder / "sweep"
    yield Fact("the sweep compiles", "", compiled(built, SOURCES / "library_sweep.c", program, ["-std=c99"]).stdout)
    for name, step in STEPS.items():
        outcome = ran([str(program), str(SAMPLES / f"{name}.mseed"), str(step)])
        yield holds(f"{name}: every call keeps to its rooms", re.fullmatch(r"\d+ calls\n", outcome), outcome)
    for name in ("two_records", "steim2", "steim2_one_bit"):
        if shutil.which("valgrind") is None:
            yield Skipped(f"{name} under valgrind", "valgrind")
            continue
        words = ["valgrind", "--quiet", "--error-exitcode=9", "--leak-check=full", str(program),
                 str(SAMPLES / f"{name}.mseed"), "97" if name == "two_records" else "1", "once"]
        outcome = ran(words[:-1] if name == "two_records" else words)
        yield holds(f"{name}: valgrind finds nothing", re.fullmatch(r"\d+ calls\n", outcome), outcome[-1500:])


def refusals(built: Path, folder: Path) -> Cases:
    """Each request for memory refused in turn."""
    program = folder / "memory"
    options = ["-Wl,--wrap=malloc,--wrap=realloc"]
    yield Fact("the refusals compile", "", compiled(built, SOURCES / "library_memory.c", program, options).stdout)
    for name in ("two_records", "gap", "steim2", "network_gap", "network_junk"):
        yield Fact(f"{name}: where memory is refused, nothing is written", "",
                   ran([str(program), str(SAMPLES / f"{name}.mseed")]))


def threads(built: Path, folder: Path) -> Cases:
    """Eight threads at once."""
    program = folder / "threads"
    yield Fact("the threads compile", "",
               compiled(built, SOURCES / "library_threads.c", program, ["-pthread"]).stdout)
    yield Fact("eight threads get what one gets", "55 records, 0 other answers\n",
               ran([str(program), str(SAMPLES / "network_gap.mseed")]))


def readme(built: Path, folder: Path) -> Cases:
    """The examples of the pages in C, Python and NumPy say of the samples what the second program says."""
    texts = {page: (ROOT / page).read_text(encoding="utf-8") for page, _, _ in EXAMPLES}
    in_c, plain, with_numpy = (re.findall(rf"^```{language}\n(.*?)^```", texts[page], re.MULTILINE | re.DOTALL)[index]
                               for page, language, index in EXAMPLES)
    gap, network = ((SAMPLES / f"{name}.mseed").read_bytes() for name in ("network_gap", "network"))
    code, program = folder / "readme.c", folder / "readme"
    code.write_text(in_c, encoding="ascii")
    yield Fact("the cookbook's example in C compiles", "", compiled(built, code, program).stdout)
    yield from example_in_c(program, folder / "archive", gap)
    if not os.path.exists(PYTHON):
        yield Skipped("README's examples in Python", PYTHON)
        return
    lines = [f"{name} {time_of(start)[11:].removesuffix('.000000')} {len(samples)}\n"
             for name, start, samples in stretches(gap)]
    ended = python(built, ["-c", plain], numpy=False)
    yield Fact("README's example in Python", "".join(lines), (ended.stdout + ended.stderr).decode())
    if not has_numpy():
        yield Skipped("README's example in NumPy", "python3-numpy, for /usr/bin/python3")
        return
    lines = [f"{name} int32 {max(abs(sample) for sample in samples)}\n" for name, _, samples in stretches(network)[:3]]
    ended = python(built, ["-c", with_numpy])
    yield Fact("README's example in NumPy", "".join(lines), (ended.stdout + ended.stderr).decode())


def example_in_c(program: Path, path: Path, gap: bytes) -> Cases:
    """The cookbook's program in C reads all of an archive: of one that ends with a piece, of longer ones, in which a
    record begins in one piece and ends in the next, and of one that ends too early."""
    records = [record for _, record in cut(gap)[0]]
    one = [record for _, record in cut((SAMPLES / "two_records.mseed").read_bytes())[0]][:1]
    piece = 4 << 20
    for name, copies, before, short, code in [
        ("the sample", 1, [], 0, "ok"), ("nothing", 0, [], 0, "ok"), ("7 MB", 250, [], 0, "ok"),
        ("9 MB with records that two pieces share", 320, one, 0, "ok"), ("a cut one", 320, one, 100, "truncated"),
        ("a piece and a record", piece // len(gap) + 1, [], 0, "ok"),
    ]:
        read = before + records * copies
        path.write_bytes(b"".join(record.bytes for record in read)[: -short or None])
        read = read[:-1] if short else read
        with path.open("rb") as source:
            ended = subprocess.run([str(program)], stdin=source, stdout=subprocess.PIPE, text=True, check=False)
        yield Fact(f"the cookbook's example in C: {name}",
                   (int(bool(short)), f"{code}: {len(read)} records, {sum(record.count for record in read)} samples\n"),
                   (ended.returncode, ended.stdout))


def stretches(archive: bytes) -> list[tuple[str, int, list[int]]]:
    """The stretches of each channel up to its next finding, as they begin in the archive: name, start and samples."""
    found = []
    for key, channel in channels_of(cut(archive)[0]).items():
        breaks = {number for number, _, _ in findings(channel)}
        for number, _, record in channel:
            if number == channel[0][0] or number in breaks:
                found.append((number, name_of(key).replace("_", "."), record.start(), []))
            found[-1][3].extend(record.read())
    return [stretch[1:] for stretch in sorted(found)]


def rows() -> Cases:
    """All of them."""
    with tempfile.TemporaryDirectory() as name:
        folder = Path(name)
        yield from header(folder)
        yield from codes()
        built = library()
        if built is None:
            yield Skipped("calls from C", WANTS)
            return
        yield from readme(built, folder)
        yield from sweeps(built, folder)
        yield from refusals(built, folder)
        yield from threads(built, folder)
