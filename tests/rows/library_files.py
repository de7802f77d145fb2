"""The package for Python at its edges: files that can't be read or written, arguments of another type, and types."""

from __future__ import annotations

import os
import runpy
import subprocess
import tempfile
import threading
from pathlib import Path

from driver.library import PACKAGE, PYTHON, SHARED, WANTS, has_numpy, library, python
from driver.program import ROOT, SAMPLES
from driver.rows import Cases, Fact, Skipped, holds

NOBODY = 65534

WRONG = """
import io, sys, mseed
two = sys.argv[1] + "/two_records.mseed"
trace = mseed.read(two)[0]
SOUND = dict(samples=[1], network="XX", station="STA", channel="BHZ", start_ns=0, rate=1)
def make(**changes):
    return mseed.make(**{**SOUND, **changes})
for call in (lambda: mseed.read(5), lambda: mseed.read(None), lambda: mseed.audit([1]), lambda: mseed.findings(0.5),
             lambda: mseed.part(5), lambda: mseed.iterate(5), lambda: mseed.read(io.StringIO("x")),
             lambda: mseed.read(open(two, encoding="latin-1")), lambda: mseed.iterate(two, samples="many"),
             lambda: mseed.pack(5), lambda: mseed.pack(trace, length="512"), lambda: mseed.write(5, trace),
             lambda: mseed.write("/none/such", 5), lambda: mseed.write("/none/such", [5]), lambda: make(network=5),
             lambda: make(start_ns=0.5), lambda: make(rate="fast"), lambda: make(samples=5),
             lambda: mseed.select(5), lambda: mseed.read([1], channels="*_*_*_*"),
             lambda: mseed.select(two, channels=5), lambda: mseed.iterate(io.StringIO("x"), end="2100-01-01"),
             lambda: mseed.iterate(two, channels=[b"*_*_*_*"]), lambda: mseed.read(two, start=0.5)):
    try:
        list(call())
    except (TypeError, ValueError) as error:
        print(error)
"""

TAKES = "an archive is a path, bytes, or a binary file that is open, not"
REFUSED = f"""\
{TAKES} int
{TAKES} NoneType
{TAKES} list
{TAKES} float
{TAKES} int
{TAKES} int
an archive is a file that is open for bytes: what is read of this one is a str
an archive is a file that is open for bytes: what is read of this one is a str
samples is an int, not str
what is packed is a mseed.Trace, not int
length is an int, not str
a path is a str or an os.PathLike, not int
what is written is a mseed.Trace, or some of them, not int
what is packed is a mseed.Trace, not int
a code is a str, not int
start_ns is an int, not float
a rate is an int, a float or a Fraction, not str
samples are integers in one dimension
{TAKES} int
{TAKES} list
'int' object is not iterable
an archive is a file that is open for bytes: what is read of this one is a str
a pattern is a str, not bytes
start is a datetime, a str or an int, not float
"""

# Whatever the bytes of an archive are in, and wherever an open file stands.
TAKEN = """
import array, io, mmap, pathlib, sys, mseed
path = sys.argv[1] + "/two_records.mseed"
content = open(path, "rb").read()
with open(path, "rb") as file, open(path, "rb", buffering=0) as raw, open(path, "rb") as mapped:
    for archive in (path, pathlib.Path(path), content, bytearray(content), memoryview(content), io.BytesIO(content),
                    array.array("B", content), mmap.mmap(mapped.fileno(), 0, access=mmap.ACCESS_READ), file, raw):
        print(len(mseed.read(archive)[0]), end=" ")
    file.seek(128)
    print(mseed.read(file)[0].start, file.closed, len(mseed.read(file)))
print(isinstance(mseed.read(path)[0].samples, mseed.Samples), mseed.__version__)
for archive in (path, pathlib.Path(path), content, bytearray(content), memoryview(content)[::1], io.BytesIO(content),
                memoryview(content + content)[::2], array.array("I", content), open(path, "rb", buffering=0)):
    try:
        print(len(mseed.select(archive)), end=" ")
    except mseed.RecordError as error:
        print(error.reason, end=" ")
for archive in (content, bytearray(content), io.BytesIO(content)):
    trace = mseed.read(archive, channels="*_*_*_*")[0]
    trace.samples[0] = 5
    print(len(trace), isinstance(trace.samples, mseed.Samples), len(mseed.read(mseed.pack(trace))[0]), end=" ")
print()
"""

WRITE = """
import os, sys, mseed
trace = mseed.read(sys.argv[1])[0]
try:
    print(mseed.write(sys.argv[2], [trace], length=128))
except OSError as error:
    print(error.strerror, error.filename)
"""

USE = """
import mseed
reveal_type(mseed.read("x")[0].samples)
reveal_type(next(mseed.iterate("x")).goes_on)
reveal_type(mseed.audit(b"").status)
reveal_type(mseed.__version__)
"""


def said(ended: subprocess.CompletedProcess) -> str:
    """All that a run wrote."""
    return (ended.stdout + ended.stderr).decode()


def arguments(built: Path, numpy: bool) -> Cases:
    """What is taken, and what is refused by its name."""
    manner = "with NumPy" if numpy else "without NumPy"
    version = (ROOT / "VERSION").read_text(encoding="ascii").strip()
    yield Fact(f"what is no archive is refused, {manner}", REFUSED,
               said(python(built, ["-c", WRONG, str(SAMPLES)], numpy=numpy)))
    yield Fact(f"what is one is taken, {manner}", "32 " * 10 + "2024-01-01 00:00:00.800000+00:00 False 0\n"
               f"True {version}\n{'256 ' * 6}notdata {'256 ' * 2}{'32 True 32 ' * 3}\n",
               said(python(built, ["-c", TAKEN, str(SAMPLES)], numpy=numpy)))


def command(built: Path, folder: Path) -> Cases:
    """`python -m mseed` ends with 2 for what it can't read or write, by one line."""
    sample, gap = str(SAMPLES / "two_records.mseed"), str(SAMPLES / "network_gap.mseed")
    tries = [
        ("a file that isn't there", ["audit", "/none/such"], 2, b"", b"/none/such: No such file or directory"),
        ("a folder", ["read", "/"], 2, b"", b"/: Is a directory"),
        ("a name of bytes", ["audit", os.fsencode(folder) + b"/\xff"], 2, b"",
         os.fsencode(folder) + b"/\xff: No such file or directory"),
        ("no words", [], 3, b"", b"the following arguments are required: command"),
        ("an unknown word", ["audit", "--all", sample], 3, b"", b"unrecognized arguments: --all"),
    ]
    for name, words, status, out, why in tries:
        ended = python(built, ["-m", "mseed", *words], numpy=False)
        yield Fact(f"python -m mseed: {name}", (status, out, b"python -m mseed: " + why + b"\n"),
                   (ended.returncode, ended.stdout, ended.stderr.replace(b"\\udcff", b"\xff")))
    ended = python(built, ["-m", "mseed", "read", str(SAMPLES / "network_junk.mseed")], numpy=False)
    yield Fact("python -m mseed read: bytes that begin no record",
               (2, "record 29 at offset 14336: notdata, 512 bytes skipped\n"),
               (ended.returncode, ended.stderr.decode()))
    ended = python(built, ["-m", "mseed", "read", str(SAMPLES / "network_bad_constant.mseed")], numpy=False)
    yield Fact("python -m mseed read: a record that can't be read",
               (1, "record 35 of XX_KILN__BHE at offset 17408: lastdiffers -125 -61, 512 bytes skipped\n"),
               (ended.returncode, ended.stderr.decode()))
    ended = python(built / "none", ["-m", "mseed", "audit", gap], numpy=False)
    yield Fact("python -m mseed: no library", (2, b"", b"python -m mseed: libmseed_c.so isn't found: 'make lib' builds "
                                               b"it, and MSEED_LIBRARY may name it\n"),
               (ended.returncode, ended.stdout, ended.stderr))
    for words in (["audit", gap], ["audit", "--part", gap], ["read", gap], ["--help"]):
        for name, to, why in (("a full disk", "> /dev/full", b"No space left on device"),
                              ("a closed output", ">&-", b"Bad file descriptor")):
            ended = piped(built, words, to)
            yield Fact(f"python -m mseed {words[0]}: {name}",
                       (b"2\n", b"python -m mseed: standard output: " + why + b"\n"), (ended.stdout, ended.stderr))
        ended = piped(built, words, "| true")
        yield Fact(f"python -m mseed {words[0]}: a closed pipe", (b"2\n", b""), (ended.stdout, ended.stderr))
    yield from refused(built, folder)


def piped(built: Path, words: list[str], to: str) -> subprocess.CompletedProcess:
    """Runs the command with its output somewhere else; its status is printed on the old one. A pipe is closed before
    anything is written."""
    run = f'"$@" {to}' if to != "| true" else '(sleep 0.2; exec "$@") | true; exit "${PIPESTATUS[0]}"'
    script = f"exec 3>&1; ({run}); echo $? >&3"
    env = {**os.environ, "PYTHONPATH": str(PACKAGE), "PYTHONDONTWRITEBYTECODE": "1",
           "MSEED_LIBRARY": str(built / SHARED)}
    return subprocess.run(["bash", "-c", script, "bash", PYTHON, "-m", "mseed", *words], stdin=subprocess.DEVNULL,
                          capture_output=True, env=env, timeout=100, check=False)


def refused(built: Path, folder: Path) -> Cases:
    """A file that isn't for whoever asks."""
    path = folder / "secret.mseed"
    path.write_bytes(b"")
    path.chmod(0)
    code = "import mseed, os, runpy, sys\nos.getuid() or os.setuid(int(sys.argv[2]))\n" \
        "sys.argv[:] = ['mseed', 'audit', sys.argv[1]]\nrunpy.run_module('mseed', run_name='__main__')"
    folder.chmod(0o755)
    ended = python(built, ["-c", code, str(path), str(NOBODY)], numpy=False)
    yield Fact("python -m mseed: a file without permission",
               (2, f"python -m mseed: {path}: Permission denied\n"), (ended.returncode, said(ended)))


def written(built: Path, folder: Path) -> Cases:
    """What stands where a file is written."""

    def written_by(path: Path) -> str:
        return said(python(built, ["-c", WRITE, str(SAMPLES / "two_records.mseed"), str(path)], numpy=False))

    target, link, far = folder / "target", folder / "link", folder / "far"
    target.write_bytes(b"old")
    target.chmod(0o640)
    other = folder / "other"
    os.link(target, other)
    link.symlink_to("target")
    yield Fact("at the target of a link", "1\n", written_by(link))
    yield Fact("its target is replaced, with the mode that it had", (True, 128, 0o640, b"old"),
               (link.is_symlink(), target.stat().st_size, target.stat().st_mode & 0o777, other.read_bytes()))
    far.symlink_to(folder / "new")
    yield Fact("at the target of a link to nothing", ("1\n", True, 128),
               (written_by(far), far.is_symlink(), (folder / "new").stat().st_size))
    for device, expected in ((Path("/dev/null"), "1\n"), (Path("/dev/full"), "No space left on device /dev/full\n")):
        named = folder / device.name
        named.symlink_to(device)
        before = os.stat(device)
        yield Fact(f"into {device}", expected, written_by(device))
        yield Fact(f"through a link into {device}", expected.replace(str(device), str(named)), written_by(named))
        after = os.stat(device)
        yield Fact(f"{device} stays", (before.st_mode, before.st_rdev), (after.st_mode, after.st_rdev))
    yield from through_a_pipe(built, folder)
    lost = folder / "none" / "such"
    yield Fact("what isn't there", f"No such file or directory {lost}\n", written_by(lost))
    yield Fact("a folder", f"Is a directory {folder}\n", written_by(folder))
    yield Fact("nothing else is left behind", [], [name.name for name in folder.iterdir() if ".new" in name.name])
    yield from when_full(built, folder)


def through_a_pipe(built: Path, folder: Path) -> Cases:
    """A FIFO, and the standard output by its name."""
    fifo = folder / "fifo"
    os.mkfifo(fifo)
    came: list[bytes] = []
    reader = threading.Thread(target=lambda: came.append(fifo.read_bytes()), daemon=True)
    reader.start()
    ended = python(built, ["-c", WRITE, str(SAMPLES / "two_records.mseed"), str(fifo)], numpy=False)
    reader.join(60)
    yield Fact("into a FIFO", ("1\n", [128], True), (said(ended), [len(part) for part in came], fifo.is_fifo()))
    ended = python(built, ["-c", WRITE, str(SAMPLES / "two_records.mseed"), "/dev/stdout"], numpy=False)
    yield Fact("into /dev/stdout", (128 + len("1\n"), b"1\n"), (len(ended.stdout), ended.stdout[-2:]))


def when_full(built: Path, folder: Path) -> Cases:
    """Where the disk is full, what was there stays."""
    path = folder / "kept"
    path.write_bytes(b"old")
    limited = "import resource, signal; signal.signal(signal.SIGXFSZ, signal.SIG_IGN); " \
        "resource.setrlimit(resource.RLIMIT_FSIZE, (64, 64))\n"
    ended = python(built, ["-c", limited + WRITE, str(SAMPLES / "two_records.mseed"), str(path)], numpy=False)
    yield Fact("a file that can't be written whole", (f"File too large {path}\n", b"old"),
               (said(ended), path.read_bytes()))
    yield Fact("and nothing is left of it", [], [name.name for name in folder.iterdir() if ".new" in name.name])


def version() -> Cases:
    """The version stands in the package, too, since that is copied from place to place."""
    names = runpy.run_path(str(PACKAGE / "mseed" / "_version.py"))
    yield Fact("the package has the version of the program",
               (ROOT / "VERSION").read_text(encoding="ascii").strip(), names["__version__"])


def types(folder: Path) -> Cases:
    """The package by mypy, and what it says of it to whoever uses it."""
    if subprocess.run([PYTHON, "-c", "import mypy"], stderr=subprocess.DEVNULL, check=False).returncode != 0:
        yield Skipped("the types of the package", "mypy, for /usr/bin/python3")
        return
    words = [PYTHON, "-m", "mypy", "--no-error-summary", f"--cache-dir={folder}/mypy"]
    run = subprocess.run([*words, "--strict", "mseed", "build_wheel.py", "package_folder.py", str(ROOT / "install.py")],
                         cwd=PACKAGE, capture_output=True, text=True, check=False)
    yield Fact("the package by mypy --strict", "", run.stdout + run.stderr)
    use = folder / "use.py"
    use.write_text(USE, encoding="ascii")
    run = subprocess.run([*words, str(use)], cwd=folder, capture_output=True, text=True, check=False,
                         env={**os.environ, "MYPYPATH": str(PACKAGE)})
    reported = [line.rpartition("note: ")[2] for line in run.stdout.splitlines()]
    array = '"numpy.ndarray[Any, numpy.dtype[numpy.signedinteger[numpy._typing._32Bit]]]"' if has_numpy() else '"Any"'
    yield Fact("its types for others", [f"Revealed type is {name}" for name in
                                        (array, '"builtins.bool"', '"builtins.int"', '"builtins.str"')], reported)


def rows() -> Cases:
    """All of them."""
    yield from version()
    built = library()
    if built is None or not os.path.exists(PYTHON):
        yield Skipped("the package for Python at its edges", WANTS)
        return
    with tempfile.TemporaryDirectory() as name:
        folder = Path(name)
        for numpy in (False, True) if has_numpy() else (False,):
            yield from arguments(built, numpy)
        yield from command(built, folder)
        yield from written(built, folder)
        yield from types(folder)
        yield holds("no file was left in the package", not list(PACKAGE.rglob("*.whl")))
