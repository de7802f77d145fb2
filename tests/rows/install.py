"""`make install` into a root of its own, and all that was installed in use there: the program, the library by C and
pkg-config, the package for Python, the tools, and what the units of the documents name; then `make uninstall`, which
leaves what it found. And the package by pip, in an environment of its own, without a network."""

from __future__ import annotations

import os
import pickle
import re
import shutil
import subprocess
import sys
import tempfile
from pathlib import Path
from typing import Optional

from driver.library import PACKAGE, PYTHON, SHARED, WANTS, library
from driver.program import PROGRAM, ROOT, SAMPLES
from driver.rows import Cases, Fact, Skipped, holds

# What a user finds who comes to a Debian: nothing of this repository in the environment, and no Python but Debian's.
PATH = "/usr/local/sbin:/usr/local/bin:/usr/sbin:/usr/bin:/sbin:/bin"
PLAIN = {"PATH": PATH, "HOME": "/nonexistent", "LANG": "C.UTF-8"}
TOOLS = sorted(path.name for path in (ROOT / "tools").iterdir() if path.is_file() and os.access(path, os.X_OK))
VERSION = (ROOT / "VERSION").read_text(encoding="ascii").strip()

ALONE = """\
#include <mseed.h>
#include <stdio.h>
int main (void)
{
  mseed_totals totals = { 0, 0, 0, 0 };
  uint8_t text[64];
  uint32_t code = mseed_audit (text, 0, text, sizeof text, &totals);
  printf ("%s %.*s", mseed_why (code), (int)totals.length, (const char *)text);
  return 0;
}
"""
BY_C = "ok records 0 channels 0\n"
BY_PYTHON = "import mseed; print(mseed.__file__, mseed.__version__, mseed.audit(b'').text, end='')"

# Where /usr/local is empty and the loader's cache one that may be written, as on a machine that was just set up.
FRESH = """
set -e
mount -t tmpfs none /usr/local
cp -a /etc "$1/etc"
mount --bind "$1/etc" /etc
export PATH="$2"
ldconfig
touch "$1/is_fresh"
shift 2
exec "$@"
"""
SEEN = """
import pickle, sys
from pathlib import Path
sys.path.insert(0, sys.argv[1])
from rows.install import installed
pickle.dump(list(installed(Path(sys.argv[2]))), sys.stdout.buffer)
"""


def make(*words: str) -> str:
    """What `make` prints, with what is tested in the place of what it would build."""
    built = library()
    return run(["make", "--silent", "-C", str(ROOT), f"MSEED={PROGRAM}", f"LIB={built}", *words])


def run(words: list[str], **settings: str) -> str:
    """What a command prints, far from the repository, and its status, where that isn't 0."""
    ended = subprocess.run(words, env={**PLAIN, **settings}, stdin=subprocess.DEVNULL, stdout=subprocess.PIPE,
                           stderr=subprocess.STDOUT, text=True, cwd="/", timeout=300, check=False)
    return ended.stdout + (f"status {ended.returncode}\n" if ended.returncode else "")


def below(root: Path) -> list[str]:
    """All that stands below a folder."""
    return sorted(str(path.relative_to(root)) for path in root.rglob("*"))


def folder_of_python(prefix: str) -> str:
    """Where Debian's Python looks below a prefix: by its version, and of Debian's own folder without it."""
    version = run([PYTHON, "-c", "import sys; print('%d.%d' % sys.version_info[:2], end='')"])
    return f"{prefix}/lib/python3/dist-packages" if prefix == "/usr" else f"{prefix}/lib/python{version}/dist-packages"


def staged(folder: Path) -> Cases:
    """Below DESTDIR and another PREFIX: nothing of the system is touched, and what needs a word has one."""
    root, prefix = folder / "root", "/opt/mseed"
    (root / "opt/mseed/bin").mkdir(parents=True)
    (root / "opt/mseed/bin/other").write_text("another's", encoding="ascii")
    before, python_dir, lib = below(root), folder_of_python("/opt/mseed"), f"{root}{prefix}/lib"
    words = [f"DESTDIR={root}", f"PREFIX={prefix}"]
    said = make("install", *words)
    yield Fact("what installing says", [
        f"Installed {root}{prefix}/bin/mseed, its pages, and the tools as mseed-sds and the like.",
        f"Installed the library in {lib}, mseed.h, and the Python package in {root}{python_dir}.",
        f"Programs find the library once root has run ldconfig, if that looks in {prefix}/lib; else by "
        f"LD_LIBRARY_PATH={prefix}/lib.",
        f"{PYTHON} finds the package by PYTHONPATH={python_dir}."], said.splitlines())
    first = below(root)
    yield Fact("installing again is the same", (said, first), (make("install", *words), below(root)))
    yield Fact("the program", "records 0 channels 0\n", run([f"{root}{prefix}/bin/mseed", "audit"]))
    pages = [(root / "opt/mseed/share/man/man1" / page.name).read_text(encoding="utf-8")
             for page in (ROOT / "man").glob("*.1")]
    completion = root / "opt/mseed/share/bash-completion/completions/mseed"
    yield holds("the completion for bash is there", completion.is_file(), completion)
    for name in [f"mseed-{tool.replace('_', '-')}" for tool in TOOLS]:
        page, completed = root / f"opt/mseed/share/man/man1/{name}.1", completion.with_name(name)
        yield holds(f"{name} has a page and a completion", page.is_file() and completed.is_file()
                    and name in completed.read_text(encoding="utf-8"), (page, completed))
    yield holds("the pages have the version", pages and all(VERSION in page and "@" not in page for page in pages))
    yield from from_c(folder, {"PKG_CONFIG_LIBDIR": f"{lib}/pkgconfig", "PKG_CONFIG_SYSROOT_DIR": str(root)}, lib)
    yield Fact("Python", f"{root}{python_dir}/mseed/__init__.py {VERSION} records 0 channels 0\n",
               run([PYTHON, "-c", BY_PYTHON], PYTHONPATH=f"{root}{python_dir}"))
    yield Fact("a tool by its link, with the program that is named",
               run([str(ROOT / "tools" / "gaps"), str(SAMPLES / "network_gap.mseed")], MSEED=str(PROGRAM)),
               run([f"{root}{prefix}/bin/mseed-gaps", str(SAMPLES / "network_gap.mseed")],
                   MSEED=f"{root}{prefix}/bin/mseed"))
    links = [os.readlink(f"{root}{prefix}/bin/mseed-{tool.replace('_', '-')}") for tool in TOOLS]
    yield Fact("links lead from where they are", [f"../lib/mseed/tools/{tool}" for tool in TOOLS], links)
    yield Fact("what uninstalling says", f"Removed what was installed below {root}{prefix}.\n",
               make("uninstall", *words))
    yield Fact("what it leaves", before, below(root))
    yield Fact("uninstalling again", f"Nothing is installed: {lib}/mseed/installed isn't there.",
               make("uninstall", *words).splitlines()[0])
    make("install-lib", *words, "PYTHON_DIR=/srv/packages")
    yield holds("PYTHON_DIR decides", (root / "srv/packages/mseed/__init__.py").exists() and first != below(root))
    make("uninstall", *words)
    yield Fact("and is left", before, below(root))
    there = folder / "not" / "there"
    make("install", f"DESTDIR={there}")
    yield Fact("a root that isn't there is made", "records 0 channels 0\n",
               run([f"{there}/usr/local/bin/mseed", "audit"]))
    for at in ("/usr/local", "/usr", "/opt/mseed"):
        yield Fact(f"the folder of packages below {at}", f"{folder_of_python(at)}\n",
                   run([PYTHON, str(PACKAGE / "package_folder.py"), at]))


def interrupted(folder: Path) -> Cases:
    """Where installing fails, or was killed: uninstalling takes away what was put, and installing goes on."""
    root, built = folder / "interrupted", folder / "built"
    built.write_bytes(b"a program")
    words = [sys.executable, str(ROOT / "install.py")]
    place = ["--prefix", "/opt/mseed", "--destdir", str(root)]
    (root / "opt/mseed/lib/mseed").mkdir(parents=True)
    (root / "opt/mseed/lib/mseed/tools").write_text("another's", encoding="ascii")
    before = below(root)
    said = run([*words, "program", str(built), *place])
    yield Fact("installing where a file is in the way of a folder", (True, True),
               ("File exists" in said and "status 1" in said, (root / "opt/mseed/bin/mseed").exists()))
    run([*words, "uninstall", *place])
    yield Fact("what uninstalling leaves of it", before, below(root))
    (root / "opt/mseed/lib/mseed/tools").unlink()
    (root / "opt/mseed/bin").mkdir()
    (root / "opt/mseed/bin/mseed-sds.new").symlink_to("begun")
    (root / "opt/mseed/bin/mseed.new").symlink_to(folder / "elsewhere")
    said = run([*words, "program", str(built), *place])
    yield holds("installing where a run that was killed has left links", "status" not in said, said)
    yield Fact("what is left of these, and written by them", ([], False),
               (sorted(root.rglob("*.new")), (folder / "elsewhere").exists()))


def from_c(folder: Path, settings: dict[str, str], lib: Optional[str]) -> Cases:
    """A program is compiled by pkg-config, and finds the library; where a folder is named, by that."""
    code, program = folder / "alone.c", folder / "by_pkg_config"
    code.write_text(ALONE, encoding="ascii")
    flags = run(["pkg-config", "--cflags", "--libs", "mseed"], **settings).split()
    yield Fact("a program is compiled by pkg-config", "", run(["cc", str(code), "-o", str(program), *flags]))
    yield Fact("and finds the library", BY_C, run([str(program)], **({"LD_LIBRARY_PATH": lib} if lib else {})))
    yield Fact("pkg-config has the version", f"{VERSION}\n", run(["pkg-config", "--modversion", "mseed"], **settings))


def units() -> set[str]:
    """What the units of the documents run from /usr/local."""
    texts = [(ROOT / "docs" / name).read_text(encoding="utf-8") for name in ("operating.md", "cookbook.md")]
    return {path for text in texts for path in re.findall(r"^ *ExecStart=(/usr/local/\S+)", text, re.MULTILINE)}


def installed(folder: Path) -> Cases:
    """As root, without a word more than `make install`: everything is found where it is looked for."""
    before = below(Path("/usr/local"))
    python_dir = folder_of_python("/usr/local")
    yield Fact("what installing says", [
        "Installed /usr/local/bin/mseed, its pages, and the tools as mseed-sds and the like.",
        f"Installed the library in /usr/local/lib, mseed.h, and the Python package in {python_dir}."],
        make("install").splitlines())
    yield Fact("the program is found", "records 0 channels 0\n", run(["mseed", "audit"]))
    yield from from_c(folder, {}, None)
    yield Fact("the package is found", f"{python_dir}/mseed/__init__.py {VERSION} records 0 channels 0\n",
               run(["python3", "-c", BY_PYTHON]))
    yield Fact("and as a command", "records 0 channels 0\n", run(["python3", "-m", "mseed", "audit", "/dev/null"]))
    for tool in TOOLS:
        name = f"mseed-{tool.replace('_', '-')}"
        yield holds(f"{name} is found", run([name, "--help"]).startswith(f"usage: {name} "), run([name, "--help"]))
    tree = folder / "sds"
    path = tree / "2024/XA/ANMO/BHZ.D/XA.ANMO.00.BHZ.D.2024.001"
    path.parent.mkdir(parents=True)
    shutil.copy(SAMPLES / "steim2.mseed", path)
    yield Fact("and finds the program",
               "files 1 bytes 1536 channels 1 continuous 1 broken 0 undecoded 0 faults 0",
               run(["mseed-sds", str(tree)]).splitlines()[-1])
    named = units()
    yield holds("units name something", named)
    for at in sorted(named):
        yield holds(f"a unit finds {at}", run([at, "--help"]).startswith("usage: "), run([at, "--help"]))
    yield Fact("what uninstalling says", "Removed what was installed below /usr/local.\n", make("uninstall"))
    yield Fact("what it leaves", before, below(Path("/usr/local")))
    yield holds("the loader has forgotten the library", SHARED not in run(["ldconfig", "-p"]))


def by_pip(folder: Path, built: Path) -> Cases:
    """The package in an environment of its own, without a network."""
    place = folder / "environment"
    if "status" in run([PYTHON, "-m", "venv", str(place)]):
        yield Skipped("the package by pip", "python3-venv")
        return
    python = str(place / "bin" / "python")
    before = below(PACKAGE)
    pip = [python, "-m", "pip", "--no-cache-dir", "--disable-pip-version-check", "install", "--no-index", "--quiet"]
    said = run([*pip, "--no-build-isolation", str(PACKAGE)], MSEED_LIBRARY=str(built / SHARED), TMPDIR=str(folder),
               PYTHONDONTWRITEBYTECODE="1")
    yield Fact("pip installs it", "", said)
    yield Fact("and leaves nothing in the sources", before, below(PACKAGE))
    found = run([python, "-c", BY_PYTHON + "; print(mseed._library.LIBRARY.path)"])
    at = run([python, "-c", "import sysconfig; print(sysconfig.get_path('platlib'), end='')"])
    yield Fact("it has its version, and the library in it",
               f"{at}/mseed/__init__.py {VERSION} records 0 channels 0\n{at}/mseed/{SHARED}\n", found)
    same = (Path(at) / "mseed" / SHARED).read_bytes() == (built / SHARED).read_bytes()
    yield holds("which is the one that was built", same)
    said = run([*pip, "--force-reinstall", str(PACKAGE)], MSEED_LIBRARY="/none/such", PYTHONDONTWRITEBYTECODE="1")
    yield holds("where none was built, it says so", "'make lib' builds it" in said, said[-500:])
    run([python, "-m", "pip", "uninstall", "--yes", "mseed"])
    yield Fact("pip removes it", [], list(Path(at).glob("mseed*")))


def apart(folder: Path) -> Cases:
    """What `installed` sees where /usr/local is empty, if the system lets that be made."""
    fresh = ["unshare", "--mount", "bash", "-c", FRESH, "bash", str(folder), PLAIN["PATH"]]
    ended = subprocess.run([*fresh, PYTHON, "-c", SEEN, str(ROOT / "tests"), str(folder)], capture_output=True,
                           check=False) if shutil.which("unshare") else None
    if ended is None or not (folder / "is_fresh").exists():
        yield Skipped("what is installed in /usr/local", "unshare, and leave to mount")
        return
    yield holds("/usr/local was gone through", ended.returncode == 0, ended.stderr.decode()[-1000:])
    if ended.returncode == 0:
        yield from pickle.loads(ended.stdout)


def rows() -> Cases:
    """All of them."""
    with tempfile.TemporaryDirectory() as name:
        yield from interrupted(Path(name))
    built = library()
    if built is None or not os.path.exists(PYTHON) or shutil.which("pkg-config") is None:
        yield Skipped("what is installed", f"{WANTS}; pkg-config")
        return
    with tempfile.TemporaryDirectory() as name:
        folder = Path(name)
        yield from staged(folder)
        yield from by_pip(folder, built)
        yield from apart(folder)
