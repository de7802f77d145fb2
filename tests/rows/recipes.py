"""The recipes of the pages that join parts, read what `tail` reads, or read files by a pattern, as they stand there, and
bench/audit_by_cores.sh: over files of any name they come to what a second program says (models/auditing.py); where a
job is killed, a file can't be read or a machine is down, they say so, and name no channel continuous; and where a
folder can't be read, they say so, and come to what is said of all else, with status 2."""

from __future__ import annotations

import os
import re
import shlex
import shutil
import subprocess
import tempfile
from pathlib import Path
from typing import Callable, Iterator, NamedTuple, Optional

from driver.examples import examples
from driver.program import BUILT, LIMIT, PROGRAM, ROOT, SAMPLES, SOURCES
from driver.records import record
from driver.rows import Cases, Fact, Skipped, holds
from driver.tools import as_others
from models.auditing import audit

# Names of files, of which a shell that takes none of them for anything else keeps each.
ODD = ["a b", "it's", 'say "so"', "line\nend", "$HOME `x`", "-dash", "star*", "back\\slash", "tab\t", "end\n", " lead",
       "caf\u00e9", "{}", "#1", "a;b&c|d"]
LACKS = rf"^mseed: {len(ODD) - 1} parts, not {len(ODD)}$"
BAD = r"^mseed: bad part at line \d+\nmseed: [^\n]+$"
# The blocks that are recipes of this kind.
JOINING = re.compile(r"mseed join\b|\$.*; (cat|tail) [^;]*\|\s*\S*mseed |\$ mseed [^|;\n]*\*")
# Where they stand.
EXPECTED = [("docs/cookbook.md", "Audits that are added up"), ("docs/cookbook.md", "Files on all cores, joined"),
            ("docs/cookbook.md", "Files on all cores, joined"), ("docs/cookbook.md", "One large archive on all cores"),
            ("docs/cookbook.md", "Several machines"), ("docs/cookbook.md", "Past junk"),
            ("docs/cookbook.md", "A year in records of 512 bytes")]
# Those over a sample: which one, from which of its bytes on, and how many of an audit's last lines they print.
OVER_A_SAMPLE = {"Audits that are added up": ("gap", 0, 2), "Past junk": ("junk", 14848, 1)}


class Recipe(NamedTuple):
    """Where it stands, and its text."""

    document: str
    heading: str
    words: str

    def name(self) -> str:
        """What it is called here."""
        with_what = "parallel" if "parallel" in self.words else "xargs" if "xargs" in self.words else "the shell"
        return f"{self.document}, {self.heading}, by {with_what}"


def recipes() -> Iterator[Recipe]:
    """Those of the pages: the blocks of commands that join parts, read through a pipe what a file holds, or read the
    files of a pattern."""
    for document in ("README.md", "docs/cookbook.md"):
        heading = ""
        blocks = r"^#+ ([^\n]*)|^(```(?:console|sh)\n)(.*?^)```"
        for found in re.finditer(blocks, (ROOT / document).read_text(encoding="utf-8"), re.MULTILINE | re.DOTALL):
            heading, block = found[1] or heading, found[3] or ""
            if JOINING.search(block) and "tools/" not in block:
                commands = [command for command, _ in examples(found[2] + block + "```")]
                yield Recipe(document, heading, "\n".join(commands) if commands else block)


class Came(NamedTuple):
    """How a recipe ended."""

    status: int
    out: str
    err: str


class Place:
    """A folder in the place of /tmp, with files of odd names in the place of those that the recipes read. Together, in
    the order of their names, they are a continuous channel."""

    def __init__(self, folder: Path):
        self.folder, self.tree = folder, folder / "sds" / "2024" / "XA" / "ANMO" / "BHZ.D"
        self.tree.mkdir(parents=True)
        (folder / "bin").mkdir()
        (folder / "bin" / "mseed").symlink_to(SOURCES / "killed_job.sh")
        whole = []
        for place, name in enumerate(sorted(ODD, key=os.fsencode)):
            seconds, fraction = divmod(place * 8000, 10000)
            whole.append(record(second=seconds, fraction=fraction))
            (self.tree / name).write_bytes(whole[-1])
        self.audited = audit(b"".join(whole))[0].decode()
        self.large = folder / "a b'c\"d\n$e.mseed"

    def words(self, recipe: Recipe) -> str:
        """The recipe's text, for the files that are here."""
        words = recipe.words.replace(str(BUILT.relative_to(ROOT)), "mseed").replace("/tmp/", f"{self.folder}/")
        for name in (f"{self.folder}/large.mseed", "samples/network_gap.mseed", "samples/network_junk.mseed"):
            words = words.replace(name, shlex.quote(str(self.large)))
        return words

    def run(self, recipe: Recipe, is_killed: bool = False, half: str = "", down: str = "",
            first: Optional[Callable[[], None]] = None) -> Came:
        """Runs it in bash, its first job killed, at once or after half of its text, or machines down; in its process
        something may be called first."""
        kill = self.folder / "kill"
        if is_killed:
            kill.mkdir()
        env = {**os.environ, "PATH": f"{self.folder}/bin:{os.environ['PATH']}", "MSEED": str(PROGRAM), "LC_ALL": "C",
               "KILL": str(kill), "HALF": half, "TMPDIR": str(self.folder), "DOWN": down,
               "PARALLEL_SSH": str(SOURCES / "local_ssh.sh")}
        for old in self.folder.glob("piece.*"):
            old.unlink()
        run = subprocess.run(["bash", "-c", self.words(recipe)], cwd=ROOT, env=env, stdin=subprocess.DEVNULL,
                             stdout=subprocess.PIPE, stderr=subprocess.PIPE, timeout=LIMIT, check=False,
                             preexec_fn=first)
        if kill.exists():
            kill.rmdir()
            return Came(0, "", "no job was killed")
        return Came(run.returncode, run.stdout.decode(), run.stderr.decode(errors="replace"))


def sound(recipe: Recipe, place: Place) -> Cases:
    """Nothing goes wrong."""
    if recipe.heading in OVER_A_SAMPLE:
        name, at, lines = OVER_A_SAMPLE[recipe.heading]
        shutil.copy(SAMPLES / f"network_{name}.mseed", place.large)
        text, _ = audit(place.large.read_bytes()[at:])
        wanted = Came(0, "".join(text.decode().splitlines(keepends=True)[-lines:]), "")
    elif "large" in recipe.heading:
        text, status = audit((SAMPLES / "gap.mseed").read_bytes() * 2)
        wanted = Came(status, text.decode(), "")
    elif "year" in recipe.heading:
        # All samples fit into one record.
        wanted = Came(0, "status 0\n" + re.sub(r"records \d+", "records 1", place.audited), "")
    else:
        wanted = Came(0, place.audited, "")
    yield Fact(f"{recipe.name()}: over names of all kinds", wanted, place.run(recipe))


def ends(recipe: Recipe, what: str, came: Came, pattern: str) -> Cases:
    """A recipe in which something goes wrong: it says so, calls no channel continuous, and its status isn't 0, if it
    isn't that of `tail`. One that joins nothing says it by its status, or by the one that it writes."""
    name = f"{recipe.name()}: {what}"
    if not re.search("join|by_cores", recipe.words):
        said = came.out if "status" in recipe.words else f"status {came.status}"
        yield holds(f"{name}: its status", re.match("status [1-9]", said), came)
        return
    yield holds(f"{name}: it says so", re.search(pattern, came.err, re.MULTILINE), came)
    yield Fact(f"{name}: no channel is called continuous", 0, came.out.count("continuous"))
    if "tail" not in recipe.words:
        yield holds(f"{name}: its status", came.status != 0, came)


def killed(recipe: Recipe, place: Place) -> Cases:
    """A job is killed, or a machine can't be reached."""
    lacks = LACKS if "/tmp/sds" in recipe.words else r"^mseed: \d+ parts, not \d+$"
    yield from ends(recipe, "a job is killed", place.run(recipe, is_killed=True), lacks)
    half = place.run(recipe, is_killed=True, half="half")
    yield from ends(recipe, "a job is killed in the middle", half, lacks if "xargs" in recipe.words else BAD)
    if "--sshlogin" in recipe.words:
        some = rf"^mseed: \d+ parts, not {len(ODD)}$"
        yield from ends(recipe, "a machine is down", place.run(recipe, down="node2"), some)
        others = recipe._replace(words=recipe.words.replace(",: ", " "))
        none = place.run(others, down="node1 node2")
        yield from ends(recipe, "all machines are down", none, f"^mseed: 0 parts, not {len(ODD)}$")


def unread(recipe: Recipe, place: Place) -> Cases:
    """The one file that it reads is a link to nothing, or a folder."""
    what = "a b|Is a directory"
    place.large.unlink(missing_ok=True)
    place.large.symlink_to("none/at all")
    yield from ends(recipe, "in the place of the file a link to nothing", place.run(recipe), what)
    place.large.unlink()
    place.large.mkdir()
    yield from ends(recipe, "in the place of the file a folder", place.run(recipe), what)


def unread_below(recipe: Recipe, place: Place) -> Cases:
    """Among the files that it finds is a link to nothing, or a folder that can't be read, since it lies in itself or
    nobody may."""
    link = place.tree / "link"
    link.symlink_to("nothing")
    yield from ends(recipe, "a link to nothing", place.run(recipe), rf"^mseed: {len(ODD)} parts, not {len(ODD) + 1}$")
    link.unlink()
    link.symlink_to(place.tree)
    yield from reads_on(recipe, "a folder that lies in itself", place, "File system loop", None)
    link.unlink()
    hidden = place.tree / "hidden"
    hidden.mkdir()
    (hidden / "file").write_bytes(record())
    hidden.chmod(0)
    try:
        yield from reads_on(recipe, "a folder that nobody may read", place, "hidden'?: Permission denied", as_others)
    finally:
        hidden.chmod(0o755)


def reads_on(recipe: Recipe, what: str, place: Place, pattern: str, first: Optional[Callable[[], None]]) -> Cases:
    """A folder that can't be read: that is said, all else is audited, and the status is 2. One that packs anew writes
    nothing."""
    came = place.run(recipe, first=first)
    if "repack" in recipe.words:
        yield from ends(recipe, what, came, pattern)
        return
    yield Fact(f"{recipe.name()}: {what}: what can be read", (2, place.audited), (came.status, came.out))
    yield holds(f"{recipe.name()}: {what}: it says so", re.search(pattern, came.err), came)


def failing(recipe: Recipe, place: Place) -> Cases:
    """What may go wrong, each with what is said."""
    yield from killed(recipe, place)
    yield from (unread_below if "/tmp/sds" in recipe.words else unread)(recipe, place)


def by_cores(place: Place) -> Cases:
    """bench/audit_by_cores.sh."""
    recipe = Recipe("bench", "audit_by_cores.sh", "bench/audit_by_cores.sh mseed /tmp/large.mseed 512 2 8  # by xargs")
    shutil.copy(SAMPLES / "network_gap.mseed", place.large)
    text, status = audit(place.large.read_bytes())
    yield Fact("audit_by_cores.sh: over a name of any kind", Came(status, text.decode(), ""), place.run(recipe))
    yield from failing(recipe, place)


def rows() -> Cases:
    """All of them."""
    found = list(recipes())
    yield Fact("the recipes of the pages", EXPECTED, [(recipe.document, recipe.heading) for recipe in found])
    for recipe in found:
        joins = len(re.findall(r"mseed join", recipe.words))
        yield Fact(f"{recipe.name()}: each join expects a number of parts", joins, recipe.words.count("--expect"))
        if "parallel" in recipe.words and shutil.which("parallel") is None:
            yield Skipped(recipe.name(), "parallel")
            continue
        with tempfile.TemporaryDirectory() as folder:
            place = Place(Path(folder))
            yield from sound(recipe, place)
            yield from failing(recipe, place)
    with tempfile.TemporaryDirectory() as folder:
        yield from by_cores(Place(Path(folder)))
