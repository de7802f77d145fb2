"""A Slurm of one node on this machine, which is brought up for some rows and taken down after them: a controller, a
node, and the daemon by which they know each other, each with files and ports of its own. Nothing of the system's own
Slurm, if there is one, is touched, and no rights are needed."""

from __future__ import annotations

import contextlib
import os
import pwd
import shutil
import socket
import subprocess
import time
from pathlib import Path
from typing import Callable, Iterator, Optional

from driver.feed import kept
from driver.links import free_port

PACKAGES = "munge, slurmctld, slurmd, slurm-client"
DAEMONS = ["munged", "slurmctld", "slurmd"]
COMMANDS = ["sbatch", "scancel", "sinfo", "squeue"]
# So long a daemon may take to come up, and to end.
SECONDS = 180.0

SETTINGS = """\
ClusterName=tested
SlurmctldHost={host}(127.0.0.1)
SlurmUser={user}
SlurmdUser={user}
AuthType=auth/munge
AuthInfo=socket={folder}/munge.socket
CredType=cred/munge
ProctrackType=proctrack/linuxproc
TaskPlugin=task/none
SwitchType=switch/none
SelectType=select/cons_tres
SelectTypeParameters=CR_CPU
StateSaveLocation={folder}/state
SlurmdSpoolDir={folder}/spool
SlurmctldPidFile={folder}/slurmctld.pid
SlurmdPidFile={folder}/slurmd.pid
SlurmctldPort={ports[0]}
SlurmdPort={ports[1]}
SlurmdParameters=config_overrides
SchedulerParameters=batch_sched_delay=0,sched_interval=1,sched_min_interval=0
ReturnToService=2
JobAcctGatherType=jobacct_gather/none
AccountingStorageType=accounting_storage/none
MpiDefault=none
NodeName={host} NodeAddr=127.0.0.1 CPUs=4 State=UNKNOWN
PartitionName=all Nodes={host} Default=YES MaxTime=INFINITE State=UP OverSubscribe=FORCE:4
"""


class NotUp(Exception):
    """Why a Slurm doesn't come up."""


def where(program: str) -> Optional[str]:
    """The path of a program; those of daemons are on few users' paths."""
    return shutil.which(program, path=os.pathsep.join([os.environ.get("PATH", ""), "/usr/sbin", "/sbin"]))


def is_installed() -> bool:
    """Whether all of Slurm is there."""
    return all(where(program) for program in [*DAEMONS, *COMMANDS])


class Slurm:
    """A Slurm that runs; its commands find it by `env`."""

    def __init__(self, folder: Path):
        self.folder = folder
        self.env = {"SLURM_CONF": str(folder / "slurm.conf")}
        self.daemons: list[subprocess.Popen] = []
        self.log = (folder / "log").open("ab")

    def start(self) -> None:
        """Writes its settings, and starts the daemons."""
        for name in ("state", "spool"):
            (self.folder / name).mkdir()
        key = self.folder / "munge.key"
        key.write_bytes(os.urandom(128))
        key.chmod(0o400)
        ports = [free_port(), free_port()]
        (self.folder / "slurm.conf").write_text(SETTINGS.format(
            host=socket.gethostname().partition(".")[0], user=pwd.getpwuid(os.getuid()).pw_name, folder=self.folder,
            ports=ports), encoding="ascii")
        self.begin("munged", "--foreground", "--force", *[
            f"--{name}-file={self.folder}/munge.{name}" for name in ("key", "log", "pid", "seed")],
            f"--socket={self.folder}/munge.socket", "--origin=127.0.0.1")
        self.wait_for(lambda: (self.folder / "munge.socket").exists())
        self.begin("slurmctld", "-D")
        self.begin("slurmd", "-D")
        self.wait_for(lambda: self.outcome("sinfo", "--noheader", "--format=%t") == "idle")

    def begin(self, daemon: str, *words: str) -> None:
        """Starts a daemon, which stays a child of this process."""
        self.daemons.append(kept(subprocess.Popen(
            [where(daemon) or daemon, *words], stdin=subprocess.DEVNULL, stdout=self.log, stderr=self.log,
            env={**os.environ, **self.env})))

    def wait_for(self, is_so: Callable[[], bool]) -> None:
        """Waits until something is so. Raises NotUp where a daemon ends before, or it takes too long."""
        end = time.monotonic() + SECONDS
        while not is_so():
            if time.monotonic() > end or any(daemon.poll() is not None for daemon in self.daemons):
                raise NotUp((self.folder / "log").read_text(encoding="utf-8", errors="replace")[-2000:])
            time.sleep(0.05)

    def outcome(self, *words: str) -> str:
        """What one of its commands says; nothing where that takes too long."""
        try:
            return subprocess.run(words, env={**os.environ, **self.env}, stdin=subprocess.DEVNULL,
                                  stdout=subprocess.PIPE, stderr=self.log, text=True, timeout=SECONDS,
                                  check=False).stdout.strip()
        except subprocess.TimeoutExpired:
            return ""

    def end(self) -> None:
        """Ends what runs, and the daemons, the last first."""
        with contextlib.suppress(NotUp, OSError):
            if len(self.daemons) == len(DAEMONS) and self.outcome("squeue", "--noheader"):
                self.outcome("scancel", f"--user={os.getuid()}")
                self.wait_for(lambda: not self.outcome("squeue", "--noheader"))
        for daemon in reversed(self.daemons):
            daemon.terminate()
            try:
                daemon.wait(SECONDS)
            except subprocess.TimeoutExpired:
                daemon.kill()
                daemon.wait()
        self.log.close()


@contextlib.contextmanager
def slurm(folder: Path) -> Iterator[Slurm]:
    """A Slurm with its files in a folder. Raises NotUp where it doesn't come up."""
    folder.mkdir(mode=0o755)
    run = Slurm(folder)
    try:
        run.start()
        yield run
    finally:
        run.end()
