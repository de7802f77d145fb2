"""Audits an archive as `mseed audit` does, or lists its traces."""

import argparse
import errno
import os
import signal
import sys
from contextlib import suppress
from typing import Callable, List, NoReturn, Optional

from mseed._auditing import audited
from mseed._memory import bytes_of
from mseed._reading import read

BROKEN, FAULT, BAD_WORDS = 1, 2, 3
NAME = "python -m mseed"


class _Parser(argparse.ArgumentParser):
    """Words of a command line."""

    def error(self, message: str) -> NoReturn:
        """Words that mean nothing."""
        _tell(f"{NAME}: {message}")
        sys.exit(BAD_WORDS)


def _given(arguments: Optional[List[str]]) -> argparse.Namespace:
    """What the arguments ask for."""
    parser = _Parser(prog=NAME, description=__doc__, epilog="statuses: 0; 1, some channel is broken, or some record "
                     "can't be read; 2, a fault, or a file that can't be read or written; 3, a bad command line")
    commands = parser.add_subparsers(dest="command", required=True)
    auditor = commands.add_parser("audit", help="audits an archive, as `mseed audit` does")
    auditor.add_argument("file", metavar="FILE")
    kinds = auditor.add_mutually_exclusive_group()
    kinds.add_argument("--each", dest="call", action="store_const", const="mseed_audit_each", default="mseed_audit",
                       help="writes a line for each record with a finding first")
    kinds.add_argument("--part", dest="call", action="store_const", const="mseed_part",
                       help="writes the archive's part, which `mseed join` reads")
    lister = commands.add_parser("read", help="lists the traces of an archive, and on standard error what is skipped")
    lister.add_argument("file", metavar="FILE")
    return parser.parse_args(arguments)


def main(arguments: Optional[List[str]] = None) -> int:
    """Carries out a command line, and returns the status."""
    given = _given(arguments)
    if given.command == "audit":
        text, status, _ = audited(given.call, bytes_of(given.file))
        sys.stdout.write(text)
        return status
    traces = read(given.file, skip=True)
    for trace in traces:
        print(f"{trace.id} {trace.start.isoformat()} rate {trace.exact_rate} samples {len(trace)}")
    for left_out in traces.skipped:
        _tell(f"{left_out}, {left_out.length} bytes skipped")
    if any(not left_out.name for left_out in traces.skipped):
        return FAULT
    return BROKEN if traces.skipped else 0


def run() -> int:
    """The same, with what it can't go on after in one line, and without a word where nobody reads on."""
    signal.signal(signal.SIGINT, signal.SIG_DFL)
    try:
        if sys.stdout is None:
            raise OSError(errno.EBADF, os.strerror(errno.EBADF))
        status = _ended(main)
        sys.stdout.flush()
        return status
    except BrokenPipeError:
        pass
    except MemoryError:
        _tell(f"{NAME}: no memory")
    except ImportError as error:
        _tell(f"{NAME}: {error}")
    except OSError as error:
        _tell(f"{NAME}: {_reason(error)}")
    if sys.stdout is not None:
        # What wasn't written can't be written at the end either.
        os.dup2(os.open(os.devnull, os.O_WRONLY), sys.stdout.fileno())
    return FAULT


def _ended(main: Callable[[], int]) -> int:
    """The status of a command, also of one that ends by itself, after its help."""
    try:
        return main()
    except SystemExit as end:
        return int(end.code or 0)


def _reason(error: OSError) -> str:
    """Why, with the file, if it is about one."""
    about = os.fsdecode(error.filename) if error.filename else "standard output"
    return f"{about}: {error.strerror}"


def _tell(line: str) -> None:
    """Writes a line on standard error, where there is one."""
    if sys.stderr is not None:
        with suppress(OSError):
            print(line, file=sys.stderr, flush=True)


if __name__ == "__main__":
    sys.exit(run())
