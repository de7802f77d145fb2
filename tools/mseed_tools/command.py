"""What the commands share: their arguments, and how they end."""

from __future__ import annotations

import argparse
import os
import signal
import sys
from typing import Any, Callable, NoReturn, Optional, Sequence, Union

from mseed_tools.instants import instant_in
from mseed_tools.program import ToolError

FAULT, BAD_ARGUMENTS = 2, 3


def a_count(word: str, most: int = 1024, least: int = 1) -> int:
    """How many at once, or how often: from the least number to the most."""
    if not word.isascii() or not word.isdigit() or len(word) > 20 or not least <= int(word) <= most:
        raise argparse.ArgumentTypeError(f"{word!r} is no number from {least} to {most}")
    return int(word)


def a_folder(word: str) -> str:
    """A folder. An empty word is none: it is what a variable of a shell gives that was never set."""
    if not word:
        raise argparse.ArgumentTypeError("'' is no folder")
    return word


def an_instant(word: str) -> int:
    """A time, in microseconds since 1970."""
    try:
        return instant_in(word)
    except ValueError as error:
        raise argparse.ArgumentTypeError(f"{word!r} is no time, as 2024-05-14 or 2024-05-14T03:20:00") from error


class Parser(argparse.ArgumentParser):
    """Words of a command line, with a help that ends by an example."""

    def __init__(self, about: Optional[str], example: str):
        super().__init__(description=about, epilog=example, formatter_class=argparse.RawDescriptionHelpFormatter,
                         allow_abbrev=False)

    def parse_args(self, args: Optional[Sequence[str]] = None,  # type: ignore[override]
                   namespace: Any = None) -> argparse.Namespace:
        """The arguments, in whatever order options and others stand."""
        return self.parse_intermixed_args(args, namespace)

    def error(self, message: str) -> NoReturn:
        """Arguments that mean nothing."""
        print(f"{self.prog}: {message}", file=sys.stderr)
        sys.exit(BAD_ARGUMENTS)

    def add_tree_options(self) -> None:
        """The options of tools that read a tree."""
        self.add_argument("-j", "--jobs", type=a_count, default=os.cpu_count() or 1, metavar="N",
                          help="how many files are read at once; by default as many as there are cores")
        self.add_argument("--state", metavar="FOLDER",
                          help="keeps here what was read of each file, outside of ROOT, and reads what is new")


def stopped(number: int, _: object) -> NoReturn:
    """Ends what runs, on a signal."""
    raise ToolError(f"stopped by {signal.Signals(number).name}")


def write(text: str) -> None:
    """Writes to standard output; names of files as the bytes that they are."""
    sys.stdout.buffer.write(text.encode("utf-8", "surrogateescape"))


def tell(line: str) -> None:
    """Writes a line to standard error, at once, so that no other thread's comes within it. What isn't UTF-8 of a file's
    name is replaced."""
    sys.stderr.write(line.encode("utf-8", "surrogateescape").decode("utf-8", "replace") + "\n")
    sys.stderr.flush()


def run(main: Callable[[], int]) -> int:
    """Runs a command, and reports what it can't go on after."""
    # Whoever reads the output may have enough, and whoever waits may not.
    if signal.getsignal(signal.SIGINT) != signal.SIG_IGN:
        signal.signal(signal.SIGINT, signal.SIG_DFL)
    try:
        status = main()
        sys.stdout.flush()
        return status
    except ToolError as error:
        print(f"{os.path.basename(sys.argv[0])}: {error}", file=sys.stderr)
    except BrokenPipeError:
        os.dup2(os.open(os.devnull, os.O_WRONLY), sys.stdout.fileno())
    except OSError as error:
        print(f"{os.path.basename(sys.argv[0])}: {in_words(error)}", file=sys.stderr)
    return FAULT


def put(content: Union[bytes, memoryview]) -> None:
    """Writes bytes to standard output, whole. An error names it."""
    view = memoryview(content)
    try:
        while view:
            view = view[os.write(sys.stdout.fileno(), view):]
    except OSError as error:
        raise OSError(error.errno, error.strerror, "standard output") from error


def in_words(error: OSError) -> str:
    """What the system has refused."""
    return f"{error.filename}: {error.strerror}" if error.filename is not None else error.strerror or str(error)
