"""Many short runs of the program, with less around each of them than a row has: no pipe, no poller, no limit of its
own. One without an end is over with the time of its row file."""

from __future__ import annotations

import os
from types import TracebackType
from typing import Optional, Sequence, Type

from driver.program import PROGRAM
from driver.rows import Result, in_memory


class Batch:
    """Runs one after another, over three files that are there as long as this is entered."""

    def __enter__(self) -> Batch:
        self.files = [in_memory() for _ in range(3)]
        self.actions = [(os.POSIX_SPAWN_DUP2, file.fileno(), number) for number, file in enumerate(self.files)]
        return self

    def __exit__(self, kind: Optional[Type[BaseException]], value: Optional[BaseException],
                 trace: Optional[TracebackType]) -> None:
        for file in self.files:
            file.close()

    def run(self, words: Sequence[str], input: bytes) -> Result:
        """One run over this input."""
        for file, content in zip(self.files, (input, b"", b"")):
            file.seek(0)
            file.truncate()
            file.write(content)
            file.seek(0)
        process = os.posix_spawn(str(PROGRAM), [str(PROGRAM), *words], os.environ, file_actions=self.actions)
        status = os.waitstatus_to_exitcode(os.waitpid(process, 0)[1])
        out, err = (os.pread(file.fileno(), os.fstat(file.fileno()).st_size, 0) for file in self.files[1:])
        return Result(status, out, err)
