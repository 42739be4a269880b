"""Runs of the program, started directly: for tests/system/compare.py and tests/system/allocations.py."""
import contextlib
import os
import pathlib
import signal
from typing import Mapping, Optional, Sequence, Tuple


class Runner:
    """Starts a program again and again, and ends a run that takes too long. Writes what it printed into the current
    folder."""

    def __init__(self, program: str, limit: int) -> None:
        self.program, self.limit = program, limit
        self.running: Optional[int] = None
        self.opened = [(os.POSIX_SPAWN_OPEN, 0, os.devnull, os.O_RDONLY, 0)] + [
            (os.POSIX_SPAWN_OPEN, number, name, os.O_WRONLY | os.O_CREAT | os.O_TRUNC, 0o600)
            for number, name in ((1, "got"), (2, "told"))
        ]
        signal.signal(signal.SIGALRM, self.too_long)

    def too_long(self, *_: object) -> None:
        """Ends the run under way."""
        if self.running:
            # It may have ended meanwhile, where this process itself was stopped for long.
            with contextlib.suppress(ProcessLookupError):
                os.kill(self.running, signal.SIGKILL)

    def run(self, words: Sequence[str], environment: Mapping[str, str] = os.environ) -> Tuple[int, bytes, bytes]:
        """The status of a run, less than 0 where a signal ended it, its output and its messages."""
        signal.alarm(self.limit)
        self.running = os.posix_spawn(self.program, [self.program, *words], environment, file_actions=self.opened)
        status = os.waitstatus_to_exitcode(os.waitpid(self.running, 0)[1])
        self.running = None
        signal.alarm(0)
        return status, pathlib.Path("got").read_bytes(), pathlib.Path("told").read_bytes()
