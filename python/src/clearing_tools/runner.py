"""How a tool runs: its work, what it tells of what it cannot do, and its end. At an interrupt it ends with 130.

What a tool takes to do its work stands in three modules, and is offered here too: `finding` has the program, `running`
its runs side by side, and `saying` what is told to people. All four import the standard library alone, so that evidence
is checked by `evidence/`, `files.py`, `way.py` and these.
"""
import contextlib
import functools
import math
import os
import pathlib
import shutil
import signal
import sys
import tempfile
import time
from typing import Callable, Iterator, NoReturn, Optional

from .finding import (
    BUILD, BUILT, PACKED, ROOT, STANDS, WAYS, StrPath, digest_of, on_path, printed_by, program, program_file, same_file,
    version,
)
from .running import Limits, ProgramRuns, Progress, groups_of, limited_memory, processors
from .saying import THIS, UNSEEN, ToolError, lacking, say, seen, shown, tool_name

__all__ = [
    "BUILT",
    "PACKED",
    "ROOT",
    "STANDS",
    "UNSEEN",
    "WAYS",
    "Limits",
    "ProgramRuns",
    "Progress",
    "StrPath",
    "ToolError",
    "command",
    "digest_of",
    "groups_of",
    "lacking",
    "limited_memory",
    "on_path",
    "printed_by",
    "processors",
    "program",
    "program_file",
    "run_command",
    "same_file",
    "say",
    "seen",
    "shown",
    "tool_name",
    "version",
    "with_streams",
    "work_folder",
]

Work = Callable[[], Optional[int]]
"""The work of a tool, which gives its status, or nothing where that is 0."""


@contextlib.contextmanager
def work_folder() -> Iterator[str]:
    """A folder for what is written on the way; it goes at the end."""
    folder = tempfile.mkdtemp()
    try:
        yield folder
    finally:
        # What cannot be removed is no fault of the answer, and hides none.
        shutil.rmtree(folder, ignore_errors=True)


def command(named: Optional[str] = None) -> Callable[[Work], Callable[[], None]]:
    """Makes the command of a tool, which speaks of itself by a name."""
    return lambda work: functools.wraps(work)(functools.partial(run_command, work, named))


def run_command(work: Work, named: Optional[str] = None) -> NoReturn:
    """Runs a tool: it does its work, tells what it cannot do, and ends with the status. The tool speaks of itself by
    the name of its file, or by another that is given here, unless it was installed under a name of its own."""
    THIS.name = pathlib.Path(sys.argv[0]).name
    if named and (THIS.name.endswith(".py") or THIS.name == "-c"):
        THIS.name = named
    if BUILD in sys.argv[1:]:
        sys.argv.remove(BUILD)
        THIS.may_build = True
    try:
        with_streams()
        ends_at_once()
        status = status_of(work)
        with contextlib.suppress(OSError, AttributeError):
            sys.stderr.flush()
    except KeyboardInterrupt:
        status = 130
    os._exit(status)


def status_of(work: Work) -> int:
    """The status of a tool; what it cannot do is told."""
    try:
        status = work() or 0
        if sys.stdout is not None:
            sys.stdout.flush()
        return status
    except ToolError as fault:
        for line in fault.lines:
            say(line)
        return fault.status
    except OSError as fault:
        say(f"cannot write the output: {fault.strerror}")
        return 5
    except MemoryError:
        say("there is not enough memory")
        return 1


def with_streams() -> None:
    """Has the three standard streams where one is closed, so that no file takes its number. What is written to
    standard output is a fault then."""
    for number, way in ((0, os.O_RDONLY), (1, os.O_RDONLY), (2, os.O_WRONLY)):
        try:
            os.fstat(number)
        except OSError:
            # The lowest number that is free is this one.
            os.open(os.devnull, way)
    if sys.stdout is None:
        sys.stdout = open(1, "w", closefd=False)
    if sys.stderr is None:
        sys.stderr = open(2, "w", closefd=False, errors="backslashreplace")


def ends_at_once() -> None:
    """A request to end is an interrupt too. One that follows at once, as `timeout` sends it, breaks off nothing."""
    last = -math.inf

    def stop(*_: object) -> None:
        nonlocal last
        if time.monotonic() - last > 5:
            last = time.monotonic()
            raise KeyboardInterrupt

    signal.signal(signal.SIGTERM, stop)
    # The end of a terminal, unless `nohup` has it ignored.
    if signal.getsignal(signal.SIGHUP) is signal.SIG_DFL:
        signal.signal(signal.SIGHUP, stop)
    if signal.getsignal(signal.SIGINT) is signal.default_int_handler:
        signal.signal(signal.SIGINT, stop)
