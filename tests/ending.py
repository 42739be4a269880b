"""Programs that tests start, each of which is ended with all that it has started where it takes longer than it may."""
import contextlib
import os
import pathlib
import signal
import subprocess
from typing import Any, Dict, List, Sequence, Set, Tuple


def family(process: int) -> List[int]:
    """A process, what it has started, what that has started, and all that stands in a session of its own with it."""
    above: Dict[int, Tuple[int, int]] = {}
    for path in pathlib.Path("/proc").glob("[0-9]*/stat"):
        with contextlib.suppress(OSError, IndexError):
            _, parent, _, session = path.read_bytes().rpartition(b")")[2].split()[:4]
            above[int(path.parent.name)] = int(parent), int(session)
    found = [process]
    for one in found:
        found += [each for each, (parent, session) in above.items() if one in (parent, session) and each not in found]
    return found


def end(process: int) -> None:
    """Kills a process and its family. All are stopped first, so that none starts another meanwhile."""
    stopped: Set[int] = set()
    while True:
        going = set(family(process)) - stopped
        if not going:
            break
        for each in going:
            with contextlib.suppress(OSError):
                os.kill(each, signal.SIGSTOP)
        stopped |= going
    for each in stopped:
        with contextlib.suppress(OSError):
            os.kill(each, signal.SIGKILL)


def run_within(seconds: float, words: Sequence[str], **how: Any) -> "subprocess.CompletedProcess[Any]":
    """A run as subprocess.run has it. One that takes longer than some seconds is ended with its family, and then
    subprocess.TimeoutExpired tells its words and what it has printed."""
    with subprocess.Popen(words, **how) as running:
        try:
            output, messages = running.communicate(timeout=seconds)
        except BaseException:
            end(running.pid)
            raise
    return subprocess.CompletedProcess(words, running.returncode, output, messages)
