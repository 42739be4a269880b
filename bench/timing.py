"""One timer for all tables, and one way to print what it says."""
import os
import signal
import subprocess
import threading
import time
from typing import Callable, Dict, List, Mapping, Optional, Sequence

Jobs = Mapping[str, List[str]]
"""The words of some runs by their names."""
Time = Optional[float]
"""The seconds of a run; None where it passed the limit."""
Times = Dict[str, Time]
"""The seconds of runs by their names."""


class Fault(Exception):
    """A run that cannot be measured: it ended otherwise than it has to."""


def seconds(words: List[str], limit: float, ends: Sequence[int] = (0,)) -> Time:
    """How long a run takes, or None where it passes the limit, in seconds. It ends with one of some statuses, else
    with a Fault."""
    # Not by subprocess, whose wait with a limit sleeps between looks.
    nothing = [(os.POSIX_SPAWN_OPEN, number, os.devnull, os.O_RDWR, 0) for number in range(3)]
    start = time.perf_counter()
    process = os.posix_spawn(words[0], words, os.environ, file_actions=nothing)
    timer = threading.Timer(limit, os.kill, (process, signal.SIGKILL))
    timer.start()
    status = os.waitstatus_to_exitcode(os.waitpid(process, 0)[1])
    took = time.perf_counter() - start
    timer.cancel()
    if status == -signal.SIGKILL:
        return None
    if status not in ends:
        raise Fault(f"{' '.join(words)}: status {status} in place of {' or '.join(map(str, ends))}")
    return took


def until_it_prints(words: List[str], limit: float, _: Sequence[int] = ()) -> Time:
    """How long a run takes to the first byte of its output, or None where that passes the limit, in seconds. It is
    ended then. A Fault where it prints nothing."""
    reader, writer = os.pipe()
    files = [(os.POSIX_SPAWN_OPEN, 0, os.devnull, os.O_RDONLY, 0), (os.POSIX_SPAWN_DUP2, writer, 1)]
    start = time.perf_counter()
    process = os.posix_spawn(words[0], words, os.environ, file_actions=files)
    os.close(writer)
    timer = threading.Timer(limit, os.kill, (process, signal.SIGKILL))
    timer.start()
    first = os.read(reader, 1)
    took = time.perf_counter() - start
    over = not timer.is_alive()
    timer.cancel()
    os.kill(process, signal.SIGKILL)
    os.close(reader)
    os.waitpid(process, 0)
    if not first and not over:
        raise Fault(f"{' '.join(words)}: nothing is printed")
    return took if first else None


Timer = Callable[[List[str], float, Sequence[int]], Time]


def least(
    jobs: Jobs, runs: int, limit: float, ends: Optional[Mapping[str, Sequence[int]]] = None, timer: Timer = seconds
) -> Times:
    """The least seconds of each job, run by turns; a job that passes the limit is not run again, and has None. `ends`
    has the statuses of jobs that end otherwise than with 0."""
    best: Times = {}
    ends = ends or {}
    for _ in range(runs):
        for name, words in jobs.items():
            if name not in best or best[name] is not None:
                took = timer(words, limit, ends.get(name, (0,)))
                before = best.get(name)
                best[name] = took if took is None or before is None else min(before, took)
    return best


def output(words: List[str], limit: float) -> Optional[bytes]:
    """What a run prints, or None where it passes the limit in seconds."""
    try:
        return subprocess.run(words, stdin=subprocess.DEVNULL, capture_output=True, timeout=limit).stdout
    except subprocess.TimeoutExpired:
        return None


def same(words: List[str], others: List[str], limit: float) -> str:
    """Whether two runs print the same bytes: `yes`, `NO`, or `-` where the first passes the limit."""
    text = output(words, limit)
    return "-" if text is None else "yes" if text == output(others, limit) else "NO"


def memory(words: List[str]) -> str:
    """The most memory that a run held, in MB of 1,048,576 bytes, by GNU time; `-` where that is missing."""
    if not os.access("/usr/bin/time", os.X_OK):
        return "-"
    run = ["/usr/bin/time", "-f", "%M", *words]
    timed = subprocess.run(run, stdin=subprocess.DEVNULL, stdout=subprocess.DEVNULL, stderr=subprocess.PIPE)
    return f"{int(timed.stderr.split()[-1]) / 1024:.1f}"


def ms(took: Time) -> str:
    """Seconds as the milliseconds of a table; `over` where a run passed the limit."""
    return "over" if took is None else f"{1000 * took:.1f}"


def ratio(took: Time, other: Time) -> str:
    """How many times of another one time is, as a table has it; `-` where a run passed the limit."""
    return "-" if took is None or other is None else f"{took / other:.2f}"
