"""The processes that run jobs: in a session of their own, which ends with the command, so many at a time.

Each job has a process of its own, so that what kills one leaves the others. The process that begins them hands on that
one was killed. The process above counts how they ended, and outlives them all.
"""
import contextlib
import os
import signal
import sys
import time
from typing import Callable, Dict, Iterator, Sequence

from .job import Runs, end_of, tell

ENDS = (signal.SIGHUP, signal.SIGINT, signal.SIGTERM)
"""The signals that ask for an end."""
MARK = "MANY_SESSION"
"""Stands in the environment of a session: what a job begins itself belongs to it."""
Work = Callable[[], int]


class AskedToEndError(Exception):
    """A signal asked for an end."""

    def __init__(self, number: int) -> None:
        super().__init__()
        self.status = 128 + number


@contextlib.contextmanager
def held() -> Iterator[None]:
    """No signal that asks for an end comes within the block; one that would have, comes at its end."""
    before = signal.pthread_sigmask(signal.SIG_BLOCK, ENDS)
    try:
        yield
    finally:
        signal.pthread_sigmask(signal.SIG_SETMASK, before)


def child(work: Work, apart: bool = False) -> int:
    """A process that does some work and ends with its status, in a session of its own where it is to stand apart. It
    is begun while signals are held, and is ended by them, but by those that were ignored before."""
    with contextlib.suppress(OSError, AttributeError):
        sys.stderr.flush()
    process = os.fork()
    if process:
        return process
    status = 1
    try:
        if apart:
            os.setsid()
        for number in ENDS:
            if signal.getsignal(number) is not signal.SIG_IGN:
                signal.signal(number, signal.SIG_DFL)
        signal.pthread_sigmask(signal.SIG_UNBLOCK, ENDS)
        status = work()
    except OSError as fault:
        tell(f"{fault.filename or 'the output'}: {fault.strerror}")
    finally:
        os._exit(status)


def status_of(process: int) -> int:
    """How a process ended, when it has."""
    return told_status(os.waitpid(process, 0)[1])


def told_status(ended: int) -> int:
    """How a process ended, as a shell has it. That a signal ended it is told."""
    status = os.waitstatus_to_exitcode(ended)
    with contextlib.suppress(OSError):
        sys.stderr.write(end_of(status))
        sys.stderr.flush()
    return status if status >= 0 else 128 - status


def in_session(work: Work) -> int:
    """Does some work in a session of its own, and ends with its status. A request to end is handed on to all that is
    in it; what has not ended 5 seconds later is killed."""
    if os.environ.get(MARK):
        return work()
    os.environ[MARK] = "1"

    def stop(number: int, _: object) -> None:
        raise AskedToEndError(number)

    try:
        with held():
            process = child(work, apart=True)
            for number in ENDS:
                if signal.getsignal(number) is not signal.SIG_IGN:
                    signal.signal(number, stop)
        return status_of(process)
    except AskedToEndError as asked:
        for number in ENDS:
            signal.signal(number, signal.SIG_IGN)
        end(process)
        return asked.status


def end(session: int) -> None:
    """Ends all processes of a session."""
    try:
        os.killpg(session, signal.SIGTERM)
    except ProcessLookupError:
        with contextlib.suppress(ProcessLookupError):
            os.kill(session, signal.SIGTERM)
    with contextlib.suppress(ProcessLookupError):
        for _ in range(100):
            with contextlib.suppress(ChildProcessError):
                os.waitpid(session, os.WNOHANG)
            os.killpg(session, 0)
            time.sleep(0.05)
        os.killpg(session, signal.SIGKILL)


def run_in_turn(runs: Runs, lines: Sequence[str]) -> int:
    """Runs jobs, one after another: 0, or 1 where one failed."""
    failed = 0
    for line in lines:
        with held():
            process = child(lambda: runs.run(line))
        failed |= int(status_of(process) != 0)
    return failed


def run_all(runs: Runs, lines: Sequence[str], slots: int) -> int:
    """Runs all jobs, so many at a time, and tells how many are done, failed, and are not finished: 0, or 1 where not
    all are done."""
    reading, writing = os.pipe()
    with held():
        child(lambda: begin_all(runs, lines, slots, writing))
        for number in ENDS:
            signal.signal(number, signal.SIG_IGN)
    os.close(writing)
    with open(reading, "rb") as file:
        ended = file.read().split()
    done, failed = ended.count(b"done"), ended.count(b"failed")
    left = len(lines) - done - failed
    print(f"{done} done, {failed} failed" + (f", {left} not finished" if left else ""), flush=True)
    return int(done < len(lines))


def begin_all(runs: Runs, lines: Sequence[str], slots: int, writing: int) -> int:
    """Begins one job after another, as others end. Each that is done says so itself, and the others are told here."""
    running: Dict[int, int] = {}

    def run_told(line: str) -> int:
        status = runs.run(line)
        if status == 0:
            os.write(writing, b"done\n")
        return status

    def wait_for_one() -> None:
        process, ended = os.wait()
        number, status = running.pop(process), told_status(ended)
        if status >= 128:
            tell(f"the run of job {number} was killed; the same command runs it again")
        if status:
            os.write(writing, b"failed\n")

    for number, line in enumerate(lines, 1):
        if len(running) == slots:
            wait_for_one()
        with held():
            running[child(lambda: run_told(line))] = number
    while running:
        wait_for_one()
    return 0
