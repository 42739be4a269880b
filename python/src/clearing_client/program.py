"""Finds the program `clearing` and runs it."""
from __future__ import annotations

import contextlib
import fcntl
import os
import pathlib
import re
import shutil
import signal
import subprocess
import sys
import tempfile
import threading
from typing import IO, Callable, Iterator, List, NamedTuple, Optional, Sequence, Tuple, Union

from .errors import (
    ClearingError,
    NoProgramError,
    OutOfMemoryError,
    OutOfTimeError,
    OutputError,
    RefusedError,
    StatusError,
    TextError,
    UnreadableError,
    UsageError,
)

FAULT = re.compile(r"clearing: (banks|debts|scenarios|journal|words) row ([0-9]{1,20}): (.{1,100}) \(([0-9]{1,3})\)\n")
CANNOT_READ = re.compile(r"clearing: cannot read (.*)\n", re.DOTALL)
BUILDS = (b"clearing: building ", b"clearing: proving ")


class Done(NamedTuple):
    """A run that is over: its status, what it printed, and its message."""

    status: int
    output: bytes
    message: str


def on_path(name: str) -> Optional[str]:
    """The file of a command, which is looked for in the absolute entries of the path alone."""
    return shutil.which(name, path=os.pathsep.join(filter(os.path.isabs, os.get_exec_path())))


def processors() -> int:
    """How many processors this process may use."""
    try:
        return len(os.sched_getaffinity(0))
    except AttributeError:
        return os.cpu_count() or 1


PACKED = pathlib.Path(__file__).resolve().parent / "bin/clearing"
"""The program of a wheel that has one."""


def find_program() -> str:
    """The program: what the environment variable CLEARING names, a file or a command; else the one that came in the
    wheel of this package; else that of the repository or the installation that this package stands in, which the
    repository's script builds first where it is not built yet; else `clearing` on the path. Of the path the absolute
    entries alone are looked at."""
    named = os.environ.get("CLEARING")
    if named:
        path = shutil.which(named) if os.sep in named else on_path(named)
        if path is None:
            raise NoProgramError(f"CLEARING names {named}, which is no program")
        return proved(path)
    if os.access(PACKED, os.X_OK):
        return str(PACKED)
    packages = pathlib.Path(__file__).resolve().parents[1]
    root = packages.parents[1]
    if packages == root / "python" / "src" and (root / "clearing").is_file():
        return str(root / "clearing")
    path = on_path("clearing")
    if path is None:
        raise NoProgramError("no program `clearing`: set CLEARING to it, or put it on the path")
    return proved(path)


def proved(found: str) -> str:
    """The whole name of a program, which is not the script `first-look` or what that has built."""
    if os.path.basename(os.path.realpath(found)) == "first-look":
        raise NoProgramError(f"{found} is a first look, which is not proved; CLEARING is to name the proved program")
    return os.path.abspath(found)


MOST_OUTPUT, MOST_MESSAGES = 5_000_000_000, 1_000_000
"""How many bytes of output and of messages are held. No text is longer, but that of `stress` on many debts, which
`map_stress` takes in parts."""
# The descriptors of files for a run: none that a script between, such as the repository's, may take for itself.
FIRST_DESCRIPTOR = 100


@contextlib.contextmanager
def handed_over(files: Sequence[Tuple[str, bytes]]) -> Iterator[Tuple[List[str], List[int]]]:
    """Files for a run, each with the option that names it: the words, and the descriptors that the run is given. They
    have no name in any folder, so that nothing is left, whatever ends this process."""
    with contextlib.ExitStack() as opened:
        words: List[str] = []
        numbers: List[int] = []
        for option, data in files:
            file = opened.enter_context(tempfile.TemporaryFile(buffering=0))
            left = memoryview(data)
            while left:
                left = left[file.write(left) :]
            number = fcntl.fcntl(file.fileno(), fcntl.F_DUPFD_CLOEXEC, FIRST_DESCRIPTOR)
            opened.callback(os.close, number)
            numbers.append(number)
            words += [f"--{option}", f"/dev/fd/{number}"]
        yield words, numbers


def run(words: Sequence[Union[str, bytes]], files: Sequence[int] = (), timeout: Optional[float] = None) -> Done:
    """Runs the program with these words, and these open files, to its end. What it says while it is built goes to
    standard error at once."""
    with started(words, files, timeout) as (stream, end):
        output = stream.read(MOST_OUTPUT + 1)
        if len(output) > MOST_OUTPUT:
            raise TextError(0, f"the program printed more than {MOST_OUTPUT:,} bytes")
        status, message = end()
    return Done(status, output, message)


class Deadline:
    """Ends a run that takes longer than it may: as a request first, and where that does not end it, at once."""

    def __init__(self, process: "subprocess.Popen[bytes]", seconds: Optional[float]) -> None:
        self.process, self.seconds = process, seconds
        self.passed = threading.Event()
        self.timer = None if seconds is None else threading.Timer(seconds, self.end)
        if self.timer is not None:
            self.timer.daemon = True
            self.timer.start()

    def end(self) -> None:
        """Ends the run."""
        self.passed.set()
        self.process.terminate()
        try:
            self.process.wait(5)
        except subprocess.TimeoutExpired:
            self.process.kill()

    def stop(self) -> None:
        """Waits no more, and says where the time had passed."""
        if self.timer is not None:
            self.timer.cancel()
        if self.passed.is_set() and self.seconds is not None:
            raise OutOfTimeError(self.seconds)


Ended = Callable[[], Tuple[int, str]]


@contextlib.contextmanager
def started(
    words: Sequence[Union[str, bytes]], files: Sequence[int] = (), timeout: Optional[float] = None
) -> Iterator[Tuple[IO[bytes], Ended]]:
    """A run of the program: what it prints, as a stream, and what waits for its end and tells the status and the
    message. It is killed where it is left before its end."""
    program = find_program()
    # Names are UTF-8 for the program, whatever the locale says; names of files are bytes already.
    line = [os.fsencode(program), *(word if isinstance(word, bytes) else word.encode() for word in words)]
    messages: List[bytes] = []
    with contextlib.ExitStack() as ending:
        with signals_wait():
            try:
                process = subprocess.Popen(
                    line, stdin=subprocess.DEVNULL, stdout=subprocess.PIPE, stderr=subprocess.PIPE, pass_fds=files
                )
            except OSError as fault:
                raise NoProgramError(f"{program} cannot be started: {fault.strerror}") from fault
            ending.enter_context(process)
            ending.push(lambda kind, *_: process.kill() if kind else None)
        assert process.stdout is not None and process.stderr is not None
        listener = threading.Thread(target=listen, args=(process.stderr, messages), daemon=True)
        deadline = Deadline(process, timeout)
        if deadline.timer is not None:
            ending.callback(deadline.timer.cancel)

        def end() -> Tuple[int, str]:
            listener.join()
            status = process.wait()
            deadline.stop()
            return status, b"".join(messages).decode("utf-8", "replace")

        listener.start()
        yield process.stdout, end


@contextlib.contextmanager
def signals_wait() -> Iterator[None]:
    """What a signal does in the main thread is done at the end of the block. `Popen` leaves a process that nobody knows
    where an interrupt comes while it begins one."""
    handled = (signal.SIGINT, signal.SIGTERM, signal.SIGHUP)
    here = threading.current_thread() is threading.main_thread()
    numbers = [number for number in handled if here and callable(signal.getsignal(number))]
    came: List[int] = []
    before = {number: signal.signal(number, lambda which, _: came.append(which)) for number in numbers}
    try:
        yield
    finally:
        for number, handler in before.items():
            signal.signal(number, handler)
        for which in came:
            signal.raise_signal(which)


def listen(stream: IO[bytes], messages: List[bytes]) -> None:
    """Keeps the messages of a run, and passes on how far a build is."""
    room = MOST_MESSAGES
    while line := stream.readline(MOST_MESSAGES):
        if line.startswith(BUILDS):
            sys.stderr.write(line.decode("utf-8", "replace"))
            sys.stderr.flush()
        elif room > 0:
            messages.append(line[:room])
            room -= len(line)


def fault_of(done: Done, words: Sequence[str]) -> ClearingError:
    """The exception for a status that is neither 0 nor 7."""
    refused = FAULT.fullmatch(done.message)
    if done.status == 2:
        return UsageError(tuple(words))
    if done.status == 3:
        named = CANNOT_READ.fullmatch(done.message)
        return UnreadableError(named[1] if named else "a file")
    if done.status == 4 and refused:
        return RefusedError(refused[1], int(refused[2]), refused[3], int(refused[4]))
    if done.status == 5:
        return OutputError()
    if done.status == 6:
        return OutOfMemoryError()
    if done.status == 8:
        return NoProgramError(done.message.strip() or "the program cannot be built", 8)
    return StatusError(done.status, done.message.strip()[-400:])
