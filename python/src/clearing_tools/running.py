"""How the program is run: once for each processor at a time, each run by one worker. On a terminal a line on standard
error says how many runs are done. At an interrupt all runs are ended at once."""
import contextlib
import os
import queue
import resource
import signal
import subprocess
import sys
import threading
from typing import (
    BinaryIO,
    Callable,
    Dict,
    Generic,
    Iterable,
    Iterator,
    List,
    NamedTuple,
    Optional,
    Sequence,
    Set,
    Tuple,
    TypeVar,
    Union,
)

from .finding import StrPath, program
from .saying import ToolError, tool_name

T = TypeVar("T")
R = TypeVar("R")


def processors() -> int:
    """How many processors this process may use."""
    try:
        return len(os.sched_getaffinity(0))
    except AttributeError:
        return os.cpu_count() or 1


class Limits(NamedTuple):
    """What a run may take: seconds of a processor, and bytes of memory, where that has a limit."""

    seconds: int
    memory: int = resource.RLIM_INFINITY

    def put_on(self, process: int = 0) -> None:
        """Limits a process that has begun, or this one; a lower limit that it may not pass stays."""
        for what, most in ((resource.RLIMIT_AS, self.memory), (resource.RLIMIT_CPU, self.seconds)):
            # One that has ended needs none.
            with contextlib.suppress(OSError):
                _, hard = resource.prlimit(process, what)
                resource.prlimit(process, what, (most if hard == resource.RLIM_INFINITY else min(most, hard), hard))


@contextlib.contextmanager
def limited_memory(most: int) -> Iterator[None]:
    """Has this process, and what it starts, take no more than so many bytes of memory."""
    soft, hard = resource.getrlimit(resource.RLIMIT_AS)
    known = [each for each in (most, soft, hard) if each != resource.RLIM_INFINITY]
    resource.setrlimit(resource.RLIMIT_AS, (min(known), hard))
    try:
        yield
    finally:
        resource.setrlimit(resource.RLIMIT_AS, (soft, hard))


@contextlib.contextmanager
def signals_wait() -> Iterator[None]:
    """What a signal does in the main thread is done at the end of the block. `Popen` leaves a process that nobody knows
    where an interrupt comes while it begins one."""
    handled = (signal.SIGINT, signal.SIGTERM, signal.SIGHUP)
    here = threading.current_thread() is threading.main_thread()
    numbers = [number for number in handled if here and callable(signal.getsignal(number))]
    came: List[int] = []
    before = {number: signal.signal(number, lambda which, _: came.append(which)) for number in numbers}
    try:
        yield
    finally:
        for number, handler in before.items():
            signal.signal(number, handler)
        for which in came:
            signal.raise_signal(which)


class ProgramRuns:
    """Runs of the program, side by side, each within limits where there are some."""

    def __init__(self, limits: Optional[Limits] = None) -> None:
        self.running: Set["subprocess.Popen[bytes]"] = set()
        self.lock, self.stopped, self.limits = threading.Lock(), False, limits

    def run(self, command: Sequence[str], folder: Optional[StrPath] = None) -> Tuple[int, bytes, bytes]:
        """The status, output and messages of a command, as bytes."""
        return self.run_on(None, command, folder)

    def run_on(
        self,
        source: Optional[StrPath],
        command: Sequence[str],
        folder: Optional[StrPath] = None,
        into: Optional[StrPath] = None,
    ) -> Tuple[int, bytes, bytes]:
        """The same of a command whose standard input is a file, where one is given; and so is its output, which is then
        not held in memory and is empty here."""
        child: Optional["subprocess.Popen[bytes]"] = None
        try:
            with self.lock, signals_wait(), contextlib.ExitStack() as opened:
                if self.stopped:
                    raise KeyboardInterrupt
                try:
                    stdin = opened.enter_context(open(os.devnull if source is None else source, "rb"))
                    stdout: Union[int, BinaryIO] = subprocess.PIPE
                    if into is not None:
                        stdout = opened.enter_context(open(into, "wb"))
                    child = subprocess.Popen(command, cwd=folder, stdin=stdin, stdout=stdout, stderr=subprocess.PIPE)
                except (OSError, ValueError) as fault:
                    raise ToolError(f"cannot run {command[0]}: {fault}") from fault
                self.running.add(child)
                if self.limits is not None:
                    self.limits.put_on(child.pid)
            assert child is not None
            output, messages = self.wait_for(child)
            return child.returncode, output, messages
        except BaseException:
            if child is not None:
                child.kill()
                for stream in (child.stdout, child.stderr):
                    if stream is not None:
                        stream.close()
                child.wait()
            raise
        finally:
            if child is not None:
                with self.lock:
                    self.running.discard(child)

    def wait_for(self, child: "subprocess.Popen[bytes]") -> Tuple[bytes, bytes]:
        """The output and messages of a run, none once all runs were stopped."""
        while not self.stopped:
            with contextlib.suppress(subprocess.TimeoutExpired):
                # Not for long: what a run that was ended has begun itself may hold its output.
                output, messages = child.communicate(timeout=1)
                return output or b"", messages
        raise KeyboardInterrupt

    def answer(self, words: Sequence[str], folder: Optional[StrPath] = None) -> bytes:
        """What the program prints, where it ends well."""
        status, output, messages = self.run([program(), *words], folder)
        if status != 0:
            message = messages.decode("utf-8", "replace").strip() or f"{program()} ended with {status}"
            raise ToolError(message.splitlines()[-1].removeprefix("clearing: "), status if status in (2, 3, 4) else 1)
        return output

    def stop(self) -> None:
        """Ends all runs; none begins any more."""
        with self.lock:
            self.stopped = True
            for child in self.running:
                child.kill()

    def all(self, work: Callable[[T], R], items: Iterable[T], what: str) -> List[R]:
        """What the work gives for each item, in their order, as many at a time as there are processors. At a fault all
        runs are ended, and no work goes on behind it, so that the folder in which it writes can be removed."""
        side_by_side = SideBySide(self, work, items)
        progress = Progress(what, side_by_side.count)
        try:
            side_by_side.start()
            while progress.done < side_by_side.count:
                if side_by_side.has_ended_one():
                    progress.one_more()
            return side_by_side.results()
        except BaseException:
            self.stop()
            side_by_side.join()
            raise
        finally:
            progress.end()


class SideBySide(Generic[T, R]):
    """Work on some items in threads, as many as there are processors. Threads and queues of our own: an interrupt
    within a wait for futures may keep their locks for ever."""

    def __init__(self, runs: ProgramRuns, work: Callable[[T], R], items: Iterable[T]) -> None:
        self.runs, self.work, self.items = runs, work, list(items)
        self.count = len(self.items)
        self.done: Dict[int, R] = {}
        self.left: "queue.SimpleQueue[int]" = queue.SimpleQueue()
        self.ended: "queue.SimpleQueue[Optional[BaseException]]" = queue.SimpleQueue()
        for number in range(self.count):
            self.left.put(number)
        threads = min(processors(), self.count)
        self.threads = [threading.Thread(target=self.go_on, daemon=True) for _ in range(threads)]

    def start(self) -> None:
        """Starts the threads."""
        for thread in self.threads:
            thread.start()

    def go_on(self) -> None:
        """Does the work on one item after another, until none is left or all runs are stopped."""
        with contextlib.suppress(queue.Empty):
            while not self.runs.stopped:
                number, fault = self.left.get_nowait(), None
                try:
                    self.done[number] = self.work(self.items[number])
                except BaseException as raised:
                    fault = raised
                self.ended.put(fault)

    def has_ended_one(self) -> bool:
        """Whether the work on one more item has ended, after a short wait: a signal that comes just before a wait is
        looked at after it. A fault of the work is raised here."""
        try:
            fault = self.ended.get(timeout=0.1)
        except queue.Empty:
            return False
        if fault is not None:
            raise fault
        return True

    def results(self) -> List[R]:
        """What the work gave for each item, in their order."""
        return [self.done[number] for number in range(self.count)]

    def join(self) -> None:
        """Waits until no thread goes on."""
        for thread in self.threads:
            if thread.is_alive():
                thread.join()


class Progress:
    """A line that moves, on a terminal alone."""

    def __init__(self, what: str, count: int) -> None:
        self.what, self.count, self.done = what, count, 0
        self.shown = sys.stderr.isatty()
        self.tell()

    def tell(self) -> None:
        """Shows how far the runs are."""
        if self.shown:
            line = f"\r\033[K{tool_name()}: {self.what} {self.done} of {self.count}"
            print(line, end="", file=sys.stderr, flush=True)

    def one_more(self) -> None:
        """Counts a run that is done."""
        self.done += 1
        self.tell()

    def end(self) -> None:
        """Takes the line away."""
        if self.shown:
            print("\r\033[K", end="", file=sys.stderr, flush=True)


def groups_of(items: Iterable[T], most: int = 100) -> List[List[T]]:
    """The items in groups of at most so many, and in as many groups as there are processors where there are enough."""
    items = list(items)
    size = max(1, min(most, -(-len(items) // processors())))
    return [items[at : at + size] for at in range(0, len(items), size)]
