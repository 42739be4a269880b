"""Runs the tests, each module of tests in a process of its own and as many at once as there are processors.

`run.py` runs all modules test_*.py beside it, `run.py MODULE...` these alone. Those of the package, test_client_*,
are run by a Python that has pandas, numpy and networkx where there is one; with `--without NAMES` as if the packages
of these names, with commas between, were missing. Each test that was skipped has a line with its reason; the last
line is `N passed, M failed`, with `, K skipped` where some were. The status is 0 where none failed. A module that takes
longer than an hour is ended with all that it has started, and has failed.

With `--skips-fail FILE` a skip counts as a failure, but for those that the file names: a line has the name of a test,
a class or a module, and then the reason. Each `--note TEXT` is a line before the last.
"""
import argparse
import concurrent.futures
import contextlib
import os
import pathlib
import re
import signal
import stat
import subprocess
import sys
import unittest
from typing import Any, Dict, Iterable, List, Optional, Set, Tuple

from ending import run_within
from pythons import python_with

HERE = pathlib.Path(__file__).resolve().parent
SECONDS = 3600  # what a module may take; those that take long take minutes
# Devices that all share, whose modes a test by root could change.
DEVICES = ["/dev/null", "/dev/zero", "/dev/full"]
COUNTS = re.compile(r"([0-9]+) passed, ([0-9]+) failed(?:, ([0-9]+) skipped)?")
Counts = Tuple[int, int, int]
"""How many tests have passed, have failed, and were skipped."""


class Told(unittest.TextTestResult):
    """A result that counts each test once: as failed, else as skipped, else as passed. A test during which the mode
    of a device changed has failed, and so may one that ran beside it; the mode is put right."""

    def __init__(self, *words: Any, **options: Any) -> None:
        super().__init__(*words, **options)
        self.counts = {"passed": 0, "failed": 0, "skipped": 0}
        self.current: Optional[str] = None  # what the test that runs counts as so far
        self.modes: Dict[str, int] = {}

    def startTest(self, test: unittest.TestCase) -> None:
        """A test counts as passed until something is told of it."""
        super().startTest(test)
        self.current, self.modes = "passed", {name: os.stat(name).st_mode for name in DEVICES}

    def mark(self, state: str) -> None:
        """Has the test count as failed or skipped. A fault or a skip of a whole class or module stands alone."""
        if self.current is None:
            self.counts[state] += 1
        elif self.current != "failed":
            self.current = state

    def addError(self, test: unittest.TestCase, error: Any) -> None:
        """A test has broken off."""
        super().addError(test, error)
        self.mark("failed")

    def addFailure(self, test: unittest.TestCase, error: Any) -> None:
        """What a test asserts does not hold."""
        super().addFailure(test, error)
        self.mark("failed")

    def addUnexpectedSuccess(self, test: unittest.TestCase) -> None:
        """A test has passed that was expected to fail."""
        super().addUnexpectedSuccess(test)
        self.mark("failed")

    def addSubTest(self, test: unittest.TestCase, subtest: unittest.TestCase, error: Any) -> None:
        """A part of a test has ended."""
        super().addSubTest(test, subtest, error)
        if error is not None:
            self.mark("failed")

    def addSkip(self, test: unittest.TestCase, reason: str) -> None:
        """A test, or a part of one, was skipped."""
        super().addSkip(test, reason)
        self.mark("skipped")

    def stopTest(self, test: unittest.TestCase) -> None:
        """Counts the test, whose devices are looked at first."""
        for name, mode in self.modes.items():
            if os.stat(name).st_mode != mode:
                print(f"{test}: the mode of {name} was changed to {os.stat(name).st_mode:o}")
                with contextlib.suppress(OSError):
                    os.chmod(name, stat.S_IMODE(mode))
                self.mark("failed")
        super().stopTest(test)
        if self.current is not None:
            self.counts[self.current] += 1
        self.current = None


def line_of(passed: int, failed: int, skipped: int) -> str:
    """The line that tells the counts of some tests."""
    return f"{passed} passed, {failed} failed" + (f", {skipped} skipped" if skipped else "")


def run_here(module: str, without: str) -> int:
    """Runs one module in this process. Its last line has the counts."""
    hidden: Dict[str, Any] = {name: None for name in without.split(",") if name}
    sys.modules.update(hidden)
    suite = unittest.defaultTestLoader.discover(str(HERE), pattern=f"{module}.py")
    result: Any = unittest.TextTestRunner(stream=sys.stdout, resultclass=Told, verbosity=2).run(suite)
    for test, reason in result.skipped:
        print(f"skipped: {test.id() if hasattr(test, 'id') else test}: {reason}")
    if not sum(result.counts.values()):
        result.counts["failed"] = 1
        print(f"{module} has no test")
    print(line_of(**result.counts))
    sys.stdout.flush()
    return 1 if result.counts["failed"] else 0


def lines_of(output: bytes) -> List[str]:
    """The lines of what a run has printed."""
    return output.decode(errors="backslashreplace").splitlines()


def run_beside(module: str, without: str) -> Tuple[List[str], Counts]:
    """What a run of one module in another process prints, and its three counts. A run that broke off, or was ended, is
    a test that failed."""
    has_packages = not without and module.startswith("test_client_")
    python = has_packages and python_with("pandas", "numpy", "networkx") or sys.executable
    run = [python, str(HERE / "run.py"), "--here", module, without]
    try:
        done = run_within(SECONDS, run, stdin=subprocess.DEVNULL, stdout=subprocess.PIPE, stderr=subprocess.STDOUT)
    except subprocess.TimeoutExpired as late:
        return lines_of(late.output or b"") + [f"{module} was ended after {SECONDS} seconds"], (0, 1, 0)
    lines = lines_of(done.stdout)
    counts = COUNTS.fullmatch(lines[-1]) if lines else None
    if not counts:
        return lines + [f"{module} broke off with status {done.returncode}"], (0, 1, 0)
    passed, failed, skipped = (int(count or 0) for count in counts.groups())
    return lines[:-1], (passed, failed, skipped)


def options_of(words: List[str]) -> argparse.Namespace:
    """The options and modules that the words name."""
    parser = argparse.ArgumentParser(description=__doc__, formatter_class=argparse.RawDescriptionHelpFormatter)
    parser.add_argument("modules", metavar="MODULE", nargs="*")
    parser.add_argument("--without", metavar="NAMES", default="")
    parser.add_argument("--skips-fail", metavar="FILE", type=argparse.FileType(encoding="utf-8"))
    parser.add_argument("--note", metavar="TEXT", action="append", default=[])
    return parser.parse_args(words)


def name_of(skip: str) -> str:
    """The test that a line on a skip is about, without the words of a part of it; or the class or module."""
    found = re.match(r"skipped: (?:setUp(?:Class|Module) \()?([\w.]*)", skip)
    return found[1] if found else ""


def not_allowed(skips: Iterable[str], listed: Iterable[str]) -> Set[str]:
    """The names of those skipped tests that no line of a list names, neither them nor their class or module."""
    rows = [line.split(None, 1) for line in listed if not line.startswith("#")]
    allowed = {row[0] for row in rows if len(row) == 2}
    return {name for name in map(name_of, skips) if not any(f"{name}.".startswith(f"{each}.") for each in allowed)}


def main(words: List[str]) -> int:
    """Runs the tests that the words name, and tells what became of them."""
    # Started in the background a shell leaves interrupts ignored, `nohup` the end of the terminal, and each program
    # below would ignore them too.
    signal.signal(signal.SIGINT, signal.default_int_handler)
    signal.signal(signal.SIGHUP, signal.SIG_DFL)
    if words[:1] == ["--here"]:
        return run_here(words[1], words[2])
    options = options_of(words)
    modules = [word.removesuffix(".py") for word in options.modules] or sorted(
        path.stem for path in HERE.glob("test_*.py")
    )
    # The largest first, since they take longest.
    modules.sort(key=lambda module: -(HERE / f"{module}.py").stat().st_size if (HERE / f"{module}.py").exists() else 0)
    total = [0, 0, 0]
    skips: List[str] = []
    with concurrent.futures.ThreadPoolExecutor(len(os.sched_getaffinity(0))) as pool:
        for module, (lines, counts) in zip(modules, pool.map(run_beside, modules, [options.without] * len(modules))):
            skips += [line for line in lines if line.startswith("skipped: ")]
            print(f"{module}: {line_of(*counts)}", flush=True)
            if counts[1]:
                print("\n".join(line for line in lines if not line.startswith("skipped: ")), flush=True)
            total = [a + b for a, b in zip(total, counts)]
    if not modules:
        print("there is no module of tests")
        total[1] = 1
    failed: Set[str] = not_allowed(skips, options.skips_fail) if options.skips_fail else set()
    total = [total[0], total[1] + len(failed), total[2] - len(failed)]
    for line in skips:
        print(line.replace("skipped", "skipped, which no list allows", 1) if name_of(line) in failed else line)
    print("".join(f"{note}\n" for note in options.note) + line_of(*total))
    return 1 if total[1] else 0


if __name__ == "__main__":
    sys.exit(main(sys.argv[1:]))
