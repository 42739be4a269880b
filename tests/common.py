"""What the tests share: the program (from the environment variable CLEARING, else the repository's `./clearing`), the
tools, the two packages, the networks of `examples/`, and a case with a folder of its own."""
import importlib.util
import os
import pathlib
import shutil
import subprocess
import sys
import tempfile
import time
import unittest
from typing import Any, Callable, Container, List, Optional, TypeVar, Union

from ending import run_within
from pythons import python_with

ROOT = pathlib.Path(__file__).resolve().parents[1]
PACKAGES = ROOT / "python" / "src"


def prepared() -> str:
    """The program that the tests run. Importing this module readies the process for it: each tool that a test starts
    gets the same program by CLEARING in its environment, with its whole path, and `import clearing_client` and `import
    clearing_tools` find the sources of this repository before a package that is installed. A first look ends the
    process here, since it is not proved, and tests that pass by it would say nothing of the proved program."""
    named = os.environ.get("CLEARING") or str(ROOT / "clearing")
    program = shutil.which(named) or named
    # A test may run it in another folder.
    program = os.path.abspath(program) if os.sep in program else program
    if pathlib.Path(program).resolve().name == "first-look":
        sys.exit(f"{program} is a first look, which is not proved; CLEARING is to name the proved program")
    os.environ["CLEARING"] = program
    sys.path.insert(0, str(PACKAGES))
    return program


PROGRAM = prepared()
EXAMPLES = sorted(path.parent for path in (ROOT / "examples").glob("*/banks.csv"))
CHAIN, HUB, TWELVE = (ROOT / "examples" / name for name in ("chain", "hub", "twelve-banks"))
# A class of tests or a test, which a skip gives back.
Tested = TypeVar("Tested", bound=Callable[..., Any])
Word = Union[str, int, float, "os.PathLike[str]"]
"""A word of a command line, of which it has the text."""
LONGEST = 600.0
"""Seconds after which a run of the program or of a tool hangs, and is ended."""


def clearing(*words: Word) -> "subprocess.CompletedProcess[bytes]":
    """A run of the program, with its status, output and messages as bytes."""
    return run_within(
        LONGEST,
        [PROGRAM, *map(str, words)],
        stdin=subprocess.DEVNULL,
        stdout=subprocess.PIPE,
        stderr=subprocess.PIPE,
        start_new_session=True,
    )


def file_of(name: str) -> pathlib.Path:
    """The file of a command, which stands in bin/, or of a script for developers, such as `dev/man.py`."""
    return ROOT / ("tools" if "/" in name or name.endswith(".sh") else "bin") / name


def run_of(name: str, python: Optional[str] = None) -> List[str]:
    """The words that run one of the tools: a file of Python by the Python that runs the tests, or by another."""
    path = file_of(name)
    is_python = path.read_bytes().startswith(b"#!/usr/bin/env python3\n")
    return [python or sys.executable, str(path)] if is_python else [str(path)]


def tool(
    name: str, *words: Word, python: Optional[str] = None, cwd: Optional[pathlib.Path] = None
) -> "subprocess.CompletedProcess[str]":
    """A run of one of the tools, with its status, output and messages as text; by another Python where one is named."""
    return run_within(
        LONGEST,
        [*run_of(name, python), *map(str, words)],
        cwd=cwd,
        stdin=subprocess.DEVNULL,
        stdout=subprocess.PIPE,
        stderr=subprocess.PIPE,
        encoding="utf-8",
        start_new_session=True,
    )


def loaded(path: pathlib.Path) -> Any:
    """A script as a module, whatever other modules have its name."""
    spec = importlib.util.spec_from_file_location(path.stem, path)
    assert spec and spec.loader
    module = importlib.util.module_from_spec(spec)
    spec.loader.exec_module(module)
    return module


def needs(*commands: str) -> Callable[[Tested], Tested]:
    """Skips a test or a class where a command is not on the path."""
    missing = [command for command in commands if not shutil.which(command)]
    return unittest.skipIf(missing, f"{', '.join(missing)} is not on the path")


def needs_modules(*modules: str) -> Callable[[Tested], Tested]:
    """Skips a test or a class where neither Python has some modules; else python_with names the one that has them."""
    return unittest.skipUnless(python_with(*modules), f"no Python here has {', '.join(modules)}")


# Skips a test of what an installed wheel has not.
needs_checkout = unittest.skipUnless((ROOT / "crates.txt").is_file(), "of a checkout, and not of a wheel")


def there(name: str) -> bool:
    """Whether a package is there, and not hidden by `run.py --without`."""
    try:
        __import__(name)
    except ImportError:
        return False
    return True


def needs_packages(*names: str) -> Callable[[Tested], Tested]:
    """Skips a test or a class where this Python has not some packages, or they are hidden."""
    missing = [name for name in names if not there(name)]
    return unittest.skipIf(missing, f"without {', '.join(missing)}")


def comes(holds: Callable[[], object], seconds: float = 60) -> bool:
    """Waits for something to hold, and tells whether it did within some seconds."""
    ends = time.monotonic() + seconds
    while not holds():
        if time.monotonic() > ends:
            return False
        time.sleep(0.02)
    return True


def is_running(process: Union[int, str]) -> bool:
    """Whether a process runs; one that has ended and was not waited for does not. One that was killed may take a
    moment until it has ended."""
    try:
        state = pathlib.Path(f"/proc/{process}/stat").read_bytes().rpartition(b")")[2].split()[0]
    except OSError:
        return False
    return state not in (b"Z", b"X")


def records(text: str) -> List[List[str]]:
    """The records of a table below its header."""
    return [line.split(",") for line in text.removesuffix("\n").split("\n")[1:]]


def files_of(folder: pathlib.Path) -> List[Word]:
    """The words that name the two files of an example."""
    return ["--banks", folder / "banks.csv", "--debts", folder / "debts.csv"]


class Case(unittest.TestCase):
    """A test with a folder of its own, which goes with it."""

    maxDiff = 2000
    WAIT = 60.0  # seconds that a test waits for something; the machine may be busy with something else

    def setUp(self) -> None:
        """Makes the folder."""
        folder = tempfile.TemporaryDirectory()
        self.addCleanup(folder.cleanup)
        self.folder = pathlib.Path(folder.name)

    def file(self, name: str, content: Union[str, bytes, None] = None) -> pathlib.Path:
        """The path of a file of the test's folder, written first where there is a content."""
        path = self.folder / name
        if isinstance(content, str):
            content = content.encode()
        if content is not None:
            path.write_bytes(content)
        return path

    def executable(self, name: str, lines: str) -> pathlib.Path:
        """The path of a script of the shell in the test's folder, which may be run as a program."""
        path = self.file(name, "#!/bin/sh\n" + lines)
        path.chmod(0o755)
        return path

    def program(self, lines: str) -> None:
        """Has a script of the shell in the place of the program, for this test."""
        self.addCleanup(os.environ.__setitem__, "CLEARING", os.environ["CLEARING"])
        os.environ["CLEARING"] = str(self.executable("clearing", lines))

    def until(self, holds: Callable[[], object], seconds: Optional[float] = None) -> None:
        """Waits for something to hold, which fails where it does not."""
        self.assertTrue(comes(holds, self.WAIT if seconds is None else seconds), "it never came to be")

    def printed(self, *words: Word, statuses: Container[int] = (0,)) -> str:
        """What the program prints, which ends with 0 and without a message, or with another of some statuses."""
        done = clearing(*words)
        self.assertIn(done.returncode, statuses, (words, done.stderr))
        if done.returncode == 0:
            self.assertEqual(done.stderr, b"", words)
        return done.stdout.decode()

    def made(self, name: str, *words: Word) -> str:
        """What a tool prints, which ends with 0 and without a message."""
        done = tool(name, *words)
        self.assertEqual((done.returncode, done.stderr), (0, ""), words)
        return done.stdout

    def told(self, name: str, *words: Word, python: Optional[str] = None) -> str:
        """The summary that a tool tells on standard error; it ends with 0 and prints nothing else."""
        done = tool(name, *words, python=python)
        self.assertEqual((done.returncode, done.stdout), (0, ""), (words, done.stderr))
        return done.stderr

    def refused(self, name: str, status: int, message: str, *words: Word) -> None:
        """A tool ends with a status and a message that has these words, and prints nothing."""
        done = tool(name, *words)
        self.assertEqual((done.returncode, done.stdout), (status, ""), done.stderr)
        self.assertIn(message, done.stderr)
