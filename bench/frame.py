"""What the scripts that measure share: their words, how they run and end, a Python with a module, and the place of a
table on a page."""
import argparse
import datetime
import hashlib
import os
import pathlib
import re
import subprocess
import sys
import tempfile
from typing import Callable, Iterable, List, Optional, Sequence, TypeVar

import inputs
import timing

ROOT = pathlib.Path(__file__).resolve().parents[1]


class Options(argparse.Namespace):
    """What a script was told: how often each job is run, the longest time of a run in seconds, and the named inputs."""

    runs: int
    limit: float
    inputs: List[str]


class PageOptions(Options):
    """What a script was told whose table stands on a page, and whether that is to be put there."""

    write: bool
    page: pathlib.Path


Told = TypeVar("Told", bound=Options)


def parser_of(name: str, usage: str, text: Optional[str], runs: bool = True) -> argparse.ArgumentParser:
    """A parser of a script by its name, with the option that those have which measure the clock."""
    kind = argparse.RawDescriptionHelpFormatter
    parser = argparse.ArgumentParser(prog=name, usage=f"bench/{name} {usage}", description=text, formatter_class=kind)
    if runs:
        parser.add_argument("--runs", type=int, default=5, metavar="N", help="how often each job is run (5)")
    return parser


def add_page(parser: argparse.ArgumentParser) -> None:
    """The options of a script whose table stands on a page."""
    parser.add_argument(
        "--limit", type=float, default=120, metavar="SECONDS", help="the longest time of a run (120)"
    )
    parser.add_argument("--write", action="store_true", help="put the table into the page")
    parser.add_argument(
        "--page", type=pathlib.Path, default=ROOT / "docs/SPEED.md", metavar="FILE", help="the page (docs/SPEED.md)"
    )


def options_of(parser: argparse.ArgumentParser, words: List[str], options: Told) -> Told:
    """Puts into options what the words say. Faulty words end the script with 2."""
    parser.parse_intermixed_args(words, options)
    if options.runs < 1:
        parser.error("a run at least")
    return options


def check_networks(parser: argparse.ArgumentParser, names: List[str]) -> None:
    """Ends the script with 2 where names are not those of networks within the standard limits."""
    unknown = [name for name in names if name not in inputs.NETWORKS]
    if unknown:
        parser.error(f"no network {', '.join(unknown)}; there are {', '.join(sorted(inputs.NETWORKS))}")


def python_with(module: str, first: Optional[str] = None) -> Optional[str]:
    """A Python that has a module: the one that is named first, this one, or the system's; None where none has it."""
    for python in filter(None, (first, sys.executable, "/usr/bin/python3")):
        if os.access(python, os.X_OK):
            if subprocess.run([python, "-c", f"import {module}"], capture_output=True).returncode == 0:
                return python
    return None


def ended(name: str, work: Callable[[], None]) -> int:
    """The status of a script that does some work in a folder of its own: 1 with a message where it cannot be done."""
    try:
        with tempfile.TemporaryDirectory() as folder:
            os.chdir(folder)
            work()
    except (timing.Fault, OSError, subprocess.CalledProcessError) as fault:
        print(f"{name}: {fault}", file=sys.stderr)
        return 1
    return 0


class Page:
    """A page on which a script has a place, between two lines: what stands there is its table, with a line above it."""

    def __init__(self, path: pathlib.Path, name: str) -> None:
        """The page at a path with the place of a script; a Fault where there is no such place, or several."""
        self.path, self.text = path, path.read_text(encoding="utf-8")
        self.place = re.compile(rf"(?<=^<!-- bench/{name} -->\n).*?(?=^<!-- end -->$)", re.MULTILINE | re.DOTALL)
        if len(self.place.findall(self.text)) != 1:
            raise timing.Fault(f"{path} has no place for the table, or several")

    def table(self) -> str:
        """What stands in the place."""
        return "".join(self.place.findall(self.text))

    def put(self, made: str) -> None:
        """Puts a table into the place, and writes the page."""
        self.text = self.place.sub(lambda _: made, self.text)
        self.path.write_text(self.text, encoding="utf-8")


def git(*words: str) -> str:
    """What a command of git prints of this checkout, without the blanks round it."""
    return subprocess.run(["git", "-C", ROOT, *words], capture_output=True, encoding="utf-8").stdout.strip()


def source() -> str:
    """The commit of the sources, with a sign where they have changes beside it."""
    changed = git("status", "--porcelain", "--", "crates", "crates.txt", "bench")
    return (git("rev-parse", "--short=7", "HEAD") or "none") + "+" * bool(changed)


def said(program: str, runs: int, load: float) -> str:
    """The line above a table: the day, the program's file and the machine, with the load that it had before."""
    checksum = hashlib.sha256(pathlib.Path(program).read_bytes()).hexdigest()[:8]
    told = "one run" if runs == 1 else f"the least of {runs} runs by turns"
    return (
        f"{datetime.date.today()}, `{source()}`, the program `{checksum}`, {told} on {os.cpu_count()} processors, "
        f"which had a load of {load:.1f} before:"
    )


def markdown(heads: Sequence[str], rows: Iterable[Sequence[str]]) -> str:
    """A table of cells as Markdown: its heads, and rows of as many cells."""
    first, *others = ["| " + " | ".join(line) + " |\n" for line in (heads, *rows)]
    return first + "|---" * len(heads) + "|\n" + "".join(others)
