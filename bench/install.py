#!/usr/bin/env python3
"""How long it takes from a wheel with the program to the first answer, to a report and to the desk, where there was
nothing of it before.

    bench/install.py [--root FOLDER] [--python NAME] WHEEL

FOLDER is the userland of a distribution for this processor, such as debootstrap makes, with Python 3.9 or later and
its venv; what is done there is done by chroot, which wants root. Without it all is done on this machine. NAME is the
Python, python3 where none is named. Each way begins with an environment of its own, into which the wheel is installed
without a network, and ends where the answer is there:

  answer   the payments of the twelve banks
  report   their report, a page, by the jinja2 of the userland
  desk     the first page of their desk, by the bottle of the userland

Prints what the userland is and how many processes are at work on this machine, by its load of a minute; a line for each
way with its seconds by the clock, its seconds of a processor, and what came, or what the tool says is missing; and how
many commands tell their words by --help. Ends with 0 where all came, else with 1.
"""
import argparse
import os
import pathlib
import resource
import shutil
import subprocess
import sys
import tempfile
import time
import urllib.request
from typing import Callable, List, NamedTuple, Optional, Tuple

ROOT = pathlib.Path(__file__).resolve().parents[1]
BANKS = ROOT / "examples/twelve-banks"
ENVIRONMENT = {
    "PATH": "/usr/sbin:/usr/bin:/sbin:/bin",
    "HOME": "/",
    "LC_ALL": "C.UTF-8",
    "PYTHONDONTWRITEBYTECODE": "1",
}
# The folders of the system in a userland, for the run alone.
INSIDE = 'mount -t proc proc "$1/proc" && mount --rbind /dev "$1/dev" && exec chroot "$@"'
SECONDS = 60

Done = subprocess.CompletedProcess  # with texts
Came = Tuple[bool, str]
"""Whether an answer came, and what it is, or what was said in its place."""


class Userland(NamedTuple):
    """Where the wheel is installed: the folder of a distribution, or none for this machine; its Python; and a folder of
    it for all that is made, as it is seen from outside."""

    root: Optional[pathlib.Path]
    python: str
    place: pathlib.Path

    def inside(self, path: pathlib.Path) -> str:
        """The name that a file has in the userland."""
        return str(path if self.root is None else pathlib.Path("/") / path.relative_to(self.root))

    def words(self, words: List[str], alone: bool = False) -> List[str]:
        """A command there; `alone` is without a network, where this user may say so."""
        apart = ["--net"] if alone and os.geteuid() == 0 else []
        if self.root is None:
            return ["unshare", *apart, "--", *words] if apart else words
        return ["unshare", "--mount", *apart, "--", "sh", "-c", INSIDE, "sh", str(self.root), *words]

    def run(self, *words: str, alone: bool = False) -> "Done[str]":
        """A run there to its end."""
        return subprocess.run(
            self.words(list(words), alone),
            cwd="/",
            env=ENVIRONMENT,
            stdin=subprocess.DEVNULL,
            capture_output=True,
            encoding="utf-8",
        )

    def install(self, way: str, wheel: pathlib.Path) -> str:
        """An environment of its own with the wheel; gives the folder of its commands there."""
        there, file = self.inside(self.place / way), self.inside(self.place / wheel.name)
        for words in (
            [self.python, "-m", "venv", "--system-site-packages", there],
            [f"{there}/bin/pip", "install", "--no-index", "--disable-pip-version-check", file],
        ):
            done = self.run(*words, alone=True)
            if done.returncode:
                sys.exit(f"install.py: {' '.join(words)}: {done.stdout[-2000:]}{done.stderr[-2000:]}")
        return f"{there}/bin"

    def files(self) -> List[str]:
        """The words that name the twelve banks."""
        names = ((kind, self.inside(self.place / f"{kind}.csv")) for kind in ("banks", "debts"))
        return [word for kind, name in names for word in (f"--{kind}", name)]


# The ways.


def said(done: "Done[str]") -> Came:
    """What a command told that failed."""
    return False, f"status {done.returncode}: {done.stderr.strip()[-500:]}"


def answer(land: Userland, commands: str) -> Came:
    """The payments."""
    done = land.run(f"{commands}/clearing", "clear", *land.files())
    return (True, f"{len(done.stdout.splitlines()) - 1} payments") if done.returncode == 0 else said(done)


def report(land: Userland, commands: str) -> Came:
    """The report's page."""
    page = land.place / "report.html"
    done = land.run(f"{commands}/clearing-report", *land.files(), "--out", land.inside(page))
    return (True, f"a page of {page.stat().st_size:,} bytes") if done.returncode == 0 else said(done)


def desk(land: Userland, commands: str) -> Came:
    """The desk's first page, as a browser asks for it."""
    process = subprocess.Popen(
        land.words([f"{commands}/clearing-desk", *land.files(), "--no-browser"]),
        cwd="/",
        env=ENVIRONMENT,
        stdin=subprocess.DEVNULL,
        stdout=subprocess.PIPE,
        stderr=subprocess.PIPE,
        encoding="utf-8",
    )
    with process:
        assert process.stdout is not None and process.stderr is not None
        try:
            link = next((line.split()[-1] for line in process.stdout if "http://" in line), None)
            if link is None:
                return False, f"status {process.wait()}: {process.stderr.read().strip()[-500:]}"
            with urllib.request.urlopen(link, timeout=SECONDS) as page:
                return True, f"a page of {len(page.read()):,} bytes"
        finally:
            process.terminate()


WAYS: List[Callable[[Userland, str], Came]] = [answer, report, desk]


def name_of(land: Userland) -> str:
    """The distribution, its C library and its Python."""
    names = f'. /etc/os-release; echo "$PRETTY_NAME, $(getconf GNU_LIBC_VERSION), $({land.python} --version)"'
    return land.run("sh", "-c", names).stdout.strip()


def worked() -> float:
    """The seconds of a processor that all runs took that have ended."""
    taken = resource.getrusage(resource.RUSAGE_CHILDREN)
    return taken.ru_utime + taken.ru_stime


def helped(land: Userland, commands: str) -> Came:
    """How many commands tell their words."""
    names = sorted(path.name for path in (land.place / "answer/bin").glob("clearing-*"))
    wrong = [name for name in names if land.run(f"{commands}/{name}", "--help").returncode]
    count = f"{len(names) - len(wrong)} of {len(names)} commands tell their words by --help"
    return not wrong, "; not ".join([count, *wrong])


def main() -> int:
    """Measures each way, and prints its line."""
    parser = argparse.ArgumentParser(description=__doc__, formatter_class=argparse.RawDescriptionHelpFormatter)
    parser.add_argument("wheel", metavar="WHEEL", type=pathlib.Path)
    parser.add_argument("--root", metavar="FOLDER", type=pathlib.Path)
    parser.add_argument("--python", metavar="NAME", default="python3")
    words = parser.parse_args()
    root = words.root and words.root.resolve()
    with tempfile.TemporaryDirectory(dir=root and root / "tmp") as folder:
        land = Userland(root, words.python, pathlib.Path(folder))
        for path in (words.wheel, *BANKS.glob("*.csv")):
            shutil.copy(path, land.place)
        size = words.wheel.stat().st_size
        print(f"{name_of(land)}; {words.wheel.name}, {size:,} bytes; load {os.getloadavg()[0]:.1f}", flush=True)
        all_came = True
        for way in WAYS:
            began, before = time.monotonic(), worked()
            came, what = way(land, land.install(way.__name__, words.wheel))
            clock = time.monotonic() - began
            print(f"{way.__name__}\t{clock:.1f} s\t{worked() - before:.1f} s\t{what}", flush=True)
            all_came = all_came and came
        came, what = helped(land, land.inside(land.place / "answer/bin"))
        print(what)
    return 0 if all_came and came else 1


if __name__ == "__main__":
    sys.exit(main())
