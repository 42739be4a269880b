#!/usr/bin/env python3
"""Runs the tests against an installed wheel that has the program: `tools/dev/test.sh --wheel FILE`, with further
words of run.py.

The wheel is installed into a virtual environment that sees the system's packages. The tests stand in a folder of
their own, which has the scripts of the tools, the examples, the documents and bench/, and neither sources of the
packages nor crates: what they import and run is the wheel's. Without names of modules all are run but those that
wheel.txt names with a reason. The folder goes at the end.

Ends as run.py does, and with 1 and a message where the wheel cannot be installed or has no program.
"""
import os
import pathlib
import shutil
import subprocess
import sys
import tempfile
from typing import Dict, List

HERE = pathlib.Path(__file__).resolve().parent
ROOT = HERE.parent
# What the tests read beside the packages.
FOLDERS = ["tests", "bin", "tools", "examples", "docs", "bench"]
FILES = ["README.md", "VERSION", "CHANGELOG.md", "CONTRIBUTING.md", "CITATION.cff"]
OPTIONS = ("--without", "--skips-fail", "--note")


def left_out() -> Dict[str, str]:
    """The modules that are not run against a wheel, each with its reason."""
    lines = (HERE / "wheel.txt").read_text(encoding="utf-8").splitlines()
    rows = [line.split(None, 1) for line in lines if line and not line.startswith("#")]
    return {name: reason for name, reason in rows}


def run(*words: object) -> None:
    """A step of the installation, without a network."""
    environment = {**os.environ, "PIP_NO_INDEX": "1", "PIP_DISABLE_PIP_VERSION_CHECK": "1"}
    done = subprocess.run([str(word) for word in words], env=environment, capture_output=True, encoding="utf-8")
    if done.returncode:
        sys.exit(f"wheel.py: {' '.join(map(str, words))}: {done.stdout[-2000:]}{done.stderr[-2000:]}")


def install(wheel: pathlib.Path, place: pathlib.Path) -> pathlib.Path:
    """Installs a wheel into a virtual environment, and gives the folder of its packages."""
    run(sys.executable, "-m", "venv", "--system-site-packages", place)
    run(place / "bin/pip", "install", "--quiet", "--no-deps", wheel)
    found = sorted(place.glob("lib/python3*/site-packages/clearing_client/bin/clearing"))
    if not found:
        sys.exit(f"wheel.py: {wheel} has no program")
    return found[0].parents[2]


def lay_out(place: pathlib.Path, packages: pathlib.Path) -> None:
    """The folder in which the tests stand. Where a checkout has the sources, a link leads to the packages that are
    installed."""
    for name in FOLDERS:
        shutil.copytree(ROOT / name, place / name, symlinks=True, ignore=shutil.ignore_patterns("__pycache__"))
    for name in FILES:
        shutil.copy(ROOT / name, place / name)
    (place / "python").mkdir()
    (place / "python/src").symlink_to(packages)


def modules_of(words: List[str]) -> List[str]:
    """The modules that the words leave to this: none where they name some, else all but those of wheel.txt."""
    beside = [word for at, word in enumerate(words) if at == 0 or words[at - 1] not in OPTIONS]
    if any(not word.startswith("-") for word in beside):
        return []
    return [name for name in sorted(path.stem for path in HERE.glob("test_*.py")) if name not in left_out()]


def main() -> int:
    """Installs the wheel, lays out the folder, and runs the tests there."""
    wheel, words = pathlib.Path(sys.argv[1]).resolve(), sys.argv[2:]
    with tempfile.TemporaryDirectory() as folder:
        # Tests of what another user may do run tools and the program as one.
        os.chmod(folder, 0o755)
        packages = install(wheel, pathlib.Path(folder, "venv"))
        place = pathlib.Path(folder, "root")
        place.mkdir()
        lay_out(place, packages)
        environment = {**os.environ, "CLEARING": str(packages / "clearing_client/bin/clearing")}
        environment.pop("PYTHONPATH", None)
        tests = [pathlib.Path(folder, "venv/bin/python3"), place / "tests/run.py", *words, *modules_of(words)]
        return subprocess.run(list(map(str, tests)), cwd=place / "tests", env=environment).returncode


if __name__ == "__main__":
    sys.exit(main())
