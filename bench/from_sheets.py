#!/usr/bin/env python3
"""Times the way from sheets to a checked folder of evidence and a report, by the commands of docs/DATA.md, for each set
of sheets.

In:   --size N        so many banks has each set (60), and the set of many banks twenty times as many at most 1,000
      --only NAME     this set alone; may be repeated
Out:  CSV on standard output: what the set is, its banks and debts, and the seconds of each step: import, check, stands,
      evidence that is made, evidence that is checked, and the report. A step that fails ends the run with its message.

The environment variable CLEARING names the program, the repository's where it is not set.

Example:
    bench/from_sheets.py --only cents
"""
import argparse
import csv
import html
import os
import pathlib
import subprocess
import sys
import tempfile
import time
from typing import Dict, List, NamedTuple

ROOT = pathlib.Path(__file__).resolve().parents[1]
sys.path[:0] = [str(ROOT / "tests"), str(ROOT / "python" / "src")]

import sheets  # noqa: E402

STEPS = ("import", "check", "stands", "make evidence", "check evidence", "report")
MOST_BANKS = 1000


def tool(name: str) -> List[str]:
    """The words of a command of bin/, by the Python that runs this."""
    return [sys.executable, str(ROOT / "bin" / name)]


def commands_of(found: sheets.Sheets) -> Dict[str, List[str]]:
    """The commands of each step, in the folder of the sheets."""
    evidence = str(ROOT / "bin/clearing-evidence")
    case = ["--case", "case", "--keep-sources", "--currency=EUR", "--as-of=2026-01-31", f"--title={found.what}"]
    steps = [
        [*tool(found.tool), *found.words, *case],
        [*tool("clearing-case"), "check", "case"],
        [*tool("clearing-case"), "stands", "case"],
        [evidence, "make", "evidence", "--case", "case"],
        [evidence, "check", "evidence"],
        [*tool("clearing-report"), "case", "--out", "report.html"],
    ]
    return dict(zip(STEPS, steps))


def environment() -> Dict[str, str]:
    """The environment of a step: the Python that runs this comes first, as it has what reads workbooks."""
    path = os.pathsep.join([os.path.dirname(sys.executable), os.environ["PATH"]])
    return {**os.environ, "PATH": path, "PYTHONDONTWRITEBYTECODE": "1"}


class Done(NamedTuple):
    """A step: how long it took, and what it printed and told."""

    seconds: float
    printed: str
    told: str


def done_of(found: sheets.Sheets, folder: pathlib.Path) -> Dict[str, Done]:
    """All steps on sheets in a folder, one after another. Ends with a message where one fails, or where the report does
    not have a bank by its full name."""
    steps = {}
    for step, command in commands_of(found).items():
        start = time.monotonic()
        done = subprocess.run(command, cwd=folder, env=environment(), capture_output=True, encoding="utf-8")
        steps[step] = Done(round(time.monotonic() - start, 1), done.stdout, done.stderr)
        if done.returncode:
            sys.exit(f"{found.what}: {step} ends with {done.returncode}: {done.stderr or done.stdout}")
    page = (folder / "report.html").read_text(encoding="utf-8")
    if html.escape(found.full, quote=False) not in page:
        sys.exit(f"{found.what}: the report has no bank of the name {found.full}")
    return steps


def lines_in(path: pathlib.Path) -> int:
    """How many records a file has below its header."""
    with open(path, encoding="utf-8", newline="") as file:
        return sum(1 for _ in csv.reader(file)) - 1


def main() -> None:
    """The command."""
    parser = argparse.ArgumentParser(description=__doc__, formatter_class=argparse.RawDescriptionHelpFormatter)
    parser.add_argument("--size", type=int, default=60)
    parser.add_argument("--only", action="append", choices=list(sheets.SETS))
    asked = parser.parse_args()
    print("sheets,banks,debts", *STEPS, sep=",", flush=True)
    for name in asked.only or sheets.SETS:
        with tempfile.TemporaryDirectory() as place:
            folder = pathlib.Path(place)
            size = min(20 * asked.size, MOST_BANKS) if name == "many" else asked.size
            found = sheets.SETS[name](folder, size)
            taken = [done.seconds for done in done_of(found, folder).values()]
            counts = [lines_in(folder / "case" / f"{what}.csv") for what in ("banks", "debts")]
            print(found.what, *counts, *taken, sep=",", flush=True)


if __name__ == "__main__":
    main()
