"""tests/system/races.sh judges each run by others: it finds nothing wrong with the program, and something with one
that lies."""
import os
import re
import subprocess
from typing import List, Tuple

from common import PROGRAM, ROOT, Case, Word, needs

# A program that changes what it prints where it is asked for the payments and the journal.
LIAR = """#!/bin/sh
case "$*" in
*"--show both"*) "{program}" "$@" | sed '{change}' ;;
*) exec "{program}" "$@" ;;
esac
"""

# And one that says something else each time where the threads are its own.
FICKLE = """#!/bin/sh
case "$1" in
breaking | impact | rescues | outcomes) echo "$$" ;;
esac
exec "{program}" "$@"
"""


@needs("cc")
class Races(Case):
    def races(self, program: Word, runs: int) -> Tuple[int, List[str]]:
        environment = {
            **os.environ,
            "CLEARING": str(program),
            "PYTHONDONTWRITEBYTECODE": "1",
            "TMPDIR": str(self.folder),
        }
        done = subprocess.run(
            [str(ROOT / "tests/system/races.sh"), str(runs), "1"],
            env=environment,
            stdin=subprocess.DEVNULL,
            capture_output=True,
            encoding="utf-8",
        )
        return done.returncode, done.stdout.splitlines()

    def test_runs_that_are_shaken_are_right(self):
        status, lines = self.races(os.path.realpath(PROGRAM), 24)
        self.assertEqual((status, lines[-1]), (0, "24 runs, 0 wrong"))
        self.assertEqual(sum(int(line.split()[0]) for line in lines[:-2]), 24)

    def test_a_journal_or_payments_that_are_wrong_are_found(self):
        for change in ("2s/[0-9]*$/77777/", "/^stamp,/{n;d}", "s/^rounds,.*/rounds,9999999/"):
            program = self.file("liar", LIAR.format(program=os.path.realpath(PROGRAM), change=change))
            program.chmod(0o755)
            status, lines = self.races(program, 12)
            self.assertEqual(status, 1, lines)
            wrong = re.fullmatch("12 runs, ([0-9]+) wrong", lines[-1])
            self.assertGreaterEqual(int(wrong[1]), 5, lines)

    def test_a_task_on_threads_of_its_own_that_says_something_else_is_found(self):
        program = self.file("fickle", FICKLE.format(program=os.path.realpath(PROGRAM)))
        program.chmod(0o755)
        status, lines = self.races(program, 48)
        self.assertEqual(status, 1, lines)
        told = [line for line in lines if "another text than undisturbed" in line]
        self.assertTrue(told and len(told) == int(lines[-1].split()[2]), lines)
