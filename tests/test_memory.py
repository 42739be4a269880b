"""A visit that finds no memory has passed the gate: tried with a toolchain that refuses one allocation.

The test `a_visit_without_memory_leaves_all_as_it_was` of the crate `run_tests` counts how often the gate is passed.
Only where an allocation of a visit fails does it meet a visit without memory, and says so. An allocation before that
is one of the test's own, and the test ends for want of memory. Each try builds the test anew, which takes a minute of
a processor."""
import functools
import shutil
import subprocess
import unittest
from typing import Any

from common import ROOT, Case

NAME = "a_visit_without_memory_leaves_all_as_it_was"
CRATE = ROOT / "crates/run_tests"

# The first allocation of the first visit, as the code is today. Another number is found by going on from here.
USUAL = 47
FARTHEST = 12
SAID = "the first visit found no memory"


@functools.cache
def outcome(number: int) -> Any:
    """How the test ends where the allocation of this number is refused: "visit" where the first visit met that,
    "memory" where the test itself did, "ok" where none before did, and "failed"."""
    done = subprocess.run(
        ["rt", "try", "--test", "--fail-alloc", str(number), "--", NAME],
        cwd=CRATE,
        stdin=subprocess.DEVNULL,
        capture_output=True,
        encoding="utf-8",
    )
    lines = done.stdout.splitlines()
    if f"test workers::{NAME} ... ok" in lines:
        return "visit" if SAID in done.stdout else "ok"
    if f"test workers::{NAME} ... FAILED" not in lines:
        raise AssertionError(f"rt try told nothing of {NAME}:\n{done.stdout}\n{done.stderr}")
    return "memory" if "    error: Mem" in lines else "failed"


@unittest.skipIf(shutil.which("rt") is None, "the toolchain's command rt is not on the path")
class Memory(Case):
    def test_a_visit_without_memory_has_passed_the_gate(self):
        number = USUAL
        while (ended := outcome(number)) in ("ok", "memory") and abs(number - USUAL) < FARTHEST:
            number += 1 if ended == "memory" else -1
        self.assertEqual(ended, "visit", f"with allocation {number} refused")


if __name__ == "__main__":
    unittest.main()
