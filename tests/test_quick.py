"""tools/dev/quick.sh checks the crates that are named and what stands on them: tried with a toolchain that only tells
its calls."""
import os
import shutil
import subprocess
from typing import List

from common import ROOT, Case

TOOLCHAIN = """#!/bin/sh
echo "$(basename "$PWD"): $*" >>"$CALLS"
case "$(basename "$PWD") $*" in "$FAULTY") echo "a goal is left"; exit 1 ;; esac
"""


class Quick(Case):
    def setUp(self):
        super().setUp()
        (self.folder / "bin").mkdir()
        rt = self.file("bin/rt", TOOLCHAIN)
        rt.chmod(0o755)
        self.root = self.folder / "repository"
        (self.root / "tools/dev").mkdir(parents=True)
        for name in ("quick.sh", "crates.py"):
            shutil.copy(ROOT / "tools/dev" / name, self.root / "tools/dev")
        (self.root / "crates.txt").write_text("top: middle low # the last\nmiddle: low csv\nlow:\nbeside:\n")
        for name in ("top", "middle", "low", "beside"):
            (self.root / "crates" / name / "src").mkdir(parents=True)
        (self.root / "crates/low/must-fail").mkdir()
        (self.root / "crates/low/must-fail/wrong.edit").write_text("")
        (self.root / "crates/middle/src/lib.rt").write_text("#[test]\nfn shows() {}\n")

    def run_with(self, *words: str, faulty: str = "none", path: bool = True) -> "subprocess.CompletedProcess[str]":
        self.calls = self.file("calls", "")
        environment = {
            **os.environ,
            "CALLS": str(self.calls),
            "FAULTY": faulty,
            "PATH": (f"{self.folder}/bin:" if path else "") + "/usr/bin:/bin",
        }
        return subprocess.run(
            [str(self.root / "tools/dev/quick.sh"), *words],
            env=environment,
            stdin=subprocess.DEVNULL,
            capture_output=True,
            encoding="utf-8",
        )

    def called(self) -> List[str]:
        return self.calls.read_text().splitlines()

    def test_a_crate_and_what_stands_on_it_are_checked_lowest_first(self):
        done = self.run_with("low")
        self.assertEqual(done.returncode, 0, done.stderr)
        self.assertEqual(
            self.called(),
            ["low: check --jobs 1", "repository: must-fail low", "middle: check --jobs 1", "top: check --jobs 1"],
        )
        self.assertRegex(done.stdout, r"\n4 steps passed, 0 failed in \d+ s\n$")
        self.run_with("middle", "beside")
        self.assertEqual(
            sorted(self.called()),
            ["beside: check --jobs 1", "middle: check --jobs 1", "middle: test", "top: check --jobs 1"],
        )

    def test_edits_and_crates_above_can_be_left_out(self):
        self.run_with("--no-edits", "--no-above", "low")
        self.assertEqual(self.called(), ["low: check --jobs 1"])

    def test_a_crate_that_fails_is_told_and_what_stands_on_it_left_out(self):
        done = self.run_with("low", "beside", faulty="middle check --jobs 1")
        self.assertEqual(done.returncode, 1)
        self.assertIn("middle: proofs FAILED", done.stdout)
        self.assertIn("top: left out", done.stdout)
        self.assertIn("beside: proofs", done.stdout)
        self.assertIn("3 steps passed, 1 failed", done.stdout)
        self.assertIn("a goal is left", done.stderr)
        self.assertEqual(self.run_with("low", faulty="repository must-fail low").returncode, 1)

    def test_other_words_are_refused(self):
        for words in ([], ["nothing"], ["l.w"], ["--fast", "low"]):
            done = self.run_with(*words)
            self.assertEqual((done.returncode, self.called()), (2, []))
            self.assertIn("quick.sh: error:", done.stderr)
        self.assertIn("CRATE..", self.run_with("--help").stdout)
        self.assertIn("not on the path", self.run_with("low", path=False).stderr)
