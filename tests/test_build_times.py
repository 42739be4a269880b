"""bench/build.sh measures each crate on a copy: tried with a toolchain that only tells its calls."""
import os
import pathlib
import shutil
import subprocess
import unittest
from typing import Any, List, Tuple

from common import ROOT, Case

TOOLCHAIN = """#!/bin/sh
if [ "$*" = doc ]; then echo "$KIT/START-HERE.md"; exit; fi
if [ "$*" = "check --jobs 1" ] && [ -e "$KIT/../rattle-kept/work" ]; then
    echo "rt: begins with what a check kept in /elsewhere"
fi
echo "$(basename "$PWD"): $*" >>"$CALLS"
if [ "$*" = "check --jobs 1" ]; then
    mkdir -p out/incremental/kept
    parts="Rule:10 walk.first.Lts:12 walk.first.Proof.decls:15 walk.second.Lts.decls:16 contracts.walk.second.Key:18"
    for part in $parts; do
        touch -d "@$((1000000000 + ${part#*:}))" "out/incremental/kept/Rattle-low-proofs.${part%:*}.oantt"
    done
fi
echo "$PWD" >>"$CALLS.places"
[ "$(basename "$PWD") $*" != "$FAULTY" ] || { echo "a goal is left"; exit 1; }
"""


@unittest.skipUnless(pathlib.Path("/usr/bin/time").exists(), "GNU time is missing")
class BuildTimes(Case):
    def setUp(self):
        super().setUp()
        (self.folder / "bin").mkdir()
        self.file("bin/rt", TOOLCHAIN).chmod(0o755)
        self.root = self.folder / "repository"
        (self.root / "bench").mkdir(parents=True)
        shutil.copy(ROOT / "bench/build.sh", self.root / "bench")
        (self.root / "tools/dev").mkdir(parents=True)
        shutil.copy(ROOT / "tools/dev/crates.py", self.root / "tools/dev")
        (self.root / "crates.txt").write_text("top: low\nlow:\nbeside:\n")
        for name in ("top", "low", "beside"):
            (self.root / "crates" / name / "src").mkdir(parents=True)
            (self.root / "crates" / name / "out").mkdir()
            (self.root / "crates" / name / "src/lib.rt").write_text(
                "#[test]\nfn shows() {}\n" if name == "top" else "\n"
            )

    def run_with(
        self, *words: str, faulty: str = "", **more: Any
    ) -> Tuple["subprocess.CompletedProcess[str]", List[str]]:
        self.calls = self.file("calls", "")
        environment = {
            **os.environ,
            "CALLS": str(self.calls),
            "FAULTY": faulty,
            "KIT": str(self.folder / "kits/kit"),
            "PATH": f"{self.folder}/bin:/usr/bin:/bin",
            **more,
        }
        done = subprocess.run(
            [str(self.root / "bench/build.sh"), *words],
            env=environment,
            stdin=subprocess.DEVNULL,
            capture_output=True,
            encoding="utf-8",
        )
        return done, self.calls.read_text().splitlines()

    def test_crates_are_measured_lowest_first_on_a_copy(self):
        done, calls = self.run_with("--tests")
        self.assertEqual((done.returncode, done.stderr), (0, ""))
        self.assertEqual(
            calls,
            [
                "low: check --jobs 1",
                "low: lib",
                "top: check --jobs 1",
                "top: check --test --jobs 1",
                "beside: check --jobs 1",
            ],
        )
        lines, _, table = done.stdout.partition("\n\n")
        self.assertEqual(
            [line.split()[:2] for line in lines.splitlines()[1:-1]],
            [["low", "proofs"], ["low", "library"], ["top", "proofs"], ["top", "tests"], ["beside", "proofs"]],
        )
        self.assertEqual(lines.splitlines()[-1].split()[0], "all")
        self.assertEqual([line.split()[0] for line in table.splitlines()], ["minutes", "low", "top", "beside", "all"])
        self.assertNotIn(str(self.root), (self.folder / "calls.places").read_text())

    def test_edits_are_a_column_of_the_table(self):
        (self.root / "crates/top/must-fail").mkdir()
        (self.root / "crates/top/must-fail/one.edit").write_text("file: src/lib.rt\nold: shows\nnew: hides\n")
        spent = (
            TOOLCHAIN
            + 'if [ "$1" = must-fail ]; then [ -e "crates/$2/must-fail/one.edit" ] && awk "BEGIN { while (i++ <'
            ' 60000000) ; }"; fi\n'
        )
        self.file("bin/rt", spent).chmod(0o755)
        done, calls = self.run_with("--edits", "top")
        self.assertEqual((done.returncode, done.stderr), (0, ""))
        self.assertEqual(len([call for call in calls if call.endswith(": must-fail top")]), 1)
        rows = {line.split()[0]: line.split()[1:] for line in done.stdout.partition("\n\n")[2].splitlines()}
        proof, tests, edits, both = map(float, rows["top"])
        self.assertEqual((proof, tests), (0, 0))
        self.assertGreater(edits, 0)
        self.assertEqual((edits, rows["all"]), (both, rows["top"]))

    def test_what_is_named_is_told_and_what_is_below_built(self):
        done, calls = self.run_with("top")
        self.assertEqual(calls, ["low: check --jobs 1", "low: lib", "top: check --jobs 1"])
        self.assertEqual([line.split()[0] for line in done.stdout.splitlines()], ["crate", "top", "all"])

    def test_the_slowest_parts_are_told(self):
        done, _ = self.run_with("--slow", "2", "low")
        self.assertEqual((done.returncode, done.stderr), (0, ""))
        self.assertEqual(
            [line.split() for line in done.stdout.splitlines()[2:4]], [["walk::first", "5.0"], ["walk::second", "3.0"]]
        )
        self.assertEqual(len(done.stdout.splitlines()), 6)
        for words in (["--slow"], ["--slow", "low"]):
            self.assertEqual(self.run_with(*words)[0].returncode, 2)

    def test_what_is_begun_with_kept_work_is_marked(self):
        for name in ("kit", "rattle-kept/work"):
            (self.folder / "kits" / name).mkdir(parents=True)
        done, _ = self.run_with("low", BUILD_APART="yes")
        self.assertEqual(done.stdout.splitlines()[1].split()[:2], ["low", "proofs*"])
        self.assertIn("\n*: begun with what a check in another checkout kept", done.stdout)

    @unittest.skipIf(
        subprocess.run(["unshare", "--map-root-user", "--mount", "true"], capture_output=True).returncode,
        "mounts of one's own are not allowed here",
    )
    def test_kept_work_is_hidden(self):
        for name in ("kit", "rattle-kept/work"):
            (self.folder / "kits" / name).mkdir(parents=True)
        done, _ = self.run_with("low")
        self.assertEqual(
            (done.returncode, done.stdout.splitlines()[1].split()[:2]), (0, ["low", "proofs"]), done.stderr
        )
        self.assertNotIn("*", done.stdout)
        self.assertTrue((self.folder / "kits/rattle-kept/work").is_dir())

    def test_a_proof_that_fails_ends_it(self):
        done, _ = self.run_with(faulty="low check --jobs 1")
        self.assertEqual(done.returncode, 1)
        self.assertIn("a goal is left", done.stderr)
        for words in (["none"], ["--fast"]):
            self.assertEqual(self.run_with(*words)[0].returncode, 2)


if __name__ == "__main__":
    unittest.main()
