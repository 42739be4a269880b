"""tools/dev/clean.sh removes what builds left, and nothing else: tried in a small repository."""
import os
import shutil
import subprocess
import unittest
from typing import Any, Set

from common import ROOT, Case

BIG = b"x" * 3 * 1024 * 1024


class Clean(Case):
    def setUp(self):
        super().setUp()
        self.root = self.folder / "a repository"
        (self.root / "tools/dev").mkdir(parents=True)
        shutil.copy(ROOT / "tools/dev/clean.sh", self.root / "tools/dev")
        for name in ("low", "clear_main", "un built"):
            (self.root / "crates" / name / "src").mkdir(parents=True)
            (self.root / "crates" / name / "src/main.rt").write_text("")
        for name in ("low", "clear_main"):
            (self.root / "crates" / name / "out/rlib").mkdir(parents=True)
            (self.root / "crates" / name / "out/rlib/stamp").write_bytes(BIG)
        self.kept = self.folder / "cache/clearing-first-look"
        (self.kept / "sum").mkdir(parents=True)
        (self.kept / "sum/first-look").write_bytes(BIG)
        (self.folder / "cache/other").mkdir()
        (self.folder / "cache/other/file").write_text("")
        # What must stay, although its name or place is like the ones that go.
        for path in ("out/file", "crates/out/src/file", "docs/out/file", "crates/low/src/out/file"):
            (self.root / path).parent.mkdir(parents=True, exist_ok=True)
            (self.root / path).write_text("")

    def ran(self, *words: str, **more: Any) -> "subprocess.CompletedProcess[str]":
        environment = {
            "PATH": "/usr/bin:/bin",
            "HOME": str(self.folder),
            "XDG_CACHE_HOME": str(self.folder / "cache"),
            **more,
        }
        return subprocess.run(
            [str(self.root / "tools/dev/clean.sh"), *words],
            env=environment,
            cwd=self.folder,
            stdin=subprocess.DEVNULL,
            capture_output=True,
            encoding="utf-8",
        )

    def files(self) -> Set[str]:
        return {str(path.relative_to(self.folder)) for path in self.folder.rglob("*")}

    def test_what_builds_left_goes_and_all_else_stays(self):
        before = self.files()
        done = self.ran()
        self.assertEqual((done.returncode, done.stderr), (0, ""))
        gone = {
            f"a repository/crates/{name}/out{rest}"
            for name in ("low", "clear_main")
            for rest in ("", "/rlib", "/rlib/stamp")
        }
        gone |= {f"cache/clearing-first-look{rest}" for rest in ("", "/sum", "/sum/first-look")}
        self.assertEqual(before - self.files(), gone)
        self.assertEqual(self.files() - before, set())

    def test_it_says_how_much(self):
        # A file with two names is counted once.
        os.link(self.root / "crates/low/out/rlib/stamp", self.root / "crates/clear_main/out/again")
        done = self.ran()
        self.assertRegex(done.stdout, r"^ +6\.\d MB  crates/clear_main/out\n")
        self.assertRegex(done.stdout.splitlines()[-1], r"^removed 9\.\d MB in 3 folders$")
        self.assertEqual(self.ran().stdout, "removed 0.0 MB in 0 folders\n")

    def test_a_dry_run_removes_nothing(self):
        before = self.files()
        done = self.ran("--dry-run")
        self.assertRegex(done.stdout.splitlines()[-1], r"^would remove 9\.\d MB in 3 folders$")
        self.assertEqual((done.returncode, self.files()), (0, before))

    def test_no_link_is_followed(self):
        elsewhere = self.folder / "elsewhere"
        for name in ("crate/out", "out", "inside", "kept"):
            (elsewhere / name).mkdir(parents=True)
            (elsewhere / name / "file").write_text("")
        (self.root / "crates/linked").symlink_to(elsewhere / "crate")
        (self.root / "crates/un built/out").symlink_to(elsewhere / "out")
        (self.root / "crates/low/out/inside").symlink_to(elsewhere / "inside")
        shutil.rmtree(self.kept)
        self.kept.symlink_to(elsewhere / "kept")
        done = self.ran()
        self.assertEqual(done.returncode, 0, done.stderr)
        self.assertEqual(len(list(elsewhere.rglob("file"))), 4)
        self.assertFalse((self.root / "crates/low/out").exists())
        for name in ("crates/linked", "crates/un built/out", str(self.kept)):
            self.assertIn(f"left: {name} is a link\n", done.stderr)
        # And where the folder of the crates is a link itself.
        (self.root / "crates").rename(self.folder / "moved")
        (self.folder / "moved/low/out").mkdir()
        (self.root / "crates").symlink_to(self.folder / "moved")
        self.assertEqual(self.ran().stdout, "removed 0.0 MB in 0 folders\n")
        self.assertTrue((self.folder / "moved/low/out").is_dir())

    def test_a_folder_for_what_is_kept_is_named_as_first_look_names_it(self):
        home = self.folder / ".cache/clearing-first-look"
        home.mkdir(parents=True)
        self.assertEqual(self.ran(XDG_CACHE_HOME="relative").returncode, 0)
        self.assertEqual((home.exists(), self.kept.exists()), (False, True))
        done = self.ran(XDG_CACHE_HOME="", HOME="")
        self.assertEqual((done.returncode, done.stderr, self.kept.exists()), (0, "", True))

    def test_while_a_build_goes_on_nothing_is_removed(self):
        for lock in (self.root / "crates/clear_main/out/build.lock", self.kept / "lock"):
            lock.write_text("")
            before = self.files()
            holding = subprocess.Popen(
                ["flock", str(lock), "sh", "-c", "echo; read line"], stdin=subprocess.PIPE, stdout=subprocess.PIPE
            )
            holding.stdout.readline()
            done = self.ran()
            holding.communicate(b"\n")
            self.assertEqual((done.returncode, self.files()), (1, before))
            self.assertIn("a build is going on", done.stderr)

    def test_other_words_are_refused(self):
        before = self.files()
        for words in (["--force"], ["--dry-run", "low"], [""], [str(self.folder)]):
            done = self.ran(*words)
            self.assertEqual(
                (done.returncode, done.stdout, done.stderr), (2, "", "clean.sh: error: the only word is --dry-run\n")
            )
        self.assertEqual(self.files(), before)
        self.assertIn("tools/dev/clean.sh [--dry-run]", self.ran("--help").stdout)


if __name__ == "__main__":
    unittest.main()
