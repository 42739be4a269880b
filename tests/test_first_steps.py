"""Who has no program yet is told so at once, with both ways on, and nothing is built that nobody asked for: in a
small repository with the packages, whose toolchain notes its calls."""
import os
import pty
import shlex
import shutil
import subprocess
import sys
import time
import unittest
from typing import Any

from common import CHAIN, PACKAGES, PROGRAM, ROOT, Word, files_of, run_of
from launcher import LauncherCase

FILES = files_of(CHAIN)
WAYS = (
    "to have the program install the wheel of a release: pip install FILE.whl",
    "or build it in the repository: ./clearing, or this command with --build",
)
# It links the tested program.
LINKS = f'exec {shlex.quote(PROGRAM)} "$@"'


class FirstSteps(LauncherCase):
    def setUp(self):
        super().setUp()
        self.rt.write_text(self.rt.read_text().replace("echo 'echo \"$*\" here'", 'echo "$LINKS"'))
        shutil.copytree(PACKAGES, self.root / "python/src", ignore=shutil.ignore_patterns("__pycache__"))
        shutil.copytree(CHAIN, self.root / "examples/chain")
        shutil.copytree(ROOT / "bin", self.root / "bin")
        self.environment = {
            **{key: value for key, value in os.environ.items() if key not in ("CLEARING", "PYTHONPATH")},
            "CALLS": str(self.calls),
            "TIMES": str(self.times),
            "PATH": f"{self.folder}/bin:/usr/bin:/bin",
            "LINKS": LINKS,
            "PYTHONDONTWRITEBYTECODE": "1",
        }

    def ask(self, name: str, *words: Word, **more: Any) -> "subprocess.CompletedProcess[str]":
        run = [*run_of(name)[:-1], str(self.root / "bin" / name), *map(str, words)]
        return subprocess.run(
            run,
            env=self.environment,
            stdin=subprocess.DEVNULL,
            capture_output=True,
            encoding="utf-8",
            timeout=120,
            **more,
        )

    def test_a_tool_says_at_once_that_there_is_no_program_and_builds_nothing(self):
        for name, words in [
            ("clearing-breaking", FILES),
            ("clearing-report", [*FILES, "--out", self.folder / "r.html"]),
            ("clearing-rescues", FILES),
            ("clearing-evidence", ["make", self.folder / "evidence", *FILES]),
        ]:
            done = self.ask(name, *words)
            self.assertEqual((done.returncode, done.stdout, self.calls.read_text()), (8, "", ""), (name, done.stderr))
            self.assertIn("there is no program yet, since it is not there", done.stderr)
            for way in WAYS:
                self.assertIn(way, done.stderr, name)
        # Nor do many jobs build it, each of which would wait for it, nor a batch script for a cluster.
        line = "\t".join(["a", "clear", *map(str, FILES)])
        self.file("jobs.tsv", line + "\n")
        for words in (["run", "jobs.tsv", "out"], ["one", "jobs.tsv", "out", "1"], ["slurm", "jobs.tsv", "out"]):
            for named in (None, str(self.root / "clearing")):
                environment = self.environment if named is None else {**self.environment, "CLEARING": named}
                given = {"stdin": subprocess.DEVNULL, "capture_output": True, "encoding": "utf-8", "timeout": 120}
                done = subprocess.run(
                    [str(self.root / "bin/clearing-many"), *words], cwd=self.folder, env=environment, **given
                )
                told = (done.returncode, done.stdout, self.calls.read_text())
                self.assertEqual(told, (8, "", ""), (words, done.stderr))
                why = "there is no program yet, since it is not there"
                for line in (why, WAYS[0], "or build it in the repository: ./clearing;"):
                    self.assertIn(f"clearing-many: {line}", done.stderr)
        self.assertFalse((self.folder / "out").exists())
        # Nor where the repository's script is named, which would begin it.
        self.environment["CLEARING"] = str(self.root / "clearing")
        done = self.ask("clearing-breaking", *FILES)
        self.assertEqual((done.returncode, done.stdout, self.calls.read_text()), (8, "", ""), done.stderr)
        self.assertIn("there is no program yet, since it is not there", done.stderr)
        # Nor where one is named that there is not.
        self.environment["CLEARING"] = "clearing"
        done = self.ask("clearing-breaking", *FILES)
        self.assertEqual((done.returncode, WAYS[0] in done.stderr), (8, True), done.stderr)

    def test_it_builds_where_that_is_said(self):
        done = self.ask("clearing-breaking", *FILES, "--build")
        self.assertEqual(done.returncode, 0, done.stderr)
        self.assertTrue(done.stdout.startswith("bank,cut,state\n"), done.stdout)
        self.assertIn("clearing: building the program, since it is not there", done.stderr)
        built = self.calls.read_text()
        self.assertIn("clear_main: run", built)
        # Then it is there, and the word does no harm.
        for words in ([], ["--build"]):
            self.assertEqual(
                (self.ask("clearing-breaking", *FILES, *words).returncode, self.calls.read_text()), (0, built)
            )
        # Sources that changed are told, and not built either.
        (self.root / "crates/low/src/main.rt").write_text("fn other() {}\n")
        done = self.ask("clearing-breaking", *FILES)
        self.assertEqual((done.returncode, self.calls.read_text()), (8, built), done.stderr)
        self.assertIn("there is no program yet, since its sources have changed", done.stderr)

    def test_at_a_terminal_it_asks(self):
        for answer, status in ((b"n\n", 8), (b"\n", 8), (b"y\n", 0)):
            child, terminal = pty.fork()
            if not child:
                os.execve(
                    sys.executable,
                    [sys.executable, str(self.root / "bin/clearing-breaking"), *map(str, FILES)],
                    self.environment,
                )
            seen = b""
            while b"[y/N]" not in seen:
                seen += os.read(terminal, 1000)
            self.assertIn(b"there is no program yet", seen)
            self.assertEqual(self.calls.read_text(), "")
            os.write(terminal, answer)
            try:
                while block := os.read(terminal, 1000):
                    seen += block
            except OSError:
                pass
            self.assertEqual(os.waitstatus_to_exitcode(os.waitpid(child, 0)[1]), status, seen)
            os.close(terminal)

    def test_help_answers_at_once(self):
        for script in ("clearing", "first-look"):
            shutil.copy(ROOT / script, self.root)
            for word in ("--help", "-h"):
                began = time.monotonic()
                done = subprocess.run(
                    [str(self.root / script), word],
                    env=self.environment,
                    stdin=subprocess.DEVNULL,
                    capture_output=True,
                    encoding="utf-8",
                )
                self.assertEqual((done.returncode, done.stderr, self.calls.read_text()), (0, "", ""), script)
                self.assertIn("Ends with the program's status, or with 8", done.stdout)
                self.assertLess(time.monotonic() - began, 10)


if __name__ == "__main__":
    unittest.main()
