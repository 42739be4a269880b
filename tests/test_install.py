"""`tools/install.sh` puts the program, the tools, the pages and the completions in place."""
import os
import pathlib
import re
import subprocess
import sys
from typing import Optional

from common import PROGRAM, ROOT, Case, Word


class Install(Case):
    def installed(self, *words: Word, program: Optional[Word] = None) -> "subprocess.CompletedProcess[str]":
        environment = {**os.environ, "CLEARING": program or self.script_that_tells()}
        run = [str(ROOT / "tools/install.sh"), *map(str, words)]
        return subprocess.run(run, env=environment, stdin=subprocess.DEVNULL, capture_output=True, encoding="utf-8")

    def script_that_tells(self) -> str:
        """A program to install: a script that hands its words on."""
        script = self.executable("program", 'echo "$*"\n')
        return str(script)

    def test_program_tools_pages_and_completion_are_put_in_place(self):
        prefix = self.folder / "a prefix"
        done = self.installed(prefix)
        self.assertEqual((done.returncode, done.stderr), (0, ""))
        names = ["bin/clearing", "share/man/man1/clearing.1", "share/bash-completion/completions/clearing"]
        told = done.stdout.splitlines()
        self.assertEqual(told[:3], [f"{prefix}/{name}" for name in names])
        self.assertEqual(subprocess.check_output([prefix / names[0], "gen"]), b"gen\n")
        self.assertEqual((prefix / names[1]).read_text(), (ROOT / "docs/clearing.1").read_text())
        self.assertEqual(sorted(told), sorted(str(path) for path in prefix.rglob("*") if not path.is_dir()))
        # The help names all of it, and nothing else.
        lines = self.installed("--help").stdout
        places = [
            f"{prefix}/{place.rstrip('.,;').partition('NAME')[0]}" for place in re.findall(r"PREFIX/(\S+)", lines)
        ]
        self.assertEqual([file for file in told if not file.startswith(tuple(places))], [])
        self.assertEqual([place for place in places if not any(file.startswith(place) for file in told)], [])
        for what in ("bash", "zsh", "fish", "Python package"):
            self.assertIn(what, lines.partition("\n")[0])
        self.assertTrue(" ".join(lines.split()).endswith("where the words are not understood."), lines)
        # A tool from there, by its own name, and one that runs the program.
        for folder in ("chain", "hub"):
            files = [
                word for kind in ("banks", "debts") for word in (f"--{kind}", ROOT / f"examples/{folder}/{kind}.csv")
            ]
            self.assertEqual(subprocess.check_output([prefix / "bin/clearing-lint", *files]), b"no fault\n")
        jobs = self.file("jobs.tsv", "a\tgen\t7\n")
        environment = {**os.environ, "CLEARING": ""}
        subprocess.run(
            [prefix / "bin/clearing-many", "run", jobs, self.folder / "out"],
            env=environment,
            check=True,
            capture_output=True,
        )
        self.assertEqual((self.folder / "out/a.out").read_text(), "gen 7\n")
        # A second time, over the first.
        self.assertEqual(self.installed(prefix).stdout, done.stdout)
        self.assertEqual(sorted(told), sorted(str(path) for path in prefix.rglob("*") if not path.is_dir()))

    def test_evidence_is_checked_by_the_program_beside_the_tools(self):
        prefix, evidence = self.folder / "prefix", self.folder / "evidence"
        built = ROOT / "crates/clear_main/out/clear_main"
        self.assertEqual(
            self.installed(prefix, program=built if pathlib.Path(PROGRAM) == ROOT / "clearing" else PROGRAM).returncode,
            0,
        )
        files = [word for kind in ("banks", "debts") for word in (f"--{kind}", ROOT / f"examples/chain/{kind}.csv")]
        environment = {**os.environ, "CLEARING": ""}
        subprocess.run(
            [prefix / "bin/clearing-evidence", "make", evidence, *files],
            env=environment,
            check=True,
            capture_output=True,
        )
        told = subprocess.check_output(
            [prefix / "bin/clearing-evidence", "check", evidence], env=environment, encoding="utf-8"
        )
        self.assertRegex(told, "(?m)^as it is, replayed by the program: lawful,2; payments same$")
        self.assertNotIn("none is built", told)

    def test_the_tools_know_the_number_of_the_release(self):
        prefix = self.folder / "prefix"
        self.assertEqual(self.installed(prefix).returncode, 0)
        code = "import sys; sys.path[:0] = sys.argv[1:]; from clearing_tools.runner import version; print(version())"
        packages = prefix / "share/clearing/python/src"
        told = subprocess.check_output([sys.executable, "-IBc", code, packages], encoding="utf-8")
        self.assertEqual(told, (ROOT / "VERSION").read_text())

    def test_what_cannot_be_written_is_said(self):
        done = self.installed(self.file("taken", "a file"))
        self.assertEqual((done.returncode, done.stdout), (1, ""))
        self.assertIn("cannot be written", done.stderr)
        self.assertEqual(self.installed("--prefix").returncode, 2)
        self.assertEqual(self.installed("a", "b").returncode, 2)
        self.assertIn("PREFIX", self.installed("--help").stdout)

    def test_a_prefix_without_a_name_is_refused(self):
        before = sorted(os.listdir("/usr/local/bin")) if os.path.isdir("/usr/local/bin") else None
        done = self.installed("", program="/no/such/program")
        self.assertEqual((done.returncode, done.stdout, done.stderr), (2, "", "install.sh: the prefix has no name\n"))
        self.assertEqual(sorted(os.listdir("/usr/local/bin")) if before is not None else None, before)

    def test_all_files_are_put_in_place_or_none(self):
        prefix = self.folder / "prefix"
        (prefix / "bin").mkdir(parents=True)
        (prefix / "bin/clearing").write_text("older")
        # The last file has a folder in its place.
        (prefix / "share/clearing/clearing").mkdir(parents=True)
        done = self.installed(prefix)
        self.assertEqual((done.returncode, done.stdout), (1, ""))
        self.assertIn("share/clearing/clearing cannot be written", done.stderr)
        self.assertEqual([path.name for path in prefix.rglob("*") if not path.is_dir()], ["clearing"])
        self.assertEqual((prefix / "bin/clearing").read_text(), "older")

    def test_the_program_is_not_put_over_itself(self):
        prefix = self.folder / "prefix"
        self.installed(prefix)
        done = self.installed(prefix, program=str(prefix / "bin/clearing"))
        self.assertEqual((done.returncode, done.stdout), (1, ""))
        self.assertIn("is the file that is to be installed", done.stderr)
        self.assertEqual(subprocess.check_output([prefix / "bin/clearing", "x"]), b"x\n")
