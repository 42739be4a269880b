"""What the scripts of tests/system ended with is a line of docs/runs.tsv where it is asked for, and only then."""
import hashlib
import os
import pathlib
import re
import shutil
import signal
import subprocess
import time
from typing import List, Optional, Tuple

from common import PROGRAM, ROOT, Case, Word, needs

HEADER = "date\tcommit\tprogram\tscript\targuments\tcases\twrong"
# A program that changes the payments.
LIAR = """#!/bin/sh
"{program}" "$@" | sed '2s/[0-9]*$/77777/'
"""


@needs("git", "cc")
class Records(Case):
    def setUp(self):
        super().setUp()
        self.root = self.folder / "repository"
        self.root.mkdir()
        for path in ROOT.iterdir():
            if path.name not in (".git", "docs", "tests"):
                (self.root / path.name).symlink_to(path)
        shutil.copytree(ROOT / "tests/system", self.root / "tests/system")
        (self.root / "docs").mkdir()
        self.runs = self.root / "docs/runs.tsv"
        self.git("init", "--quiet")
        self.git("add", "--all")
        self.git("commit", "--quiet", "--message", "x")
        self.program = os.path.realpath(PROGRAM)

    def git(self, *words: str) -> str:
        done = subprocess.run(
            ["git", "-c", "user.name=a", "-c", "user.email=a@b", *words],
            cwd=self.root,
            check=True,
            capture_output=True,
            encoding="utf-8",
            env={**os.environ, "GIT_CONFIG_GLOBAL": os.devnull},
        )
        return done.stdout.strip()

    def started(self, script: str, *words: str, program: Optional[Word] = None) -> "subprocess.Popen[str]":
        environment = {
            **os.environ,
            "CLEARING": program or self.program,
            "TMPDIR": str(self.folder),
            "PYTHONDONTWRITEBYTECODE": "1",
        }
        return subprocess.Popen(
            [str(self.root / "tests/system" / script), *words],
            env=environment,
            stdin=subprocess.DEVNULL,
            stdout=subprocess.PIPE,
            stderr=subprocess.STDOUT,
            encoding="utf-8",
            start_new_session=True,
        )

    def ran(self, script: str, *words: str, program: Optional[Word] = None) -> Tuple[int, str]:
        """The status and the last line of a script."""
        process = self.started(script, *words, program=program)
        text = process.communicate()[0]
        return process.returncode, text.splitlines()[-1]

    def rows(self) -> List[List[str]]:
        lines = self.runs.read_text(encoding="utf-8").splitlines()
        self.assertEqual(lines[0], HEADER)
        return [line.split("\t") for line in lines[1:]]

    def test_each_script_that_came_to_its_end_has_a_line(self):
        digest = hashlib.sha256(pathlib.Path(self.program).read_bytes()).hexdigest()
        expected = []
        for script, *words in (
            ["compare.sh", "2", "7"],
            ["compare.sh", "--wide", "1", "12"],
            ["races.sh", "12", "1"],
            ["edge.sh", "words"],
            ["allocations.sh", "check", "gen"],
            ["same_build.sh", digest, self.program],
        ):
            with self.subTest(script=script):
                status, last = self.ran(script, "--record", *words)
                self.assertEqual(status, 0, last)
                cases = re.search("([0-9]+) (cases|runs)", last)
                expected.append(
                    [
                        time.strftime("%Y-%m-%d", time.gmtime()),
                        self.git("rev-parse", "HEAD"),
                        digest,
                        script,
                        " ".join(words),
                        cases[1] if cases else "1",
                        "0",
                    ]
                )
                self.assertEqual(self.rows(), expected)

    def test_without_being_asked_nothing_is_written(self):
        self.assertEqual(self.ran("compare.sh", "1")[0], 0)
        self.assertEqual(self.ran("edge.sh", "words")[0], 0)
        self.assertFalse(self.runs.exists())

    def test_what_is_wrong_is_counted_and_a_changed_file_is_told(self):
        program = self.file("liar", LIAR.format(program=self.program))
        program.chmod(0o755)
        (self.root / "tests/system/new.txt").write_text("x")
        status, last = self.ran("compare.sh", "--record", "2", "7", program=str(program))
        self.assertEqual((status, last.split(", ")[2]), (1, "2 networks differ"))
        self.assertEqual(self.ran("same_build.sh", "--record", "0" * 64, str(program))[0], 1)
        rows = self.rows()
        self.assertEqual([row[1] for row in rows], [self.git("rev-parse", "HEAD") + "+"] * 2)
        self.assertEqual([row[2] for row in rows], [hashlib.sha256(program.read_bytes()).hexdigest()] * 2)
        self.assertEqual([(row[3], row[6]) for row in rows], [("compare.sh", "2"), ("same_build.sh", "1")])

    def test_what_is_wrong_beyond_the_standard_limits_is_seen(self):
        """A network that owes more than the standard limits allow: by the wide ones a payment is other, or it is
        refused; and by the standard ones it is accepted, or refused at another row."""
        true, row = '"$0.true" "$@"', r"s/row \([0-9]*\)/row 1\1/"
        for lie in (
            f"*wide*) exec {true} | sed '2s/[0-9]*$/77777/'",
            '*wide*) exec "$0.true" check --banks banks.csv --debts debts.csv',
            f"*wide*) ;; *) exec {true} --limits wide",
            f"*wide*) ;; *) {true} 2>told; s=$?; sed '{row}' told >&2; exit $s",
        ):
            with self.subTest(lie=lie):
                program = self.executable("liar", f'case "$*" in {lie} ;; esac\nexec "$0.true" "$@"\n')
                shutil.copy(self.program, f"{program}.true")
                status, last = self.ran("compare.sh", "--wide", "1", "12", program=str(program))
                self.assertEqual((status, last.split(", ")[2]), (1, "1 networks differ"))

    def test_the_quicker_ways_of_the_model_are_held_against_the_plain_ones(self):
        path = self.root / "tests/system/quick.py"
        text = path.read_text(encoding="utf-8")
        for right, wrong in (
            ("units in (0, self.sum)", "units in (0, self.sum - 1)"),
            ("has * keep // 1000", "has * keep // 1001"),
            ("rounds += 1", "rounds += 2"),
            ("if sum(before(level)) <= units else", "if sum(before(level)) < units + 2 else"),
        ):
            with self.subTest(wrong=wrong):
                self.assertIn(right, text)
                path.write_text(text.replace(right, wrong), encoding="utf-8")
                status, last = self.ran("compare.sh", "1", "7")
                self.assertEqual((status, last.split(", ")[2]), (1, "1 networks differ"))

    def test_what_was_interrupted_has_no_line(self):
        # Each is interrupted once it has begun to try.
        for script, number, begun in (
            ("compare.sh", "100000", "network/got"),
            ("races.sh", "100000", "network/journal.csv"),
            ("allocations.sh", "200", "count"),
        ):
            process = self.started(script, "--record", number)
            while not any(self.folder.glob(f"tmp.*/{begun}")) and process.poll() is None:
                time.sleep(0.1)
            os.killpg(process.pid, signal.SIGINT)
            text = process.communicate(timeout=120)[0]
            self.assertRegex(text.splitlines()[-1], "^[0-9]+ ", text)
            self.assertFalse(self.runs.exists(), text)
