"""The runner of the tests itself: what it counts as passed, failed and skipped."""
import ast
import os
import subprocess
import sys
import unittest.mock
from typing import List, Tuple

import common
from common import ROOT, Case, Word
from pythons import python_with

GOOD = "import unittest\n\nclass Good(unittest.TestCase):\n    def test_good(self):\n        pass\n"
SKIPPED = GOOD + '\n    @unittest.skip("no moon")\n    def test_moon(self):\n        pass\n'
BAD = (
    GOOD
    + "\n    def test_bad(self):\n        for at in range(3):\n            with self.subTest(at=at):\n               "
    " self.assertEqual(at, 0)\n"
)
SKIPPED_IN_PARTS = (
    GOOD
    + """
    def test_tides(self):
        for sea in ("a.b", "c: d"):
            with self.subTest(sea=sea):
                self.skipTest("no moon")
"""
)
SKIPPED_CLASS = """import unittest
class Good(unittest.TestCase):
    @classmethod
    def setUpClass(cls):
        raise unittest.SkipTest("no moon")

    def test_a(self):
        pass
"""
OF_CLASS = (
    "import unittest\n\nclass Bad(unittest.TestCase):\n    @classmethod\n    def setUpClass(cls):\n        raise"
    " OSError\n\n    def test_a(self):\n        pass\n"
)
BROKEN = "import no_such_module\n"
GONE = "import os\nos._exit(3)\n"
# A module that waits for a program which waits for another.
HANGS = """import pathlib, subprocess, unittest
class Hangs(unittest.TestCase):
    def test_it_waits(self):
        subprocess.run(["sh", "-c", "sleep 600 & echo $! >begun; wait"], cwd=pathlib.Path(__file__).parent)
"""


class Run(Case):
    def setUp(self):
        super().setUp()
        self.seconds = 300
        self.device = self.file("device", "")
        self.device.chmod(0o666)

    def run_of(self, *words: Word, **modules: str) -> Tuple[int, List[str]]:
        """The status and the lines of a run of some modules of tests with some words."""
        text = (ROOT / "tests/run.py").read_text()
        for old, new in (('"/dev/null"', repr(str(self.device))), ("SECONDS = 3600 ", f"SECONDS = {self.seconds} ")):
            self.assertIn(old, text)
            text = text.replace(old, new)
        self.file("run.py", text)
        for name in ("ending.py", "pythons.py"):
            self.file(name, (ROOT / "tests" / name).read_text())
        for name, text in modules.items():
            self.file(f"test_{name}.py", text)
        environment = {**os.environ, "PYTHONDONTWRITEBYTECODE": "1"}
        done = subprocess.run(
            [sys.executable, str(self.folder / "run.py"), *map(str, words)],
            env=environment,
            capture_output=True,
            encoding="utf-8",
        )
        return done.returncode, done.stdout.splitlines()

    def test_a_skip_is_no_failure_and_has_its_reason(self):
        status, lines = self.run_of(a=GOOD, b=SKIPPED)
        self.assertEqual((status, lines[-1]), (0, "2 passed, 0 failed, 1 skipped"))
        self.assertEqual(lines[-2], "skipped: test_b.Good.test_moon: no moon")

    def test_without_a_skip_there_is_no_count_of_them(self):
        self.assertEqual(self.run_of(a=GOOD)[1][-1], "1 passed, 0 failed")

    def test_a_test_that_fails_counts_once(self):
        status, lines = self.run_of(a=GOOD, b=BAD)
        self.assertEqual((status, lines[-1]), (1, "2 passed, 1 failed"))

    def test_a_test_that_changes_the_mode_of_a_device_fails_and_the_mode_is_put_right(self):
        status, lines = self.run_of(a=GOOD.replace("pass", f"import os; os.chmod({str(self.device)!r}, 0o755)"))
        self.assertEqual((status, lines[-1]), (1, "0 passed, 1 failed"))
        self.assertIn(f"the mode of {self.device} was changed to 100755", "\n".join(lines))
        self.assertEqual(self.device.stat().st_mode & 0o777, 0o666)

    def test_what_breaks_off_is_a_failure(self):
        for text in (OF_CLASS, BROKEN, GONE, ""):
            status, lines = self.run_of(a=GOOD, b=text)
            self.assertEqual((status, lines[-1]), (1, "1 passed, 1 failed"), text)

    def test_a_module_that_hangs_is_ended_with_all_that_it_has_started_and_fails(self):
        self.seconds = 3
        status, lines = self.run_of(a=GOOD, b=HANGS)
        self.assertEqual((status, lines[-1]), (1, "1 passed, 1 failed"))
        self.assertIn("test_it_waits", lines[lines.index("test_b was ended after 3 seconds") - 1])
        self.until(lambda: not common.is_running(int((self.folder / "begun").read_text())))

    def test_a_skip_that_no_list_names_fails_on_request(self):
        status, lines = self.run_of("--skips-fail", self.file("skips.txt", "# none\n"), a=GOOD, b=SKIPPED)
        self.assertEqual((status, lines[-1]), (1, "2 passed, 1 failed"))
        self.assertEqual(lines[-2], "skipped, which no list allows: test_b.Good.test_moon: no moon")

    def test_a_skip_that_the_list_names_stays_a_skip(self):
        for line in ("test_b.Good.test_moon  there is none\n", "test_b.Good  there is none\n"):
            status, lines = self.run_of("--skips-fail", self.file("skips.txt", line), a=GOOD, b=SKIPPED)
            self.assertEqual((status, lines[-1]), (0, "2 passed, 0 failed, 1 skipped"), line)
            self.assertEqual(lines[-2], "skipped: test_b.Good.test_moon: no moon")
        # The list has names of tests, not beginnings of names, and a reason for each.
        for line in ("test_b.Good.test_mo  there is none\n", "test_b.Good.test_moon\n", "test_b.Go  none\n"):
            status, lines = self.run_of("--skips-fail", self.file("skips.txt", line), a=GOOD, b=SKIPPED)
            self.assertEqual((status, lines[-1]), (1, "2 passed, 1 failed"), line)

    def test_each_test_that_the_list_names_is_there(self):
        lines = (ROOT / "tests/skips.txt").read_text(encoding="utf-8").splitlines()
        names = [line.split()[0] for line in lines if not line.startswith("#")]
        self.assertTrue(names)
        for name in names:
            module, *inner = name.split(".")
            body = ast.parse((ROOT / f"tests/{module}.py").read_bytes()).body
            for part in inner:
                body = next((each.body for each in body if getattr(each, "name", None) == part), None)
                self.assertIsNotNone(body, name)

    def test_parts_and_classes_that_are_skipped_count_once(self):
        for text, name, passed in ((SKIPPED_IN_PARTS, "test_b.Good.test_tides", 2), (SKIPPED_CLASS, "test_b.Good", 1)):
            self.assertEqual(self.run_of(a=GOOD, b=text)[1][-1], f"{passed} passed, 0 failed, 1 skipped")
            status, lines = self.run_of("--skips-fail", self.file("skips.txt", ""), a=GOOD, b=text)
            self.assertEqual((status, lines[-1]), (1, f"{passed} passed, 1 failed"))
            self.assertTrue(lines[-2].startswith("skipped, which no list allows: "))
            status, lines = self.run_of("--skips-fail", self.file("skips.txt", f"{name}  none\n"), a=GOOD, b=text)
            self.assertEqual((status, lines[-1]), (0, f"{passed} passed, 0 failed, 1 skipped"))

    def test_a_note_stands_before_the_counts(self):
        status, lines = self.run_of("--note", "one", "--note", "two words", a=GOOD, b=SKIPPED)
        self.assertEqual((status, lines[-3:]), (0, ["one", "two words", "2 passed, 0 failed, 1 skipped"]))

    def test_faulty_words_run_nothing(self):
        for words in (["--skips-fail"], ["--note"], ["--skips-fail", self.folder / "none.txt"], ["--other", "x"]):
            status, lines = self.run_of(*words, a=GOOD)
            self.assertEqual((status, lines), (2, []), words)


class Shared(Case):
    """What the tests run by `common`."""

    def test_a_program_that_is_named_from_here_is_found_from_anywhere(self):
        (self.folder / "programs").mkdir()
        program = self.executable("programs/clearing", "exit 7\n")
        code = (
            "import os, sys, common; os.chdir('/'); print(os.environ['CLEARING']); "
            "sys.exit(common.clearing().returncode)"
        )
        path = os.pathsep.join(["programs", os.environ["PATH"]])
        for named in ("programs/clearing", "./programs/../programs/clearing", "clearing", str(program)):
            done = subprocess.run(
                [sys.executable, "-c", code],
                env={**os.environ, "CLEARING": named, "PATH": path, "PYTHONPATH": str(ROOT / "tests")},
                cwd=self.folder,
                capture_output=True,
                encoding="utf-8",
            )
            self.assertEqual((done.returncode, done.stdout), (7, f"{program}\n"), (named, done.stderr))

    def test_a_folder_that_a_package_has_left_behind_is_no_package(self):
        (self.folder / "left_behind").mkdir()
        self.file("still_there.py", "")
        with unittest.mock.patch.dict(os.environ, PYTHONPATH=str(self.folder)):
            self.assertIsNone(python_with("left_behind"))
            self.assertEqual(python_with("still_there"), sys.executable)

    def test_what_hangs_is_ended_with_all_that_it_has_started(self):
        """Also what stays where the one that has started it is gone, and holds its output open."""
        begun = self.folder / "begun"
        hangs = self.executable("hangs", f'(sleep 600 & echo $! >>"{begun}")\nsleep 600 & echo $! >>"{begun}"\nwait\n')
        for run in (lambda: common.clearing("check"), lambda: common.tool("clearing-lint")):
            begun.write_text("")
            with unittest.mock.patch.multiple(
                common, LONGEST=1, PROGRAM=str(hangs), run_of=lambda *_: [str(hangs)]
            ), self.assertRaisesRegex(subprocess.TimeoutExpired, "hangs.*timed out after 1 seconds"):
                run()
            started = list(map(int, begun.read_text().split()))
            self.assertEqual(len(started), 2)
            self.until(lambda: not any(map(common.is_running, started)))
