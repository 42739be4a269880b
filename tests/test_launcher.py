"""The script `./clearing` builds what has changed, and nothing else: tried in a small repository with a toolchain of
its own making."""
import os
import pathlib
import shutil
import signal
import subprocess
import time
import unittest
from typing import List

from launcher import NAMES, LauncherCase


class Launcher(LauncherCase):
    def test_it_is_built_once(self):
        self.built()
        # And then it needs no toolchain.
        self.quiet(self.root, path=False)
        self.assertEqual(self.builds(), 1)

    def steps(self) -> List[str]:
        return [
            line.removesuffix(" -- check --banks data/banks.csv --debts data/debts.csv")
            for line in self.calls.read_text().splitlines()
        ]

    def test_crates_that_do_not_stand_on_each_other_are_proved_side_by_side(self):
        done = self.run_at(self.root, SLOW="2")
        self.assertEqual(done.returncode, 0, done.stderr)
        # A crate that all others wait for has all jobs; and the tests are no part of the program.
        steps = self.steps()
        self.assertEqual(steps[0], "low: lib --jobs 2")
        self.assertEqual(sorted(steps[1:3]), ["left: lib --jobs 1", "right: lib --jobs 1"])
        # The program's own crate has one: a second job would read all anew.
        self.assertEqual(steps[3:], ["top: lib --jobs 2", "clear_main: run --jobs 1"])
        at = {tuple(line.split()[:2]): int(line.split()[2]) for line in self.times.read_text().splitlines()}
        self.assertLess(at["left", "begins"], at["right", "ends"])
        self.assertLess(at["right", "begins"], at["left", "ends"])
        # What was proved stands in the repository, and no copy of it elsewhere.
        for name in NAMES[:-1]:
            self.assertTrue((self.root / "crates" / name / "out/rlib/stamp").exists(), name)
        self.assertFalse((self.root / "crates/clear_main/out/build.parts").exists())

    def test_the_crate_on_which_the_build_waits_has_half_of_the_jobs(self):
        for name in ("one", "two", "three"):
            for part in ("src", "specs", "proofs"):
                (self.root / "crates" / name / part).mkdir(parents=True)
            (self.root / "crates" / name / "src/main.rt").write_text("")
        (self.root / "crates.txt").write_text(
            "low:\none:\ntwo:\nthree:\nleft: low\nright: low\ntop: left right one two three\nclear_main: top\n"
        )
        self.assertEqual(self.run_at(self.root, CLEARING_JOBS="4", SLOW="2").returncode, 0)
        # Four may be begun: the lowest of the longest way has two jobs, and two others have one each.
        steps = self.steps()
        self.assertIn("low: lib --jobs 2", steps[:3])
        self.assertEqual([step.split(": ")[1] for step in sorted(steps[:3])].count("lib --jobs 1"), 2)

    def test_a_crate_that_is_not_proved_ends_the_build(self):
        began = time.monotonic()
        done = self.run_at(self.root, WRONG="left", LONG="right", SLOW="1")
        self.assertEqual((done.returncode, done.stdout), (8, ""))
        # The crate beside it is ended, and does not hold the build up.
        self.assertLess(time.monotonic() - began, 40)
        self.ends()
        self.assertIn("the build failed", done.stderr)
        log = (self.root / "crates/clear_main/out/build.log").read_text()
        self.assertIn("left is not proved\nfailed left\n", log)
        self.assertNotIn("top: lib", self.calls.read_text())
        # What was proved is kept, and what was begun.
        self.assertTrue((self.root / "crates/low/out/rlib/stamp").exists())
        self.assertTrue((self.root / "crates/left/out/incremental/begun").exists())
        self.assertFalse((self.root / "crates/clear_main/out/build.parts").exists(), "the copies stay")
        self.calls.write_text("")
        self.assertEqual(self.run_at(self.root).returncode, 0)
        self.assertEqual(self.times.read_text().count("low begins"), 1)

    def test_one_job_is_enough_for_one_processor(self):
        self.run_at(self.root, CLEARING_JOBS="1")
        self.assertEqual(self.steps(), ["clear_main: run"])

    def test_where_most_is_proved_no_count_is_told_that_nobody_knows(self):
        for name in ("low", "left", "right"):
            (self.root / "crates" / name / "out/rlib").mkdir()
            (self.root / "crates" / name / "out/rlib/stamp").write_text("")
        done = self.run_at(self.root, LINKING="1")
        self.assertEqual(self.steps(), ["clear_main: run"])
        self.assertIn("\nclearing: proving what is not proved yet\n", done.stderr)
        self.assertNotIn("crates are proved", done.stderr)

    def test_what_an_earlier_build_proved_is_counted(self):
        for name in ("low", "left"):
            (self.root / "crates" / name / "out/rlib").mkdir()
            (self.root / "crates" / name / "out/rlib/stamp").write_text("")
        done = self.run_at(self.root, SLOW="2")
        self.assertIn("\nclearing: 2 of 5 crates are proved", done.stderr)
        self.assertIn("\nclearing: 3 of 5 crates are proved", done.stderr)
        self.assertEqual(
            [line.split()[0] for line in self.times.read_text().splitlines()], ["right", "right", "top", "top"]
        )

    def test_a_source_that_changes_is_built(self):
        source = self.built() / "crates/low/src/main.rt"
        stamp = source.stat()
        source.write_text("fn low() { }\n")
        # Also where its date stays what it was.
        os.utime(source, ns=(stamp.st_atime_ns, stamp.st_mtime_ns))
        done = self.run_at(self.root)
        self.assertIn("building the program, since its sources have changed", done.stderr)
        self.assertEqual((done.returncode, self.builds()), (0, 2))
        self.quiet(self.root)
        # A source more, and a source less.
        (source.parent / "more.rt").write_text("")
        self.run_at(self.root)
        (source.parent / "more.rt").unlink()
        self.run_at(self.root)
        self.assertEqual(self.builds(), 4)

    def test_a_source_that_changes_while_the_sources_are_read_is_seen(self):
        """By a command that has just read the last of them when another changes, before what was read is written
        down."""
        source = self.built() / "crates/low/src/main.rt"
        self.file(
            "bin/sha256sum",
            f"""#!/bin/sh
/usr/bin/sha256sum "$@"
[ $# -lt 2 ] || [ -e "{self.folder}/changed" ] || {{
    true >"{self.folder}/changed"
    echo "fn low() {{ }}" >"{source}"
}}
""",
        ).chmod(0o755)
        source.touch()
        self.assertIn("it is not built again", self.run_at(self.root).stderr)
        self.assertTrue((self.folder / "changed").exists())
        self.assertIn("since its sources have changed", self.run_at(self.root).stderr)
        self.quiet(self.root)
        self.assertEqual(self.builds(), 2)
        # Of the reading itself nothing is left.
        self.assertEqual([path.name for path in (self.root / "crates/clear_main/out").glob("built.sums?*")], [])

    def test_a_touched_folder_is_not_built_again(self):
        for path in self.built().rglob("*.rt"):
            path.touch()
        done = self.run_at(self.root, "x")
        self.assertEqual((done.returncode, done.stdout), (0, "x here\n"))
        self.assertIn("it is not built again", done.stderr)
        # It is said once.
        self.quiet(self.root)
        self.assertEqual(self.builds(), 1)

    def test_a_moved_or_copied_folder_is_not_built_again(self):
        moved = self.built().rename(self.folder / "moved")
        self.quiet(moved)
        # A copy that keeps the dates has a record that is older than the copy's files.
        copied = self.folder / "copied"
        shutil.copytree(moved, copied, copy_function=shutil.copy2)
        self.assertIn("it is not built again", self.run_at(copied).stderr)
        self.quiet(copied, path=False)
        # One that does not may have its record first or last.
        again = self.folder / "copied again"
        shutil.copytree(moved, again, copy_function=shutil.copy)
        self.assertEqual(self.run_at(again).returncode, 0)
        self.quiet(again, path=False)
        self.assertEqual(self.builds(), 1)

    @unittest.skipUnless(os.geteuid() != 0 or shutil.which("setpriv"), "setpriv is missing: root may write everywhere")
    def test_a_folder_that_may_not_be_written_runs_what_is_built(self):
        self.built()
        for path in [self.root, *self.root.rglob("*")]:
            path.chmod(0o555)
            path.touch()
        self.quiet(self.root, READER="yes", path=False)
        source = self.root / "crates/low/src/main.rt"
        source.chmod(0o644)
        source.write_text("fn low() { }\n")
        done = self.run_at(self.root, READER="yes")
        self.assertEqual((done.returncode, done.stdout), (8, ""))
        self.assertIn("since its sources have changed, but", done.stderr)
        self.assertIn("may not be written", done.stderr)
        for path in [self.root, *self.root.rglob("*")]:
            path.chmod(0o755)

    def test_a_program_from_elsewhere_goes_by_dates(self):
        program = self.built() / "crates/clear_main/out/clear_main"
        program.write_text("#!/bin/sh\necho other\n")
        self.assertEqual(self.run_at(self.root).stdout, "other\n")
        source = self.root / "crates/low/src/main.rt"
        os.utime(program, (1, 1))
        program.write_text("#!/bin/sh\necho another\n")
        os.utime(program, (1, 1))
        self.assertIn("a source is newer than it", self.run_at(self.root).stderr)
        self.assertEqual((source.exists(), self.builds()), (True, 2))

    def test_without_a_toolchain_or_a_build_it_says_why(self):
        done = self.run_at(self.root, path=False)
        self.assertEqual((done.returncode, done.stdout), (8, ""))
        self.assertIn("since it is not there, but the command rt of the toolchain is not on the path", done.stderr)
        done = self.run_at(self.root, FAULTY="yes")
        self.assertEqual(done.returncode, 8)
        self.assertIn("the build failed", done.stderr)

    def going(self) -> "subprocess.Popen[str]":
        """A build that goes on for long, in a session of its own."""
        environment = {
            "PATH": f"{self.folder}/bin:/usr/bin:/bin",
            "CALLS": str(self.calls),
            "TIMES": str(self.times),
            "CLEARING_JOBS": "2",
            "SLOW": "30",
        }
        going = subprocess.Popen(
            [str(self.root / "clearing")],
            env=environment,
            stderr=subprocess.PIPE,
            encoding="utf-8",
            start_new_session=True,
        )
        self.until(self.times.read_text)
        time.sleep(0.5)
        return going

    def ends(self) -> None:
        self.until(lambda: not self.rt_runs(), 10)

    def test_an_interrupt_ends_the_build(self):
        for number in (signal.SIGTERM, signal.SIGINT, signal.SIGHUP):
            with self.subTest(signal=signal.Signals(number).name):
                self.times.write_text("")
                self.interrupted(number)

    def interrupted(self, number: int) -> None:
        going = self.going()
        going.send_signal(number)
        message = going.communicate(timeout=20)[1]
        self.assertEqual(going.returncode, 8, message)
        self.assertIn("the build was interrupted", message)
        self.ends()
        # What was begun stands in the repository again, once the build has put it there.
        begun, deadline = self.root / "crates/low/out/incremental/begun", time.monotonic() + 20
        parts = self.root / "crates/clear_main/out/build.parts"
        while (parts.exists() or not begun.exists()) and time.monotonic() < deadline:
            time.sleep(0.1)
        self.assertTrue(begun.exists())
        self.assertFalse(parts.exists(), "the copies stay")

    def test_what_a_killed_build_left_is_gone_on_with(self):
        going = self.going()
        os.killpg(going.pid, signal.SIGKILL)
        for path in pathlib.Path("/proc").glob("[0-9]*/cmdline"):
            if str(self.root).encode() in self.text_of(path) or str(self.rt).encode() in self.text_of(path):
                os.kill(int(path.parent.name), signal.SIGKILL)
        going.wait(timeout=20)
        going.stderr.close()
        self.assertFalse((self.root / "crates/low/out").exists())
        (next(self.root.glob("crates/clear_main/out/build.parts/*/crates/low/out/rlib")) / "stamp").write_text("")
        self.assertEqual(self.run_at(self.root).returncode, 0)
        self.assertNotIn("low ends", self.times.read_text())

    def test_it_ends_also_where_nobody_reads_what_is_said(self):
        going = self.going()
        going.stderr.close()
        os.killpg(going.pid, signal.SIGTERM)
        going.wait(timeout=20)
        self.ends()

    def rt_runs(self) -> bool:
        return any(str(self.rt).encode() in self.text_of(path) for path in pathlib.Path("/proc").glob("[0-9]*/cmdline"))

    @staticmethod
    def text_of(path: pathlib.Path) -> bytes:
        try:
            return path.read_bytes()
        except OSError:
            return b""


if __name__ == "__main__":
    unittest.main()
