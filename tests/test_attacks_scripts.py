"""The scripts of the shell under other masks, interrupted, with planted links and names that have ends of lines."""
import contextlib
import os
import pathlib
import shlex
import shutil
import signal
import stat
import subprocess
import unittest
from typing import Any, Tuple

from common import HUB, PROGRAM, ROOT, Case, Word, files_of
from launcher import TOOLCHAIN, LauncherCase

FILES = files_of(HUB)


class InstallerCase(Case):
    """A test with a program to install, and a prefix."""

    def setUp(self):
        super().setUp()
        self.script = self.executable("program", 'echo "$*"\n')
        self.prefix = self.folder / "prefix"

    def start(self, mask: int = 0o022, **more: Any) -> "subprocess.Popen[str]":
        environment = {**os.environ, "CLEARING": str(self.script)}
        return subprocess.Popen(
            [str(ROOT / "tools/install.sh"), str(self.prefix)],
            env=environment,
            preexec_fn=lambda: os.umask(mask),
            stdin=subprocess.DEVNULL,
            stdout=subprocess.PIPE,
            stderr=subprocess.PIPE,
            encoding="utf-8",
            start_new_session=True,
            **more,
        )


class Installing(InstallerCase):
    def test_what_is_installed_is_for_all_and_nobody_else_writes_it(self):
        modes = []
        for mask in (0o000, 0o077):
            running = self.start(mask)
            _, said = running.communicate(timeout=300)
            self.assertEqual((running.returncode, said), (0, ""))
            found = {
                str(path.relative_to(self.prefix)): stat.S_IMODE(path.lstat().st_mode)
                for path in self.prefix.rglob("*")
                if not path.is_symlink()
            }
            for name, mode in found.items():
                self.assertEqual((mode & 0o022, mode & 0o044), (0, 0o044), (name, oct(mode), oct(mask)))
            modes.append(found)
            shutil.rmtree(self.prefix)
        self.assertEqual(modes[0], modes[1])

    def begun(self) -> "Tuple[subprocess.Popen[str], str]":
        """An installation over an older program, as soon as it has a file, and what follows in that file's name."""
        (self.prefix / "bin").mkdir(parents=True)
        (self.prefix / "bin/clearing").write_text("old\n")
        running = self.start()
        self.until(lambda: list(self.prefix.rglob("*.new.*")))
        os.killpg(running.pid, signal.SIGSTOP)
        names = [path.name for path in self.prefix.rglob("*.new.*")]
        for name in names:
            self.assertNotIn(str(running.pid), name)
        return running, ".new." + names[0].partition(".new.")[2]

    def all_is_as_it_was(self, running: "subprocess.Popen[str]", told: str) -> None:
        """The installation ends, tells why, and leaves the older program alone."""
        os.killpg(running.pid, signal.SIGCONT)
        _, said = running.communicate(timeout=60)
        self.assertEqual(running.returncode, 1, said)
        self.assertIn(told, said)
        left = [path for path in self.prefix.rglob("*") if path.is_symlink() or not path.is_dir()]
        self.assertEqual([str(path.relative_to(self.prefix)) for path in left], ["bin/clearing"])
        self.assertEqual((self.prefix / "bin/clearing").read_text(), "old\n")

    def test_an_interrupt_leaves_nothing(self):
        running, _ = self.begun()
        os.killpg(running.pid, signal.SIGTERM)
        self.all_is_as_it_was(running, "it was interrupted; all is as it was")

    def test_a_link_where_the_next_file_goes_is_not_followed(self):
        """Its name can be foreseen once the first file is there."""
        victim = self.file("victim", "kept\n")
        running, end = self.begun()
        next_one = self.prefix / "share/clearing" / f"VERSION{end}"
        next_one.parent.mkdir(parents=True, exist_ok=True)
        next_one.symlink_to(victim)
        self.all_is_as_it_was(running, "share/clearing/VERSION cannot be written")
        self.assertEqual(victim.read_text(), "kept\n")


class Many(Case):
    def test_an_end_of_a_line_in_a_name_ends_no_word(self):
        mark = self.folder / "mark"
        jobs = self.file("jobs\n.tsv", "\t".join(["a", "check", *map(str, FILES)]) + "\n")
        program = self.file(f"x\ntouch {str(mark).replace('/', '_')}\n: it's", "#!/bin/sh\necho ran\n")
        program.chmod(0o755)
        environment = {**os.environ, "CLEARING": str(program)}
        printed = subprocess.run(
            [str(ROOT / "bin/clearing-many"), "slurm", str(jobs), str(self.folder / "out\n")],
            env=environment,
            capture_output=True,
            encoding="utf-8",
        )
        self.assertEqual((printed.returncode, printed.stderr), (0, ""))
        before = sorted(os.listdir(self.folder))
        done = subprocess.run(
            ["sh", "-c", printed.stdout],
            env={**os.environ, "SLURM_ARRAY_TASK_ID": "1"},
            cwd=self.folder,
            capture_output=True,
            encoding="utf-8",
        )
        self.assertEqual((done.returncode, done.stderr), (0, ""))
        self.assertEqual(sorted(os.listdir(self.folder)), sorted([*before, "out\n"]))
        self.assertEqual((self.folder / "out\n/a.out").read_text(), "ran\n")

    def test_a_job_whose_files_change_is_told(self):
        banks = self.file("banks.csv", (HUB / "banks.csv").read_bytes())
        jobs = self.file("jobs.tsv", "\t".join(["a", "check", "--banks", str(banks), *map(str, FILES[2:])]) + "\n")
        self.program(f'echo >>"{banks}"\necho done\n')
        done = subprocess.run(
            [str(ROOT / "bin/clearing-many"), "run", str(jobs), str(self.folder / "out"), "1"],
            capture_output=True,
            encoding="utf-8",
        )
        self.assertEqual((done.returncode, done.stdout), (1, "0 done, 1 failed\n"))
        self.assertEqual(
            (self.folder / "out/a.failed").read_text(),
            "status 0, but a file or the program changed while the job ran\n",
        )
        self.assertEqual(sorted(os.listdir(self.folder / "out")), ["a.failed"])


class Reporting(Case):
    def test_an_input_that_changes_is_told(self):
        banks = self.file("banks.csv", (HUB / "banks.csv").read_bytes())
        self.program(f'[ "$1" != bounds ] || echo >>"{banks}"\nexec {shlex.quote(os.path.realpath(PROGRAM))} "$@"\n')
        self.refused(
            "clearing-report",
            1,
            "banks.csv changed while the report was made",
            "--banks",
            banks,
            *FILES[2:],
            "--out",
            self.folder / "page.html",
        )
        self.assertFalse((self.folder / "page.html").exists())


class Launching(LauncherCase):
    def test_the_toolchain_imports_nothing_of_the_working_folder(self):
        self.rt.write_text('#!/bin/sh\necho "path=${PYTHONPATH-none}" >>"$CALLS"\n' + TOOLCHAIN.split("\n", 1)[1])
        done = self.run_at(self.root, "a", PYTHONPATH=":")
        self.assertEqual((done.returncode, done.stdout), (0, "a here\n"))
        self.assertEqual(
            {line for line in self.calls.read_text().split("\n") if line.startswith("path=")}, {"path=none"}
        )


class Importing(Case):
    def test_evidence_imports_nothing_of_the_working_folder(self):
        mark = self.folder / "mark"
        for name in ("argparse", "hashlib", "tempfile", "pathlib", "json", "tomllib"):
            self.file(f"{name}.py", f"open({str(mark)!r}, 'w')\n")
        done = subprocess.run(
            [str(ROOT / "bin/clearing-evidence"), "check", "."],
            cwd=self.folder,
            env={**os.environ, "PYTHONPATH": ":"},
            capture_output=True,
        )
        self.assertEqual(done.returncode, 3)
        self.assertFalse(mark.exists())


class Ended(Case):
    """A request to end ends what was begun, and leaves nothing that runs."""

    def running(self) -> int:
        """How many runs of the test's program there are."""
        found = 0
        for path in pathlib.Path("/proc").glob("[0-9]*/cmdline"):
            with contextlib.suppress(OSError):
                found += str(self.folder).encode() + b"/clearing" in path.read_bytes()
        return found

    def start(self, *words: Word) -> "subprocess.Popen[str]":
        self.program('echo begun >>"$BEGUN"\nwhile :; do sleep 0.2; done\n')
        environment = {**os.environ, "BEGUN": str(self.folder / "begun")}
        environment.pop("MANY_SESSION", None)
        running = subprocess.Popen(
            [str(ROOT / "bin/clearing-many"), *map(str, words)],
            env=environment,
            stdin=subprocess.DEVNULL,
            stdout=subprocess.PIPE,
            stderr=subprocess.PIPE,
            encoding="utf-8",
            start_new_session=True,
        )
        self.addCleanup(running.stdout.close)
        self.addCleanup(running.stderr.close)
        return running

    def begun(self, count: int) -> None:
        begun = self.folder / "begun"
        self.until(lambda: begun.exists() and len(begun.read_text().split()) >= count)

    def test_a_signal_ends_all_jobs_and_what_is_left_is_counted(self):
        jobs = self.file("jobs.tsv", "".join(f"job-{at}\tgen\t{at}\n" for at in range(20)))
        for number, words, count, told in [
            (signal.SIGTERM, ["run", jobs, self.folder / "a", 14], 14, "0 done, 0 failed, 20 not finished\n"),
            (signal.SIGINT, ["run", jobs, self.folder / "b", 3], 3, "0 done, 0 failed, 20 not finished\n"),
            (signal.SIGHUP, ["run", jobs, self.folder / "c", 2], 2, "0 done, 0 failed, 20 not finished\n"),
            (signal.SIGTERM, ["one", jobs, self.folder / "d", 1], 1, ""),
            (signal.SIGTERM, ["one", jobs, self.folder / "e", 1, 9], 1, ""),
        ]:
            with contextlib.suppress(FileNotFoundError):
                (self.folder / "begun").unlink()
            running = self.start(*words)
            self.begun(count)
            # To the script alone, as `kill`, `timeout` or a cluster sends it.
            running.send_signal(number)
            self.assertEqual(running.wait(60), 128 + number, words)
            self.assertEqual(running.stdout.read(), told, words)
            self.assertEqual(self.running(), 0, words)
        # The same command goes on.
        self.program("echo done\n")
        done = subprocess.run(
            [str(ROOT / "bin/clearing-many"), "run", str(jobs), str(self.folder / "a")],
            stdin=subprocess.DEVNULL,
            capture_output=True,
            encoding="utf-8",
        )
        self.assertEqual((done.returncode, done.stdout), (0, "20 done, 0 failed\n"), done.stderr)
        self.assertEqual({path.suffix for path in (self.folder / "a").iterdir()}, {".out", ".job"})

    def test_jobs_are_read_from_standard_input_as_before(self):
        self.program('echo "$*"\n')
        jobs = self.file("jobs.tsv", "a\tgen\t1\n")
        with open(jobs) as given:
            done = subprocess.run(
                [str(ROOT / "bin/clearing-many"), "one", "/dev/stdin", str(self.folder / "f"), "1"],
                stdin=given,
                capture_output=True,
                encoding="utf-8",
            )
        self.assertEqual((done.returncode, (self.folder / "f/a.out").read_text()), (0, "gen 1\n"), done.stderr)


class Prefixes(InstallerCase):
    def run_it(self, prefix: Word) -> "subprocess.CompletedProcess[str]":
        return subprocess.run(
            [str(ROOT / "tools/install.sh"), str(prefix)],
            env={**os.environ, "CLEARING": str(self.script)},
            stdin=subprocess.DEVNULL,
            capture_output=True,
            encoding="utf-8",
        )

    def test_a_prefix_with_the_end_of_a_line_is_refused(self):
        for name in ("a\nb", "a\n", "\nb", "a\rb", "a\x1b[2J"):
            done = self.run_it(self.folder / "in" / name)
            self.assertEqual(
                (done.returncode, done.stdout, (self.folder / "in").exists()), (2, "", False), (name, done.stderr)
            )
            self.assertNotIn("\x1b", done.stderr)

    @unittest.skipUnless(os.geteuid() == 0, "only root gives files to others")
    def test_no_link_or_folder_of_another_user_is_followed(self):
        elsewhere = self.folder / "elsewhere"
        elsewhere.mkdir()
        for name in ("bin", "share/man", ""):
            for kind in ("link", "folder"):
                place = self.prefix / name
                place.parent.mkdir(parents=True, exist_ok=True)
                place.symlink_to(elsewhere) if kind == "link" else place.mkdir()
                os.chown(place, 54321, 54321, follow_symlinks=False)
                done = self.run_it(self.prefix)
                self.assertEqual((done.returncode, done.stdout), (1, ""), (name, kind))
                self.assertIn("is another user's", done.stderr)
                self.assertEqual(
                    [
                        path
                        for path in [*elsewhere.rglob("*"), *self.prefix.rglob("*")]
                        if path.is_symlink() or not path.is_dir()
                    ],
                    [place] if kind == "link" and name else [],
                )
                place.unlink() if kind == "link" else shutil.rmtree(place)
                shutil.rmtree(self.prefix, ignore_errors=True)
        # One's own link is followed.
        self.prefix.mkdir()
        (self.prefix / "bin").symlink_to(elsewhere)
        self.assertEqual(self.run_it(self.prefix).returncode, 0)
        self.assertTrue((elsewhere / "clearing").exists())


if __name__ == "__main__":
    unittest.main()
