"""What other users may plant where a tool writes, files below /dev, and who may read what a tool made of files that
are not for all."""
import contextlib
import ctypes
import os
import pathlib
import shlex
import shutil
import signal
import stat
import subprocess
import tempfile
import threading
import time
import unittest
import unittest.mock
from typing import Any, Iterator, List

from common import CHAIN, HUB, PROGRAM, ROOT, Case, Word, files_of, tool

from clearing_tools import files
from clearing_tools.evidence import shock
from clearing_tools.runner import ToolError

ANOTHER = 54321
FILES = files_of(HUB)


def writers() -> Iterator[Any]:
    """The ways in which a tool writes a file of a name."""
    yield lambda name: files.write_all({name: "new\n"})
    yield lambda name: files.put("new\n", name)

    def by_shock(name: pathlib.Path) -> None:
        try:
            shock.write(os.fspath(name), b"new\n")
        except shock.ScenarioError as fault:
            raise ToolError(str(fault)) from fault

    yield by_shock


def permitted(path: pathlib.Path) -> int:
    return stat.S_IMODE(path.stat().st_mode)


class Planted(Case):
    def others(self, path: pathlib.Path) -> None:
        """Has a link or a pipe be another user's."""
        if os.geteuid() == 0:
            os.chown(path, ANOTHER, ANOTHER, follow_symlinks=False)
        else:
            patch = unittest.mock.patch("os.geteuid", return_value=ANOTHER)
            patch.start()
            self.addCleanup(patch.stop)

    def test_a_link_of_another_user_is_not_followed(self):
        victim = self.file("victim", "kept\n")
        (self.folder / "home").mkdir()
        inner = self.file("home/.bashrc", "kept\n")
        for number, write in enumerate(writers()):
            plain, folder, chain = (self.folder / f"{kind}-{number}" for kind in ("link", "folder", "chain"))
            plain.symlink_to(victim)
            folder.symlink_to(self.folder / "home")
            chain.symlink_to(plain)
            self.others(plain)
            self.others(folder)
            for name in (plain, folder / ".bashrc", chain, folder / "new"):
                with self.assertRaisesRegex(ToolError, "a link of another user"):
                    write(name)
            self.assertEqual(
                (victim.read_text(), inner.read_text(), sorted(os.listdir(self.folder / "home"))),
                ("kept\n", "kept\n", [".bashrc"]),
            )
            for path in (plain, folder, chain):
                path.unlink()
        unittest.mock.patch.stopall()
        # One's own is followed, as before.
        own = self.folder / "own"
        own.symlink_to(victim)
        for write in writers():
            write(own)
            self.assertEqual((victim.read_text(), own.is_symlink()), ("new\n", True))

    def test_a_pipe_of_another_user_is_not_written(self):
        for number, write in enumerate(writers()):
            pipe = self.folder / f"pipe-{number}"
            os.mkfifo(pipe)
            self.others(pipe)
            # Somebody listens, so that a write would go through.
            listening = os.open(pipe, os.O_RDONLY | os.O_NONBLOCK)
            try:
                with self.assertRaisesRegex(ToolError, "a pipe of another user"):
                    write(pipe)
                self.assertEqual(os.read(listening, 10), b"")
            finally:
                os.close(listening)
        unittest.mock.patch.stopall()

    def test_what_stands_in_the_place_of_the_older_file_is_not_followed(self):
        """The older file is kept under a name that can be foreseen once the new one is there."""
        victim = self.file("victim", "kept\n")
        target, real = self.file("target", "old\n"), os.link

        def planted(source: Any, name: Any, **more: Any) -> Any:
            os.symlink(victim, name, dir_fd=more["dst_dir_fd"])
            return real(source, name, **more)

        with unittest.mock.patch("clearing_tools.files.os.link", planted):
            with self.assertRaisesRegex(ToolError, "File exists"):
                files.write_all({target: "new\n"})
        self.assertEqual((victim.read_text(), target.read_text()), ("kept\n", "old\n"))

    def exchange(self, way: pathlib.Path, victim: pathlib.Path, until: Any) -> None:
        """Has a folder be a link of another user to a victim's, and a folder of his, in turn, as fast as can be."""
        link = self.folder / "link-aside"
        link.symlink_to(victim)
        os.chown(link, ANOTHER, ANOTHER, follow_symlinks=False)
        here, exchange = -100, 2  # AT_FDCWD, RENAME_EXCHANGE
        while not until.is_set():
            self.assertEqual(ctypes.CDLL(None).renameat2(here, os.fsencode(way), here, os.fsencode(link), exchange), 0)

    @unittest.skipUnless(os.geteuid() == 0, "only root gives links to others")
    def test_a_folder_that_is_exchanged_sends_no_write_elsewhere(self):
        """Thousands of writes while somebody exchanges the folder for a link of his; and once just between the look
        and the write."""
        victim, way = self.folder / "victim", self.folder / "way"
        victim.mkdir()
        way.mkdir()
        os.chown(way, ANOTHER, ANOTHER)
        for number, write in enumerate(writers()):
            real, done = files.mask_of, []

            def exchanged(*words: Any) -> Any:
                if not done:
                    done.append(way.rename(self.folder / "aside"))
                    way.symlink_to(victim)
                    os.chown(way, ANOTHER, ANOTHER, follow_symlinks=False)
                return real(*words)

            with unittest.mock.patch.object(files, "mask_of", exchanged), self.assertRaises(ToolError):
                write(way / "new")
            self.assertEqual((len(done), os.listdir(victim)), (1, []), number)
            way.unlink()
            (self.folder / "aside").rename(way)
        until = threading.Event()
        exchanging = threading.Thread(target=self.exchange, args=(way, victim, until))
        exchanging.start()
        counts, ends = {True: 0, False: 0}, time.monotonic() + 5
        try:
            while time.monotonic() < ends:
                try:
                    files.write_all({way / "new": "x"})
                    counts[True] += 1
                except ToolError:
                    counts[False] += 1
        finally:
            until.set()
            exchanging.join()
        self.assertEqual(os.listdir(victim), [])
        self.assertGreater(counts[True], 0)
        self.assertGreater(counts[False], 0)

    def test_a_folder_of_evidence_that_is_exchanged_sends_no_write_elsewhere(self):
        """The program of the evidence has the new folder be a link to a victim's, as whoever has the folder above
        can."""
        victim, place = self.folder / "victim", self.folder / "place"
        victim.mkdir()
        place.mkdir()
        # When all runs have begun.
        self.program(
            f'[ "$1" = defaults ] && sleep 1 && for part in "{place}"/.part-*; do [ -h "$part" ] || {{ mv "$part"'
            f' "{place}/moved-$$"; ln -s "{victim}" "$part"; }}; done\nexec {shlex.quote(PROGRAM)} "$@"\n'
        )
        done = subprocess.run(
            [str(ROOT / "bin/clearing-evidence"), "make", str(place / "evidence"), *map(str, FILES)],
            capture_output=True,
            encoding="utf-8",
        )
        self.assertEqual(os.listdir(victim), [], done.stderr)

    def test_a_way_goes_where_its_name_leads(self):
        """By any steps: the descriptors lead to the file that the name is of."""
        (self.folder / "a/b/c").mkdir(parents=True)
        (self.folder / "a/up").symlink_to("..")
        (self.folder / "a/deep").symlink_to(self.folder / "a/b")
        (self.folder / "a/b/again").symlink_to("../deep/c")
        before = os.getcwd()
        self.addCleanup(os.chdir, before)
        os.chdir(self.folder / "a/b")
        for name in (
            "x",
            "./x",
            "../x",
            "../../x",
            "c/../x",
            "c/x",
            "../up/x",
            "../deep/c/x",
            "again/x",
            "again/../x",
            f"{self.folder}/a/deep/../x",
            "c//x",
            "c/./x",
            "../../../../../../../../../../tmp/../" + str(self.folder).lstrip("/") + "/x",
        ):
            with contextlib.closing(files.Way(name)) as way:
                self.assertEqual(
                    os.path.join(os.readlink(f"/proc/self/fd/{way.folder}"), way.last),
                    os.path.join(os.path.realpath(os.path.dirname(name)), "x"),
                    name,
                )
            files.write_all({name: name})
            self.assertEqual(pathlib.Path(name).read_text(), name)
            os.unlink(name)
        loop = self.folder / "loop"
        loop.symlink_to("loop")
        with self.assertRaises((ToolError, OSError)):
            files.Way(str(loop / "x"))
        self.assertLess(len(os.listdir("/proc/self/fd")), 40)

    def test_a_folder_of_results_that_others_can_write_is_refused(self):
        jobs = self.file("jobs.tsv", "\t".join(["a", "check", *map(str, FILES)]) + "\n")
        place = self.folder / "results"
        for mode in (0o777, 0o1777, 0o702, 0o720):
            place.mkdir(exist_ok=True)
            place.chmod(mode)
            for task in (["run", jobs, place, 1], ["one", jobs, place, 1]):
                done = subprocess.run(
                    [str(ROOT / "bin/clearing-many"), *map(str, task)], capture_output=True, encoding="utf-8"
                )
                self.assertEqual((done.returncode, sorted(os.listdir(place))), (2, []), (oct(mode), done.stderr))
                self.assertIn("others can write", done.stderr)
        if os.geteuid() == 0:
            place.chmod(0o755)
            os.chown(place, ANOTHER, ANOTHER)
            done = subprocess.run(
                [str(ROOT / "bin/clearing-many"), "run", str(jobs), str(place), "1"],
                capture_output=True,
                encoding="utf-8",
            )
            self.assertEqual((done.returncode, sorted(os.listdir(place))), (2, []), done.stderr)
            os.chown(place, 0, 0)
        place.chmod(0o755)
        done = subprocess.run(
            [str(ROOT / "bin/clearing-many"), "run", str(jobs), str(place), "1"], capture_output=True, encoding="utf-8"
        )
        self.assertEqual(done.returncode, 0, done.stderr)

    def test_many_follows_no_link_in_its_folder(self):
        victim = self.file("victim", "kept\n")
        jobs = self.file("jobs.tsv", "\t".join(["a", "check", *map(str, FILES)]) + "\n")
        # The program plants what comes next, where its own output goes, and says which links it has planted.
        planted = self.folder / "planted"
        self.program(
            f'cd "{self.folder}/results"\nfor part in a.part+*; do case $part in *.err) continue ;; esac\n'
            'for link in "$part.job" "$part.failed" a.out; do\n'
            f'ln -s "{victim}" "$link" && echo "${{link##*.}}" >>"{planted}"; done; done; exit ${{STATUS:-0}}\n'
        )
        for status in ("0", "6"):
            shutil.rmtree(self.folder / "results", ignore_errors=True)
            planted.write_text("")
            subprocess.run(
                [str(ROOT / "bin/clearing-many"), "run", str(jobs), str(self.folder / "results"), "1"],
                capture_output=True,
                env={**os.environ, "STATUS": status},
            )
            self.assertEqual((victim.read_text(), planted.read_text()), ("kept\n", "job\nfailed\nout\n"), status)


@unittest.skipUnless(os.access("/dev/shm", os.W_OK), "nothing can be written below /dev/shm")
class BelowDev(unittest.TestCase):
    def setUp(self):
        folder = tempfile.TemporaryDirectory(dir="/dev/shm")
        self.addCleanup(folder.cleanup)
        self.folder = pathlib.Path(folder.name)

    def test_a_file_there_is_written_as_any_other(self):
        for write in writers():
            place = self.folder / "place"
            place.write_text("much that was there\n")
            write(place)
            self.assertEqual(place.read_text(), "new\n")

    def test_an_input_there_is_kept(self):
        banks, debts = self.folder / "banks.csv", self.folder / "debts.csv"
        for name in (banks, debts):
            name.write_bytes((CHAIN / name.name).read_bytes())
        scenarios = self.folder / "s.toml"
        scenarios.write_text('[[scenario]]\nname = "a"\n')
        with self.assertRaisesRegex(ToolError, "also read"):
            files.write_all({banks: "x"}, [banks])
        net = ["--banks", banks, "--debts", debts]
        for name, words in [
            ("clearing-to-matrix", [*net, "--out", banks]),
            ("clearing-breaking", [*net, "--output", banks]),
            ("clearing-impact", [*net, "--matrix", debts]),
            ("clearing-shock", ["--banks", banks, "--scenarios", scenarios, "--scenario", 1, "--output", scenarios]),
            ("clearing-report", [*net, "--out", banks]),
        ]:
            done = tool(name, *words)
            self.assertNotEqual(done.returncode, 0, name)
            self.assertEqual(
                [path.read_bytes() for path in (banks, debts)],
                [(CHAIN / path.name).read_bytes() for path in (banks, debts)],
                name,
            )

    def test_a_block_device_is_no_output(self):
        mode = stat.S_IFBLK | 0o600
        about = os.stat_result((mode, *os.stat(self.folder)[1:]))
        with unittest.mock.patch("os.stat", return_value=about):
            self.assertFalse(files.is_stream("/dev/any"))
        for descriptor in ("/dev/stdout", "/dev/fd/1", "/proc/self/fd/1"):
            self.assertTrue(files.is_stream(descriptor))


class WhoMayRead(Case):
    def private(self) -> List[Word]:
        banks, debts = self.file("banks.csv", (HUB / "banks.csv").read_bytes()), self.file(
            "debts.csv", (HUB / "debts.csv").read_bytes()
        )
        banks.chmod(0o600)
        debts.chmod(0o644)
        return ["--banks", banks, "--debts", debts]

    def setUp(self):
        super().setUp()
        self.addCleanup(os.umask, os.umask(0o022))

    def test_what_is_made_of_files_that_are_not_for_all_is_not_for_all(self):
        net = self.private()
        scenarios = self.file("s.toml", '[[scenario]]\nname = "a"\n')
        for name, words, made in [
            ("clearing-breaking", [*net, "--output"], "breaking.csv"),
            ("clearing-impact", [*net, "--matrix"], "impact.csv"),
            ("clearing-rescues", [*net, "--output"], "rescues.csv"),
            ("clearing-to-matrix", [*net, "--out"], "matrix.csv"),
            ("clearing-report", [*net, "--out"], "report.html"),
            ("clearing-shock", [*net[:2], "--scenarios", scenarios, "--scenario", 1, "--output"], "left.csv"),
        ]:
            with self.subTest(name=name):
                done = tool(name, *words, self.folder / made)
                self.assertEqual(done.returncode, 0, done.stderr)
                self.assertEqual(oct(permitted(self.folder / made)), "0o600")

    def test_a_folder_of_evidence_of_such_files_is_not_for_all(self):
        folder = self.folder / "evidence"
        made = tool("clearing-evidence", "make", folder, *self.private())
        self.assertEqual(made.returncode, 0, made.stderr)
        self.assertEqual(oct(permitted(folder)), "0o700")
        for path in folder.rglob("*"):
            self.assertEqual(permitted(path) & 0o077, 0, path)

    def test_of_many_jobs_those_of_such_files_are_not_for_all(self):
        net = list(map(str, self.private()))
        jobs = [
            ["a", "check", *net],
            ["b", "check", f"--banks={net[1]}", *net[2:]],
            ["c", "check", *map(str, FILES)],
            ["d", "check", *net, "--bad"],
        ]
        text = "".join("\t".join(job) + "\n" for job in jobs)
        tool("clearing-many", "run", self.file("jobs.tsv", text), self.folder / "many", 1)
        modes = {path.name: oct(permitted(path)) for path in (self.folder / "many").iterdir()}
        private = {f"{job}.{kind}": "0o600" for job in "ab" for kind in ("out", "job")}
        self.assertEqual(modes, {**private, "c.out": "0o644", "c.job": "0o644", "d.failed": "0o600"})

    def test_a_kept_mode_has_no_setuid(self):
        for write in writers():
            place = self.file("place", "old")
            place.chmod(0o6755)
            write(place)
            self.assertEqual(oct(permitted(place)), "0o755")

    def test_the_end_of_a_terminal_is_a_request_to_end(self):
        place = self.folder / "place"
        place.mkdir()
        program = self.executable("slow", 'case $1 in clear) exec sleep 60;; esac\nexec "$REAL" "$@"\n')
        environment = {**os.environ, "CLEARING": str(program), "REAL": PROGRAM, "PYTHONDONTWRITEBYTECODE": "1"}
        running = subprocess.Popen(
            [str(ROOT / "bin/clearing-evidence"), "make", str(place / "evidence"), *map(str, FILES)],
            env=environment,
            stdout=subprocess.PIPE,
            stderr=subprocess.PIPE,
            start_new_session=True,
            # A caller that ignores the signal, as nohup does, would hand that down.
            preexec_fn=lambda: signal.signal(signal.SIGHUP, signal.SIG_DFL),
        )
        self.addCleanup(running.stdout.close)
        self.addCleanup(running.stderr.close)
        self.until(lambda: list(place.glob(".part-*/inputs/debts.csv")))
        time.sleep(0.3)
        running.send_signal(signal.SIGHUP)
        self.assertEqual(running.wait(60), 130)
        self.assertEqual(os.listdir(place), [])


if __name__ == "__main__":
    unittest.main()
