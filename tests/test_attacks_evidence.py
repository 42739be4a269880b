"""Folders of evidence that somebody made to have more read, run, printed or taken than the check of a folder may:
commands that name files elsewhere, words that no program takes, names that turn a terminal's letters, and files that
are long and have nothing in them."""
import ast
import contextlib
import io
import os
import pathlib
import resource
import subprocess
import sys
import time
import unittest
import unittest.mock
from typing import Any, Tuple

from common import PACKAGES, ROOT, Word
from evidences import EvidenceCase, evidence

from clearing_tools.evidence import audit, checking, layout, plain_files, source
from clearing_tools.runner import ToolError

SHEET = "lender,borrower,amount\nB,A,10\nA,B,4\n"
CONFINED = ROOT / "python/src/clearing_tools/evidence/confined.py"


class Commands(EvidenceCase):
    """What may stand in source/command.tsv."""

    def made(self) -> pathlib.Path:
        self.file("m.csv", SHEET)
        self.file("table.csv", "bank,cash\nA,3\nB,5\n")
        folder = self.folder / "evidence"
        command = "from_list.py m.csv --table table.csv --debtor borrower --creditor lender"
        done = evidence("make", folder, "--source", command, cwd=self.folder)
        self.assertEqual((done.returncode, done.stderr), (0, b""))
        return folder

    def checked(self, folder: pathlib.Path, text: str) -> Tuple[int, str]:
        (folder / "source/command.tsv").write_bytes(text.encode() if isinstance(text, str) else text)
        self.sums_anew(folder)
        done = evidence("check", folder, timeout=120)
        self.assertNotIn(b"Traceback", done.stderr)
        return done.returncode, (done.stdout + done.stderr).decode()

    def test_no_sheet_of_another_place_is_read(self):
        """The same command with another sheet of the same name, which stands elsewhere: what is checked is the
        folder's."""
        folder = self.made()
        whole = (folder / "source/command.tsv").read_text()
        elsewhere = self.folder / "elsewhere/source"
        elsewhere.mkdir(parents=True)
        # What the two files were made of, while the folder's sheet says something else.
        (elsewhere / "1-m.csv").write_text(SHEET)
        (folder / "source/1-m.csv").write_text(SHEET.replace("10", "70"))
        kinds = [
            f"{elsewhere.parent}/",
            "../elsewhere/",
            f"--table={elsewhere.parent}/",
            f"x=/{elsewhere.parent}/",
            "~/",
            "a/../",
            "./",
            "--table=a/b/",
            ".",
        ]
        for before in kinds:
            status, told = self.checked(folder, whole.replace("file\t\t1-m.csv", f"file\t{before}\t1-m.csv"))
            self.assertEqual((status, "is not a command that is run" in told), (3, True), (before, told))
            self.assertNotIn("checked: the two files are", told)
        # As it was the check sees that the files are of another sheet.
        status, told = self.checked(folder, whole)
        self.assertEqual((status, "source: inputs/debts.csv differs" in told), (5, True), told)

    def test_the_form_of_an_option_or_a_column_may_stand_before_a_sheet(self):
        for before in ("", "currency=", "--rate=", "--rate=currency=", "a b=", "--known=", "Währung="):
            self.assertEqual(source.word_of(f"file\t{before}\t1-m.csv"), source.Word(before, "1-m.csv"), before)
        for before in (
            "/",
            "a",
            "a/b=",
            "/=",
            "~=",
            "--rate",
            "=",
            "==",
            "a=b=",
            "--rate=/=",
            "../=",
            "--help=",
            "--out=",
            "-h=",
            "--samples=",
        ):
            with self.assertRaises(ValueError, msg=before):
                source.word_of(f"file\t{before}\t1-m.csv")

    def test_words_that_no_program_takes_are_refused_as_such(self):
        folder = self.made()
        whole = (folder / "source/command.tsv").read_text()
        for about, text in {
            "a character NUL": whole + "word\ta\0b\n",
            "NUL in the name of a sheet": whole.replace("1-m.csv", "1-m\0.csv"),
            "200,000 words": whole + "word\tx\n" * 200_000,
            "help": whole + "word\t--help\n",
            "help, shorter": whole + "word\t-h\n",
            "help with more": whole + "word\t-hx\n",
            "help that ends": whole.replace("file\t\t", "word\t--help\nfile\t\t"),
            "a word of a megabyte": whole + "word\t" + "x" * 1_000_000 + "\n",
            "no tool": "",
            "no UTF-8": whole.encode() + b"word\t\xff\n",
            "an escape": whole + "word\t\x1b[2J\n",
            "no words": "from_list.py\n",
            "an option that is none": whole + "word\t--no-such\n",
        }.items():
            status, told = self.checked(folder, text)
            self.assertEqual(status, 3, (about, told[-600:]))
            self.assertNotRegex(told, "[\0\x1b]")

    def test_a_long_command_takes_little_memory(self):
        folder = self.made()
        with open(folder / "source/command.tsv", "ab") as command:
            command.write(b"word\tx\n" * 3_000_000)
        self.sums_anew(folder)
        limit = lambda: resource.setrlimit(resource.RLIMIT_AS, (150 << 20, 150 << 20))
        done = subprocess.run(
            [str(ROOT / "bin/clearing-evidence"), "check", str(folder)],
            preexec_fn=limit,
            capture_output=True,
            encoding="utf-8",
        )
        self.assertEqual(done.returncode, 3, done.stderr)
        self.assertIn("source/command.tsv: it is longer than 100,000 bytes", done.stdout)


class Confined(EvidenceCase):
    """The tool that makes the files of somebody else's sheets."""

    def confined(self, *words: Word, **more: Any) -> "subprocess.CompletedProcess[str]":
        return subprocess.run(
            [sys.executable, "-IB", str(CONFINED), *map(str, words)],
            cwd=self.folder,
            stdin=subprocess.DEVNULL,
            capture_output=True,
            encoding="utf-8",
            **more,
        )

    def test_it_reads_and_writes_in_its_folder_alone(self):
        """Whatever words lead there: by name, by a link, by a column's file, to a device."""
        place = self.folder / "in"
        place.mkdir()
        (place / "m.csv").write_text(SHEET)
        (place / "table.csv").write_text("bank,cash\nA,3\nB,5\n")
        secret = self.file("secret.csv", SHEET)
        (place / "link.csv").symlink_to(secret)
        self.folder, outer = place, self.folder
        columns = ["--debtor", "borrower", "--creditor", "lender", "--table", "table.csv"]
        files = ["--banks", "b.csv", "--debts", "d.csv", "--summary", "s.csv"]
        self.assertEqual(self.confined("list", "m.csv", *columns, *files).returncode, 0)
        for sheet in (
            secret,
            "link.csv",
            "../secret.csv",
            "/proc/self/cwd/../secret.csv",
            "/dev/stdin",
            "/proc/self/environ",
        ):
            done = self.confined("list", sheet, *columns, *files)
            self.assertGreater(done.returncode, 0, sheet)
            self.assertNotIn("Traceback", done.stderr)
        for words in (
            ["--banks", outer / "b.csv", "--debts", "d.csv"],
            ["--banks", "b.csv", "--debts", "../d.csv"],
            [*files[:4], "--summary", outer / "s.csv"],
            [*files, "--label", outer / "l.csv"],
            [*files[:4], "--summary", "../new/s.csv"],
        ):
            done = self.confined("list", "m.csv", *columns, *words)
            self.assertGreater(done.returncode, 0, words)
            self.assertNotIn("Traceback", done.stderr)
        self.assertEqual(sorted(os.listdir(outer)), ["in", "secret.csv"])
        self.folder = outer

    def test_it_starts_nothing_and_calls_nobody(self):
        code = (
            "import sys; sys.path.insert(0, {!r}); from clearing_tools.evidence import confined; import os, socket,"
            " subprocess, shutil\nsys.addaudithook(confined.guard(os.getcwd(), ()))\ntry:\n    {}\nexcept"
            " PermissionError: print('refused')\n"
        )
        for deed in (
            "subprocess.run(['/bin/true'])",
            "os.system('true')",
            "socket.socket().connect(('127.0.0.1', 9))",
            "os.execv('/bin/true', ['true'])",
            "os.rename('/etc/hostname', 'x')",
            "os.symlink('/etc', 'x')",
            "os.remove('/none/x')",
            "os.mkdir('/none')",
            "os.kill(1, 0)",
            "open('/etc/hostname')",
            "open('/none/x', 'w')",
            "shutil.rmtree('/none')",
            "os.posix_spawn('/bin/true', ['true'], {})",
            "os.chdir('/')",
        ):
            run = [sys.executable, "-c", code.format(str(ROOT / "python/src"), deed)]
            done = subprocess.run(run, cwd=self.folder, stdin=subprocess.DEVNULL, capture_output=True, encoding="utf-8")
            told = done.stdout.strip()
            self.assertTrue(
                told == "refused" or "FileNotFoundError" in done.stderr and "rmtree" in deed, (deed, done.stderr)
            )

    def test_it_has_limits_of_memory_time_and_files(self):
        code = (
            "import sys; sys.path.insert(0, {!r}); from clearing_tools.evidence import confined; confined.limit();"
            " import resource\n{}"
        )
        for deed, how in (
            ("bytearray(5 << 30)", "MemoryError"),
            ("print(resource.getrlimit(resource.RLIMIT_CPU)[0])", "600"),
            ("print(resource.getrlimit(resource.RLIMIT_FSIZE)[0])", "400000000"),
        ):
            done = subprocess.run(
                [sys.executable, "-c", code.format(str(ROOT / "python/src"), deed)],
                capture_output=True,
                encoding="utf-8",
            )
            self.assertIn(how, done.stdout + done.stderr)
        # A tool that goes on is ended.
        with unittest.mock.patch.object(source, "MOST_SECONDS", 0.01), self.assertRaisesRegex(
            ToolError, "takes longer than"
        ):
            source.run_tool("from_list.py", ["m.csv"], self.folder)


class Printed(EvidenceCase):
    def test_a_name_that_turns_the_letters_is_told_by_its_code(self):
        for sign in ("\u202e", "\u2028", "\u2066", "\u200b"):
            name = f"A{sign}checked"
            banks = self.file("banks.csv", f"name,cash,rule\n{name},1,order\nB,1,order\n")
            debts = self.file("debts.csv", f"debtor,creditor,class,claim\n{name},B,1,2\n")
            folder = self.folder / f"evidence-{ord(sign)}"
            done = evidence("make", folder, "--banks", banks, "--debts", debts, "--bank", name)
            self.assertEqual(done.returncode, 0, done.stderr)
            for told in (self.without_program("check", folder), evidence("check", folder)):
                text = (told.stdout + told.stderr).decode()
                self.assertEqual(told.returncode, 0, text)
                self.assertIn(f"rescue of A<U+{ord(sign):04X}>checked with 1: sound with it", text)
                self.assertTrue(all(c.isprintable() or c == "\n" for c in text), ascii(text))

    def test_all_that_is_told_goes_through_one_call(self):
        """In the whole of the check nothing is printed but by `tell`, which shows each sign."""
        tree = ast.parse(pathlib.Path(checking.__file__).read_text(encoding="utf-8"))
        writers = [
            node.name
            for node in ast.walk(tree)
            if isinstance(node, ast.FunctionDef)
            for inner in ast.walk(node)
            if isinstance(inner, ast.Attribute)
            and inner.attr == "stdout"
            or isinstance(inner, ast.Name)
            and inner.id == "print"
        ]
        self.assertEqual(set(writers), {"tell"})


class Sizes(EvidenceCase):
    ONE = '[[scenario]]\nname = "half"\ncut = 500\n'

    def test_what_does_not_belong_is_not_read(self):
        """Long journals that have nothing in them, of scenarios that there are not: each is named, and none read."""
        folder = self.hub(self.ONE)
        for number in range(2, 101):
            (folder / f"scenario-{number}").mkdir()
            with open(folder / f"scenario-{number}/journal.csv", "wb") as journal:
                journal.truncate(1_600_000_000)
        began = time.monotonic()
        done = self.without_program("check", folder, timeout=120)
        self.assertLess(time.monotonic() - began, 60)
        self.assertEqual(done.returncode, 3, done.stderr)
        self.assertEqual(done.stdout.count(b"/journal.csv: none of these commands makes it here"), 99)
        self.assertEqual(done.stdout.count(b"/journal.csv is not listed"), 99)

    def test_a_journal_that_belongs_is_no_longer_than_its_network_allows(self):
        folder = self.hub(self.ONE)
        network = audit.read_network(
            (folder / "inputs/banks.csv").read_bytes(), (folder / "inputs/debts.csv").read_bytes()
        )
        most = layout.most_of_journal(network)
        # Each raise pays a unit at least: no journal of the program is as long, by whatever workers.
        for journal in folder.glob("*/journal.csv"):
            self.assertLess(journal.stat().st_size, most)
        self.assertLess(most, 1_000_000)
        os.truncate(folder / "as-is/journal.csv", 1_600_000_000)
        done = self.without_program("check", folder, timeout=120)
        self.assertEqual(done.returncode, 3, done.stderr)
        self.assertIn(f"as-is/journal.csv: it is longer than {most:,} bytes", done.stdout.decode())

    def test_a_full_temporary_folder_is_no_fault_of_the_folder(self):
        folder = self.hub(self.ONE)
        copy = self.folder / "copy"
        copy.mkdir()

        def full(file: Any, block: Any) -> None:
            raise plain_files.NoRoomError("No space left on device")

        with unittest.mock.patch.object(plain_files, "write_copy", full), self.assertRaises(plain_files.NoRoomError):
            checking.Checking(folder, copy)
        # A folder of temporary files that has no room at all.
        where = self.folder / "none"
        where.mkdir()
        code = (
            "import resource, sys; resource.setrlimit(resource.RLIMIT_FSIZE, (300, 300)); import signal;"
            f" signal.signal(signal.SIGXFSZ, signal.SIG_IGN)\nsys.argv = ['evidence.sh', 'check', {str(folder)!r}];"
            " from clearing_tools.evidence.evidence import main; main()"
        )
        done = subprocess.run(
            [sys.executable, "-c", code],
            capture_output=True,
            encoding="utf-8",
            env={**os.environ, "TMPDIR": str(where), "PYTHONPATH": str(PACKAGES)},
        )
        self.assertEqual(done.returncode, 1, done.stderr)
        self.assertIn("no copy can be made in the folder of temporary files", done.stderr)
        self.assertNotIn("cannot be read", done.stdout + done.stderr)

    def test_what_runs_on_the_folder_has_limits(self):
        """Each run of audit.py and of the program has so much memory and time, and so has the check itself."""
        folder = self.hub(self.ONE)
        seen, real = [], checking.runner.Limits.put_on
        inner = []

        def put_on(limits: Any, process: int = 0) -> Any:
            seen.append((pathlib.Path(f"/proc/{process}/cmdline").read_bytes().split(b"\0")[-4:], limits))
            inner.append(resource.getrlimit(resource.RLIMIT_AS)[0])
            return real(limits, process)

        with unittest.mock.patch.object(checking.runner.Limits, "put_on", put_on), contextlib.redirect_stdout(
            io.TextIOWrapper(io.BytesIO())
        ):
            asked = unittest.mock.Mock(folder=str(folder))
            self.assertEqual(checking.check(asked), 0)
        self.assertEqual(
            {(limits.seconds, limits.memory) for _, limits in seen}, {(3600, 8 << 30), (3600, resource.RLIM_INFINITY)}
        )
        self.assertEqual(len(seen), 4 + 4 + 14)
        self.assertEqual(set(inner[:4]), {4 << 30})
        self.assertNotIn(4 << 30, inner[4:])

    def test_a_run_beyond_its_limits_is_ended(self):
        asking = checking.runner.ProgramRuns(checking.runner.Limits(seconds=1, memory=200 << 20))
        self.assertEqual(asking.run([sys.executable, "-c", "while True: pass"])[0], -24)
        status, _, said = asking.run([sys.executable, "-c", "import time; time.sleep(0.3); bytearray(1 << 30)"])
        self.assertEqual((status, b"MemoryError" in said), (1, True))


if __name__ == "__main__":
    unittest.main()
