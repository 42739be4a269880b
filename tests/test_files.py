"""How the tools write files: whole or not at all, with the modes that they had, and nothing over an input."""
import os
import subprocess
import sys
import unittest.mock
from typing import Any, Dict

from common import PACKAGES, ROOT, Case, files_of, run_of

from clearing_tools import files
from clearing_tools.runner import ToolError


class Files(Case):
    def state(self) -> Dict[str, bytes]:
        return {path.name: path.read_bytes() for path in self.folder.iterdir() if path.is_file()}

    def test_files_are_written_with_their_folders_and_modes(self):
        old, new = self.file("old", "before"), self.folder / "a" / "b" / "new"
        old.chmod(0o640)
        link = self.folder / "link"
        link.symlink_to(old)
        files.write_all({link: "é", new: b"bytes"})
        self.assertEqual((old.read_text(), new.read_bytes(), link.is_symlink()), ("é", b"bytes", True))
        self.assertEqual(old.stat().st_mode & 0o777, 0o640)
        mask = os.umask(0)
        os.umask(mask)
        self.assertEqual(new.stat().st_mode & 0o777, 0o666 & ~mask)
        self.assertEqual(sorted(path.name for path in self.folder.rglob("*")), ["a", "b", "link", "new", "old"])

    def test_nothing_is_written_over_an_input_or_twice(self):
        read = self.file("read", "kept")
        hard, soft = self.folder / "hard", self.folder / "soft"
        os.link(read, hard)
        soft.symlink_to(read)
        for name in (read, hard, soft, self.folder / ".." / self.folder.name / "read"):
            with self.assertRaisesRegex(ToolError, "also read"):
                files.write_all({self.folder / "other": "x", name: "y"}, [read])
        for one, other in [("x", "x"), ("hard", "read"), ("soft", "hard"), ("new", "./new")]:
            with self.assertRaisesRegex(ToolError, "one file"):
                files.write_all(
                    {os.path.join(self.folder, one): "1", f"{self.folder}/../{self.folder.name}/{other}": "2"}
                )
        with self.assertRaisesRegex(ToolError, "a folder"):
            files.write_all({read: "x", self.folder: "y"})
        self.assertEqual((read.read_text(), sorted(os.listdir(self.folder))), ("kept", ["hard", "read", "soft"]))

    def test_a_fault_at_any_step_leaves_all_as_it_was(self):
        names = {self.file("one", "1"): "a", self.folder / "new" / "two": "b", self.file("three", "3"): "c"}
        before = self.state()
        calls = {"os.replace": 3, "os.fchmod": 3, "put_into": 3}
        for call, count in calls.items():
            for at in range(count):
                real = {"os.replace": os.replace, "os.fchmod": os.fchmod, "put_into": files.put_into}[call]
                left = [at]

                def failing(*words: Any, **options: Any) -> Any:
                    left[0] -= 1
                    if left[0] == -1:
                        raise OSError(28, "No space left on device")
                    return real(*words, **options)

                with unittest.mock.patch(f"clearing_tools.files.{call}", failing):
                    with self.assertRaisesRegex(ToolError, "No space left"):
                        files.write_all(names)
                self.assertEqual(self.state(), before, (call, at))
                self.assertFalse((self.folder / "new").exists())
        with self.assertRaisesRegex(ToolError, "/dev/full: No space left"):
            files.write_all({**names, "/dev/full": "x"})
        self.assertEqual(self.state(), before)

    def test_a_stream_is_written_behind_what_is_there(self):
        out = self.file("out", "first\n")
        code = "from clearing_tools import files; files.write_all({'/dev/stdout': 'second\\n'})"
        os.system(f'cd {PACKAGES} && {sys.executable} -c "{code}" >>{out}')
        self.assertEqual(out.read_text(), "first\nsecond\n")

    def test_what_follows_a_stream_in_a_file_stays_behind_it(self):
        """The names of standard output and error move the place of the shell in its file, as a write to them does."""
        code = (
            "import sys; from clearing_tools import files; print('said'); files.write_all([(sys.argv[1], 'one\\n'),"
            " (sys.argv[1], 'two\\n')])"
        )
        for name, stream in (
            ("/dev/stdout", 1),
            ("/dev/fd/1", 1),
            ("/proc/self/fd/1", 1),
            ("/dev/stderr", 2),
            ("/dev/fd/3", 3),
        ):
            for how in (">", ">>", "<>"):
                with self.subTest(name=name, how=how):
                    out, said = self.file("out", "" if how == ">" else "old\n"), self.folder / "said"
                    first = "" if how == "<>" else "echo first >&8; "
                    script = f'{{ {first}"$0" -c "$1" {name} {stream}>&8 8>&-; echo last >&8; }} 8{how}"$2"'
                    run = ["sh", "-c", script, sys.executable, code, out]
                    with open(said, "wb") as rest:
                        done = subprocess.run(run, cwd=PACKAGES, stdout=rest, stderr=subprocess.PIPE, encoding="utf-8")
                    self.assertEqual((done.returncode, done.stderr), (0, ""))
                    wanted = (
                        ("old\n" if how == ">>" else "")
                        + ("first\n" if first else "")
                        + ("said\n" if stream == 1 else "")
                    )
                    self.assertEqual(out.read_text(), wanted + "one\ntwo\nlast\n")
                    self.assertEqual(said.read_text(), "" if stream == 1 else "said\n")

    def test_tools_write_to_a_stream_in_its_place(self):
        network = files_of(ROOT / "examples/chain")
        listed = self.file("list.csv", "debtor,creditor,amount\nA,B,5\n")
        table = self.file("table.csv", "name,cash,rule\nA,1,order\nB,2,equal\n")
        generated = ["--seed", 1, "--size", 4, "--tries", 9, "--debts", self.folder / "d.csv"]
        for name, words, option in [
            (
                "clearing-from-list",
                [
                    listed,
                    "--table",
                    table,
                    "--unit",
                    "1",
                    "--summary",
                    self.folder / "told.csv",
                    "--debts",
                    self.folder / "d.csv",
                ],
                "--banks",
            ),
            ("clearing-to-matrix", network, "--out"),
            ("clearing-gen-files", generated, "--banks"),
            ("clearing-breaking", network, "--output"),
            ("clearing-impact", network, "--matrix"),
        ]:
            with self.subTest(tool=name):
                made = self.file("made")
                self.made(name, *words, option, made)
                both = self.folder / "both"
                script = 'out=$1; shift; { echo first; "$@" || exit; echo last; } >"$out"'
                run = ["sh", "-c", script, "sh", both, *run_of(name), *words, option, "/dev/stdout"]
                done = subprocess.run(
                    list(map(str, run)), stdin=subprocess.DEVNULL, stderr=subprocess.PIPE, encoding="utf-8"
                )
                self.assertEqual((done.returncode, both.read_text()[:6]), (0, "first\n"), done.stderr)
                self.assertTrue(both.read_text().startswith(f"first\n{made.read_text()}"), both.read_text())
                self.assertTrue(both.read_text().endswith("\nlast\n"))
