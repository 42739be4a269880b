"""The edits beside the gate are each tried, and each is told as what it is, with a toolchain that reads a function's
body as its verdict."""
import hashlib
import os
import re
import subprocess
import sys
import time

from common import ROOT, Case, Word, loaded

edits = loaded(ROOT / "tools/dev/edits.py")

# Refuses each function with the word `wrong`; those with `above` only where no other is refused, as a caller is hidden
# by what it calls.
RT = """#!{python}
import pathlib, re, sys
open("{calls}", "a").write(" ".join(sys.argv[1:]) + "\\n")
text = pathlib.Path("src/lib.rt").read_text()
functions = dict(re.findall(r"^fn (\\w+)\\(\\) {{\\n(.*?)^}}", text, re.M | re.S))
if "unknown" in text:
    print("src/lib.rt: error: `unknown` is not in scope")
    sys.exit(1)
refused = [name for name, body in functions.items() if "wrong" in body]
hidden = [name for name in refused if "above" in functions[name] and len(refused) > 1]
for name in functions:
    if name in refused and name not in hidden:
        print(f"fn low::{{name}}: not proved")
    elif name in hidden:
        print(f"fn low::{{name}}: no proof: it calls {{refused[0]}}, which is not proved")
print("logic=" + ("not-proved" if refused else "proved"))
sys.exit(1 if refused else 0)
"""
SOURCE = "".join(
    f"fn {name}() {{\n    {body}\n}}\n\n"
    for name, body in (("one", "1"), ("two", "2"), ("three", "above 3"), ("four", "4"))
)


class Beside(Case):
    """A repository of one crate with four functions."""

    def setUp(self):
        super().setUp()
        self.root, self.calls = self.folder / "a repository", self.folder / "calls"
        for part in ("src", "edits", "must-fail"):
            (self.root / "crates/low" / part).mkdir(parents=True)
        (self.root / "crates.txt").write_text("low:\n")
        (self.root / "crates/low/src/lib.rt").write_text(SOURCE)
        (self.folder / "commands").mkdir()
        rt = self.folder / "commands/rt"
        rt.write_text(RT.format(python=sys.executable, calls=self.calls))
        rt.chmod(0o755)

    def edit(self, name: str, old: str, new: str, folder: str = "edits") -> None:
        (self.root / "crates/low" / folder / f"{name}.edit").write_text(f"file: src/lib.rt\nold: {old}\nnew: {new}\n")

    def ran(self, *words: Word) -> "subprocess.CompletedProcess[str]":
        environment = {**os.environ, "PATH": f"{self.folder / 'commands'}:{os.environ['PATH']}"}
        command = [sys.executable, ROOT / "tools/dev/edits.py", *words]
        return subprocess.run(command, cwd=self.root, env=environment, capture_output=True, encoding="utf-8")

    def checks(self) -> int:
        return len(self.calls.read_text().splitlines())

    def test_all_of_a_crate_are_tried_at_once(self):
        self.edit("first", "    1", "    wrong 1")
        self.edit("second", "    2", "    wrong 2")
        self.edit("in_the_gate", "    4", "    wrong 4", "must-fail")
        done = self.ran()
        ended = done.returncode, done.stdout.splitlines()[-1]
        self.assertEqual(ended, (0, "2 refused, 0 failed"), done.stdout + done.stderr)
        self.assertIn("low/first: refused: one: not proved\n", done.stdout)
        self.assertEqual(self.checks(), 2, "the crate as it is, and both edits")
        self.assertEqual(self.ran("--gate").stdout.splitlines()[-1], "3 refused, 0 failed")
        self.assertEqual((self.root / "crates/low/src/lib.rt").read_text(), SOURCE, "the sources are as they were")

    def test_one_that_another_hides_is_tried_without_it(self):
        self.edit("first", "    1", "    wrong 1")
        self.edit("hidden", "    above 3", "    above wrong 3")
        self.assertEqual(self.ran().stdout.splitlines()[-1], "2 refused, 0 failed")
        self.assertEqual(self.checks(), 3)

    def test_one_that_is_proved_fails(self):
        self.edit("harmless", "    2", "    3")
        self.edit("first", "    1", "    wrong 1")
        done = self.ran()
        self.assertEqual((done.returncode, done.stdout.splitlines()[-1]), (1, "1 refused, 1 failed"))
        self.assertIn("low/harmless: NOT REFUSED", done.stdout)

    def test_one_that_cannot_be_planted_or_read_fails(self):
        self.edit("nowhere", "    5", "    wrong")
        self.edit("unread", "    2", "    unknown")
        self.edit("first", "    1", "    wrong 1")
        done = self.ran()
        self.assertEqual((done.returncode, done.stdout.splitlines()[-1]), (1, "1 refused, 2 failed"), done.stdout)
        self.assertIn("low/nowhere: BAD EDIT: an 'old:' text is in src/lib.rt 0 times", done.stdout)
        self.assertIn("low/unread: BAD EDIT: it did not reach the prover", done.stdout)

    def test_a_crate_that_is_not_proved_shows_nothing(self):
        (self.root / "crates/low/src/lib.rt").write_text(SOURCE.replace("    4", "    wrong 4"))
        self.edit("first", "    1", "    wrong 1")
        done = self.ran()
        self.assertEqual((done.returncode, done.stdout.splitlines()[-1]), (1, "0 refused, 1 failed"))
        self.assertIn("low is not proved as it is", done.stdout)

    def test_a_crate_that_is_not_there_is_told(self):
        self.assertEqual(self.ran("high").returncode, 2)
        self.assertEqual(self.ran("--every").returncode, 2)

    def test_what_was_tried_is_recorded_where_it_is_asked_for(self):
        self.edit("first", "    1", "    wrong 1")
        self.edit("harmless", "    2", "    3")
        (self.root / "docs").mkdir()
        runs, program = self.root / "docs/runs.tsv", self.root / "crates/clear_main/out/clear_main"
        self.assertEqual(self.ran("low", "--record").returncode, 2, "there is no program of which the line would speak")
        program.parent.mkdir(parents=True)
        program.write_bytes(b"program")
        self.ran("low")
        self.assertFalse(runs.exists())
        self.ran("low", "--record")
        head, line = runs.read_text().splitlines()
        self.assertEqual(head.split("\t"), ["date", "commit", "program", "script", "arguments", "cases", "wrong"])
        day = time.strftime("%Y-%m-%d", time.gmtime())
        program_sum = hashlib.sha256(b"program").hexdigest()
        self.assertEqual(line.split("\t"), [day, "none", program_sum, "edits.py", "low", "2", "1"])


class OfTheRepository(Case):
    def test_each_edit_can_be_planted(self):
        """All edits, in and beside the gate: each old text stands once in its file."""
        for folder in ("must-fail", "edits"):
            for file in sorted((ROOT / "crates").glob(f"*/{folder}/*.edit")):
                with self.subTest(edit=file.relative_to(ROOT)):
                    edit = edits.Edit(file.parents[1], file)
                    self.assertTrue(edit.pairs)

    def test_no_name_is_that_of_two_edits(self):
        for crate in sorted((ROOT / "crates").iterdir()):
            names = [file.name for folder in ("must-fail", "edits") for file in (crate / folder).glob("*.edit")]
            self.assertEqual(sorted(names), sorted(set(names)), crate.name)

    def test_the_gate_tries_five_of_a_crate_at_most(self):
        for folder in sorted((ROOT / "crates").glob("*/must-fail")):
            self.assertLessEqual(len(list(folder.iterdir())), 5, folder.parent.name)
            self.assertFalse([path for path in folder.iterdir() if not re.fullmatch(r"\w+\.edit", path.name)], folder)
