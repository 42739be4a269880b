"""The table of what was run is made from docs/runs.tsv, and stands so in docs/PROVED.md."""
import re
import shutil
import subprocess
import sys
import unittest

from common import ROOT, Case, loaded, tool

runs = loaded(ROOT / "tools/dev/runs.py")
HEAD = "\t".join(runs.HEADER) + "\n"
COMMIT = "abcdef0123" * 4


class Runs(Case):
    def test_the_table_is_that_of_the_file(self):
        made = tool("dev/runs.py")
        self.assertEqual((made.returncode, made.stderr), (0, ""))
        tables = runs.PLACE.findall((ROOT / "docs/PROVED.md").read_text(encoding="utf-8"))
        self.assertEqual(tables, [made.stdout], "tools/dev/runs.py --write puts the table into docs/PROVED.md")

    def test_runs_of_a_program_are_put_together_and_the_last_stands_first(self):
        lines = [
            f"2026-11-01\t{COMMIT}\t01234567\tedge.sh\t\t7\t1",
            "2026-11-02\tnone\tnone\traces.sh\t3 1\t1000\t0",
            f"2026-11-03\t{COMMIT}+\t01234567\tedge.sh\twords\t5\t2",
        ]
        table = runs.table_of(runs.rows_of(HEAD + "\n".join(lines) + "\n"))
        head = "| date | commit | program | " + "".join(f"`{script}` | " for script in runs.SCRIPTS) + "wrong |\n"
        self.assertEqual(
            table,
            head + "|---" * 12 + "|\n"
            "| 2026-11-03 | `abcdef0+` | `01234567` | - | - | 12 | - | - | - | - | - | 3 |\n"
            "| 2026-11-02 | - | - | - | - | - | - | - | 1,000 | - | - | 0 |\n",
        )

    def test_each_script_that_records_has_a_column(self):
        """Those that write a line by --record are those of the columns, and PROVED says what each of them tries."""
        scripts = [*ROOT.glob("tests/system/*.sh"), *ROOT.glob("tools/dev/*.py")]
        told = {path.name: path.read_text(encoding="utf-8") for path in scripts}
        named = {name for name, text in told.items() if re.search(rf"{re.escape(name)} \[?--record", text)}
        self.assertEqual(sorted(named | {"test.sh"}), sorted(runs.SCRIPTS), "test.sh has lines of old runs")
        text = (ROOT / "docs/PROVED.md").read_text(encoding="utf-8").partition("## What was run")[2]
        listed = re.findall(r"^- `(?:[\w/]+/)?([\w.]+)` ", text, re.MULTILINE)
        self.assertEqual(sorted(listed), sorted(runs.SCRIPTS))

    def test_runs_without_a_commit_stand_in_one_row(self):
        lines = [
            f"2026-11-03\t{COMMIT}\t01234567\tedge.sh\t\t5\t0",
            "2026-11-04\tnone\tnone\traces.sh\t\t7\t0",
            "2026-11-05\tnone\t99999999\tedge.sh\t\t2\t1",
        ]
        rows = runs.table_of(runs.rows_of(HEAD + "\n".join(lines) + "\n")).splitlines()[2:]
        self.assertEqual(
            rows,
            [
                "| 2026-11-03 | `abcdef0` | `01234567` | - | - | 5 | - | - | - | - | - | 0 |",
                "| 2026-11-05 | - | - | - | - | 2 | - | - | 7 | - | - | 1 |",
            ],
        )

    def test_a_file_in_another_form_is_told(self):
        good = f"2026-11-01\t{COMMIT}\t01234567\tedge.sh\t\t7\t1\n"
        self.assertEqual(len(runs.rows_of(HEAD + good)), 1)
        alters = [
            ("2026-11-01\t", ""),
            (COMMIT, COMMIT[1:]),
            ("01234567", "012345678"),
            (".sh", ""),
            ("7\t1", "many\t1"),
            ("7\t1", "7"),
        ]
        wrong = [good.replace(*pair) for pair in alters]
        for text, told in (("date\n", "another head"), *((HEAD + line, "line 2") for line in wrong)):
            with self.assertRaisesRegex(SystemExit, told):
                runs.rows_of(text)

    def test_it_writes_the_table_into_the_document(self):
        """In a copy: a line more in the file, and nothing but the table changes."""
        for part in ("tools/dev/runs.py", "docs/PROVED.md", "docs/runs.tsv"):
            (self.folder / part).parent.mkdir(parents=True, exist_ok=True)
            shutil.copy(ROOT / part, self.folder / part)
        page = self.folder / "docs/PROVED.md"
        before = page.read_text(encoding="utf-8")
        with open(self.folder / "docs/runs.tsv", "a", encoding="utf-8") as file:
            file.write(f"2030-01-01\t{COMMIT}\t01234567\tedge.sh\t\t7\t1\n")
        done = subprocess.run(
            [sys.executable, str(self.folder / "tools/dev/runs.py"), "--write"], capture_output=True, encoding="utf-8"
        )
        self.assertEqual((done.returncode, done.stdout, done.stderr), (0, "", ""))
        after = page.read_text(encoding="utf-8")
        self.assertEqual(runs.PLACE.sub("", after), runs.PLACE.sub("", before))
        self.assertIn("| 2030-01-01 | `abcdef0` | `01234567` |", after)


if __name__ == "__main__":
    unittest.main()
