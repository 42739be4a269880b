"""The pages of the manual: one for each tool, with the words of its help."""
import os
import pathlib
import re
import subprocess
from typing import List

from common import ROOT, Case, needs, tool


class Man(Case):
    def pages(self) -> List[pathlib.Path]:
        self.made("dev/man.py", "--out", self.folder / "man")
        return sorted((self.folder / "man").iterdir())

    def test_each_tool_has_a_page_with_the_words_of_its_help(self):
        tools = sorted((ROOT / "bin").iterdir())
        self.assertEqual([page.name for page in self.pages()], [f"{path.name}.1" for path in tools])
        for path in tools:
            page = (self.folder / f"man/{path.name}.1").read_text()
            plain = page.replace("\\-", "-")
            for option in re.findall("--[a-z][a-z-]+", tool(path.name, "--help").stdout):
                self.assertIn(option, plain, path.name)
            for part in (".SH NAME", ".SH SYNOPSIS", ".SH DESCRIPTION"):
                self.assertIn(part, page)

    def test_the_page_of_the_program_names_the_page_of_each_tool(self):
        below = (ROOT / "docs/clearing.1").read_text().partition(".SH SEE ALSO\n")[2]
        named = re.findall(r"^\.BR (clearing-\S+) \(1\)", below, re.MULTILINE)
        self.assertEqual(named, sorted(path.name for path in (ROOT / "bin").iterdir()))

    @needs("mandoc")
    def test_pages_are_in_form(self):
        for page in [*self.pages(), ROOT / "docs/clearing.1"]:
            done = subprocess.run(
                ["mandoc", "-T", "lint", "-W", "warning", str(page)], capture_output=True, encoding="utf-8"
            )
            wrong = [line for line in done.stdout.splitlines() if "missing date" not in line]
            self.assertEqual(wrong, [], page.name)

    @needs("man", "nroff")
    def test_pages_are_shown_at_80_columns(self):
        for page in [*self.pages(), ROOT / "docs/clearing.1"]:
            self.shown(page)

    @needs("man", "nroff")
    def test_the_page_of_the_program_fits_80_columns(self):
        lines = re.sub(".\b", "", self.shown(ROOT / "docs/clearing.1")).splitlines()
        self.assertGreater(len(lines), 100)
        self.assertEqual([line for line in lines if len(line) > 80], [])

    def shown(self, page: pathlib.Path) -> str:
        """What `man` shows of a page at 80 columns."""
        done = subprocess.run(
            ["man", "--warnings", "-l", str(page)],
            stdin=subprocess.DEVNULL,
            capture_output=True,
            encoding="utf-8",
            env={**os.environ, "MANWIDTH": "80", "LC_ALL": "C.UTF-8"},
        )
        self.assertEqual((done.returncode, done.stderr), (0, ""), page.name)
        return done.stdout

    def test_what_is_no_tool_is_refused(self):
        none = self.file("none", "#!/usr/bin/env python3\nimport sys; sys.exit('no help')\n")
        before = none.read_bytes()
        self.refused("dev/man.py", 1, "--help ends with 1", none, "--out", self.folder / "man")
        self.assertFalse((self.folder / "man").exists())
        self.assertEqual(none.read_bytes(), before)

    def test_the_page_of_the_program_has_what_the_formats_say(self):
        formats = (ROOT / "docs/FORMATS.md").read_text(encoding="utf-8")
        page = (ROOT / "docs/clearing.1").read_text(encoding="utf-8").replace("\\-", "-")
        table = formats.partition("| number | kind |")[2].partition("\n\n")[0]
        faults = re.findall(r"^\| ([0-9]+) \| ([a-z ]+) \| (.*) \|$", table, re.MULTILINE)
        self.assertGreaterEqual(len(faults), 17)
        for number, kind, _ in faults:
            self.assertRegex(page, rf"(?m)^{number}\|{kind}\|")
        self.assertEqual(len(re.findall(r"(?m)^[0-9]+\|", page)), len(faults))
        statuses = re.findall(r"^\| ([0-9]) \| .* \| (?:`(.*)`|none) \|$", formats, re.MULTILINE)
        self.assertEqual(len(statuses), 7)
        for status, message in statuses + [("8", "")]:
            self.assertIn(f".TP\n.B {status}\n", page)
            self.assertIn(message, page)
        tasks = re.findall(
            r"^\| `([a-z-]+)` \| ", formats.partition("| task | what it does |")[2].partition("\n\n")[0], re.MULTILINE
        )
        options = set(re.findall(r"`(--[a-z]+)`", formats)) - {"--help", "--version"}
        self.assertEqual((len(tasks), len(options)), (17, 13))
        for word in [
            *(f".B {task}\n" for task in tasks),
            *options,
            *(f"[[{table}]]" for table in ("scenario", "scenario.loss")),
            *(f".TP\n.B {key}\n" for key in ("name", "cut", "loss")),
            ".B bank\n(a name",
            ".B amount\n(0",
            "/dev/stdin",
            "| head -4",
            "order",
            "equal",
            "losses",
            "jefferson",
            "webster",
            "adams",
        ]:
            self.assertIn(word, page)
