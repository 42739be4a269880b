"""The report as a document: Word and PDF have the parts of the page; the analyst's text is read and does nothing."""
import pathlib
import shutil
import subprocess
import sys
import unittest
from typing import Optional

from common import Case, needs, tool
from pythons import python_with
from reports import PYTHON, TWELVE, Report, files_of

from clearing_tools.report import markdown

DOCX = python_with("jinja2", "docx")
READ = """
import docx, json, sys
found = docx.Document(sys.argv[1])
tables = [[[c.text for c in r.cells] for r in t.rows] for t in found.tables]
print(json.dumps([[p.text for p in found.paragraphs], tables,
                  len(found.inline_shapes), found.sections[0].header.paragraphs[0].text]))
"""


class Documents(Report):
    def made(self, name: str, python: Optional[str]) -> pathlib.Path:
        out = self.folder / name
        done = tool(
            "clearing-report",
            *files_of(TWELVE),
            "--scenarios",
            TWELVE / "scenarios.toml",
            "--unit",
            "1000",
            "--currency",
            "EUR",
            "--title",
            "Twelve",
            "--out",
            out,
            python=python,
        )
        self.assertEqual((done.returncode, done.stdout, done.stderr), (0, "", ""))
        return out

    @unittest.skipUnless(DOCX, "no Python here has docx (Debian's package python3-docx)")
    def test_word_has_the_parts_of_the_page(self):
        import json

        done = subprocess.run(
            [DOCX, "-c", READ, self.made("r.docx", DOCX)], capture_output=True, encoding="utf-8", check=True
        )
        texts, tables, pictures, header = json.loads(done.stdout)
        said = "\n".join(texts)
        self.assertEqual(texts[0], "Four of twelve banks leave EUR 1.49 billion unpaid")
        for words in (
            "Figure 1. Dunmore leaves the most unpaid",
            "Figure 4. Unpaid is not loss",
            "Table 1. The rule matters",
            "What this says and what not",
            "The evidence",
            "Left out: fire sales, maturities, runs",
        ):
            self.assertIn(words, said)
        self.assertNotIn("U+00A0", said)
        self.assertEqual(header, "Clearing report: Twelve")
        self.assertEqual(pictures, 5 if shutil.which("chromium") else 0)
        banks = next(table for table in tables if table[0][:2] == ["Bank", "State"])
        self.assertEqual(banks[1], ["Dunmore", "own fundamentals", "2,100", "1,400", "700", "0", "700", "now"])
        self.assertEqual(len(banks), 14)

    @needs("chromium", "pdftotext")
    def test_pdf_is_the_page_as_it_is_printed(self):
        out = self.made("r.pdf", PYTHON)
        text = subprocess.run(
            ["pdftotext", "-layout", out, "-"], capture_output=True, encoding="utf-8", check=True
        ).stdout
        pages = text.split("\f")[:-1]
        self.assertLessEqual(len(pages), 5)
        self.assertIn("Four of twelve banks leave", text)
        for at, page in enumerate(pages, 1):
            self.assertIn(f"page {at} of {len(pages)}", page)
            self.assertIn("Clearing report: Twelve", page)

    def test_what_is_missing_is_named(self):
        words = [*map(str, files_of(TWELVE)), "--out", str(self.folder / "r.docx")]
        program = (
            f"import sys; sys.modules['docx'] = None; sys.argv = ['report.py', *{words!r}]; from clearing_tools.report"
            " import command; command.main()"
        )
        from common import PACKAGES

        done = subprocess.run([PYTHON, "-B", "-c", program], cwd=PACKAGES, capture_output=True, encoding="utf-8")
        self.assertEqual((done.returncode, done.stdout), (2, ""))
        self.assertIn("python3-docx", done.stderr)
        done = tool(
            "clearing-report", *files_of(TWELVE), "--out", self.folder / "r.html", "--format", "odt", python=PYTHON
        )
        self.assertEqual(done.returncode, 2)


class Analyst(Case):
    TEXT = (
        "# Head\n\nThe *return* of **November**, `x < y`.\n\n- one\n-"
        " <script>alert(1)</script>\n\n[a](javascript:alert(1)) ![b](http://x/y.png) <b>c</b>\u202e"
    )

    def test_the_text_is_read_as_markdown_and_does_nothing(self):
        made = markdown.html_of(self.TEXT)
        self.assertNotIn("<script", made)
        self.assertNotIn("href", made)
        self.assertNotIn("src=", made)
        self.assertNotIn("<b>", made)
        self.assertIn("&lt;script&gt;alert(1)&lt;/script&gt;", made)
        self.assertIn("&lt;U+202E&gt;", made)
        if markdown.reader() is not None:
            for part in (
                "<h3>Head</h3>",
                "<em>return</em>",
                "<strong>November</strong>",
                "<code>x &lt; y</code>",
                "<li>one</li>",
            ):
                self.assertIn(part, made)
        self.assertEqual(markdown.html_of(" \n"), "")

    def test_without_the_library_it_stands_as_it_was_written(self):
        program = (
            "import sys; sys.modules['markdown_it'] = None; from clearing_tools.report import markdown;"
            " print(markdown.html_of('a *b*\\n\\n<c>'))"
        )
        from common import PACKAGES

        done = subprocess.run(
            [sys.executable, "-B", "-c", program], cwd=PACKAGES, capture_output=True, encoding="utf-8"
        )
        self.assertEqual((done.stdout, done.stderr), ("<p>a *b*</p><p>&lt;c&gt;</p>\n", ""))
