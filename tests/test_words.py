"""The words that results are said in: nothing that no result says stands on a page, in a picture or in a document."""
import ast
import pathlib
import re
import unittest
from typing import Any, Iterator

from common import PACKAGES, ROOT, needs_checkout

import wording

TOOLS = PACKAGES / "clearing_tools"
SEEN = ("report", "drawing", "desk", "labels.py", "money.py")


def files(*kinds: str) -> Iterator[pathlib.Path]:
    """The files of the rooms whose texts stand on a page or in a picture."""
    for name in SEEN:
        place = TOOLS / name
        for path in [place] if place.is_file() else sorted(place.rglob("*")):
            if path.suffix in kinds:
                yield path


def texts_of(path: pathlib.Path) -> Iterator[Any]:
    """The texts of a Python file that people may read: constants and the fixed parts of others, without what
    documents the code."""
    tree = ast.parse(path.read_text(encoding="utf-8"))
    documents = {
        id(node.body[0].value)
        for node in ast.walk(tree)
        if isinstance(node, (ast.Module, ast.ClassDef, ast.FunctionDef))
        and node.body
        and isinstance(node.body[0], ast.Expr)
    }
    for node in ast.walk(tree):
        if isinstance(node, ast.JoinedStr):
            yield "X".join(part.value if isinstance(part, ast.Constant) else "" for part in node.values)
        elif isinstance(node, ast.Constant) and isinstance(node.value, str) and id(node) not in documents:
            yield node.value


class Words(unittest.TestCase):
    def test_what_no_result_says_is_found(self):
        for text in (
            "what creditors lose",
            "Others lose",
            "Lost by banks",
            "Contagion from Isar",
            "Birk and Elbe fall because those do not",
            "by another cause",
            "it brings down 3",
            "brought down by it",
        ):
            self.assertTrue(wording.faults_in(text), text)
        self.assertFalse(
            wording.faults_in("Contagion is a label, not a cause: no debtor is named. Kemi and Havel lose their cash.")
        )
        for text in ("The cause of it", "who brought the bank down", "it falls, because"):
            self.assertTrue(wording.faults_in(text, on_page=True), text)
        for pattern, instead in wording.ON_PAGES:
            self.assertFalse(wording.faults_in(instead, on_page=True), pattern)

    def test_pages_and_pictures_say_nothing_of_it(self):
        found = []
        for path in files(".html", ".mjs"):
            # What stands behind // says what the script does.
            text = re.sub(r"(?m)^\s*//.*$|/\*\*(?s:.*?)\*/", "", path.read_text(encoding="utf-8"))
            found += [(path.name, fault) for fault in wording.faults_in(text, on_page=True)]
        for path in [*files(".py"), *sorted((TOOLS / "analysis").glob("*.py"))]:
            found += [(path.name, fault) for text in texts_of(path) for fault in wording.faults_in(text, on_page=True)]
        self.assertEqual(found, [])

    def test_documents_and_helps_say_nothing_of_it(self):
        found = []
        for path in [
            ROOT / "README.md",
            *sorted((ROOT / "docs").glob("*.md")),
            *sorted((ROOT / "examples").rglob("*.md")),
        ]:
            found += [
                (path.name, fault) for fault in wording.faults_in(" ".join(path.read_text(encoding="utf-8").split()))
            ]
        for path in sorted(TOOLS.rglob("*.py")):
            found += [(path.name, fault) for fault in wording.faults_in(path.read_text(encoding="utf-8"))]
        self.assertEqual(found, [])

    def test_nothing_says_that_what_is_printed_is_proved(self):
        """The computation is proved. That the program reads the files and writes its output rightly is tested."""
        kinds = (
            "*.md",
            "*.cff",
            "docs/*.*",
            "tools/*.sh",
            "tools/dev/*.sh",
            "r/DESCRIPTION",
            "r/man/*.Rd",
            "r/vignettes/*",
        )
        kinds += ("python/*.md", "python/src/**/*.py")
        pages = [path for kind in kinds for path in sorted(ROOT.glob(kind)) if path.suffix not in (".svg", ".png")]
        proved = r"(?i)\b(results?|answers?|prints|outputs?|texts?) (?:is|are) proved\b"
        self.assertRegex("What it prints is proved.", proved)
        texts = {str(path.relative_to(ROOT)): " ".join(path.read_text(encoding="utf-8").split()) for path in pages}
        self.assertEqual([name for name, text in texts.items() if re.search(proved, text)], [])

    @needs_checkout
    def test_comments_of_the_crates_give_no_reason_for_a_default(self):
        """A label compares. It says not why a bank defaults."""
        found = [
            (str(path.relative_to(ROOT)), line.strip())
            for kind in ("rt", "antt")
            for path in sorted(ROOT.glob(f"crates/*/*/**/*.{kind}"))
            for line in path.read_text(encoding="utf-8").splitlines()
            if re.match(r"\s*(?://|--)", line) and re.search(r"default.*\band why\b", line)
        ]
        self.assertEqual(found, [])
