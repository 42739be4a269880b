"""The commands in the guide and beside the examples print what stands there.

`python3 test_docs.py PAGE` runs a page and writes anew what its commands print.
"""
import pathlib
import re
import subprocess
import sys
import unittest
from typing import Any

from common import ROOT, Case
from pages import BLOCK, output_of, page_run

PAGES = ["docs/GUIDE.md", "docs/DATA.md", "docs/INTERPRETING.md", "examples/README.md"]
# The last author of what is cited, and the year: `Eisenberg and Noe (2001)`, or the same all in brackets; a line may
# end between.
CITED = re.compile(r"([A-Z][^\W\d_]+),?\s(?:\s*//[/!]? )?\(?((?:18|19|20)[0-9]{2})\)")


class Pages(Case):
    maxDiff = None

    def test_head_does_not_break_the_pipe_that_it_reads(self):
        command = "(trap '' PIPE; echo one; sleep 0.2; echo two || echo broken >&2) | head -1; echo status $?"
        self.assertEqual(output_of(command, self.folder), "one\nstatus 0\n")

    def test_commands_print_what_the_pages_say(self):
        for page in PAGES:
            with self.subTest(page=page):
                text = (ROOT / page).read_text(encoding="utf-8")
                self.assertIn("$ ", text)
                self.assertEqual(page_run(text).splitlines(), text.splitlines())

    def test_no_command_closes_the_pipe_into_which_the_program_writes(self):
        """A program whose reader has gone says that it cannot write, or does not, as the two happen to run. `sed -n`
        reads to the end."""
        for path in [*ROOT.glob("*.md"), *(ROOT / "docs").glob("*.md"), ROOT / "examples/README.md"]:
            lines = [line for block in BLOCK.findall(path.read_text(encoding="utf-8")) for line in block.splitlines()]
            self.assertEqual(
                [line for line in lines if re.search(r"clearing .*\| *(head|grep -[a-zA-Z]*[qm])", line)], [], path.name
            )

    def test_the_page_of_examples_names_each(self):
        text = (ROOT / "examples/README.md").read_text(encoding="utf-8")
        for folder in sorted((ROOT / "examples").iterdir()):
            if folder.is_dir():
                self.assertIn(f"`{folder.name}`", text)

    def test_what_is_cited_stands_among_the_references(self):
        listed = [
            " ".join(entry.split())
            for entry in (ROOT / "docs/REFERENCES.md").read_text(encoding="utf-8").split("\n- ")[1:]
        ]
        cited = set()
        for pattern in (
            "*.md",
            "docs/*.md",
            "python/src/clearing_tools/**/*.py",
            "crates/*/src/**/*.rt",
            "python/src/**/*.py",
        ):
            for path in ROOT.glob(pattern):
                if path.name != "REFERENCES.md":
                    cited |= set(CITED.findall(path.read_text(encoding="utf-8")))
        self.assertIn(("Herings", "2018"), cited)
        for name, year in sorted(cited):
            self.assertTrue(
                any(name in entry.partition(")")[0] and f"({year})" in entry for entry in listed), (name, year)
            )


class Crates(unittest.TestCase):
    def test_the_files_of_a_crate_that_changes_begin_with_are_there(self):
        """CONTRIBUTING names them after the crate that they belong to."""
        text = (ROOT / "CONTRIBUTING.md").read_text(encoding="utf-8")
        self.assertEqual(lost_files(text), [])
        self.assertEqual(
            lost_files("1. `settle` (`src/none.rt`)\n2. `settle` (`src/plan.rt`)\n"), ["settle: src/none.rt"]
        )


def lost_files(text: str) -> Any:
    """The files of src/, specs/ and proofs/ that an item of a list names, and that none of the item's crates has."""
    lost = []
    for item in re.split(r"\n(?=\d+\. |- |\n)", text):
        crates = [name for name in re.findall(r"`([a-z_]+)`", item) if (ROOT / "crates" / name).is_dir()]
        lost += [
            f"{', '.join(crates)}: {file}"
            for file in re.findall(r"`((?:src|specs|proofs)/[\w/]+\.(?:rt|antt))`", item)
            if crates and not any((ROOT / "crates" / crate / file).is_file() for crate in crates)
        ]
    return lost


class Commits(unittest.TestCase):
    def test_each_commit_that_a_document_names_is_there(self):
        git = ["git", "-C", str(ROOT)]
        shallow = subprocess.run([*git, "rev-parse", "--is-shallow-repository"], capture_output=True, encoding="utf-8")
        if shallow.stdout != "false\n":
            self.skipTest("the folder has no history")
        named = {
            commit
            for path in [ROOT / "README.md", *(ROOT / "docs").glob("*.md")]
            for commit in re.findall(r"`([0-9a-f]{7})`", path.read_text(encoding="utf-8"))
        }
        found = subprocess.run(
            [*git, "cat-file", "--batch-check=%(objecttype)"],
            input="\n".join(sorted(named)),
            capture_output=True,
            encoding="utf-8",
        ).stdout.splitlines()
        self.assertEqual(
            [(name, kind) for name, kind in zip(sorted(named), found, strict=True) if kind != "commit"], []
        )


if __name__ == "__main__":
    for page in sys.argv[1:]:
        path = pathlib.Path(page)
        path.write_text(page_run(path.read_text(encoding="utf-8")), encoding="utf-8")
