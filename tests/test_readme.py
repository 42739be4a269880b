"""The README: its command prints what stands there, its files are the example's, and its tables have each task and
each rule."""
import re
import shlex
import subprocess
import unittest

from common import PROGRAM, ROOT

import clearing_client.format

TEXT = (ROOT / "README.md").read_text(encoding="utf-8")
ALL_BLOCKS = re.findall(r"^```(\w*)\n(.*?)^```$", TEXT, re.MULTILINE | re.DOTALL)
BLOCKS = [text for language, text in ALL_BLOCKS if not language]


class Readme(unittest.TestCase):
    def test_its_first_command_prints_what_it_says(self):
        """The first look and the proved program have the same words; what is there is what the proved one prints."""
        words = shlex.split(BLOCKS[0])
        self.assertEqual(
            [words[0], BLOCKS[2]], ["./first-look", shlex.join(["./clearing", *words[1:]]) + "\n.ci/run\n"]
        )
        done = subprocess.run(
            [PROGRAM, *words[1:]], cwd=ROOT, stdin=subprocess.DEVNULL, capture_output=True, encoding="utf-8"
        )
        self.assertEqual((done.returncode, done.stdout), (0, BLOCKS[1]))

    def test_its_table_has_each_task_of_the_program(self):
        sources = (ROOT / "crates/clear_words/src/task.rt").read_text(encoding="utf-8")
        tasks = re.findall(r'"([a-z-]+)" => Some\(Task::', sources)
        table = TEXT[TEXT.index("| task | answers |") : TEXT.index("| rule | how |")]
        cells = re.findall(r"^\| (`[a-z-]+`(?:, `[a-z-]+`)?) \|", table, re.MULTILINE)
        self.assertEqual(sorted(task for cell in cells for task in re.findall("`(.*?)`", cell)), sorted(tasks))

    def test_the_files_that_it_shows_are_those_of_the_example(self):
        shown = [text for language, text in ALL_BLOCKS if language == "csv"]
        files = [(ROOT / "examples/chain" / name).read_text(encoding="utf-8") for name in ("banks.csv", "debts.csv")]
        self.assertEqual(shown, files)

    def test_its_rules_are_those_of_the_program(self):
        table = TEXT[TEXT.index("| rule | how |") :]
        rules = re.findall(r"^\| `([a-z]+)` \|", table, re.MULTILINE)
        self.assertEqual(rules, list(clearing_client.format.RULES))

    def test_its_minutes_are_those_that_were_measured(self):
        """README and PYTHON say how long the first call takes, in steps of five minutes, as SPEED has it measured."""
        speed = (ROOT / "docs/SPEED.md").read_text(encoding="utf-8")
        first = r"^\| the first call of `\./clearing` \|.*\n\| the same on two processors \|.*$"
        rows = re.search(first, speed, re.MULTILINE)[0].splitlines()
        clocks = [clock for row in rows for clock in re.findall(r"\b(\d+):(\d\d)\b", row.split("|")[2])]
        measured = [int(minutes) + int(seconds) / 60 for minutes, seconds in clocks]
        self.assertEqual(len(measured), 3)
        said = f"{5 * round(min(measured) / 5)} to {5 * round(max(measured) / 5)} minutes"
        self.assertIn(f"The first call takes {said}, depending on the machine", " ".join(TEXT.split()))
        python = " ".join((ROOT / "docs/PYTHON.md").read_text(encoding="utf-8").split())
        self.assertIn(f"proves and builds it, which takes {said}", python)

    def test_the_headline_is_a_click_away(self):
        """The clause and the row that carry the theorem stand in the files that the README links to."""
        clause, row = (
            re.search(r"\[`clear_top::run`\]\((\S+)\)", TEXT)[1],
            re.search(r"\[`Settles`\]\((\S+)\)", TEXT)[1],
        )
        self.assertRegex((ROOT / clause).read_text(encoding="utf-8"), r"pub fn run[\s\S]*ensures ends \{ RunEnds")
        self.assertIn("pub record Settles", (ROOT / row).read_text(encoding="utf-8"))


if __name__ == "__main__":
    unittest.main()
