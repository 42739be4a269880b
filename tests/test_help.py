"""Each tool has a help in one layout, and refuses words that it does not know."""
from typing import List
from common import ROOT, Case

TOOLS = sorted((ROOT / "bin").iterdir())


HEADS = ("In:", "Out:", "Ends with 0")


def faults_of(said: str) -> List[str]:
    """What is wrong with the layout of a help text: a head that begins no line, and a line of the paragraphs of In
    and Out that does not stand below their text."""
    faults = [head for head in HEADS if sum(line.startswith(head) for line in said.split("\n")) != 1]
    start = min((place for place in map(said.find, ("\nIn:", "\nOut:")) if place >= 0), default=0)
    lines = said[start:].strip("\n").partition("\n\n")[0].split("\n")
    return faults + [line for line in lines if not line.startswith(("In:", "Out:", " "))]


class Help(Case):
    def test_a_text_that_was_broken_at_another_place_is_told(self):
        whole = "usage: x\n\nIn:  a file\n     of records\nOut: a file\n\nEnds with 0.\n"
        self.assertEqual(faults_of(whole), [])
        for broken, told in (
            (whole.replace("\nOut:", " Out:"), ["Out:"]),
            (whole.replace("\n     of", "\nof"), ["of records"]),
            (whole.replace("Ends", "It ends\n Ends"), ["Ends with 0"]),
        ):
            self.assertEqual(faults_of(broken), told)

    def test_each_tool_has_help_and_refuses_other_words(self):
        self.assertIn(ROOT / "bin/clearing-lint", TOOLS)
        for path in TOOLS:
            with self.subTest(tool=path.name):
                said = self.made(path.name, "--help")
                # This one's help begins with its three lines, as that of a script does.
                many = path.name == "clearing-many"
                self.assertIn(path.name if many else "usage:", said)
                self.assertEqual(faults_of(said), [])
                # What other words are is just what this tool says.
                if path.name != "clearing-why":
                    self.refused(path.name, 2, "--help says more" if many else "error:", "--no-such-word")
