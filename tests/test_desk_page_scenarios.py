"""Scenarios that are built on the desk's page, sessions that are opened elsewhere, and the tour of the guide."""
import re
import unittest
from typing import List

from common import ROOT, TWELVE, files_of
from desk import SCENARIOS, standings
from desk_page import DeskPage, strip

# The account of Fjord in the tour: what each line is called, and its units.
FJORD = [
    ("All its cash, and all debtors pay", 1965000),
    ("loss of its cash", -1000000),
    ("unpaid by Birk", -500000),
    ("unpaid by Isar", -500000),
    ("debts outside", 0),
    ("Left; below 0: lacking", -35000),
]


class Scenarios(DeskPage):
    def test_a_scenario_of_the_file_sets_the_cut_and_says_so(self):
        self.open(None, "--scenarios", SCENARIOS)
        self.slide("cut", 500)
        self.until_state(1)
        self.pick("scenario", "2")
        self.until_state(2)
        self.assertEqual(
            self.text("set-cut"), "The scenario sets the cut to 0 per mille; it was 500. Undo takes it back."
        )
        self.click("undo")
        self.until_state(1)
        self.assertEqual(self.js("return document.getElementById('cut').value"), "500")

    def build_three_at_once(self) -> List[List[str]]:
        """Opens the desk, builds a scenario of three banks, and tells what the program says of it."""
        self.open(None, "--scenarios", SCENARIOS)
        self.click("build-open")
        self.build([("Kemi", "2,000,000"), ("Havel", "4000000"), ("Isar", "1000000")], "Three at once", "100")
        self.until_state(1)
        mine = '[[scenario]]\nname = "s"\ncut = 100\n' + "".join(
            f'[[scenario.loss]]\nbank = "{bank}"\namount = {amount}\n'
            for bank, amount in (("Kemi", 2000000), ("Havel", 4000000), ("Isar", 1000000))
        )
        return standings("stress", *files_of(TWELVE), "--scenarios", self.file("mine.toml", mine))

    def test_a_scenario_of_three_banks_is_built_and_cleared(self):
        banks = self.build_three_at_once()
        self.assertIn("Three at once", self.text("changes"))
        self.assertEqual(self.js("return document.getElementById('scenario').selectedOptions[0].text"), "Three at once")
        self.assertEqual(self.text("sum-keeps"), f"{sum(int(row[4]) for row in banks):,} units")

    def test_a_scenario_that_was_built_is_written_behind_those_that_were_given(self):
        banks = self.build_three_at_once()
        text = self.taken("scenarios").decode()
        names = re.findall('name = "(.*)"', text)
        self.assertEqual(names, [*re.findall('name = "(.*)"', SCENARIOS.read_text()), "Three at once"])
        # And the program reads it.
        written, given = (
            self.printed("outcomes", *files_of(TWELVE), "--scenarios", file).splitlines()
            for file in (self.file("all.toml", text), SCENARIOS)
        )
        self.assertEqual(written[1 : len(names)], given[1 : len(names)])
        self.assertEqual(int(written[len(names)].split(",")[4]), sum(int(row[4]) for row in banks))

    def test_a_scenario_of_the_file_is_edited_in_a_copy_and_stays_as_it_is(self):
        self.open(None, "--scenarios", SCENARIOS)
        names = re.findall('name = "(.*)"', SCENARIOS.read_text())
        self.pick("scenario", "2")
        self.until_state(1)
        self.click("build-copy")
        self.assertEqual(
            self.js(
                "return [document.getElementById('scenario-name').value,"
                " [...document.querySelectorAll('.loss-bank')].map(e => e.value)]"
            ),
            [f"{names[1]} (copy)", ["Havel", "Kemi"]],
        )
        options = self.js("return document.getElementById('scenario').options.length")
        self.click("build-done")
        self.until_state(2)
        self.assertEqual(self.js("return document.getElementById('scenario').options.length"), options + 1)

    def test_a_scenario_that_is_none_is_told_at_its_field(self):
        self.open()
        self.expected = ["422"]
        self.click("build-open")
        for losses, name, cut, field, said in (
            ([("Kemi", "5")], "", "0", "scenario-name", "has a name"),
            ([("Kemi", "5")], "a,b", "0", "scenario-name", "without comma"),
            ([("Kemi", "5")], "s", "1001", "scenario-cut", "from 0 to 1,000"),
            ([("Kemi", "5")], "s", "", "scenario-cut", "from 0 to 1,000"),
            ([("Kemi", "x")], "s", "0", "scenario-losses", "whole number"),
            ([("Kemi", "")], "s", "0", "scenario-losses", "whole number"),
            ([("Nobody", "5")], "s", "0", "scenario-losses", "no bank is called Nobody"),
            ([("Kemi", "5"), ("Kemi", "6")], "s", "0", "scenario-losses", "stands there twice"),
            ([("", ""), ("", "")], "s", "0", "scenario-losses", "takes cash"),
        ):
            self.build(losses, name, cut)
            self.until(lambda: said in self.text(f"{field}-fault"))
        self.assertEqual(self.state(), 0)

    def test_a_session_is_opened_elsewhere(self):
        self.open(None, "--scenarios", SCENARIOS, "--unit", "1000", "--currency", "EUR", "--title", "Twelve banks")
        self.click("build-open")
        self.build([("Kemi", "2000000"), ("Havel", "4000000"), ("Isar", "1000000")], "Three at once", "0")
        self.until_state(1)
        self.keep("Three banks", "as asked on Monday")
        self.choose(1)
        self.unfold("change-bank")
        self.type_in("cash", "3000000")
        self.until_state(2)
        self.keep("Birk is helped")
        shown = self.rows(), self.picture(), self.text("told")
        self.open_session(self.file("session.zip", self.taken("session")))
        self.until(lambda: "Birk is helped" in self.text("tabs"))
        self.assertEqual((self.rows(), self.picture(), self.text("told")), shown)
        self.assertEqual(self.text("case"), "Twelve banks")
        self.assertEqual(
            self.js("return [...document.querySelectorAll('#tabs button')].map(b => [b.textContent, b.title])")[:3],
            [["As it is", ""], ["Three banks", "as asked on Monday"], ["Birk is helped", ""]],
        )
        self.assertIn(
            "Three at once", self.js("return [...document.getElementById('scenario').options].map(o => o.text)")
        )
        self.assertIn("one unit of account is EUR 1,000", self.text("about").replace("\u00a0", " "))
        self.tab("Three banks")
        self.until(lambda: "Three at once" in self.text("changes"))
        self.assertIn(
            "It holds as long as this desk runs", self.js("return document.getElementById('take').textContent")
        )

    def test_the_tour_of_the_guide_is_so(self):
        """Each step begins where the one before it ended, and what the page then says stands in the guide."""
        self.guide = re.sub(r"\s+", " ", (ROOT / "docs/GUIDE.md").read_text(encoding="utf-8"))
        self.open(None, "--scenarios", SCENARIOS, "--unit", "1000", "--currency", "EUR", "--title", "Twelve banks")
        self.assertIn("--unit 1000 --currency EUR --title 'Twelve banks'", self.guide)
        self.told_as_in_the_guide("Four of twelve banks are in default; EUR 1.49 billion stays unpaid")
        self.a_shock_of_three_banks()
        self.who_falls_and_why_to_the_last_unit()
        self.saved_and_opened_elsewhere()
        self.against_a_rescue()
        page = self.taken("report").decode()
        self.assertIn("Twelve banks: Fjord is helped", page)
        self.assertIn("Fjord: cash 1,035,000 in place of 1,000,000.", page)

    def told_as_in_the_guide(self, words: str, key: str = "told") -> None:
        """An element of the page says these words, and so does the guide."""
        self.assertEqual(self.text(key), words)
        self.assertIn(words, self.guide)

    def a_shock_of_three_banks(self) -> None:
        """A scenario is built, in which one bank more falls."""
        self.click("build-open")
        self.build([("Birk", "1,500,000"), ("Isar", "1,000,000"), ("Fjord", "1,000,000")], "Three banks", "0")
        self.until_state(1)
        self.told_as_in_the_guide("Fjord joins those in default; EUR 3.00 billion more stays unpaid")
        # What was typed in units is told as what it is worth.
        lost = "Birk EUR 1,500,000,000", "Fjord EUR 1,000,000,000", "Isar EUR 1,000,000,000"
        for key, last in ("losses", ", "), ("changes", " and "):
            said = strip(self.text(key))
            self.assertIn(f"Beside the cut is lost: {lost[0]}, {lost[1]}{last}{lost[2]}.", said)

    def who_falls_and_why_to_the_last_unit(self) -> None:
        """The account of this bank, and what would save it."""
        self.choose(5)
        self.until(lambda: len(self.account()) > 3)
        self.told_as_in_the_guide("It lacks EUR 35 million of the EUR 150 million it owes.", "bank-lead")
        lines = self.account()
        self.assertEqual([(line[0], line[-1]) for line in lines], FJORD)
        for words, *_, amount in lines:
            self.assertIn(f"| {words} | {amount:,} |".replace("-", "−"), self.guide)
        self.click("ask-rescue")
        rescue = "EUR 35 million more of cash lets it pay in full."
        self.until(lambda: rescue in self.text("answer-rescue"))
        self.assertIn(rescue, self.guide)

    def saved_and_opened_elsewhere(self) -> None:
        """The state is kept, and a session opened again."""
        self.keep("Three banks", "for the meeting of Monday")
        self.open_session(self.file("session.zip", self.taken("session")))
        self.assertEqual(self.text("told"), "Fjord joins those in default; EUR 3.00 billion more stays unpaid")

    def against_a_rescue(self) -> None:
        """The bank gets what it lacks, and both states stand side by side."""
        at = self.state()
        self.choose(5)
        self.unfold("change-bank")
        self.type_in("cash", "1,035,000")
        self.until(lambda: self.state() != at)
        self.keep("Fjord is helped")
        self.against("Three banks")
        self.told_as_in_the_guide("Fjord is in default no more; EUR 35 million less stays unpaid")


if __name__ == "__main__":
    unittest.main()
