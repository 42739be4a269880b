"""What is taken away from the desk says what the state says: files, scenarios, the report and the evidence."""
import hashlib
import io
import pathlib
import subprocess
import unittest
import zipfile
from typing import List, Tuple

from common import ROOT, TWELVE, clearing, files_of
from desk import SCENARIOS, DeskCase, Running, standings

SCRIPT = "<script>alert(1)</script>"


def sums_before() -> List[str]:
    """What is said of the two files before any change."""
    digest = lambda name: hashlib.sha256((TWELVE / name).read_bytes()).hexdigest()
    return [f"Before the changes {name} has the SHA-256 {digest(name)}." for name in ("banks.csv", "debts.csv")]


class TakenAway(DeskCase):
    def test_the_files_say_what_the_state_says(self):
        before = {path: path.read_bytes() for path in TWELVE.iterdir()}
        desk = self.desk(None, "--scenarios", SCENARIOS)
        at = desk.change(0, set="scenario", value=3)["id"]
        view = desk.change(at, set="bank", bank=0, field="cash", value="1234567")
        for what in ("banks", "debts"):
            self.file(f"{what}.csv", desk.see(f"/take/{view['id']}/{what}"))
        self.assertEqual([row[1:] for row in standings("defaults", *files_of(self.folder))], self.held(view))
        self.assertEqual({path: path.read_bytes() for path in TWELVE.iterdir()}, before)

    def test_changes_that_are_a_scenario_are_one(self):
        desk = self.desk(None, "--scenarios", SCENARIOS)
        at = desk.change(0, set="scenario", value=3)["id"]
        view = desk.change(at, set="bank", bank=0, field="cash", value="1234567")
        self.assertTrue(view["isScenario"])
        made = self.file("made.toml", desk.see(f"/take/{view['id']}/scenario"))
        self.assertEqual(
            [row[1:] for row in standings("stress", *files_of(TWELVE), "--scenarios", made)], self.held(view)
        )
        for change in (
            {"set": "bank", "bank": 0, "field": "cash", "value": "9999999"},
            {"set": "bank", "bank": 0, "field": "rule", "value": "equal"},
            {"set": "bank", "bank": 0, "field": "outside", "value": "1"},
            {"set": "strike", "debt": 0},
            {"set": "keep", "value": "999"},
            {"set": "claim", "debt": 0, "value": "3"},
        ):
            other = desk.change(0, **change)
            self.assertFalse(other["isScenario"], change)
            self.assertIn("are no scenario", desk.see(f"/take/{other['id']}/scenario", 502)["said"])
        self.assertFalse(desk.see("/state/0")["isScenario"])

    def test_files_of_scenarios_say_where_they_are_from(self):
        title = 'Twelve banks\n[[scenario]]\nname = "another"\ncut = 7'
        desk = self.desk(None, "--scenarios", SCENARIOS, "--title", title)
        view = desk.change(0, set="cut", value="437")
        desk.post("/keep", state=view["id"], name="A hard cut", note="")
        digests = [
            f"# {what}.csv has the SHA-256 {hashlib.sha256((TWELVE / f'{what}.csv').read_bytes()).hexdigest()}."
            for what in ("banks", "debts")
        ]
        given = SCENARIOS.read_text().count("[[scenario]]")
        for what, state, count in (("scenario", ", the state “A hard cut”.", 1), ("scenarios", ".", given)):
            text = desk.see(f"/take/{view['id']}/{what}").decode()
            program = f"clearing {(ROOT / 'VERSION').read_text().strip()}"
            self.assertTrue(
                text.startswith(f"# Source: {program}, the desk. Twelve banks [[scenario]] name = "), text[:200]
            )
            self.assertTrue(text.splitlines()[0].endswith(state), text[:200])
            self.assertEqual(text.splitlines()[1:3], digests)
            # The program reads it, and the title is a comment alone.
            outcomes = clearing("outcomes", *files_of(TWELVE), "--scenarios", self.file("taken.toml", text))
            self.assertEqual(outcomes.stdout.decode().splitlines().index("") - 1, count)
            self.assertEqual(text.count("\n[[scenario]]\n"), count)

    def test_the_report_and_the_evidence_are_of_the_state(self):
        desk = self.desk()
        view = desk.change(0, set="cut", value="437")
        page = desk.see(f"/take/{view['id']}/report").decode()
        # The part of each bank has it to the last digit.
        for at, kept in enumerate(view["equity"]):
            part = page.partition(f'<section id="bank-{at}"')[2].partition("</p>")[0]
            self.assertIn(f" and {kept:,} unit{'' if kept == 1 else 's'} is left.", part)
        self.assertIn("clearing-report --banks banks.csv --debts debts.csv", page)
        with zipfile.ZipFile(io.BytesIO(desk.see(f"/take/{view['id']}/evidence"))) as archive:
            archive.extractall(self.folder)
        # The changes are a scenario: the files are as they were given, and what it leaves is the state.
        for what in ("banks", "debts"):
            self.assertEqual(
                (self.folder / f"evidence/inputs/{what}.csv").read_bytes(), (TWELVE / f"{what}.csv").read_bytes()
            )
        self.assertEqual(
            (self.folder / "evidence/inputs/scenarios.toml").read_bytes(), desk.see(f"/take/{view['id']}/scenario")
        )
        self.assertEqual(
            (self.folder / "evidence/scenario-1/banks.csv").read_bytes(), desk.see(f"/take/{view['id']}/banks")
        )
        self.checked(self.folder / "evidence")
        for what in ("banks", "report", "evidence"):
            disposition = desk.ask("GET", desk.at(f"/take/0/{what}"))[1]["Content-Disposition"]
            self.assertRegex(disposition, r'^attachment; filename="[a-z]+\.[a-z]+"$')

    def checked(self, folder: pathlib.Path) -> str:
        """A folder of evidence holds by its own check, whose lines are given."""
        done = subprocess.run(
            [str(ROOT / "bin/clearing-evidence"), "check", str(folder)], capture_output=True, encoding="utf-8"
        )
        self.assertEqual(done.returncode, 0, done.stdout + done.stderr)
        return done.stdout

    def changed_in_each_way(self) -> Tuple[Running, int, List[str]]:
        """A desk, a state in which each kind of change was made, and what must be said of each."""
        desk = self.desk(None, "--scenarios", SCENARIOS)
        names = desk.see("/network")["names"]
        debts = [line.split(",") for line in (TWELVE / "debts.csv").read_text().splitlines()[1:]]
        cash = int((TWELVE / "banks.csv").read_text().splitlines()[1].split(",")[1])
        of = lambda debt: f"{debts[debt][0]} to {debts[debt][1]}, class {debts[debt][2]}: the debt"
        at, told = 0, []
        for said, change in [
            ("The scenario “", {"set": "scenario", "value": 3}),
            ("All cash is cut by 950 per mille.", {"set": "cut", "value": "950"}),
            ("A bank in default keeps 640 per mille of its estate.", {"set": "keep", "value": "640"}),
            (
                f"{names[0]}: cash 1,234,567 in place of {cash:,}.",
                {"set": "bank", "bank": 0, "field": "cash", "value": "1234567"},
            ),
            (f"{names[0]}: rule equal in place of ", {"set": "bank", "bank": 0, "field": "rule", "value": "equal"}),
            (
                f"{names[1]}: owed outside 5,000 in place of 0.",
                {"set": "bank", "bank": 1, "field": "outside", "value": "5000"},
            ),
            (f"{of(0)} is 12,345 in place of {int(debts[0][3]):,}.", {"set": "claim", "debt": 0, "value": "12345"}),
            (f"{of(5)} of {int(debts[5][3]):,} is struck.", {"set": "strike", "debt": 5}),
            (
                "Kemi to Isar, class 9: a debt of 999 is added.",
                {"set": "add", "debtor": "Kemi", "creditor": "Isar", "class": "9", "claim": "999"},
            ),
        ]:
            at = desk.change(at, **change)["id"]
            told.append(said)
        return desk, at, told

    def test_the_report_says_what_was_changed_and_of_which_files(self):
        desk, at, told = self.changed_in_each_way()
        page = desk.see(f"/take/{at}/report").decode()
        head = page.partition('<div id="changed">')[2].partition("</div>")[0]
        for words in [*told, *sums_before()]:
            self.assertIn(words, head)
        self.assertNotIn("No scenario was given", page)

    def test_the_evidence_says_what_was_changed_and_of_which_files(self):
        desk, at, told = self.changed_in_each_way()
        with zipfile.ZipFile(io.BytesIO(desk.see(f"/take/{at}/evidence"))) as archive:
            archive.extractall(self.folder)
        text = (self.folder / "evidence/inputs/changes.txt").read_text(encoding="utf-8")
        for words in [*told, *sums_before()]:
            self.assertIn(words, text)
        self.assertIn("inputs/changes.txt", self.checked(self.folder / "evidence").partition("not checked: ")[2])

    def test_of_the_case_as_it_is_no_change_is_told(self):
        desk = self.desk(None, "--scenarios", SCENARIOS)
        self.assertNotIn('id="changed"', desk.see("/take/0/report").decode())
        with zipfile.ZipFile(io.BytesIO(desk.see("/take/0/evidence"))) as archive:
            self.assertNotIn("evidence/inputs/changes.txt", archive.namelist())

    def test_names_in_what_was_changed_are_no_markup(self):
        desk = self.desk(self.net(f"{SCRIPT},5,order\nשלום,7,order\n", f"{SCRIPT},שלום,1,9\n"))
        at = desk.change(0, set="bank", bank=0, field="cash", value="6")["id"]
        at = desk.change(at, set="bank", bank=1, field="cash", value="6")["id"]
        page = desk.see(f"/take/{at}/report").decode()
        self.assertIn("&lt;script&gt;alert(1)&lt;/script&gt;: cash 6 in place of 5.", page)
        self.assertNotIn(SCRIPT, page.partition("</main>")[0])

    def test_labels_stand_beside_the_names(self):
        labels = self.file("labels.csv", f"code,name\nKemi,Kemin Pankki Oyj\nNobody,No bank\nIsar,{SCRIPT}\n")
        desk = self.desk(None, "--labels", labels)
        network = desk.see("/network")
        found = dict(zip(network["names"], network["labels"]))
        self.assertEqual((found["Kemi"], found["Isar"], found["Alster"]), ("Kemin Pankki Oyj", SCRIPT, ""))
        shown = dict(zip(network["codes"], network["shown"]))
        self.assertEqual((shown["Kemi"], shown["Isar"], shown["Alster"]), ("Kemin Pankki Oyj", SCRIPT, "Alster"))
        # In the report they stand in place of the names.
        self.assertIn(">Kemin Pankki Oyj</a>", desk.see("/take/0/report").decode())


if __name__ == "__main__":
    unittest.main()
