"""States of the desk are kept under names, saved as a session, opened elsewhere, and taken out as a case."""
import hashlib
import io
import json
import os
import pathlib
import unittest
import zipfile
from typing import Any, Dict, Tuple

from common import TWELVE, files_of, tool
from desk import PYTHON, SCENARIOS, DeskCase, Running, standings

NOTE = "a note\nof two lines"
"""What is noted of the state that is kept."""


class Sessions(DeskCase):
    def saved(self, desk: Running, at: int = 0, name: str = "session.zip") -> pathlib.Path:
        """The session that a desk gives, with a state at hand."""
        path = self.folder / name
        path.write_bytes(desk.see(f"/take/{at}/session"))
        return path

    def rich(self) -> Tuple[Running, int]:
        """A desk of twelve banks, with a scenario that was built and a state that is kept, in which each kind of change
        was made; and the number of this state."""
        desk = self.desk(
            None, "--scenarios", SCENARIOS, "--unit", "1000", "--currency", "EUR", "--title", "Twelve banks"
        )
        losses = [[10, "2000000"], [7, "4,000,000"], [8, "1000000"]]
        number = desk.post("/scenario", name="Three at once", cut="50", losses=losses)["number"]
        at = desk.change(0, set="scenario", value=number)["id"]
        at = desk.change(at, set="bank", bank=1, field="cash", value="7")["id"]
        at = desk.change(at, set="claim", debt=3, value="11")["id"]
        at = desk.change(at, set="strike", debt=5)["id"]
        at = desk.change(at, set="add", debtor="Kemi", creditor="Isar", claim="3", **{"class": "9"})["id"]
        desk.post("/keep", state=at, name="All of it", note=NOTE)
        return desk, at

    def test_a_state_is_kept_with_its_name_and_note_beside_the_case_as_it_is(self):
        desk, at = self.rich()
        self.assertEqual(
            desk.see("/kept"),
            [
                {"name": "As it is", "state": 0, "note": ""},
                {"name": "All of it", "state": at, "note": NOTE},
            ],
        )

    def test_a_session_has_the_files_of_the_case_and_one_document(self):
        desk, at = self.rich()
        with zipfile.ZipFile(self.saved(desk, at)) as archive:
            self.assertEqual(
                sorted(archive.namelist()),
                ["case/banks.csv", "case/datapackage.json", "case/debts.csv", "case/scenarios.toml", "session.json"],
            )
            self.assertEqual(archive.read("case/banks.csv"), (TWELVE / "banks.csv").read_bytes())
            self.assertEqual(archive.read("case/scenarios.toml"), SCENARIOS.read_bytes())

    def test_a_session_has_no_state_that_was_passed_and_nothing_of_the_machine(self):
        desk, at = self.rich()
        self.assertNotEqual(desk.change(at, set="cut", value="77")["id"], at)
        document = zipfile.ZipFile(self.saved(desk, at)).read("session.json").decode()
        self.assertNotIn("77", json.dumps([one["state"].get("cut") for one in json.loads(document)["states"]]))
        for word in (str(self.folder), "/tmp", desk.ticket, os.uname().nodename):
            self.assertNotIn(word, document)

    def test_a_session_is_opened_with_its_settings_scenarios_states_and_notes(self):
        desk, at = self.rich()
        before = desk.see(f"/state/{at}")
        other = self.desk([], "--session", self.saved(desk, at))
        network = other.see("/network")
        self.assertEqual((network["title"], network["unit"], network["currency"]), ("Twelve banks", "1000", "EUR"))
        losses = [[7, 4000000], [8, 1000000], [10, 2000000]]
        built = {"name": "Three at once", "cut": 50, "losses": losses, "isBuilt": True}
        self.assertEqual(network["scenarios"][-1], built)
        [_, one] = other.see("/kept")
        self.assertEqual((one["name"], one["note"]), ("All of it", NOTE))
        after = other.see(f"/state/{one['state']}")
        for view in (before, after):
            del view["id"], view["line"]
        self.assertEqual(after, before)

    def test_a_session_that_was_opened_is_saved_as_it_was_and_takes_the_same_away(self):
        desk, at = self.rich()
        first = self.saved(desk, at)
        other = self.desk([], "--session", first)
        state = other.see("/kept")[1]["state"]
        documents = [
            json.loads(zipfile.ZipFile(path).read("session.json"))
            for path in (first, self.saved(other, state, "again.zip"))
        ]
        self.assertEqual(documents[1], documents[0])
        self.assertEqual(other.see(f"/take/{state}/debts"), desk.see(f"/take/{at}/debts"))

    def parts(self) -> Dict[str, bytes]:
        """What a session has, by the names of its files."""
        with zipfile.ZipFile(self.saved(self.desk())) as archive:
            return {name: archive.read(name) for name in archive.namelist()}

    def packed(self, parts: Dict[str, bytes]) -> pathlib.Path:
        """An archive of some files."""
        path = self.folder / "other.zip"
        with zipfile.ZipFile(path, "w", zipfile.ZIP_DEFLATED) as archive:
            for name, data in parts.items():
                archive.writestr(name, data)
        return path

    def refused_session(self, path: pathlib.Path, status: int, message: str) -> None:
        """No desk opens a file."""
        done = tool("clearing-desk", "--session", path, "--no-browser", python=PYTHON)
        self.assertEqual((done.returncode, done.stdout), (status, ""), (message, done.stderr))
        self.assertIn(message, done.stderr)

    def test_a_file_that_is_no_archive_is_refused(self):
        self.refused_session(self.folder / "none.zip", 3, "cannot read")
        for content in (b"", b"PK\x03\x04 and so on"):
            self.refused_session(self.file("other.zip", content), 4, "is no session")

    def test_an_archive_that_is_no_session_is_refused(self):
        parts = self.parts()
        for changed, message in [
            ({"session.json": b"["}, "is no session"),
            ({"session.json": b"[]"}, "that this one can open"),
            ({"session.json": b'{"session": 2}'}, "that this one can open"),
            ({"case/banks.csv": b"name,cash,rule\nA,x,order\n"}, "banks row 1: number (4)"),
            ({"session.json": b'{"session": 1, "states": 5}'}, "no list of states"),
            ({"session.json": b'{"session": 1, "scenarios": [["s", 2000, []]]}'}, "a cut is a whole number"),
            # More than a file may have, however small it is packed.
            ({"case/banks.csv": b"x" * 168_000_000}, "longer than it may be"),
            ({"session.json": b" " * 70_000_000}, "longer than it may be"),
        ]:
            with self.subTest(changed=str(changed)[:80]):
                self.refused_session(self.packed({**parts, **changed}), 4, message)
        self.refused_session(self.packed({"session.json": parts["session.json"]}), 4, "has no banks.csv")

    def test_a_session_with_a_state_that_no_desk_makes_is_refused(self):
        parts = self.parts()
        for state, message in [
            ({"cut": "1001"}, "scenarios row 1: limit (6)"),
            ({"cut": 5}, "cut is no line"),
            ({"claims": {"40": "5"}}, "a key is no place"),
            ({"banks": {"0": ["1", "order"]}}, "another length"),
            ({"added": [["A", "B", "1", "x"]]}, "unknown bank"),
            ({"new": 1}, "other keys"),
            ([], "other keys"),
            ({"losses": [[99, 1]]}, "bank is no place"),
        ]:
            with self.subTest(state=state):
                states = [{"name": "s", "note": "", "state": state}]
                document = json.dumps({"session": 1, "states": states, "atHand": {}}).encode()
                self.refused_session(self.packed({**parts, "session.json": document}), 4, message)

    def test_names_in_a_session_that_lead_elsewhere_are_passed_over(self):
        odd = ["../evil.txt", "/tmp/desk-evil", "case/../../evil.txt", "case/more.txt"]
        path = self.packed({**self.parts(), **{name: b"x" for name in odd}})
        desk = self.desk([], "--session", path)
        self.assertEqual(desk.see("/state/0")["id"], 0)
        self.assertEqual([path for path in desk.place.rglob("*") if "evil" in path.name or path.name == "more.txt"], [])
        self.assertFalse(os.path.exists("/tmp/desk-evil"))

    def taken_out(self) -> Tuple[pathlib.Path, Any]:
        """A state of the twelve banks that is kept and taken out as a case: the folder of the case, and the state."""
        desk = self.desk(
            None, "--scenarios", SCENARIOS, "--unit", "1000", "--currency", "EUR", "--title", "Twelve banks"
        )
        at = desk.change(0, set="scenario", value=2)["id"]
        at = desk.change(at, set="claim", debt=3, value="11")["id"]
        desk.post("/keep", state=at, name="Two fail", note="")
        with zipfile.ZipFile(io.BytesIO(desk.see(f"/take/{at}/case"))) as archive:
            archive.extractall(self.folder)
        return self.folder / "case", desk.see(f"/state/{at}")

    def test_a_state_is_taken_out_as_a_case_that_says_of_what_and_how_it_was_made(self):
        folder, state = self.taken_out()
        document = json.loads((folder / "datapackage.json").read_text())
        about = document["clearing"]
        self.assertEqual(
            (document["title"], about["unit"], about["currency"]), ("Twelve banks: Two fail", "1000", "EUR")
        )
        self.assertEqual(
            about["from"]["hashes"],
            {
                f"{what}.csv": f"sha256:{hashlib.sha256((TWELVE / f'{what}.csv').read_bytes()).hexdigest()}"
                for what in ("banks", "debts")
            },
        )
        self.assertIn("Birk to Calder, class 1: the debt is 11 in place of 1,000,000.", about["from"]["changes"])
        self.assertEqual([row[1:] for row in standings("defaults", *files_of(folder))], self.held(state))

    def test_a_case_that_was_taken_out_opens_at_a_desk_and_stands_beside_another(self):
        folder, state = self.taken_out()
        other = self.desk([folder], "--against", folder)
        network = other.see("/network")
        title = "Twelve banks: Two fail"
        self.assertEqual(
            (network["title"], network["unit"], network["others"][0]["title"]), (title, "1000", title)
        )
        self.assertEqual(self.held(other.see("/other/1")), self.held(state))
        self.assertEqual(other.see("/other/1/3")["account"], other.see("/bank/0/3")["account"])

    def test_a_case_in_another_unit_is_not_held_against_this_one(self):
        folder, _ = self.taken_out()
        words = [*files_of(TWELVE), "--against", folder, "--no-browser"]
        done = tool("clearing-desk", *words, python=PYTHON)
        self.assertEqual((done.returncode, done.stdout), (4, ""))
        self.assertIn("in another unit or currency", done.stderr)

    def test_a_state_that_is_kept_has_a_name_of_its_own(self):
        desk = self.desk()
        at = desk.change(0, set="cut", value="5")["id"]
        for name, said in (
            ("As it is", "is the name of the state as it is"),
            ("", "has a name"),
            ("   ", "has a name"),
            ("a\nb", "is one line"),
            ("a\u202eb", "can be seen"),
            ("a\ud800", "is one line"),
        ):
            self.assertIn(said, desk.post("/keep", 422, state=at, name=name, note="")["said"])
        for what in (
            {"state": 9, "name": "x"},
            {"state": 0, "name": "x" * 65},
            {"state": 0, "name": 5},
            {"state": 0, "name": "x", "note": "n" * 2001},
            {"name": "x"},
        ):
            desk.post("/keep", 400, **what)
        for number in range(99):
            desk.post("/keep", state=at, name=f"s{number}", note="")
        self.assertIn("100 states at most", desk.post("/keep", 422, state=at, name="one more", note="")["said"])
        self.assertEqual([one["name"] for one in desk.post("/keep", state=0, name="s5", note="now")][5:7], ["s4", "s5"])
        self.assertEqual(len(desk.post("/drop", name="s5")), 99)
        self.assertEqual(len(desk.post("/drop", name="As it is")), 99)


if __name__ == "__main__":
    unittest.main()
