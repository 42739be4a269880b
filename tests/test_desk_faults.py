"""What is typed at the desk and refused is told at its field in the program's words, and makes no state."""
import json
import subprocess
import sys
import tracemalloc
import unittest
from typing import Any, Dict, Iterator

from common import PACKAGES, TWELVE, files_of, tool
from desk import PYTHON, SCENARIOS, DeskCase, Running, standings

from clearing_client.records import Bank, Debt
from clearing_tools.desk import state as states
from clearing_tools.desk.steps import Steps


# What may be typed into a field, or stand in a request.
VALUES = [
    "",
    " ",
    "\t",
    "    ",
    "0",
    "00",
    "-0",
    "+5",
    "1e3",
    "0x1",
    "１",
    "٣",
    "1_0",
    " 7 ",
    "\u00a07",
    "7\u200b",
    '"7"',
    '"',
    '""',
    "7,",
    ",,,",
    "\ufeff7",
    "\x00",
    "\u202e7",
    "\ud800",
    "NaN",
    "true",
    "9" * 20,
    "9" * 200,
    "'",
    ";",
    "\x1f",
    "=1+1",
    "0" * 19 + "7",
    "order",
    "A",
    "1",
    "#",
    "\u2028",
]


def typed_changes() -> Iterator[Dict[str, Any]]:
    """Each change of three banks and two debts, with each value in each of its fields."""
    fields = ("debtor", "creditor", "class", "claim")
    add = {"set": "add", "debtor": "C", "creditor": "A", "class": "2", "claim": "5"}
    yield from ({"set": word, "value": value} for word in ("cut", "keep") for value in VALUES)
    for field in ("cash", "rule", "outside"):
        yield from ({"set": "bank", "bank": 1, "field": field, "value": value} for value in VALUES)
    yield from ({"set": "claim", "debt": 1, "value": value} for value in VALUES)
    yield from ({**add, field: value} for field in fields for value in VALUES)
    yield from ({"set": "add", **dict.fromkeys(fields, blank)} for blank in ("", " ", "\t", "    "))


ADD = {"set": "add", "debtor": "Kemi", "creditor": "Isar", "class": "1", "claim": "5"}
THERE = dict(zip(("debtor", "creditor", "class"), (TWELVE / "debts.csv").read_text().splitlines()[1].split(",")))
"""The debt that stands first among those of the twelve banks."""


def cash(value: str) -> Dict[str, Any]:
    """The change of the cash of the third bank to a value."""
    return {"set": "bank", "bank": 2, "field": "cash", "value": value}


# A change that is refused, what is said of it, and the field at which that stands.
FAULTS = [
    *((cash(value), "banks row 3: number (4)", "cash") for value in ("x", "", "-5", '1,2"3', "٣")),
    (cash("1000000000001"), "banks row 3: limit (6)", "cash"),
    ({"set": "bank", "bank": 0, "field": "outside", "value": "100000000001"}, "banks row 1: limit (6)", "outside"),
    ({"set": "bank", "bank": 0, "field": "rule", "value": "pro rata"}, "banks row 1: rule (5)", "rule"),
    ({"set": "claim", "debt": 6, "value": "1000001"}, "debts row 7: limit (6)", "claim"),
    ({"set": "claim", "debt": 6, "value": "1.5"}, "debts row 7: number (4)", "claim"),
    ({**ADD, "creditor": "Nobody"}, "debts row 41: unknown bank (8)", "creditor"),
    ({**ADD, "creditor": "Kemi"}, "debts row 41: self debt (9)", "creditor"),
    ({**ADD, "creditor": "a,b"}, "debts row 41: name (3)", "creditor"),
    ({**ADD, "class": "10"}, "debts row 41: class (10)", "class"),
    ({**ADD, "claim": "much"}, "debts row 41: number (4)", "claim"),
    ({"set": "add", **THERE, "claim": "1"}, "debts row 41: double debt (11)", "creditor"),
    ({"set": "cut", "value": "1001"}, "scenarios row 1: limit (6)", "cut"),
    *(({"set": "cut", "value": value}, "scenarios row 1: shape (17)", "cut") for value in ("half", "9" * 20, "95%")),
    ({"set": "keep", "value": "1001"}, "'1001' is no value of --keep: it is a number from 0 to 1,000", "keep"),
    (
        {"set": "keep", "value": "x"},
        "'x' is no value of --keep: a number is 1 to 20 digits 0 to 9, and nothing else",
        "keep",
    ),
]


class Faults(DeskCase):
    def test_a_fault_is_the_program_s_own_and_stands_at_its_field(self):
        desk = self.desk(None, "--scenarios", SCENARIOS)
        for change, said, field in FAULTS:
            with self.subTest(change=change):
                fault = desk.change(0, 422, **change)
                self.assertEqual((fault["said"], fault["field"]), (said, field))

    def test_a_change_that_is_refused_makes_no_state_and_leaves_the_last_one_as_it_is(self):
        desk = self.desk(None, "--scenarios", SCENARIOS)
        good = desk.change(0, set="cut", value="100")
        for change, _, _ in FAULTS:
            desk.change(good["id"], 422, **change)
        self.assertEqual(desk.see(f"/state/{good['id']}"), good)
        self.assertEqual(desk.change(good["id"], set="cut", value="101")["id"], good["id"] + 1)

    def test_a_fault_says_what_to_do(self):
        desk = self.desk()
        bank, add = {"set": "bank", "bank": 2}, {
            "set": "add",
            "debtor": "Kemi",
            "creditor": "Isar",
            "class": "1",
            "claim": "5",
        }
        for change, hint in (
            ({"set": "cut", "value": "95%"}, "write 950 for 95%"),
            ({"set": "cut", "value": "12.5 %"}, "write 125 for 12.5 %"),
            ({"set": "cut", "value": "1001"}, "from 0 to 1,000, per mille"),
            ({"set": "keep", "value": "80%"}, "write 800 for 80%"),
            ({**bank, "field": "cash", "value": "1.5"}, "amounts are whole units"),
            ({**bank, "field": "cash", "value": ""}, "write 0 where there is nothing"),
            ({**bank, "field": "cash", "value": "1000000000001"}, "at most 1,000,000,000,000"),
            ({**bank, "field": "rule", "value": "Webster"}, "write it as webster"),
            ({**bank, "field": "outside", "value": "100000000001"}, "at most 100,000,000,000"),
            ({"set": "claim", "debt": 6, "value": "1000001"}, "at most 1,000,000"),
            ({**add, "claim": "1e3"}, "without an exponent"),
            ({**add, "class": "10"}, "a class is one digit from 1 to 9"),
            ({**add, "claim": "1000001"}, "at most 1,000,000"),
        ):
            self.assertIn(hint, desk.change(0, 422, **change)["meaning"], change)

    def test_an_amount_may_be_typed_as_the_page_shows_it(self):
        desk = self.desk()
        self.assertEqual(desk.change(0, set="bank", bank=0, field="cash", value="1,200,000")["cash"][0], 1_200_000)
        self.assertEqual(desk.change(0, set="cut", value="1,000")["cut"], 1000)
        self.assertEqual(desk.change(0, set="claim", debt=0, value="12,345")["changedDebts"][0][5], 12_345)
        for value in ("1,20", "1,2000", ",100", "1,,000", "1,000,", "1.000,000"):
            desk.change(0, 422, set="bank", bank=0, field="cash", value=value)

    def test_all_claims_of_a_bank_may_pass_the_limit(self):
        debts = "".join(f"A,B{at},1,1000000\n" for at in range(25))
        banks = "A,1,order\n" + "".join(f"B{at},1,order\n" for at in range(26))
        add = {"set": "add", "debtor": "A", "creditor": "B25", "class": "1", "claim": "1"}
        fault = self.desk(self.net(banks, debts)).change(0, 422, **add)
        self.assertEqual((fault["said"], fault["field"]), ("debts row 26: total (13)", "claim"))
        self.assertIn("all that banks owe is at most 25,000,000", fault["meaning"])
        # A state that passes the standard limits is read by the wide ones.
        ten = "".join(debts.splitlines(True)[:10])
        self.assertEqual(len(self.desk(self.net(banks, ten)).change(0, **add)["cash"]), 27)

    def test_what_is_no_change_is_refused(self):
        desk = self.desk()
        for change in (
            {},
            {"set": "x"},
            {"set": "cut"},
            {"set": "cut", "value": 5},
            {"set": "cut", "value": "1" * 201},
            {"set": "cut", "value": "1\n2"},
            {"set": "bank", "bank": 12, "field": "cash", "value": "1"},
            {"set": "bank", "bank": -1, "field": "cash", "value": "1"},
            {"set": "bank", "bank": True, "field": "cash", "value": "1"},
            {"set": "bank", "bank": 0, "field": "name", "value": "1"},
            {"set": "scenario", "value": 1},
            {"set": "claim", "debt": 40, "value": "1"},
            {"set": "strike"},
            {"set": "add", "debtor": "A"},
        ):
            self.assertEqual(set(desk.change(0, 400, **change)), {"said", "meaning", "field"}, change)
        for start in (1, -1, "0", None, 1.0, True, 10**30):
            desk.change(start, 400, set="cut", value="1")
        for body in (b"", b"{", b"[]", b"null", b"\xff", b"[" * 60_000, b'"' + b"x" * 60_000 + b'"'):
            for path in ("/change", "/keep", "/drop", "/scenario", "/ask", "/stop"):
                self.assertEqual(desk.ask("POST", desk.at(path), desk.own(), body)[0], 400, (path, body[:20]))
        self.assertEqual(
            desk.ask(
                "POST",
                desk.at("/change"),
                {**desk.own(), "Content-Type": "text/plain"},
                b'{"from":0,"set":"cut","value":"1"}',
            )[0],
            400,
        )

    def three_banks(self) -> Running:
        """A desk on three banks and two debts."""
        return self.desk(self.net("A,9,order\nB,1,equal\nC,0,webster\n", "A,B,1,10\nB,C,1,9\n"))

    def assert_shown(self, desk: Running, view: Dict[str, Any], change: Dict[str, Any]) -> None:
        """A state that a change led to can be shown, and is what the program says of the files that are taken away."""
        self.assertEqual(desk.see(f"/state/{view['id']}"), view, change)
        for bank in range(3):
            desk.see(f"/bank/{view['id']}/{bank}")
        for what in ("banks", "debts"):
            self.file(f"{what}.csv", desk.see(f"/take/{view['id']}/{what}"))
        if view["keep"] == 1000:
            held = [[str(part) for part in row] for row in zip(view["paid"], view["owed"], view["equity"])]
            rows = standings("defaults", *files_of(self.folder))
            self.assertEqual(held, [row[-4:-1] for row in rows], change)

    def test_no_value_typed_anywhere_leads_to_a_state_that_cannot_be_shown(self) -> None:
        desk, taken = self.three_banks(), 0
        for change in typed_changes():
            asked = json.dumps({"from": 0, **change}).encode()
            status, _, body = desk.ask("POST", desk.at("/change"), desk.own(), asked)
            self.assertIn(status, (200, 400, 422), (change, body[:200]))
            if status == 200:
                taken += 1
                self.assert_shown(desk, json.loads(body), change)
            else:
                self.assertIn("said", json.loads(body), change)
        self.assertGreater(taken, 20)

    def test_a_name_a_note_and_a_scenario_are_texts_whatever_they_are(self) -> None:
        desk = self.three_banks()
        for value in VALUES:
            for path, what in (
                ("/keep", {"state": 0, "name": value, "note": value}),
                ("/scenario", {"name": value, "cut": value, "losses": [[0, value]]}),
                ("/drop", {"name": value}),
                ("/ask", {"state": 0, "what": value}),
                ("/stop", {"question": value}),
            ):
                status = desk.ask("POST", desk.at(path), desk.own(), json.dumps(what).encode())[0]
                self.assertIn(status, (200, 400, 422), (path, value))
        for path in ("/kept", "/network", "/take/0/session", "/take/0/scenarios", "/state/0"):
            desk.see(path)

    def test_an_emptied_claim_and_a_debt_of_blanks_are_told(self):
        desk = self.desk()
        fault = desk.change(0, 422, set="claim", debt=6, value="")
        self.assertEqual((fault["said"], fault["field"]), ("debts row 7: number (4)", "claim"))
        for blank in ("", " "):
            fault = desk.change(0, 422, set="add", debtor=blank, creditor=blank, claim=blank, **{"class": blank})
            self.assertEqual(
                (fault["said"], fault["field"]), ("a debt has a debtor, a creditor, a class and a claim", "creditor")
            )
        self.assertEqual(desk.change(0, set="cut", value="1")["id"], 1)

    def test_ten_thousand_changes_share_what_they_do_not_change(self):
        base = states.Base([Bank(f"B{at}", 5, "order", 0) for at in range(2)], [Debt("B0", "B1", 1, 7)] * 20_000)
        steps, at = Steps(), 0
        tracemalloc.start()
        try:
            for number in range(9_999):
                change = (
                    {"from": at, "set": "claim", "debt": number, "value": "9"}
                    if number % 2
                    else {
                        "from": at,
                        "set": "add",
                        "debtor": "B0",
                        "creditor": "B1",
                        "class": "1",
                        "claim": str(number),
                    }
                )
                before = steps.state(base, at)
                state = states.changed(base, before, change)
                at = steps.add(state, at, change, state == before)
            held = tracemalloc.get_traced_memory()[1]
        finally:
            tracemalloc.stop()
        self.assertEqual((at, len(steps), len(steps.line(at))), (9_999, 10_000, 10_000))
        self.assertLess(held, 150_000_000)
        for number in (0, 1, 63, 64, 65, 4_321, 9_999):
            found = steps.state(base, number)
            self.assertEqual((len(found.claims), len(found.added)), (number // 2, number - number // 2), number)

    def test_a_debt_that_meets_a_limit_offers_a_larger_unit(self):
        debts = "".join(f"A,B{at},1,1000000\n" for at in range(25))
        files = self.net("A,1,order\n" + "".join(f"B{at},1,order\n" for at in range(26)), debts)
        add = {"set": "add", "debtor": "A", "creditor": "B25", "class": "1", "claim": "1"}
        desk = self.desk(files, "--unit", "20000", "--currency", "EUR")
        self.assertIn(
            (
                "all that banks owe is at most 25,000,000; a unit of account of EUR 200,000 has room for ten times as"
                " much: import the sheets again with --unit 200000"
            ),
            desk.change(0, 422, **add)["meaning"],
        )
        self.assertIn(
            "at most 1,000,000; a unit of account of EUR 200,000",
            desk.change(0, 422, set="claim", debt=0, value="1000001")["meaning"],
        )
        self.assertIn("a unit of account of 10 has", self.desk(files).change(0, 422, **add)["meaning"])

    def test_names_that_turn_the_order_of_letters_stand_as_codes(self):
        name, other = "Ban\u202ek A", "B\u2069\u202e"
        desk = self.desk(
            self.net(f"{name},5,order\n{other},7,order\n", f"{name},{other},1,9\n"),
            "--scenarios",
            self.file("s.toml", '[[scenario]]\nname = "S\\u202eX"\ncut = 10\n'),
        )
        network = desk.see("/network")
        self.assertEqual(network["shown"], ["Ban<U+202E>k A", "B<U+2069><U+202E>"])
        self.assertEqual(network["scenarios"][0]["name"], "S<U+202E>X")
        at = desk.change(0, set="claim", debt=0, value="8")["id"]
        at = desk.change(at, set="add", debtor=other, creditor=name, claim="2", **{"class": "1"})["id"]
        # Lines of what was changed have places, of which the page makes names that are shown.
        self.assertEqual(desk.see(f"/state/{at}")["changedDebts"], [[0, 0, 1, 1, 9, 8], [1, 1, 0, 1, None, 2]])
        self.assertNotIn("\u202e", desk.see(f"/take/{at}/report").decode().partition("</header>")[0])

    def test_files_that_are_refused_at_the_start(self):
        faulty = self.file("faulty.csv", "name,cash,rule\nA,x,order\n")
        for words, status, said in (
            (["--banks", faulty, "--debts", TWELVE / "debts.csv"], 4, "clearing-desk: banks row 1: number (4)\n"),
            (["--banks", self.folder / "none.csv", "--debts", TWELVE / "debts.csv"], 3, "cannot read"),
            (
                [*files_of(TWELVE), "--scenarios", self.file("s.toml", "[[scenario]]\n")],
                4,
                "clearing-desk: scenarios row 1: shape (17)\n",
            ),
            ([*files_of(TWELVE), "--labels", self.file("l.csv", "name,label\n")], 4, "the first row is not code,name"),
            ([*files_of(TWELVE), "--idle", "0"], 2, "is no number of minutes above 0"),
        ):
            done = tool("clearing-desk", *words, "--no-browser", python=PYTHON)
            self.assertEqual((done.returncode, done.stdout), (status, ""), done.stderr)
            self.assertIn(said, done.stderr)

    def test_without_bottle_it_says_what_is_missing(self):
        program = "import sys; sys.modules['bottle'] = None; from clearing_tools.desk.server import main; main()"
        done = subprocess.run(
            [sys.executable, "-B", "-c", program, *map(str, files_of(TWELVE))],
            cwd=PACKAGES,
            capture_output=True,
            encoding="utf-8",
        )
        self.assertEqual((done.returncode, done.stdout), (2, ""))
        self.assertIn("python3-bottle", done.stderr)


if __name__ == "__main__":
    unittest.main()
