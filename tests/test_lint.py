"""`clearing-lint` tells every fault of files at once, each with its row and a hint. That it judges as the program does
is in `test_lint_judges`."""
import sys
import unittest
from typing import Any, List

from common import ROOT, Case, Word, tool
from made_up import NETWORK

FAULTY_BANKS = (
    'name,cash,rule\r\n\r\nCrédit,"1,000",Order\r\nB,-7,webster\r\n,,\r\nB,7.5,webser\r\nC,1\u00a0000,order,\r\n'
)
TOLD_OF_BANKS = [
    "line 3 (row 1) cash: number (4): '1,000' is not a number; write it without separators between thousands",
    "line 3 (row 1) rule: rule (5): 'Order' is not a rule; write it as order, in small letters",
    "line 4 (row 2) cash: number (4): '-7' is not a number; no amount is below 0",
    "line 6 (row 4) name: double bank (7): the bank 'B' is also in line 4 (row 2)",
    "line 6 (row 4) cash: number (4): '7.5' is not a number; amounts are whole units",
    "line 6 (row 4) rule: rule (5): 'webser' is not a rule; is it webster?",
    "line 7 (row 5): fields (2): 4 fields in place of 3; delete the commas at the end",
]
FAULTY_DEBTS = (
    'debtor,creditor,class,claim\nCre\u0301dit,B,1.0,1E+06\nB,B,1,\nB,C,1,2000000\nB,C,1,5\n"B\nX",C,1,5\n'
)
TOLD_OF_DEBTS = [
    "line 2 (row 1) debtor: unknown bank (8): no bank has the name 'Cre\u0301dit'; the banks file has 'Crédit'; they"
    " differ by another Unicode form",
    "line 2 (row 1) class: class (10): '1.0' is not a class; write it as 1",
    "line 2 (row 1) claim: number (4): '1E+06' is not a number; write it without an exponent",
    "line 3 (row 2) creditor: self debt (9): 'B' is its own creditor",
    "line 3 (row 2) claim: number (4): '' is not a number; write 0",
    "line 4 (row 3) claim: limit (6): 2,000,000 is more than 1,000,000; take a larger unit",
    "line 5 (row 4): double debt (11): a debt of this debtor, creditor and class is also in line 4 (row 3)",
    "line 6 (row 5) debtor: name (3): the name 'B\\nX' has the control character U+000A; a name stands in one line",
]
SCENARIO_FAULTS = (
    '[[scenario]]\nname = "a"\ncut = 1001\nCut = 5\n\n[[scenario]]\nname = "b,c"\n[[scenario.loss]]\n'
    'bank = "a"\namount = 7\n'
    '[[scenario.loss]]\nbank = "B"\namount = -1\n[[scenario.loss]]\nbank = "B"\namount = "7"\n'
)
# A file of scenarios, and what is told of it.
TOLD_OF_SCENARIOS = [
    (
        SCENARIO_FAULTS,
        [
            "line 1 (row 1) Cut: shape (17): the scenario has a key 'Cut'; is it cut?",
            "line 1 (row 1) cut: limit (6): 1,001 is more than 1,000; a cut is per mille: 0 to 1,000",
            "line 6 (row 2) amount: shape (17): amount is not a whole number, without quotes or a point",
            "line 6 (row 2) name: name (3): the name 'b,c' has a comma; write the name without it",
            (
                "line 6 (row 2) bank: unknown bank (8): no bank has the name 'a'; the banks file has 'A'; they "
                "differ by capitals, or other spaces or signs"
            ),
            "line 6 (row 2) amount: limit (6): -1 is below 0; write it without a sign",
            "line 6 (row 2) bank: double bank (7): the bank 'B' has two losses; add them up",
            "7 faults",
        ],
    ),
    (
        "[[scenario]]\nname = “a”\n",
        [
            (
                "line 2 (row 0): toml (16): it is not TOML: Invalid value (at line 2, column 8); quotes are "
                'straight: "'
            ),
            "1 fault",
        ],
    ),
    (
        '[[scenario]]\nname = "a"\ncut = 1,000\n',
        [
            (
                "line 3 (row 0): toml (16): it is not TOML: Expected newline or end of document after a "
                "statement (at line 3, column 8)"
                "; write the number without separators between thousands"
            ),
            "1 fault",
        ],
    ),
    (
        '[scenario]\nname = "a"\n',
        [
            (
                "line 1 (row 0) scenario: shape (17): scenario is no array of tables; write [[scenario]], with "
                "two brackets at each end"
            ),
            "1 fault",
        ],
    ),
    (
        '[[scenarios]]\nname = "a"\n',
        ["line 1 (row 0): shape (17): the document has a key 'scenarios'; write [[scenario]]", "1 fault"],
    ),
    ("\ufeff[[scenario]]\ncut = 1\n", ["line 1 (row 1) name: shape (17): the scenario has no name", "1 fault"]),
    ("", ["no fault"]),
]


class Told(Case):
    """What is told of files that have faults, and of files that have none."""

    def run_lint(self, status: int, banks: Any, debts: Any, *more: Word) -> List[str]:
        done = tool("clearing-lint", "--banks", banks, "--debts", debts, *more)
        self.assertEqual((done.returncode, done.stderr), (status, ""))
        return done.stdout.splitlines()

    def test_all_faults_are_named_at_once_with_hints(self):
        banks, debts = self.file("banks.csv", FAULTY_BANKS), self.file("debts.csv", FAULTY_DEBTS)
        done = self.run_lint(1, banks, debts)
        lines = [f"{banks} {told}" for told in TOLD_OF_BANKS] + [f"{debts} {told}" for told in TOLD_OF_DEBTS]
        self.assertEqual(len(done), len(lines) + 1, done)
        for line, begin in zip(done, [*lines, "15 faults"]):
            self.assertTrue(line.startswith(begin), (line, begin))

    def test_headers_that_are_none_are_explained(self):
        debts = self.file("debts.csv", "debtor,creditor,class,claim\nA,B,1,1\n")
        for text, hint in [
            ("name;cash;rule\nA;1;order\n", "save the file with commas"),
            ("name\tcash\trule\n", "stand between tabs"),
            *(("name,cash,rule\n".encode(code), "the file is UTF-16") for code in ("utf-16", "utf-16-le", "utf-16-be")),
            (
                b"PK\x03\x04\x14\0\6\0\x08\0\0\0!\0",
                "the file is a workbook; clearing-from-matrix or clearing-from-list reads it",
            ),
            (bytes.fromhex("d0cf11e0a1b11ae1") + bytes(90), "the file is a workbook"),
            (b"\x7fELF\2\1\1\0\0\0", "the file is no text"),
            ("Name,Cash,Rule\nA,1,order\nB,1,order\n", "small letters"),
            ("name,cash,rule,\nA,1,order,\nB,1,order,\n", "delete the empty columns"),
            ("name,cash\u00a0,rule\nA,1,order\nB,1,order\n", "no blank here"),
            ("\ufeff\ufeffname,cash,rule\nA,1,order\nB,1,order\n", "second byte order mark"),
            ("Banks,,\nname,cash,rule\nA,1,order\n", "stands in line 2"),
            ("name,rule,cash\nA,order,1\n", "another order"),
            ("A,1,order\n", "is missing"),
            ("", "has no record"),
        ]:
            banks = self.file("banks.csv", text)
            done = self.run_lint(1, banks, debts)
            # Nothing else is said: what follows from the header is left out.
            self.assertEqual((len(done), done[-1]), (2, "1 fault"), done)
            self.assertIn(f"{banks} line 1 (row 0): header (1): the first record is not name,cash,rule or", done[0])
            self.assertIn(hint, done[0])

    @unittest.skipIf(sys.version_info < (3, 11), "TOML is read by Python 3.11 or later")
    def test_faults_of_scenarios_have_their_lines_and_hints(self) -> None:
        banks, debts = self.file("b.csv", NETWORK["banks"]), self.file("d.csv", NETWORK["debts"])
        for content, lines in TOLD_OF_SCENARIOS:
            name = self.file("s.toml", content)
            done = self.run_lint(int(lines != ["no fault"]), banks, debts, "--scenarios", name)
            self.assertEqual(done, [f"{name} {line}" for line in lines[:-1]] + lines[-1:])

    def test_faults_of_journals_have_their_lines_and_hints(self):
        text = (
            "stamp,debtor,creditor,class,to\r\n1,A,B,1,7\r\n2,A,B,2,7\r\n3,B,A,1,x\r\nrounds,2\r\n"
            "4294967296,a,B,1,1000001\r\n"
        )
        name = self.file("j.csv", text)
        self.assertEqual(
            self.run_lint(
                1, self.file("b.csv", NETWORK["banks"]), self.file("d.csv", NETWORK["debts"]), "--journal", name
            ),
            [
                f"{name} {line}"
                for line in [
                    "line 3 (row 2): unknown debt (15): no debt is of 'A' to 'B' in class 2; there is one in class 1",
                    (
                        "line 4 (row 3): unknown debt (15): no debt is of 'B' to 'A' in class 1; there is one the other"
                        " way round"
                    ),
                    (
                        "line 4 (row 3) to: number (4): 'x' is not a number; a number is 1 to 20 digits 0 to 9, and "
                        "nothing else"
                    ),
                    (
                        "line 5 (row 4): fields (2): 2 fields in place of 5; the record of rounds is the last; is this "
                        "two journals in one?"
                    ),
                    "line 6 (row 5) stamp: limit (6): 4,294,967,296 is more than 4,294,967,295",
                    (
                        "line 6 (row 5) debtor: unknown bank (8): no bank has the name 'a'; the banks file has 'A';"
                        " they differ by capitals, or other spaces or signs"
                    ),
                    "line 6 (row 5) to: limit (6): 1,000,001 is more than 1,000,000; take a larger unit of account",
                ]
            ]
            + ["7 faults"],
        )

    def test_the_last_of_many_faults_and_of_many_names_is_told(self):
        debts = self.file("debts.csv", "debtor,creditor,class,claim\n")
        for count in (31, 1000, 1500):
            lines = "".join(f"N{number},x,order\n" for number in range(count))
            done = self.run_lint(1, self.file("banks.csv", f"name,cash,rule\n{lines}"), debts, "--limits", "wide")
            self.assertEqual((len(done), done[-1]), (count + 1, f"{count:,} faults"))
            self.assertIn(f"banks.csv line {count + 1} (row {count}) cash: number (4): 'x' is not a number", done[-2])
            lines = "".join(f"N{number},1,order\n" for number in range(count)) + "=N,1,order\n"
            done = self.run_lint(0, self.file("banks.csv", f"name,cash,rule\n{lines}"), debts, "--limits", "wide")
            self.assertEqual((len(done), done[-1]), (2, "no fault, 1 warning"))
            self.assertIn(f"banks.csv line {count + 2} (row {count + 1}) name: warning: a spreadsheet takes", done[0])

    def test_that_the_sum_of_all_claims_is_too_large_is_told_once(self):
        """At the claim that passes it; those behind it say nothing new."""
        banks = self.file("banks.csv", "name,cash,rule\nA,1,order\nB,1,order\n")
        pairs = [(*pair, rank) for pair in ("AB", "BA") for rank in range(1, 8)]
        lines = "".join(f"{debtor},{creditor},{rank},1000000\n" for debtor, creditor, rank in pairs)
        debts = self.file("debts.csv", f"debtor,creditor,class,claim\n{lines}")
        done = self.run_lint(1, banks, debts, "--limits", "standard")
        self.assertEqual((len(done), done[-1]), (2, "1 fault"))
        told = "line 12 (row 11) claim: total (13): the claims so far come to 11,000,000, and the most is 10,000,000"
        self.assertIn(told, done[0])
        self.assertEqual(self.run_lint(0, banks, debts, "--limits", "wide"), ["no fault"])

    def test_examples_have_no_fault_and_missing_files_are_told(self):
        for folder in sorted((ROOT / "examples").iterdir()):
            if (folder / "banks.csv").exists():
                self.assertEqual(self.run_lint(0, folder / "banks.csv", folder / "debts.csv"), ["no fault"])
        none = self.folder / "none.csv"
        self.refused("clearing-lint", 3, f"cannot read {none}", "--banks", none, "--debts", none)
