"""From sheets as spreadsheets and databases write them to a case that is as described, and to evidence that holds."""
import csv
import io
import os
import shutil
import sys
import unittest
import unittest.mock
from typing import Any

import sheets
from common import ROOT, Case, Word, needs_packages
from evidences import evidence
from workbooks import xlsx_of

import clearing_client as cc

sys.path.append(str(ROOT / "bench"))

import from_sheets

LEI = {"529900T8BM49AURSDO55": "Nord, AG", "5493001KJTIIGC8Y1R12": "Ost S.A.", "213800D1EI4B9WTWWD28": "West & Söhne"}


class Sheets(Case):
    def case(self, tool: str, *words: Word) -> cc.Case:
        """The case that an importer makes of sheets; what it tells stands in `told`."""
        place = self.folder / "case"
        self.text = self.told(tool, *words, "--case", place, "--keep-sources", "--currency=EUR")
        self.assertEqual(self.made("clearing-case", "check", place), "the case is as it is described\n")
        return cc.Case.read(place)

    def evidence_holds(self) -> None:
        """The evidence of the case holds, with its sheets and with what banks are called."""
        # By the Python that runs the tests, which has what reads workbooks.
        path = os.pathsep.join([os.path.dirname(sys.executable), os.environ["PATH"]])
        with unittest.mock.patch.dict(os.environ, PATH=path):
            done = evidence("make", self.folder / "evidence", "--case", self.folder / "case")
            self.assertEqual((done.returncode, done.stderr), (0, b""))
            done = evidence("check", self.folder / "evidence")
        self.assertEqual((done.returncode, done.stderr), (0, b""))
        self.assertIn(
            "checked: the two files are what the command in source/ makes of the sheets\n", done.stdout.decode()
        )

    @needs_packages("openpyxl", "odf")
    def test_a_workbook_with_a_head_of_two_rows_and_its_german_twin(self):
        import openpyxl

        rows = [
            ["Bank", "Claims on", "", "Cash", "Name"],
            ["", "A", "B", "", ""],
            ["A", 0, 1234.5, 30, "Alpha, Inc."],
            ["B", 2, 0, 40, "Beta"],
        ]
        book, data = openpyxl.load_workbook(io.BytesIO(xlsx_of(rows))), io.BytesIO()
        for cells in ("A1:A2", "B1:C1", "D1:D2", "E1:E2"):
            book["Claims"].merge_cells(cells)
        book.save(data)
        place = self.folder / "m.xlsx"
        place.write_bytes(data.getvalue())
        words = ["--skip=1", "--cash=Cash", "--label-column=Name", "--unit=0.5"]
        first = self.case("clearing-from-matrix", place, *words)
        self.assertEqual(
            (first.labels["A"].full, str(first.amount(first.network.debts[0].claim))), ("Alpha, Inc.", "1234.5")
        )
        twin = self.file("m.csv", "Bank;A;B;Cash;Name\nA;0;1.234,50;30;Alpha, Inc.\nB;2;0;40;Beta\n")
        self.told("clearing-from-matrix", twin, *words[1:], "--thousands=.", "--case", self.folder / "twin")
        self.assertEqual(cc.Case.read(self.folder / "twin").network.debts, first.network.debts)
        self.evidence_holds()

    def test_a_list_of_a_database_with_codes_and_groups(self):
        text = io.StringIO()
        names = list(LEI)
        rows = [
            ("DEBTOR_LEI", "CREDITOR_LEI", "AMT", "CCY"),
            (names[0], names[1], "1000.25", "EUR"),
            (names[1], names[2], "NULL", "EUR"),
            (names[2], names[0], "700.5", "USD"),
            (names[0], names[0], "5", "EUR"),
        ]
        csv.writer(text, quoting=csv.QUOTE_ALL).writerows(rows)
        listed = self.file("list.csv", text.getvalue())
        head = "lei,cash,name,parent,ctry\n"
        table = self.file(
            "banks.csv",
            head + "".join(f'{lei},{at},"{name}",Holding,DE\n' for at, (lei, name) in enumerate(LEI.items())),
        )
        rates = self.file("rates.csv", "currency,rate\nEUR,1\nUSD,0.5\n")
        case = self.case(
            "clearing-from-list",
            listed,
            "--table",
            table,
            "--debtor=DEBTOR_LEI",
            "--creditor=CREDITOR_LEI",
            "--amount=AMT",
            f"--rate=CCY={rates}",
            "--leave-out=self,empty",
            "--unit=0.25",
            "--label-column=name",
            "--group-column=parent",
            "--country-column=ctry",
        )
        self.assertEqual(case.labels[names[2]], cc.Label(names[2], "", "West & Söhne", "Holding", "DE"))
        for line in (
            "lines without an amount, left out: 1; 0 in all",
            "debts of a bank to itself, left out: 1; 5 in all",
            "lines in USD: 1; 700.5 in all; at 0.5: 350.25",
        ):
            self.assertIn(line, self.text)
        self.evidence_holds()

    def test_a_matrix_whose_sums_miss_by_one(self):
        sheet = self.file(
            "m.csv",
            ",A,B,C,Sum,cash\nA,0,40001,60002,100003,3\nB,20001,0,80001,100002,4\nC,30001,10001,0,40002,5\n"
            "Sum,50003,50002,140003,240007,12\n",
        )
        self.case("clearing-from-matrix", sheet, "--drop=Sum")
        self.assertIn("control totals off by rounding: 2; 2 in all; the largest by 1; Sum in ", self.text)
        self.evidence_holds()

    def test_totals_and_the_networks_that_have_them(self):
        sheet = self.file("t.csv", "bank,assets,liabilities,cash\nA,100,60,20\nB,50,90,10\nC,70,40,30\nD,30,60,5\n")
        self.case("clearing-from-totals", sheet, "--method=sparse")
        self.evidence_holds()
        self.told(
            "clearing-from-totals",
            sheet,
            "--method=sample",
            "--samples=4",
            "--steps=500",
            "--case",
            self.folder / "draws",
            "--title=A draw",
        )
        told = self.made("clearing-case", "ensemble", *(self.folder / "draws" / str(at) for at in range(1, 5)))
        self.assertIn(" of 4 networks", told)

    def test_many_banks(self):
        names = [f"bank {at:03}" for at in range(200)]
        lines = [
            f"{names[at]},{names[(at * 7 + step) % 200]},{at + step}.5"
            for at in range(200)
            for step in range(1, 6)
            if (at * 7 + step) % 200 != at
        ]
        listed = self.file("l.csv", "debtor,creditor,amount\n" + "\n".join(dict.fromkeys(lines)) + "\n")
        table = self.file("t.csv", "bank,cash\n" + "".join(f"{name},{at}\n" for at, name in enumerate(names)))
        case = self.case("clearing-from-list", listed, "--table", table, "--sum", "--unit=0.5")
        self.assertEqual(len(case.network.banks), 200)
        self.evidence_holds()

    def test_amounts_in_cents(self):
        sheet = self.file("m.csv", "EUR;A;B;cash\nA;0;1.250,75;99,01\nB;3,10;0;1.000,00\n")
        case = self.case("clearing-from-matrix", sheet, "--thousands=.", "--unit=0.01")
        self.assertEqual((str(case.unit), str(case.amount(case.network.debts[0].claim))), ("0.01", "1250.75"))
        self.assertIn("cash EUR 1,099.01\n", self.made("clearing-case", "show", self.folder / "case"))
        self.evidence_holds()


@needs_packages("openpyxl", "odf", "jinja2")
class Ways(Case):
    """Each set of sheets, by the commands of docs/DATA.md."""

    BANKS = {"many": 30}

    def way(self, name: str) -> Any:
        """What the steps print for a set."""
        return from_sheets.done_of(sheets.SETS[name](self.folder, self.BANKS.get(name, 8)), self.folder)

    def test_sheets_end_in_checked_evidence_and_a_report_in_full_names(self):
        told = {
            "workbook": "rows read: 8; claims.xlsx sheet Exposures\n",
            "twin": "control totals that agree: 1; Summe in zwilling.csv\n",
            "database": "debts of a bank to itself, left out: 1; 5 in all\n",
            "sums": "control totals off by rounding: ",
            "totals": "debts made: ",
            "many": "codes in place of names: ",
            "cents": "in units of 0.01: ",
        }
        claims = {}
        for name in sheets.SETS:
            with self.subTest(set=name):
                steps = self.way(name)
                self.assertIn(told[name], steps["import"].told)
                self.assertEqual(steps["check"].printed, "the case is as it is described\n")
                made = "checked: the two files are what the command in source/ makes of the sheets\n"
                self.assertIn(made, steps["check evidence"].printed)
                claims[name] = (self.folder / "case" / "debts.csv").read_text(encoding="utf-8")
                for place in ("case", "evidence"):
                    shutil.rmtree(self.folder / place)
        self.assertEqual(claims["workbook"], claims["twin"])


if __name__ == "__main__":
    unittest.main()
