"""Every way in which an amount of a sheet does not come into the network, and the line that tells it: a fault, or what
was left out with its count and sum."""
import unittest
from typing import Any, Tuple

from common import Case, Word

from clearing_tools.imports import exposure_list as lists
from clearing_tools.imports import matrix, totals
from clearing_tools.runner import ToolError

MATRIX = ",A,B,C,cash\nA,0,6,4,3\nB,2,0,8,4\nC,3,1,0,5\n"
LIST = "debtor,creditor,amount\nA,B,10\nB,C,7\nC,A,5\nC,B,2\n"
TABLE = "bank,cash,outside\nA,3,1\nB,4,0\nC,5,2\n"
TOTALS = "bank,assets,liabilities,cash\nA,20,30,1\nB,30,20,2\nC,10,10,3\n"
RATES = "currency,rate\nUSD,0.5\nGBP,2\n"


class Importing(Case):
    def files(self, **texts: str) -> None:
        for name, text in texts.items():
            self.file(f"{name}.csv", text)

    def word(self, word: str) -> str:
        """A word of the command, with the names of files in the folder of the test."""
        before, sign, name = word.rpartition("=")
        return f"{before}{sign}{self.folder / name}" if name.endswith(".csv") else word

    def run_on(self, kind: Any, *words: Word) -> Tuple[str, str, str]:
        """What an importer tells, and the files that it makes by the ends of their names."""
        words = [self.word(word) for word in words]
        if kind is totals:
            args = kind.parse_args([*words, "--method=sparse", f"--out={self.folder}/out"])
        else:
            args = kind.parse_args([*words, f"--banks={self.folder}/b", f"--debts={self.folder}/d"])
        outputs, _, summary = kind.convert(args)
        texts = [text for _, text in outputs]
        return summary.text(), texts[0], texts[1]

    def told(self, kind: Any, *words: Word, **texts: str) -> str:
        self.files(**texts)
        return self.run_on(kind, *words)[0]

    def refused(self, kind: Any, *words: Word, **texts: str) -> str:
        self.files(**texts)
        with self.assertRaises(ToolError) as fault:
            self.run_on(kind, *words)
        return "\n".join(fault.exception.lines)


class LeftOut(Importing):
    # How an amount may be lost: the importer, its words, the sheets, and the lines that tell it.
    TOLD = [
        (
            "a bank of a matrix",
            matrix,
            ["m.csv", "--leave-out", "C"],
            {"m": MATRIX},
            [
                "debts that it owes, left out by --leave-out C: 2; 4 in all",
                "debts that it is owed, left out by --leave-out C: 2; 12 in all",
                "cash left out by --leave-out C: 1; 5 in all",
            ],
        ),
        (
            "a bank of a matrix of claims",
            matrix,
            ["m.csv", "--leave-out", "C", "--columns-owe"],
            {"m": MATRIX},
            [
                "debts that it owes, left out by --leave-out C: 2; 12 in all",
                "debts that it is owed, left out by --leave-out C: 2; 4 in all",
            ],
        ),
        (
            "a bank with a table",
            matrix,
            ["m.csv", "--table", "t.csv", "--leave-out", "C"],
            {"m": ",A,B,C\nA,0,6,4\nB,2,0,8\nC,3,1,0\n", "t": TABLE},
            ["cash left out by --leave-out C: 1; 5 in all", "outside left out by --leave-out C: 1; 2 in all"],
        ),
        (
            "a bank of a list",
            lists,
            ["l.csv", "--table", "t.csv", "--leave-out", "C"],
            {"l": LIST, "t": TABLE},
            [
                "debts that it owes, left out by --leave-out C: 2; 7 in all",
                "debts that it is owed, left out by --leave-out C: 1; 7 in all",
                "cash left out by --leave-out C: 1; 5 in all",
                "outside left out by --leave-out C: 1; 2 in all",
            ],
        ),
        (
            "a bank that the table lacks",
            lists,
            ["l.csv", "--table", "t.csv", "--leave-out", "C"],
            {"l": LIST, "t": TABLE.replace("C,5,2\n", "")},
            [
                "debts that it owes, left out by --leave-out C: 2; 7 in all",
                "debts that it is owed, left out by --leave-out C: 1; 7 in all",
            ],
        ),
        (
            "a bank of totals",
            totals,
            ["s.csv", "--leave-out", "C"],
            {"s": TOTALS},
            [
                "debts that it owes, left out by --leave-out C: 1; 10 in all",
                "debts that it is owed, left out by --leave-out C: 1; 10 in all",
                "cash left out by --leave-out C: 1; 3 in all",
            ],
        ),
        (
            "lines of other values",
            lists,
            ["l.csv", "--table", "t.csv", "--where", "creditor=B"],
            {"l": LIST, "t": TABLE},
            ["lines left out by --where creditor=B: 2; 12 in all"],
        ),
        (
            "lines that count once",
            lists,
            ["l.csv", "--table", "t.csv", "--duplicates", "once"],
            {"l": LIST + "A,B,10\n", "t": TABLE},
            ["lines that are the same in every column: 1; 10 in all; taken once"],
        ),
        (
            "a diagonal",
            matrix,
            ["m.csv", "--leave-out", "self"],
            {"m": MATRIX.replace("A,0,", "A,9,")},
            ["debts of a bank to itself, left out: 1; 9 in all"],
        ),
        (
            "an own creditor",
            lists,
            ["l.csv", "--table", "t.csv", "--leave-out", "self"],
            {"l": LIST + "A,A,9\n", "t": TABLE},
            ["debts of a bank to itself, left out: 1; 9 in all"],
        ),
        (
            "negative amounts",
            matrix,
            ["m.csv", "--leave-out", "negative"],
            {"m": MATRIX.replace("A,0,6", "A,0,-6")},
            ["amounts below 0, left out: 1; -6 in all"],
        ),
        (
            "negative lines",
            lists,
            ["l.csv", "--table", "t.csv", "--leave-out", "negative,self"],
            {"l": LIST + "A,C,-9\n", "t": TABLE},
            ["amounts below 0, left out: 1; -9 in all"],
        ),
        (
            "negative amounts that are turned",
            matrix,
            ["m.csv", "--turn", "negative"],
            {"m": MATRIX.replace("A,0,6", "A,0,-6")},
            [
                "amounts below 0, owed the other way round: 1; 6 in all",
                "debts summed, as one was turned round: 2; into 1",
            ],
        ),
        (
            "negative lines that are turned",
            lists,
            ["l.csv", "--table", "t.csv", "--turn", "negative", "--sum"],
            {"l": LIST + "A,C,-9\n", "t": TABLE},
            ["amounts below 0, owed the other way round: 1; 9 in all", "lines summed: 2; into 1 debt"],
        ),
        (
            "lines of NULL",
            lists,
            ["l.csv", "--table", "t.csv", "--leave-out", "empty"],
            {"l": LIST + "A,C,NULL\n", "t": TABLE},
            ["lines without an amount, left out: 1; 0 in all"],
        ),
        (
            "NULL as 0",
            lists,
            ["l.csv", "--table", "t.csv", "--empty", "0"],
            {"l": LIST + "A,C,NULL\n", "t": TABLE},
            ["empty amounts, read as 0: 1; 0 in all", "debts of amount 0, left out: 1"],
        ),
        (
            "an empty amount",
            lists,
            ["l.csv", "--table", "t.csv"],
            {"l": LIST + "A,C,\n", "t": TABLE},
            ["empty amounts, read as 0: 1; 0 in all"],
        ),
        (
            "empty claims",
            matrix,
            ["m.csv"],
            {"m": MATRIX.replace("C,3,1,0", "C,,1,")},
            ["empty cells among the claims, read as 0: 1; 0 in all"],
        ),
        (
            "empty cash",
            matrix,
            ["m.csv", "--empty", "0"],
            {"m": MATRIX.replace("8,4", "8,")},
            ["empty cells of cash, read as 0: 1; 0 in all"],
        ),
        (
            "empty totals",
            totals,
            ["s.csv"],
            {"s": TOTALS.replace("C,10,10", "C,,")},
            ["empty totals, read as 0: 2; 0 in all"],
        ),
        (
            "a column of a table",
            matrix,
            ["m.csv", "--table", "t.csv", "--no-outside"],
            {"m": ",A,B,C\nA,0,6,4\nB,2,0,8\nC,3,1,0\n", "t": TABLE},
            ["columns not looked at: 1; outside", "amounts in a column not looked at: 2; 3 in all; outside in"],
        ),
        (
            "a column that is dropped",
            lists,
            ["l.csv", "--table", "t.csv", "--drop", "outside"],
            {"l": LIST, "t": TABLE},
            ["amounts left out by --drop: 2; 3 in all; outside in"],
        ),
        (
            "what rounds to 0",
            matrix,
            ["m.csv", "--unit", "10", "--round"],
            {"m": MATRIX},
            [
                "debts that became 0: 4; 10 in all; A owes C 4, B owes A 2, C owes A 3, and others",
                "amounts rounded: 9; by 28 together, the largest by 5",
            ],
        ),
        (
            "debts within a group",
            matrix,
            ["m.csv", "--groups", "g.csv"],
            {"m": MATRIX, "g": "bank,group\nA,G\nB,G\n"},
            ["debts within groups, left out: 2; 8 in all"],
        ),
        (
            "currencies of a matrix",
            matrix,
            ["m.csv", "--rate", "Ccy=r.csv"],
            {"r": RATES, "m": ",A,B,Ccy,cash\nA,0,6,USD,2\nB,2,0,GBP,4\n"},
            ["amounts in USD: 2; 8 in all; at 0.5: 4", "amounts in GBP: 2; 6 in all; at 2: 12"],
        ),
        (
            "currencies of totals",
            totals,
            ["s.csv", "--rate", "Ccy=r.csv"],
            {"r": RATES, "s": "bank,assets,liabilities,cash,Ccy\nA,40,40,2,USD\nB,10,10,1,GBP\n"},
            ["amounts in USD: 3; 82 in all; at 0.5: 41"],
        ),
        (
            "rows above the header",
            lists,
            ["l.csv", "--table", "t.csv", "--skip", "3"],
            {"l": "debtor,creditor,amount\nA,B,10\nB,C,7\n" + LIST, "t": TABLE},
            ["amounts above the header, passed over: 2; 17 in all; row 2, 3 of "],
        ),
        (
            "a cell with a line end",
            lists,
            ["l.csv", "--table", "t.csv", "--sum"],
            {"l": 'debtor,creditor,amount,note\nA,B,10,"see\nC,A,5"\nB,C,7,\n', "t": TABLE},
            ["rows with a line end in a cell, each read as one: 1; row 2 of"],
        ),
    ]

    def test_what_is_left_out_is_told_with_its_count_and_sum(self):
        for what, kind, words, texts, lines in self.TOLD:
            with self.subTest(what=what):
                told = self.told(kind, *words, **texts)
                for line in lines:
                    self.assertIn(line, told)

    # What is refused until something is said, and the way on.
    REFUSED = [
        (
            "a bank is no total",
            matrix,
            ["m.csv", "--drop", "C"],
            {"m": MATRIX},
            "m.csv row 4: C is no line of totals: it owes 2 debts of 4 and is owed 2 debts of 12; say --leave-out C",
        ),
        (
            "a bank of a list is no total",
            lists,
            ["l.csv", "--table", "t.csv", "--drop", "C"],
            {"l": LIST, "t": TABLE},
            "C is no line of totals: it owes 2 debts of 7 and is owed 1 debt of 7; say --leave-out C",
        ),
        (
            "a bank of totals is no total",
            totals,
            ["s.csv", "--drop", "C"],
            {"s": TOTALS},
            "s.csv row 4: C is no line of totals: it owes 1 debt of 10 and is owed 1 debt of 10; say --leave-out C",
        ),
        (
            "a bank beside a total",
            matrix,
            ["m.csv", "--drop", "Sum", "--drop", "C"],
            {"m": MATRIX + "Sum,5,7,12,12\n"},
            "C is no line of totals",
        ),
        (
            "two currencies of a matrix",
            matrix,
            ["m.csv"],
            {"m": ",A,B,Ccy,cash\nA,0,6,USD,2\nB,2,0,GBP,4\n"},
            "m.csv row 1 column Ccy: amounts are in GBP, USD; say --rate Ccy=FILE, or --ignore Ccy",
        ),
        (
            "two currencies that are dropped",
            matrix,
            ["m.csv", "--drop", "Ccy"],
            {"m": ",A,B,Ccy,cash\nA,0,6,USD,2\nB,2,0,GBP,4\n"},
            "amounts are in GBP, USD",
        ),
        (
            "two currencies of a table",
            lists,
            ["l.csv", "--table", "t.csv"],
            {"l": LIST, "t": "bank,cash,Ccy\nA,3,USD\nB,4,GBP\nC,5,USD\n"},
            "t.csv row 1 column Ccy: amounts are in GBP, USD",
        ),
        (
            "two currencies of totals",
            totals,
            ["s.csv"],
            {"s": "bank,assets,liabilities,cash,Ccy\nA,40,40,2,USD\nB,10,10,1,GBP\n"},
            "amounts are in GBP, USD",
        ),
        (
            "a currency without a rate",
            matrix,
            ["m.csv", "--rate", "Ccy=r.csv"],
            {"r": "currency,rate\nUSD,2\n", "m": ",A,B,Ccy,cash\nA,0,6,USD,2\nB,2,0,GBP,4\n"},
            "has no rate for 'GBP'",
        ),
        (
            "empty cash",
            matrix,
            ["m.csv"],
            {"m": MATRIX.replace("8,4", "8,")},
            "the cash of B is an empty cell; write it, or say --empty 0",
        ),
        (
            "empty cash of a list",
            lists,
            ["l.csv", "--table", "t.csv"],
            {"l": LIST, "t": TABLE.replace("B,4", "B,")},
            "the cash of B is an empty cell",
        ),
        (
            "empty cash of totals",
            totals,
            ["s.csv"],
            {"s": TOTALS.replace("10,3", "10,")},
            "the cash of C is an empty cell",
        ),
        (
            "NULL as cash",
            lists,
            ["l.csv", "--table", "t.csv"],
            {"l": LIST, "t": TABLE.replace("B,4", "B,NULL")},
            "'NULL' is not an amount; say --empty 0",
        ),
        (
            "NULL",
            lists,
            ["l.csv", "--table", "t.csv"],
            {"l": LIST + "A,C,NULL\n", "t": TABLE},
            "'NULL' is not an amount; say --empty 0 to read it as 0, or --leave-out empty",
        ),
        (
            "a diagonal",
            matrix,
            ["m.csv"],
            {"m": MATRIX.replace("A,0,", "A,9,")},
            "no bank owes itself; correct it, or say --leave-out self",
        ),
        (
            "an own creditor",
            lists,
            ["l.csv", "--table", "t.csv"],
            {"l": LIST + "A,A,9\n", "t": TABLE},
            "A is its own creditor; correct it, or say --leave-out self",
        ),
        (
            "below 0",
            matrix,
            ["m.csv"],
            {"m": MATRIX.replace("A,0,6", "A,0,-6")},
            "'-6' is below 0; what a bank is owed stands as a debt of the bank that owes: say --turn negative, or "
            "--leave-out negative",
        ),
        (
            "cash below 0",
            matrix,
            ["m.csv", "--turn", "negative"],
            {"m": MATRIX.replace("8,4", "8,-4")},
            "-4 is below 0, and no cash or debt of a bank",
        ),
        ("nobody", matrix, ["m.csv", "--leave-out", "D"], {"m": MATRIX}, "there is no D to leave out"),
        (
            "a bank without a row in the table",
            lists,
            ["l.csv", "--table", "t.csv"],
            {"l": LIST, "t": TABLE.replace("C,5,2\n", "")},
            "has no bank C; add it there, or say --leave-out C",
        ),
    ]

    def test_what_would_be_lost_is_refused_with_the_way_on(self):
        for what, kind, words, texts, line in self.REFUSED:
            with self.subTest(what=what):
                self.assertIn(line, self.refused(kind, *words, **texts))

    def test_what_is_in_a_network_and_what_was_left_out_come_to_the_sheet(self):
        for words, texts in [
            ([], {"m": MATRIX}),
            (["--leave-out", "C"], {"m": MATRIX}),
            (["--leave-out", "A", "--leave-out", "B"], {"m": MATRIX}),
        ]:
            self.files(**texts)
            told, banks, debts = self.run_on(matrix, "m.csv", *words)
            inside = sum(int(line.split(",")[3]) for line in debts.splitlines()[1:])
            out = sum(
                int(line.split("; ")[1].split()[0]) for line in told.splitlines() if line.startswith("debts that it")
            )
            self.assertEqual(inside + out, 24)

    def test_turned_amounts_are_owed_the_other_way(self):
        self.files(m=MATRIX.replace("A,0,6", "A,0,-6"))
        self.assertEqual(
            self.run_on(matrix, "m.csv", "--turn", "negative")[2],
            "debtor,creditor,class,claim\nB,A,1,8\nA,C,1,4\nB,C,1,8\nC,A,1,3\nC,B,1,1\n",
        )


class WayOn(Importing):
    """What was a dead end."""

    def test_many_faults_of_a_kind_are_one_line(self):
        lines = "".join(f"X{at},A,{at + 1}\n" for at in range(335))
        told = self.refused(
            lists, "l.csv", "--table", "t.csv", l="debtor,creditor,amount\n" + lines, t=TABLE
        ).splitlines()
        self.assertEqual(len(told), 1)
        self.assertIn("row 2 column debtor: ", told[0])
        self.assertIn(
            "has no bank X0; add it there, or say --leave-out X0 (335 of this kind; also row 3 column debtor: ", told[0]
        )
        self.assertIn("has no bank X2", told[0])
        self.assertNotIn("X3", told[0])

    def test_totals_of_whole_numbers_may_be_off_by_rounding(self):
        sheet = (
            ",A,B,C,Sum,cash\nA,0,40001,60002,100003,3\nB,20001,0,80001,100002,4\nC,30001,10001,0,40002,5\n"
            "Sum,{},50002,140003,{},12\n"
        )
        self.assertIn(
            "control totals that agree: 1; Sum",
            self.told(matrix, "m.csv", "--drop", "Sum", m=sheet.format(50002, 240007)),
        )
        told = self.told(matrix, "m.csv", "--drop", "Sum", m=sheet.format(50003, 240007))
        self.assertIn("control totals off by rounding: 2; 2 in all; the largest by 1; Sum in ", told)
        self.assertIn(
            "Sum says 50,012, and the others come to 50,002",
            self.refused(matrix, "m.csv", "--drop", "Sum", m=sheet.format(50012, 240007)),
        )
        # So small a number is no rounded one.
        small = ",A,B,C,Sum,cash\nA,0,6,4,10,3\nB,2,0,8,10,4\nC,3,1,0,4,5\nSum,6,7,12,24,12\n"
        self.assertIn("Sum says 6, and the others come to 5", self.refused(matrix, "m.csv", "--drop", "Sum", m=small))

    def test_the_delimiter_is_the_one_by_which_most_lines_agree(self):
        text = (
            '"debtor, that owes";"creditor, that is owed";amount\n"Banco A, S.A.";"B, S.A.";10\n'
            '"B, S.A.";"Banco A, S.A.";7\n'
        )
        table = "bank;cash\nBanco A, S.A.;1\nB, S.A.;2\n"
        self.files(l=text, t=table)
        words = [
            "l.csv",
            "--table",
            "t.csv",
            "--debtor",
            "debtor, that owes",
            "--creditor",
            "creditor, that is owed",
            f"--label={self.folder}/n",
        ]
        self.assertEqual(
            self.run_on(lists, *words)[2],
            "debtor,creditor,class,claim\nBanco A  S.A.,B  S.A.,1,10\n".replace("  ", " ")
            + "B S.A.,Banco A S.A.,1,7\n",
        )
        plain = "bank;assets;liabilities;cash\nBanco A, S.A.;10;10;1\nBanco B, S.A.;20;20;2\nC;10;10;5\n"
        self.assertIn("rows read: 3", self.told(totals, "s.csv", f"--label={self.folder}/n", s=plain))

    def test_the_hint_names_the_header_and_not_the_line_of_totals(self):
        text = "Exposures 2025\n\nbank,assets,liabilities,cash,\nA,20,30,1,\nB,30,20,2,\nC,10,10,3,\nTotal,60,60,6,x\n"
        self.assertIn(
            "looks like a title above the header, which is row 3, is it? say --skip 2",
            self.refused(totals, "s.csv", s=text),
        )


if __name__ == "__main__":
    unittest.main()
