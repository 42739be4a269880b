"""Amounts of sheets: the forms in which they are written, the signs that could mean either of two things, and the whole
units that importers make of them within the limits of the program."""
import random
from fractions import Fraction

from common import tool
from imported import ImportCase

from clearing_tools.imports.amounts import AmountError, Amounts

# An amount as sheets write it, and its number.
AMOUNTS = [
    *[("", 0), ("-", 0), (" – ", 0), ("0", 0), ("-0,00", 0), ("- €", 0), ("007", 7), (".5", "0.5"), ("5.", 5)],
    *[("7,5", "7.5"), ("7.5", "7.5"), ("0.445", "0.445"), ("1234.567", "1234.567"), ("1.234.567", 1234567)],
    *[("1,234.50", "1234.5"), ("1.234,50", "1234.5"), ("1'234.5", "1234.5"), ("1’234", 1234), ("1 234,5", "1234.5")],
    *[("1\u00a0234", 1234), ("1\u202f234\u202f567", 1234567), ("1,00,000", 100000), ("12,34,567.50", "1234567.5")],
    *[("1e3", 1000), ("1,5E+06", 1500000), ("2.345e-3", "0.002345"), ("12345678901234567890", 12345678901234567890)],
    *[("€ 1.234,50", "1234.5"), ("1,234.50 EUR", "1234.5"), ("CHF1'000", 1000), ("US$ 7", 7), ("$7", 7)],
    *[("9,007,199,254,740,993", 2**53 + 1), ("9 007 199 254 740 993,01", "9007199254740993.01")],
    *[("1234567890123.4567890123456789", "1234567890123.4567890123456789"), ("9007199254740993e2", 100 * (2**53 + 1))],
    ("\u00a07\u00a0", 7),
]
NO_AMOUNTS = [
    *["x", "n/a", "NAN", "EUR", "€", "#####", "=3+4", "٣", "²", "1e999", "9" * 41, "0x10", "1_000", "1;2", "."],
    *["1-2", "-7", "(7)", "7-", "−7", "7%", "--7"],
    *["1.00.000", "1,0,000", "1 00", "1 234'567", "12 34 567", "1.234,567.8", "1,,000"],
]
# Two amounts that no one sheet writes: with other signs, or in other currencies.
AT_ODDS = [["7,5", "7.5"], ["1.234.567", "7.5"], ["1,234.5", "7,5"], ["€7", "7 USD"], ["1 234,5", "1,234.5"]]


class Forms(ImportCase):
    """How the text of an amount is read."""

    def test_amounts_are_read_as_sheets_write_them(self):
        for text, number in AMOUNTS:
            with self.subTest(text=text):
                self.assertEqual(Amounts().read(text), Fraction(number))

    def test_what_is_no_amount_from_0_on_is_refused(self):
        for text in NO_AMOUNTS:
            with self.subTest(text=text), self.assertRaises(AmountError):
                Amounts().read(text)

    def test_one_sheet_has_one_sign_for_decimals_one_for_thousands_and_one_currency(self):
        for first, second in AT_ODDS:
            with self.subTest(first=first, second=second):
                sheet = Amounts()
                sheet.read(first)
                with self.assertRaises(AmountError):
                    sheet.read(second)

    def test_a_sign_that_could_be_either_is_asked_for(self):
        text = ";A;B;cash\nA;-;30.445;808\nB;;0;1.000\n"
        sheet = self.file("m.csv", text)
        ask = "row 2 column B: 30.445: thousands or decimals? say --thousands . or --decimal ."
        for more in ([], ["--round"], ["--unit", "auto"]):
            self.refused("clearing-from-matrix", 1, ask, sheet, *more, *self.files)
        self.nothing_made()
        for sign in (["--thousands", "."], ["--decimal", ","], ["--thousands", ".", "--decimal", ","]):
            self.told("clearing-from-matrix", sheet, *sign, *self.files)
            self.check("name,cash,rule\nA,808,webster\nB,1000,webster\n", "debtor,creditor,class,claim\nA,B,1,30445\n")
        self.told("clearing-from-matrix", sheet, "--decimal", ".", "--unit", "0.001", *self.files)
        self.check("name,cash,rule\nA,808000,webster\nB,1000,webster\n", "debtor,creditor,class,claim\nA,B,1,30445\n")

    def test_cells_that_ask_the_same_ask_once(self):
        many = self.file("m.csv", ";A;B;cash\n" + "A;0;1.234;1.000\nB;2.345;0;3.000\n")
        done = tool("clearing-from-matrix", many, *self.files)
        self.assertEqual(
            done.stderr.splitlines(),
            [
                f"clearing-from-matrix: {many} row 2 column B: 1.234: thousands or decimals? "
                "say --thousands . or --decimal . (3 more cells ask the same)"
            ],
        )


class Units(ImportCase):
    """What an importer makes of amounts: whole units, within the limits of the program."""

    def test_round_goes_to_the_nearest_unit(self):
        self.told(
            "clearing-from-matrix",
            self.file("m.csv", ",A,B,cash\nA,0,2.5,1.51\nB,0.49,0,3.5\n"),
            "--round",
            *self.files,
        )
        self.check("name,cash,rule\nA,2,webster\nB,4,webster\n", "debtor,creditor,class,claim\nA,B,1,2\n")

    def test_the_largest_amounts_go_to_the_nearest_unit_too(self):
        """A half and a little more goes up, a half to the even unit, and what is told of them is exact."""
        cash = ["999999999998.50001", "999999999998.5", "999999999997.49999", "999999999997.5"]
        units = [999_999_999_999, 999_999_999_998, 999_999_999_997, 999_999_999_998]
        lines = "".join(f"{name},0,0,0,0,{amount}\n" for name, amount in zip("ABCD", cash))
        told = self.told("clearing-from-matrix", self.file("m.csv", f",A,B,C,D,cash\n{lines}"), "--round", *self.files)
        banks = "".join(f"{name},{amount},webster\n" for name, amount in zip("ABCD", units))
        self.check(f"name,cash,rule\n{banks}", "debtor,creditor,class,claim\n")
        self.assertIn("amounts rounded: 4; by 1.99998 together, the largest by 0.5\n", told)

    def test_what_is_rounded_is_told(self):
        sheet = self.file("m.csv", ",A,B,cash\nA,0,2.5,1.5\nB,0.4,0,3.5\n")
        told = self.told("clearing-from-matrix", sheet, "--round", *self.files)
        self.assertIn(
            (
                "amounts rounded: 4; by 1.9 together, the largest by 0.5\n"
                "debts that became 0: 1; 0.4 in all; B owes A 0.4\n"
            ),
            told,
        )
        done = tool("clearing-from-matrix", sheet, "--round", "--banks", "/dev/stdout", "--debts", self.debts)
        self.assertEqual((done.stdout, done.stderr), ("name,cash,rule\nA,2,webster\nB,4,webster\n", told))

    def test_a_unit_that_is_looked_for_rounds_no_more_than_the_limits_ask(self):
        sheet = self.file("m.csv", ",A,B,cash\nA,0,45000020,20\nB,12,0,1000000\n")
        told = self.told("clearing-from-matrix", sheet, "--unit", "auto", *self.files)
        self.assertIn(
            "debts made: 1; 45,000,000 in all; in units of 50: 900,000; 32 less than the sheet's 45,000,032\n", told
        )
        self.assertIn(
            "amounts rounded: 3; by 52 together, the largest by 20\ndebts that became 0: 1; 12 in all; B owes A 12\n",
            told,
        )
        self.check("name,cash,rule\nA,0,webster\nB,20000,webster\n", "debtor,creditor,class,claim\nA,B,1,900000\n")
        sheet = self.file("m.csv", ",A,B,cash,outside\nA,0,2.25,1,0\nB,1,0,0.5,7\n")
        told = self.told("clearing-from-matrix", sheet, "--unit", "auto", *self.files)
        self.assertIn("debts made: 2; 3.25 in all; in units of 0.01: 325\n", told)
        self.assertNotIn("rounded", told)

    def test_each_limit_decides_the_smallest_unit_where_it_alone_is_in_the_way(self):
        """A unit that is one step smaller breaks it."""
        names = range(12)
        claims = [["0" if m == n else "100000" if (m + n) % 2 else "65000" for m in names] for n in names]
        much_owed = f",{','.join(f'B{n}' for n in names)},cash\n" + "".join(
            f"B{n},{','.join(row)},5\n" for n, row in enumerate(claims)
        )
        # A matrix, the unit that is taken, and the one below it.
        for text, unit, smaller in [
            (",A,B,cash\nA,0,1000001,1\nB,0,0,1\n", "2", "1"),
            (",A,B,cash\nA,0,1,1000000000001\nB,0,0,1\n", "2", "1"),
            (",A,B,cash,outside\nA,0,1,1,500000000003\nB,0,0,1,0\n", "10", "5"),
            (much_owed, "2", "1"),
        ]:
            with self.subTest(text=text[:60]):
                sheet = self.file("m.csv", text)
                told = self.told("clearing-from-matrix", sheet, "--unit", "auto", *self.files)
                self.assertIn(f"in units of {unit}: ", told)
                self.printed("check", *self.files)
                words = ["--unit", smaller, "--round", "--limits", "standard", *self.files]
                self.refused("clearing-from-matrix", 1, "more than the most", sheet, *words)

    def test_amounts_at_the_limits_are_taken(self):
        self.told(
            "clearing-from-matrix",
            self.file("m.csv", ",A,B,cash,outside\nA,0,1000000,1000000000000,100000000000\nB,7,0,1,0\n"),
            *self.files,
        )
        self.check(
            "name,cash,rule,outside\nA,1000000000000,webster,100000000000\nB,1,webster,0\n",
            "debtor,creditor,class,claim\nA,B,1,1000000\nB,A,1,7\n",
        )

    def test_too_many_debts_are_told_with_their_number(self):
        names = [f"B{n}" for n in range(150)]
        text = (
            ","
            + ",".join(names)
            + ",cash\n"
            + "".join(
                f"{a}," + ",".join("0" if a == b else str(1 + n % 3) for n, b in enumerate(names)) + f",{n}\n"
                for n, a in enumerate(names)
            )
        )
        self.refused(
            "clearing-from-matrix",
            1,
            "22,350 debts, 2,350 more than the most, 20,000",
            self.file("m.csv", text),
            "--unit",
            "auto",
            "--limits",
            "standard",
            *self.files,
        )
        # Where nothing is said they are made, and it is told that the wide limits read them.
        told = self.told("clearing-from-matrix", self.file("m.csv", text), "--unit", "auto", *self.files)
        self.assertIn(
            "limits: wide, as the standard ones have at most 1,000 banks, 20,000 debts and 10,000,000 units", told
        )
        self.assertEqual(self.debts.read_bytes().count(b"\n"), 22_351)

    def test_a_matrix_of_a_thousand_banks_keeps_each_cent(self):
        """Its time is measured by bench/tools.py."""
        draw, names, cents = random.Random(1), [f"Bank {at}" for at in range(1000)], 0
        lines = ["," + ",".join(names) + ",cash"]
        for at, name in enumerate(names):
            row = ["0.00"] * 1000
            for other in draw.sample(range(1000), 19):
                claim = draw.randrange(1, 900) if other != at else 0
                row[other], cents = f"{claim / 100:.2f}", cents + claim
            lines.append(f"{name}," + ",".join(row) + f",{draw.randrange(1000)}")
        told = self.told(
            "clearing-from-matrix", self.file("m.csv", "\n".join(lines) + "\n"), "--unit", "0.01", *self.files
        )
        self.assertIn(f"in units of 0.01: {cents:,}\n", told)
        self.assertEqual(sum(int(line.rpartition(",")[2]) for line in self.debts.read_text().splitlines()[1:]), cents)
