"""The table at the end of the guide, row by row: what the program says of what spreadsheets write."""
from common import Case, clearing

HEAD = "debtor,creditor,class,claim\n"
BANKS = "name,cash,rule\nA,7,order\nB,1,order\n"
DEBTS = HEAD + "A,B,1,10\n"


def banks_with(cash: str = "7", rule: str = "order", name: str = "A") -> str:
    return f"name,cash,rule\n{name},{cash},{rule}\nB,1,order\n"


# A banks file, a debts file, and the program's first fault or nothing.
ROWS = [
    # other separators, encodings and headers
    (BANKS.replace(",", ";"), DEBTS, "banks row 0: header (1)"),
    (BANKS.replace(",", "\t"), DEBTS, "banks row 0: header (1)"),
    (BANKS.encode("utf-16"), DEBTS, "banks row 0: header (1)"),
    (banks_with(name="Crédit").encode("latin-1"), DEBTS, "banks row 1: name (3)"),
    ("Banks,,\n" + BANKS, DEBTS, "banks row 0: header (1)"),
    ("sep=,\n" + BANKS, DEBTS, "banks row 0: header (1)"),
    (BANKS.replace("name,cash,rule", "Name,Cash,Rule"), DEBTS, "banks row 0: header (1)"),
    (BANKS.replace("name,cash,rule", "nom,cash,rule"), DEBTS, "banks row 0: header (1)"),
    ("name,rule,cash\nA,order,7\nB,order,1\n", DEBTS, "banks row 0: header (1)"),
    # what is read
    ("\ufeff" + BANKS, DEBTS, ""),
    (BANKS.replace("\n", "\r\n"), DEBTS.replace("\n", "\r"), ""),
    ('"name","cash","rule"\n"A"," 7 ","order"\nB ,\t1,order\n', DEBTS, ""),
    ("\n" + BANKS.replace("\n", "\n\n,,\n"), DEBTS, ""),
    # numbers
    *(
        (banks_with(f'"{cash}"'), DEBTS, "banks row 1: number (4)")
        for cash in (
            "1,000",
            "1.000",
            "1'000",
            "1 000",
            "1\u00a0000",
            "7,5",
            "7.0",
            "-7",
            "+7",
            "1E+06",
            "€7",
            "#####",
            "=3+4",
            "",
            "7\u00a0",
        )
    ),
    (banks_with("1,000"), DEBTS, "banks row 1: fields (2)"),
    (banks_with("7,5"), DEBTS, "banks row 1: fields (2)"),
    (BANKS, HEAD + "A,B,1.0,10\n", "debts row 1: class (10)"),
    (BANKS, HEAD + "A,B,01,10\n", "debts row 1: class (10)"),
    # no-break spaces and forms of letters
    (banks_with(rule="order\u00a0"), DEBTS, "banks row 1: rule (5)"),
    (BANKS.replace("cash", "cash\u00a0"), DEBTS, "banks row 0: header (1)"),
    (banks_with(name="A\u00a0"), DEBTS, "debts row 1: unknown bank (8)"),
    (banks_with(name="Crédit"), HEAD + "Cre\u0301dit,B,1,10\n", "debts row 1: unknown bank (8)"),
    # columns and lines
    (BANKS.replace("\n", ",\n"), DEBTS, "banks row 0: header (1)"),
    (banks_with(rule="order,"), DEBTS, "banks row 1: fields (2)"),
    ("name,cash,rule\nA,7\nB,1,order\n", DEBTS, "banks row 1: fields (2)"),
    (BANKS + "Total,8,\n", DEBTS, "banks row 3: rule (5)"),
    (BANKS, DEBTS + "Total,,,10\n", "debts row 2: unknown bank (8)"),
    (banks_with(name='"A\nX"'), DEBTS, "banks row 1: name (3)"),
    # rows against lines: the first is line 5, the second line 4
    ("name,cash,rule\n\n\nA,7,order\nB,x,order\n", DEBTS, "banks row 2: number (4)"),
    ("name,cash,rule\n,,\nA,7,order\nB,x,order\n", DEBTS, "banks row 3: number (4)"),
]


class Spreadsheet(Case):
    def test_what_spreadsheets_write_is_judged_as_the_guide_says(self):
        for banks, debts, want in ROWS:
            done = clearing("check", "--banks", self.file("banks.csv", banks), "--debts", self.file("debts.csv", debts))
            want = (4, f"clearing: {want}\n") if want else (0, "")
            self.assertEqual((done.returncode, done.stderr.decode()), want, (banks, debts))
