"""Sheets as they really come, through the Python package: for each what happens, and that what is made sums to the
sheet to the unit that is told."""
import ast
import json
import pathlib
import re
import subprocess
import sys
import unittest
from fractions import Fraction
from typing import Any, Dict, Iterator

from common import PACKAGES, Case, needs_packages, there, tool

import clearing_client as cc
from clearing_tools.runner import ToolError

NAMES = ["Crédit", "Bank B", "Cassa"]
CLAIMS = {(0, 1): "1234567.25", (1, 2): "89012.50", (2, 0): "3.75"}
SUM = sum(map(Fraction, CLAIMS.values()))
TABLE = "bank;cash\nCrédit;10\nBank B;20\nCassa;30\n"
AUTO = {"unit": "5", "round": True}


def grouped(digits: str, sign: str, sizes: Any) -> str:
    """Digits with a sign between groups of these sizes from the right, the last size again and again."""
    parts = []
    while digits:
        size = sizes[min(len(parts), len(sizes) - 1)]
        parts.insert(0, digits[-size:])
        digits = digits[:-size]
    return sign.join(parts)


# How each locale writes a number, and what stands between its fields.
LOCALES = {
    "de": (lambda whole, part: f"{grouped(whole, '.', [3])},{part}", ";"),
    "fr": (lambda whole, part: grouped(whole, "\u00a0", [3]) + f",{part}", ";"),
    "ch": (lambda whole, part: grouped(whole, "'", [3]) + f".{part}", ";"),
    "us": (lambda whole, part: f'"{grouped(whole, ",", [3])}.{part}"', ","),
    "in": (lambda whole, part: f'"{grouped(whole, ",", [3, 2])}.{part}"', ","),
}


def written_in(locale: str, number: str) -> str:
    return LOCALES[locale][0](*number.split("."))


def list_in(locale: str) -> str:
    sep = LOCALES[locale][1]
    lines = [sep.join([NAMES[a], NAMES[b], written_in(locale, claim)]) for (a, b), claim in CLAIMS.items()]
    return sep.join(["debtor", "creditor", "amount"]) + "\n" + "".join(line + "\n" for line in lines)


def matrix_in(locale: str) -> str:
    sep = LOCALES[locale][1]
    rows = [
        sep.join(
            [name, *(written_in(locale, CLAIMS[a, b]) if (a, b) in CLAIMS else "-" for b in range(3)), str(10 * a + 10)]
        )
        for a, name in enumerate(NAMES)
    ]
    return sep.join(["", *NAMES, "cash"]) + "\n" + "".join(row + "\n" for row in rows)


def locales() -> Iterator[Any]:
    """Lists and matrices of each locale, in each encoding."""
    for locale in LOCALES:
        for encoding, words in [("utf-8", {}), ("utf-8-sig", {}), ("utf-16", {}), ("cp1252", {"encoding": "cp1252"})]:
            table = TABLE.encode("cp1252" if words else "utf-8")
            yield f"{locale} {encoding} list", "list", list_in(locale).encode(encoding), {
                **AUTO,
                **words,
                "table": table,
            }, SUM
            if encoding in ("utf-8", "cp1252"):
                yield f"{locale} {encoding} matrix", "matrix", matrix_in(locale).replace("\n", "\r\n").encode(
                    encoding
                ), {**AUTO, **words}, SUM


PIVOT = "Sum of amount,Column Labels,,\nRow Labels,B,C,Grand Total\nA,10,4,14\nB,,5,5\nGrand Total,10,9,19\n"
PIVOT_BANKS = b"bank,cash\nA,3\nB,4\nC,5\n"
SQL = (
    "as_of,lender,borrower,instrument,currency,amount\n2025-12-31 00:00:00,B,A,loan,EUR,10.00\n"
    "2025-12-31 00:00:00,B,A,bond,EUR,5.50\n"
    "2025-12-31 00:00:00,C,B,loan,USD,8.00\n2025-09-30 00:00:00,C,B,loan,USD,6.00\n"
    "2025-12-31 00:00:00,B,A,loan,EUR,10.00\n"
)
SQL_WORDS = {"debtor": "borrower", "creditor": "lender", "table": PIVOT_BANKS, "no_outside": True}
SQL_RIGHT = {
    **SQL_WORDS,
    "sum": True,
    "where": {"as_of": "2025-12-31 00:00:00"},
    "duplicates": "once",
    "ignore": "instrument",
    "rate": {"currency": b"currency,rate\nEUR,1\nUSD,0.5\n"},
    "unit": "0.5",
}
BIS = (
    "Consolidated positions,,,\nUSD millions,,,\nReporting country,assets,liabilities,cash\nAT,700.5,600,10\n"
    'BE,300,400.25,20\nCH,500,600,0\nAll countries,"1,500.5","1,600.25",30\n'
)
TEXTS = [
    (
        "a pivot with its title",
        "matrix",
        PIVOT,
        {"table": PIVOT_BANKS},
        "looks like a title above the header, which is row 2, is it? say --skip 1",
    ),
    (
        "a pivot with its totals",
        "matrix",
        PIVOT,
        {"table": PIVOT_BANKS, "skip": 1},
        "Grand Total is a row of totals: its name says so",
    ),
    ("a pivot", "matrix", PIVOT, {"table": PIVOT_BANKS, "skip": 1, "drop": ["Grand Total"]}, 19),
    (
        "a pivot whose total is wrong",
        "matrix",
        PIVOT.replace("10,9,19", "11,9,19"),
        {"table": PIVOT_BANKS, "skip": 1, "drop": ["Grand Total"]},
        "row 5 column B: Grand Total says 11, and the others come to 10",
    ),
    (
        "a pivot with a bank that has no row of cash",
        "matrix",
        PIVOT,
        {"table": b"bank,cash\nA,3\nB,4\n", "skip": 1, "drop": ["Grand Total"]},
        "column C: no row of this name",
    ),
    ("a query with a line twice", "list", SQL, SQL_WORDS, "row 6: the same in every column as a line before"),
    (
        "a query over two dates",
        "list",
        SQL,
        {**SQL_WORDS, "sum": True, "duplicates": "once", "ignore": "instrument"},
        (
            "column as_of: lines of one debt differ here, such as row 4 with '2025-12-31 00:00:00' and row 5 with "
            "'2025-09-30 00:00:00'"
        ),
    ),
    (
        "a query of two instruments",
        "list",
        SQL,
        {**SQL_RIGHT, "ignore": None},
        "column instrument: lines of one debt differ here, such as row 2 with 'loan' and row 3 with 'bond'",
    ),
    ("a query of two currencies", "list", SQL, {**SQL_RIGHT, "rate": None}, "column currency: amounts are in EUR, USD"),
    ("a query", "list", SQL, SQL_RIGHT, Fraction("19.5")),
    ("a query whose double lines are two", "list", SQL, {**SQL_RIGHT, "duplicates": "sum"}, Fraction("29.5")),
    (
        "a query with NULL",
        "list",
        SQL.replace("8.00", "NULL"),
        SQL_RIGHT,
        "row 4 column amount: 'NULL' is not an amount",
    ),
    (
        "a query with a date for an amount",
        "list",
        SQL.replace("8.00", "2025-01-02"),
        SQL_RIGHT,
        "'2025-01-02' is not an amount",
    ),
    ("a query with an exponent", "list", SQL.replace("8.00", "8E+00"), SQL_RIGHT, Fraction("19.5")),
    (
        "a query with an unknown bank",
        "list",
        SQL.replace("C,B,loan,USD,8", "X,B,loan,USD,8"),
        SQL_RIGHT,
        "has no bank X; add it there, or say --leave-out X",
    ),
    ("a query within groups", "list", SQL, {**SQL_RIGHT, "groups": b"bank,group\nA,G\nB,G\n"}, 4),
    (
        "a query of instruments with classes",
        "list",
        SQL,
        {**SQL_RIGHT, "ignore": None, "class_of": {"instrument": b"instrument,class\nloan,1\nbond,2\n"}},
        Fraction("19.5"),
    ),
    (
        "a query with an instrument of no class",
        "list",
        SQL,
        {**SQL_RIGHT, "ignore": None, "class_of": {"instrument": b"instrument,class\nloan,1\n"}},
        "has no class for 'bond'",
    ),
    ("a list below 0", "list", "debtor,creditor,amount\nA,B,-5\n", {"table": PIVOT_BANKS}, "'-5' is below 0"),
    (
        "a list with a currency in each cell",
        "list",
        "debtor;creditor;amount\nA;B;€ 1.000,50\nB;C;€ 2,5\n",
        {"table": PIVOT_BANKS, "unit": "0.5"},
        1003,
    ),
    (
        "a list with two currencies in its cells",
        "list",
        "debtor;creditor;amount\nA;B;€ 1.000,50\nB;C;$ 2,5\n",
        {"table": PIVOT_BANKS},
        "of another currency than",
    ),
    (
        "a list that could be read in two ways",
        "list",
        "debtor;creditor;amount\nA;B;1.234\n",
        {"table": PIVOT_BANKS},
        "1.234: thousands or decimals?",
    ),
    (
        "a list rounded to thousands",
        "list",
        "debtor,creditor,amount\nA,B,1499\nB,C,501\nC,A,499\n",
        {"table": PIVOT_BANKS, "unit": "1000", "round": True},
        2499,
    ),
    (
        "totals under two titles",
        "totals",
        BIS,
        {},
        "looks like a title above the header, which is row 3, is it? say --skip 2",
    ),
    (
        "totals with a line of all",
        "totals",
        BIS,
        {"skip": 2, "method": "sparse", "unit": "0.25"},
        "All countries is a row of totals",
    ),
    (
        "totals whose sums differ",
        "totals",
        BIS,
        {"skip": 2, "drop": "All countries", "method": "sparse", "unit": "0.25"},
        Fraction("1600.25"),
    ),
    (
        "totals whose sums may not differ",
        "totals",
        BIS,
        {"skip": 2, "drop": "All countries", "method": "sparse", "unit": "0.25", "no_rest": True},
        "assets to 1,500.5: liabilities are 99.75 more",
    ),
    (
        "totals of a wrong line of all",
        "totals",
        BIS.replace('"1,500.5"', '"1,501.5"'),
        {"skip": 2, "drop": "All countries", "method": "sparse"},
        "All countries says 1,501.5, and the others come to 1,500.5",
    ),
]
MATRIX = [["", "A", "B", "C", "cash"], ["A", 0, 6.5, 4, 3], ["B", 2, None, 8, 4], ["C", 3, 1, 0, 5]]
BOOKS = [
    ("a workbook of one sheet", "matrix", {"S": MATRIX}, {"unit": "0.5"}, Fraction("24.5")),
    (
        "a workbook of two sheets",
        "matrix",
        {"S": MATRIX, "T": MATRIX},
        {"unit": "0.5"},
        "has the sheets S, T: which one is meant? say --sheet NAME",
    ),
    (
        "a sheet of a workbook",
        "matrix",
        {"S": MATRIX, "T": [["x", "y"]]},
        {"unit": "0.5", "sheet": "S"},
        Fraction("24.5"),
    ),
    (
        "a workbook with a title",
        "matrix",
        {"S": [["Exposures"], [], *MATRIX]},
        {},
        "sheet S row 1 looks like a title above the header, which is row 3, is it? say --skip 2",
    ),
    (
        "a workbook below a title",
        "matrix",
        {"S": [["Exposures"], [], *MATRIX]},
        {"unit": "0.5", "skip": 2},
        Fraction("24.5"),
    ),
    (
        "a workbook with an error",
        "matrix",
        {"S": [*MATRIX[:3], ["C", "#REF!", 1, 0, 5]]},
        {"unit": "0.5"},
        "sheet S B4 (column A): '#REF!' is the error of a formula",
    ),
    (
        "a workbook with numbers as text",
        "matrix",
        {"S": [*MATRIX[:3], ["C", "1.003,50", 1, 0, 5]]},
        {"unit": "0.5"},
        1025,
    ),
    (
        "a workbook of a network",
        "workbook",
        {
            "banks": [["name", "cash", "rule"], ["A", 3, "order"], ["B", 4, "equal"]],
            "debts": [["debtor", "creditor", "class", "claim"], ["A", "B", 2, 7], ["B", "A", 1, 2]],
        },
        {},
        9,
    ),
]


@needs_packages("numpy")
class Sheets(Case):
    def named(self, options: Dict[str, Any]) -> Dict[str, Any]:
        """The options, with a file in the place of each content."""
        files = iter(range(10))
        as_file = lambda value: self.file(f"o{next(files)}.csv", value) if isinstance(value, bytes) else value
        return {
            option: (
                {column: as_file(one) for column, one in value.items()} if isinstance(value, dict) else as_file(value)
            )
            for option, value in options.items()
        }

    def check(self, name: str, kind: Any, path: pathlib.Path, options: Dict[str, Any], want: Any) -> None:
        """What happens to a sheet: it is refused with these words, or makes a network whose debts sum to this much."""
        make = getattr(cc.Network, f"from_{kind}")
        if isinstance(want, str):
            with self.assertRaises(cc.SheetError, msg=name) as caught:
                make(path, **self.named(options))
            self.assertIn(want, str(caught.exception), name)
            return
        net = make(path, **self.named(options))
        told = [line for line in net.summary if line[0] == "debts made"][-1]
        unit = Fraction(str(options.get("unit", 1)))
        owed = sum(net.debts.column("claim")) * unit
        self.assertEqual((owed, len(net.debts)), (told[2], told[1]), name)
        off = re.search(r"; ([0-9.,]+) (more|less) than the sheet's ([0-9.,]+)$", told[3])
        apart = Fraction(off[1].replace(",", "")) * (1 if off[2] == "more" else -1) if off else 0
        self.assertEqual(owed - apart, want, name)
        self.assertEqual(off is not None, owed != want, name)

    def test_texts_of_all_locales_and_makes(self):
        cases = [*locales(), *TEXTS]
        for name, kind, content, options, want in cases:
            with self.subTest(name):
                self.check(name, kind, self.file("sheet.csv", content), options, want)
        self.assertGreaterEqual(len(cases) + len(BOOKS), 60)

    @unittest.skipUnless(there("openpyxl"), "without openpyxl")
    def test_workbooks(self):
        import openpyxl

        for name, kind, sheets, options, want in BOOKS:
            book = openpyxl.Workbook()
            book.remove(book.active)
            for title, rows in sheets.items():
                sheet = book.create_sheet(title)
                for row in rows:
                    sheet.append(row)
            path = self.folder / "book.xlsx"
            book.save(path)
            with self.subTest(name):
                self.check(name, kind, path, options, want)

    @unittest.skipUnless(there("pandas"), "without pandas")
    def test_frames_are_sheets(self):
        import pandas

        frame = pandas.DataFrame([[0, 30.445, 3], [2.5, 0, 4]], index=["A", "B"], columns=["A", "B", "cash"])
        net = cc.Network.from_matrix(frame, unit="0.005")
        self.assertEqual(net.debts.column("claim"), [6089, 500])
        net = cc.Network.from_list(
            pandas.DataFrame({"debtor": ["A"], "creditor": ["B"], "amount": [7]}),
            table=pandas.DataFrame({"bank": ["A", "B"], "cash": [1, 2]}),
        )
        self.assertEqual((net.debts.column("claim"), net.banks.column("cash")), ([7], [1, 2]))

    def test_samples_are_networks(self):
        totals = self.file("t.csv", "bank,assets,liabilities,cash\nA,100,60,20\nB,50,90,10\nC,70,40,30\nD,30,60,5\n")
        nets = cc.Network.from_totals(totals, method="sample", samples=3, seed=4)
        self.assertEqual([sum(net.debts.column("claim")) for net in nets], [250] * 3)

    def test_words_that_are_not_understood_are_told(self):
        with self.assertRaisesRegex(cc.SheetError, "unrecognized arguments: --nonsense"):
            cc.Network.from_matrix("m.csv", nonsense=True)
        with self.assertRaisesRegex(cc.SheetError, "cannot read m.csv: No such file"):
            cc.Network.from_matrix("m.csv")


LIST = "debtor,creditor,amount\nA,B,5\nX,B,3\nA,Y,4\nB,A,zz\n"
BANKS = "bank,cash\nA,1\nB,2\n"
FAULTS = {
    "list": (LIST, {"table": BANKS}, 3),
    "matrix": (",A,B,cash\nA,x,1,y\nB,2,,1\n", {}, 2),
    "totals": ("bank,assets,liabilities,cash\nA,x,1,1\nB,2,y,1\nC,1,1,z\n", {}, 3),
}
"""A sheet of each kind with faults, its options, and how many faults it has at least."""


class Faults(Case):
    def test_all_faults_are_told_as_the_command_tells_them(self):
        for kind, (sheet, options, least) in FAULTS.items():
            path = self.file("sheet.csv", sheet)
            named = {key: self.file(f"{key}.csv", text) for key, text in options.items()}
            with self.assertRaises(cc.SheetError) as caught:
                getattr(cc.Network, f"from_{kind}")(path, **named)
            where = (
                [f"--out={self.folder}/out"]
                if kind == "totals"
                else [f"--{one}={self.folder}/o" for one in ("banks", "debts")]
            )
            words = [f"--{key}={name}" for key, name in named.items()]
            done = tool(f"clearing-from-{kind}", *words, *where, path)
            told = tuple(line.partition(": ")[2] for line in done.stderr.splitlines())
            self.assertEqual((caught.exception.faults, str(caught.exception)), (told, "\n".join(told)), kind)
            self.assertGreaterEqual(len(told), least, told)

    def test_no_line_of_a_fault_of_a_tool_is_lost(self):
        fault = ToolError("one", 3, ["two"])
        again = fault.with_status(5)
        self.assertEqual((str(fault), again.lines, again.status), ("one\ntwo", ["one", "two"], 5))


# Prints what is one for the whole process, before and after a call, with other threads or without.
STATE = """
import csv, decimal, gc, io, json, locale, os, signal, sys, threading, warnings
sys.path.insert(0, {packages!r})
csv.field_size_limit({limit})

def state():
    mask = os.umask(0o22)
    os.umask(mask)
    handlers = [str(signal.getsignal(n)) for n in (1, 2, 15)]
    return [csv.field_size_limit(), id(sys.stdout), id(sys.stderr), list(map(str, warnings.filters)), mask,
            gc.isenabled(), os.getcwd(), sorted(os.environ.items()), handlers, str(decimal.getcontext()),
            locale.getlocale(), sys.getrecursionlimit()]

import clearing_client as cc
SHEETS = {sheets!r}

def call():
    faults = []
    for kind, sheet, options in SHEETS:
        try:
            getattr(cc.Network, "from_" + kind)(sheet, **options)
        except cc.SheetError as fault:
            faults.append(str(fault))
    return faults

# What a first call imports may have warnings of its own to pass over; what is ours is not among them.
before = state()
first = call()
print(json.dumps([before == state(), len(first)]))
before, seen, wrong = state(), [], []

def others():
    while not ended.is_set():
        try:
            seen.append(len(next(csv.reader(["x" * ({limit} - 1)]))[0]))
        except Exception as fault:
            wrong.append(str(fault))

ended = threading.Event()
def again():
    for _ in range(3):
        call() == first or wrong.append("other faults")

threads = [threading.Thread(target=again) for _ in range(4)]
other = threading.Thread(target=others)
for one in [other, *threads]:
    one.start()
for one in threads:
    one.join()
ended.set()
other.join()
print(json.dumps([before == state(), bool(seen), wrong[:3]]))
"""


class Process(Case):
    """A call from Python leaves what is one for the whole process as it was."""

    def sheets(self) -> Iterator[Any]:
        """Calls of each kind, with and without faults."""
        table = str(self.file("table.csv", BANKS))
        for kind, (sheet, options, _) in FAULTS.items():
            named = {key: str(self.file(f"{kind}-{key}.csv", text)) for key, text in options.items()}
            yield kind, str(self.file(f"{kind}-wrong.csv", sheet)), named
        yield "list", str(self.file("right.csv", "debtor,creditor,amount\nA,B,5\n")), {"table": table}
        yield "list", str(self.file("long.csv", f'debtor,creditor,amount\nA,"{" " * 300_000}B",5\n')), {"table": table}
        yield "matrix", str(self.file("none.csv", "")), {}
        yield "matrix", str(self.folder / "right.csv"), {"nonsense": True}
        yield "matrix", str(self.folder / "right.csv"), {"help": True}
        if there("openpyxl"):
            import openpyxl

            book = openpyxl.Workbook()
            for row in (["debtor", "creditor", "amount"], ["A", "B", 5]):
                book.active.append(row)
            book.save(self.folder / "book.xlsx")
            yield "list", str(self.folder / "book.xlsx"), {"table": table}

    def test_calls_leave_the_process_as_it_was(self):
        sheets = list(self.sheets())
        for limit in (1000, 131_072):
            script = STATE.format(packages=str(PACKAGES), limit=limit, sheets=sheets)
            done = subprocess.run([sys.executable, "-c", script], capture_output=True, encoding="utf-8")
            self.assertEqual((done.returncode, done.stderr), (0, ""), done.stderr)
            self.assertEqual([json.loads(line) for line in done.stdout.splitlines()], [[True, 6], [True, True, []]])

    def test_fields_are_read_within_the_one_block_that_lets_them_be_long(self):
        limits, outside = [], []
        for path in sorted(PACKAGES.rglob("*.py")):
            tree = ast.parse(path.read_text(encoding="utf-8"))
            limits += [
                path.name
                for node in ast.walk(tree)
                if isinstance(node, ast.Attribute) and node.attr == "field_size_limit"
            ]
            for function in [node for node in ast.walk(tree) if isinstance(node, ast.FunctionDef)]:
                text = ast.unparse(function)
                if re.search(r"csv\.(Dict)?[rR]eader\(", text) and "with long_fields(" not in text:
                    outside.append(f"{path.name}: {function.name}")
        self.assertEqual((set(limits), outside), ({"fields.py"}, []))
