"""Seven sets of sheets, as spreadsheets and databases write them: for each the command that makes a case of it, and the
full name of a bank that a report must have. `tests/test_case_sheets.py` takes them small, and `bench/from_sheets.py`
times them large."""
import csv
import io
import pathlib
import random
from typing import Any, Callable, Dict, List, NamedTuple, Sequence

LEGAL = ("Bank & Trust, Inc.", "Sparkasse AöR", "Banco, S.A.", "Kredit <Invest> AG", "Pankki Oyj", "Crédit, S.A.")
"""What full names end in: with commas and signs that are letters of CSV, HTML and TOML."""


class Sheets(NamedTuple):
    """Sheets that were written into a folder: what they are, the importer and its words, with the names of files from
    that folder, and a full name that belongs to the case."""

    what: str
    tool: str
    words: List[str]
    full: str


def full_of(at: int) -> str:
    """The full name of a bank."""
    return f"{'Nord Ost Süd West'.split()[at % 4]} {at} {LEGAL[at % len(LEGAL)]}"


def lei_of(at: int) -> str:
    """A code of 20 letters and digits, as of a legal entity."""
    return f"5299{at:012d}X{at % 97:02d}Y"


def put_rows(folder: pathlib.Path, name: str, rows: Sequence[Sequence[Any]], **form: Any) -> None:
    """Writes a sheet of records."""
    text = io.StringIO()
    csv.writer(text, lineterminator="\r\n", **form).writerows(rows)
    (folder / name).write_bytes(text.getvalue().encode())


def claims_of(banks: int, debts: int, seed: int = 1) -> Dict[Any, int]:
    """Claims at random, by the places of debtor and creditor."""
    chance = random.Random(seed)
    found: Dict[Any, int] = {}
    while len(found) < min(debts, banks * (banks - 1)):
        debtor, creditor = chance.randrange(banks), chance.randrange(banks)
        if debtor != creditor:
            found.setdefault((debtor, creditor), 1000 * chance.randint(1, 900))
    return found


def matrix_of(banks: int, claims: Dict[Any, int], shown: Callable[[int], Any]) -> List[List[Any]]:
    """The rows of a matrix of claims, without its header."""
    return [[shown(claims.get((row, column), 0)) for column in range(banks)] for row in range(banks)]


def german(amount: float) -> str:
    """An amount with points between thousands and a comma before decimals, as Excel writes it in German."""
    return f"{amount:,.2f}".replace(",", "_").replace(".", ",").replace("_", ".")


def a_workbook(folder: pathlib.Path, size: int) -> Sheets:
    """A workbook whose header is two rows with merged cells, a title above it and empty cells in place of noughts."""
    import openpyxl

    banks, claims = size, claims_of(size, 6 * size)
    names = [f"B{at}" for at in range(banks)]
    book = openpyxl.Workbook()
    sheet = book.active
    sheet.title = "Exposures"
    sheet.append(["Interbank claims, EUR thousand"])
    sheet.append(["Bank", "owes to", *[None] * (banks - 1), "Cash", "Full name"])
    sheet.append([None, *names])
    for at, row in enumerate(matrix_of(banks, claims, lambda amount: amount / 800 or None)):
        sheet.append([names[at], *row, 500 * (at % 9) + 125.5, full_of(at)])
    last = banks + 2
    for first, second in ((1, 1), (last, last), (last + 1, last + 1)):
        sheet.merge_cells(start_row=2, end_row=3, start_column=first, end_column=second)
    sheet.merge_cells(start_row=2, end_row=2, start_column=2, end_column=banks + 1)
    book.save(folder / "claims.xlsx")
    words = ["claims.xlsx", "--skip=2", "--cash=Cash", "--label-column=Full name", "--unit=0.25"]
    return Sheets("a workbook with merged heads", "clearing-from-matrix", words, full_of(1))


def its_german_twin(folder: pathlib.Path, size: int) -> Sheets:
    """The same claims as a German spreadsheet writes them: semicolons, points between thousands, and a line of sums."""
    banks, claims = size, claims_of(size, 6 * size)
    names = [f"B{at}" for at in range(banks)]
    rows = matrix_of(banks, claims, lambda amount: amount / 800)
    cash = [500 * (at % 9) + 125.5 for at in range(banks)]
    lines = [
        [name, *map(german, row), german(cash[at]), full_of(at)] for at, (name, row) in enumerate(zip(names, rows))
    ]
    sums = ["Summe", *map(german, map(sum, zip(*rows))), german(sum(cash)), ""]
    put_rows(folder, "zwilling.csv", [["TEUR", *names, "Kasse", "Name"], *lines, sums], delimiter=";")
    words = ["zwilling.csv", "--thousands=.", "--drop=Summe", "--cash=Kasse", "--label-column=Name", "--unit=0.25"]
    return Sheets("its German twin", "clearing-from-matrix", words, full_of(1))


def a_list_of_a_database(folder: pathlib.Path, size: int) -> Sheets:
    """A list with LEI codes, groups, two currencies, NULL and debts of a bank to itself, and a table of its banks."""
    claims = claims_of(size, 8 * size, 2)
    rows = [[lei_of(a), lei_of(b), f"{amount}.25", "USD" if a % 3 else "EUR"] for (a, b), amount in claims.items()]
    rows += [[lei_of(0), lei_of(1), "NULL", "EUR"], [lei_of(1), lei_of(1), "5", "EUR"]]
    put_rows(folder, "exposures.csv", [["DEBTOR_LEI", "CREDITOR_LEI", "AMT", "CCY"], *rows], quoting=csv.QUOTE_ALL)
    banks = [[lei_of(at), 1000 * (at % 90), full_of(at), f"Group {at % 5}", "DE"] for at in range(size)]
    put_rows(folder, "banks.csv", [["lei", "cash", "legal_name", "parent", "country"], *banks])
    put_rows(folder, "rates.csv", [["currency", "rate"], ["EUR", 1], ["USD", "0.92"]])
    words = ["exposures.csv", "--table=banks.csv", "--debtor=DEBTOR_LEI", "--creditor=CREDITOR_LEI", "--amount=AMT"]
    words += ["--rate=CCY=rates.csv", "--leave-out=self,empty", "--sum", "--unit=auto", "--label-column=legal_name"]
    words += ["--group-column=parent", "--country-column=country"]
    return Sheets("a list out of SQL with LEI codes", "clearing-from-list", words, full_of(2))


def sums_off_by_one(folder: pathlib.Path, size: int) -> Sheets:
    """A matrix of whole thousands whose sums were made before amounts were rounded."""
    claims = claims_of(size, 6 * size, 3)
    names = [f"Bank {at}" for at in range(size)]
    rows = [[amount * 37 // 10 for amount in row] for row in matrix_of(size, claims, int)]
    lines = [[names[at], *row, sum(row) + (at == 1), 90_000 + at, full_of(at)] for at, row in enumerate(rows)]
    sums = [sum(column) - (at == 2) for at, column in enumerate(zip(*rows))]
    cash = sum(line[-2] for line in lines)
    lines.append(["Total", *sums, sum(map(sum, rows)), cash, ""])
    put_rows(folder, "rounded.csv", [["", *names, "Total", "cash", "name"], *lines])
    words = ["rounded.csv", "--drop=Total", "--label-column=name", "--unit=1000", "--round"]
    return Sheets("a matrix whose sums miss by one", "clearing-from-matrix", words, full_of(3))


def totals_alone(folder: pathlib.Path, size: int) -> Sheets:
    """What each bank owes and is owed in all."""
    claims = claims_of(size, 6 * size, 4)
    owes = [sum(amount for (a, _), amount in claims.items() if a == at) for at in range(size)]
    owed = [sum(amount for (_, b), amount in claims.items() if b == at) for at in range(size)]
    rows = [[f"T{at}", owed[at], owes[at], 1000 * (at % 70), full_of(at)] for at in range(size)]
    put_rows(folder, "totals.csv", [["bank", "assets", "liabilities", "cash", "name"], *rows])
    words = ["totals.csv", "--method=sparse", "--unit=1000", "--label-column=name"]
    return Sheets("totals alone", "clearing-from-totals", words, full_of(4))


def many_banks(folder: pathlib.Path, size: int) -> Sheets:
    """A long list of debts of many banks, which are called by their full names."""
    claims = claims_of(size, 20 * size, 5)
    rows = [[full_of(a), full_of(b), f"{amount}.5", 1 + amount % 3] for (a, b), amount in claims.items()]
    put_rows(folder, "long.csv", [["debtor", "creditor", "amount", "class"], *rows], delimiter=";")
    banks = [[full_of(at), 1000 * (at % 900), 500 * (at % 7)] for at in range(size)]
    put_rows(folder, "table.csv", [["bank", "cash", "outside"], *banks], delimiter=";")
    words = ["long.csv", "--table=table.csv", "--unit=1000", "--round"]
    return Sheets("many banks", "clearing-from-list", words, full_of(5))


def in_cents(folder: pathlib.Path, size: int) -> Sheets:
    """Amounts to the cent, which are its unit."""
    claims = claims_of(size, 5 * size, 6)
    rows = [[f"C{a}", f"C{b}", f"€{amount / 10_000 + 0.07:,.2f}"] for (a, b), amount in claims.items()]
    put_rows(folder, "cents.csv", [["debtor", "creditor", "amount"], *rows])
    banks = [[f"C{at}", f"€{900 * (at % 50) + 0.99:,.2f}", full_of(at)] for at in range(size)]
    put_rows(folder, "cash.csv", [["bank", "cash", "name"], *banks])
    words = ["cents.csv", "--table=cash.csv", "--unit=0.01", "--label-column=name"]
    return Sheets("amounts in cents", "clearing-from-list", words, full_of(6))


SETS: Dict[str, Callable[[pathlib.Path, int], Sheets]] = {
    "workbook": a_workbook,
    "twin": its_german_twin,
    "database": a_list_of_a_database,
    "sums": sums_off_by_one,
    "totals": totals_alone,
    "many": many_banks,
    "cents": in_cents,
}
"""The sets by their names; the German twin has the claims of the workbook."""
