"""Makes a matrix of claims or of payments from the files of `clearing`.

In:  FOLDER, a case, or --banks FILE and --debts FILE, two files that `clearing check` accepts. With --payments FILE,
     also what `clear` or `central` printed for them: the cells are then what is paid, and otherwise what is claimed.
Out: on standard output, or in --out FILE, comma-separated records in UTF-8: the names of the banks in the first row
     and the first column, where they meet what the bank of the row owes or pays the bank of the column, all classes
     together or one alone (--class), and last the columns `cash`, `outside` where the banks file has it, and `rule`.
     clearing-from-matrix reads it back. No file that is read is written over. A file whose name ends with .xlsx is a
     workbook, which needs openpyxl (Debian's package python3-openpyxl).

With --unit, or by the unit of the case, amounts are units times it, as decimal numbers.

Ends with 0, or with 1 and a message where a file is not as it should be, or with 2 where the words are not understood.
"""
import argparse
from decimal import Decimal
from typing import Callable, Container, Dict, Iterable, Iterator, List, NamedTuple, Tuple, Union

from clearing_client.texts import DEBTS

from .. import cases, cli, files, money
from ..runner import StrPath, ToolError, command
from ..texts import number, read_accounts, read_payments, records_in
from .workbook import book_of, is_book


AsAmount = Callable[[int], object]


class DebtRecord(NamedTuple):
    """A debt of a file: its row, its claim, and what is shown of it."""

    row: int
    debtor: str
    creditor: str
    class_: int
    claim: int
    shown: int


class Amounts(NamedTuple):
    """The claim of a debt, and what is shown of it."""

    claim: int
    shown: int


Debts = Dict[Tuple[str, str, int], Amounts]
"""The amounts of each debt, by debtor, creditor and class."""


def debts_in(name: StrPath) -> Iterator[DebtRecord]:
    """The debts of a debts file, each with its row and its claim twice: what is owed is what is shown."""
    for row, (debtor, creditor, class_, claim) in records_in(name, DEBTS)[1]:
        units = number(name, row, claim)
        yield DebtRecord(row, debtor, creditor, number(name, row, class_), units, units)


def debts_of(name: StrPath, records: Iterable[DebtRecord], banks: Container[str]) -> Debts:
    """For each debt its debtor, creditor, class and claim, and what is shown of it."""
    debts: Debts = {}
    for one in records:
        for bank in (one.debtor, one.creditor):
            if bank not in banks:
                raise ToolError(f"{name} row {one.row}: no bank has the name {bank!r}")
        key = (one.debtor, one.creditor, one.class_)
        if key in debts:
            what = f"a second debt of {one.debtor} to {one.creditor} of class {one.class_}"
            raise ToolError(f"{name} row {one.row}: {what}")
        debts[key] = Amounts(one.claim, one.shown)
    return debts


def paid_of(payments: str, name: str, banks: Container[str], debts: Debts) -> Debts:
    """What is paid on each debt, by a file of payments of just these debts, which are those of a file of this name."""
    records = (DebtRecord(row, *payment) for row, payment in enumerate(read_payments(payments), 1))
    paid = debts_of(payments, records, banks)
    for key in {**debts, **paid}:
        if key not in paid or key not in debts or paid[key].claim != debts[key].claim:
            raise ToolError(
                f"{payments} is not of the debts in {name}: see the debt of {key[0]} to {key[1]} of "
                f"class {key[2]}"
            )
    return paid


def matrix_of(taken: cases.Taken, args: argparse.Namespace, as_amount: AsAmount) -> Iterator[List[object]]:
    """The records of the matrix, its header first."""
    columns, accounts = read_accounts(taken.banks)
    names = [name for name in ("cash", "outside", "rule") if name in columns]
    banks: Dict[str, List[object]] = {}
    for bank, account in accounts.items():
        outside = [as_amount(account.outside)] if "outside" in columns else []
        banks[bank] = [as_amount(account.cash), *outside, account.rule]
    debts = debts_of(taken.debts, debts_in(taken.debts), banks)
    if args.payments:
        debts = paid_of(args.payments, taken.debts, banks, debts)
    cells: Dict[Tuple[str, str], int] = {}
    for (debtor, creditor, class_), amounts in debts.items():
        if args.class_ in (None, class_):
            cells[debtor, creditor] = cells.get((debtor, creditor), 0) + amounts.shown
    yield ["", *banks, *names]
    for debtor, own in banks.items():
        yield [debtor, *(as_amount(cells.get((debtor, creditor), 0)) for creditor in banks), *own]


@command("to_matrix")
def main() -> None:
    """The command."""
    parser = cli.case_parser(__doc__)
    parser.add_argument("--payments", metavar="FILE", help="what `clear` or `central` printed")
    parser.add_argument("--class", dest="class_", type=int, choices=range(1, 10), help="one class alone")
    money.add_unit(parser)
    parser.add_argument("--out", metavar="FILE", help="the file to write, in place of standard output")
    args = parser.parse_args()
    taken = cases.take_case(parser, args)
    amount = money.amount_by(taken.unit)
    if is_book(args.out):
        content: Union[str, bytes] = book_of({"matrix": matrix_of(taken, args, lambda units: Decimal(amount(units)))})
    else:
        content = files.csv_text(matrix_of(taken, args, amount))
    files.put(content, args.out, [*cases.inputs_of(taken.case), args.payments])
