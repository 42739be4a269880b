"""The debts of a matrix, cell by cell."""
from typing import Dict, Iterable, Iterator, List, Optional, Tuple

from .amounts import Amount, is_null
from .left_out import LEFT
from .matrix_sheets import MatrixSheets
from .summary import Counted, Summary
from .tables import Cells
from .units import Debt

ZERO = ("", "0")

Claim = Tuple[str, str]
"""The creditor of a debtor, and the cell of what it is owed."""


class MatrixDebts:
    """Reads the debts of a matrix, and counts what is read otherwise than it stands."""

    def __init__(self, sheets: MatrixSheets, cells: Cells) -> None:
        self.args, self.faults, self.summary = sheets.args, sheets.faults, sheets.summary
        self.matrix, self.cells = sheets.matrix, cells
        self.empty, self.left = 0, {what: Counted() for what in LEFT}

    def debts(self, names: List[str]) -> List[Debt]:
        """The debts of some banks, row by row in their order, of which no two have one debtor and creditor."""
        there = self.matrix.rows if self.args.columns_owe else self.matrix.columns
        creditors = [name for name in names if name in there]
        debts = (debt for debtor in names for debt in self.debts_in(debtor, self.claims_on(debtor, creditors)))
        return merged(debts, self.summary)

    def claims_on(self, debtor: str, creditors: List[str]) -> List[Claim]:
        """The claims on a bank, be they in its row or in its column; none where it has no such line."""
        matrix = self.matrix
        if self.args.columns_owe:
            index = matrix.columns.get(debtor)
            return [(name, matrix.cells[name][index]) for name in creditors] if index is not None else []
        row = matrix.cells.get(debtor)
        return [(name, row[matrix.columns[name]]) for name in creditors] if row is not None else []

    def debts_in(self, debtor: str, claims: List[Claim]) -> Iterator[Debt]:
        """The debts of the claims on a bank."""
        for creditor, text in claims:
            if text in ZERO and type(text) is str:
                self.empty += text == "" and debtor != creditor
                continue
            debt = self.debt_in(debtor, creditor, text)
            if debt is not None:
                yield debt

    def debt_in(self, debtor: str, creditor: str, text: str) -> Optional[Debt]:
        """The debt of a cell; none where it is 0, or is left out or refused."""
        row, column = (creditor, debtor) if self.args.columns_owe else (debtor, creditor)
        amount = self.cells.amount(self.matrix, row, column)
        cell = (self.matrix, self.matrix.rows[row], column)
        if not amount:
            self.empty += is_null(str(text).strip())
        elif debtor == creditor:
            self.refuse_diagonal(debtor, amount)
        elif amount > 0:
            return Debt(debtor, creditor, self.args.rank, amount, cell)
        elif "negative" in self.args.left_out.kinds:
            self.left["negative"].add(amount)
        else:
            self.left["turned"].add(-amount)
            return Debt(creditor, debtor, self.args.rank, -amount, cell)
        return None

    def refuse_diagonal(self, bank: str, amount: Amount) -> None:
        """Refuses what a bank owes itself, until it is left out."""
        if "self" in self.args.left_out.kinds:
            self.left["self"].add(amount)
            return
        what = "the diagonal is not 0: no bank owes itself; correct it, or say --leave-out self"
        self.faults.at_cell(self.matrix, self.matrix.rows[bank], bank, what)

    def tell_left(self) -> None:
        """Tells what was read otherwise than it stands."""
        if self.empty:
            self.summary.tell("empty cells among the claims, read as 0", self.empty, 0)
        for what, counted in self.left.items():
            counted.tell(self.summary, LEFT[what], step="read" if what == "turned" else "leftOut")


def merged(debts: Iterable[Debt], summary: Summary) -> List[Debt]:
    """Debts of which no two have one debtor and creditor: what was turned round adds to what stands there."""
    by_key: Dict[Tuple[str, str, int], Debt] = {}
    summed = 0
    for debt in debts:
        key = (debt.debtor, debt.creditor, debt.rank)
        if key in by_key:
            by_key[key].amount += debt.amount
            summed += 1
        else:
            by_key[key] = debt
    if summed:
        summary.tell("debts summed, as one was turned round", 2 * summed, None, f"into {summed:,}", step="summed")
    return list(by_key.values())
