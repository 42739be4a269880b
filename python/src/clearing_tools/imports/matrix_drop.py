"""What is left out of a matrix: lines of totals, once their numbers are right, and banks with all their debts."""
from typing import Iterable, List, Set

from .amounts import AmountError, Amounts
from .control import TotalLines
from .left_out import Gone, beside_of, no_line_to_drop, no_line_to_leave_out, no_total, tell_columns
from .matrix_sheets import MatrixSheets
from .summary import Counted
from .tables import Table
from .totals_names import is_called_total


class MatrixDropping:
    """Takes out of a matrix and its table what the words say, and tells it."""

    def __init__(self, sheets: MatrixSheets) -> None:
        self.sheets, self.args, self.faults, self.summary = sheets, sheets.args, sheets.faults, sheets.summary
        self.matrix, self.table = sheets.matrix, sheets.table

    def drop(self) -> Set[str]:
        """Drops the lines of totals that are to be dropped, once they are checked, leaves out banks, and refuses the
        lines of totals that are still there. Gives the names of those."""
        found = self.find_totals()
        for name in self.args.drop:
            for totals in found:
                totals.check(name, self.faults, self.summary)
            self.drop_line(name, any(name in totals for totals in found))
        for name in self.args.left_out.banks:
            self.leave_out(name)
        refused: Set[str] = set()
        for totals in found:
            refused |= totals.refuse(self.faults, set(totals.names) - refused - set(self.args.drop))
        return refused

    def find_totals(self) -> List[TotalLines]:
        """The lines of totals of each sheet."""
        banks, amounts = self.sheets.bank_columns, self.sheets.amount_columns
        if self.sheets.is_one:
            return [TotalLines.read(self.matrix, self.args, banks + amounts, banks, amounts)]
        own = TotalLines.read(self.matrix, self.args, banks, banks)
        beside = TotalLines.read(self.table, self.args, amounts)
        # A bank with amounts of its own in the table, which are not the sum of the others', is a bank. And two numbers
        # there alone are no witness against a bank that has claims.
        return [
            own.without_rows(rows_of_banks(own, self.table, beside)),
            beside.without_rows(rows_of_banks(beside, self.matrix, own)),
        ]

    def drop_line(self, name: str, is_total: bool) -> None:
        """Drops a line of totals, or a column that is no bank; refuses to drop a bank."""
        gone = self.gone_with(name)
        is_bank = gone.owes.count or gone.owed.count or name in self.table.rows
        if not is_total and not is_called_total(name) and is_bank:
            what = no_total(name, gone.owes, gone.owed)
            self.faults.at_row(self.matrix, self.matrix.rows.get(name), what)
            return
        if not is_total and name in self.table and name not in self.matrix.rows:
            tell_columns(self.summary, [name], self.table, self.args.amounts, "amounts left out by --drop")
        if not self.sheets.has_line(name):
            self.faults.add_general(self.matrix, no_line_to_drop(name))
        self.sheets.drop(name)

    def leave_out(self, name: str) -> None:
        """Leaves out a bank with all that it owes and is owed, and tells it."""
        gone = self.gone_with(name)
        if not self.sheets.has_line(name):
            self.faults.add_general(self.matrix, no_line_to_leave_out(name))
            return
        self.sheets.drop(name)
        gone.tell(self.summary)

    def gone_with(self, name: str) -> Gone:
        """What goes with a bank: what its row and its column have, without what is no bank's, and what stands
        beside."""
        gone, reader, matrix = Gone(name), self.args.amounts(is_signed=True), self.matrix
        row, column = (gone.owed, gone.owes) if self.args.columns_owe else (gone.owes, gone.owed)
        banks = self.sheets.bank_columns
        if name in matrix.rows:
            count_amounts(row, (matrix.cell(name, other) for other in banks if other != name), reader)
        if name in banks:
            count_amounts(column, (text for other, text in matrix.column(name).items() if other != name), reader)
        if name in self.table.rows:
            gone.beside = beside_of(self.table, name, self.sheets.columns.amounts, reader)
        return gone


def rows_of_banks(totals: TotalLines, other_sheet: Table, other_totals: TotalLines) -> List[str]:
    """The rows of totals of a sheet that are banks by the other sheet: they are there, and are no totals."""
    return [
        row
        for row in totals.rows
        if row in other_sheet.rows and row not in other_totals.rows and not is_called_total(row)
    ]


def count_amounts(counted: Counted, texts: Iterable[str], reader: Amounts) -> None:
    """Counts the amounts of some cells that are not 0."""
    for text in texts:
        try:
            amount = reader.read(text)
        except AmountError:
            continue
        if amount:
            counted.add(amount)
