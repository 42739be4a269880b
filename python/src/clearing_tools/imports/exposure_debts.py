"""The debts of a list of exposures: its lines, those of one debtor, creditor and class summed."""
from typing import Dict, Iterable, List, Tuple

from .exposure_lines import Exposure, LineReader
from .exposure_sheets import OnExposureSheets
from .left_out import ask_currencies, currencies_in
from .tables import quoted
from .units import Debt

DebtKey = Tuple[str, str, int]
"""A debtor, a creditor and a class: there is one debt of each."""


class ExposureDebts(OnExposureSheets):
    """Makes the debts of a list, and refuses lines that nothing says are to be summed."""

    def debts(self) -> List[Debt]:
        """The debts of the lines: one for each debtor, creditor and class."""
        by_key: Dict[DebtKey, List[Exposure]] = {}
        for line in LineReader(self.sheets).lines():
            by_key.setdefault((line.debtor, line.creditor, line.rank), []).append(line)
        self.check_sums({key: lines for key, lines in by_key.items() if len(lines) > 1})
        debts = [self.debt_of(lines) for lines in by_key.values()]
        empty = sum(1 for debt in debts if not debt.amount)
        if empty:
            self.summary.tell("debts of amount 0, left out", empty, step="leftOut")
        return debts

    def debt_of(self, lines: List[Exposure]) -> Debt:
        """The debt of its lines, with the cell of the first."""
        first = lines[0]
        amount = sum(line.amount for line in lines) if len(lines) > 1 else first.amount
        cell = (self.list, first.row, self.sheets.columns.amount)
        return Debt(first.debtor, first.creditor, first.rank, amount, cell)

    def check_sums(self, several: Dict[DebtKey, List[Exposure]]) -> None:
        """Checks the debts that have several lines, and tells how many lines are summed."""
        for key, lines in several.items():
            self.check_several(key, lines)
        if self.args.is_summed:
            self.check_apart(several.values())
        self.check_currencies()
        if several:
            into = f"into {len(several):,} {'debt' if len(several) == 1 else 'debts'}"
            self.summary.tell("lines summed", sum(map(len, several.values())), None, into, step="summed")

    def check_several(self, key: DebtKey, lines: List[Exposure]) -> None:
        """Refuses several lines of one debt where nothing says that they are to be summed."""
        if self.args.is_summed:
            return
        first = self.list.cells[lines[0].row]
        for line in lines[1:]:
            if list(self.list.cells[line.row]) != list(first):
                what = (
                    f"a debt of {key[0]} to {key[1]} of class {key[2]} is also in row {lines[0].row}; say --sum to "
                    "add them up"
                )
                self.faults.at_row(self.list, line.row, what, kind="several")

    def check_apart(self, several: Iterable[List[Exposure]]) -> None:
        """Refuses to sum lines that differ in a column that nothing was said of, with two of them."""
        for column in self.sheets.unlooked():
            if column in self.args.ignore:
                continue
            for lines in several:
                texts = [str(self.list.cell(line.row, column)) for line in lines]
                other = next((index for index, text in enumerate(texts) if text != texts[0]), None)
                if other is not None:
                    self.ask_apart(column, lines[0].row, texts[0], lines[other].row, texts[other])
                    break

    def ask_apart(self, column: str, row: int, text: str, other: int, other_text: str) -> None:
        """Asks what is meant with lines of one debt that differ in a column."""
        word = quoted(column)
        what = (
            f"lines of one debt differ here, such as row {row} with {text!r} and row {other} with {other_text!r}; "
            f"say --ignore {word} to sum them, --where {word}=VALUE to take those of one value, or --rate {word}=FILE "
            "where these are currencies"
        )
        self.faults.at_header(self.list, column, what)

    def check_currencies(self) -> None:
        """Refuses a column with several currencies that nothing was said of: all of them codes, or in a column of such
        a name."""
        for column in self.sheets.unlooked():
            if column not in self.args.ignore and currencies_in(self.list, column):
                ask_currencies(self.faults, self.list, column, f"--where {quoted(column)}=CODE, ")
        for column in self.sheets.others:
            if column in self.table and column not in self.args.ignore and currencies_in(self.table, column):
                ask_currencies(self.faults, self.table, column)
