"""The lines of a list of exposures, each read into what its debtor owes its creditor."""
from dataclasses import dataclass
from typing import Dict, List, Optional, Set, Tuple

from .amounts import Amount, is_null
from .books.rows import Row
from .exposure_sheets import ExposureSheets
from .groups import RANKS
from .left_out import LEFT
from .summary import Counted
from .tables import quoted
from .totals_names import is_called_total


@dataclass
class Exposure:
    """A line of the list: its row, and the debt that it is part of."""

    __slots__ = ("row", "debtor", "creditor", "rank", "amount")

    row: int
    debtor: str
    creditor: str
    rank: int
    amount: Amount


class Duplicates:
    """The lines that are the same in every column as one before."""

    def __init__(self, sheets: ExposureSheets) -> None:
        self.sheets, self.choice = sheets, sheets.args.duplicates
        self.seen: Set[Tuple[str, ...]] = set()
        self.rows: List[int] = []

    def is_passed_over(self, row: int, cells: Row) -> bool:
        """Whether a line is there already and counts once. It is refused where nothing was said of such lines."""
        key = tuple(cells)
        if key not in self.seen:
            self.seen.add(key)
            return False
        self.rows.append(row)
        if self.choice is None:
            hint = "say --duplicates once to take it once, or --duplicates sum"
            what = f"the same in every column as a line before; {hint}"
            self.sheets.faults.at_row(self.sheets.list, row, what)
        return self.choice == "once"

    def tell(self) -> None:
        """Tells how many there are, and what was done with them."""
        if self.rows:
            done = {"once": "taken once", "sum": "summed"}.get(self.choice or "", "")
            step = "leftOut" if self.choice == "once" else "summed"
            amount: Amount = sum(filter(None, map(self.sheets.quiet, self.rows)))
            what = "lines that are the same in every column"
            self.sheets.summary.tell(what, len(self.rows), amount, done, step=step)


class LineReader:
    """Reads the lines of a list of exposures that are part of a debt, and counts those that are not. Of a list there
    may be a million lines: what a text means that stands in many of them is looked up once."""

    def __init__(self, sheets: ExposureSheets) -> None:
        self.sheets, self.args, self.faults, self.summary = sheets, sheets.args, sheets.faults, sheets.summary
        self.list, self.columns, self.cells = sheets.list, sheets.columns, sheets.cells
        self.banks, self.kinds = sheets.table.rows, sheets.args.left_out.kinds
        self.debtor_index = self.list.columns[self.columns.debtor]
        self.creditor_index = self.list.columns[self.columns.creditor]
        self.amount_index = self.list.columns[self.columns.amount]
        self.has_rank = bool(self.columns.class_of or self.columns.rank)
        self.empty_texts: Dict[str, bool] = {}
        self.left = {what: Counted() for what in LEFT}

    def lines(self) -> List[Exposure]:
        """The lines that are part of a debt; lines that are the same count once where that is said."""
        lines, duplicates = [], Duplicates(self.sheets)
        for row, cells in self.list.cells.items():
            line = None if duplicates.is_passed_over(row, cells) else self.line_in(row, cells)
            if line is not None:
                lines.append(line)
        duplicates.tell()
        self.sheets.rates.tell(self.summary, "lines")
        for what, counted in self.left.items():
            counted.tell(self.summary, LEFT[what], step="read" if what in ("turned", "zero") else "leftOut")
        return lines

    def line_in(self, row: int, cells: Row) -> Optional[Exposure]:
        """The line of a row and its cells; nothing of one that is left out, or has a fault."""
        debtor_cell, creditor_cell = cells[self.debtor_index], cells[self.creditor_index]
        text = cells[self.amount_index]
        is_empty = self.is_empty(text)
        if (is_empty or self.kinds) and self.is_left_out(row, is_empty, str(debtor_cell) == str(creditor_cell)):
            return None
        debtor = self.bank_in(row, self.columns.debtor, debtor_cell)
        creditor = self.bank_in(row, self.columns.creditor, creditor_cell)
        rank = self.class_in(row) if self.has_rank else self.args.rank
        amount = self.amount_in(row, text)
        if debtor is not None and debtor == creditor:
            what = f"{debtor} is its own creditor; correct it, or say --leave-out self"
            self.faults.at_cell(self.list, row, self.columns.creditor, what, kind="self")
        elif amount < 0:
            debtor, creditor, amount = creditor, debtor, -amount
            self.left["turned"].add(amount)
        if debtor is None or creditor is None or rank is None:
            return None
        return Exposure(row, debtor, creditor, rank, amount)

    def is_empty(self, text: str) -> bool:
        """Whether the cell of an amount is empty, or says that there is nothing."""
        is_empty = self.empty_texts.get(text)
        if is_empty is None:
            bare = str(text).strip()
            is_empty = self.empty_texts[text] = not bare or is_null(bare)
        return is_empty

    def is_left_out(self, row: int, is_empty: bool, is_self: bool) -> bool:
        """Whether a line is left out by its kind; what is read otherwise than it stands is counted too."""
        kind = self.kind_left_out(row, is_empty, is_self)
        if kind is not None:
            self.left[kind].add(self.sheets.quiet(row) or 0)
        elif is_empty:
            self.left["zero"].add(0)
        return kind is not None

    def kind_left_out(self, row: int, is_empty: bool, is_self: bool) -> Optional[str]:
        """The kind by which a line is left out, if it is."""
        if is_empty:
            return "empty" if "empty" in self.kinds else None
        if is_self and "self" in self.kinds:
            return "self"
        amount = self.sheets.quiet(row) if "negative" in self.kinds else None
        return "negative" if amount is not None and amount < 0 else None

    def bank_in(self, row: int, column: str, cell: str) -> Optional[str]:
        """The bank in a cell, or nothing where the table has none of this name."""
        # A cell of a workbook is more than its text.
        if type(cell) is str and cell in self.banks:
            return cell
        name = str(cell)
        if name in self.banks:
            return name
        self.faults.at_cell(self.list, row, column, self.no_bank(name, getattr(cell, "fault", None)), kind="no bank")
        return None

    def no_bank(self, name: str, fault: Optional[str]) -> str:
        """What is said of the name of a debtor or a creditor that the table does not have."""
        label = self.sheets.table.label
        if fault:
            return f"{name!r} {fault.replace(', and no amount', '')}, and no bank"
        if is_called_total(name):
            return f"{name} is no bank of {label}; is it a line of totals? say --drop {quoted(name)}"
        if not name:
            return "no bank is named; is it a line of totals? delete it, or say --drop ''"
        return f"{label} has no bank {name}; add it there, or say --leave-out {quoted(name)}"

    def class_in(self, row: int) -> Optional[int]:
        """The class of a line."""
        if self.columns.class_of:
            instruments, file = self.columns.class_of
            text = str(self.list.cell(row, instruments))
            if text not in self.sheets.classes:
                self.faults.at_cell(self.list, row, instruments, f"{file} has no class for {text!r}")
            return self.sheets.classes.get(text)
        column = self.columns.rank
        if column is None:
            return self.args.rank
        text = str(self.list.cell(row, column))
        if text not in RANKS:
            what = (
                f"{text!r} is not a class from 1 to 9; is {column} the column of classes? --class-of "
                f"{quoted(column)}=FILE says the class of each of its values"
            )
            self.faults.ask(self.list, row, column, what, ("class", column))
            return None
        return int(text)

    def amount_in(self, row: int, text: str) -> Amount:
        """The amount of a line in the currency of the network."""
        if self.columns.rate:
            amount = self.cells.amount(self.list, row, self.columns.amount)
            return self.sheets.rates.worth(self.list, row, amount)
        amount_before = self.cells.amounts.read_before.get(text) if type(text) is str else None
        return self.cells.amount(self.list, row, self.columns.amount) if amount_before is None else amount_before
