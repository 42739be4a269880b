"""A list of exposures and the table of its banks: their columns, and what is left out of them."""
import contextlib
from typing import Dict, List, NamedTuple, Optional, Tuple

from . import made_case
from .amounts import Amount, AmountError
from .columns import Columns, columns_of, find_column, need_usual
from .faults import Faults
from .groups import read_classes
from .left_out import Rates, columns_shown, tell_columns
from .sheet_options import ListOptions
from .summary import Summary
from .tables import Cells, Listing, Table, need_column, pair_of

Pair = Tuple[str, str]
"""A column of the list, and what stands behind the sign of equality: a file or a value."""


class ListColumns(NamedTuple):
    """The columns of a list of exposures, by their names there."""

    debtor: str
    creditor: str
    amount: str
    rank: Optional[str]
    """That of classes, where there is one."""
    class_of: Optional[Pair]
    rate: Optional[Pair]
    where: Dict[str, List[str]]
    """The values that a line is to have, by their columns."""

    @property
    def used(self) -> List[Optional[str]]:
        """The columns that are looked at in each line."""
        return [self.debtor, self.creditor, self.amount, self.rank, *(p[0] for p in (self.class_of, self.rate) if p)]


class ExposureSheets:
    """A list and the table of its banks, with their columns, and what tables beside say of classes and rates."""

    def __init__(
        self,
        args: ListOptions,
        faults: Faults,
        summary: Summary,
        sheets: Tuple[Listing, Table],
        columns: Tuple[ListColumns, Columns],
    ) -> None:
        self.args, self.faults, self.summary = args, faults, summary
        (self.list, self.table), (self.columns, self.bank_columns) = sheets, columns
        self.classes: Dict[str, int] = {}
        self.rates = Rates(faults)
        self.cells = Cells(args.amounts(is_signed=args.takes_negative), faults)
        # What is read of an amount, whatever others are, by its text.
        self.quiet_amounts: Dict[str, Optional[Amount]] = {}

    @classmethod
    def read(cls, args: ListOptions, faults: Faults, summary: Summary) -> "ExposureSheets":
        """Reads the sheets, finds their columns, and reads the tables of classes and of rates."""
        sheets = Listing(args.file, args.form, faults), Table(args.table, args.table_form, faults)
        columns = list_columns_of(sheets[0], args, faults), bank_columns_of(sheets[1], args, faults)
        faults.end_if_any()
        found = cls(args, faults, summary, sheets, columns)
        class_of, rate = columns[0].class_of, columns[0].rate
        found.classes = read_classes(class_of[1], args, faults) if class_of else {}
        found.rates = Rates.of(rate, args, faults) if rate else found.rates
        return found

    @property
    def others(self) -> List[str]:
        """The columns of the table that are not looked at."""
        args, columns = self.args, self.bank_columns
        used = {*columns.amounts, columns.rule, args.label_column, *args.of_case.columns.values()}
        return [column for column in self.table.header if column not in used or column in columns.passed]

    def unlooked(self) -> List[str]:
        """The columns of the list that are not looked at."""
        return [column for column in self.list.header if column not in self.columns.used]

    def tell_unlooked(self) -> None:
        """Tells the columns that are not looked at, and the amounts in those of the table."""
        unlooked = [column for column in self.unlooked() if column not in self.columns.where]
        for label, columns in ((self.list.label, unlooked), (self.table.label, self.others)):
            if columns:
                detail = f"{columns_shown(columns)} in {label}"
                self.summary.tell("columns not looked at", len(columns), None, detail, step="leftOut")
        what = "amounts in a column not looked at"
        tell_columns(self.summary, self.others, self.table, self.args.amounts, what)

    def parties(self) -> Dict[int, List[str]]:
        """Who owes and who is owed, by the rows."""
        places = [self.list.columns[column] for column in (self.columns.debtor, self.columns.creditor)]
        return {row: [str(cells[at]) for at in places] for row, cells in self.list.cells.items()}

    def quiet(self, row: int) -> Optional[Amount]:
        """The amount of a line, or None where it is none; without a fault."""
        cell = self.list.cell(row, self.columns.amount)
        # A cell of a workbook is more than its text.
        is_read = type(cell) is str and cell in self.quiet_amounts
        if is_read:
            return self.quiet_amounts[cell]
        amount: Optional[Amount] = None
        with contextlib.suppress(AmountError):
            amount = self.args.amounts(is_signed=True).read(cell)
        if type(cell) is str:
            self.quiet_amounts[cell] = amount
        return amount

    def leave_out(self, rows: List[int], what: str) -> None:
        """Leaves out some lines, and tells it."""
        amount = sum(self.quiet(row) or 0 for row in rows)
        for row in rows:
            del self.list.rows[row], self.list.cells[row]
        if rows:
            self.summary.tell(what, len(rows), amount, step="leftOut")


def list_columns_of(table: Listing, args: ListOptions, faults: Faults) -> ListColumns:
    """The columns of a list, and those that are named."""
    debtor = need_usual(faults, table, "debtor", args.debtor)
    creditor = need_usual(faults, table, "creditor", args.creditor)
    amount = need_usual(faults, table, "amount", args.amount)
    class_of = pair_in(faults, table, "class-of", args.class_of) if args.class_of is not None else None
    rate = pair_in(faults, table, "rate", args.rate) if args.rate is not None else None
    rank = args.class_column
    if not class_of:
        rank = find_column(faults, table, "class-column", args.class_column, drop=args.drop)
    where: Dict[str, List[str]] = {}
    for word in args.where:
        column, value = pair_in(faults, table, "where", word)
        where.setdefault(column, []).append(value)
    for column in args.ignore:
        need_column(faults, table, "ignore", column)
    return ListColumns(debtor, creditor, amount, rank, class_of, rate, where)


def bank_columns_of(table: Table, args: ListOptions, faults: Faults) -> Columns:
    """The columns of the table of banks."""
    columns = columns_of(faults, args, table, need_usual(faults, table, "cash", args.cash))
    if args.label_column:
        need_column(faults, table, "label-column", args.label_column)
    made_case.check_columns(args.of_case.columns, table, faults)
    return columns


def pair_in(faults: Faults, table: Listing, option: str, word: str) -> Pair:
    """The column of a table and what stands behind the sign of equality. A column that is not there is refused."""
    column, value = pair_of(word, [table])
    need_column(faults, table, option, column)
    return column, value


class OnExposureSheets:
    """What works on the sheets of a list of exposures, with all that was said of them."""

    def __init__(self, sheets: ExposureSheets) -> None:
        self.sheets, self.args, self.faults, self.summary = sheets, sheets.args, sheets.faults, sheets.summary
        self.list, self.table = sheets.list, sheets.table
