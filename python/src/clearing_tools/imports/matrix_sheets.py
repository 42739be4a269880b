"""The sheets of a matrix: the matrix and its table, which may be one sheet, with the columns that are no banks'."""
from typing import Dict, List, NamedTuple, Optional, Sequence, Set

from . import made_case
from .columns import Columns, alike, columns_of, take_alike
from .faults import HEADER, Faults
from .left_out import Rates, ask_currencies, columns_shown, currencies_in, is_of_currencies, tell_columns
from .reading import is_amount
from .sheet_options import MatrixOptions
from .summary import Summary
from .tables import Table, need_column

NO_AMOUNTS = (
    "; if it tells of the banks, say --label-column, --short-column, --group-column or --country-column with its name,"
    " and if it is to be left out, --drop with its name"
)
"""What is said of a column without amounts that no row has the name of."""


class NoBanks(NamedTuple):
    """The columns that are no banks'."""

    columns: Columns
    """Those of the table that are looked at for the banks."""
    extra: Set[Optional[str]]
    """The columns of the matrix that are no banks, looked at or not."""
    others: List[str]
    """Those that are not looked at, and are told."""


class MatrixSheets:
    """A matrix and its table, which may be one sheet, with the columns that are no banks'."""

    def __init__(
        self,
        args: MatrixOptions,
        faults: Faults,
        summary: Summary,
        sheets: Sequence[Table],
        no_banks: NoBanks,
        rates: Rates,
    ) -> None:
        self.args, self.faults, self.summary = args, faults, summary
        self.sheets, self.matrix, self.table, self.is_one = sheets, sheets[0], sheets[-1], len(sheets) == 1
        self.columns, self.extra, self.others = no_banks
        self.rates = rates

    @classmethod
    def read(cls, args: MatrixOptions, faults: Faults, summary: Summary) -> "MatrixSheets":
        """Reads the sheets, and finds the columns that are no banks'."""
        sheets = [Table(args.file, args.form, faults)]
        sheets += [Table(args.table, args.table_form, faults)] if args.table else []
        faults.end_if_any()
        no_banks = no_banks_in(sheets, args, faults)
        return cls(args, faults, summary, sheets, no_banks, Rates.read(args, sheets, faults))

    @property
    def bank_columns(self) -> List[str]:
        """The columns of the matrix that are banks'."""
        return [column for column in self.matrix.header if column not in self.extra]

    @property
    def amount_columns(self) -> List[str]:
        """The columns of the table with amounts beside the matrix, as far as they are there."""
        return [column for column in self.columns.amounts if column in self.table]

    def has_line(self, name: str) -> bool:
        """Whether a row or a column of a sheet has a name."""
        return any(sheet.has_line(name) for sheet in self.sheets)

    def drop(self, name: str) -> None:
        """Drops the rows and columns of a name."""
        for sheet in self.sheets:
            sheet.drop(name)

    def check_columns(self, totals: Set[str]) -> None:
        """Rows and columns name the same banks, or the table does, and the table has a column of cash."""
        if self.columns.cash not in self.table:
            what = f"no column {self.columns.cash} for the cash of the banks (--cash, --table)"
            self.faults.at_row(self.table, HEADER, what)
        others = totals if self.is_one else totals | set(self.table.rows)
        for column in self.bank_columns:
            if column not in self.matrix.rows and column not in others:
                hint = "" if any(map(is_amount, self.matrix.column(column).values())) else NO_AMOUNTS
                self.faults.at_header(self.matrix, column or "without a name", f"no row of this name{hint}")
        for bank, row in self.matrix.rows.items():
            if bank not in self.matrix and bank not in others:
                self.faults.at_row(self.matrix, row, f"no column of the name {bank}", kind="no column")
            elif bank in self.extra:
                what = f"{bank} names a bank and a column that is none; use --table, or rename the column"
                self.faults.at_row(self.matrix, row, what)

    def names(self) -> List[str]:
        """The banks: those of the rows, then those of columns alone, then those of the table alone, which are told."""
        names = dict.fromkeys([*self.matrix.rows, *self.bank_columns])
        if not self.is_one:
            alone = [name for name in self.table.rows if name not in names]
            if alone:
                self.summary.tell("banks in no line of the matrix, kept", len(alone), None, ", ".join(alone[:20]))
            names.update(dict.fromkeys(alone))
        return list(names)

    def tell_others(self) -> None:
        """Tells the columns that are not looked at, and the amounts in them."""
        if self.others:
            names = columns_shown(self.others)
            self.summary.tell("columns not looked at", len(self.others), None, names, step="leftOut")
            what = "amounts in a column not looked at"
            tell_columns(self.summary, self.others, self.table, self.args.amounts, what)


def no_banks_in(sheets: Sequence[Table], args: MatrixOptions, faults: Faults) -> NoBanks:
    """The columns of a matrix and its table that are no banks'."""
    matrix, table, is_one = sheets[0], sheets[-1], len(sheets) == 1
    banks = matrix.rows if is_one else {}
    columns = columns_of(faults, args, table, take_alike(table, args.cash, banks), banks)
    if args.label_column:
        need_column(faults, table, "label-column", args.label_column, banks)
    made_case.check_columns(args.of_case.columns, table, faults, banks)
    used = {*columns.amounts, columns.rule, args.label_column, *args.of_case.columns.values()}
    extra = {*used, *columns.passed, *usual_columns(table, args, banks)} if is_one else set()
    others = list(columns.passed) if is_one else [column for column in table.header if column not in used]
    for sheet in sheets:
        for column in currency_columns(sheet, {*matrix.rows, *used}, args, faults):
            extra |= {column} if sheet is matrix else set()
            others += [column] if sheet is matrix and not args.is_rate(column) else []
    return NoBanks(columns, extra, others)


def usual_columns(table: Table, args: MatrixOptions, banks: Dict[str, int]) -> List[str]:
    """The columns of the usual names for what is owed outside and for rules. A bank may have such a name where an
    option names another column."""
    usual = [*(() if args.outside else ["outside"]), *(() if args.rule_column else ["rule"])]
    return [
        column
        for name in ("outside", "rule")
        for column in alike(table, name, banks)
        if name in usual or column not in banks
    ]


def currency_columns(sheet: Table, used: Set[Optional[str]], args: MatrixOptions, faults: Faults) -> List[str]:
    """The columns of a sheet that are of currencies, beside those that are used. One that has several is asked for."""
    found = []
    for column in sheet.header:
        if column not in used and (args.is_rate(column) or is_of_currencies(sheet, column)):
            found.append(column)
            if currencies_in(sheet, column) and not args.is_rate(column) and column not in args.ignore:
                ask_currencies(faults, sheet, column)
    return found
