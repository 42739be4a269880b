"""A table of totals: the banks, and what each owes and is owed, in the amounts of the sheet."""
from fractions import Fraction
from typing import Iterable, List

from . import made_case, options
from .amounts import Amount, shown
from .columns import columns_of, need_usual
from .control import TotalLines
from .faults import Faults
from .left_out import (
    Gone, Rates, ask_currencies, beside_of, columns_shown, currencies_in, no_line_to_drop, no_line_to_leave_out,
    no_total, tell_columns,
)
from .sheet_options import TotalsOptions
from .summary import Summary, tell_read
from .tables import Cells, Table, need_column
from .units import Bank


class TotalsTable:
    """The banks of a table of totals, what each owes and is owed, and the columns of other amounts. Where the sums
    differ there is a bank more, for those who are not in the file."""

    def __init__(self, args: TotalsOptions, faults: Faults, summary: Summary) -> None:
        self.args, self.faults, self.summary = args, faults, summary
        self.table = Table(args.file, args.form, faults)
        self.assets = need_usual(faults, self.table, "assets", args.assets)
        self.liabilities = need_usual(faults, self.table, "liabilities", args.liabilities)
        cash = need_usual(faults, self.table, "cash", args.cash)
        self.columns = columns_of(faults, args, self.table, cash, others=(self.assets, self.liabilities))
        self.banks: List[Bank] = []
        self.names: List[str] = []
        self.owes: List[Amount] = []
        self.owed: List[Amount] = []

    @classmethod
    def read(cls, args: TotalsOptions, faults: Faults, summary: Summary) -> "TotalsTable":
        """Reads the table, leaves out what is to be left out, and adds the bank more."""
        sheet = cls(args, faults, summary)
        if args.label_column:
            need_column(faults, sheet.table, "label-column", args.label_column)
        faults.end_if_any()
        tell_read(summary, [sheet.table], args)
        made_case.check_columns(args.of_case.columns, sheet.table, faults)
        sheet.tell_others()
        sheet.drop_totals()
        sheet.take_banks()
        sheet.add_rest()
        sheet.check()
        return sheet

    @property
    def amounts(self) -> List[str]:
        """The columns of amounts."""
        return [self.assets, self.liabilities, *self.columns.amounts]

    def take_banks(self) -> None:
        """Takes the banks with what each owes and is owed."""
        table, rates = self.table, Rates.read(self.args, [self.table], self.faults)
        cells = Cells(self.args.amounts(), self.faults, rates.convert)
        self.names = list(table.rows)
        self.banks = options.banks_of(table, self.names, self.columns, self.args, cells, self.summary)
        self.tell_empty((self.assets, self.liabilities))
        self.owed = [cells.amount(table, name, self.assets) for name in self.names]
        self.owes = [cells.amount(table, name, self.liabilities) for name in self.names]
        self.faults.end_if_any()
        rates.tell(self.summary)

    def tell_others(self) -> None:
        """Tells the columns that are not looked at, and asks what is meant with those of several currencies."""
        args, table = self.args, self.table
        used = {*self.amounts, self.columns.rule, args.label_column, *args.of_case.columns.values()}
        others = [column for column in table.header if column not in used or column in self.columns.passed]
        if others:
            what = "amounts in a column not looked at"
            self.summary.tell("columns not looked at", len(others), None, columns_shown(others), step="leftOut")
            tell_columns(self.summary, others, table, args.amounts, what)
        for column in others:
            if currencies_in(table, column) and not args.is_rate(column) and column not in args.ignore:
                ask_currencies(self.faults, table, column)

    # What is left out.

    def drop_totals(self) -> None:
        """Checks the lines of totals that are dropped, drops them, and refuses the others."""
        args, table, faults = self.args, self.table, self.faults
        totals = TotalLines.read(table, args, self.amounts, may_be_empty=self.columns.amounts)
        for name in args.drop:
            totals.check(name, faults, self.summary)
            gone = self.gone_with(name)
            if name in table.rows and name not in totals.rows:
                faults.at_row(table, table.rows[name], no_total(name, gone.owes, gone.owed))
                continue
            if not table.has_line(name):
                faults.add_general(table, no_line_to_drop(name))
            table.drop(name)
        self.leave_out_banks()
        totals.refuse(faults, {row for row in totals.rows if row not in args.drop})
        faults.end_if_any()

    def leave_out_banks(self) -> None:
        """Leaves out the banks that are named by --leave-out, with all that they owe and are owed, and tells it."""
        for name in self.args.left_out.banks:
            gone = self.gone_with(name)
            if not self.table.has_line(name):
                self.faults.add_general(self.table, no_line_to_leave_out(name))
                continue
            self.table.drop(name)
            gone.tell(self.summary)

    def gone_with(self, name: str) -> Gone:
        """What goes with a bank: all that it owes and is owed, and what stands beside."""
        table, gone, reader = self.table, Gone(name), self.args.amounts()
        if name in table.rows:
            gone.beside = beside_of(table, name, self.amounts, reader)
            for counted, column in ((gone.owes, self.liabilities), (gone.owed, self.assets)):
                if gone.beside.pop(column, 0):
                    counted.add(reader.read(table.cell(name, column)))
        return gone

    def tell_empty(self, columns: Iterable[str]) -> None:
        """Tells of empty cells, which are read as 0."""
        there = [column for column in columns if column in self.table]
        empty = sum(not str(text).strip() for column in there for text in self.table.column(column).values())
        if empty:
            self.summary.tell("empty totals, read as 0", empty, 0)

    # Those who are not in the file.

    def add_rest(self) -> None:
        """Adds a bank for those who are not in the file, where the sums differ; it has the cash that it owes, and so
        pays."""
        args = self.args
        gap: Fraction = Fraction(sum(self.owes)) - sum(self.owed)
        if not gap:
            return
        if args.no_rest or args.rest in self.names:
            self.refuse_rest(gap)
            return
        short: Amount = abs(gap) if gap.denominator != 1 else abs(int(gap))
        sums = sum(self.owes), sum(self.owed)
        self.names.append(args.rest)
        self.owes.append(short if gap < 0 else 0)
        self.owed.append(short if gap > 0 else 0)
        self.banks.append(Bank(args.rest, self.owes[-1], args.rule, 0))
        does = f"is owed {shown(gap)} by the others"
        if gap < 0:
            does = f"owes the others {shown(-gap)}, and has as much cash"
        detail = f"{args.rest} {does}, since liabilities come to {shown(sums[0])} and assets to {shown(sums[1])}"
        self.summary.tell("banks for those who are not in the file", 1, abs(gap), detail)

    def refuse_rest(self, gap: Fraction) -> None:
        """Refuses sums that differ, where no bank is to be added."""
        args = self.args
        what = (
            f"{self.liabilities} come to {shown(sum(self.owes))} and {self.assets} to {shown(sum(self.owed))}:"
            f" {'assets' if gap < 0 else 'liabilities'} are {shown(abs(gap))} more"
        )
        hint = "add a bank that stands for those who are not in the file"
        if args.rest in self.names:
            hint = f"there is a bank {args.rest} already; say --rest NAME"
        self.faults.add_general(self.table, f"{what}; {hint}")

    def check(self) -> None:
        """Refuses more banks than the limits have, and totals that no network has."""
        count, most = len(self.names), self.args.most.banks
        if count > most:
            what = f"{count:,} banks, {count - most:,} more than the most, {most:,}"
            self.faults.add_general(self.table, what)
        self.faults.end_if_any()
        total = sum(self.owes)
        for name, out, in_ in zip(self.names, self.owes, self.owed):
            if out + in_ > total:
                what = (
                    f"{name} owes {shown(out)} and is owed {shown(in_)}, together {shown(out + in_ - total)} more than"
                    f" all claims, {shown(total)}: no bank can owe itself"
                )
                self.faults.at_row(self.table, self.table.rows.get(name), what)
        self.faults.end_if_any()
