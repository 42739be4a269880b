"""What is left out of a list of exposures: lines by their values, lines of totals, and banks with all their debts."""
from typing import Container, Dict, List, NamedTuple, Set

from .amounts import Amount
from .control import TotalLines, sum_fault
from .exposure_sheets import OnExposureSheets
from .left_out import Gone, beside_of, no_line_to_drop, no_line_to_leave_out, no_total, tell_columns
from .summary import Counted
from .tables import quoted
from .totals_names import is_called_total


class Judged(NamedTuple):
    """A line of totals: its row, its parties and those of them that are a total, its amount, and the sum of the lines
    that it is to be the sum of."""

    row: int
    names: List[str]
    open: List[str]
    amount: Amount
    total: Amount

    @property
    def is_right(self) -> bool:
        """Whether its amount is the sum."""
        return self.amount == self.total


def is_called(name: str) -> bool:
    """Whether a party of a line is called a total, or nothing."""
    return not name or is_called_total(name)


class ExposureDropping(OnExposureSheets):
    """Takes out of a list and its table what the words say, and tells it."""

    def take_where(self) -> None:
        """Leaves out the lines that have none of the values that are wanted."""
        for column, values in self.sheets.columns.where.items():
            there = {str(text) for text in self.list.column(column).values()}
            for value in values:
                if value not in there:
                    some = ", ".join(sorted(there)[:5]) + (", .." if len(there) > 5 else "")
                    self.faults.at_header(self.list, column, f"no line has {value!r} here; it has {some}")
            rows = [row for row, text in self.list.column(column).items() if str(text) not in values]
            self.sheets.leave_out(rows, f"lines left out by --where {column}={' or '.join(values)}")

    def drop(self) -> None:
        """Leaves out what is to be dropped, once its amounts are those of the others."""
        args, faults = self.args, self.faults
        columns = [column for column in self.sheets.bank_columns.amounts if column in self.table]
        totals = TotalLines.read(self.table, args, columns, may_be_empty=columns)
        # As they are before anything is left out, where they are asked for.
        parties = self.sheets.parties() if args.drop or totals.rows else {}
        dropped = {row: names for row, names in parties.items() if any(name in args.drop for name in names)}
        right = self.check_lines(dropped, parties) if dropped else set()
        for name in args.drop:
            totals.check(name, faults, self.summary)
            rows = [row for row in dropped if row in self.list.rows and name in dropped[row]]
            if name not in right and name not in totals.rows and (rows or name in self.table.rows):
                self.refuse_drop(name, rows)
                continue
            if name in self.table.columns and name not in self.table.rows:
                tell_columns(self.summary, [name], self.table, args.amounts, "amounts left out by --drop")
            if not (self.table.has_line(name) or rows):
                faults.add_general(self.list, no_line_to_drop(name))
            self.table.drop(name)
            self.sheets.leave_out(rows, f"lines left out by --drop {quoted(name)}")
        self.leave_out_banks()
        named = {name for names in parties.values() for name in names}
        totals.refuse(
            faults, {row for row in totals.rows if row not in args.drop and (is_called_total(row) or row not in named)}
        )

    def refuse_drop(self, name: str, rows: List[int]) -> None:
        """Refuses to drop a name that is no total."""
        owes, owed = Counted(), Counted()
        for row in rows:
            side = owes if str(self.list.cell(row, self.sheets.columns.debtor)) == name else owed
            side.add(self.sheets.quiet(row) or 0)
        self.faults.at_row(self.list, rows[0] if rows else None, no_total(name, owes, owed))

    def leave_out_banks(self) -> None:
        """Leaves out the banks that are named by --leave-out, with all that they owe and are owed, and tells it."""
        columns = self.sheets.columns
        for name in self.args.left_out.banks:
            gone, rows = Gone(name), []
            for row in self.list.rows:
                parties = [str(self.list.cell(row, column)) for column in (columns.debtor, columns.creditor)]
                if name in parties:
                    (gone.owes if parties[0] == name else gone.owed).add(self.sheets.quiet(row) or 0)
                    rows.append(row)
            if name in self.table.rows:
                reader = self.args.amounts(is_signed=True)
                gone.beside = beside_of(self.table, name, self.sheets.bank_columns.amounts, reader)
            if not rows and name not in self.table.rows:
                self.faults.add_general(self.list, no_line_to_leave_out(name))
                continue
            self.table.drop_row(name)
            for row in rows:
                del self.list.rows[row], self.list.cells[row]
            gone.tell(self.summary)

    def is_total(self, name: str) -> bool:
        """Whether a party of a line is none but a word for all of them."""
        return is_called(name) or name not in self.table.rows and name in self.args.drop

    def rows_below(self, names: List[str], dropped: Container[int], parties: Dict[int, List[str]]) -> List[int]:
        """The lines that a line of totals is the sum of: those that are not dropped, of the same bank where it names
        one."""
        sides = [(at, name) for at, name in enumerate(names) if not self.is_total(name)]
        return [
            row
            for row, others in parties.items()
            if row not in dropped and all(others[at] == name for at, name in sides)
        ]

    def sum_of(self, rows: List[int], amount: Amount) -> Amount:
        """The sum of some lines, to which an amount is compared. Over several currencies it may be in that of the
        network."""
        amounts = [self.sheets.quiet(row) or 0 for row in rows]
        rate = self.sheets.columns.rate
        if not rate or sum(amounts) == amount:
            return sum(amounts)
        currencies = [str(self.list.cell(row, rate[0])) for row in rows]
        return sum(own * self.sheets.rates.rates.get(currency, 0) for own, currency in zip(amounts, currencies))

    def judged(self, dropped: Dict[int, List[str]], parties: Dict[int, List[str]]) -> List[Judged]:
        """The lines of totals among those that are dropped: each has a party that is a total, and an amount."""
        found = []
        for row, names in dropped.items():
            open_, amount = [name for name in names if self.is_total(name)], self.sheets.quiet(row)
            if open_ and amount is not None:
                total = self.sum_of(self.rows_below(names, dropped, parties), amount)
                found.append(Judged(row, names, open_, amount, total))
        return found

    def check_lines(self, dropped: Dict[int, List[str]], parties: Dict[int, List[str]]) -> Set[str]:
        """The lines of totals among those that are dropped have the sum of the others: of one bank's, where they name
        one. Gives the names that lines of totals have."""
        judged = self.judged(dropped, parties)
        right = sum(line.is_right for line in judged)
        for line in judged:
            # Lines of a bank that the table lacks are no totals, unless some are.
            if not line.is_right and (any(map(is_called, line.names)) or right >= 2):
                what = sum_fault("the line of totals", line.amount, line.total)
                self.faults.at_cell(self.list, line.row, self.sheets.columns.amount, what)
        if right:
            self.summary.tell("control totals that agree", right, None, self.list.label)
        named = {name for names in dropped.values() for name in names if is_called(name)}
        for line in judged:
            named.update(line.open if line.is_right else line.names if right >= 2 else [])
        return named
