"""Lines of totals: found by their names or their numbers, and checked before they are dropped."""
from fractions import Fraction
from typing import Container, Dict, Iterator, List, Mapping, NamedTuple, Optional, Sequence, Set, Tuple

from .amounts import Amount, shown
from .faults import Faults
from .sheet_options import SheetOptions
from .summary import Summary
from .sums import UNREAD, Sum, Value, Values, column_sums
from .tables import Table, quoted
from .totals_names import is_called_total

# So many of its cells must be the sums of the others, and above 0, for a line to be one of totals with cells that are
# wrong; two where what is wrong is off by a tenth at most.
WITNESSES, SHARE, NEAR = 3, 5, 10


class Mismatch(NamedTuple):
    """A cell of a line of totals that is wrong: its position in the line, what it has, and what the others come to; as
    whole numbers while lines are judged, then in the amounts of the sheet."""

    position: int
    value: Amount
    others: Amount

    @property
    def is_near(self) -> bool:
        """Whether it is off by a tenth at most."""
        return NEAR * abs(Fraction(self.value) - self.others) <= self.others

    def scaled_down(self, scale: int) -> "Mismatch":
        """The same in the amounts of the sheet, of which each is so many whole numbers."""
        return Mismatch(self.position, Fraction(self.value, scale), Fraction(self.others, scale))


class WrongCell(NamedTuple):
    """A cell of totals that is wrong, by the names of its row and its column: what it has, and what the others come
    to."""

    row: str
    column: str
    value: Amount
    others: Amount


class Judgement(NamedTuple):
    """What speaks against a line as one of totals, and how many of its cells speak for it: sums above 0."""

    mismatches: List[Mismatch]
    witnesses: int

    def is_total(self, is_dropped: bool) -> bool:
        """Whether the line is one of totals; a witness less is needed where it is to be dropped, or what is wrong is
        near."""
        if not self.mismatches:
            return self.witnesses > 0
        is_near = all(mismatch.is_near for mismatch in self.mismatches)
        return self.witnesses >= WITNESSES - (is_dropped or is_near)


def judge(line: Sequence[Value], sums: Sequence[Sum], most: int) -> Optional[Judgement]:
    """Where a line is the sum of the others, and where it is not, where `sums` has the line itself too; or None once
    there are more mismatches than so many."""
    mismatches: List[Mismatch] = []
    witnesses = 0
    for index, (value, (total, slack)) in enumerate(zip(line, sums)):
        # Where a sum is not read, nothing is wrong; nor is a value, since its sum is not.
        if total is None or value is UNREAD or value is None and total:
            continue
        value = value or 0
        if abs(2 * value - total) > slack:
            mismatches.append(Mismatch(index, value, total - value))
            if len(mismatches) > most:
                return None
        elif value:
            witnesses += 1
    return Judgement(mismatches, witnesses)


def mismatches_in(line: Sequence[Value], sums: Sequence[Sum]) -> List[Mismatch]:
    """The cells of a line of totals that are not the sums of the others; those that are not read say nothing."""
    return [
        Mismatch(index, value, total)
        for index, (value, (total, slack)) in enumerate(zip(line, sums))
        if isinstance(value, int) and total is not None and abs(value - total) > slack
    ]


def totals_by_numbers(
    lines: Mapping[str, Sequence[Value]], sums: Sequence[Sum], args: SheetOptions
) -> Dict[str, List[Mismatch]]:
    """The lines that are the sums of all the others, but for a few cells where at least three are; two where the line
    is to be dropped, or where the few are near."""
    totals: Dict[str, List[Mismatch]] = {}
    for name, line in lines.items():
        if name in args.keep or len(lines) < 3:
            continue
        is_dropped = name in args.drop
        judgement = judge(line, sums, max(1, len(line) // (2 if is_dropped else SHARE)))
        if judgement is not None and judgement.is_total(is_dropped):
            totals[name] = judgement.mismatches
    return totals


def totals_in(lines: Mapping[str, Sequence[Value]], args: SheetOptions, scale: int) -> Dict[str, List[Mismatch]]:
    """The lines of totals, each with what is wrong in it: those that are called so, and those whose numbers say so."""
    named = {name: line for name, line in lines.items() if name not in args.keep and is_called_total(name)}
    others = {name: line for name, line in lines.items() if name not in named}
    sums = column_sums(others.values(), scale)
    totals = totals_by_numbers(others, sums, args)
    if totals and named:
        sums = column_sums((line for name, line in others.items() if name not in totals), scale)
    for name, line in named.items():
        totals[name] = mismatches_in(line, sums)
    return {name: [each.scaled_down(scale) for each in totals[name]] for name in lines if name in totals}


class TotalLines:
    """The lines of totals of a table, found before any is dropped: rows and columns by their names, each with what is
    wrong in it."""

    def __init__(
        self,
        table: Table,
        values: Values,
        banks: Sequence[str],
        rows: Dict[str, List[Mismatch]],
        across: Dict[str, List[Mismatch]],
    ) -> None:
        self.table, self.values, self.banks, self.rows, self.across = table, values, banks, rows, across
        # Rows that are dropped or left out later are still told by their numbers.
        self.row_numbers = dict(table.rows)

    @classmethod
    def read(
        cls,
        table: Table,
        args: SheetOptions,
        columns: Sequence[str],
        banks: Sequence[str] = (),
        may_be_empty: Container[str] = (),
    ) -> "TotalLines":
        """Finds them in some columns of a table, of which those of banks may be lines of totals themselves."""
        values = Values.read(table, args.amounts(), columns, may_be_empty)
        indices = {column: index for index, column in enumerate(columns)}
        across = {column: [line[indices[column]] for line in values.rows.values()] for column in banks}
        return cls(
            table, values, banks, totals_in(values.rows, args, values.scale), totals_in(across, args, values.scale)
        )

    @property
    def names(self) -> List[str]:
        """The names of the lines: those of rows, then those of columns alone."""
        return list({**self.rows, **self.across})

    def without_rows(self, rows: Container[str]) -> "TotalLines":
        """The same lines without some rows."""
        others = {name: mismatches for name, mismatches in self.rows.items() if name not in rows}
        return TotalLines(self.table, self.values, self.banks, others, self.across)

    def __contains__(self, name: str) -> bool:
        return name in self.rows or name in self.across

    def wrong_cells(self, name: str) -> Iterator[WrongCell]:
        """The cells of a line of totals that are wrong."""
        for position, value, others in self.rows.get(name, ()):
            yield WrongCell(name, self.values.columns[position], value, others)
        rows = list(self.values.rows)
        for position, value, others in self.across.get(name, ()):
            yield WrongCell(rows[position], name, value, others)

    def cells_with_others(self, name: str) -> Iterator[Tuple[Value, List[Value]]]:
        """Each cell of a line of totals, with the cells that it is the sum of."""
        rows, columns = self.values.rows, self.values.columns
        if name in self.rows:
            others = [line for row, line in rows.items() if row not in self.rows]
            for index in range(len(columns)):
                yield rows[name][index], [line[index] for line in others]
        if name in self.across:
            own = columns.index(name)
            banks = [columns.index(bank) for bank in self.banks if bank not in self.across]
            for line in rows.values():
                yield line[own], [line[index] for index in banks]

    def off_by_rounding(self, name: str) -> List[Fraction]:
        """By how much the cells of a line of totals are off, where they are."""
        gaps = []
        for value, others in self.cells_with_others(name):
            if isinstance(value, int) and UNREAD not in others:
                gap = abs(value - sum(other for other in others if isinstance(other, int)))
                gaps += [Fraction(gap, self.values.scale)] if gap else []
        return gaps

    def check(self, name: str, faults: Faults, summary: Summary) -> None:
        """Checks a line of totals that is dropped."""
        cells = list(self.wrong_cells(name))
        self.refuse_cells(name, cells, faults)
        if not cells and name in self:
            summary.tell("control totals that agree", 1, None, f"{line_called(name)} in {self.table.label}")
            off = self.off_by_rounding(name)
            if off:
                detail = f"the largest by {shown(max(off))}; {line_called(name)} in {self.table.label}"
                summary.tell("control totals off by rounding", len(off), sum(off), detail)

    def refuse(self, faults: Faults, names: Container[str]) -> Set[str]:
        """Refuses each line of totals of some names, and tells what is wrong in it. Gives the names of the lines."""
        refused = [name for name in self.names if name in names]
        for name in refused:
            cells = list(self.wrong_cells(name))
            what = total_refusal(name, "row" if name in self.rows else "column", bool(cells))
            if name in self.rows:
                faults.at_row(self.table, self.table.rows.get(name), what)
            else:
                faults.at_header(self.table, name or "without a name", what)
            self.refuse_cells(name, cells, faults)
        return set(refused)

    def refuse_cells(self, name: str, cells: Sequence[WrongCell], faults: Faults) -> None:
        """Refuses the cells of a line of totals that are wrong."""
        for cell in cells:
            what = sum_fault(name, cell.value, cell.others)
            faults.at_cell(self.table, self.row_numbers[cell.row], cell.column, what)


def line_called(name: str) -> str:
    """A line of totals in a sentence."""
    return name or "the line without a name"


def sum_fault(name: str, value: Amount, others: Amount) -> str:
    """What is said of a line of totals that is not the sum of the others."""
    return (
        f"{line_called(name)} says {shown(value)}, and the others come to {shown(others)}: correct the sheet, or delete"
        " the line of totals"
    )


def total_refusal(name: str, kind: str, is_wrong: bool) -> str:
    """What is said of a row or a column of totals that is not dropped."""
    where = f"{name} is a {kind} of totals" if name else f"a {kind} of totals that has no name"
    why = (
        "its name says so"
        if is_called_total(name)
        else f"each of its cells is the sum of the others{' but for what is told below' if is_wrong else ''}"
    )
    return f"{where}: {why}; say --drop {quoted(name)}, or --keep {quoted(name)} if it is a bank"
