"""What was done to a sheet, told on standard error or written as a table."""
import contextlib
from fractions import Fraction
from typing import Dict, Iterable, List, Optional, Sequence, Tuple

from clearing_client.description import STEPS, ImportLine, ImportSummary

from .. import files
from .amounts import Amount, AmountError, Amounts, shown
from .reading import is_amount
from .sheet_options import CaseOptions, SheetOptions
from .tables import AnySheet

Line = Tuple[str, Optional[int], Optional[Amount], str]
COLUMNS = ("what", "count", "amount", "detail")
SCALE = "amounts of the sheets are in"
"""What the line begins with that tells how much of the currency an amount of 1 is."""


class Summary:
    """Lines of what was read, left out, summed, rounded and made: each with a count and an amount where it has one, in
    the amounts of the sheet, and a detail."""

    def __init__(self) -> None:
        self.lines: List[Line] = []
        self.steps: List[str] = []

    def tell(
        self,
        what: str,
        count: Optional[int] = None,
        amount: Optional[Amount] = None,
        detail: str = "",
        step: str = "read",
    ) -> None:
        """Adds a line, and which step of the import it tells of: `read`, `leftOut`, `summed`, `rounded` or
        `converted`."""
        self.lines.append((what, count, amount, detail))
        self.steps.append(step)

    def of_case(self, command: Sequence[str], scale: Amount = 1) -> ImportSummary:
        """The summary as a case keeps it, with the words of the command. Sums are in the currency, of which an amount
        of the sheet is so many."""
        steps: Dict[str, List[ImportLine]] = {step: [] for step in STEPS}
        for step, (what, count, amount, detail) in zip(self.steps, self.lines):
            total = None if amount is None else shown(amount * scale).replace(",", "")
            steps[step].append(ImportLine(what, count, total, detail))
        return ImportSummary(tuple(command), *(tuple(steps[step]) for step in STEPS))

    def text(self) -> str:
        """The lines for people."""
        return "".join(f"{line}\n" for line in map(line_of, self.lines))

    def table(self) -> str:
        """The same as comma-separated records."""
        records: List[Sequence[object]] = [COLUMNS]
        for what, count, amount, detail in self.lines:
            total = "" if amount is None else shown(amount).replace(",", "")
            records.append((what, "" if count is None else count, total, detail))
        return files.csv_text(map(files.in_quotes, record) for record in records)


def line_of(line: Line) -> str:
    """A line for people."""
    what, count, amount, detail = line
    number = f"{count:,}" if count is not None else ""
    total = shown(amount) + (" in all" if count is not None else "") if amount is not None else ""
    return f"{what}: " + "; ".join(part for part in (number, total, detail) if part)


class Counted:
    """How many amounts, and their sum."""

    def __init__(self) -> None:
        self.count = 0
        self.sum: Amount = Fraction(0)

    def add(self, amount: Amount) -> None:
        """Adds an amount."""
        self.count += 1
        self.sum += amount

    def tell(self, summary: Summary, what: str, detail: str = "", step: str = "leftOut") -> None:
        """Tells it where there is any."""
        if self.count:
            summary.tell(what, self.count, self.sum, detail, step=step)


# What every tool tells first.


def tell_read(summary: Summary, sheets: Iterable[AnySheet], args: SheetOptions) -> None:
    """Tells what the sheets are."""
    for sheet in sheets:
        summary.tell("rows read", len(sheet.rows), None, sheet.label)
        if sheet.sheet.hidden:
            summary.tell("hidden rows, read as the others", sheet.sheet.hidden, None, sheet.label)
        broken = sheet.sheet.broken
        if broken:
            some = ", ".join(map(str, broken[:3])) + (", .." if len(broken) > 3 else "")
            summary.tell(
                "rows with a line end in a cell, each read as one", len(broken), None, f"row {some} of {sheet.label}"
            )
        tell_above(summary, sheet, args.amounts(is_signed=True))
    tell_scale(summary, args.of_case)


def tell_above(summary: Summary, table: AnySheet, amounts: Amounts) -> None:
    """Tells the amounts that stand above the header, in rows that are passed over."""
    counted, rows = Counted(), []
    for number, row in table.sheet.above:
        for cell in row:
            if is_amount(cell):
                with contextlib.suppress(AmountError):
                    counted.add(amounts.read(cell))
                    rows.append(number)
    places = list(dict.fromkeys(rows))
    some = ", ".join(map(str, places[:3])) + (", .." if len(places) > 3 else "")
    counted.tell(summary, "amounts above the header, passed over", f"row {some} of {table.label}")


def tell_scale(summary: Summary, case: CaseOptions) -> None:
    """Tells what the amounts of the sheets are in, where that was said."""
    if case.amounts_in:
        detail = f"{shown(case.amounts_in)} {case.currency or 'of the currency'}"
        summary.tell(SCALE, detail=detail)


def scale_told(summary: Optional[ImportSummary]) -> str:
    """What the amounts of the sheets of a case are in, such as `1,000 EUR`; nothing where the import was told none, or
    1."""
    scales = [line.where for line in summary.read if line.what == SCALE] if summary else []
    return next((scale for scale in scales if scale.split()[0] != "1"), "")
