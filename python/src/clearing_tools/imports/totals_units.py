"""Totals of a table in whole units, both of one sum, within the limits."""
from fractions import Fraction
from typing import Iterator, List, Optional, Sequence, Tuple

from clearing_client.format import MAX_CASH, MAX_OUTSIDE
from clearing_client.limits import LIMITS, Limits, of_counts

from .amounts import Amount, decimals_of, shown
from .networks.claims import Totals
from .sheet_options import TotalsOptions
from .summary import Line
from .totals_table import TotalsTable
from .units import handy_units, not_whole, units_of


def limits_of(limits: Optional[str], banks: int, claims: int) -> Limits:
    """The limits by which claims and a unit are chosen: those that were said, else those that so many banks and claims
    need."""
    return LIMITS[limits or of_counts(banks, claims, 0)]


def most_claims(sheet: TotalsTable) -> int:
    """How many claims may stay: as many as were said, or as the limits have."""
    args, banks = sheet.args, len(sheet.banks)
    return args.most_claims or limits_of(args.limits, banks, claims_of(args, sheet.owes, sheet.owed)).debts


def units_for(sheet: TotalsTable, most: int) -> Iterator[Fraction]:
    """The units to try: the one that is named, or from the smallest on that keeps all limits as far as totals tell;
    where so many claims are made at most."""
    args, banks = sheet.args, sheet.banks
    if args.unit is not None:
        yield args.unit
        return
    amounts = [*sheet.owes, *sheet.owed, *(bank.cash for bank in banks), *(bank.outside for bank in banks)]
    finest = Fraction(1, 10 ** max(map(decimals_of, amounts), default=0))
    for unit in handy_units(finest):
        if units_of(sum(sheet.owes), unit) <= limits_of(args.limits, len(banks), most).owed and all(
            units_of(bank.cash, unit) <= MAX_CASH and units_of(bank.outside, unit) <= MAX_OUTSIDE for bank in banks
        ):
            yield unit


def rounded_to(amounts: Sequence[Amount], unit: Fraction, total: int) -> Tuple[List[int], int, bool]:
    """Amounts in whole units that come to a total: each to its nearest, but for those whose rounding is nearest to a
    half. And how many went the other way."""
    units = [units_of(amount, unit) for amount in amounts]
    gap = total - sum(units)
    step = 1 if gap > 0 else -1
    # What is rounded down the most goes up first, and what is rounded up the most goes down first; no 0 goes below.
    order = sorted(range(len(amounts)), key=lambda at: step * (units[at] - Fraction(amounts[at]) / unit))
    order = [at for at in order if amounts[at] and units[at] + step >= 0]
    for at in order[: abs(gap)]:
        units[at] += step
    return units, abs(gap), sum(units) == total


class WholeTotals:
    """The totals of a table in a unit, and how many of them were rounded the other way."""

    def __init__(self, sheet: TotalsTable, unit: Fraction, totals: Totals, turned: int) -> None:
        self.sheet, self.unit, self.totals, self.turned = sheet, unit, totals, turned

    @classmethod
    def of(cls, sheet: TotalsTable, unit: Fraction) -> "WholeTotals":
        """Those of a table in a unit. Fails where they are no whole units, or pass a limit."""
        total = units_of(sum(sheet.owes), unit)
        check_whole(sheet, unit)
        check_limits(sheet, unit, total)
        sheet.faults.end_if_any()
        owes, down, fits = rounded_to(sheet.owes, unit, total)
        owed, up, fits_too = rounded_to(sheet.owed, unit, total)
        if not (fits and fits_too):
            what = f"in units of {shown(unit)} the totals cannot come to one sum; take a smaller --unit"
            sheet.faults.add_general(sheet.table, what)
        whole = cls(sheet, unit, Totals([bank.name for bank in sheet.banks], owes, owed), up + down)
        whole.check_sums()
        sheet.faults.end_if_any()
        return whole

    def check_sums(self) -> None:
        """Refuses totals that no network has once they are rounded."""
        totals = self.totals
        for name, out, in_ in zip(totals.names, totals.owes, totals.owed):
            if out + in_ > totals.sum:
                what = (
                    f"rounded to units of {shown(self.unit)} {name} owes {out:,} and is owed {in_:,}, more than all"
                    f" claims, {totals.sum:,}; take a smaller --unit"
                )
                self.sheet.faults.at_row(self.sheet.table, self.sheet.table.rows.get(name), what)

    def lines(self) -> List[Line]:
        """What was done to come to whole units."""
        sheet, unit = self.sheet, self.unit
        pairs = [*zip(sheet.owes, self.totals.owes), *zip(sheet.owed, self.totals.owed)]
        others = [amount for bank in sheet.banks for amount in (bank.cash, bank.outside)]
        gaps = [abs(units * unit - amount) for amount, units in pairs]
        gaps += [abs(units_of(amount, unit) * unit - amount) for amount in others]
        rounding = max(gaps, default=Fraction(0))
        lines: List[Line] = []
        if rounding or sheet.args.unit is None:
            lost = sum(1 for amount, units in pairs if amount and not units)
            detail = f"in units of {shown(unit)}; the largest rounding is {shown(rounding)}, and {lost:,} became 0"
            lines.append(("totals in the sheet", len(pairs), sum(sheet.owes), detail))
        if self.turned:
            detail = f"so that both sums are {self.totals.sum:,}"
            lines.append(("totals rounded the other way", self.turned, None, detail))
        return lines


def check_whole(sheet: TotalsTable, unit: Fraction) -> None:
    """Refuses totals that are not whole units, unless they are rounded."""
    if sheet.args.is_rounded or sheet.args.unit is None:
        return
    for column, amounts in ((sheet.liabilities, sheet.owes), (sheet.assets, sheet.owed)):
        for bank, amount in zip(sheet.banks, amounts):
            if (Fraction(amount) / unit).denominator != 1:
                sheet.faults.at_cell(sheet.table, sheet.table.rows.get(bank.name), column, not_whole(amount))


def check_limits(sheet: TotalsTable, unit: Fraction, total: int) -> None:
    """Refuses amounts beyond the limits, where all claims come to so many units."""
    limits = sheet.args.most
    if total > limits.owed:
        what = f"all claims come to {total:,} units: {total - limits.owed:,} more than the most, {limits.owed:,}"
        sheet.faults.add_general(sheet.table, f"{what}; take a larger --unit, or --unit auto")
    for bank in sheet.banks:
        for amount, most, what in (
            (bank.cash, MAX_CASH, "the cash of"),
            (bank.outside, MAX_OUTSIDE, "what is owed outside by"),
        ):
            units = units_of(amount, unit)
            if units > most:
                what = f"{what} {bank.name} is {units:,} units: {units - most:,} more than the most, {most:,}"
                sheet.faults.at_row(sheet.table, sheet.table.rows.get(bank.name), what)


def claims_of(args: TotalsOptions, owes: Sequence[Amount], owed: Sequence[Amount]) -> int:
    """How many claims a method makes by itself: entropy one of each bank that is owed on each other that owes. The
    others make as many as they are let."""
    if args.method != "entropy":
        return 0
    return sum(map(bool, owes)) * sum(map(bool, owed)) - sum(bool(out and in_) for out, in_ in zip(owes, owed))
