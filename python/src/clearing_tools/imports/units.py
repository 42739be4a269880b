"""A network in the amounts of a sheet, and how it becomes whole units within the limits of docs/FORMATS.md."""
from collections import defaultdict
from dataclasses import dataclass, field
from fractions import Fraction
from typing import Dict, Iterable, Iterator, List, Mapping, Optional, Tuple, Union

from clearing_client.format import MAX_CASH, MAX_CLAIM, MAX_OUTSIDE, is_name
from clearing_client.limits import LIMITS, STANDARD, WIDE, Limits, of_counts
from clearing_client.texts import DEBTS

from .. import files
from .amounts import Amount, decimals_of, shown
from .faults import Faults, Located
from .sheet_options import SheetOptions
from .summary import Summary
from .tables import Table

NAME_BYTES = 64


@dataclass
class Bank:
    """A bank in the amounts of a sheet."""

    name: str
    cash: Amount
    rule: str
    outside: Amount


@dataclass
class Debt:
    """A debt in the amounts of a sheet, with the cell of its amount: the table, the row and the column."""

    __slots__ = ("debtor", "creditor", "rank", "amount", "cell")

    debtor: str
    creditor: str
    rank: int
    amount: Amount
    cell: Tuple[Located, int, str]


@dataclass
class Network:
    """Banks and debts in amounts, the table of the banks, which may have more of their names, the codes of names that
    are none, and the full names that labels have."""

    banks: List[Bank]
    debts: List[Debt]
    has_outside: bool
    table: Table
    codes: Dict[str, str] = field(default_factory=dict)
    labels: Dict[str, str] = field(default_factory=dict)

    def amounts(self) -> Iterator[Tuple[Amount, int, Union[Bank, Debt]]]:
        """Each amount with its limit in units, and the bank or the debt that has it."""
        for bank in self.banks:
            yield bank.cash, MAX_CASH, bank
            yield bank.outside, MAX_OUTSIDE, bank
        for debt in self.debts:
            yield debt.amount, MAX_CLAIM, debt

    def owed(self) -> Amount:
        """What is owed in all."""
        return sum(debt.amount for debt in self.debts)

    def named(self, name: str) -> str:
        """The name of a bank in the files: its code, where it has one."""
        return self.codes.get(name, name)

    def banks_text(self, unit: Fraction) -> str:
        """The banks file in whole units."""
        header = ["name", "cash", "rule"] + ["outside"] * self.has_outside
        records = []
        for bank in self.banks:
            outside = [units_of(bank.outside, unit)] if self.has_outside else []
            records.append([self.named(bank.name), units_of(bank.cash, unit), bank.rule, *outside])
        return files.csv_text([header, *records])

    def labels_text(self) -> str:
        """The file of labels: a record for each bank that has a code or a full name."""
        records = [(self.named(bank.name), self.labels.get(bank.name, bank.name)) for bank in self.banks]
        return "code,name\n" + "".join(f"{code},{files.in_quotes(name)}\n" for code, name in records if code != name)


def codes_of(names: Iterable[str]) -> Dict[str, str]:
    """A code for each of some names that the program refuses: the name without what it may not have, cut to 64
    bytes."""
    taken, codes = {name for name in names if is_name(name)}, {}
    for name in names:
        if is_name(name):
            continue
        plain = " ".join("".join(" " if c in ',"' or not is_name(f"x{c}x") else c for c in name).split()) or "bank"
        code, number = cut(plain, NAME_BYTES), 1
        while code in taken:
            number += 1
            code = f"{cut(plain, NAME_BYTES - len(str(number)) - 1)} {number}"
        taken.add(code)
        codes[name] = code
    return codes


def cut(text: str, most: int) -> str:
    """The beginning of a text in so many bytes, at the end of a word where one is near."""
    if len(text.encode()) <= most:
        return text
    short = text.encode()[:most].decode("utf-8", "ignore")
    head = short.rpartition(" ")[0]
    return head if len(head) > most // 2 else short.strip()


def units_of(amount: Amount, unit: Fraction) -> int:
    """The whole units of an amount, to the nearest, a half to even."""
    if isinstance(amount, int) and unit.numerator == unit.denominator:
        return amount
    over, under = amount.numerator * unit.denominator, amount.denominator * unit.numerator
    whole, rest = divmod(over, under)
    return whole + (2 * rest > under or 2 * rest == under and whole % 2 == 1)


def off_by(amount: Amount, unit: Fraction) -> Amount:
    """By how much an amount is changed where it is rounded to whole units."""
    if isinstance(amount, int) and unit.denominator == 1 and amount % unit.numerator == 0:
        return 0
    return abs(units_of(amount, unit) * unit - amount)


def breaks(network: Network, unit: Fraction, limits: Limits) -> Iterator[str]:
    """What passes a limit in a unit, and by how much, each in a line."""
    owed = 0
    for amount, most, owner in network.amounts():
        units = units_of(amount, unit)
        owed += units if isinstance(owner, Debt) else 0
        if units > most:
            if isinstance(owner, Debt):
                what = f"the claim of {owner.creditor} on {owner.debtor}"
            else:
                what = f"the cash of {owner.name}" if most == MAX_CASH else f"what {owner.name} owes outside"
            yield f"{what} is {shown(amount)}, in units {units:,}: {units - most:,} more than the most, {most:,}"
    if owed > limits.owed:
        yield f"all claims come to {owed:,} units: {owed - limits.owed:,} more than the most, {limits.owed:,}"


def handy_units(least: Fraction) -> Iterator[Fraction]:
    """The units 1, 2 and 5 times a power of ten, from a power of ten on."""
    while True:
        for factor in (1, 2, 5):
            yield least * factor
        least *= 10


def auto_unit(network: Network, limits: Limits) -> Fraction:
    """The smallest unit that keeps all limits, of 1, 2 and 5 times the powers of ten, and no finer than the amounts
    are."""
    finest = Fraction(1, 10 ** max((decimals_of(amount) for amount, _, _ in network.amounts()), default=0))
    largest: Dict[int, Amount] = {limits.owed: network.owed()}
    for amount, most, _ in network.amounts():
        if amount > largest.get(most, 0):
            largest[most] = amount
    bound = max(Fraction(amount, most) for most, amount in largest.items())
    return next(unit for unit in handy_units(finest) if 2 * unit >= bound and not any(breaks(network, unit, limits)))


def unit_for(network: Network, args: SheetOptions, faults: Faults, table: Located) -> Fraction:
    """The unit that was said, or the smallest that keeps all limits. One that breaks some is refused."""
    # It is chosen by the limits that the network needs for its banks and debts alone.
    debts = sum(1 for debt in network.debts if debt.amount)
    limits = LIMITS[args.limits or of_counts(len(network.banks), debts, 0)]
    if args.unit is None:
        return auto_unit(network, limits)
    broken = list(breaks(network, args.unit, args.most))
    for line in broken:
        faults.add_general(table, line)
    if broken:
        unit = shown(auto_unit(network, limits))
        hint = f"(--unit {unit.replace(',', '')} --round, or --unit auto)"
        faults.add_general(table, f"a unit of {unit} keeps all limits on amounts {hint}")
    return args.unit


def tell_limits(summary: Summary, limits: Optional[str], needed: str) -> None:
    """Tells where a network needs the wide limits."""
    if needed == WIDE:
        what = "as was said" if limits else f"as the standard ones have {standard_words()}"
        summary.tell("limits", detail=f"wide, {what}: clearing reads the files by --limits wide")


def standard_words() -> str:
    """The standard limits in words."""
    limits = LIMITS[STANDARD]
    return f"at most {limits.banks:,} banks, {limits.debts:,} debts and {limits.owed:,} units owed"


class Units:
    """A network in whole units: the units of each debt, of which there may be a million; by the limits that were said,
    where they were."""

    def __init__(self, network: Network, unit: Fraction, units: List[int], limits: Optional[str]) -> None:
        self.network, self.unit, self.units, self.limits = network, unit, units, limits

    @classmethod
    def of(cls, network: Network, args: SheetOptions, faults: Faults, table: Located) -> "Units":
        """The network in the unit that was said, or the smallest that keeps all limits. Refuses what passes a limit,
        and debts that are no whole units, unless they are rounded."""
        unit = unit_for(network, args, faults, table)
        units = cls(network, unit, [units_of(debt.amount, unit) for debt in network.debts], args.limits)
        units.check_counts(args.most, faults, table)
        if args.unit is not None and not args.is_rounded:
            units.check_whole(faults)
        return units

    def check_counts(self, limits: Limits, faults: Faults, table: Located) -> None:
        """Refuses more banks or debts than the limits have."""
        banks = len(self.network.banks), limits.banks, "banks"
        for count, most, what in [banks, (self.count(), limits.debts, "debts")]:
            if count > most:
                faults.add_general(table, f"{count:,} {what}, {count - most:,} more than the most, {most:,}")

    def check_whole(self, faults: Faults) -> None:
        """Refuses debts that are no whole units."""
        for debt in self.network.debts:
            if off_by(debt.amount, self.unit):
                table, row, column = debt.cell
                faults.at_cell(table, row, column, not_whole(debt.amount), kind="whole")

    def count(self) -> int:
        """How many debts have a unit."""
        return len(self.units) - self.units.count(0)

    def needed(self) -> str:
        """The limits that the network needs in its unit."""
        return of_counts(len(self.network.banks), self.count(), sum(self.units))

    def banks_text(self) -> str:
        """The banks file."""
        return self.network.banks_text(self.unit)

    def debts_text(self) -> str:
        """The debts file."""
        code = self.network.codes.get
        lines = [
            f"{code(debt.debtor, debt.debtor)},{code(debt.creditor, debt.creditor)},{debt.rank},{units}\n"
            for debt, units in zip(self.network.debts, self.units)
            if units
        ]
        return f"{DEBTS}\n{''.join(lines)}"

    def tell(self, summary: Summary) -> None:
        """Tells what was made, what was rounded, and what became 0."""
        network, unit = self.network, self.unit
        for what, amounts in [
            ("cash", [b.cash for b in network.banks]),
            ("owed outside", [b.outside for b in network.banks]),
            ("debts", [d.amount for d in network.debts]),
        ]:
            units = self.units if what == "debts" else [units_of(amount, unit) for amount in amounts]
            total, in_sheet = sum(units) * unit, Fraction(sum(amounts))
            if what == "owed outside" and not network.has_outside:
                continue
            count = sum(map(bool, units)) if what == "debts" else len(network.banks)
            off = (
                f"; {shown(abs(total - in_sheet))} {'more' if total > in_sheet else 'less'} than the sheet's"
                f" {shown(in_sheet)}"
                if total != in_sheet
                else ""
            )
            summary.tell(f"{what} made", count, total, f"in units of {shown(unit)}: {sum(units):,}{off}")
        self.tell_rounding(summary)
        tell_limits(summary, self.limits, self.needed())

    def tell_rounding(self, summary: Summary) -> None:
        """Tells what was rounded, and what became 0."""
        unit = self.unit
        off = [gap for gap in (off_by(amount, unit) for amount, _, _ in self.network.amounts()) if gap]
        if off:
            detail = f"by {shown(sum(off))} together, the largest by {shown(max(off))}"
            summary.tell("amounts rounded", len(off), None, detail, step="rounded")
        lost = [debt for debt, units in zip(self.network.debts, self.units) if debt.amount and not units]
        if lost:
            some = ", ".join(f"{debt.debtor} owes {debt.creditor} {shown(debt.amount)}" for debt in lost[:3])
            some += ", and others" if len(lost) > 3 else ""
            summary.tell("debts that became 0", len(lost), sum(debt.amount for debt in lost), some, step="rounded")


def not_whole(amount: Amount) -> str:
    """What is said of an amount that is no whole number of units."""
    return f"{shown(amount)} is not a whole number of units; take a smaller --unit, or --round"


# Groups


def grouped(
    network: Network, groups: Mapping[str, str], faults: Faults, table: Located, summary: Summary
) -> Network:
    """A network in which the banks of a group are one: debts within it are gone, all else adds up."""
    names = {bank.name for bank in network.banks}
    of = {bank: group for bank, group in groups.items() if bank in names}
    # A group may have the name of a bank, which is then one of it.
    of.update({group: group for group in set(of.values()) & names if group not in of})
    unknown = [bank for bank in groups if bank not in names]
    if unknown:
        summary.tell("banks of groups that are not here", len(unknown), None, ", ".join(unknown[:20]))
    for group in sorted(set(of.values())):
        if of.get(group, group) != group:
            faults.add_general(table, f"the group {group} has the name of a bank of another group")
    banks = grouped_banks(network.banks, of, faults, table)
    summary.tell("groups", len(set(of.values())), None, f"of {len(of):,} banks")
    debts = grouped_debts(network.debts, of, summary)
    return Network(banks, debts, network.has_outside, network.table, labels=network.labels)


def grouped_banks(banks: Iterable[Bank], of: Mapping[str, str], faults: Faults, table: Located) -> List[Bank]:
    """The banks, those of a group as one."""
    by_group: Dict[str, Bank] = {}
    for bank in banks:
        group = of.get(bank.name, bank.name)
        if group not in by_group:
            by_group[group] = Bank(group, bank.cash, bank.rule, bank.outside)
            continue
        one = by_group[group]
        one.cash += bank.cash
        one.outside += bank.outside
        if one.rule != bank.rule:
            what = f"the banks of the group {group} have the rules {one.rule} and {bank.rule}; give them one"
            faults.add_general(table, what)
    return list(by_group.values())


def grouped_debts(debts: Iterable[Debt], of: Mapping[str, str], summary: Summary) -> List[Debt]:
    """The debts between groups: those within one are gone, and those of the same two groups and class add up."""
    by_key: Dict[Tuple[str, str, int], Debt] = {}
    within: List[Amount] = []
    summed: Dict[Tuple[str, str, int], int] = defaultdict(int)
    for debt in debts:
        key = (of.get(debt.debtor, debt.debtor), of.get(debt.creditor, debt.creditor), debt.rank)
        if key[0] == key[1]:
            within.append(debt.amount)
        elif key in by_key:
            by_key[key].amount += debt.amount
            summed[key] += 1
        else:
            by_key[key] = Debt(*key, debt.amount, debt.cell)
    summary.tell("debts within groups, left out", len(within), sum(within), step="leftOut")
    if summed:
        count, into = sum(summed.values()) + len(summed), f"into {len(summed):,}"
        summary.tell("debts summed by groups", count, None, into, step="summed")
    return list(by_key.values())
