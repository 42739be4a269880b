"""The parts of the page for one bank each: what it owes and what it is owed, debt by debt."""
from typing import Container, Dict, Iterator, List, NamedTuple, Optional, Sequence, Tuple

from clearing_client.limits import LIMITS, STANDARD
from clearing_client.records import Payment

from ..texts import Bank, due_of, shortfall_of
from .matter import Matter
from .bank_table import outside_of

MANY_BANKS = 40  # above that the part of one bank is shown at a time
LEAST_EACH, MOST_ROWS = 10, 40_000
"""Of a network beyond the standard limits so many debts at least stand in the part of a bank on each side, and about so
many in all."""
MOST_PARTS = 1000
"""With more banks, those have a part that leave most unpaid, and those to which most stays unpaid: half of these
each."""


class Debt(NamedTuple):
    """What a bank owes or is owed: the other bank (nothing is the world outside), its class, and amounts as text."""

    other: Optional[str]
    class_: str
    claim: str
    paid: str
    unpaid: str
    is_short: bool


class Debts(NamedTuple):
    """The debts of one side, with their sums; where the network has very many, those of which most stays unpaid, and
    the rest as one: how many they are, and their amounts."""

    rows: List[Debt]
    claim: str
    paid: str
    unpaid: str
    rest: Optional[Debt] = None
    more: int = 0


class Part(NamedTuple):
    """The part of the page for one bank: its sentence in amounts, what it owes and is owed."""

    place: int
    bank: Bank
    cash: str
    receipts: str
    estate: str
    rule: str
    equity: str
    owes: Debts
    is_owed: Debts


def most_each(matter: Matter) -> int:
    """How many debts of one side stand in the part of a bank: all, unless the network passes the standard limits."""
    if len(matter.debts) <= LIMITS[STANDARD].debts:
        return len(matter.debts)
    return LEAST_EACH if len(matter.banks) > MOST_PARTS else max(LEAST_EACH, MOST_ROWS // len(matter.banks))


def with_parts(matter: Matter) -> Container[str]:
    """The banks that have a part: all, unless there are very many. Where nothing stays unpaid, it is those that owe and
    are owed most."""
    if len(matter.banks) <= MOST_PARTS:
        return matter.place
    owes: Dict[str, Tuple[int, int]] = {bank.name: (shortfall_of(bank), due_of(bank)) for bank in matter.banks}
    owed: Dict[str, Tuple[int, int]] = dict.fromkeys(owes, (0, 0))
    for debt in matter.debts:
        unpaid, claim = owed[debt.creditor]
        owed[debt.creditor] = unpaid + debt.claim - debt.paid, claim + debt.claim
    half = MOST_PARTS // 2
    return {name for side in (owes, owed) for name in sorted(side, key=lambda one: side[one], reverse=True)[:half]}


def largest_of(debts: Sequence[Payment], most: int) -> Tuple[List[Payment], List[Payment]]:
    """The debts of which most stays unpaid, then the largest, in file order; and the others."""
    if len(debts) <= most:
        return list(debts), []
    order = sorted(range(len(debts)), key=lambda at: (debts[at].paid - debts[at].claim, -debts[at].claim, at))
    largest = set(order[:most])
    return [debts[at] for at in sorted(largest)], [debt for at, debt in enumerate(debts) if at not in largest]


def debt_of(matter: Matter, other: Optional[str], class_: str, claim: int, paid: int) -> Debt:
    """A debt to the last unit."""
    number = matter.money.number
    return Debt(other, class_, number(claim), number(paid), number(claim - paid), paid < claim)


def sums_of(debts: Sequence[Payment]) -> Tuple[int, int]:
    """What some debts claim in all, and what is paid of it."""
    return sum(debt.claim for debt in debts), sum(debt.paid for debt in debts)


def debts_of(matter: Matter, debts: Sequence[Payment], side: int, outside: Tuple[int, int] = (0, 0)) -> Debts:
    """What a bank owes (side 1), or is owed (side 0), to the last unit; first what it owes outside, with what is paid
    of it."""
    largest, others = largest_of(debts, most_each(matter))
    rows = [debt_of(matter, None, "first", *outside)] if outside[0] else []
    for debt in largest:
        other = debt.creditor if side else debt.debtor
        rows.append(debt_of(matter, other, str(debt.class_), debt.claim, debt.paid))
    all_debts = debt_of(matter, None, "", *sums_of(debts))
    sums = all_debts.claim, all_debts.paid, all_debts.unpaid
    if not others:
        return Debts(rows, *sums)
    return Debts(rows, *sums, debt_of(matter, None, "", *sums_of(others)), len(others))


def part_of(matter: Matter, at: int, owes: Sequence[Payment], is_owed: Sequence[Payment]) -> Part:
    """The part of the page for the bank of a place, with what it owes and is owed."""
    bank, money = matter.banks[at], matter.money
    cash = matter.cash[bank.name]
    outside = outside_of(bank), bank.outside_paid
    return Part(
        place=at,
        bank=bank,
        cash=money(cash),
        receipts=money(bank.estate - cash),
        estate=money(bank.estate),
        rule=matter.rules[bank.name],
        equity=money(bank.equity),
        owes=debts_of(matter, owes, 1, outside),
        is_owed=debts_of(matter, is_owed, 0),
    )


def parts_of_banks(matter: Matter) -> Iterator[Part]:
    """The parts of the page for each bank that has one, in file order."""
    chosen = with_parts(matter)
    owes: Dict[str, List[Payment]] = {bank.name: [] for bank in matter.banks}
    is_owed: Dict[str, List[Payment]] = {bank.name: [] for bank in matter.banks}
    for debt in matter.debts:
        owes[debt.debtor].append(debt)
        is_owed[debt.creditor].append(debt)
    for at, bank in enumerate(matter.banks):
        if bank.name in chosen:
            yield part_of(matter, at, owes[bank.name], is_owed[bank.name])
