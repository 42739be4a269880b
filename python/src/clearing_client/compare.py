"""Two cases side by side: who falls and who is saved, and what each bank pays, keeps and owes more or less."""
from __future__ import annotations

from dataclasses import dataclass
from decimal import Decimal, localcontext
from typing import Dict, List, NamedTuple, Optional, Sequence, Union

from .case import Case
from .decimals import exact
from .errors import CaseError
from .network import Network
from .table import Table

CHANGES = ("falls", "saved", "label", "came", "went", "")
"""What may become of a bank: it defaults now, it is sound now, its default has another label, it is in the second case
alone, in the first alone, or nothing of that."""


class Difference(NamedTuple):
    """A bank of two cases: what became of it, its states, and what it pays, keeps and owes in both, in the currency
    where the cases say what a unit is worth. Amounts of a case that does not have the bank are None."""

    bank: str
    change: str
    state_before: str
    state_after: str
    paid_before: Optional[Decimal]
    paid_after: Optional[Decimal]
    kept_before: Optional[Decimal]
    kept_after: Optional[Decimal]
    owed_before: Optional[Decimal]
    owed_after: Optional[Decimal]

    def more(self, what: str) -> Decimal:
        """How much more of `paid`, `kept` or `owed` there is in the second case; less is below 0. A bank that is not
        there has 0."""
        before, after = getattr(self, f"{what}_before"), getattr(self, f"{what}_after")
        with localcontext(exact()):
            return (after or Decimal(0)) - (before or Decimal(0))


class Holding(NamedTuple):
    """How a bank stands, with amounts of the case."""

    state: str
    paid: Decimal
    kept: Decimal
    owed: Decimal


@dataclass(frozen=True)
class Comparison:
    """Two cases, a `Difference` for each bank of either: those of the first in its order, then those that came."""

    before: Case
    after: Case
    banks: Table[Difference]

    def of(self, change: str) -> List[str]:
        """The banks of a change, such as `falls`."""
        return [bank.bank for bank in self.banks if bank.change == change]

    def total(self, what: str) -> Decimal:
        """How much more of `paid`, `kept` or `owed` there is in all."""
        with localcontext(exact()):
            return sum((bank.more(what) for bank in self.banks), Decimal(0))


def compare(before: Union[Case, Network], after: Union[Case, Network]) -> Comparison:
    """Two cases side by side, two dates or before and after a measure. Fails with `CaseError` where they have two
    currencies.

    >>> net = Network({"A": 7, "B": 1, "C": 0}, {("A", "B"): 7, ("B", "C"): 8})
    >>> left = compare(net, net.with_cash({"A": 6}))
    >>> left.of("falls"), int(left.total("paid"))
    (['A', 'B'], -2)
    """
    first, second = as_case(before), as_case(after)
    check_currencies([first, second])
    one, other = holdings_of(first), holdings_of(second)
    records = [difference_of(bank, one.get(bank), other.get(bank)) for bank in dict.fromkeys([*one, *other])]
    return Comparison(first, second, Table.of(Difference, records))


def check_currencies(cases: Sequence[Case]) -> None:
    """Refuses cases whose amounts are in several currencies, and cannot be put side by side."""
    currencies = list(dict.fromkeys(case.currency for case in cases if case.currency))
    if len(currencies) > 1:
        raise CaseError("", "clearing.currency", f"the cases are in {' and '.join(currencies)}")


def as_case(one: Union[Case, Network]) -> Case:
    """A case of a network, or itself."""
    return Case(one) if isinstance(one, Network) else one


def holdings_of(case: Case) -> Dict[str, Holding]:
    """How the banks of a case stand."""
    outside = {bank.name: bank.outside for bank in case.network.banks}
    holdings = {}
    for bank in case.network.defaults().standings:
        paid, owed = bank.paid + bank.outside_paid, bank.owed + outside[bank.bank]
        holdings[bank.bank] = Holding(bank.state, case.amount(paid), case.amount(bank.equity), case.amount(owed))
    return holdings


def difference_of(bank: str, one: Optional[Holding], other: Optional[Holding]) -> Difference:
    """What became of a bank."""
    state, now = one.state if one else "", other.state if other else ""
    pairs = [(getattr(one, what, None), getattr(other, what, None)) for what in ("paid", "kept", "owed")]
    (paid, paid_now), (kept, kept_now), (owed, owed_now) = pairs
    return Difference(bank, change_of(state, now), state, now, paid, paid_now, kept, kept_now, owed, owed_now)


def change_of(state: str, now: str) -> str:
    """What became of a bank by its states, which are empty where it is not there."""
    if not state or not now:
        return "came" if now else "went"
    if state == now:
        return ""
    return "falls" if state == "sound" else "saved" if now == "sound" else "label"
