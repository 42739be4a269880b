"""Figures that one unit decides: how each bank is where a unit is worth twice or half as much.

Amounts are whole units, and rules round to them. Where a bank is in another state at twice or half the unit, or begins
or ceases to keep anything, what is said of it is within the rounding of a unit. Whatever shows a figure of such a bank
shows `NOTE` beside it, or `MARK`, and what it means once, as `WHY` has it. Half the unit is tried where amounts twice
as large are within the wide limits; else twice the unit is tried alone."""
from __future__ import annotations

from typing import Callable, Dict, List, Mapping, NamedTuple, Optional, Sequence, Union

from .case import Case
from .compare import as_case
from .format import MAX_CASH, MAX_CLAIM, MAX_OUTSIDE
from .limits import MOST, WIDE
from .network import Network
from .records import Bank, Debt

MARK = "≈"
NOTE = "one unit decides"
WHY = (
    "One unit decides: where a unit is worth twice or half as much, the bank is in another state, or begins or ceases "
    "to keep anything. What is said of it is within the rounding of a unit."
)
UNIT_VARIATIONS = ("unit x2", "unit /2")
"""The variations by which a figure of few units is told."""


class Place(NamedTuple):
    """How a bank is: its state, and whether it keeps anything."""

    state: str
    keeps: bool

    def words(self) -> str:
        """The place in words: a sound bank that keeps nothing is at the edge."""
        return self.state if self.state != "sound" or self.keeps else "sound at 0"


Places = Mapping[str, Place]
"""How banks are, by their names."""


def unsteady(one: Union[Case, Network], here: Optional[Places] = None) -> List[str]:
    """The banks of a case or a network that one unit decides, in file order. `here` is how they are, where that is
    known already, so that the network is not cleared again for it.

    >>> unsteady(Network({"A": 1, "B": 1, "C": 0}, {("A", "B"): 1, ("B", "C"): 2}))
    ['B', 'C']
    >>> unsteady(Network({"A": 100, "B": 100, "C": 0}, {("A", "B"): 100, ("B", "C"): 200}))
    []
    """
    network = as_case(one).network
    return decided_by_one(here or places_of(network), [places_of(net) for net in other_units(network).values()])


def decided_by_one(here: Places, others: Sequence[Places]) -> List[str]:
    """The banks that are otherwise in one of some answers in other units."""
    return [bank for bank, place in here.items() if any(places[bank] != place for places in others)]


def places_of(network: Network) -> Dict[str, Place]:
    """How the banks are at the least payments."""
    return {one.bank: Place(one.state, one.equity > 0) for one in network.defaults(workers=1).standings}


def other_units(network: Network) -> Dict[str, Network]:
    """The network where a unit is worth twice as much (amounts halved, to the nearest, a half to even), and half as
    much where the wide limits let, by which it is then read if it needs them."""
    banks, debts = list(network.banks), list(network.debts)
    units = {"unit x2": network._alike(scaled(banks, debts, half))}
    if within_limits(banks, debts, 2):
        net = network._alike(scaled(banks, debts, lambda units: 2 * units))
        units["unit /2"] = net._by_limits(WIDE) if net._beyond else net
    return units


def half(units: int) -> int:
    """Half of some units, to the nearest, and to the even one of two."""
    whole, odd = divmod(units, 2)
    return whole + (odd and whole % 2)


def scaled(banks: List[Bank], debts: List[Debt], scale: Callable[[int], int]) -> Network:
    """The network in another unit."""
    return Network(
        [bank._replace(cash=scale(bank.cash), outside=scale(bank.outside)) for bank in banks],
        [debt._replace(claim=scale(debt.claim)) for debt in debts],
    )


def within_limits(banks: List[Bank], debts: List[Debt], times: int) -> bool:
    """Whether all amounts so many times as large are within the wide limits."""
    is_bank = all(times * bank.cash <= MAX_CASH and times * bank.outside <= MAX_OUTSIDE for bank in banks)
    claims = [debt.claim for debt in debts]
    return is_bank and times * max(claims, default=0) <= MAX_CLAIM and times * sum(claims) <= MOST.owed
