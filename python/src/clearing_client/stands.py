"""Whether an answer stands: how each bank is where what the model leaves open is varied."""
from __future__ import annotations

from concurrent.futures import ThreadPoolExecutor
from dataclasses import dataclass
from functools import partial
from typing import Callable, Dict, List, Optional, Tuple, Union

from .case import Case
from .compare import as_case
from .format import MAX_CLAIM
from .network import Network
from .program import processors
from .records import Debt
from .steady import UNIT_VARIATIONS, Place, decided_by_one, other_units, places_of

KEEPS = (950, 900, 800)
"""What default keeps in the variations, per mille; 1000 is the answer as it is."""


@dataclass(frozen=True)
class Stands:
    """How each bank is in each variation. `banks` has a dict of variations for each bank, by their names; the first is
    `as it is`."""

    variations: Tuple[str, ...]
    banks: Dict[str, Dict[str, Place]]

    @property
    def changed(self) -> List[str]:
        """The banks that change their state, or begin or cease to keep anything, in any variation."""
        return [bank for bank, places in self.banks.items() if len(set(places.values())) > 1]

    @property
    def unsteady(self) -> List[str]:
        """The banks that are otherwise where a unit is worth twice or half as much: their figures are of the size of a
        unit."""
        here, *others = (
            {bank: places[name] for bank, places in self.banks.items()}
            for name in (self.variations[0], *UNIT_VARIATIONS)
            if name in self.variations
        )
        return decided_by_one(here, others)


Ask = Callable[[], Dict[str, Place]]


def stands(one: Union[Case, Network]) -> Stands:
    """How each bank is as it is, and in these variations: a unit worth twice as much (amounts halved, to the nearest,
    a half to even), and half as much where the wide limits let; the debts in reversed order; `webster` for all; one
    class, where the limits let; default that keeps 950, 900 and 800 per mille; and the greatest payments in place of
    the least.

    >>> found = stands(Network({"A": 3, "B": 0}, {("A", "B"): 3}))
    >>> found.unsteady, [places.words() for places in found.banks["A"].values()][:2]
    ([], ['sound at 0', 'sound at 0'])
    """
    network = as_case(one).network
    variations = variations_of(network)
    with ThreadPoolExecutor(processors()) as pool:
        answers = list(pool.map(answered, variations.values()))
    names: List[str] = network.banks.column("name")
    banks = {name: {what: answer[name] for what, answer in zip(variations, answers)} for name in names}
    return Stands(tuple(variations), banks)


def answered(ask: Ask) -> Dict[str, Place]:
    """What is asked, done."""
    return ask()


def variations_of(network: Network) -> Dict[str, Ask]:
    """What is asked in each variation, by its name."""
    banks, debts = list(network.banks), list(network.debts)
    changed = {
        "debts reversed": Network(banks, debts[::-1]),
        "all webster": Network([bank._replace(rule="webster") for bank in banks], debts),
    }
    if (single := in_one_class(debts)) is not None:
        changed["one class"] = Network(banks, single)
    networks = {"as it is": network, **other_units(network)}
    networks.update((name, network._alike(net)) for name, net in changed.items())
    questions: Dict[str, Ask] = {name: partial(places_of, net) for name, net in networks.items()}
    for keep in KEEPS:
        questions[f"keeps {keep}"] = partial(places_with_costs, network, keep)
    questions["greatest"] = partial(places_at_greatest, network)
    return questions


def in_one_class(debts: List[Debt]) -> Optional[List[Debt]]:
    """All debts in class 1, those of two banks together; None where two together are more than the most."""
    claims: Dict[Tuple[str, str], int] = {}
    for debt in debts:
        key = (debt.debtor, debt.creditor)
        claims[key] = claims.get(key, 0) + debt.claim
    if max(claims.values(), default=0) > MAX_CLAIM:
        return None
    return [Debt(debtor, creditor, 1, claim) for (debtor, creditor), claim in claims.items()]


def places_with_costs(network: Network, keep: int) -> Dict[str, Place]:
    """How the banks are where default costs."""
    return {one.bank: Place(one.state, one.equity > 0) for one in network.costs(keep).standings}


def places_at_greatest(network: Network) -> Dict[str, Place]:
    """How the banks are at the greatest payments: a bank that does not fall on the way down is sound there."""
    states = {one.bank: one.state for one in network.defaults(workers=1).standings}
    waves = network.bounds(workers=1).waves
    return {one.bank: Place(states[one.bank] if one.wave else "sound", one.equity > 0) for one in waves}
