"""Many networks, one answer: what a task says of each bank over networks that may all be the true one, or over
dates."""
from __future__ import annotations

from collections import Counter
from concurrent.futures import ThreadPoolExecutor
from dataclasses import dataclass
from decimal import Decimal
from typing import Callable, Dict, Iterable, List, NamedTuple, Optional, Sequence, Tuple, Union

from .case import Case
from .compare import as_case, check_currencies
from .errors import CaseError
from .network import Network
from .program import processors
from .steady import Place, unsteady
from .table import Table

Numbers = Dict[str, Dict[str, Decimal]]
"""Numbers of a bank by what they are."""


class Spread(NamedTuple):
    """How a number of a bank is spread over the networks that have the bank: the least, the quartiles, each a number
    that comes about, and the greatest. Amounts are in the currency where the cases say what a unit is worth."""

    task: str
    bank: str
    number: str
    networks: int
    least: Decimal
    lower: Decimal
    median: Decimal
    upper: Decimal
    greatest: Decimal


class Share(NamedTuple):
    """In how many of the networks that have a bank it is in default, in how many by its own fundamentals, and in how
    many one unit decides (of the task `defaults` alone, 0 of others)."""

    task: str
    bank: str
    defaults: int
    fundamental: int
    networks: int
    unsteady: int = 0

    def sentence(self, called: str = "") -> str:
        """The share in words, with what the bank is called in place of its name."""
        sentence = f"{called or self.bank} defaults in {self.defaults:,} of {self.networks:,} networks"
        return sentence + (f"; one unit decides in {self.unsteady:,}" if self.unsteady else "")


class Answer(NamedTuple):
    """What a task says of a network: numbers of each bank, its state where the task has one, and the banks that one
    unit decides, where that is asked."""

    numbers: Numbers
    states: Dict[str, str]
    unsteady: Sequence[str] = ()


@dataclass(frozen=True)
class Ensemble:
    """What tasks say over many networks: how numbers are spread, and who defaults in how many."""

    spreads: Table[Spread]
    shares: Table[Share]


def of_defaults(case: Case, keep: Optional[int]) -> Answer:
    """What each bank pays and keeps."""
    standings = case.network.defaults(workers=1).standings
    numbers = {
        one.bank: {"paid": case.amount(one.paid + one.outside_paid), "kept": case.amount(one.equity)}
        for one in standings
    }
    places = {one.bank: Place(one.state, one.equity > 0) for one in standings}
    return Answer(numbers, {one.bank: one.state for one in standings}, unsteady(case, places))


def of_costs(case: Case, keep: Optional[int]) -> Answer:
    """What each bank pays, keeps and wastes where default costs."""
    per_mille = keep if keep is not None else case.keep
    if per_mille is None:
        raise CaseError("", "clearing.keep", "it says what default keeps for the task costs; say it")
    standings = case.network.costs(per_mille).standings
    numbers = {one.bank: {"kept": case.amount(one.equity), "lost": case.amount(one.lost)} for one in standings}
    return Answer(numbers, {one.bank: one.state for one in standings})


def of_breaking(case: Case, keep: Optional[int]) -> Answer:
    """The cut at which each bank breaks, per mille."""
    cuts = case.network.breaking().cuts
    return Answer({one.bank: {"cut": Decimal(one.cut)} for one in cuts}, {})


def of_impact(case: Case, keep: Optional[int]) -> Answer:
    """What the ruin of each bank costs itself and others, and how many others fall."""
    banks = case.network.impact().banks
    return Answer(
        {
            one.bank: {"own": case.amount(one.own), "others": case.amount(one.others), "falls": Decimal(one.falls)}
            for one in banks
        },
        {},
    )


def of_rescues(case: Case, keep: Optional[int]) -> Answer:
    """The least cash that saves each bank, 0 where it is sound, and how many others that saves."""
    numbers = {one.name: {"added": Decimal(0), "also_saved": Decimal(0)} for one in case.network.banks}
    for one in case.network.rescues().banks:
        numbers[one.bank] = {"added": case.amount(one.added), "also_saved": Decimal(one.also_saved)}
    return Answer(numbers, {})


TASKS: Dict[str, Callable[[Case, Optional[int]], Answer]] = {
    "defaults": of_defaults,
    "costs": of_costs,
    "breaking": of_breaking,
    "impact": of_impact,
    "rescues": of_rescues,
}
"""The tasks that may be asked over many networks."""


def ensemble(
    cases: Iterable[Union[Case, Network]], tasks: Union[str, Sequence[str]] = "defaults", keep: Optional[int] = None
) -> Ensemble:
    """What tasks (`defaults`, `costs`, `breaking`, `impact`, `rescues`) say over many networks, run side by side. Fails
    with `CaseError` where the cases are in several currencies.

    >>> nets = [Network({"A": cash, "B": 0}, {("A", "B"): 10}) for cash in (8, 9, 10)]
    >>> done = ensemble(nets)
    >>> done.shares[0].sentence()
    'A defaults in 2 of 3 networks'
    >>> [int(one.median) for one in done.spreads if (one.bank, one.number) == ("A", "paid")]
    [9]
    """
    task_names = [tasks] if isinstance(tasks, str) else list(tasks)
    cases_given = [as_case(one) for one in cases]
    for task in task_names:
        if task not in TASKS:
            raise ValueError(f"{task!r} is not one of {', '.join(TASKS)}")
    if not cases_given:
        raise ValueError("there is no network")
    check_currencies(cases_given)
    spreads: List[Spread] = []
    shares: List[Share] = []
    with ThreadPoolExecutor(processors()) as pool:
        for task in task_names:
            answers = list(pool.map(lambda case: TASKS[task](case, keep), cases_given))
            spreads += spreads_of(task, [answer.numbers for answer in answers])
            shares += shares_of(task, answers)
    return Ensemble(Table.of(Spread, spreads), Table.of(Share, shares))


def spreads_of(task: str, answers: Sequence[Numbers]) -> List[Spread]:
    """How the numbers of each bank are spread, in the order in which the banks come."""
    by_bank: Dict[Tuple[str, str], List[Decimal]] = {}
    for numbers in answers:
        for bank, by_number in numbers.items():
            for number, value in by_number.items():
                by_bank.setdefault((bank, number), []).append(value)
    return [Spread(task, bank, number, len(values), *five_of(values)) for (bank, number), values in by_bank.items()]


def five_of(values: Sequence[Decimal]) -> Tuple[Decimal, Decimal, Decimal, Decimal, Decimal]:
    """The least, the three quartiles and the greatest of some numbers, each one of them."""
    ordered = sorted(values)
    low, middle, high = (ordered[-(-len(ordered) * part // 4) - 1] for part in (1, 2, 3))
    return ordered[0], low, middle, high, ordered[-1]


def shares_of(task: str, answers: Sequence[Answer]) -> List[Share]:
    """In how many networks each bank defaults, those that default most first."""
    by_bank: Dict[str, List[str]] = {}
    for answer in answers:
        for bank, state in answer.states.items():
            by_bank.setdefault(bank, []).append(state)
    undecided = Counter(bank for answer in answers for bank in answer.unsteady)
    shares = []
    for bank, states in by_bank.items():
        fallen = len(states) - states.count("sound")
        shares.append(Share(task, bank, fallen, states.count("fundamental"), len(states), undecided[bank]))
    return sorted(shares, key=lambda share: -share.defaults)
