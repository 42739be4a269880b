"""The rows of what is said of scenarios: things as they are, and each scenario, with what stays unpaid and what all
keep less."""
from typing import Dict, List, NamedTuple, Optional, Sequence

from ...labels import shown
from ...texts import Bank, shortfall_of
from ..matter import Matter
from ..records import Scenario

MOST = 8  # scenarios that are drawn
SEGMENTS = 4  # banks that have a part of a bar of their own
AS_THINGS_ARE = "as things are"


class Case(NamedTuple):
    """A row: a scenario or things as they are, what each bank leaves unpaid, and what each keeps less than as things
    are."""

    name: str
    unpaid: Dict[str, int]
    less: Dict[str, int]
    banks: List[Bank]
    cash: int

    @property
    def total(self) -> int:
        """What stays unpaid in all."""
        return sum(self.unpaid.values())


def case_of(matter: Matter, scenario: Optional[Scenario]) -> Case:
    """A row of the chart. What all keep less is the cash that is gone, since clearing moves money and makes none."""
    banks = matter.banks if scenario is None else scenario.banks
    unpaid = {bank.name: shortfall_of(bank) for bank in banks}
    less = {bank.name: matter.by_name[bank.name].equity - bank.equity for bank in banks}
    gone = 0 if scenario is None else matter.all_cash - scenario.left
    return Case(AS_THINGS_ARE if scenario is None else shown(scenario.name), unpaid, less, banks, gone)


def cases_of(matter: Matter) -> List[Case]:
    """All rows: things as they are, then the scenarios, in file order."""
    return [case_of(matter, None), *(case_of(matter, scenario) for scenario in matter.scenarios or [])]


def shown_of(cases: List[Case]) -> List[Case]:
    """The rows that are drawn: as things are, and the scenarios of which most stays unpaid, the least first."""
    first, *rest = cases
    worst = sorted(rest, key=lambda case: (case.total, case.cash))[-MOST:]
    return [first, *worst]


def leading(cases: Sequence[Case]) -> List[str]:
    """The banks that have a part of a bar of their own: those that leave most unpaid over all rows."""
    sums: Dict[str, int] = {}
    for case in cases:
        for name, unpaid in case.unpaid.items():
            sums[name] = sums.get(name, 0) + unpaid
    order = sorted((name for name in sums if sums[name]), key=lambda name: (-cases[0].unpaid[name], -sums[name]))
    return order[:SEGMENTS] if len(order) <= SEGMENTS + 1 else sorted(order, key=lambda name: -sums[name])[:SEGMENTS]
