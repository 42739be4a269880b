"""Both ends where default costs: the least and the greatest payments that clear where a bank in default keeps a part
of its estate, by `clearing cost-bounds`. Amounts are whole units of account."""
from typing import List, NamedTuple, Optional, Sequence

from clearing_client.records import CostBound
from clearing_client.results import CostBounds
from clearing_client.table import Table

from ..texts import Bank, due_of, given_by
from .matter import Matter
from .program import Program
from .states import plain
from .words import counted, number_word

MOST_SHOWN = 12


class End(NamedTuple):
    """The banks in default, by own fundamentals and by contagion; and sums over all banks: what stays unpaid, what
    is lost of the estates of banks in default, and what is kept."""

    defaults: int
    fundamental: int
    contagion: int
    unpaid: int
    lost: int
    kept: int


class Costs(NamedTuple):
    """What a bank in default keeps, per mille; the sums as things are and at both ends; and how each bank stands at
    both."""

    keep: int
    base: End
    least: End
    greatest: End
    banks: Table[CostBound]


def costs_of(
    program: Program, files: Sequence[str], keep: Optional[int], banks: Sequence[Bank], cash: int
) -> Optional[Costs]:
    """Both ends where a bank in default keeps so much of its estate; nothing where that is not said. `cash` is all
    cash."""
    if keep is None:
        return None
    path = program.ask("cost-bounds.csv", "cost-bounds", *files, "--keep", str(keep))
    bounds = program.result("cost-bounds", CostBounds, path)
    due = sum(map(due_of, banks))
    states = [plain(bank.state) for bank in banks]
    base = end_of(states, due - sum(map(given_by, banks)), 0, sum(bank.equity for bank in banks))
    least, greatest = (end_at(bounds, which, due, cash) for which in ("least", "greatest"))
    return Costs(keep, base, least, greatest, bounds.standings)


def end_at(bounds: CostBounds, which: str, due: int, cash: int) -> End:
    """The sums at one end. All cash is kept, lost or paid outside."""
    lost, kept = (sum(bounds.standings.column(f"{word}_at_{which}")) for word in ("lost", "equity"))
    paid = sum(bounds.payments.column(which)) + cash - lost - kept
    return end_of(bounds.standings.column(f"state_at_{which}"), due - paid, lost, kept)


def end_of(states: List[str], unpaid: int, lost: int, kept: int) -> End:
    """The sums of banks in these states."""
    own, label = states.count("fundamental"), states.count("contagion")
    return End(sum(state != "sound" for state in states), own, label, unpaid, lost, kept)


def shown_of(costs: Costs) -> List[CostBound]:
    """The banks in default at some end, with costs: those that are so at one end alone first, then those that keep
    least of their estates."""
    fallen = [bank for bank in costs.banks if bank.state_at_least != "sound" or bank.state_at_greatest != "sound"]
    return sorted(
        fallen, key=lambda bank: (bank.state_at_greatest != "sound", -bank.lost_at_least, -bank.lost_at_greatest)
    )


def share_of(keep: int) -> str:
    """What is kept per mille, as a share."""
    return f"{keep / 10:g}%"


def sentence(matter: Matter) -> str:
    """How many banks fall at each end, what is lost of their estates, and how what stays unpaid changes."""
    costs = matter.costs
    if costs is None:
        return ""
    base, least, greatest = costs.base, costs.least, costs.greatest
    start = f"Where a bank in default keeps {share_of(costs.keep)} of its estate, "
    fallen = counted(least.defaults) if least.defaults else "no bank"
    falls = f"{fallen} {'defaults' if least.defaults < 2 else 'default'}"
    both = f"{lost_of(matter, least)}, and {unpaid_of(matter, base, least)}"
    if least == greatest:
        return f"{start}{falls}, at the least payments that clear and at the greatest; {both}."
    return (
        f"{start}{falls} at the least payments that clear, and {number_word(greatest.defaults)} at the"
        f" greatest. At the least {both};"
        f" at the greatest {lost_of(matter, greatest)}, and {unpaid_of(matter, base, greatest)}."
    )


def lost_of(matter: Matter, end: End) -> str:
    """What is lost of the estates at an end."""
    verb = matter.money.verb(end.lost, "is", "are")
    return f"{matter.amount(end.lost)} {verb} lost of estates" if end.lost else "nothing is lost of estates"


def unpaid_of(matter: Matter, base: End, end: End) -> str:
    """What stays unpaid at an end, against the clearing without costs."""
    if end.unpaid == base.unpaid:
        return "as much stays unpaid as without costs"
    more = "more" if end.unpaid > base.unpaid else "less"
    change = abs(end.unpaid - base.unpaid)
    return f"{matter.amount(change)} {more} {matter.money.verb(change, 'stays', 'stay')} unpaid than without costs"
