"""The picture of the report: who leaves what unpaid to whom."""
from operator import attrgetter
from typing import Dict, List, NamedTuple, Tuple

from ...drawing import network
from ...drawing.drawn import Drawn, unpaid_on
from ...drawing.ring import MOST_AMOUNTS
from ...money import Scale
from ...texts import Bank, Flow, flows_of, shortfall_of
from ..matter import Matter
from ..words import counted
from .figure import Data

MOST_IN_LIST, MOST_NAMES = 12, 4  # banks of the list, and creditors that are named at each
MOST_ROWS = 20_000
"""So many flows stand by themselves among the numbers of the picture."""
CLAIM, PAID = attrgetter("claim"), attrgetter("paid")


class Owing(NamedTuple):
    """A bank of the list that phones have in place of the picture: its name, state and amount, its share of the
    largest in hundredths, and to whom."""

    name: str
    state: str
    amount: str
    share: float
    whom: str


class Picture(NamedTuple):
    """The picture: the drawing, whether it is a ring, its message and unit, the list, and its numbers."""

    drawn: Drawn
    form: str
    title: str
    unit: str
    owing: List[Owing]
    rest: str
    data: Data


def title_of(matter: Matter) -> str:
    """The message: who leaves the most unpaid."""
    if not matter.unpaid:
        return "All that is owed is paid"
    first = matter.fallen[0]
    if len(matter.fallen) == 1:
        return f"{matter.in_sentence(first.name)} alone leaves debts unpaid, {matter.amount(matter.unpaid)}"
    return (
        f"{matter.in_sentence(first.name)} leaves the most unpaid, {matter.amount(shortfall_of(first))} of"
        f" {matter.amount(matter.unpaid)}"
    )


def whom(matter: Matter, flows: List[Flow], scale: Scale) -> str:
    """To whom a bank leaves something unpaid, the most first."""
    if not flows:
        return "what it owes outside"
    named = [
        f"{'outside' if flow.creditor is None else matter.in_sentence(flow.creditor)} {scale.number(unpaid_on(flow))}"
        for flow in flows[:MOST_NAMES]
    ]
    more = f" and {len(flows) - MOST_NAMES:,} more" if len(flows) > MOST_NAMES else ""
    return f"to {', '.join(named)}{more}"


def owing_of(matter: Matter, flows: List[Flow], scale: Scale) -> Tuple[List[Owing], str]:
    """The banks that leave most unpaid, each with its creditors; and how many more there are."""
    unpaid: Dict[str, List[Flow]] = {}
    for flow in sorted(filter(unpaid_on, flows), key=lambda flow: -unpaid_on(flow)):
        unpaid.setdefault(flow.debtor, []).append(flow)
    most = shortfall_of(matter.fallen[0]) if matter.fallen else 0
    owing = []
    for bank in matter.fallen[:MOST_IN_LIST]:
        short = shortfall_of(bank)
        share, words = 100 * short / most if most else 0.0, whom(matter, unpaid.get(bank.name, []), scale)
        owing.append(Owing(bank.name, bank.state, scale.number(short), share, words))
    left = len(matter.fallen) - len(owing)
    return owing, f"{counted(left, 'other')} in default: in the table of banks." if left else ""


def rows_of(flows: List[Flow]) -> List[Tuple[str, str, int, int, int]]:
    """The flows as numbers; where they are very many, those of which most stays unpaid, and the others as one."""
    largest = flows
    if len(flows) > MOST_ROWS:
        largest = sorted(flows, key=lambda flow: (-unpaid_on(flow), -flow.claim))[:MOST_ROWS]
    rows = [(flow.debtor, flow.creditor or "outside", flow.claim, flow.paid, unpaid_on(flow)) for flow in largest]
    if largest is flows:
        return rows
    claim, paid = (sum(map(of, flows)) - sum(map(of, largest)) for of in (CLAIM, PAID))
    return [*rows, ("all others", "all others", claim, paid, claim - paid)]


def picture_of(matter: Matter) -> Picture:
    """The picture of the network."""

    def link(bank: Bank) -> str:
        return f"bank-{matter.place[bank.name]}"

    flows = flows_of(matter.debts, matter.banks)
    form = "graph" if network.is_small(matter.banks) else "matrix"
    drawn = network.drawing_of(flows, matter.banks, matter.money, form, link, matter.marked)
    scale = network.scale_for(flows, matter.banks, matter.money)
    is_part = form == "graph" and sum(map(bool, map(unpaid_on, flows))) > MOST_AMOUNTS
    unit = scale.words + ("; the ten largest amounts are written" if is_part else "")
    data = Data(("debtor", "creditor", "claim", "paid", "unpaid"), rows_of(flows))
    return Picture(drawn, form, title_of(matter), unit, *owing_of(matter, flows, scale), data)
