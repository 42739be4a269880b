"""What all drawings of the network share: what is drawn, how it says amounts, debts and banks, and its legend."""
from typing import Callable, Dict, List, NamedTuple, Optional, Sequence, Tuple

from ..labels import say_bank, say_flow
from ..money import Money, Scale
from ..texts import Bank, Flow
from . import svg

Say = Callable[[str], str]
"""What a bank of a name is called."""
Link = Optional[Callable[[Bank], str]]
"""What a bank links to in the page; nothing where there is no page."""
Legend = List[Tuple[str, str]]
"""A sample, and its words."""


class Drawn(NamedTuple):
    """A drawing of the network: its elements, the box that it fills, its legend, and the
    flows that it has by their numbers. Flows of many banks may be drawn as one: `rows` tell as whose flow a debtor's
    is drawn, `columns` a creditor's. `most` is what the widest line or the largest area stands for."""

    body: str
    box: List[float]
    legend: Legend
    flows: List[Flow]
    rows: Dict[str, str]
    columns: Dict[str, str]
    most: int = 0

    def flow_at(self) -> Dict[Tuple[str, Optional[str]], int]:
        """The numbers of the flows by whose they are drawn."""
        return {(flow.debtor, flow.creditor): at for at, flow in enumerate(self.flows)}


def unpaid_on(flow: Flow) -> int:
    """What stays unpaid of a flow."""
    return flow.claim - flow.paid


class Speech(NamedTuple):
    """How a drawing says things: amounts to the last unit and in its scale, what banks are called, and what they link
    to."""

    money: Money
    scale: Scale
    link: Link = None
    say: Say = str

    def flow(self, flow: Flow) -> str:
        """A debt in a line, with what its banks are called."""
        creditor = None if flow.creditor is None else self.say(flow.creditor)
        return say_flow(flow._replace(debtor=self.say(flow.debtor), creditor=creditor), self.money)

    def node(self, bank: Bank, body: str) -> str:
        """The elements of a bank, with how it stands on pointing; a link where there is something to link to."""
        title = svg.title_of(say_bank(bank._replace(name=self.say(bank.name)), self.money))
        target = self.link(bank) if self.link else ""
        if not target:
            return svg.element("g", {}, title, body)
        return svg.element("a", {"href": f"#{target}", "data-bank": target.removeprefix("bank-")}, title, body)


# The legend.


STATES_SAID = {
    "fundamental": "default, own fundamentals: could not pay even if all its debtors paid",
    "contagion": "default, label contagion: could then pay",
    "gridlock": "default, label contagion, gridlock: pays at the greatest payments",
    "sound": "sound: pays all it owes",
}


def sample(body: str, width: int = 28) -> str:
    """A sample of the legend."""
    box: svg.Attributes = {"class": "ico", "viewBox": f"0 0 {width} {svg.MARK}", "width": width, "height": svg.MARK}
    return svg.element("svg", {**box, "aria-hidden": "true"}, body)


def states_in(banks: Sequence[Bank]) -> Legend:
    """The states of the legend, those that there are."""
    middle = svg.MARK / 2
    return [
        (sample(svg.mark(state, middle, middle), svg.MARK), words)
        for state, words in STATES_SAID.items()
        if any(bank.state == state for bank in banks)
    ]
