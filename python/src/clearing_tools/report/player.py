"""What the player of a journal needs, in the page and at the desk."""
from typing import Callable, Dict, List, Mapping, Optional, Protocol, Sequence

from clearing_client.records import Payment

from .. import labels
from ..drawing.curves import LEAST_WIDTH, MOST_WIDTH
from ..drawing.drawn import Drawn
from ..fullnames import FullNames
from ..money import Money
from ..texts import Bank
from .journal import Frame
from .bank_table import outside_of

OUTSIDE, BLOCK = -2, -1
"""What stands for the place of a flow's creditor: the world outside, and all banks of a block."""


class Played(Protocol):
    """What is played, as a report has it: the banks and the debts, the cash and the full names of banks, and the frames
    of the journal; without any the page has no player."""

    @property
    def money(self) -> Money:
        """How amounts are written."""

    @property
    def banks(self) -> Sequence[Bank]:
        """The banks, in file order."""

    @property
    def place(self) -> Mapping[str, int]:
        """The place of each bank by its name."""

    @property
    def cash(self) -> Mapping[str, int]:
        """The cash of each bank by its name."""

    @property
    def debts(self) -> Sequence[Payment]:
        """The debts, in file order."""

    @property
    def names(self) -> FullNames:
        """The full names of banks."""

    @property
    def frames(self) -> Optional[List[Frame]]:
        """The steps of the journal."""


def data_of(played: Played, drawn: Drawn) -> Dict[str, object]:
    """The data for the script of the player. Banks, debts and flows are told by their places."""
    place = played.place
    ends = [
        [place.get(flow.debtor, BLOCK), OUTSIDE if flow.creditor is None else place.get(flow.creditor, BLOCK)]
        for flow in drawn.flows
    ]
    flows = [[*pair, flow.claim, flow.paid] for pair, flow in zip(ends, drawn.flows)]
    data: Dict[str, object] = dict(flows=flows, frames=played.frames)
    # Where nothing is played, of a million debts none is needed.
    debts = {} if played.frames is None else debts_of(played, drawn)
    return {**names_of(played), **money_of(played.money), **data, **debts}


def names_of(played: Played) -> Dict[str, object]:
    """What the banks are called, and how they stand."""
    names = [labels.shown(bank.name) for bank in played.banks]
    full = [labels.shown(played.names.of(bank.name)) for bank in played.banks]
    return {
        "names": names,
        "hidden": {at: bank.name for at, bank in enumerate(played.banks) if names[at] != bank.name},
        "full": {at: name for at, name in enumerate(full) if name},
        "state": [bank.state for bank in played.banks],
    }


def money_of(money: Money) -> Dict[str, object]:
    """How amounts are written."""
    unit = 1 if money.unit is None else money.unit
    return {
        "mantissa": str(int(unit * 10**money.places)),
        "places": money.places,
        "currency": money.currency,
        "bare": money.unit is None,
    }


def debts_of(played: Played, drawn: Drawn) -> Dict[str, object]:
    """The accounts of banks, the debts, and in which flow of the drawing each is."""
    flow_of = flow_finder(drawn)
    outside = [outside_of(bank) for bank in played.banks]
    place = played.place
    return {
        "cash": [played.cash[bank.name] for bank in played.banks],
        "owed": [bank.owed for bank in played.banks],
        "outside": outside,
        "outsideFlow": [flow_of(bank.name, None) if units else -1 for bank, units in zip(played.banks, outside)],
        "debts": [
            part
            for debt in played.debts
            for part in (place[debt.debtor], place[debt.creditor], debt.class_, debt.claim)
        ],
        "flowOf": [flow_of(debt.debtor, debt.creditor) for debt in played.debts],
        "mostUnpaid": drawn.most,
        "widths": [LEAST_WIDTH, MOST_WIDTH],
    }


def flow_finder(drawn: Drawn) -> Callable[[str, Optional[str]], int]:
    """What finds the flow of a drawing in which a debtor pays a creditor, or the world outside."""
    flows = drawn.flow_at()
    return lambda debtor, creditor: flows[drawn.rows[debtor], None if creditor is None else drawn.columns[creditor]]
