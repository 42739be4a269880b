"""What the page is sent: the network, a state as the program clears it, and a bank with its debts and its account. All
amounts are the program's, in units of account."""
from decimal import Decimal
from typing import Dict, List, Mapping, NamedTuple, Sequence, Tuple

from clearing_client.format import RULES
from clearing_client.records import Payment

from .. import runner, texts
from ..drawing import network
from ..drawing.drawn import Drawn
from ..fullnames import FullNames
from ..money import Money
from ..report import journal, player
from . import account
from . import state as states
from .runs import Cleared, Desk, Place
from .state import Base, State
from .steps import Kept


def network_view(desk: Desk, others: Sequence[Desk]) -> Dict[str, object]:
    """What stays as it is while the desk is there. Names that are shown have signs that are not seen as codes."""
    base, case = desk.base, desk.case
    return {
        "names": [bank.name for bank in base.banks],
        "codes": [runner.shown(bank.name) for bank in base.banks],
        "shown": short_names(desk),
        "labels": [runner.shown(desk.full.of(bank.name)) for bank in base.banks],
        "groups": [runner.shown(case.label(bank.name).group) for bank in base.banks],
        "debtors": places_of(desk, 0),
        "creditors": places_of(desk, 1),
        "claims": [debt.claim for debt in base.debts],
        "scenarios": scenarios_view(desk),
        "rules": list(RULES),
        "program": program_called(),
        "title": runner.shown(case.title),
        "asOf": case.as_of.isoformat() if case.as_of else "",
        "test": case.test or "",
        "unit": f"{desk.money.unit or Decimal(1):f}",
        "currency": desk.money.currency or "",
        "hasUnit": desk.money.unit is not None or desk.money.currency is not None,
        "notes": [runner.shown(note) for note in case.notes],
        "others": [other_view(other) for other in others],
    }


def program_called() -> str:
    """What the program is called, with its version where that is known."""
    return f"clearing {runner.version()}".strip()


def short_names(desk: Desk) -> List[str]:
    """What the banks are called in pictures and sentences: by their short labels, where no two are called the same,
    else by their full names, as in the report."""
    full = [desk.full(bank.name) for bank in desk.base.banks]
    short = [desk.case.label(bank.name).short or name for bank, name in zip(desk.base.banks, full)]
    return [runner.shown(name) for name in (short if len(set(short)) == len(short) else full)]


def other_view(desk: Desk) -> Dict[str, object]:
    """Another case, which states can be held against: the names of its banks, and what it is called."""
    return {
        "title": runner.shown(desk.case.title) or "another case",
        "asOf": desk.case.as_of.isoformat() if desk.case.as_of else "",
        "names": [bank.name for bank in desk.base.banks],
        "shown": [runner.shown(desk.full(bank.name)) for bank in desk.base.banks],
        "debtors": places_of(desk, 0),
        "creditors": places_of(desk, 1),
        "claims": [debt.claim for debt in desk.base.debts],
    }


def places_of(desk: Desk, side: int) -> List[int]:
    """The place of each debt's debtor, or of its creditor."""
    places = states.names_of(desk.base)
    return [places[debt.creditor if side else debt.debtor] for debt in desk.base.debts]


def scenarios_view(desk: Desk) -> List[Dict[str, object]]:
    """The scenarios of the file, and behind them those that were built here."""
    return [
        {
            "name": runner.shown(one.name),
            "cut": one.cut,
            "losses": sorted(one.losses.items()),
            "isBuilt": at >= desk.given,
        }
        for at, one in enumerate(desk.base.scenarios)
    ]


def state_view(desk: Desk, state: State, cleared: Cleared) -> Dict[str, object]:
    """A state: what was changed, and a list over the banks for each thing that the program says of them."""
    base = desk.base
    rows = [states.row_of(base, state, place) for place in range(len(base.banks))]
    scenario = states.as_scenario(base, state, cleared.left)
    is_whole = len(cleared.keys) == len(base.debts) and not state.added and None not in state.claims.values()
    return {
        "cut": int(state.cut),
        "keep": int(state.keep),
        "scenario": state.scenario,
        "losses": [list(pair) for pair in state.losses],
        "cash": [int(row[0]) for row in rows],
        "rule": [row[1] for row in rows],
        "outside": [int(row[2]) for row in rows],
        "left": cleared.left,
        "owed": [bank.owed for bank in cleared.banks],
        **end_view(cleared.banks, cleared.lost),
        "greatest": end_view(*cleared.greatest) if cleared.greatest is not None else None,
        # What is paid of each debt; the keys of the debts where they are not those of the files in order.
        "keys": None if is_whole else cleared.keys,
        "flows": cleared.payments.column("paid"),
        "changedDebts": changed_debts(base, state),
        "isScenario": scenario is not None,
    }


def end_view(banks: Sequence[texts.Bank], lost: Sequence[int]) -> Dict[str, object]:
    """How the banks stand at the payments of one end: a list over them for each thing."""
    return {
        "estate": [bank.estate for bank in banks],
        "lost": list(lost),
        "paid": [bank.paid for bank in banks],
        "outsidePaid": [bank.outside_paid for bank in banks],
        "equity": [bank.equity for bank in banks],
        "state": [bank.state for bank in banks],
    }


def changed_debts(base: Base, state: State) -> List[List[object]]:
    """The debts that were changed, struck or added: key, the places of debtor and creditor, class, the claim before and
    now, None where there is none."""
    rows: List[List[object]] = []
    places = states.names_of(base)
    for key, claim in sorted(state.claims.items()):
        debt = base.debts[key]
        now = None if claim is None else int(claim)
        rows.append([key, places[debt.debtor], places[debt.creditor], debt.class_, debt.claim, now])
    for key, record in enumerate(state.added, len(base.debts)):
        if record is not None:
            debtor, creditor, rank, claim = (field.strip(" \t") for field in record)
            rows.append([key, places[debtor], places[creditor], int(rank), None, int(claim)])
    return rows


def bank_view(base: Base, cleared: Cleared, bank: int) -> Dict[str, object]:
    """The debts of a bank and those to it, each as key, the other's place, class, claim and paid; and its account."""
    owes, owed = account.debts_by(base, cleared)
    return {
        "owes": [[key, creditor, *rest] for key, _, creditor, *rest in owes.get(bank, [])],
        "owed": [[key, debtor, *rest] for key, debtor, _, *rest in owed.get(bank, [])],
        "account": account.account_by(base, cleared, bank, owed.get(bank, [])).view(),
    }


# The journal.


class Playing(NamedTuple):
    """The journal of a state, as the player has it."""

    money: Money
    place: Mapping[str, int]
    banks: Sequence[texts.Bank]
    cash: Mapping[str, int]
    debts: Sequence[Payment]
    frames: List[journal.Frame]
    names: FullNames


def drawing_of(desk: Desk, cleared: Cleared, place: Mapping[str, int]) -> Tuple[str, Drawn]:
    """The network drawn, as the report has it, for the player: its form, and the drawing."""
    flows = texts.flows_of(cleared.payments, cleared.banks)
    form = "graph" if network.is_small(cleared.banks) else "matrix"

    def link(bank: texts.Bank) -> str:
        return f"bank-{place[bank.name]}"

    return form, network.drawing_of(flows, cleared.banks, desk.money, form, link, desk.full)


def journal_view(desk: Desk, state: State) -> Dict[str, object]:
    """The journal of a state for the player, and the picture that it plays in. It is that of the clearing without costs
    of default."""
    state = state._replace(keep=states.AS_IT_IS.keep)
    cleared = desk.cleared(state)
    with Place(desk.runs) as folder:
        words = ["clear", *desk.files(folder, state), "--show", "journal", "--workers", "1"]
        path = folder.path / "journal.csv"
        path.write_bytes(desk.runs.answer(words))
        keys = {(debt.debtor, debt.creditor, str(debt.class_)): at for at, debt in enumerate(cleared.payments)}
        frames = journal.frames_of(journal.read_journal(path, keys))
    place = {bank.name: at for at, bank in enumerate(cleared.banks)}
    cash = {bank.name: left for bank, left in zip(cleared.banks, cleared.left)}
    form, drawn = drawing_of(desk, cleared, place)
    playing = Playing(desk.money, place, cleared.banks, cash, cleared.payments, frames, desk.full)
    picture = {"form": form, "box": [round(part) for part in drawn.box], "body": drawn.body}
    return {"picture": picture, "data": player.data_of(playing, drawn)}


def kept_view(kept: Sequence[Kept]) -> List[Dict[str, object]]:
    """The states that are kept under names."""
    return [one._asdict() for one in kept]
