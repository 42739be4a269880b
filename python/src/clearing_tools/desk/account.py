"""The account of a bank: what it would have left with all its cash and all debtors paying, and what is missing of that,
line by line, so that the lines add up to the unit. All amounts are the program's; here they are added and subtracted
alone. Units of account."""
from typing import Dict, List, NamedTuple, Tuple

from .. import runner
from . import state as states
from .runs import Cleared
from .state import Base


class Line(NamedTuple):
    """What one debtor leaves unpaid of its claims, all classes together."""

    debtor: int
    claim: int
    paid: int


class Account(NamedTuple):
    """`whole` is all cash of the files and all claims on others, less what the bank owes banks. Of that are gone the
    cash that is lost in this state, what each debtor leaves unpaid, what is owed outside, and what default costs;
    `left` is what is left, below 0 what the bank lacks."""

    whole: int
    loss: int
    unpaid: List[Line]
    outside: int
    lost: int
    left: int

    def view(self) -> Dict[str, object]:
        """The account for the page."""
        return {**self._asdict(), "unpaid": [list(line) for line in self.unpaid]}


class Entry(NamedTuple):
    """A debt of a state, with its key, and its banks by their places."""

    key: int
    debtor: int
    creditor: int
    class_: int
    claim: int
    paid: int


Entries = Dict[int, List[Entry]]
"""The debts of each bank, by its place."""


def debts_by(base: Base, cleared: Cleared) -> Tuple[Entries, Entries]:
    """The debts with their keys by the debtor's place, and by the creditor's."""
    places = states.names_of(base)
    owes: Entries = {}
    owed: Entries = {}
    for key, debt in zip(cleared.keys, cleared.payments):
        entry = Entry(key, places[debt.debtor], places[debt.creditor], debt.class_, debt.claim, debt.paid)
        owes.setdefault(entry.debtor, []).append(entry)
        owed.setdefault(entry.creditor, []).append(entry)
    return owes, owed


def account_by(base: Base, cleared: Cleared, bank: int, owed: List[Entry]) -> Account:
    """The account of a bank in a state, of what it is owed. Fails where it does not come to what the program
    says that the bank keeps or leaves unpaid."""
    one = cleared.banks[bank]
    outside = one.outside or 0
    claims = sum(debt.claim for debt in owed)
    whole = base.banks[bank].cash + claims - one.owed
    loss = base.banks[bank].cash - cleared.left[bank]
    unpaid = lines_of(owed)
    left = whole - loss - sum(line.claim - line.paid for line in unpaid) - outside - cleared.lost[bank]
    if left != one.equity - (one.owed - one.paid) - (outside - one.outside_paid):
        raise runner.ToolError(f"the account of {runner.shown(one.name)} does not come to what the program says")
    return Account(whole, loss, unpaid, outside, cleared.lost[bank], left)


def lines_of(owed: List[Entry]) -> List[Line]:
    """What each debtor leaves unpaid, the most first."""
    sums: Dict[int, List[int]] = {}
    for _, debtor, _, _, claim, paid in owed:
        one = sums.setdefault(debtor, [0, 0])
        one[0] += claim
        one[1] += paid
    lines = [Line(debtor, claim, paid) for debtor, (claim, paid) in sums.items() if paid < claim]
    return sorted(lines, key=lambda line: (line.paid - line.claim, line.debtor))
