"""The records of the program's files and texts. Amounts are whole units of account. What the texts call `class` is the
field `class_` here, since `class` is a word of Python; as a column it is called `class` again."""
from typing import NamedTuple, Optional


class Bank(NamedTuple):
    """A bank: its cash, the rule by which it divides what it has, and what it owes outside the network."""

    name: str
    cash: int
    rule: str
    outside: int = 0


class Debt(NamedTuple):
    """A debt. A lower class (1 to 9) is paid in full before a higher one gets a unit."""

    debtor: str
    creditor: str
    class_: int
    claim: int


class Payment(NamedTuple):
    """A debt and what is paid on it, 0 to its claim."""

    debtor: str
    creditor: str
    class_: int
    claim: int
    paid: int


class Bound(NamedTuple):
    """A debt with the least and the greatest payment on it that clear."""

    debtor: str
    creditor: str
    class_: int
    claim: int
    least: int
    greatest: int


class Standing(NamedTuple):
    """A bank after clearing: its cash and receipts (estate), what goes out of the network and to banks, what it owes
    to banks, what it keeps (equity), and its state: `sound`, `fundamental` (it could not pay even if all its debtors
    paid in full) or `contagion` (it could)."""

    bank: str
    estate: int
    outside_paid: int
    paid: int
    owed: int
    equity: int
    state: str


class CostStanding(NamedTuple):
    """A bank after clearing with costs of default: as `Standing`, and what of its estate is lost."""

    bank: str
    estate: int
    lost: int
    outside_paid: int
    paid: int
    equity: int
    state: str


class CostBound(NamedTuple):
    """A bank by the least and by the greatest payments with costs of default: what of its estate is lost, what it
    keeps, and its state, at each."""

    bank: str
    lost_at_least: int
    equity_at_least: int
    state_at_least: str
    lost_at_greatest: int
    equity_at_greatest: int
    state_at_greatest: str


class BreakingCut(NamedTuple):
    """The least cut of all cash, 0 to 1,000 per mille, at which a bank is not sound, and its state then; 1,001 and
    `sound` where there is none."""

    bank: str
    cut: int
    state: str


class Ruin(NamedTuple):
    """What the loss of all cash of a bank costs: its cash, what it then keeps less itself, what all others keep less
    together, and how many others that were sound are so no more. What a bank keeps is its equity and what it pays
    outside; own and others come to the cash."""

    bank: str
    cash: int
    own: int
    others: int
    falls: int


class Harm(NamedTuple):
    """What a bank (`of`) keeps less where another, or the same one, loses all its cash, and whether it was sound and
    is so no more."""

    bank: str
    of: str
    lost: int
    falls: bool


class Saving(NamedTuple):
    """A bank in default: the least cash to add so that it pays all it owes, what it still lacks with a unit less, and
    with that sum the number of other banks that are saved too, and of those that are in default still."""

    bank: str
    added: int
    short: int
    also_saved: int
    still_short: int


class Saved(NamedTuple):
    """A bank in default, and another that is saved with the least sum that saves the first."""

    bank: str
    saves: str


class Wave(NamedTuple):
    """A bank on the way down from all debts paid in full: the round in which it first has less than it owes (0: never),
    whether it defaults at the least payments alone (gridlock), and what it keeps."""

    bank: str
    wave: int
    gridlock: bool
    equity: int


class Rank(NamedTuple):
    """The rank of a bank in a class. Ranks rise along each debt of the class that is left, so that no cycle is."""

    class_: int
    bank: str
    rank: int


class Raise(NamedTuple):
    """An entry of a journal: after it the debt has been paid `to` units in all."""

    stamp: int
    debtor: str
    creditor: str
    class_: int
    to: int


class Sums(NamedTuple):
    """What is claimed and what is paid on all debts together."""

    claim: int
    paid: int


class Totals(NamedTuple):
    """The sums over all standings, the number of banks in default, and all cash before clearing."""

    estate: int
    outside_paid: int
    paid: int
    owed: int
    equity: int
    defaults: int
    cash: int


class CostTotals(NamedTuple):
    """The sums over all standings with costs, the number of banks in default, and all cash before clearing."""

    estate: int
    lost: int
    outside_paid: int
    paid: int
    equity: int
    defaults: int
    cash: int


class ScenarioPayment(NamedTuple):
    """A payment in a scenario. The number tells apart two scenarios of one name: it counts them from 1 in file
    order."""

    number: int
    scenario: str
    debtor: str
    creditor: str
    class_: int
    claim: int
    paid: int


class ScenarioStanding(NamedTuple):
    """A standing in a scenario, with the scenario's number and name."""

    number: int
    scenario: str
    bank: str
    estate: int
    outside_paid: int
    paid: int
    owed: int
    equity: int
    state: str


class ScenarioTotals(NamedTuple):
    """The sums over all standings of a scenario, with its number and name."""

    number: int
    scenario: str
    estate: int
    outside_paid: int
    paid: int
    owed: int
    equity: int
    defaults: int
    cash: int


class ScenarioSums(NamedTuple):
    """A scenario in sums: all cash that it leaves before clearing, what is paid and paid outside, what banks keep, how
    many default, and how many of these by their own fundamentals. Cash is what is paid outside and kept."""

    scenario: str
    cash: int
    paid: int
    outside_paid: int
    equity: int
    defaults: int
    fundamental: int


class BankCounts(NamedTuple):
    """A bank over all scenarios: in how many it defaults, and in how many of these by its own fundamentals."""

    bank: str
    defaults: int
    fundamental: int


class CheckTotals(NamedTuple):
    """How many banks and debts there are, all claims together, and all cash together."""

    banks: int
    debts: int
    owed: int
    cash: int


class GeneratedTotals(NamedTuple):
    """The sums of a network made from a number, and of its clearing."""

    banks: int
    debts: int
    owed: int
    cash: int
    paid: int
    defaults: int
    equity: int


class JournalTotals(NamedTuple):
    """After how many rounds a run ended."""

    rounds: int


class RescueTotals(NamedTuple):
    """A bank, the least cash to add so that it pays all it owes, and what it still lacks with a unit less."""

    bank: str
    added: int
    short: int


class CompressionTotals(NamedTuple):
    """What was cancelled of all claims together."""

    cancelled: int


class Judgement(NamedTuple):
    """A verdict on a journal; what does not belong to it is None."""

    verdict: str
    raises: Optional[int]
    entry: Optional[int]
    last: Optional[int]
    stamp: Optional[int]
    had: Optional[int]
    allowed: Optional[int]
    bank: Optional[str]
