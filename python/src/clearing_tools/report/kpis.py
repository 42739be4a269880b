"""The four figures of the first screen: in default, unpaid, owed, and the least cut that fells the next bank."""
from typing import List, NamedTuple, Tuple

from .. import labels
from .cells import NOT
from .matter import Matter
from .words import counted, cut_words

SHORTER = {"billion": "bn", "million": "m"}


class Kpi(NamedTuple):
    """A figure of the first screen: its title, the word before it, the figure, the word behind it, and what it says."""

    title: str
    before: str
    value: str
    after: str
    words: str


def parts_of(matter: Matter, units: int) -> Tuple[str, str, str]:
    """An amount in three parts: its currency, its number, and its size."""
    words = matter.money.in_short(units).replace("\u00a0", " ").split(" ")
    before = words.pop(0) if matter.money.currency and words[0] == matter.money.currency else ""
    return before, words[0], " ".join(SHORTER.get(word, word) for word in words[1:])


def default_kpi(matter: Matter) -> Kpi:
    """How many banks are in default, and by which labels."""
    own, label = len(matter.own), len(matter.labelled)
    split = (
        f"{own:,} by their own fundamentals, {label:,} by the label contagion"
        if own + label
        else "each pays all that it owes"
    )
    return Kpi("In default", "", f"{len(matter.fallen):,}", f"of {len(matter.banks):,} banks", split)


def unpaid_kpi(matter: Matter) -> Kpi:
    """What stays unpaid, as a share of what is owed."""
    share = labels.percent(matter.unpaid, matter.due)
    keep = "banks and those outside together have" if matter.has_outside else "all together keep"
    words = f"{share} of what is owed; it is no loss: {keep} what cash there was"
    return Kpi("Unpaid", *parts_of(matter, matter.unpaid), words)


def owed_kpi(matter: Matter) -> Kpi:
    """What is owed, by how many debts and outside, and the cash there is."""
    debts = f"{labels.count(len(matter.debts), 'debt')} between {counted(len(matter.banks))}"
    cash = f"with {matter.amount(matter.all_cash)} in cash"
    words = f"{debts} {cash}"
    if matter.has_outside:
        between = sum(bank.owed for bank in matter.banks)
        words = f"{matter.amount(between)} by {debts}, {matter.amount(matter.due - between)} outside; {cash}"
    return Kpi("Owed", *parts_of(matter, matter.due), words)


def next_kpi(matter: Matter) -> Kpi:
    """The least cut of all cash that fells a bank that stands."""
    title = "Least cut that fells the next"
    if matter.near:
        first = matter.near[0]
        return Kpi(title, "", cut_words(first.cut), "", f"of all cash; it is {matter.in_sentence(first.bank)}")
    none = "no bank that stands falls at a cut of all cash" if matter.sound else "no bank is left that could fall"
    return Kpi(title, "", NOT, "", none)


def kpis(matter: Matter) -> List[Kpi]:
    """The four figures."""
    return [work(matter) for work in (default_kpi, unpaid_kpi, owed_kpi, next_kpi)]
