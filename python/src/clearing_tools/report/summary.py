"""A report in five sentences: how many banks fall, with which label, what would let them pay, what the worst
scenario does, and who falls next; and a sixth where default costs."""
from typing import List, Sequence

from ..labels import held, percent
from ..texts import Bank
from . import costs
from .charts.cases import cases_of
from .charts.shortfalls import best_of, ratio_of
from .matter import Matter
from .words import begun, counted, cut_words, number_word


def summary(matter: Matter) -> List[str]:
    """The sentences, each made from the results."""
    sentences = [falls(matter), labels_of(matter), saved(matter), worst(matter), following(matter)]
    return [*sentences, costs.sentence(matter)] if matter.costs else sentences


def headline(matter: Matter) -> str:
    """The finding, which is the title of the page."""
    banks = counted(len(matter.banks))
    if not matter.fallen:
        return f"None of {banks} is in default" if matter.banks else "There is no bank"
    leave = "leaves" if len(matter.fallen) == 1 else "leave"
    return f"{begun(number_word(len(matter.fallen)))} of {banks} {leave} {matter.amount(matter.unpaid)} unpaid"


def names(matter: Matter, banks: Sequence[Bank]) -> str:
    """The names of banks in a sentence."""
    return matter.listed([bank.name for bank in banks])


def falls(matter: Matter) -> str:
    """How many banks are in default, and what stays unpaid."""
    short = matter.fallen
    if not short:
        pays = "it pays all it owes" if len(matter.banks) == 1 else "each pays all it owes"
        return f"None of {counted(len(matter.banks))} is in default: {pays}, {matter.amount(matter.due)} in all."
    they = "it owes" if len(short) == 1 else "they owe"
    stay = matter.money.verb(matter.unpaid, "stays", "stay")
    return (
        f"{begun(number_word(len(short)))} of {counted(len(matter.banks))} cannot pay all {they}:"
        f" {matter.amount(matter.unpaid)} of"
        f" {matter.amount(matter.due)} {stay} unpaid, {percent(matter.unpaid, matter.due)}."
    )


def labels_of(matter: Matter) -> str:
    """The labels of the banks in default."""
    contagion = [bank for bank in matter.labelled if bank.state == "contagion"]
    gridlock = [bank for bank in matter.labelled if bank.state == "gridlock"]
    parts = []
    if matter.own:
        its = "its" if len(matter.own) == 1 else "their"
        parts.append(f"{names(matter, matter.own)} could not pay even if all {its} debtors paid in full")
    if contagion:
        parts.append(
            f"{names(matter, contagion)} {'could' if matter.own else 'could if all debtors paid'} (label: contagion)"
        )
    if gridlock:
        are = "is" if len(gridlock) == 1 else "are"
        more = f"; greater payments, by {matter.amount(matter.more)} in all, would clear too" if matter.more else ""
        parts.append(f"{names(matter, gridlock)} {are} in default at the least payments alone (gridlock){more}")
    if parts:
        return "; ".join(parts) + "."
    keeps = min(matter.banks, key=lambda bank: bank.equity, default=None)
    if keeps is None:
        return "There is no bank."
    return f"{matter.in_sentence(keeps.name)} keeps the least, {matter.amount(keeps.equity)}."


def saved(matter: Matter) -> str:
    """What the cheapest rescue takes, and which takes most of unpaid debt away for each unit of money."""
    if not matter.rescues:
        return "No bank needs a rescue."
    first, best = min(matter.rescues, key=lambda each: each.added), best_of(matter)
    least = f", the least of the {number_word(len(matter.rescues))}" if len(matter.rescues) > 1 else ""
    lets = matter.money.verb(first.added, "lets", "let")
    sentence = f"{matter.amount(first.added)} more {lets} {matter.in_sentence(first.bank)} pay in full{least}"
    if best is None or best.bank == first.bank:
        if best is not None and best.less is not None:
            sentence += f"; that takes {matter.amount(best.less)} of unpaid debt away"
        return sentence + "."
    need = f"{matter.in_sentence(best.bank)} needs {matter.amount(best.added)}"
    for_each = f"for each {matter.money.currency}" if matter.money.currency else "for each unit"
    return (
        f"{sentence}; {need}, and that takes {matter.amount(best.less or 0)} of unpaid debt away, the most"
        f" {for_each} ({ratio_of(best):.2f})."
    )


def worst(matter: Matter) -> str:
    """What the scenario of which most stays unpaid does."""
    if not matter.scenarios:
        return (
            "All this is of the network as it was changed; no scenario was given beside."
            if matter.changes
            else "No scenario was given."
        )
    base, *cases = cases_of(matter)
    case = max(cases, key=lambda case: case.total)
    fallen = {bank.name for bank in case.banks if bank.state != "sound"}
    same = "the same " if fallen and fallen == {bank.name for bank in matter.fallen} else ""
    first = f"In the worst of {counted(len(cases), 'scenario')}" if len(cases) > 1 else "In the scenario"
    stays, defaults = matter.money.verb(case.total, "stays", "stay"), "defaults" if len(fallen) == 1 else "default"
    return (
        f"{first}, \u201c{held(case.name)}\u201d, {same}{counted(len(fallen))} {defaults} and"
        f" {matter.amount(case.total)} {stays} unpaid."
    )


def following(matter: Matter) -> str:
    """Which banks are in default next where all cash is cut."""
    near = matter.near
    if not near:
        return "No other bank falls at any cut of all cash." if matter.sound else "No bank is left that could fall."
    first, cut = matter.in_sentence(near[0].bank), cut_words(near[0].cut)
    sentence = f"The next bank in default is {first}, at a cut of {cut} of all cash"
    if len(near) > 1:
        sentence += f"; then {matter.in_sentence(near[1].bank)}, at {cut_words(near[1].cut)}"
    return sentence + "."
