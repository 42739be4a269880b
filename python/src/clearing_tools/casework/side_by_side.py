"""Two cases side by side, as a page that stands alone: what changed in a few sentences, then a table of all banks,
those that changed first."""
import html
from decimal import Decimal
from typing import Container, List, Optional, Sequence

from clearing_client.case import Case
from clearing_client.compare import Comparison, Difference
from clearing_client.steady import MARK, WHY

from ..drawing import tokens
from ..fullnames import FullNames

WHAT = ("paid", "kept", "owed")
"""The amounts of a bank that are put side by side."""
CHANGE_WORDS = {
    "falls": "falls",
    "saved": "is saved",
    "label": "another label",
    "came": "came",
    "went": "went",
    "": "",
}
HEADS = {"falls": "Falls", "saved": "Is saved", "label": "Gets another label", "came": "Came", "went": "Went"}
MOST_NAMED = 10
STYLE = """
body { font: var(--t2)/var(--lh) var(--font); color: var(--ink); background: var(--paper); max-width: var(--page);
  margin: var(--s4) auto; padding: 0 var(--s2) }
h1 { font-size: var(--t5); line-height: var(--lh-tight); overflow-wrap: anywhere }
table { border-collapse: collapse; width: 100%; font-size: var(--t1); font-variant-numeric: tabular-nums }
th, td { padding: var(--s0) var(--s1); border-bottom: var(--hair) solid var(--rule); text-align: right;
  vertical-align: top }
th { font-weight: var(--bold); color: var(--ink-2) }
.word { text-align: left; overflow-wrap: break-word; max-width: 22em }
td.word:first-child { min-width: 10em }
td.state, td.amount { white-space: nowrap }
.scroll { overflow-x: auto }
tr.falls > :first-child { border-left: var(--s0) solid var(--fundamental) }
tr.saved > :first-child { border-left: var(--s0) solid var(--sound) }
tr.came > :first-child, tr.went > :first-child { border-left: var(--s0) solid var(--paid) }
@media print { thead { display: table-header-group } tr { break-inside: avoid } }
"""


def page_of(comparison: Comparison, names: FullNames, one_unit: Container[str] = ()) -> str:
    """The page of two cases. The banks that one unit decides have a mark, and what it means stands below the table."""
    titles = [title_of(comparison.before, "before"), title_of(comparison.after, "after")]
    ordered = sorted(comparison.banks, key=lambda bank: (not bank.change, not any(bank.more(what) for what in WHAT)))
    sentences = "".join(f"<li>{html.escape(line)}</li>\n" for line in sentences_of(comparison, names))
    rows = "".join(row_of(bank, names, one_unit) for bank in ordered)
    is_marked = any(bank.bank in one_unit for bank in ordered)
    below = f"<p>{MARK} {html.escape(WHY[0].lower() + WHY[1:])}</p>\n" if is_marked else ""
    return (
        "<!DOCTYPE html>\n<html lang=en>\n<meta charset=utf-8>\n"
        "<meta name=viewport content='width=device-width'>\n"
        f"<title>{html.escape(' and '.join(titles))}</title>\n<style>{tokens.css()}{STYLE}</style>\n"
        f"<h1>{html.escape(titles[0])} and {html.escape(titles[1])}</h1>\n"
        f"<p>Amounts in {html.escape(currency_of(comparison))}.</p>\n<ul>\n{sentences}</ul>\n"
        f"<div class=scroll tabindex=0>\n<table>\n{head_of()}<tbody>\n{rows}</tbody>\n</table>\n</div>\n"
        f"{below}</html>\n"
    )


def currency_of(comparison: Comparison) -> str:
    """What the amounts of both cases are in."""
    before, after = comparison.before, comparison.after
    is_in_units = before.unit == after.unit == 1
    return after.currency or before.currency or ("units" if is_in_units else "the currency")


def title_of(case: Case, otherwise: str) -> str:
    """What a case is called beside another."""
    return " ".join(filter(None, (case.title, case.as_of.isoformat() if case.as_of else ""))) or otherwise


def sentences_of(comparison: Comparison, names: FullNames) -> List[str]:
    """What changed: the banks of each change, and how much more or less there is in all."""
    changes = [f"{HEADS[change]}: {listed(comparison.of(change), names)}" for change in HEADS if comparison.of(change)]
    sums = [f"{what.capitalize()}: {signed(comparison.total(what))} in all" for what in WHAT]
    return [*(changes or ["No bank changes its state"]), *sums]


def listed(banks: Sequence[str], names: FullNames) -> str:
    """Some names, and how many more."""
    more = f" and {len(banks) - MOST_NAMED:,} more" if len(banks) > MOST_NAMED else ""
    return ", ".join(names(bank) for bank in banks[:MOST_NAMED]) + more


def signed(value: Decimal) -> str:
    """How much more, or less."""
    return f"{value.copy_abs():,f} {'more' if value > 0 else 'less'}" if value else "as before"


def plain(value: Decimal) -> Decimal:
    """A number without an exponent and without noughts at its end."""
    return Decimal(f"{value:.0f}") if value == value.to_integral_value() else value


def head_of() -> str:
    """The head of the table: the amounts in groups of three."""
    words = "".join(f"<th class=word rowspan=2>{word}</th>" for word in ("bank", "state"))
    groups = "".join(f"<th colspan=3>{what}</th>" for what in WHAT)
    each = "".join(f"<th>{when}</th>" for _ in WHAT for when in ("before", "after", "more"))
    return f"<thead>\n<tr>{words}{groups}</tr>\n<tr>{each}</tr>\n</thead>\n"


def row_of(bank: Difference, names: FullNames, one_unit: Container[str]) -> str:
    """A bank as a row."""
    called = names(bank.bank) + (f" {MARK}" if bank.bank in one_unit else "")
    cells = f"<td class=word>{html.escape(called)}</td><td class='word state'>{state_of(bank)}</td>"
    for what in WHAT:
        values = (getattr(bank, f"{what}_before"), getattr(bank, f"{what}_after"), bank.more(what))
        cells += "".join(f"<td class=amount>{shown(value)}</td>" for value in values)
    return f"<tr class='{bank.change or 'same'}'>{cells}</tr>\n"


def state_of(bank: Difference) -> str:
    """The state of a bank in both cases, and what became of it."""
    states = [bank.state_before or "–", bank.state_after or "–"]
    word = CHANGE_WORDS[bank.change]
    return states[0] if states[0] == states[1] else f"{' → '.join(states)}<br>{word}"


def shown(value: Optional[Decimal]) -> str:
    """An amount in a cell, a dash where there is none."""
    return "–" if value is None else f"{plain(value):,f}".replace("-", "\u2212")
