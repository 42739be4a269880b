"""The faults of a banks file and of a debts file."""
from __future__ import annotations

from typing import List

from clearing_client.format import MAX_CASH, MAX_CLAIM, MAX_OUTSIDE, RULES

from .field_hints import MOST_HINTS, rule_hint, shown, text_of
from .findings import BANKS_1, BANKS_2, DEBTS, Claims, Findings
from .records import Record


def check_banks(found: Findings, data: bytes) -> None:
    """Looks at the banks file."""
    header, rows = found.rows("banks", data, [BANKS_1, BANKS_2])
    if header:
        found.known = {}
    for at, record in enumerate(rows):
        if at == found.limits.banks:
            what = f"the file has {len(rows):,} banks, and the most is {found.limits.banks:,}"
            found.add("banks", record, "", "too many", what, found.wider)
        check_bank(found, record, header, at)


def check_bank(found: Findings, record: Record, header: List[str], at: int) -> None:
    """Looks at a bank, before which so many others stand."""
    name = record.fields[0]
    known = found.known if found.known is not None else {}
    if not found.has_fields("banks", record, header):
        known.setdefault(name, record)
        return
    if found.is_name("banks", record, name, "name"):
        first = known.setdefault(name, record)
        if at < found.limits.banks:
            found.named["banks"].setdefault(text_of(name), record)
        if first is not record:
            what = f"the bank {shown(name)} is also in line {first.line} (row {first.row})"
            hint = "put both in one record, or give one another name"
            found.add("banks", record, "name", "double bank", what, hint)
    found.number("banks", record, 1, header, MAX_CASH)
    rule = record.fields[2]
    if text_of(rule) not in RULES:
        # No reader wants more of them.
        hint = rule_hint(rule) if len(found.faults) < MOST_HINTS else ""
        found.add("banks", record, "rule", "rule", f"{shown(rule)} is not a rule", hint)
    if len(header) == 4:
        found.number("banks", record, 3, header, MAX_OUTSIDE)


def check_debts(found: Findings, data: bytes) -> None:
    """Looks at the debts file."""
    header, rows = found.rows("debts", data, [DEBTS])
    owed = 0
    seen: Claims = {}
    if header:
        found.claims = seen
    for at, record in enumerate(rows):
        if at == found.limits.debts:
            what = f"the file has {len(rows):,} debts, and the most is {found.limits.debts:,}"
            found.add("debts", record, "", "too many", what, found.wider)
        if not found.has_fields("debts", record, header):
            continue
        claim = check_debt(found, record, header, seen)
        if owed <= found.limits.owed < owed + claim:
            what = f"the claims so far come to {owed + claim:,}, and the most is {found.limits.owed:,}"
            wider = f", or {found.wider}" if found.wider else ""
            found.add("debts", record, "claim", "total", what, f"take a larger unit of account{wider}")
        owed += claim


def check_debt(found: Findings, record: Record, header: List[str], seen: Claims) -> int:
    """The claim of a debt, or 0 where it has a fault; `seen` are the debts before it."""
    debtor, creditor, rank, _ = record.fields
    are_banks = [found.is_bank("debts", record, place, header) for place in (0, 1)]
    if all(are_banks) and debtor == creditor:
        what = f"{shown(debtor)} is its own creditor"
        found.add("debts", record, "creditor", "self debt", what, "delete the record: no bank owes itself")
    found.is_class("debts", record, rank)
    claim = found.number("debts", record, 3, header, MAX_CLAIM)
    first = seen.setdefault((debtor, creditor, rank), record)
    if first is not record and debtor and creditor:
        what = f"a debt of this debtor, creditor and class is also in line {first.line} (row {first.row})"
        found.add("debts", record, "", "double debt", what, "add up the two claims, or give one another class")
    return claim or 0
