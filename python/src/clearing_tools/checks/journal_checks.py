"""The faults of a journal."""
from __future__ import annotations

from typing import List

from clearing_client.format import MAX_CLAIM, MAX_STAMP

from .field_hints import shown
from .findings import JOURNAL, Findings
from .records import Record, is_closing


def check_journal(found: Findings, data: bytes) -> None:
    """Looks at the journal."""
    header, rows = found.rows("journal", data, [JOURNAL])
    raises = 0
    for at, record in enumerate(rows):
        if is_closing(record):
            if at + 1 < len(rows):
                add_closing(found, record, len(header), raises)
            continue
        raises += 1
        if raises == found.limits.raises + 1:
            what = f"the most is {found.limits.raises:,} raises"
            found.add("journal", record, "", "too many", what, found.wider)
        if found.has_fields("journal", record, header):
            check_raise(found, record, header)


def add_closing(found: Findings, record: Record, fields: int, raises: int) -> None:
    """Refuses a record of rounds that is not the last, behind so many raises."""
    hint = "the record of rounds is the last; is this two journals in one?"
    if raises < found.limits.raises:
        found.add("journal", record, "", "fields", f"{len(record.fields)} fields in place of {fields}", hint)
    else:
        found.add("journal", record, "", "too many", "one more raise than the most", hint)


def check_raise(found: Findings, record: Record, header: List[str]) -> None:
    """Looks at a raise."""
    found.number("journal", record, 0, header, MAX_STAMP)
    is_well = [found.is_bank("journal", record, place, header) for place in (1, 2)]
    is_well.append(found.is_class("journal", record, record.fields[3]))
    key = tuple(record.fields[1:4])
    if all(is_well) and found.claims is not None and key not in found.claims:
        what = f"no debt is of {shown(key[0])} to {shown(key[1])} in class {key[2].decode()}"
        found.add("journal", record, "", "unknown debt", what, debt_hint(found, *key[:2]))
    found.number("journal", record, 4, header, MAX_CLAIM)


def debt_hint(found: Findings, debtor: bytes, creditor: bytes) -> str:
    """Which debt may be meant by a debtor and a creditor that have none in some class."""
    if (debtor, creditor) in found.ranks:
        return f"there is one in class {' and '.join(sorted(found.ranks[debtor, creditor]))}"
    if (creditor, debtor) in found.ranks:
        return "there is one the other way round"
    return "is the journal of another debts file?"
