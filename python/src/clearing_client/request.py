"""What was asked, as far as an answer of the program repeats it: the banks, the debts and the scenarios. An answer on
others is none."""
from __future__ import annotations

import contextlib
import csv
import io
import sys
from typing import Dict, Generator, Iterator, List, Optional, Sequence, Tuple, Type, Union

from .errors import TextError
from .fields import long_fields
from .records import (
    Bank,
    BankCounts,
    Bound,
    BreakingCut,
    CostBound,
    CostStanding,
    Debt,
    Harm,
    Payment,
    Raise,
    Rank,
    Ruin,
    Saved,
    Saving,
    ScenarioSums,
    Standing,
    Wave,
)
from .results import AnyTable, Clearing, Compression, Outcomes, Rescue, Result, Stress, Verdict
from .scenarios import Scenarios
from .table import Table

Kind = Type[Tuple[object, ...]]
"""A kind of record."""
# Tables with a place for each debt, or for each bank.
OF_DEBTS: Tuple[Kind, ...] = (Payment, Bound)
OF_BANKS: Tuple[Kind, ...] = (Standing, CostStanding, CostBound, BreakingCut, Ruin, Wave, BankCounts)
# Tables of some banks, with the columns that name them.
OF_SOME: Dict[Kind, Tuple[str, ...]] = {
    Saving: ("bank",),
    Saved: ("bank", "saves"),
    Harm: ("bank", "of"),
    Rank: ("bank",),
}
DEBT = ("debtor", "creditor", "class")


def records_in(data: bytes) -> Generator[List[str], None, None]:
    """The records of a file, each with the fields as the program reads them: without blanks at their ends. A line
    without a byte is no record. Ends at what no reader takes."""
    text = data.decode("utf-8-sig", "replace")
    if '"' not in text:
        lines = text.replace("\r", "\n").split("\n")
        yield from (plain(line.split(",")) for line in lines if line)
        return
    with long_fields(len(text)), contextlib.suppress(csv.Error):
        yield from (plain(record) for record in csv.reader(io.StringIO(text, newline="")) if record)


def plain(record: List[str]) -> List[str]:
    """The fields of a record without blanks at their ends."""
    return [field.strip(" \t") for field in record]


def record_at(data: bytes, row: int, passing: bool = False) -> Optional[Tuple[str, ...]]:
    """The fields of a record of a file. `passing` counts no record of empty fields."""
    at = -1
    with contextlib.closing(records_in(data)) as records:
        for record in records:
            if any(record) or not passing:
                at += 1
                if at == row:
                    return tuple(record)
    return None


class Request:
    """The network of two files that the program has taken."""

    def __init__(self, banks: bytes, debts: bytes) -> None:
        self.banks = columns_of(banks, 2)
        self.debts = columns_of(debts, 4)
        self.names = set(self.banks[0]) if self.banks else set()

    def check(self, result: Result, known: object = None) -> None:
        """Fails where a result is one on other banks, debts or scenarios; `known` is a bank or the scenarios that were
        asked about."""
        if isinstance(result, (Outcomes, Stress)) and isinstance(known, Scenarios):
            scenarios = result.scenarios
            names = scenarios.column("scenario") if isinstance(scenarios, Table) else [one.name for one in scenarios]
            must([one.name for one in known] == names, "scenarios")
        if isinstance(result, Rescue):
            must(known is None or result.bank == known, "bank")
        if isinstance(result, Verdict):
            must(result.bank is None or result.bank in self.names, "bank")
        if isinstance(result, Stress):
            for outcome in result.scenarios:
                self.check(outcome)
        for name, table in tables_of(result):
            self.check_table(table, is_cancelled=isinstance(result, Compression) and name == "debts")

    def check_table(self, table: AnyTable, is_cancelled: bool = False) -> None:
        """Fails where a table is one of other banks or debts. Where cycles were cancelled, claims may differ."""
        record = table._record
        if record in OF_DEBTS or record is Debt:
            for column, values in zip((*DEBT, "claim"), self.debts):
                must(is_cancelled and column == "claim" or table.column(column) == values, "debts")
        elif record in OF_BANKS:
            must(table.column("bank") == self.banks[0], "banks")
            must("cash" not in table.columns or table.column("cash") == self.banks[1], "banks")
        elif record is Bank:
            must([table.column("name"), table.column("cash")] == self.banks, "banks")
        elif record in OF_SOME:
            must(all(self.names.issuperset(table.column(column)) for column in OF_SOME[record]), "banks")
        elif record is Raise:
            debts = set(zip(*self.debts[:3]))
            must(debts.issuperset(zip(*(table.column(column) for column in DEBT))), "debts")


def tables_of(result: Result) -> Iterator[Tuple[str, AnyTable]]:
    """The tables of a result, by its own names."""
    for name, value in vars(result).items():
        if isinstance(value, Table) and value._record is not ScenarioSums:
            yield name, value
    journal = result.journal if isinstance(result, Clearing) else None
    if journal is not None:
        yield "journal", journal.raises


def must(holds: bool, what: str) -> None:
    """Refuses an answer that is one to another question."""
    if not holds:
        raise TextError(0, f"the program printed an answer on other {what} than it was asked about")


# What no file has that the package writes: quotes, and blanks at the ends of fields.
DRESS = ('"', "\t", "\r", " ,", ", ", "\n ", " \n", "\n,")


def plain_columns(data: bytes, count: int) -> Optional[List[List[str]]]:
    """The first columns of a file without any such dress, read all at once; none of another."""
    text = data.decode("utf-8-sig", "replace")
    if any(sign in text for sign in DRESS) or text.startswith(" ") or text.endswith(" "):
        return None
    header, *lines = [line for line in text.split("\n") if line] or [""]
    width = header.count(",") + 1
    if width < count or any(line.count(",") != width - 1 for line in lines):
        return None
    fields = ",".join(lines).split(",") if lines else []
    return [fields[place::width] for place in range(count)]


def columns_of(data: bytes, count: int) -> List[List[Union[str, int]]]:
    """The first columns of a file's records that have a field with a byte: names, and numbers where all are."""
    columns = plain_columns(data, count)
    if columns is not None:
        return [values_of(column, place, count) for place, column in enumerate(columns)]
    records = [record for record in list(records_in(data))[1:] if any(record)]
    if any(len(record) < count for record in records):
        raise TextError(0, "the program took a file that cannot be read")
    return [values_of([record[place] for record in records], place, count) for place in range(count)]


def values_of(fields: Sequence[str], place: int, count: int) -> List[Union[str, int]]:
    """The values of a column: of debts the first two are names, of banks the first."""
    if place < count // 2:
        return list(map(sys.intern, fields))
    if not all(field.isascii() and field.isdigit() and len(field) <= 20 for field in fields):
        raise TextError(0, "the program took a file that cannot be read")
    return list(map(int, fields))
