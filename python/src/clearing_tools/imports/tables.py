"""Tables of a sheet, with the names of columns in the header, and the amounts of their cells."""
import re
from fractions import Fraction
from typing import Container, Dict, Generic, List, Optional, Protocol, Sequence, Tuple, TypeVar, Union

from ..labels import word_shown
from ..runner import shown
from .amounts import Amount, AmountError, Amounts
from .books.rows import Row, letters
from .faults import HEADER, Faults
from .reading import Form, NumberedRow, rows_of

Key = TypeVar("Key", str, int)
"""By what the rows of a sheet are found: the name of a bank, or the number of a row."""


class Sheet(Generic[Key]):
    """A sheet with the names of columns in its header.

    `rows` has the number of each row as the sheet counts it, by its key; `cells` its cells by the places of
    `columns`."""

    lead = 0
    """How many columns stand before those of the header's names."""

    def __init__(self, name: str, form: Form, faults: Faults) -> None:
        source = rows_of(name, form)
        self.label, self.faults, self.sheet = source.label, faults, source
        self.before = form.before
        self.first, header = source.rows[0]
        width = self.width_of(source.rows)
        self.header = list(map(str, header[self.lead : width])) + [""] * (width - max(len(header), self.lead))
        self.columns: Dict[str, int] = {}
        self.rows: Dict[Key, int] = {}
        self.cells: Dict[Key, Row] = {}
        for at, column in enumerate(self.header):
            if column in self.columns:
                faults.at_header(self, column or "without a name", "a second column of this name")
            self.columns.setdefault(column, at)
        self.letters = {column: letters(at + self.lead) for column, at in self.columns.items()}
        for number, record in source.rows[1:]:
            self.take(number, record, width)

    def width_of(self, rows: List[NumberedRow]) -> int:
        """How many columns there are: those of the header, without what is empty at its end and below."""
        header = rows[0][1]
        width = len(header)
        if self.sheet.is_book:
            return max(width, 1)
        while (
            width > self.lead
            and header[width - 1] == ""
            and not any(any(record[width - 1 :]) for _, record in rows[1:])
        ):
            width -= 1
        return width

    def take(self, number: int, record: Row, width: int) -> None:
        """Takes a row in, which is to be as wide as the header."""
        if self.sheet.is_book:
            record = record + [""] * (width - len(record))
        if len(record) > width and not any(record[width:]):
            record = record[:width]
        if len(record) != width:
            self.faults.at_row(self, number, f"{len(record)} fields, and the header has {width}")
        else:
            self.keep(number, record)

    def keep(self, number: int, record: Row) -> None:
        """Keeps a row under its key."""
        raise NotImplementedError

    def __contains__(self, column: str) -> bool:
        return column in self.columns

    def cell(self, key: Key, column: str) -> str:
        """The cell of a row in a column, empty where there is no such column."""
        at = self.columns.get(column)
        return "" if at is None else self.cells[key][at]

    def column(self, column: str) -> Dict[Key, str]:
        """The cells of a column by the keys of their rows."""
        at = self.columns[column]
        return {key: cells[at] for key, cells in self.cells.items()}

    def place_text(self, row: Optional[int], column: Optional[str]) -> str:
        """A place as words: with the cell as a spreadsheet names it where it is one."""
        row = self.first if row == HEADER else row
        if self.sheet.is_book and row is not None and column in self.letters:
            return (
                f" {self.letters[column]}{row} (column {column})"
                if row != self.first
                else f" {self.letters[column]}{row}: column {column}"
            )
        return "".join([f" row {row}" if row is not None else "", f" column {column}" if column else ""])


AnySheet = Union[Sheet[str], Sheet[int]]


class Listing(Sheet[int]):
    """A sheet whose rows have no names: each is found by its number."""

    def keep(self, number: int, record: Row) -> None:
        """Keeps a row under its number."""
        self.rows[number], self.cells[number] = number, record


class Table(Sheet[str]):
    """A sheet with the names of its rows in the first column."""

    lead = 1

    def keep(self, number: int, record: Row) -> None:
        """Keeps a row under its name, which no other has."""
        name = record[0]
        fault = getattr(name, "fault", None)
        if fault:
            what = f"the name {str(name)!r} {fault.replace(', and no amount', '')}, and no name"
            self.faults.at_row(self, number, what)
        elif name in self.rows:
            called = f"of the name {name}" if name else "without a name"
            self.faults.at_row(self, number, f"a second row {called}, beside row {self.rows[name]}", kind="second")
        else:
            self.rows[str(name)], self.cells[str(name)] = number, record[1:]

    def drop_row(self, name: str) -> None:
        """Drops the row of a name, where there is one."""
        self.rows.pop(name, None)
        self.cells.pop(name, None)

    def has_line(self, name: str) -> bool:
        """Whether a row or a column has a name."""
        return name in self.rows or name in self.columns

    def drop(self, name: str) -> None:
        """Drops the row and the column of a name, where they are there."""
        self.drop_row(name)
        if name in self.columns:
            del self.columns[name]
            self.header.remove(name)


class Convert(Protocol):
    """What makes an amount of a row one in the currency of the network."""

    def __call__(self, table: Sheet[Key], row: Key, amount: Amount) -> Amount:
        """The amount of a row in the currency of the network."""


class Cells:
    """Reads the amounts of tables and gathers what is wrong."""

    def __init__(self, amounts: Amounts, faults: Faults, convert: Optional[Convert] = None) -> None:
        self.amounts, self.faults, self.convert = amounts, faults, convert

    def amount(self, table: Sheet[Key], row: Key, column: str) -> Amount:
        """The amount in a cell, in the currency of the network, 0 where it is not one."""
        try:
            amount = self.amounts.read(table.cell(row, column))
        except AmountError as unread:
            self.unread(unread, table, row, column)
            return Fraction(0)
        return self.convert(table, row, amount) if self.convert else amount

    def unread(self, unread: AmountError, table: Sheet[Key], row: Key, column: str) -> None:
        """Tells of a cell that is no amount."""
        if unread.question:
            self.faults.ask(table, table.rows[row], column, str(unread), unread.question)
        else:
            self.faults.at_cell(table, table.rows[row], column, unread, kind=unread.kind)


def quoted(name: str) -> str:
    """A name as a word of the shell; one with signs that are not seen has them as escapes."""
    if shown(name) != name:
        return word_shown(name)
    return (
        name if re.fullmatch(r"[\w./-]+", name) and not name.startswith("-") else "'" + name.replace("'", "'\\''") + "'"
    )


def pair_of(word: str, tables: Sequence[AnySheet]) -> Tuple[str, str]:
    """The column of some tables and what stands behind the sign of equality in a word: the first sign behind which
    there is a column."""
    places = [match.start() for match in re.finditer("=", word)]
    at = next((at for at in places if any(word[:at] in table for table in tables)), word.index("=", 1))
    return word[:at], word[at + 1 :]


def need_column(faults: Faults, table: AnySheet, option: str, column: str, banks: Container[str] = ()) -> None:
    """Refuses a table without a column, by the option that gives it another name. Banks are not told among those it
    has. Where a row below has the name, it may be the header."""
    if column in table:
        return
    there = ", ".join(name for name in table.header if name not in banks)
    below = next((number for number, row in table.sheet.rows[1:30] if column in row), None)
    hint = (
        f"; row {below} has it: is that the header? say {table.before}skip {below - 1}"
        if below
        else f"; say --{option} NAME"
    )
    faults.at_row(table, HEADER, f"no column {column}; it has {there or 'no other'}{hint}")
