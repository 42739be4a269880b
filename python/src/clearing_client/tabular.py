"""Tables of banks and debts, as people have them, made into the files of the program.

What the program itself judges is left to it: a rule that is none, a name with a comma, a negative number, a bank named
twice. Refused here is what a file cannot say or would change in silence: a number that is not whole, a name with
blanks at its ends, an empty cell, a column that is missing or unknown.
"""
from __future__ import annotations

import numbers
import operator
from decimal import Decimal
from typing import Callable, Dict, Iterable, List, Mapping, Optional, Protocol, Sequence, Tuple, cast

from .errors import TableError

BANK_COLUMNS = ("name", "cash", "rule", "outside")
DEBT_COLUMNS = ("debtor", "creditor", "class", "claim")
EXACT = 2**53
"""Up to here every whole number is a float of its own."""
TOO_LONG = 10**40


class Series(Protocol):
    """A column of a DataFrame, or its index."""

    @property
    def name(self) -> object:
        """What it is called."""

    def tolist(self) -> List[object]:
        """Its values, in order."""


class Frame(Protocol):
    """A pandas `DataFrame`, as far as it is read."""

    @property
    def columns(self) -> Sequence[str]:
        """The names of its columns."""

    @property
    def index(self) -> Series:
        """The names of its rows."""

    def __getitem__(self, name: str) -> Series:
        """A column."""


class Graph(Protocol):
    """A networkx graph, as far as it is read."""

    def is_directed(self) -> bool:
        """Whether an edge leads from a node to another."""

    @property
    def nodes(self) -> "Callable[..., Iterable[Tuple[object, Mapping[str, object]]]]":
        """The nodes, each with its attributes."""

    @property
    def edges(self) -> "Callable[..., Iterable[Tuple[object, object, Mapping[str, object]]]]":
        """The edges, each with its attributes."""


def is_frame(table: object) -> bool:
    """Whether a table is a pandas `DataFrame`, told without pandas."""
    return hasattr(table, "columns") and hasattr(table, "iloc")


def is_graph(table: object) -> bool:
    """Whether a table is a networkx graph, told without networkx."""
    return all(hasattr(table, name) for name in ("nodes", "edges", "is_directed"))


Columns = Dict[str, List[object]]
Record = Dict[str, object]


def columns_of(
    table: object, kind: str, words: Sequence[str], of_dict: Callable[[Mapping[object, object]], List[Record]]
) -> Columns:
    """The columns of a table by name: of a DataFrame, of a dict of columns, or of records."""
    if is_frame(table):
        return checked(columns_of_frame(cast(Frame, table), kind, words), kind, words)
    if isinstance(table, Mapping) and is_columns(table):
        return checked({name: list(column) for name, column in table.items()}, kind, words)
    if isinstance(table, Mapping):
        records = of_dict(table)
    else:
        rows = cast(Iterable[object], table)  # what is no iterable says so itself
        records = [record_of(one, kind, row, words) for row, one in enumerate(rows, 1)]
    if not records:
        return {name: [] for name in words}
    names = list(dict.fromkeys(name for record in records for name in record))
    for row, record in enumerate(records, 1):
        for name in names:
            if name not in record:
                raise TableError(kind, row, str(name), record, f"{record!r} has no {name}, which others have")
    return checked({name: [record[name] for record in records] for name in names}, kind, words)


def columns_of_frame(table: Frame, kind: str, words: Sequence[str]) -> Columns:
    """The columns of a DataFrame, and its index where it has the name of a column that is missing."""
    if len(set(table.columns)) != len(table.columns):
        raise TableError(kind, 0, "", list(table.columns), "two columns have one name")
    columns = {name: table[name].tolist() for name in table.columns}
    index = table.index.name
    if isinstance(index, str) and index in words and index not in columns:
        columns[index] = table.index.tolist()
    return columns


def is_columns(table: Mapping[object, object]) -> bool:
    """Whether a dict has a list for each column."""
    listed = [isinstance(one, Iterable) and not isinstance(one, (str, Mapping)) for one in table.values()]
    return all(listed) and bool(listed)


def checked(table: Columns, kind: str, columns: Sequence[str]) -> Columns:
    """Columns of which none is unknown, and all are equally long."""
    for name in table:
        if name not in columns:
            raise TableError(kind, 0, str(name), None, f"no column of {kind}, which have {', '.join(columns)}")
    if len({len(column) for column in table.values()}) > 1:
        raise TableError(kind, 0, "", None, "the columns are not equally long")
    return table


def record_of(one: object, kind: str, row: int, columns: Sequence[str]) -> Record:
    """A record by column: from a dict, a named tuple, or a tuple in the order of the columns. A debt may be without its
    class, and a bank without its rule."""
    if isinstance(one, Mapping):
        return dict(one)
    if isinstance(one, tuple) or isinstance(one, list):
        if hasattr(one, "_fields"):
            return dict(zip((field.rstrip("_") for field in getattr(one, "_fields")), one))
        if kind == "debts" and len(one) == 3:
            return dict(zip(("debtor", "creditor", "claim"), one))
        if 2 <= len(one) <= len(columns):
            return dict(zip(columns, one))
    raise TableError(kind, row, "", one, f"{one!r} is not a record of {', '.join(columns)}")


def banks_of_dict(table: Mapping[object, object]) -> List[Record]:
    """Records of banks from a dict: a name to its cash, or to a dict of what else it has."""
    return [{"name": name, **(one if isinstance(one, Mapping) else {"cash": one})} for name, one in table.items()]


def debts_of_dict(table: Mapping[object, object]) -> List[Record]:
    """Records of debts from a dict: (debtor, creditor) or (debtor, creditor, class) to the claim."""
    records: List[Record] = []
    for row, (key, claim) in enumerate(table.items(), 1):
        if not isinstance(key, tuple) or len(key) not in (2, 3):
            raise TableError("debts", row, "", key, f"{key!r} is not a debtor and a creditor")
        records.append({**dict(zip(DEBT_COLUMNS, key)), "claim": claim})
    return records


def name_field(value: object, kind: str, row: int, field: str) -> str:
    """A name as it stands in a file: a text, or an integer as its digits."""
    if isinstance(value, numbers.Integral) and not isinstance(value, bool):
        return str(operator.index(value))
    if not isinstance(value, str):
        raise TableError(kind, row, field, value, f"{value!r} is not a text")
    if value != value.strip(" \t"):
        raise TableError(kind, row, field, value, f"{value!r} has blanks at its ends, which the program drops")
    try:
        value.encode()
    except UnicodeEncodeError:
        raise TableError(kind, row, field, value, f"{value!r} cannot be written as UTF-8") from None
    return value


def number_field(value: object, kind: str, row: int, field: str) -> str:
    """A whole number as it stands in a file, exactly. A text is left to the program."""
    if isinstance(value, str) and value.strip(" \t"):
        return name_field(value.strip(" \t"), kind, row, field)
    number = whole_of(value)
    if number is None or abs(number) >= TOO_LONG:
        raise TableError(kind, row, field, value, f"{value!r} is not a whole number")
    return str(number)


def whole_of(value: object) -> Optional[int]:
    """A whole number, where a value is one: also a float or a decimal number without a fraction."""
    if isinstance(value, numbers.Integral) and not isinstance(value, bool):
        return operator.index(value)
    if not isinstance(value, (float, Decimal)):
        return None
    try:
        return int(value) if -EXACT <= value <= EXACT and value == int(value) else None
    except ArithmeticError:
        return None


def fields_of(column: Sequence[object], kind: str, field: str) -> List[str]:
    """The fields of a column in a file. Equal values of one type are read once."""
    read = number_field if field in ("cash", "outside", "class", "claim") else name_field
    known: Dict[Tuple[type, object], str] = {}
    fields = []
    for row, value in enumerate(column, 1):
        try:
            text = known.get((type(value), value))
        except TypeError:
            text = None
        if text is None:
            text = read(value, kind, row, field)
            known[type(value), value] = text
        fields.append(text)
    return fields


def quoted(field: str) -> str:
    """A field as it stands between commas."""
    if any(one in field for one in ',"\n\r'):
        return '"' + field.replace('"', '""') + '"'
    return field


def csv_of(columns: Mapping[str, List[str]]) -> bytes:
    """A file of records from its columns."""
    together = "".join("".join(column) for column in columns.values())
    records = zip(*columns.values())
    if any(one in together for one in ',"\n\r'):
        lines = [",".join(map(quoted, record)) for record in records]
    else:
        lines = list(map(",".join, records))
    return ("\n".join([",".join(columns), *lines]) + "\n").encode()


def banks_csv(table: object, rule: str) -> bytes:
    """The banks file of a table of banks; `rule` is that of banks in a table without this column."""
    columns = columns_of(table, "banks", BANK_COLUMNS, banks_of_dict)
    need(columns, "banks", ("name", "cash"))
    columns.setdefault("rule", [rule] * len(columns["name"]))
    return csv_of({name: fields_of(columns[name], "banks", name) for name in BANK_COLUMNS if name in columns})


def debts_csv(table: object, class_: int) -> bytes:
    """The debts file of a table of debts; `class_` is that of debts in a table without this column."""
    columns = columns_of(table, "debts", DEBT_COLUMNS, debts_of_dict)
    need(columns, "debts", ("debtor", "creditor", "claim"))
    columns.setdefault("class", [class_] * len(columns["claim"]))
    return csv_of({name: fields_of(columns[name], "debts", name) for name in DEBT_COLUMNS})


def need(there: Mapping[str, object], kind: str, columns: Sequence[str]) -> None:
    """Columns that must be there."""
    for name in columns:
        if name not in there:
            raise TableError(kind, 0, name, None, "the column is missing")


def tables_of_graph(graph: Graph) -> Tuple[List[Record], List[Record]]:
    """The banks and the debts of a networkx graph: nodes with `cash`, and `rule` and `outside` where they have them;
    edges from debtor to creditor with `claim`, and `class` where they have it. Other attributes are passed over."""
    if not graph.is_directed():
        raise TableError("graph", 0, "", graph, "its edges have no direction, from debtor to creditor")
    banks: List[Record] = [
        {"name": name, **chosen(attributes, BANK_COLUMNS[1:])} for name, attributes in graph.nodes(data=True)
    ]
    debts: List[Record] = [
        {"debtor": debtor, "creditor": creditor, **chosen(attributes, DEBT_COLUMNS[2:])}
        for debtor, creditor, attributes in graph.edges(data=True)
    ]
    return banks, debts


def chosen(attributes: Mapping[str, object], names: Sequence[str]) -> Record:
    """The attributes of these names."""
    return {name: attributes[name] for name in names if name in attributes}
