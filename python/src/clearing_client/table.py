"""Tables of records, kept by columns."""
from __future__ import annotations

from typing import (
    TYPE_CHECKING, Any, Callable, Dict, Iterable, Iterator, List, Optional, Sequence, Tuple, Type, TypeVar, Union,
    get_type_hints, overload,
)

from .errors import package

if TYPE_CHECKING:
    from pandas import DataFrame

R = TypeVar("R", bound=Tuple[object, ...], covariant=True)
Record = TypeVar("Record", bound=Tuple[object, ...])

SHOWN = 30


def fields_of(record: Type[Record]) -> Tuple[str, ...]:
    """The names of the fields of a kind of named tuple."""
    fields: Tuple[str, ...] = getattr(record, "_fields")
    return fields


def words_of(record: Type[Record]) -> Tuple[str, ...]:
    """The names of a record's columns, as the program's texts have them.

    >>> from clearing_client.records import Debt
    >>> words_of(Debt)
    ('debtor', 'creditor', 'class', 'claim')
    """
    return tuple(field.rstrip("_") for field in fields_of(record))


class Table(Sequence[R]):
    """Records of one kind in the order of the program's text: a sequence of named tuples, kept by columns.

    >>> from clearing_client.records import Debt
    >>> table = Table(Debt, [["A", "B"], ["B", "C"], [1, 1], [10, 9]])
    >>> len(table), table[1]
    (2, Debt(debtor='B', creditor='C', class_=1, claim=9))
    >>> table.column("claim")
    [10, 9]
    >>> print(table)
    debtor  creditor  class  claim
    A       B             1     10
    B       C             1      9
    """

    __slots__ = ("_record", "_values")

    def __init__(self, record: Type[R], values: Sequence[Sequence[object]]) -> None:
        """A table of a kind of record, from the values of each column; all columns are equally long."""
        self._record = record
        self._values = [list(column) for column in values]
        if len(self._values) != len(self.columns) or len({len(column) for column in self._values}) != 1:
            raise ValueError(f"not the columns {', '.join(self.columns)}, equally long")

    @classmethod
    def of(cls, record: Type[Record], records: Sequence[Record]) -> "Table[Record]":
        """A table of records."""
        return Table(record, [[one[place] for one in records] for place in range(len(words_of(record)))])

    @property
    def columns(self) -> Tuple[str, ...]:
        """The names of the columns."""
        return words_of(self._record)

    def column(self, name: str) -> List[Any]:
        """The values of a column, in order. Amounts are integers, names are texts: which, no type can say of a name."""
        return list(self._values[self.columns.index(name)])

    def __len__(self) -> int:
        return len(self._values[0])

    def __iter__(self) -> Iterator[R]:
        return map(self._make, zip(*self._values))

    @property
    def _make(self) -> Callable[[Iterable[object]], R]:
        """What makes a record of its values."""
        make: Callable[[Iterable[object]], R] = getattr(self._record, "_make")
        return make

    @overload
    def __getitem__(self, place: int) -> R:
        ...

    @overload
    def __getitem__(self, place: slice) -> "Table[R]":
        ...

    def __getitem__(self, place: Union[int, slice]) -> "Union[R, Table[R]]":
        if isinstance(place, slice):
            return Table(self._record, [column[place] for column in self._values])
        return self._make(column[place] for column in self._values)

    def __eq__(self, other: object) -> bool:
        if not isinstance(other, Table):
            return NotImplemented
        return self._record is other._record and self._values == other._values

    def __hash__(self) -> int:
        return hash((self._record, tuple(tuple(column) for column in self._values)))

    def __repr__(self) -> str:
        return f"<Table of {len(self)}: {', '.join(self.columns)}>"

    def __str__(self) -> str:
        """The first rows, aligned; numbers to the right."""
        right = [get_type_hints(self._record)[field] is int for field in fields_of(self._record)]
        shown = [[name, *map(str, column[:SHOWN])] for name, column in zip(self.columns, self._values)]
        width = [max(map(len, column)) for column in shown]
        lines = [
            "  ".join(cell.rjust(n) if by else cell.ljust(n) for cell, n, by in zip(cells, width, right)).rstrip()
            for cells in zip(*shown)
        ]
        if len(self) > SHOWN:
            lines.append(f".. {len(self) - SHOWN} more")
        return "\n".join(lines)

    def _repr_html_(self) -> Optional[str]:
        """What a notebook shows: the table as pandas shows it, where pandas is there."""
        try:
            shown: Optional[str] = self.to_pandas()._repr_html_()
        except ImportError:
            return None
        return shown

    def to_pandas(self) -> DataFrame:
        """A pandas `DataFrame` with a row for each record; amounts have the type int64, names are texts."""
        pandas = package("pandas", "to_pandas")
        types = get_type_hints(self._record)
        kinds = [types[field] for field in fields_of(self._record)]
        columns: Dict[str, object] = {}
        for name, kind, column in zip(self.columns, kinds, self._values):
            columns[name] = pandas.Series(column, dtype={int: "int64", bool: "bool"}.get(kind, "object"))
        return pandas.DataFrame(columns)
