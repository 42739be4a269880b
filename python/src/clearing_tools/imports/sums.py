"""The amounts of a table as whole numbers, and their sums, each with how far rounding may have taken it off."""
import enum
import math
from fractions import Fraction
from typing import Container, Dict, Iterable, List, Mapping, NamedTuple, Optional, Sequence, Union

from .amounts import Amount, AmountError, Amounts, decimals_of
from .tables import Table
from .totals_names import is_called_total

# A sum of whole numbers is this many times as large as what rounding may take from it, at the least.
SURE = 1000


class Special(enum.Enum):
    """What stands in a cell in place of an amount."""

    UNREAD = enum.auto()
    """A text that is no amount, or may be one in two ways: nothing is said of its line's sum until it is read."""


UNREAD = Special.UNREAD
Value = Union[int, None, Special]
"""A whole number, None for what is empty and may be, or `UNREAD`."""


class Sum(NamedTuple):
    """A sum, or None where a value is not read, and how far it may be off."""

    total: Optional[int]
    slack: int


class Values:
    """The amounts of some columns of a table as far as they can be read, without a fault: a list for each row, with
    None for what is empty in a line that is called one of totals, or in a column that such a line may leave empty. They
    are whole numbers, `scale` of which make one."""

    def __init__(self, columns: Sequence[str], rows: Mapping[str, Sequence[Value]], scale: int) -> None:
        self.columns, self.rows, self.scale = columns, rows, scale

    @classmethod
    def read(
        cls, table: Table, amounts: Amounts, columns: Sequence[str], may_be_empty: Container[str] = ()
    ) -> "Values":
        """Reads them of a table."""
        indices = [table.columns[column] for column in columns]
        are_open = [column in may_be_empty or is_called_total(column) for column in columns]
        lines: Dict[str, List[Union[Amount, None, Special]]] = {}
        for row, cells in table.cells.items():
            may = [True] * len(are_open) if is_called_total(row) else are_open
            lines[row] = [read_value(cells[index], is_open, amounts) for index, is_open in zip(indices, may)]
        scale = amounts.scale()
        return cls(columns, {row: [scaled_up(value, scale) for value in line] for row, line in lines.items()}, scale)


def read_value(text: str, may_be_empty: bool, amounts: Amounts) -> Union[Amount, None, Special]:
    """The amount of a cell, as far as it can be read."""
    try:
        return None if may_be_empty and text == "" else amounts.read(text)
    except AmountError:
        return UNREAD


def scaled_up(value: Union[Amount, None, Special], scale: int) -> Value:
    """A value as a whole number, so many of which make one."""
    if value is None or isinstance(value, Special):
        return value
    return value * scale if isinstance(value, int) else value.numerator * (scale // value.denominator)


def sum_with_slack(values: Sequence[Value], scale: int) -> Sum:
    """A sum, and how far it may be off as sheets print it: half of its last digit for each value."""
    if UNREAD in values:
        return Sum(None, 0)
    there = [value for value in values if isinstance(value, int)]
    if scale == 1 or not there:
        return Sum(sum(there), slack_of_units(there))
    places = decimals_of(Fraction(math.gcd(*there, scale), scale))
    return Sum(sum(there), len(there) * scale // (2 * 10**places) if places else 0)


def slack_of_units(numbers: Sequence[int]) -> int:
    """How far a sum of whole numbers may be off that were rounded themselves: half a unit for each of them, where the
    sum is at least so many times as much that this is no other number."""
    slack = sum(number != 0 for number in numbers) // 2
    return slack if sum(numbers) >= 2 * SURE * slack else 0


def column_sums(lines: Iterable[Sequence[Value]], scale: int) -> List[Sum]:
    """The sum of each column of some lines."""
    return [sum_with_slack(column, scale) for column in zip(*lines)]
