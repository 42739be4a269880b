"""The cells, rows and tables of a report, as text for its page and its documents, and as numbers for files of CSV."""
import csv
import io
from typing import List, NamedTuple, Optional, Tuple, Union

from ..money import Scale
from .charts.figure import Data

NONE, NOT = "0", "\u2013"  # none, and not applicable
STATE_WORDS = {
    "sound": "sound",
    "fundamental": "own fundamentals",
    "contagion": "contagion",
    "gridlock": "contagion, gridlock",
}


class Cell(NamedTuple):
    """A cell: its text, the class that says what it is, and what it is sorted by."""

    text: str
    kind: str = ""
    value: Union[str, int, None] = None


class Row(NamedTuple):
    """A row: its bank's place, or none, its head, the state whose mark stands before it, its cells, whether it
    stands on paper too."""

    place: Optional[int]
    head: str
    state: str
    cells: List[Cell]
    is_printed: bool = True


class Table(NamedTuple):
    """A table: its title, the unit below it, the heads of its columns (each with a class), rows, a last row, where
    it comes from."""

    key: str
    title: str
    unit: str
    heads: List[Tuple[str, str]]
    rows: List[Row]
    foot: Optional[Row]
    tasks: str
    data: Optional[Data] = None
    note: str = ""


def csv_of(data: Data) -> str:
    """Numbers as a file of CSV."""
    text = io.StringIO()
    csv.writer(text, lineterminator="\n").writerows([data.columns, *data.rows])
    return text.getvalue()


def amount(scale: Scale, units: int, kind: str = "") -> Cell:
    """An amount as a cell: none is grey."""
    return Cell(scale.number(units) if units else NONE, kind if units else "nil", units)
