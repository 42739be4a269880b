"""The rows of a sheet of a workbook, however it is read."""
from typing import Dict, Iterator, List, Tuple

from ..faults import SheetError
from .scan import MAX_CELLS

Row = List[str]
"""The cells of a row, each a text, that of a workbook with its number."""


def letters(at: int) -> str:
    """The name of a column by its place from 0, as spreadsheets name it."""
    text = ""
    at += 1
    while at:
        at, rest = divmod(at - 1, 26)
        text = chr(65 + rest) + text
    return text


def filled_down(rows: Iterator[Tuple[int, Row]], merged: Dict[int, Dict[int, int]]) -> Iterator[Tuple[int, Row]]:
    """Rows in which a text stands in each row that its cell was merged over, as the sheet shows it. An amount stands
    once."""
    open_: Dict[int, Tuple[int, str]] = {}
    for number, row in rows:
        for at, (last, text) in list(open_.items()):
            if number > last:
                del open_[at]
                continue
            row += [""] * (at + 1 - len(row))
            if row[at] == "":
                row[at] = text
        for at, last in merged.get(number, {}).items():
            text = row[at] if at < len(row) else ""
            if text != "" and getattr(text, "value", None) is None:
                open_[at] = (last, text)
        yield number, row


def limited(name: str, rows: Iterator[Tuple[int, Row]]) -> Iterator[Tuple[int, Row]]:
    """Rows without empty cells at their ends, none empty, and no more cells in all than may be."""
    count = 0
    for number, row in rows:
        while row and row[-1] == "":
            row.pop()
        count += len(row)
        if count > MAX_CELLS:
            raise SheetError(f"{name} has more than {MAX_CELLS:,} cells")
        if row:
            yield number, row


def check_count(name: str, title: str, seen: int, there: int) -> None:
    """Refuses a sheet of which the library has seen fewer cells than stand there."""
    if seen < there:
        raise SheetError(
            f"{name} sheet {title} has {there:,} cells with something in them, and {seen:,} of them are read: open "
            "it in a spreadsheet"
            " and save it anew"
        )
