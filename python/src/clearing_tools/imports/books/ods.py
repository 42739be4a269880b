"""Workbooks of the form .ods, by odfpy."""
import re
from typing import TYPE_CHECKING, Callable, Dict, Iterator, List, Tuple

from ...runner import lacking
from ..amounts import SIGNS
from ..faults import SheetError
from .cells import ERROR, cell_of, in_per_cent, of_number, of_text, of_truth
from .rows import Row, check_count, filled_down, letters, limited
from .scan import Scan
from .scan_ods import CELLS, NUMERIC, OFFICE, ROW_GROUPS, TABLE, TEXT, ContentScan

if TYPE_CHECKING:
    from odf.element import Element


class OdsBook:
    """A workbook of the form .ods."""

    def __init__(self, name: str, scans: Dict[str, Scan]) -> None:
        try:
            from odf import opendocument, table, teletype
        except ImportError as fault:
            raise lacking("odf", "sheets", f", which reads {name}") from fault
        scan = scans.get("content.xml")
        if not isinstance(scan, ContentScan):
            raise SheetError(f"{name} has no part for its sheets")
        self.name, self.scan, self.text_of = name, scan, teletype.extractText
        sheets = opendocument.load(name).spreadsheet.getElementsByType(table.Table)
        self.sheets: "Dict[str, Element]" = {sheet.attributes.get((TABLE, "name"), ""): sheet for sheet in sheets}
        for title, there in scan.filled.items():
            if title not in self.sheets:
                check_count(name, title, 0, max(there, 1))
        self.hidden = 0

    def titles(self) -> List[str]:
        """The titles of the sheets, in their order."""
        return list(self.sheets)

    def may_be_meant(self, title: str) -> bool:
        """Whether a sheet has something in it."""
        return next(self.rows(title), None) is not None

    def rows(self, title: str) -> Iterator[Tuple[int, Row]]:
        """The rows of a sheet that have something in them."""
        sheet = self.sheets[title]
        return limited(self.name, filled_down(self.all_rows(sheet), merged_in(sheet)))

    def all_rows(self, sheet: "Element") -> Iterator[Tuple[int, Row]]:
        """The rows of a sheet, each as often as it stands there."""
        self.hidden, number = 0, 1
        for row in rows_in(sheet):
            count = int(row.attributes.get((TABLE, "number-rows-repeated"), 1))
            cells = self.cells_of(row, number)
            if cells:
                self.hidden += count * (row.attributes.get((TABLE, "visibility"), "visible") != "visible")
                for more in range(count):
                    yield number + more, list(cells)
            number += count

    def cells_of(self, row: "Element", number: int) -> Row:
        """The cells of a row up to the last that is not empty."""
        cells: Row = []
        empty = 0
        for child in row.childNodes:
            kind = getattr(child, "qname", ("", ""))
            if kind[0] != TABLE or kind[1] not in CELLS:
                continue
            count = int(child.attributes.get((TABLE, "number-columns-repeated"), 1))
            at = len(cells) + empty
            cell = self.cell(child, lambda: f"{letters(at)}{number}")
            if cell == "":
                empty += count
                continue
            cells += [""] * empty + [cell] * count
            empty = 0
        return cells

    def cell(self, element: "Element", place: Callable[[], str]) -> str:
        """What stands in a cell, without the comments on it."""
        has = element.attributes.get
        paragraphs = [child for child in element.childNodes if getattr(child, "qname", None) == (TEXT, "p")]
        kind, text = has((OFFICE, "value-type")), "\n".join(map(self.text_of, paragraphs)).strip()
        text = text or str(has((OFFICE, "string-value")) or "").strip()
        if kind is None and has((TABLE, "formula")) and not text:
            raise SheetError(
                f"{self.name} {place()}: a formula whose value is not kept; open it in a spreadsheet and save it"
            )
        if ERROR.fullmatch(text):
            return of_text(text)
        if kind in NUMERIC:
            currency = has((OFFICE, "currency"))
            number = of_number(float(has((OFFICE, "value"))), SIGNS.get(currency, currency))
            return in_per_cent(number) if kind == "percentage" else number
        if kind in ("date", "time"):
            return cell_of(str(has((OFFICE, f"{kind}-value")) or text), None, "is a date, and no amount")
        if kind == "boolean":
            return of_truth(str(has((OFFICE, "boolean-value")) or text))
        return of_text(text) if text else ""

    def sheet(self, title: str) -> Tuple[List[Tuple[int, Row]], int]:
        """The rows of a sheet, and how many of them are hidden."""
        seen = sum(cell != "" for _, row in self.all_rows(self.sheets[title]) for cell in row)
        check_count(self.name, title, seen, self.scan.filled.get(title, 0))
        return list(self.rows(title)), self.hidden


def merged_in(sheet: "Element") -> Dict[int, Dict[int, int]]:
    """Cells that are merged downward: by the row and the place of the first column of each, the last row."""
    merged: Dict[int, Dict[int, int]] = {}
    number = 1
    for row in rows_in(sheet):
        at = 0
        for cell in row.childNodes:
            kind = getattr(cell, "qname", ("", ""))
            if kind[0] != TABLE or kind[1] not in CELLS:
                continue
            span = str(cell.attributes.get((TABLE, "number-rows-spanned"), "1"))
            if re.fullmatch("[0-9]{1,7}", span, re.ASCII) and int(span) > 1:
                merged.setdefault(number, {})[at] = number + int(span) - 1
            at += int(cell.attributes.get((TABLE, "number-columns-repeated"), 1))
        number += int(row.attributes.get((TABLE, "number-rows-repeated"), 1))
    return merged


def rows_in(element: "Element") -> "Iterator[Element]":
    """The rows of a sheet, those in groups and headers too."""
    for child in element.childNodes:
        kind = getattr(child, "qname", ("", ""))
        if kind == (TABLE, "table-row"):
            yield child
        elif kind[0] == TABLE and kind[1] in ROW_GROUPS:
            yield from rows_in(child)
