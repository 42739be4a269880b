"""Workbooks of the form .xlsx, by openpyxl."""
import re
from typing import TYPE_CHECKING, Dict, Iterator, List, Optional, Tuple

from ...runner import lacking
from ..faults import SheetError
from .cells import LOOKED_AT, currency_in, in_per_cent, of_date, of_number, of_text, of_truth
from .rows import Row, check_count, filled_down, limited
from .scan import Scan
from .scan_xlsx import WorksheetScan, merged_down

if TYPE_CHECKING:
    from openpyxl.cell.read_only import ReadOnlyCell
    from openpyxl.worksheet._read_only import ReadOnlyWorksheet


class XlsxBook:
    """A workbook of the form .xlsx."""

    def __init__(self, name: str, scans: Dict[str, Scan]) -> None:
        try:
            import openpyxl

            load = openpyxl.load_workbook
        except (ImportError, AttributeError) as fault:
            raise lacking("openpyxl", "sheets", f", which reads {name}") from fault
        self.name, self.scans = name, scans
        self.formats: Dict[int, Tuple[bool, Optional[str]]] = {}
        # A file that is open may have any name. Its rows are read as they are asked for.
        book = load(open(name, "rb"), read_only=True, data_only=True, keep_links=False)
        self.sheets: "Dict[str, ReadOnlyWorksheet]" = {sheet.title: sheet for sheet in book.worksheets}
        self.seen = 0

    def titles(self) -> List[str]:
        """The titles of the sheets, in their order."""
        return list(self.sheets)

    def may_be_meant(self, title: str) -> bool:
        """Whether a sheet is shown and has something in it."""
        return self.sheets[title].sheet_state == "visible" and next(self.rows(title), None) is not None

    def rows(self, title: str) -> Iterator[Tuple[int, Row]]:
        """The rows of a sheet that have something in them."""
        self.seen, sheet = 0, self.sheets[title]
        sheet.reset_dimensions()
        rows = ((number, [self.cell(cell) for cell in row]) for number, row in enumerate(sheet.iter_rows(), 1))
        scan = self.scan_of(title)
        return limited(self.name, filled_down(rows, merged_down(scan.merged if scan else [])))

    def scan_of(self, title: str) -> Optional[WorksheetScan]:
        """What the part of a sheet shows."""
        scan = self.scans.get(str(getattr(self.sheets[title], "_worksheet_path", "")).lstrip("/"))
        return scan if isinstance(scan, WorksheetScan) else None

    def cell(self, cell: "ReadOnlyCell") -> str:
        """What stands in a cell."""
        value = cell.value
        if value is None:
            return ""
        self.seen += 1
        if isinstance(value, bool):
            return of_truth(str(value))
        if isinstance(value, (int, float)):
            is_percent, currency = self.format_of(cell)
            number = of_number(value, currency)
            return in_per_cent(number) if is_percent else number
        return of_text(value) if isinstance(value, str) else of_date(value)

    def format_of(self, cell: "ReadOnlyCell") -> Tuple[bool, Optional[str]]:
        """Whether a cell is shown in per cent, and in which currency."""
        style = cell._style_id
        if style not in self.formats:
            form = (cell.number_format or "")[:LOOKED_AT]
            self.formats[style] = ("%" in re.sub(r'"[^"]*"', "", form), currency_in(form))
        return self.formats[style]

    def sheet(self, title: str) -> Tuple[List[Tuple[int, Row]], int]:
        """The rows of a sheet, and how many of them are hidden."""
        scan = self.scan_of(title)
        if scan is None:
            raise SheetError(f"{self.name} has no part for the sheet {title}")
        if scan.unknown:
            what = (
                f"a formula whose value is not kept ({len(scan.unknown):,} in all); open it in a spreadsheet and "
                "save it"
            )
            raise SheetError(f"{self.name} sheet {title} {scan.unknown[0]}: {what}")
        rows = list(self.rows(title))
        check_count(self.name, title, self.seen, scan.filled)
        return rows, scan.hidden
