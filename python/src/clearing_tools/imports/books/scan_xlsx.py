"""What the parts of a workbook of the form .xlsx show."""
import re
from typing import Dict, List, Set, Tuple

from ..faults import SheetError
from .scan import LAST_COLUMN, MAX_CELLS, MAX_FORMAT, MAX_ROW, MAX_TEXT, NUMBER, Attributes, Scan, anew, see_title

MAIN = "http://schemas.openxmlformats.org/spreadsheetml/2006/main"


class WorksheetScan(Scan):
    """A sheet of the form .xlsx: how many of its cells have something in them, formulas without a value, and hidden
    rows. Rows and the cells of a row stand in their order, or the library would pass over some."""

    def __init__(self, name: str, part: str) -> None:
        super().__init__(name, part)
        self.cells, self.filled, self.hidden, self.walked, self.row = 0, 0, 0, 0, 0
        self.column, self.number, self.kind = "", "", "n"
        self.has_formula = self.has_value = False
        self.unknown: List[str] = []
        self.merged: List[str] = []
        self.sheets, self.values, self.value, self.place = 0, 0, "", ""

    def start(self, space: str, tag: str, attributes: Attributes) -> None:
        depth, inside = len(self.path), self.path[1:2] == [(MAIN, "sheetData")]
        if depth == 2 and tag == "sheetData":
            self.sheets += 1
            if space != MAIN or self.sheets > 1:
                raise anew(self.name, f"has rows of another kind, or twice, in {self.part}")
        elif inside and depth == 3:
            self.only(space, tag, ("row",))
            self.see_row(attributes)
        elif inside and depth == 4:
            self.only(space, tag, ("c", "extLst"))
            if tag == "c":
                self.see_cell(attributes)
        elif inside and depth == 5 and self.up()[1] == "c":
            self.only(space, tag, ("f", "v", "is", "extLst"))
            self.has_formula |= tag == "f"
            self.values += tag in ("v", "is")
            self.value = ""
            if self.values > 1:
                raise anew(self.name, f"has a cell {self.place[:20]} with two values")
        elif inside and depth > 5 and self.path[4] == (MAIN, "v"):
            raise anew(self.name, f"has a cell {self.place[:20]} with an element in its value")
        elif depth == 3 and (space, tag) == (MAIN, "mergeCell"):
            self.merged.append(attributes.get("ref", ""))
        elif space == MAIN and (tag in ("row", "c") or tag == "sheetData"):
            raise anew(self.name, f"has a {tag} where no library looks for one, in {self.part}")

    def only(self, space: str, tag: str, known: Tuple[str, ...]) -> None:
        """Refuses an element that the library passes over."""
        if space != MAIN or tag not in known:
            raise anew(self.name, f"has an element {tag[:40]} among its cells, which is not read, in {self.part}")

    def see_row(self, attributes: Attributes) -> None:
        """Refuses a row behind the last of a sheet, or not behind the one before it."""
        number, before = attributes.get("r", ""), self.row
        self.hidden += attributes.get("hidden") in ("1", "true")
        self.row = int(number) if re.fullmatch("[0-9]{1,15}", number, re.ASCII) else before + 1 if not number else 0
        self.column, self.number = "", str(self.row)
        if not before < self.row <= MAX_ROW:
            raise SheetError(
                f"{self.name} has a row {number[:20]} behind row {before}; rows rise to {MAX_ROW:,}: save it anew"
            )

    def see_cell(self, attributes: Attributes) -> None:
        """Refuses a cell of a row behind the last column of a sheet, or not behind the cell before it."""
        self.cells += 1
        place, self.kind = attributes.get("r", ""), attributes.get("t", "n")
        self.has_formula, self.has_value, self.values = False, False, 0
        column = place.rstrip("0123456789")
        if not re.fullmatch("[0-9]{1,9}", attributes.get("s", "0"), re.ASCII):
            raise anew(self.name, f"has a cell {place[:20]} of a style that is no number")
        if column:
            if not (len(self.column), self.column) < (len(column), column) <= (len(LAST_COLUMN), LAST_COLUMN):
                behind = self.column or "none"
                raise SheetError(
                    f"{self.name} has a cell {place[:20]} behind column {behind}; columns rise to {LAST_COLUMN}: "
                    "save it anew"
                )
            if place[len(column) :] != self.number:
                raise anew(self.name, f"has a cell {place[:20]} in row {self.number}")
        self.column, self.place = column or self.column, place

    def text(self, text: str) -> None:
        if len(self.path) >= 5 and self.path[3][1] == "c" and self.path[4][1] in ("v", "is"):
            self.value += text
            if len(self.value) > MAX_TEXT:
                raise SheetError(f"{self.name} has a cell with more than {MAX_TEXT:,} characters")

    def end(self, space: str, tag: str) -> None:
        depth = len(self.path)
        if depth == 5 and tag in ("v", "is") and self.path[3] == (MAIN, "c"):
            self.see_value(tag)
        elif depth == 4 and tag == "c" and self.path[1] == (MAIN, "sheetData"):
            self.filled += self.has_value
            if self.has_formula and not self.has_value and self.kind != "str":
                self.unknown.append(self.place or "?")
        elif depth == 3 and tag == "row":
            self.walked += place_of(self.column)
            self.column = ""
        if max(self.cells, self.walked) > MAX_CELLS:
            raise SheetError(f"{self.name} has more than {MAX_CELLS:,} cells")

    def see_value(self, tag: str) -> None:
        """A value that Python reads and no spreadsheet does, such as 1_000, is refused."""
        value = self.value.strip()
        if not value:
            return
        self.has_value = True
        is_number = tag == "v" and self.kind == "n"
        if (
            is_number
            and not NUMBER.fullmatch(value)
            or tag == "v"
            and self.kind == "s"
            and not re.fullmatch("[0-9]{1,9}", value, re.ASCII)
        ):
            raise anew(self.name, f"has {value[:40]!r} as the number of a cell {self.place[:20]}")


def merged_down(ranges: List[str]) -> Dict[int, Dict[int, int]]:
    """Cells that are merged downward: by the row and the place of the first column of each, the last row."""
    merged: Dict[int, Dict[int, int]] = {}
    for one in ranges:
        ends = re.fullmatch(r"([A-Z]{1,3})([0-9]{1,7}):([A-Z]{1,3})([0-9]{1,7})", one, re.ASCII)
        if ends and int(ends[2]) < int(ends[4]) <= MAX_ROW:
            merged.setdefault(int(ends[2]), {})[place_of(ends[1]) - 1] = int(ends[4])
    return merged


class StringsScan(Scan):
    """The texts that the cells of a workbook share."""

    def __init__(self, name: str, part: str) -> None:
        super().__init__(name, part)
        self.letters = 0

    def start(self, space: str, tag: str, attributes: Attributes) -> None:
        depth = len(self.path)
        is_known = space == MAIN and (tag in ("si", "extLst") if depth == 2 else True)
        if depth > 1 and not is_known and self.path[1][1] != "extLst":
            raise anew(self.name, f"has an element {tag[:40]} among its texts, which is not read, in {self.part}")
        if depth == 2:
            self.letters = 0

    def text(self, text: str) -> None:
        self.letters += len(text)
        if self.letters > MAX_TEXT:
            raise SheetError(f"{self.name} has a cell with more than {MAX_TEXT:,} characters")


class WorkbookScan(Scan):
    """The list of the sheets of a workbook of the form .xlsx."""

    def __init__(self, name: str, part: str) -> None:
        super().__init__(name, part)
        self.titles: Set[str] = set()

    def start(self, space: str, tag: str, attributes: Attributes) -> None:
        depth = len(self.path)
        is_list = depth == 2 and tag == "sheets"
        is_sheet = depth == 3 and self.up()[1] == "sheets"
        if is_list and space != MAIN or is_sheet and (space, tag) != (MAIN, "sheet"):
            raise anew(self.name, "has a list of sheets with one of another kind")
        if is_sheet:
            see_title(self.name, attributes.get("name", ""), self.titles)


class StylesScan(Scan):
    """The styles of a workbook of the form .xlsx."""

    def start(self, space: str, tag: str, attributes: Attributes) -> None:
        if tag == "numFmt" and len(attributes.get("formatCode", "")) > MAX_FORMAT:
            raise SheetError(f"{self.name} has a number format with more than {MAX_FORMAT:,} characters")


def place_of(column: str) -> int:
    """The place of a column from 1, by its letters; 0 of none."""
    at = 0
    for letter in column:
        at = 26 * at + ord(letter) - 64
    return at
