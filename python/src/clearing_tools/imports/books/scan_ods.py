"""What the parts of a workbook of the form .ods show."""
import re
from typing import Dict, Set

from ..faults import SheetError
from .scan import MAX_BLANKS, MAX_CELLS, MAX_COLUMNS, MAX_ROW, MAX_TEXT, NUMBER, Attributes, Scan, anew, see_title

OFFICE = "urn:oasis:names:tc:opendocument:xmlns:office:1.0"
TABLE = "urn:oasis:names:tc:opendocument:xmlns:table:1.0"
TEXT = "urn:oasis:names:tc:opendocument:xmlns:text:1.0"
CELLS = ("table-cell", "covered-table-cell")
ROW_GROUPS = ("table-row-group", "table-header-rows", "table-rows")
NUMERIC = ("float", "currency", "percentage")

STOPS = ("body", "scripts", "meta", "font-face-decls", "settings", "styles", "automatic-styles", "master-styles")
"""Elements of the namespace of the office behind which the library reads no more."""
DRAWN = (
    "urn:oasis:names:tc:opendocument:xmlns:drawing:1.0",
    "urn:oasis:names:tc:opendocument:xmlns:dr3d:1.0",
    "urn:oasis:names:tc:opendocument:xmlns:form:1.0",
    "urn:oasis:names:tc:opendocument:xmlns:svg-compatible:1.0",
)


class ContentScan(Scan):
    """The sheets of a workbook of the form .ods: how many cells of each have something in them."""

    def __init__(self, name: str, part: str) -> None:
        super().__init__(name, part)
        self.filled: Dict[str, int] = {}
        self.titles: Set[str] = set()
        self.title, self.cells, self.blanks, self.bodies = "", 0, 0, 0
        self.row_filled, self.rows, self.columns = 0, 1, 1
        self.letters, self.is_filled = 0, False

    def start(self, space: str, tag: str, attributes: Attributes) -> None:
        depth = len(self.path)
        if space == OFFICE and tag in STOPS:
            self.see_office(tag, depth)
        elif tag == "table" and space == TABLE:
            self.see_table(attributes)
        elif tag in ("table-row", *CELLS):
            self.see_part(space, tag, attributes)
        elif space == TEXT and tag == "s":
            self.see_blanks(attributes)

    def see_office(self, tag: str, depth: int) -> None:
        """Refuses an element behind which the library reads no more."""
        self.bodies += tag == "body"
        if depth != 2 or self.bodies > 1 or tag != "body" and self.bodies:
            raise anew(self.name, f"has an element {tag} behind which nothing is read")

    def see_table(self, attributes: Attributes) -> None:
        """Refuses a sheet within another, and a second one of a title."""
        if [tag for _, tag in self.path] != ["document-content", "body", "spreadsheet", "table"]:
            raise anew(self.name, "has a table that is no sheet")
        self.title = attributes.get(f"{TABLE} name", "")
        see_title(self.name, self.title, self.titles)
        self.filled[self.title] = 0

    def see_part(self, space: str, tag: str, attributes: Attributes) -> None:
        """A row stands in a sheet or in a group of rows, and a cell in a row."""
        above_space, above = self.up()
        is_there = above == "table-row" if tag in CELLS else above == "table" or above in ROW_GROUPS
        if space != TABLE or above_space != TABLE or not is_there or any(seen != TABLE for seen, _ in self.path[3:]):
            raise anew(self.name, f"has a {tag} in an element {above[:40]}, where it is not read")
        if tag == "table-row":
            self.rows, self.row_filled = self.count(attributes, "number-rows-repeated", MAX_ROW), 0
            return
        self.cells += 1
        self.columns = self.count(attributes, "number-columns-repeated", MAX_COLUMNS)
        kind, self.letters = attributes.get(f"{OFFICE} value-type"), 0
        self.is_filled = kind not in (None, "string") or bool(attributes.get(f"{OFFICE} string-value", "").strip())
        if kind in NUMERIC and not NUMBER.fullmatch(attributes.get(f"{OFFICE} value", "")):
            raise anew(
                self.name,
                f"has {attributes.get(f'{OFFICE} value', '')[:40]!r} as the number of a cell of {self.title[:80]}",
            )
        if self.cells > MAX_CELLS:
            raise SheetError(f"{self.name} has more than {MAX_CELLS:,} cells")

    def count(self, attributes: Attributes, word: str, most: int) -> int:
        """How often a row or a cell stands there."""
        text = attributes.get(f"{TABLE} {word}", "1")
        if not re.fullmatch("[0-9]{1,9}", text, re.ASCII) or not 1 <= int(text) <= most:
            raise anew(self.name, f"has {text[:40]!r} as a {word}, which is not a number from 1 to {most:,}")
        return int(text)

    def see_blanks(self, attributes: Attributes) -> None:
        """Counts the blanks that one element stands for."""
        text = attributes.get(f"{TEXT} c", "1")
        if not re.fullmatch("[0-9]{1,15}", text, re.ASCII):
            raise anew(self.name, f"has {text[:40]!r} as a number of blanks")
        self.blanks += int(text)
        if self.blanks > MAX_BLANKS:
            raise SheetError(f"{self.name} has more than {MAX_BLANKS:,} blanks")

    def text(self, text: str) -> None:
        at = next((at for at in range(len(self.path) - 1, 3, -1) if self.path[at][1] in CELLS), 0)
        if not at or not text.strip():
            return
        inner = self.path[at + 1 :]
        if any(space in DRAWN or (space, tag) == (OFFICE, "annotation") for space, tag in inner):
            return
        if not inner or inner[0] != (TEXT, "p"):
            raise anew(self.name, f"has a text in a cell of {self.title[:80]} that is not read")
        self.is_filled = True
        self.letters += len(text)
        if self.letters > MAX_TEXT:
            raise SheetError(f"{self.name} has a cell with more than {MAX_TEXT:,} characters")

    def end(self, space: str, tag: str) -> None:
        if tag in CELLS and space == TABLE:
            self.row_filled += self.columns * self.is_filled
            self.is_filled = False
        elif tag == "table-row" and space == TABLE:
            self.filled[self.title] += self.row_filled * self.rows
            if self.filled[self.title] > MAX_CELLS:
                raise SheetError(f"{self.name} has more than {MAX_CELLS:,} cells")
