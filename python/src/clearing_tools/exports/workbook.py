"""Workbooks of tables, for outputs whose name ends with .xlsx: one sheet a table, its header frozen; numbers as
numbers, and names as text that no spreadsheet takes for a formula. The same tables make the same bytes."""
import datetime
import io
import re
import zipfile
from decimal import Decimal
from typing import TYPE_CHECKING, Iterable, Mapping, Optional, Sequence, Union

from .. import files
from ..runner import StrPath, ToolError, lacking

if TYPE_CHECKING:
    from openpyxl.cell import Cell
    from openpyxl.worksheet._write_only import WriteOnlyWorksheet

Tables = Mapping[str, Iterable[Sequence[object]]]
"""Tables by their titles, each its records, the header first."""
DIGITS, MOST_ROWS = 15, 1_048_576
EPOCH = (1980, 1, 1, 0, 0, 0)
# What openpyxl says of when a workbook was made.
MADE = re.compile(rb"(<dcterms:(?:created|modified)[^>]*>)[^<]*(?=<)")


def is_book(name: Optional[StrPath]) -> bool:
    """Whether a file is to be a workbook, by its ending."""
    return name is not None and str(name).casefold().endswith(".xlsx")


def number_of(value: object) -> Union[int, Decimal, None]:
    """A number that a spreadsheet keeps to its last digit, or nothing."""
    if isinstance(value, (int, Decimal)) and not isinstance(value, bool):
        digits = str(value).lstrip("-").replace(".", "").lstrip("0")
        return value if len(digits) <= DIGITS else None
    return None


def book_of(tables: Tables) -> bytes:
    """The bytes of a workbook of some tables, each its records by its title, the header first. Fails where a text
    cannot stand in one, or a table is too long."""
    try:
        from openpyxl import Workbook
    except ImportError as fault:
        raise lacking("openpyxl", "sheets", ", which writes .xlsx") from fault
    book = Workbook(write_only=True)
    for title, records in tables.items():
        sheet = book.create_sheet(title)
        sheet.freeze_panes = "A2"
        for row, record in enumerate(records, 1):
            if row > MOST_ROWS:
                raise ToolError(f"the table {title} has more than the {MOST_ROWS:,} rows of a sheet; write it as .csv")
            sheet.append([cell_of(sheet, value) for value in record])
    content = io.BytesIO()
    book.save(content)
    return without_dates(content)


def cell_of(sheet: "WriteOnlyWorksheet", value: object) -> "Cell":
    """A cell of a number, or of a text as it is."""
    from openpyxl.cell import WriteOnlyCell

    number = number_of(value)
    if number is not None:
        cell = WriteOnlyCell(sheet, number)
        places = -int(number.as_tuple().exponent) if isinstance(number, Decimal) else 0
        if places > 0:
            cell.number_format = "0." + "0" * places
        return cell
    text = "" if value is None else str(value)
    if re.search("[\x00-\x08\x0b\x0c\x0e-\x1f\ufffe\uffff]", text):
        raise ToolError(f"{text!r} cannot stand in a workbook; write it as .csv")
    cell = WriteOnlyCell(sheet, "x")
    cell.value = text
    cell.data_type = "s"
    cell.quotePrefix = 1 if text[:1] in tuple("=+-@") else 0
    return cell


def without_dates(book: io.BytesIO) -> bytes:
    """A workbook without the time at which it was made."""
    plain = io.BytesIO()
    with zipfile.ZipFile(book) as archive, zipfile.ZipFile(plain, "w", zipfile.ZIP_DEFLATED) as other:
        for info in archive.infolist():
            content = archive.read(info)
            if info.filename == "docProps/core.xml":
                content = MADE.sub(
                    rb"\g<1>" + datetime.datetime(*EPOCH).strftime("%Y-%m-%dT%H:%M:%SZ").encode(), content
                )
            entry = zipfile.ZipInfo(info.filename, EPOCH)
            entry.compress_type = zipfile.ZIP_DEFLATED
            other.writestr(entry, content)
    return plain.getvalue()


def content_of(tables: Tables, name: Optional[StrPath]) -> Union[str, bytes]:
    """What a file of some tables has: a workbook by its ending, else comma-separated records, an empty line between
    tables."""
    return book_of(tables) if is_book(name) else "\n".join(map(files.csv_text, tables.values()))


def write_tables(tables: Tables, output: Optional[str]) -> None:
    """Writes tables whole, each its records by its title, or to standard output where there is no name. It ends with 5
    where they cannot be written."""
    files.put(content_of(tables, output), output, status=5, folders=False)


def write_table(header: Sequence[str], records: Iterable[Sequence[object]], output: Optional[str]) -> None:
    """Writes one table in the same way."""
    write_tables({"table": [header, *records]}, output)
