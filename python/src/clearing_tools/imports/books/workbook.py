"""How workbooks are read: .xlsx by openpyxl and .ods by odfpy, values and not formulas, within limits of size, cells
and depth.

Each part is gone through before a library sees it (`scan`): what the library would pass over is refused, and so is
what unpacks to more than it may, nests deeper, or declares entities. Where the library gives fewer cells than were
counted, that is refused too. Nothing is fetched, and no link to another file is followed. Whatever is wrong with a file
is one `SheetError`."""
import contextlib
import io
import os
import threading
import warnings
import zipfile
from typing import List, Optional, Protocol, Tuple

from ...runner import ToolError
from ..faults import SheetError
from .ods import OdsBook
from .parts import scan_all
from .rows import Row
from .xlsx import XlsxBook

ZIP, OLD = b"PK\x03\x04", bytes.fromhex("d0cf11e0a1b11ae1")
ONE_AT_A_TIME = threading.Lock()
ODS = b"application/vnd.oasis.opendocument.spreadsheet"


class Book(Protocol):
    """A workbook: its sheets by their titles."""

    def titles(self) -> List[str]:
        """The titles of the sheets, in their order."""

    def may_be_meant(self, title: str) -> bool:
        """Whether a sheet is shown and has something in it."""

    def sheet(self, title: str) -> Tuple[List[Tuple[int, Row]], int]:
        """The rows of a sheet, each its number and its cells, and how many of them are hidden."""


def is_workbook(data: bytes) -> bool:
    """Whether the first bytes of a file are those of a workbook."""
    return data.startswith((ZIP, OLD))


def sheet_rows(name: str, sheet: Optional[str], option: str) -> Tuple[str, List[Tuple[int, Row]], int]:
    """The title of the sheet of a workbook, its rows, each its number and its cells, and how many are hidden. The sheet
    is the one that is named, or the only one that has something in it; else it is asked for by the option."""
    with open(name, "rb") as file:
        if file.read(8) == OLD:
            raise SheetError(
                f"{name} is a workbook of an old form (.xls), or has a password; save it as .xlsx without one"
            )
    try:
        # A library may tell on standard output, or warn, of what it does not understand. Both are one for all threads.
        with ONE_AT_A_TIME, contextlib.redirect_stdout(io.StringIO()), warnings.catch_warnings():
            warnings.filterwarnings("ignore", module="openpyxl")
            book = book_of(name)
            title = chosen(name, book, sheet, option)
            rows, hidden = book.sheet(title)
        return title, rows, hidden
    except (ToolError, MemoryError):
        raise
    except Exception as fault:
        # The libraries and the unpacking raise what they come upon.
        raise SheetError(f"{name} is a workbook that cannot be read: {fault}") from fault


def book_of(name: str) -> Book:
    """The workbook in a file."""
    with zipfile.ZipFile(name) as archive:
        scans = scan_all(name, archive, os.path.getsize(name))
        parts = set(archive.namelist())
        is_ods = "mimetype" in parts and archive.read("mimetype").strip() == ODS
    if not is_ods and "xl/workbook.xml" not in parts:
        raise SheetError(f"{name} is no workbook of the form .xlsx or .ods")
    if is_ods:
        return OdsBook(name, scans)
    return XlsxBook(name, scans)


def chosen(name: str, book: Book, sheet: Optional[str], option: str) -> str:
    """The title of the sheet that is meant."""
    titles = book.titles()
    if sheet is not None:
        if sheet not in titles:
            raise SheetError(f"{name} has no sheet {sheet}; it has {', '.join(titles)}")
        return sheet
    meant = [title for title in titles if book.may_be_meant(title)]
    if len(meant) == 1:
        return meant[0]
    if not meant:
        raise SheetError(f"{name} has no sheet with a record")
    raise SheetError(f"{name} has the sheets {', '.join(meant)}: which one is meant? say {option} NAME")
