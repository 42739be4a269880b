"""How a sheet becomes rows of cells, each row with its number as the sheet counts it: comma-separated records of any
make, or a workbook."""
import codecs
import csv
import io
import re
from dataclasses import dataclass
from itertools import repeat
from typing import Dict, List, Optional, Sequence, Tuple

from clearing_client.fields import long_fields

from .. import files
from ..runner import ToolError
from .books import workbook
from .books.rows import Row

NumberedRow = Tuple[int, Row]
"""A row with its number as the sheet counts it."""
OPEN_QUOTE = (
    "a quote opens a field and none closes it at its end; delete the quote, or write two for one in a quoted field"
)
HIDDEN = "a quoted field holds a line as wide as the header; delete its quotes if they are stray, or the line break"
LOOKED_AT = 30


@dataclass(frozen=True)
class Form:
    """How a file is to be read."""

    encoding: str = "utf-8"
    """The encoding of a text."""
    delimiter: Optional[str] = None
    """What stands between two fields, where that was said."""
    skip: int = 0
    """How many rows stand above the header."""
    title: Optional[str] = None
    """The sheet of a workbook, where one was named."""
    before: str = "--"
    """What stands before `sheet` and `skip` in the options that say so: `--table-` for a table beside the sheet."""


@dataclass(frozen=True)
class Rows:
    """The rows of a sheet, from its header on: their numbers and cells, none of them empty, each cell without blanks at
    its ends."""

    name: str
    """The file."""
    rows: List[NumberedRow]
    above: List[NumberedRow]
    """The rows above the header, which were passed over."""
    broken: List[int]
    """The rows that have a cell with a line end in it."""
    title: Optional[str] = None
    """The title of a workbook's sheet."""
    hidden: int = 0
    """How many rows of a workbook's sheet are hidden."""
    delimiter: Optional[str] = None
    """What stands between two fields of a text."""

    @property
    def is_book(self) -> bool:
        """Whether it is a sheet of a workbook, whose cells have letters and numbers."""
        return self.title is not None

    @property
    def label(self) -> str:
        """What the sheet is called."""
        return f"{self.name} sheet {self.title}" if self.is_book else self.name

    def where(self, number: int) -> str:
        """A row in words."""
        return f"{self.label} row {number}"


def rows_of(name: str, form: Form) -> Rows:
    """The rows of a file from its header on."""
    try:
        with open(name, "rb") as file:
            start = file.read(8)
        if workbook.is_workbook(start):
            rows = book_rows(name, form)
        elif form.title is not None:
            raise ToolError(f"{name} is no workbook, and has no sheet {form.title}")
        else:
            rows = text_rows(name, form)
    except OSError as error:
        raise ToolError(f"cannot read {name}: {error.strerror}") from error
    if not rows.rows:
        raise ToolError(f"{name} has no record")
    check_title(rows, form.before)
    return rows


def book_rows(name: str, form: Form) -> Rows:
    """The rows of a sheet of a workbook."""
    title, found, hidden = workbook.sheet_rows(name, form.title, f"{form.before}sheet")
    above, below = [one for one in found if one[0] <= form.skip], [one for one in found if one[0] > form.skip]
    broken = [number for number, row in below if any("\n" in str(cell) for cell in row)]
    return Rows(name, below, above, broken, title, hidden)


def check_title(rows: Rows, before: str) -> None:
    """Refuses a title above the header, and says which rows to pass over."""
    first = rows.rows[:LOOKED_AT]
    wide = [sum(cell != "" for cell in row) for _, row in first]
    most = max(wide)
    at = next(at for at, count in enumerate(wide) if count >= most - 1)
    at = header_at(first, wide, at)
    if at and (wide[0] * 2 <= most or wide[0] <= 2 < most):
        raise ToolError(
            f"{rows.where(first[0][0])} looks like a title above the header, which is row {first[at][0]}, is it? say "
            f"{before}skip {first[at][0] - 1}"
        )
    if most == 1:
        hint = f"is it the sheet that is meant ({before}sheet)?"
        if rows.delimiter:
            other = f"is its delimiter another than {rows.delimiter!r} (--delimiter)"
            hint = f"{other}, or are there lines above the header ({before}skip)?"
        raise ToolError(f"{rows.label} has one column alone; {hint}")


def header_at(first: Sequence[NumberedRow], wide: Sequence[int], at: int) -> int:
    """The place of the header: the first row of words that is about as wide as the widest, which may be a line of
    totals."""
    for place, (_, row) in enumerate(first[:at]):
        words = [cell for cell in row if cell != "" and not is_amount(cell)]
        if 2 * wide[place] > max(wide) and len(words) > 1 and len(words) >= wide[place] - 1:
            return place
    return at


def is_amount(cell: str) -> bool:
    """Whether a cell is one of an amount, as far as its signs tell."""
    return getattr(cell, "value", None) is not None or re.fullmatch(r"[-+(]?[0-9][0-9.,' ]*[)]?", str(cell)) is not None


# Comma-separated records


def text_of(name: str, encoding: str) -> str:
    """The text of a file without its byte order mark. A mark of UTF-16 says that the file is that."""
    try:
        data = files.bytes_of(name)
        if data.startswith((codecs.BOM_UTF16_LE, codecs.BOM_UTF16_BE)):
            encoding = "utf-16"
        return data.decode("utf-8-sig" if encoding == "utf-8" else encoding)
    except UnicodeError as error:
        raise ToolError(
            f"{name} is not {encoding.upper()}; save it as UTF-8, or say its --encoding, such as cp1252"
        ) from error


def text_rows(name: str, form: Form) -> Rows:
    """The rows of a file of comma-separated records. Stray quotes are refused, since all that stands between two of
    them would be one field."""
    text = text_of(name, form.encoding)
    delimiter = form.delimiter or delimiter_of(text, form.skip)
    reader, last, number = csv.reader(io.StringIO(text, newline=""), delimiter=delimiter, strict=True), 0, 0
    rows: List[NumberedRow] = []
    above: List[NumberedRow] = []
    # Records of several lines, with the first line and the end of each: these alone may have a line end in a field.
    wide: List[Tuple[NumberedRow, int, int]] = []
    # A text that stands in many cells is held once.
    held: Dict[str, str] = {}
    try:
        with long_fields(len(text)):
            for number, record in enumerate(reader, 1):
                record = [held.setdefault(field, field) for field in map(str.strip, record, repeat(" \t"))]
                if number > form.skip and any(record):
                    rows.append((number, record))
                    if reader.line_num - last > 1:
                        wide.append((rows[-1], last, reader.line_num))
                elif any(record):
                    above.append((number, record))
                last = reader.line_num
    except csv.Error as error:
        # Before 3.11 Python reads no NUL.
        raise ToolError(f"{name} row {number + 1}: {error if 'NUL' in str(error) else OPEN_QUOTE}") from error
    lines = list(io.StringIO(text, newline="")) if wide else []
    for (row, record), start, end in wide:
        if hides_a_record(lines[start:end], delimiter, len(rows[0][1])):
            raise ToolError(f"{name} row {row}: {HIDDEN}")
    broken = [row for (row, record), _, _ in wide if any("\n" in field or "\r" in field for field in record)]
    return Rows(name, rows, above, broken, delimiter=delimiter)


def hides_a_record(lines: Sequence[str], delimiter: str, width: int) -> bool:
    """Whether the lines of one record may be several records between two stray quotes: the first and another are as
    wide as one. A delimiter before a blank is a comma in a sentence."""
    wide = [len(re.split(re.escape(delimiter) + "(?! )", line)) >= width for line in lines]
    return wide[0] and any(wide[1:])


QUOTED = re.compile(r'(?<![^,;\t\r\n])"[^"]*(?:""[^"]*)*"')


def delimiter_of(text: str, skip: int) -> str:
    """The comma, semicolon or tab that cuts most lines into one number of fields, two at least; the first of these
    where several do, and the comma where none does."""
    lines = re.split(r"\r\n|\r|\n", QUOTED.sub(lambda field: field[0].strip('" \t') and "x", text[:1_000_000]))[skip:]
    lines = [line for line in lines if line.strip(" \t;,")][:LOOKED_AT]
    found, best = ",", 0
    for delimiter in ",;\t":
        counts = [line.count(delimiter) for line in lines]
        # The number of fields that most lines have; a title above has fewer, and is no witness.
        usual = max(set(counts) - {0}, key=counts.count, default=0)
        # Of two by which as many lines agree, that of the header.
        agree = 2 * sum(count == usual for count in counts) + (counts[0] > 0) if usual else 0
        if agree > best:
            found, best = delimiter, agree
    return found
