"""The cells of workbooks: numbers as spreadsheets show them, texts, dates and errors, each with its text."""
import datetime
import re
from decimal import Decimal
from fractions import Fraction
from typing import Optional, Union

from ..amounts import SIGNS, Cell

ERROR = re.compile(r"#(DIV/0!|N/A|NAME\?|NULL!|NUM!|REF!|VALUE!|SPILL!|CALC!|GETTING_DATA)|Err:[0-9]{3}")
LOOKED_AT = 255
"""So much of a number format is looked at; no spreadsheet has a longer one."""


def cell_of(
    text: str, value: Union[int, Fraction, None] = None, fault: Optional[str] = None, currency: Optional[str] = None
) -> Cell:
    """A cell with its text, and its number or why it has none."""
    cell = Cell(text)
    cell.value, cell.fault, cell.currency = value, fault, currency
    return cell


def of_number(number: Union[int, float], currency: Optional[str] = None) -> Cell:
    """The cell of a number, read to the 15 digits that spreadsheets show. One that is whole has no decimals in its
    text."""
    exact = Decimal(number) if isinstance(number, int) else Decimal(f"{number:.15g}")
    if not exact.is_finite() or abs(exact.adjusted()) > 60:
        return cell_of(str(number)[:80], None, "is no number")
    value = Fraction(exact)
    whole: Union[int, Fraction] = int(value) if value.denominator == 1 else value
    return cell_of(str(whole) if isinstance(whole, int) else f"{exact:f}", whole, None, currency)


def of_text(text: str) -> Cell:
    """The cell of a text; the name of an error is one."""
    text = text.strip(" \t\r\n")
    return cell_of(text, None, "is the error of a formula" if ERROR.fullmatch(text) else None)


def of_date(value: object) -> Cell:
    """The cell of a date or a time, which is no amount."""
    text = value.isoformat() if isinstance(value, (datetime.date, datetime.time)) else str(value)
    return cell_of(text.removesuffix("T00:00:00"), None, "is a date, and no amount")


def of_truth(text: str) -> Cell:
    """The cell of true or false."""
    return cell_of(text.upper(), None, "is true or false, and no amount")


def in_per_cent(cell: Cell) -> Cell:
    """A cell that is shown in per cent."""
    cell.fault = cell.fault or "is shown in per cent, and is no amount"
    return cell


def currency_in(form: str) -> Optional[str]:
    """The currency of a number format, or nothing."""
    form = form[:LOOKED_AT]
    match = re.search(r"\[\$([^\[\]\-]+)", form) or re.search(r'"\s*([A-Z]{3}|[€$£¥₹])\s*"', form)
    match = match or re.search(r"([€$£¥₹])", re.sub(r"\[[^\[\]]*\]", "", form))
    return SIGNS.get(match[1].strip(), match[1].strip()) if match else None
