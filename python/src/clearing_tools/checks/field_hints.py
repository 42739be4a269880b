"""What is wrong with a field, a header or a record, and what to do about it."""
from __future__ import annotations

import difflib
import re
import unicodedata
from typing import List, Optional, Sequence, Tuple

from clearing_client.format import RULES

from .. import runner
from ..imports.books.workbook import is_workbook
from .records import Record

MOST_HINTS = 1000

SPECIAL = re.compile("[\u00a0\u1680\u2000-\u200f\u2028-\u202f\u205f\u2060\u3000\ufeff\u00ad]")


def shown(field: bytes) -> str:
    """A field between quotes, as it can be read."""
    return runner.shown(repr(field.decode("utf-8", "backslashreplace")))


def text_of(field: bytes) -> str:
    """A field as a text, whatever its bytes are."""
    return field.decode("utf-8", "replace")


def plain(text: str) -> str:
    """A text without the spaces that are no blanks, such as the no-break space."""
    return SPECIAL.sub("", text).strip()


def special_in(text: str) -> Optional[str]:
    """The first space of a text that is no blank, by its code, or nothing."""
    match = SPECIAL.search(text)
    return f"U+{ord(match[0]):04X}" if match else None


def number_hint(field: bytes, most: Optional[int] = None) -> str:
    """What to do about a field that is no number of at most so much."""
    text = text_of(field)
    if text == "":
        return "write 0 where there is nothing"
    if special_in(text):
        return f"it has a space that is no blank here, {special_in(text)}; delete it"
    if re.fullmatch(r"[0-9]+", text):
        return "a number has at most 20 digits; take a larger unit of account"
    if re.match(r"[-\u2010-\u2015\u2212(]", text):
        return "no amount is below 0; what is owed the other way is a debt of the other bank"
    if text.startswith("+"):
        return "write it without a sign"
    if re.fullmatch(r"[0-9]+([.,][0-9]*)?[eE][+-]?[0-9]+", text):
        return "write it without an exponent; in a spreadsheet widen the column and format it as a plain number"
    if re.fullmatch(r"[0-9]{1,3}([,.' \u2019][0-9]{3})+", text):
        return "write it without separators between thousands, or, if it has decimals, in whole units"
    decimals = re.fullmatch(r"([0-9]*)[.,]([0-9]*)", text)
    if decimals:
        is_large = most is not None and int((decimals[1] + decimals[2])[:50] or "0") > most
        smaller = "amounts are whole units; take a smaller unit of account"
        return (
            "amounts are whole units, and in smaller ones it is too large: take a larger unit of account, and round"
            if is_large
            else smaller
        )
    if text.startswith("#"):
        return "the column of the spreadsheet was too narrow, or a formula failed"
    if text.startswith("="):
        return "save the value, not the formula"
    return "a number is 1 to 20 digits 0 to 9, and nothing else"


def name_fault(field: bytes) -> Optional[Tuple[str, str]]:
    """What is wrong with a name, and a hint, or nothing."""
    if field == b"":
        return "the name is empty", ""
    try:
        text = field.decode("utf-8")
    except UnicodeDecodeError:
        return f"the name {shown(field)} is not UTF-8", "save the file as UTF-8"
    if len(field) > 64:
        return f"the name {shown(field)} has {len(field)} bytes", "a name has 64 bytes at most"
    for c in text:
        if c in ',"':
            return (
                f"the name {shown(field)} has a {'comma' if c == ',' else 'double quote'}",
                "write the name without it",
            )
        if ord(c) < 32 or 127 <= ord(c) <= 159:
            hint = "a name stands in one line" if c in "\r\n" else "delete it"
            return f"the name {shown(field)} has the control character U+{ord(c):04X}", hint
    return None


def alike(field: bytes) -> str:
    """A name without what people write in several ways: capitals, blanks and forms of letters."""
    text = unicodedata.normalize("NFKC", text_of(field))
    return " ".join(SPECIAL.sub(" ", text).split()).casefold()


def rule_hint(field: bytes) -> str:
    """What to do about a field that is no rule."""
    text = plain(text_of(field)).casefold()
    if text in RULES:
        return f"write it as {text}, in small letters and without other spaces"
    close = difflib.get_close_matches(text, RULES, 1)
    return f"is it {close[0]}?" if close else f"the rules are {', '.join(RULES)}"


def class_hint(field: bytes) -> str:
    """What to do about a field that is no class."""
    text = plain(text_of(field))
    if re.fullmatch(r"0*[1-9]([.,]0*)?", text):
        return f"write it as {text.lstrip('0')[0]}"
    return "a class is one digit from 1 to 9"


def header_hint(data: bytes, records: List[Record], words: Sequence[List[str]]) -> str:
    """What to do about a first record that is not one of the headers."""
    if is_workbook(data):
        reads = "clearing-from-matrix or clearing-from-list reads it"
        return f"the file is a workbook; {reads}, or save its sheet as CSV in UTF-8"
    start = data[:64]
    if start[:2] in (b"\xff\xfe", b"\xfe\xff") or len(start) > 1 and any(start[::2]) != any(start[1::2]):
        return "the file is UTF-16; save it as UTF-8"
    if b"\0" in start:
        return "the file is no text; save it as CSV in UTF-8"
    if not records:
        return "the file has no record"
    fields = [text_of(field) for field in records[0].fields]
    for sign, name in [(";", "semicolons"), ("\t", "tabs")]:
        if sign in fields[0]:
            return f"the fields stand between {name}; save the file with commas"
    if any(map(special_in, fields)):
        return "it has a space that is no blank here, such as a no-break space or a second byte order mark; delete it"
    if guess_of(records[0], words) is not None:
        return "delete the empty columns" if fields[-1] == "" else "write the words in small letters"
    for record in records[1:5]:
        if any([text_of(field) for field in record.fields] == header for header in words):
            return f"the header stands in line {record.line}; delete the lines above it"
    if any(sorted(fields) == sorted(header) for header in words):
        return "the columns stand in another order"
    return "the header is missing, or in other words"


def guess_of(record: Record, words: Sequence[List[str]]) -> Optional[List[str]]:
    """The header that a first record means, though it is not written so, or nothing."""
    fields = [plain(text_of(field)).casefold() for field in record.fields]
    while fields and fields[-1] == "":
        fields.pop()
    return next((header for header in words if fields == header), None)


def fields_hint(record: Record, header: List[str]) -> str:
    """What to do about a record with another number of fields than the header has."""
    if len(record.fields) == 1 and b";" in record.fields[0]:
        return "the fields stand between semicolons"
    if len(record.fields) < len(header):
        return "a comma is missing, or the record stands in two lines"
    if not any(record.fields[len(header) :]):
        return "delete the commas at the end"
    return "a comma within a number or a name begins a field"
