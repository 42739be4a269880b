"""What the checks of all files share: the faults that were found so far, what is known of the banks and the debts by
then, and what any field or record of a file may have wrong."""
from __future__ import annotations

import difflib
import functools
import unicodedata
from dataclasses import dataclass
from typing import Dict, List, Optional, Sequence, Tuple

from clearing_client import texts
from clearing_client.limits import LIMITS, STANDARD

from .field_hints import (
    alike, class_hint, fields_hint, guess_of, header_hint, name_fault, number_hint, shown, special_in, text_of,
)
from .records import Record, records_of

BANKS_1, BANKS_2, DEBTS, JOURNAL = (
    header.split(",") for header in (texts.BANKS_1, texts.BANKS_2, texts.DEBTS, texts.JOURNAL)
)
MOST_SEARCHES = 50
"""So many names that no bank has are compared with those of all banks."""
Claims = Dict[Tuple[bytes, ...], Record]
"""The debts by debtor, creditor and class."""


@dataclass
class Fault:
    """A fault of a record of the file `banks`, `debts`, `scenarios` or `journal`; the field may be empty, and so may
    the hint. The line is 0 where it is not known."""

    file: str
    line: int
    row: int
    field: str
    kind: str
    what: str
    hint: str = ""


class Findings:
    """The faults of some files by some limits, in the order in which they are found."""

    def __init__(self, limits: str) -> None:
        self.limits = LIMITS[limits]
        self.faults: List[Fault] = []
        # The names of banks and of scenarios that are no fault: by file, the record and the name of each.
        self.named: Dict[str, Dict[str, Record]] = {"banks": {}, "scenarios": {}}
        # The bank records by name; none where the banks were not looked at.
        self.known: Optional[Dict[bytes, Record]] = None
        # None where the debts were not looked at.
        self.claims: Optional[Claims] = None
        self.hints: Dict[bytes, str] = {}

    def add(self, file: str, record: Record, field: str, kind: str, what: str, hint: str = "") -> None:
        """Adds a fault of a record."""
        self.faults.append(Fault(file, record.line, record.row, field, kind, what, hint))

    @property
    def wider(self) -> str:
        """What to do where the standard limits are passed."""
        return "read it by --limits wide" if self.limits is LIMITS[STANDARD] else ""

    # Files and records.

    def is_small(self, file: str, data: bytes) -> bool:
        """Whether a file is no longer than the limits have it."""
        most = self.limits.bytes[file]
        if len(data) > most:
            what = f"the file is longer than {most:,} bytes"
            self.add(file, Record(1, 0, []), "", "file size", what, "are there many empty lines below the records?")
        return len(data) <= most

    def rows(self, file: str, data: bytes, words: Sequence[List[str]]) -> Tuple[List[str], List[Record]]:
        """The header that the file has, or means, and the records below it that are not blank."""
        records = list(records_of(data))
        header = None
        if records:
            header = next((h for h in words if records[0].fields == [word.encode() for word in h]), None)
        cut = 0
        if header is None:
            what = f"the first record is not {' or '.join(','.join(h) for h in words)}"
            first = records[0] if records else Record(1, 0, [])
            self.add(file, first, "", "header", what, header_hint(data, records, words))
            header = guess_of(records[0], words) if records else None
            cut = len(records[0].fields) if header else 0
        rows = [record for record in records[1:] if any(record.fields)] if header else []
        header = header or []
        for record in rows:
            # The empty columns that the header has too are one fault, and it is named.
            if cut > len(header) and len(record.fields) == cut and not any(record.fields[len(header) :]):
                del record.fields[len(header) :]
        return header, rows

    def has_fields(self, file: str, record: Record, header: List[str]) -> bool:
        """Whether a record has as many fields as the header."""
        if len(record.fields) == len(header):
            return True
        what = f"{len(record.fields)} {'field' if len(record.fields) == 1 else 'fields'} in place of {len(header)}"
        self.add(file, record, "", "fields", what, fields_hint(record, header))
        return False

    # Fields.

    def number(self, file: str, record: Record, place: int, header: List[str], most: int) -> Optional[int]:
        """The number in a field, or nothing where it has a fault."""
        field, word = record.fields[place], header[place]
        if not (1 <= len(field) <= 20 and field.isdigit()):
            self.add(file, record, word, "number", f"{shown(field)} is not a number", number_hint(field, most))
            return None
        if int(field) > most:
            hint = "" if word == "stamp" else "take a larger unit of account"
            self.add(file, record, word, "limit", f"{int(field):,} is more than {most:,}", hint)
            return None
        return int(field)

    def is_name(self, file: str, record: Record, field: bytes, word: str) -> bool:
        """Whether a field is a name."""
        wrong = name_fault(field)
        if wrong:
            self.add(file, record, word, "name", *wrong)
        return not wrong

    def is_class(self, file: str, record: Record, rank: bytes) -> bool:
        """Whether a field is a class."""
        if rank in [b"%d" % n for n in range(1, 10)]:
            return True
        self.add(file, record, "class", "class", f"{shown(rank)} is not a class", class_hint(rank))
        return False

    def is_bank(self, file: str, record: Record, place: int, header: List[str]) -> bool:
        """Whether a field is the name of a bank that there is."""
        name = record.fields[place]
        return self.is_name(file, record, name, header[place]) and self.is_known(file, record, header[place], name)

    def is_known(self, file: str, record: Record, word: str, name: bytes) -> bool:
        """Whether a bank has this name."""
        if self.known is None or name in self.known:
            return True
        if name not in self.hints:
            self.hints[name] = self.bank_hint(name)
        self.add(file, record, word, "unknown bank", f"no bank has the name {shown(name)}", self.hints[name])
        return False

    # What is meant, once all banks and debts are known.

    @functools.cached_property
    def likes(self) -> Dict[str, bytes]:
        """The first bank of each look."""
        found: Dict[str, bytes] = {}
        for name in self.known or {}:
            found.setdefault(alike(name), name)
        return found

    @functools.cached_property
    def ranks(self) -> Dict[Tuple[bytes, bytes], List[str]]:
        """The classes of the debts of each debtor to each creditor."""
        found: Dict[Tuple[bytes, bytes], List[str]] = {}
        for debtor, creditor, rank in self.claims or {}:
            found.setdefault((debtor, creditor), []).append(rank.decode("utf-8", "replace"))
        return found

    def bank_hint(self, name: bytes) -> str:
        """How a bank of the banks file is written that may be meant."""
        text = text_of(name)
        other = self.likes.get(alike(name))
        if other is not None:
            same = unicodedata.normalize("NFC", text_of(other)) == unicodedata.normalize("NFC", text)
            why = "another Unicode form of its letters" if same else "capitals, or other spaces or signs"
            if special_in(text) or special_in(text_of(other)):
                why = f"a space that is no blank here, {special_in(text) or special_in(text_of(other))}"
            return f"the banks file has {shown(other)}; they differ by {why}"
        if len(self.hints) < MOST_SEARCHES:
            close = difflib.get_close_matches(text, map(text_of, self.known or {}), 1, 0.75)
            if close:
                return f"is it {close[0]!r}?"
        return ""
