"""The two files of a case as records, and the program that is asked about files that are changed from them. The changed
files stand in the folder of what the program printed, and among the evidence."""
import csv
import io
from typing import List, NamedTuple, Sequence, Tuple

from clearing_client import texts as forms
from clearing_client.limits import words_of

from .. import texts
from .program import Program

Rows = List[List[str]]
DEBTS = ("debtor", "creditor", "class", "claim")


class Files(NamedTuple):
    """The two files of a case as records, with their headers."""

    banks_header: List[str]
    banks: Rows
    debts_header: List[str]
    debts: Rows


def read_files(banks: str, debts: str) -> Files:
    """The two files of a case."""
    banks_header, banks_rows = texts.records_in(banks, forms.BANKS_1, forms.BANKS_2)
    debts_header, debts_rows = texts.records_in(debts, ",".join(DEBTS))
    return Files(banks_header, [row for _, row in banks_rows], debts_header, [row for _, row in debts_rows])


def text_of(header: Sequence[str], rows: Rows) -> bytes:
    """A file of the network."""
    text = io.StringIO()
    csv.writer(text, lineterminator="\n").writerows([header, *rows])
    return text.getvalue().encode()


class Original(NamedTuple):
    """The case as it was given: the program that clears it, its two files and their names, and the limits by which it
    is read."""

    program: Program
    files: Files
    names: Tuple[str, str]
    limits: str

    def put_banks(self, name: str, rows: Rows) -> str:
        """Writes changed banks under a name, and answers where they stand."""
        return str(self.program.put(name, text_of(self.files.banks_header, rows)))

    def put_debts(self, name: str, rows: Rows) -> str:
        """Writes changed debts under a name, and answers where they stand."""
        return str(self.program.put(name, text_of(self.files.debts_header, rows)))

    def words(self, banks: str, debts: str, *more: str, limits: str = "") -> List[str]:
        """The words of a task on two files, with more of them, by some limits, or its own."""
        return ["--banks", banks, "--debts", debts, *more, *words_of(limits or self.limits)]
