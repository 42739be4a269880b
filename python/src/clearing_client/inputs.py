"""What a run of the program is given: its files, from what people have, and its words; and which record of them a fault
is about."""
from __future__ import annotations

import os
from typing import Iterable, List, Mapping, Optional, Sequence, Tuple, Union

from . import limits as sizes
from . import tabular
from .errors import RefusedError, TableError, TextError, UnreadableError
from .records import Raise
from .request import record_at
from .results import Journal
from .scenarios import Scenario, Scenarios
from .table import Table, words_of

File = Union[str, "os.PathLike[str]"]
FILE = (str, os.PathLike)
"""What names a file."""
ScenariosLike = Union[Scenarios, Iterable[Union[Scenario, Mapping[str, object]]], File, bytes]
Third = Tuple[str, bytes]  # a file's option, and its bytes
JournalLike = Union[Journal, Table[Raise], Iterable[Raise], File]

LARGEST, LARGEST_SCENARIOS = sizes.MOST.bytes["banks"], sizes.MOST.bytes["scenarios"]
"""How many bytes a banks or debts file may have, and a scenarios file; one more is handed over, for the program to
refuse."""


def read_file(name: File, most: Optional[int] = LARGEST) -> bytes:
    """The bytes of a file, but no more than one beyond the most that the program takes."""
    try:
        with open(name, "rb") as file:
            return file.read() if most is None else file.read(most + 1)
    except (OSError, ValueError) as fault:
        raise UnreadableError(os.fspath(name), getattr(fault, "strerror", None) or str(fault)) from fault


def as_scenarios(scenarios: Union[Scenarios, Iterable[Union[Scenario, Mapping[str, object]]]]) -> Scenarios:
    """Scenarios of an iterable of them."""
    return scenarios if isinstance(scenarios, Scenarios) else Scenarios(scenarios)


def third_of(scenarios: ScenariosLike) -> Tuple[Third, Optional[Scenarios]]:
    """The file of some scenarios, and these where they are not given as a file."""
    chosen = chosen_of(scenarios)
    return as_third(chosen), None if isinstance(chosen, bytes) else chosen


def chosen_of(scenarios: ScenariosLike) -> Union[Scenarios, bytes]:
    """Scenarios, or a file of them as it is: one that is named, or what a case has."""
    if isinstance(scenarios, bytes):
        return scenarios
    return read_file(scenarios, LARGEST_SCENARIOS) if isinstance(scenarios, FILE) else as_scenarios(scenarios)


def as_third(scenarios: Union[Scenarios, bytes]) -> Third:
    """Scenarios, or a file of them as it is, as a file of a run."""
    return "scenarios", scenarios if isinstance(scenarios, bytes) else toml_bytes(scenarios)


def toml_bytes(scenarios: Scenarios) -> bytes:
    """The scenarios file."""
    try:
        return scenarios.to_toml().encode()
    except UnicodeEncodeError as fault:
        raise TableError("scenarios", 0, "", fault.object, "a name cannot be written as UTF-8") from fault


def journal_bytes(journal: Union[Journal, Table[Raise], Iterable[Raise]]) -> bytes:
    """The journal file of a journal or of raises."""
    raises = journal.raises if isinstance(journal, Journal) else journal
    raises = raises if isinstance(raises, Table) else Table.of(Raise, [Raise(*one) for one in raises])
    columns = {name: tabular.fields_of(raises.column(name), "journal", name) for name in raises.columns}
    data = tabular.csv_of(columns)
    rounds = journal.rounds if isinstance(journal, Journal) else None
    return data if rounds is None else data + f"rounds,{rounds}\n".encode()


def line_of(task: str, files: Sequence[str], words: Iterable[object]) -> List[Union[str, bytes]]:
    """The command line of a task on some files."""
    line: List[Union[str, bytes]] = [task, *files]
    line += [word if isinstance(word, bytes) else str(word) for word in words]
    if any("\0" in word for word in line if isinstance(word, str)):
        raise TableError("words", 0, "", tuple(words), "a word has a character NUL")
    return line


def effort(workers: int, sweeps: int) -> List[object]:
    """The words for the number of workers and of sweeps."""
    return ["--workers", workers, "--sweeps", sweeps]


def with_record(fault: Exception, files: Mapping[str, bytes], known: object) -> Exception:
    """A fault with the record that it is about."""
    if isinstance(fault, RefusedError):
        record: object = None
        if fault.file in ("banks", "debts", "journal") and fault.file in files and fault.number != 14:
            record = record_at(files[fault.file], fault.row)
        elif fault.file == "scenarios" and isinstance(known, Scenarios) and 0 < fault.row <= len(known):
            record = known[fault.row - 1]
        elif fault.file == "words":
            record = known
        return RefusedError(fault.file, fault.row, fault.kind, fault.number, record)
    return fault


def raise_of(journal: bytes, entry: int) -> Raise:
    """The raise of a number, from 1, of a journal file."""
    fields = record_at(journal, entry, passing=True)
    if fields is None or len(fields) != len(words_of(Raise)):
        raise TextError(0, f"the program names raise {entry}, which the journal does not have")
    stamp, debtor, creditor, class_, to = fields
    if not all(field.isascii() and field.isdigit() and len(field) <= 20 for field in (stamp, class_, to)):
        raise TextError(0, f"the program names raise {entry}, whose fields are no numbers")
    return Raise(int(stamp), debtor, creditor, int(class_), int(to))
