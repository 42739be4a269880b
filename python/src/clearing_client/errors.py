"""What can go wrong: an exception for each status of the program but 0 and 7, and those of this package."""
from __future__ import annotations

import importlib
from types import ModuleType
from typing import Dict, Optional, Sequence, Tuple, Type

from .format import KINDS as KINDS


class ClearingError(Exception):
    """Something went wrong. `status` is what the program ended with, None where it did not run."""

    status: Optional[int] = None

    def __reduce__(self) -> Tuple[object, ...]:
        """How an exception goes from one process to another, as `multiprocessing` sends it."""
        return rebuilt, (type(self), self.args, dict(vars(self)))


def rebuilt(kind: Type[ClearingError], words: Tuple[object, ...], state: Dict[str, object]) -> ClearingError:
    """An exception of a kind, from its words and what it carries."""
    fault = kind.__new__(kind)
    fault.args = words
    vars(fault).update(state)
    return fault


class TableError(ClearingError, ValueError):
    """A table, graph or scenario that cannot be written as a file of the program. Says which, its row (from 1, 0 for
    the table), the field, and the value that it has there."""

    def __init__(self, table: str, row: int, field: str, value: object, what: str) -> None:
        self.file, self.row, self.field, self.value = table, row, field, value
        place = f" row {row}" if row else ""
        super().__init__(f"{table}{place}{', ' + field if field else ''}: {what}")


class SheetError(ClearingError, ValueError):
    """A sheet that makes no network. `faults` has what is wrong, each in a line with its place as the sheet counts
    it."""

    def __init__(self, faults: Sequence[str]) -> None:
        self.faults = tuple(faults)
        super().__init__("\n".join(self.faults))


class CaseError(ClearingError, ValueError):
    """A folder that is no case, or that is written over. `key` is the key of its description that is wrong, such as
    `clearing.unit`, empty where it is none of them."""

    def __init__(self, folder: str, key: str, what: str) -> None:
        self.folder, self.key, self.what = folder, key, what
        super().__init__(": ".join(part for part in (folder, key, what) if part))


class UsageError(ClearingError, ValueError):
    """Status 2: the program does not understand the words, such as a number of workers outside 1 to 64."""

    status = 2

    def __init__(self, words: Tuple[str, ...]) -> None:
        self.words = words
        super().__init__(f"the command line is not understood: {' '.join(words)}")


class UnreadableError(ClearingError):
    """Status 3: a file cannot be read. `file` is its name."""

    status = 3

    def __init__(self, file: str, reason: str = "") -> None:
        self.file = file
        super().__init__(f"cannot read {file}{': ' + reason if reason else ''}")


class LimitsWarning(UserWarning):
    """A network is too large for the standard limits, and is read by the wide ones, as nobody said which."""


class RefusedError(ClearingError, ValueError):
    """Status 4: a file is refused.

    file    `banks`, `debts`, `scenarios`, `journal` or `words`
    row     the record's number in the file, where the header is 0; the scenario's number from 1, 0 for the document
    kind    the kind of fault in words, and `number`, its number for good; `meaning` says it in a sentence
    record  the fields of the record as they stand; the `Scenario`; the name of the bank for `words`; None where there
            is none
    """

    status = 4

    def __init__(self, file: str, row: int, kind: str, number: int, record: object = None) -> None:
        self.file, self.row, self.kind, self.number, self.record = file, row, kind, number, record
        self.meaning = KINDS.get(number, ("", ""))[1]
        what = f": {self.meaning}" if self.meaning else ""
        shown = "" if record is None else f": {record!r}"
        super().__init__(f"{file} row {row}: {kind} ({number}){what}{shown}")


class OutputError(ClearingError):
    """Status 5: the program could not write its output."""

    status = 5

    def __init__(self) -> None:
        super().__init__("the program cannot write its output")


class OutOfMemoryError(ClearingError):
    """Status 6: the program ran out of memory."""

    status = 6

    def __init__(self) -> None:
        super().__init__("the program ran out of memory")


class OutOfTimeError(ClearingError, TimeoutError):
    """The run took longer than the call allows, and was ended. `seconds` is how long that is."""

    def __init__(self, seconds: float) -> None:
        self.seconds = seconds
        super().__init__(f"the program took longer than {seconds:g} seconds")


class NoProgramError(ClearingError):
    """Status 8, or no program: it is not found, cannot be started, or cannot be built. The message says why."""

    def __init__(self, message: str, status: Optional[int] = None) -> None:
        self.status = status
        super().__init__(message)


class StatusError(ClearingError):
    """A status that the program does not have: it was ended by a signal, or is another program."""

    def __init__(self, status: int, message: str) -> None:
        self.status = status
        how = f"was ended by signal {-status}" if status < 0 else f"ended with status {status}"
        super().__init__(f"the program {how}{': ' + message if message else ''}")


class TextError(ClearingError, ValueError):
    """A text that the program does not print. `line` is the number of the line from 1, 0 for the whole text."""

    def __init__(self, line: int, what: str) -> None:
        self.line = line
        super().__init__(f"line {line}: {what}" if line else what)


class MissingPackageError(ClearingError, ImportError):
    """A package that the call wants is not there."""

    def __init__(self, name: str, call: str) -> None:
        super().__init__(f"{call} wants {name}: Debian's package python3-{name}, or `pip install {name}`")


def package(name: str, call: str) -> ModuleType:
    """A package that is used where it is there, for a call that wants it."""
    try:
        return importlib.import_module(name)
    except ImportError as fault:
        raise MissingPackageError(name, call) from fault
