"""The faults of sheets: each told once, with the first places where it stands."""
from typing import Dict, Iterator, List, Optional, Protocol, Sequence, Tuple, Union

from ..runner import ToolError

SHOWN = 3
HEADER = 0
"""The row of a fault that stands in the header, wherever the header is."""


class SheetError(ToolError):
    """Why a file is no sheet that can be read."""


class Located(Protocol):
    """A table that says where something in it stands."""

    label: str

    def place_text(self, row: Optional[int], column: Optional[str]) -> str:
        """A place as words: of no row in particular where it is None, of the header where it is `HEADER`."""


File = Union[str, Located]
"""A table, or a file by its name."""


class Question:
    """What is asked once, and how many cells ask it beside the first."""

    def __init__(self, label: str, text: str) -> None:
        self.label, self.text, self.more = label, text, 0


class Faults:
    """The faults found so far, each with the file, and the places in it as the sheet counts them."""

    def __init__(self) -> None:
        # The faults of a file and a kind: each what it is and its places; and the questions by their kinds.
        self.found: Dict[Tuple[str, str], Dict[str, List[str]]] = {}
        self.questions: Dict[object, Question] = {}

    # Of many faults of a kind the first alone is told in full; a fault without a kind is of a kind of its own.

    def add_general(self, file: File, what: object, kind: Optional[str] = None) -> None:
        """Adds a fault of a whole table, or of a file by its name."""
        self.at_cell(file, None, None, what, kind)

    def at_header(self, file: File, column: str, what: object) -> None:
        """Adds a fault of a column."""
        self.at_cell(file, HEADER, column, what)

    def at_row(self, file: File, row: Optional[int], what: object, kind: Optional[str] = None) -> None:
        """Adds a fault of a row, by its number; of the whole table where there is no such row."""
        self.at_cell(file, row, None, what, kind)

    def at_cell(
        self, file: File, row: Optional[int], column: Optional[str], what: object, kind: Optional[str] = None
    ) -> None:
        """Adds a fault of a cell, by the number of its row."""
        label, text = label_and_place(file, row, column)
        self.keep(label, str(what), text, kind)

    def keep(self, label: str, what: str, place: str, kind: Optional[str] = None) -> None:
        """Keeps a fault with those of its file and kind."""
        self.found.setdefault((label, kind or what), {}).setdefault(what, []).append(place)

    def ask(self, file: File, row: Optional[int], column: Optional[str], text: str, kind: object) -> None:
        """Asks once what many cells leave open."""
        if kind in self.questions:
            self.questions[kind].more += 1
        else:
            label, place = label_and_place(file, row, column)
            self.questions[kind] = Question(label, text)
            self.keep(label, text, place)

    def lines(self) -> Iterator[str]:
        """The faults as lines, in the order in which they were found."""
        more_cells = {(question.label, question.text): question.more for question in self.questions.values()}
        for (label, kind), whats in self.found.items():
            if len(whats) > SHOWN:
                yield summary_of_many(label, whats)
                continue
            for what, places in whats.items():
                more = more_cells.get((label, what), 0)
                tail = f" ({more:,} more {'cells ask' if more > 1 else 'cell asks'} the same)" if more else ""
                yield f"{label}{places_text(places)}: {what}{tail}"

    def end_if_any(self) -> None:
        """Fails with all faults, where there are any."""
        if self.found:
            first, *more = self.lines()
            raise ToolError(first, more=more)


def summary_of_many(label: str, whats: Dict[str, List[str]]) -> str:
    """One line for many faults of a kind: their number, the first in full, and where others stand."""
    count = sum(map(len, whats.values()))
    (first, places), *others = whats.items()
    some = ";".join(f"{places_text(more)}: {what.partition('; ')[0]}" for what, more in others[: SHOWN - 1])
    return f"{label}{places_text(places)}: {first} ({count:,} of this kind; also{some})"


def label_and_place(file: File, row: Optional[int], column: Optional[str]) -> Tuple[str, str]:
    """The name of a file, and a place in it as words."""
    if not isinstance(file, str):
        return file.label, file.place_text(row, column)
    return file, "".join([f" row {row}" if row is not None else "", f" column {column}" if column else ""])


def places_text(places: Sequence[str]) -> str:
    """The first of some places, and how many there are."""
    places = list(dict.fromkeys(places))
    if len(places) <= SHOWN:
        return ",".join(places)
    return ",".join(places[:SHOWN]) + f" and {len(places) - SHOWN:,} more, {len(places):,} in all"
