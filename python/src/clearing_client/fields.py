"""Long fields of comma-separated records. The blanks round a field are of the field, and may be as many as its file has
characters; but how long a field the module `csv` reads is one limit of the whole process."""
from __future__ import annotations

import contextlib
import csv
import threading
from typing import Iterator, List


class FieldLimit:
    """The limit while long fields are read, by several threads too: each has what it needs, nobody has less than
    before, and after the last the limit is what it was."""

    def __init__(self) -> None:
        self.lock = threading.Lock()
        self.needed: List[int] = []
        self.before = self.put = 0

    def begin(self, most: int) -> None:
        """Has the limit as high as one more needs it."""
        with self.lock:
            self.look()
            self.needed.append(most)
            self.settle()

    def end(self, most: int) -> None:
        """Has the limit as high as the others need it."""
        with self.lock:
            self.look()
            self.needed.remove(most)
            self.settle()

    def look(self) -> None:
        """Takes what the limit is without us. What somebody else sets meanwhile stays."""
        now = csv.field_size_limit()
        if not self.needed or now != self.put:
            self.before = now

    def settle(self) -> None:
        """Sets the limit."""
        self.put = max([self.before, *self.needed])
        csv.field_size_limit(self.put)


LIMIT = FieldLimit()


@contextlib.contextmanager
def long_fields(most: int) -> Iterator[None]:
    """Has fields of so many characters read within the block."""
    LIMIT.begin(most)
    try:
        yield
    finally:
        LIMIT.end(most)
