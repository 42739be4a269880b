"""What the parts of a workbook show before a library reads them: whether all that a spreadsheet shows will be seen, and
how much it is.

The libraries pass over what they do not expect: rows and cells of another namespace or in another element, a second
sheet of one name, all that stands behind some elements. Each part is gone through once with its namespaces, without
being kept. What a library would not see is refused, and so is what takes more memory or time than a sheet of its size
may."""
import re
from typing import List, Mapping, Set, Tuple

from ..faults import SheetError

MAX_UNPACKED, MAX_PARTS, MAX_CELLS, MAX_DEPTH = 1 << 29, 10_000, 4_000_000, 64
FREE_UNPACKED, MOST_RATIO = 1 << 26, 200
"""So much may be unpacked of any file, and of a larger one so many times its size."""
FREE_ELEMENTS, BYTES_EACH = 200_000, 2
"""So many elements may any file have, and a larger one so many more as it has bytes, over this."""
MAX_OTHERS = 200_000
"""No workbook has so many elements beside those of its cells: styles, relations, names."""
MAX_ATTRIBUTE, MAX_FORMAT, MAX_TEXT = 1 << 16, 1024, 100_000
MAX_ROW, LAST_COLUMN, MAX_COLUMNS, MAX_BLANKS = 1_048_576, "XFD", 16_384, 10_000_000
NUMBER = re.compile(r"[+-]?([0-9]+(\.[0-9]*)?|\.[0-9]+)([eE][+-]?[0-9]+)?")

Attributes = Mapping[str, str]


def anew(name: str, what: str) -> SheetError:
    """What is wrong with a workbook that a spreadsheet may mend by writing it again."""
    return SheetError(f"{name} {what}: open it in a spreadsheet and save it anew")


class Budget:
    """How much a workbook may still have, over all its parts."""

    def __init__(self, name: str, size: int) -> None:
        self.name, self.elements, self.others = name, FREE_ELEMENTS + size // BYTES_EACH, MAX_OTHERS
        self.most = self.elements

    def take(self, is_of_cells: bool) -> None:
        """Takes an element."""
        self.elements -= 1
        self.others -= not is_of_cells
        if self.elements < 0 or self.others < 0:
            most = self.most if self.elements < 0 else MAX_OTHERS
            raise SheetError(
                f"{self.name} has more than {most:,} elements, which is too many for a workbook of its size"
            )


class Scan:
    """A part of a workbook. Another scan knows what is special in a part with its root."""

    def __init__(self, name: str, part: str) -> None:
        self.name, self.part = name, part
        # The elements in which the place is, each its namespace and name.
        self.path: List[Tuple[str, str]] = []

    def start(self, space: str, tag: str, attributes: Attributes) -> None:
        """Sees an element begin; it stands last in the path."""

    def end(self, space: str, tag: str) -> None:
        """Sees an element end; it stands last in the path still."""

    def text(self, text: str) -> None:
        """Sees characters."""

    def up(self) -> Tuple[str, str]:
        """The element above the last of the path."""
        return self.path[-2] if len(self.path) > 1 else ("", "")


def see_title(name: str, title: str, titles: Set[str]) -> None:
    """Refuses a second sheet of one title, of which the library keeps one."""
    if title in titles:
        raise SheetError(f"{name} has two sheets with the title {title[:80]}; give one of them another")
    titles.add(title)
