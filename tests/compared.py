"""What the tests beside the plain model share: a network is written, and what each task prints of it is compared."""
import importlib
import sys
from typing import Any, Callable, List, Optional

from common import ROOT, Case, Word, files_of

sys.path.insert(0, str(ROOT / "tests/system"))
model: Any = importlib.import_module("model")


class Compared(Case):
    """A test that writes networks of the model, and compares texts of the program with those of the model."""

    def write(self, net: Any, second: bool = True) -> None:
        """Writes the two files of a network, which the words of each task then name; that of banks has a column for
        what they owe outside, or has none."""
        self.file("banks.csv", model.banks_text(net, second))
        self.file("debts.csv", model.debts_text(net))
        self.files = files_of(self.folder)

    def text(self, task: str, *more: Word) -> str:
        """What a task prints of the network."""
        return self.printed(task, *self.files, *more)

    def same(
        self,
        wanted: str,
        task: str,
        *more: Word,
        cut: Callable[[str], str] = lambda text: text,
        files: Optional[List[Word]] = None,
    ) -> None:
        """Compares long texts of the network, or of other files, or what is cut from them, without a long message, and
        goes on."""
        with self.subTest(task=task, more=[str(word)[:80] for word in more]):
            told = cut(self.printed(task, *(self.files if files is None else files), *more))
            if told != wanted:
                lines = [pair for pair in zip(told.split("\n"), wanted.split("\n")) if pair[0] != pair[1]]
                self.fail(f"{task}: {len(told)} bytes in place of {len(wanted)}; first {lines[:1]}")
