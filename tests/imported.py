"""What the tests of importers share: a case with the two files that an importer makes of sheets, and one with a list of
debts, and one with totals."""
import subprocess
from typing import Dict, List, Tuple

from common import Case, Word, needs_modules, tool
from pythons import python_with

TABLE = "bank,cash,outside,rule\nA,3,0,order\nB,4,1,equal\nC,5,0,webster\n"
"""The table of banks beside a list of debts."""
TOTALS = "bank,assets,liabilities,cash\nA,100,60,20\nB,50,90,10\nC,70,40,30\nD,30,60,5\n"
"""What each of four banks is owed and owes in all."""


class ImportCase(Case):
    """A case whose importer writes `banks.csv` and `debts.csv` into the folder of the test."""

    def setUp(self) -> None:
        """Names the two files, and the words that have an importer write them, or the program read them."""
        super().setUp()
        self.banks, self.debts = self.file("banks.csv"), self.file("debts.csv")
        self.files: List[Word] = ["--banks", self.banks, "--debts", self.debts]

    def check(self, banks: str, debts: str) -> None:
        """The two files that were made are these, and the program takes them."""
        self.assertEqual((self.banks.read_text(), self.debts.read_text()), (banks, debts))
        self.printed("check", *self.files)

    def nothing_made(self) -> None:
        """Neither of the two files was made."""
        self.assertFalse(self.banks.exists() or self.debts.exists())

    def begin_anew(self) -> None:
        """Takes the two files away, so that what is made next is told apart."""
        for path in (self.banks, self.debts):
            path.unlink()


class ListCase(ImportCase):
    """A case that takes lists of debts beside a table of banks."""

    def words(self, text: str, table: str = TABLE) -> List[Word]:
        """The words for a list and a table of these texts."""
        return [self.file("list.csv", text), "--table", self.file("table.csv", table), *self.files]

    def take(self, text: str, *more: Word, table: str = TABLE) -> str:
        """What the tool tells of a list that it takes."""
        return self.told("clearing-from-list", *self.words(text, table), *more)

    def refuse(self, message: str, text: str, *more: Word, table: str = TABLE) -> None:
        """The tool refuses a list by a message with these words, and makes nothing."""
        self.refused("clearing-from-list", 1, message, *self.words(text, table), *more)
        self.nothing_made()


@needs_modules("numpy")
class TotalsCase(Case):
    """A case that takes tables of what each bank owes and is owed in all."""

    def run_of(self, table: str, *words: Word) -> "subprocess.CompletedProcess[str]":
        """A run of the tool on a table, which writes into the folder `out`."""
        return tool(
            "clearing-from-totals",
            self.file("t.csv", table),
            "--out",
            self.folder / "out",
            *words,
            python=python_with("numpy"),
        )

    def made_of(self, table: str, *words: Word) -> str:
        """What the tool tells of a table that it takes."""
        done = self.run_of(table, *words)
        self.assertEqual((done.returncode, done.stdout), (0, ""), done.stderr)
        return done.stderr

    def refuse(self, message: str, table: str, *words: Word, status: int = 1) -> None:
        """The tool refuses a table by a message with these words, and makes nothing."""
        done = self.run_of(table, *words)
        self.assertEqual((done.returncode, done.stdout), (status, ""), done.stderr)
        self.assertIn(message, done.stderr)
        self.assertFalse((self.folder / "out").exists())

    def debts(self, folder: str = "out") -> Dict[Tuple[str, str], int]:
        """The claims of a network that the program takes, by debtor and creditor."""
        place = self.folder / folder
        self.printed("check", "--banks", place / "banks.csv", "--debts", place / "debts.csv")
        rows = [line.split(",") for line in (place / "debts.csv").read_text().split("\n")[1:-1]]
        return {(row[0], row[1]): int(row[3]) for row in rows}

    def check_totals(self, debts: Dict[Tuple[str, str], int], table: str, unit: int = 1) -> None:
        """The claims of each bank come to what the table says, in some units."""
        for line in table.splitlines()[1:]:
            name, assets, liabilities = line.split(",")[:3]
            self.assertEqual(
                sum(claim for (_, creditor), claim in debts.items() if creditor == name), int(assets) // unit, name
            )
            self.assertEqual(
                sum(claim for (debtor, _), claim in debts.items() if debtor == name), int(liabilities) // unit, name
            )
