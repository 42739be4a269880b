"""What the tests of refusals share: the numbers of the kinds of faults as docs/FORMATS.md has them, a small network and
a larger one, and a case that holds the whole ending of a run against what is wanted."""
import re
import subprocess
from typing import Any, Dict, Iterator, List, Optional, Sequence, Union

from common import PROGRAM, ROOT, Case, Word

# The words of a command line, which may be no text.
Words = Sequence[Union[str, bytes]]
FORMATS = (ROOT / "docs/FORMATS.md").read_text()
TABLE = FORMATS.partition("| number | kind |")[2].partition("\n\n")[0]
NUMBERS = {kind: int(number) for number, kind in re.findall(r"^\| ([0-9]+) \| ([a-z ]+) \|", TABLE, re.M)}
USAGE = (2, "clearing: the command line is not understood\n")
LARGEST = 8_388_608
# The records of a small network, and of one of 20 banks and 100 debts.
FEW_BANKS = ["A,7,order", "B,1,equal", f"{'n' * 64},3,adams", f"{'😀' * 16},3,losses"]
FEW_DEBTS = ["A,B,1,10", f"{'n' * 64},A,9,5"]
MANY_BANKS = [*FEW_BANKS, *(f"G{i},{i},webster" for i in range(16))]
MANY_DEBTS = [*FEW_DEBTS, *(f"G{i},G{(i + c) % 16},{c},{i}" for c in range(1, 8) for i in range(16))][:100]


def joined(*parts: Union[str, bytes]) -> bytes:
    """The bytes of some parts, one after another."""
    return b"".join(part if isinstance(part, bytes) else part.encode() for part in parts)


HEADERS = {
    "banks": "name,cash,rule",
    "debts": "debtor,creditor,class,claim",
    "journal": "stamp,debtor,creditor,class,to",
}


def one(name: str, *rest: str) -> str:
    """A scenario of a name, with further lines."""
    return f"[[scenario]]\nname = {name}\n" + "".join(f"{text}\n" for text in rest)


class RefusalCase(Case):
    """A case with the files of a network, each of which a run may get another one for."""

    def setUp(self) -> None:
        """Begins with the small network, a scenario and an empty journal."""
        super().setUp()
        self.names: Dict[str, Word] = {
            "scenarios": self.file("scenarios.toml", one('"a"')),
            "journal": self.file("journal.csv", HEADERS["journal"] + "\n"),
        }
        self.use(FEW_BANKS, FEW_DEBTS)

    def use(self, banks: List[str], debts: List[str]) -> None:
        """Gives a network to the runs that follow."""
        for file, records in (("banks", banks), ("debts", debts)):
            self.names[file] = self.file(f"{file}.csv", "\n".join([HEADERS[file], *records]) + "\n")

    def on_both(self) -> Iterator[bool]:
        """Both networks, by turns; answers whether it is the large one."""
        for many in (False, True):
            self.use(MANY_BANKS if many else FEW_BANKS, MANY_DEBTS if many else FEW_DEBTS)
            yield many

    def ends(self, words: Sequence[Any], status: int, message: str, output: str = "") -> None:
        """A run ends with a status, and with just this message and output."""
        given = [word if isinstance(word, bytes) else str(word).encode() for word in words]
        done = subprocess.run([PROGRAM.encode(), *given], stdin=subprocess.DEVNULL, capture_output=True)
        told = done.returncode, done.stderr.decode(errors="replace"), done.stdout.decode(errors="replace")
        if told != (status, message, output):
            self.fail(
                f"{[word[:80] for word in given]}: {told[0], told[1][:200], told[2][:80]} in place of"
                f" {status, message[:200]}"
            )

    def words(self, file: str, path: Word, task: Optional[str] = None) -> List[Word]:
        """The words of a run of which a file has another name."""
        task = task or {"banks": "check", "debts": "clear", "scenarios": "stress", "journal": "replay"}[file]
        names: Dict[str, Word] = {**self.names, file: path}
        shown = ["banks", "debts", *([file] if file in ("scenarios", "journal") else [])]
        return [task, *(word for name in shown for word in (f"--{name}", names[name]))]

    def fault(self, file: str, content: Any, row: int, kind: str, task: Optional[str] = None) -> None:
        """A run that reads this in the place of a file tells a fault of a row and a kind, and prints nothing."""
        self.ends(
            self.words(file, self.file("tried", content), task),
            4,
            f"clearing: {file} row {row}: {kind} ({NUMBERS[kind]})\n",
        )
