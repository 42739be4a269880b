#!/usr/bin/env python3
"""What the tools take of a processor on their largest and on hostile inputs.

    bench/tools.py [ROW]..

Prints a line for each row, or for these alone, such as `lint-names`: seconds of a processor, the least of three runs,
and what was done. The row `matrix` has beside them how often that is the reading of its cells; `list` and `totals`
are networks of the wide limits, and have beside them the most memory that any run took so far. The environment
variable CLEARING names the program, which makes the journals. The rows `completion-..` want bash.
"""
import os
import pathlib
import random
import resource
import subprocess
import sys
import tempfile
from typing import Callable, Dict, Iterable, List, NamedTuple, Sequence, Tuple, Union

BENCH = pathlib.Path(__file__).resolve().parent
ROOT = BENCH.parent
sys.dont_write_bytecode = True
sys.path[:0] = [str(BENCH)]
import inputs  # noqa: E402
import timing  # noqa: E402
from networks import BANKS_HEADER, DEBTS_HEADER, RULES, Bank, Network  # noqa: E402
from ring_networks import ring  # noqa: E402
from usual_networks import largest  # noqa: E402

RUNS = 3
BANKS, DEBTS = BANKS_HEADER.encode(), DEBTS_HEADER.encode()
READ = """import csv, sys
from decimal import Decimal
print(sum(Decimal(cell) for row in list(csv.reader(open(sys.argv[1])))[1:] for cell in row[1:]))
"""
COMPLETE = f'source "{ROOT}/tools/clearing.bash"; COMP_LINE=$1 COMP_POINT=${{#1}}; _clearing clearing "" 2>/dev/null'

Word = Union[str, pathlib.Path]


class Spent(NamedTuple):
    """What a row tells: seconds of a processor, and what was done in them."""

    seconds: float
    what: str


Row = Callable[[pathlib.Path], Spent]
"""A row, which is measured in an empty folder."""


def spent(words: Sequence[Word], folder: pathlib.Path, ends: Sequence[int] = (0, 1)) -> float:
    """Seconds of a processor that a run in a folder takes, the least of some. A Fault where it ends with none of these
    statuses."""
    run = [str(word) for word in words]
    least = float("inf")
    for _ in range(RUNS):
        before = resource.getrusage(resource.RUSAGE_CHILDREN)
        nothing = subprocess.DEVNULL
        done = subprocess.run(run, cwd=folder, stdin=nothing, stdout=nothing, stderr=subprocess.PIPE)
        after = resource.getrusage(resource.RUSAGE_CHILDREN)
        if done.returncode not in ends:
            raise timing.Fault(f"{run[1]}: status {done.returncode}: {done.stderr.decode(errors='replace')[-300:]}")
        least = min(least, after.ru_utime + after.ru_stime - before.ru_utime - before.ru_stime)
    return least


def tool(name: str, *words: Word) -> Sequence[Word]:
    """The words of a command of bin/."""
    return [sys.executable, ROOT / "bin" / name, *words]


def lines(head: bytes, records: Iterable[bytes]) -> bytes:
    """A file of a header and a record for each line."""
    return head + b"".join(record + b"\n" for record in records)


# What lint takes.


def lint(folder: pathlib.Path, banks: bytes, debts: bytes, **more: bytes) -> float:
    """The seconds of lint on files with some contents: banks, debts, and others by the names of their options."""
    words: Sequence[Word] = ()
    for option, content in {"banks": banks, "debts": debts, **more}.items():
        (folder / option).write_bytes(content)
        words = [*words, f"--{option}", folder / option]
    return spent(tool("clearing-lint", *words), folder)


def ring_of(banks: int) -> Tuple[bytes, bytes]:
    """The two files of so many banks, with 15,000 debts in rings of several widths."""
    debts = (b"B%d,B%d,1,1" % (n % banks, (n + 1 + n // banks) % banks) for n in range(15_000))
    return lines(BANKS, (b"B%d,1,order" % n for n in range(banks))), lines(DEBTS, debts)


def lint_names(folder: pathlib.Path) -> Spent:
    """Debtors who are no banks, though they nearly have the name of one."""
    banks = lines(BANKS, (b"Bank %d of the north,1,order" % n for n in range(1000)))
    debts = lines(DEBTS, (b"Bank %d of the South,Bank 1 of the north,1,1" % n for n in range(60_000)))
    return Spent(lint(folder, banks, debts), "60,000 unknown names by 1,000 banks")


def lint_rules(folder: pathlib.Path) -> Spent:
    """Rules that are none, though they nearly have the name of one."""
    banks = lines(BANKS, (b"B%d,1,jeferson%d" % (n, n) for n in range(100_000)))
    debts = lines(DEBTS, (b"B%d,B%d,1,1" % (n, n + 1) for n in range(15_000)))
    return Spent(lint(folder, banks, debts), "100,000 unknown rules")


def lint_journal(folder: pathlib.Path) -> Spent:
    """A journal that raises what nobody owes."""
    raises = (b"1,B%d,B%d,2,1" % (n % 900, (n + 1) % 900) for n in range(20_000))
    journal = lines(b"stamp,debtor,creditor,class,to\n", raises)
    return Spent(lint(folder, *ring_of(900), journal=journal), "20,000 raises on unknown debts")


def lint_keys(folder: pathlib.Path) -> Spent:
    """A scenario with keys that mean nothing."""
    keys = lines(b'[[scenario]]\nname = "a"\n', (b"nam%d = 1" % n for n in range(60_000)))
    return Spent(lint(folder, *ring_of(900), scenarios=keys), "a scenario of 60,000 unknown keys")


# What an audit takes.


def audit(folder: pathlib.Path, network: Network, *how: str) -> Spent:
    """The audit of the journal of a run of the program on a network, by one worker and further words."""
    inputs.write(str(folder / "n"), *network)
    files: Sequence[Word] = ["--banks", folder / "n-banks.csv", "--debts", folder / "n-debts.csv"]
    program = os.environ.get("CLEARING") or ROOT / "clearing"
    with open(folder / "journal.csv", "wb") as journal:
        run = [program, "clear", *files, "--show", "journal", "--workers", "1", *how]
        subprocess.run(run, stdout=journal, check=True)
    with open(folder / "journal.csv", "rb") as journal_lines:
        raises = sum(1 for _ in journal_lines) - 2
    took = spent(tool("clearing-audit", *files, "--journal", folder / "journal.csv"), folder, (0,))
    return Spent(took, f"{raises:,} raises")


def audit_raises(folder: pathlib.Path) -> Spent:
    """A million raises on ten debts."""
    return audit(folder, ring(10, 100_000, 1), "--sweeps", "1000")


def audit_banks(folder: pathlib.Path) -> Spent:
    """The largest network of the standard limits."""
    return audit(folder, largest("mixed"))


def audit_units(folder: pathlib.Path) -> Spent:
    """Thirty banks with claims of thousands of units each."""
    draw = random.Random(5)
    pairs = sorted({tuple(draw.sample(range(30), 2)) for _ in range(600)})
    banks: List[Bank] = [(f"N{n}", draw.randrange(200_000), RULES[n % 6]) for n in range(30)]
    debts = [(f"N{a}", f"N{b}", draw.choice([1, 1, 2, 3]), draw.randint(0, 16_000)) for a, b in pairs]
    return audit(folder, Network(banks, debts))


# What the completion takes, and a matrix.


def completion(content: Callable[[], bytes]) -> Row:
    """A row that completes the names of banks, of a banks file with this content below its header."""
    def row(folder: pathlib.Path) -> Spent:
        """The row."""
        (folder / "banks.csv").write_bytes(BANKS + content())
        line = "clearing rescue --banks banks.csv --debts d.csv --bank "
        took = spent(["bash", "--norc", "-c", COMPLETE, "bash", line], folder)
        return Spent(took, "names of banks completed in 8 MB")

    return row


def matrix(folder: pathlib.Path) -> Spent:
    """A thousand banks, each of which owes up to nineteen others."""
    draw, names = random.Random(1), [f"Bank {at}" for at in range(1000)]
    rows = ["," + ",".join(names) + ",cash"]
    for at, name in enumerate(names):
        row = ["0.00"] * 1000
        for other in draw.sample(range(1000), 19):
            row[other] = f"{draw.randrange(1, 900) / 100:.2f}" if other != at else "0.00"
        rows.append(f"{name}," + ",".join(row) + f",{draw.randrange(1000)}")
    (folder / "m.csv").write_text("\n".join(rows) + "\n")
    reading = spent([sys.executable, "-c", READ, folder / "m.csv"], folder, (0,))
    to: Sequence[Word] = ["--banks", folder / "b.csv", "--debts", folder / "d.csv"]
    took = spent(tool("clearing-from-matrix", folder / "m.csv", "--unit", "0.01", *to), folder, (0,))
    return Spent(took, f"a matrix of 1,000 banks, {timing.ratio(took, reading)} times the reading of its cells")


# What the importers take on networks of the wide limits.


def list_of_a_million(folder: pathlib.Path) -> Spent:
    """A list of a million lines on ten thousand banks, a debt each."""
    draw = random.Random(5)
    pairs: Dict[Tuple[int, int], int] = {}
    while len(pairs) < 1_000_000:
        pair = draw.randrange(10_000), draw.randrange(10_000)
        if pair[0] != pair[1]:
            pairs[pair] = draw.randint(1, 40)
    rows = (b"Bank %05d,Bank %05d,%d" % (*pair, amount) for pair, amount in pairs.items())
    (folder / "list.csv").write_bytes(lines(b"debtor,creditor,amount\n", rows))
    rows = (b"Bank %05d,%d" % (at, draw.randint(0, 500)) for at in range(10_000))
    (folder / "table.csv").write_bytes(lines(b"bank,cash\n", rows))
    to: Sequence[Word] = ["--banks", folder / "b.csv", "--debts", folder / "d.csv"]
    took = spent(tool("clearing-from-list", folder / "list.csv", "--table", folder / "table.csv", *to), folder, (0,))
    return Spent(took, f"a list of 1,000,000 lines, with {most_of_children()} MB")


def totals_of_a_thousand(folder: pathlib.Path) -> Spent:
    """The totals of a thousand banks, of which entropy makes a debt of nearly every pair."""
    draw = random.Random(4)
    owed = [draw.randint(2_000, 40_000) for _ in range(1_000)]
    owes = draw.sample(owed, len(owed))
    rows = (b"Bank %04d,%d,%d,9" % (at, *both) for at, both in enumerate(zip(owed, owes)))
    (folder / "t.csv").write_bytes(lines(b"bank,assets,liabilities,cash\n", rows))
    how = ["--method=entropy", "--most=1000000", "--limits=wide", "--out"]
    took = spent(tool("clearing-from-totals", folder / "t.csv", *how, folder / "made"), folder, (0,))
    return Spent(took, f"the totals of 1,000 banks by entropy, with {most_of_children()} MB")


def most_of_children() -> int:
    """The most megabytes of memory, of a million bytes, that a run has taken so far."""
    return round(resource.getrusage(resource.RUSAGE_CHILDREN).ru_maxrss / 1000)


ROWS: Dict[str, Row] = {
    "lint-names": lint_names,
    "lint-rules": lint_rules,
    "lint-journal": lint_journal,
    "lint-keys": lint_keys,
    "audit-raises": audit_raises,
    "audit-banks": audit_banks,
    "audit-units": audit_units,
    "completion-banks": completion(lambda: b"".join(b"Bank%d,1,order\n" % n for n in range(450_000))),
    "completion-line": completion(lambda: b"A,1,order\n" + b"x" * 8_000_000),
    "completion-commas": completion(lambda: b"A,1,order\n" + b"," * 8_000_000),
    "completion-lines": completion(lambda: b"\n" * 8_000_000 + b"A,1,order\n"),
    "completion-nul": completion(lambda: b"A,1,order\n" + b"\0" * 8_000_000),
    "matrix": matrix,
    "list": list_of_a_million,
    "totals": totals_of_a_thousand,
}


def main(names: Sequence[str]) -> None:
    """Prints the rows of some names, or all."""
    for name in names or ROWS:
        if name not in ROWS:
            sys.exit(f"tools.py: no row {name}; there are {', '.join(ROWS)}")
        with tempfile.TemporaryDirectory() as folder:
            row = ROWS[name](pathlib.Path(folder))
        print(f"{name:18} {row.seconds:6.2f} s  {row.what}", flush=True)


if __name__ == "__main__":
    main(sys.argv[1:])
