"""The table of docs/INTERPRETING.md: the program beside pro rata in real numbers, on three networks."""
import os
import pathlib
import re
import shlex
import subprocess
import sys
import tempfile
import unittest
from typing import Any, Iterator, List, Tuple

import compared  # noqa: F401  # so that Python finds the modules of system/
from common import PROGRAM, ROOT, Word, loaded

from model import Bank, Debt, Net, estate, least, share, state

TEXT = (ROOT / "docs/INTERPRETING.md").read_text(encoding="utf-8")


def told(task: str, name: str) -> List[List[str]]:
    files = [f"examples/{name}/{kind}.csv" for kind in ("banks", "debts")]
    run = [PROGRAM, task, "--banks", files[0], "--debts", files[1]]
    return [
        line.split(",")
        for line in subprocess.run(run, cwd=ROOT, capture_output=True, encoding="utf-8", check=True).stdout.splitlines()
    ]


def by_program(name: str) -> Tuple[List[str], List[str]]:
    """What is paid, and how many are in default: under the least payments, and under the greatest."""
    debts = [row for row in told("bounds", name) if len(row) == 6 and row[3].isdigit()]
    paid = [sum(int(row[place]) for row in debts) for place in (4, 5)]
    short = sum(row[-1] in ("fundamental", "contagion") for row in told("defaults", name))
    stuck = sum(row[-2] == "yes" for row in told("bounds", name) if len(row) == 4)
    return [f"{sum_:,}" for sum_ in paid], [str(short), str(short - stuck)]


def in_real_numbers(name: str, *words: Word, end: str = "greatest") -> Tuple[str, str]:
    run = [sys.executable, "examples/pro-rata/real.py", ROOT / "examples" / name, *words]
    printed = subprocess.run(run, cwd=ROOT, capture_output=True, encoding="utf-8", check=True).stdout
    found = re.search(rf"^{end}: paid ([\d.]+), banks that leave debts unpaid: (\d+)$", printed, re.MULTILINE)
    return f"{float(found[1]):,.1f}", found[2]


def real_module() -> Any:
    return loaded(ROOT / "examples/pro-rata/real.py")


class RealNumbers(unittest.TestCase):
    def test_a_closed_pipe_is_no_fault(self):
        run = f"exec {shlex.quote(sys.executable)} examples/pro-rata/real.py examples/twelve-banks"
        read, write = os.pipe()
        os.close(read)
        done = subprocess.run(["sh", "-c", run], cwd=ROOT, stdout=write, stderr=subprocess.PIPE, encoding="utf-8")
        os.close(write)
        self.assertEqual(done.stderr, "")

    def test_words_that_are_none_are_told(self):
        for words in ([], ["--one-class"], ["examples/core", "--two"]):
            done = subprocess.run(
                [sys.executable, "examples/pro-rata/real.py", *words], cwd=ROOT, capture_output=True, encoding="utf-8"
            )
            self.assertEqual(
                (done.returncode, done.stdout, done.stderr), (1, "", "usage: python3 real.py FOLDER [--one-class]\n")
            )

    def test_a_step_goes_over_all_debts_a_few_times_however_many_banks_there_are(self):
        class Counted(list):
            passes = 0

            def __iter__(self) -> Iterator[Any]:
                self.passes += 1
                return super().__iter__()

        names = [f"B{at}" for at in range(100)]
        debts = Counted((one, other, "1", 1.0) for one, other in zip(names, names[1:]))
        # Nobody has anything, so that one step shows that nothing moves.
        self.assertEqual(set(real_module().repeated(dict.fromkeys(names, 0.0), debts, len(debts) * [0.0])), {0.0})
        self.assertLess(debts.passes, 5)


class Ties(unittest.TestCase):
    def test_equal_claims_in_one_order_are_met_from_the_front_in_each_division(self):
        """The 40 banks of its paragraph on rounding, by the plain model."""
        said = (
            "Let 40 banks each owe the same 40 creditors 1 unit, in the same order, and have 20 units to pay with. By "
            "`webster` the first 20 creditors are then paid in full by all, and the other 20 get nothing."
        )
        self.assertIn(said, " ".join(TEXT.split()))
        self.assertEqual(share("webster", 40 * (1,), 40 * (1,), 20), 20 * [1] + 20 * [0])

    def test_what_they_receive_turns_with_the_order_and_evens_out_where_each_debtor_has_its_own(self):
        """The same banks, where each creditor owes 20 units on, which is what each would receive in proportion."""
        one_order = [(debtor, 40 + creditor) for debtor in range(40) for creditor in range(40)]
        own_order = [(debtor, 40 + (debtor + place) % 40) for debtor in range(40) for place in range(40)]
        banks = [Bank(f"B{at}", 20 * (at < 40), "webster", 0) for at in range(81)]
        front, back = 20 * [40] + 20 * [0], 20 * [0] + 20 * [40]
        for pairs, received in ((one_order, front), (one_order[::-1], back), (own_order, 40 * [20])):
            net = Net(banks, [Debt(*pair, 1, 1) for pair in pairs] + [Debt(40 + at, 80, 1, 20) for at in range(40)])
            paid = least(net)
            self.assertEqual([estate(net, paid, at) for at in range(40, 80)], received)
            states = ["sound" if units >= 20 else "contagion" for units in received]
            self.assertEqual([state(net, paid, at) for at in range(40, 80)], states)
            # What a debtor pays in all is exact.
            self.assertEqual({sum(paid[at] for at in row) for row in net.rows[:40]}, {20})
        place = tempfile.TemporaryDirectory()
        self.addCleanup(place.cleanup)
        folder = pathlib.Path(place.name)
        rows = [f"{bank.name},{bank.cash},{bank.rule}" for bank in banks]
        lines = [f"B{a},B{b},1,1" for a, b in one_order] + [f"B{40 + at},B80,1,20" for at in range(40)]
        (folder / "banks.csv").write_text("\n".join(["name,cash,rule", *rows, ""]))
        (folder / "debts.csv").write_text("\n".join(["debtor,creditor,class,claim", *lines, ""]))
        self.assertEqual(in_real_numbers(folder), ("1,600.0", "40"))


class Table(unittest.TestCase):
    def test_it_has_what_the_program_and_real_numbers_give(self):
        rows = [
            [cell.strip() for cell in line.strip("|").split("|")] for line in TEXT.splitlines() if line.startswith("| ")
        ]
        for name in ("twelve-banks", "core", "gridlock"):
            start = next(place for place, row in enumerate(rows) if row[0].startswith(f"`{name}`") and len(row) == 5)
            paid, short = by_program(name)
            for words in ((), ("--one-class",)):
                real = in_real_numbers(name, *words)
                paid.append(real[0])
                short.append(real[1])
            self.assertEqual([rows[start][1:], rows[start + 1][1:]], [paid, short], name)

    def test_the_least_in_real_numbers_are_the_greatest_but_for_circles_without_cash(self):
        for name, same in (("twelve-banks", True), ("core", True), ("gridlock", False)):
            for words in ((), ("--one-class",)):
                least, greatest = (in_real_numbers(name, *words, end=end) for end in ("least", "greatest"))
                self.assertEqual(least == greatest, same, (name, words))
        self.assertEqual(in_real_numbers("gridlock", end="least"), ("0.0", "3"))

    def test_debt_by_debt_the_distance_is_what_it_says(self):
        real = real_module()
        banks, debts = real.read(ROOT / "examples/core", False)
        exact = real.repeated(banks, debts, [claim for *_, claim in debts])
        rows = [row for row in told("bounds", "core") if len(row) == 6 and row[3].isdigit()]
        self.assertEqual(len(rows), len(debts))
        text = " ".join(TEXT.split())
        off = [[abs(int(row[place]) - amount) for row, amount in zip(rows, exact)] for place in (4, 5)]
        self.assertIn(
            f"add up to {sum(off[0]):.1f} units over {len(debts)} debts, and none is above {max(off[0]) + 0.005:.2f}.",
            text,
        )
        self.assertIn(f"For the greatest list they add up to {sum(off[1]):.1f}.", text)
        self.assertLess(sum(int(row[4]) for row in rows) - sum(exact), 4)


if __name__ == "__main__":
    unittest.main()
