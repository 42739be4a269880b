"""The numbers of docs/THEORY.md: its commands print what stands there, and its tables are those of a plain model."""
import re
import unittest
from typing import List

import compared  # noqa: F401  # so that Python finds the modules of system/
from common import ROOT
from pages import page_run

from model import Bank, Debt, Net, pay, share

TEXT = (ROOT / "docs/THEORY.md").read_text(encoding="utf-8")


def table_below(words: str) -> List[List[str]]:
    """The rows of the first table below some words, cell by cell."""
    rows = re.search(r"\n\|.*?\n\|[-|]*\n((?:\|.*\n)+)", TEXT[TEXT.index(words) :])[1]
    return [[cell.strip(" `") for cell in row.strip("|").split("|")] for row in rows.splitlines()]


class Paper(unittest.TestCase):
    maxDiff = None

    def test_its_commands_print_what_it_says(self):
        self.assertGreater(TEXT.count("\n$ "), 10)
        self.assertEqual(page_run(TEXT).splitlines(), TEXT.splitlines())

    def test_its_rounds_are_those_of_the_plain_model(self):
        banks = [
            Bank("A", 3, "webster", 0),
            Bank("B", 1, "equal", 0),
            Bank("C", 0, "order", 0),
            Bank("D", 0, "order", 0),
        ]
        owed = [(0, 1, 1, 6), (0, 2, 1, 3), (1, 2, 1, 4), (1, 3, 1, 4), (2, 0, 1, 5), (2, 3, 2, 2)]
        net = Net(banks, [Debt(*debt) for debt in owed])
        paid = [0] * len(owed)
        for number, row in enumerate(table_below("takes eight such rounds")):
            self.assertEqual([int(cell) for cell in row], [number, *paid, sum(paid)])
            paid = pay(net, paid)
        self.assertEqual((number, pay(net, paid)), (8, paid))

    def test_its_divisions_are_those_of_the_plain_model(self):
        claims = (90,) + 10 * (1,)
        for rule, most, each, off in table_below("from pro rata.** A has 55"):
            given = share(rule, claims, 11 * (1,), 55)
            self.assertEqual(list(given), [int(most)] + 10 * [int(each)])
            self.assertEqual(abs(55 * 90 / 100 - int(most)), float(off))

    def test_the_nearest_method_is_what_the_plain_model_says(self):
        claims, units = (10, 14, 18), 11
        quotas = [units * claim / sum(claims) for claim in claims]
        sums = {}
        for rule, *cells in table_below("**Which method is nearest**"):
            given = share(rule, claims, (1, 1, 1), units)
            off = [abs(award - quota) for award, quota in zip(given, quotas)]
            self.assertEqual(cells, [*map(str, given), f"{sum(off):.2f}", f"{max(off):.2f}"], rule)
            sums[rule] = sum(off), max(off)
        self.assertLess(sums["jefferson"][0], sums["webster"][0])
        self.assertLess(sums["jefferson"][1], sums["webster"][1])


if __name__ == "__main__":
    unittest.main()
