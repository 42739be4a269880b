"""Names that a spreadsheet takes for formulas, of which lint warns, and what bounds the work of lint on hostile files,
which bench/tools.py times."""
import difflib
import unittest
from typing import Any, Tuple
from unittest import mock

from common import Case, tool

from clearing_tools.checks import field_hints, linter

FORMULAS = ["=cmd|' /C calc'!A0", "+1+1", "@SUM(A1)", "-2+3", "=HYPERLINK(1)"]
PLAIN = ["1=1", "A+B", "a@b", "Crédit-Loire", "'=1"]


class Formulas(Case):
    def test_lint_warns_of_them_and_of_no_others(self):
        banks = self.file("banks.csv", "name,cash,rule\n" + "".join(f"{name},1,order\n" for name in FORMULAS + PLAIN))
        debts = self.file("debts.csv", "debtor,creditor,class,claim\n")
        done = tool("clearing-lint", "--banks", banks, "--debts", debts)
        self.assertEqual(done.returncode, 0, done.stdout)
        warned = [line for line in done.stdout.splitlines() if "takes the name" in line]
        self.assertEqual(len(warned), len(FORMULAS), done.stdout)
        for name, line in zip(FORMULAS, warned):
            self.assertIn(repr(name), line)
        self.assertTrue(done.stdout.endswith(f"no fault, {len(FORMULAS)} warnings\n"), done.stdout)


class Bounded(Case):
    """A search for a word that is like another is dear, so that few are made, however many faults there are."""

    def faults(self, *files: Any, **more: Any) -> Tuple[Any, int]:
        """The faults of some files, and how many searches were made for the hints on them."""
        with mock.patch("difflib.get_close_matches", wraps=difflib.get_close_matches) as searches:
            return linter.Linter(*files, **more).faults, searches.call_count

    def test_many_unknown_names_have_few_searches(self):
        banks = b"name,cash,rule\n" + b"".join(b"Bank %d of the north,1,order\n" % n for n in range(1000))
        debts = b"debtor,creditor,class,claim\n" + b"".join(
            b"Bank %d of the South,Bank 1 of the north,1,1\n" % n for n in range(60_000)
        )
        faults, searches = self.faults(banks, debts)
        self.assertEqual(sum(fault.kind == "unknown bank" for fault in faults), 60_000)
        self.assertTrue(0 < searches <= 50, searches)
        # The hints are those of before.
        few = b"debtor,creditor,class,claim\nBANK 7 of the north,Bank 1 of the north,1,1\n"
        self.assertIn("the banks file has 'Bank 7 of the north'", linter.Linter(banks, few).faults[0].hint)

    def test_many_other_faults_have_few_searches(self):
        banks = b"name,cash,rule\n" + b"".join(b"B%d,1,jeferson%d\n" % (n, n) for n in range(100_000))
        debts = b"debtor,creditor,class,claim\n" + b"".join(b"B%d,B%d,1,1\n" % (n, n + 1) for n in range(15_000))
        faults, searches = self.faults(banks, debts)
        self.assertGreater(len(faults), 100_000)
        self.assertTrue(0 < searches <= field_hints.MOST_HINTS + 50, searches)
        good = b"name,cash,rule\n" + b"".join(b"B%d,1,order\n" % n for n in range(900))
        net = b"debtor,creditor,class,claim\n" + b"".join(
            b"B%d,B%d,1,1\n" % (n % 900, (n + 1 + n // 900) % 900) for n in range(15_000)
        )
        journal = b"stamp,debtor,creditor,class,to\n" + b"".join(
            b"1,B%d,B%d,2,1\n" % (n % 900, (n + 1) % 900) for n in range(20_000)
        )
        faults, searches = self.faults(good, net, journal=journal)
        self.assertEqual((len(faults), searches), (20_000, 0))
        keys = b'[[scenario]]\nname = "a"\n' + b"".join(b"nam%d = 1\n" % n for n in range(60_000))
        faults, searches = self.faults(good, net, scenarios=keys)
        self.assertGreaterEqual(len(faults), 60_000)
        self.assertTrue(0 < searches <= field_hints.MOST_HINTS, searches)


if __name__ == "__main__":
    unittest.main()
