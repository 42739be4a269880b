"""The account of a bank, which says why it lacks something: its lines add up, and each is what the plain model says."""
import json
import os
import pathlib
import random
import shutil
import subprocess
import sys
import tempfile
import types
import unittest
from typing import Any, Dict, List, Tuple

from common import PACKAGES, PROGRAM, needs
from compared import model
from desk import account_of

import networks

from clearing_client.case import Case as Folder
from clearing_tools import runner
from clearing_tools.desk import account as accounts
from clearing_tools.desk import state as states
from clearing_tools.desk.runs import Desk, Runs, base_of

NETWORKS = 200
# The desk's modules, and those that it has from the report: they are served as if in one folder.
SCRIPTS = [PACKAGES / "clearing_tools" / part for part in ("drawing/web/script", "desk/script")]
# Wrong accounts, planted in the code: what is left out, counted twice or taken for something else.
PLANTED = {
    "claims are not counted": ("base.banks[bank].cash + claims - one.owed", "base.banks[bank].cash - one.owed"),
    "the loss is left out": ("left = whole - loss - sum(", "left = whole - sum("),
    "what is owed outside is left out": ("- outside - cleared.lost[bank]\n", "- cleared.lost[bank]\n"),
    "costs of default are left out": ("- outside - cleared.lost[bank]\n", "- outside\n"),
    "costs stand with what is owed outside": (
        "return Account(whole, loss, unpaid, outside, cleared.lost[bank], left)",
        "return Account(whole, loss, unpaid, outside + cleared.lost[bank], 0, left)",
    ),
    "the loss is that of another bank": ("cleared.left[bank]", "cleared.left[bank - 1]"),
    "a debt stands for all of a debtor": ("one[0] += claim", "one[0] = max(one[0], claim)"),
    "what is paid is what is unpaid": ("one[1] += paid", "one[1] += claim - paid"),
    "the last debtor has no line": ("return sorted(lines, ", "return sorted(lines[:-1], "),
    "the debtors are those of the claims owed": (
        "for _, debtor, _, _, claim, paid in owed:",
        "for _, _, debtor, _, claim, paid in owed:",
    ),
    "no test at the end": ("- (outside - one.outside_paid):", "- (outside - one.outside_paid) and bank:"),
}
# Lines of the account in the page, which adds together the debtors behind the first few.
LINES = """
const { linesOf } = await import(%s);
let text = "";
for await (const part of process.stdin) text += part;
const figures = ({ was, is, rest }) => ({ was, is, rest });
const found = JSON.parse(text).map(([now, before]) => linesOf(now, before).map(figures));
console.log(JSON.stringify(found));
"""


class Asked:
    """A network drawn at random, a state of it, and what the program and the model say of that."""

    def __init__(self, runs: Any, folder: pathlib.Path, number: int) -> None:
        rng = random.Random(7000 + number)
        net = networks.drawn_net(rng)
        (folder / "banks.csv").write_text(model.banks_text(net, True), encoding="utf-8")
        (folder / "debts.csv").write_text(model.debts_text(net), encoding="utf-8")
        self.keep = rng.choice([1000, 1000, 600, 0])
        losses = {at: rng.randrange(20) for at in range(0, len(net.banks), 3)}
        cut = rng.choice([0, 300, 1000])
        self.net = net
        self.left = model.shocked(net, model.Scenario("", cut, list(losses.items())))
        self.paid = model.least(self.left, self.keep)
        self.base = base_of(runs, str(folder / "banks.csv"), str(folder / "debts.csv"), None)
        desk = Desk(runs, self.base, Folder())
        self.found = desk.cleared(states.State(cut=str(cut), keep=str(self.keep), losses=tuple(losses.items())))
        self.before = desk.cleared(states.AS_IT_IS)
        model.forget()

    def lacks(self, bank: int) -> int:
        """What the model says that a bank has left: below 0 what it lacks."""
        (_, _, outside, on_debts, equity), _ = model.cost_standing(self.left, self.keep, self.paid, bank)
        return equity - (self.net.owed[bank] - on_debts) - (self.net.banks[bank].outside - outside)

    def unpaid(self, bank: int) -> List[Tuple[str, int, int]]:
        """What each debtor leaves unpaid of its claims, by the model: its place, the claims and what is paid."""
        sums = {}
        for x in self.net.columns[bank]:
            one = sums.setdefault(self.net.debts[x].debtor, [0, 0])
            one[0] += self.net.debts[x].claim
            one[1] += self.paid[x]
        return sorted((debtor, claim, paid) for debtor, (claim, paid) in sums.items() if paid < claim)

    def faults(self, bank: int, account: Any) -> List[str]:
        """What of the account of a bank does not add up, or is not what the model says."""
        one, claims = self.net.banks[bank], sum(self.net.debts[x].claim for x in self.net.columns[bank])
        (_, lost, *_), _ = model.cost_standing(self.left, self.keep, self.paid, bank)
        unpaid = [(line.debtor, line.claim, line.paid) for line in account.unpaid]
        gone = account.loss + sum(claim - paid for _, claim, paid in unpaid) + account.outside + account.lost
        lines = {
            "whole": (account.whole, one.cash + claims - self.net.owed[bank]),
            "loss": (account.loss, one.cash - self.left.banks[bank].cash),
            "unpaid": (sorted(unpaid), self.unpaid(bank)),
            "outside": (account.outside, one.outside),
            "lost": (account.lost, lost),
            "left": (account.left, self.lacks(bank)),
            "the sum": (account.whole - gone, account.left),
        }
        return [f"{name}: {here} in place of {there}" for name, (here, there) in lines.items() if here != there]


class Accounts(unittest.TestCase):
    @classmethod
    def setUpClass(cls):
        os.environ["CLEARING"] = PROGRAM
        folder = tempfile.TemporaryDirectory()
        cls.addClassCleanup(folder.cleanup)
        runs = Runs(folder.name)
        cls.asked = [Asked(runs, pathlib.Path(folder.name), number) for number in range(NETWORKS)]

    def test_the_lines_of_each_bank_of_200_networks_add_up(self):
        lacking = with_lines = 0
        for number, asked in enumerate(self.asked):
            for bank in range(len(asked.net.banks)):
                account = account_of(asked.base, asked.found, bank)
                self.assertEqual(asked.faults(bank, account), [], (number, asked.net.banks[bank].name))
                health = model.cost_standing(asked.left, asked.keep, asked.paid, bank)[1]
                self.assertEqual(account.left < 0, health != "sound", (number, asked.net.banks[bank].name))
                said = asked.found.banks[bank]
                left = said.equity - (said.owed - said.paid) - (said.outside - said.outside_paid)
                self.assertEqual((account.left, health != "sound"), (left, said.state != "sound"), "by the program")
                units = [line.claim - line.paid for line in account.unpaid]
                self.assertEqual(units, sorted(units, reverse=True))
                lacking, with_lines = lacking + (account.left < 0), with_lines + (len(units) > 1)
        # Enough of them are in default, and have several debtors that are too.
        self.assertGreater(lacking, NETWORKS)
        self.assertGreater(with_lines, NETWORKS)

    def test_a_wrong_account_is_told(self):
        """One amount is another, or stands in another line, so that the sum may still be right."""
        asked, bank, account = next(
            (asked, bank, account)
            for asked in self.asked
            for bank in range(len(asked.net.banks))
            for account in [account_of(asked.base, asked.found, bank)]
            if account.loss
            and account.outside
            and account.lost
            and len(account.unpaid) > 1
            and account.unpaid[0][1:3] != account.unpaid[1][1:3]
        )
        first, second, *others = account.unpaid
        amounts = ("whole", "loss", "outside", "lost", "left")
        wrong = [account._replace(**{name: getattr(account, name) + 1}) for name in amounts]
        wrong += [
            account._replace(loss=account.loss + 1, outside=account.outside - 1),
            account._replace(outside=account.outside + account.lost, lost=0),
            account._replace(whole=account.whole + 1, left=account.left + 1),
            account._replace(unpaid=[second, *others]),
            account._replace(unpaid=[first, first, second, *others]),
            *(
                account._replace(unpaid=[*changed, *others])
                for changed in (
                    [first._replace(debtor=second.debtor), second._replace(debtor=first.debtor)],
                    [first._replace(paid=first.paid - 1), second._replace(paid=second.paid + 1)],
                    [first._replace(claim=first.claim + 1, paid=first.paid + 1), second],
                )
            ),
        ]
        self.assertEqual(asked.faults(bank, account), [])
        for one in wrong:
            self.assertNotEqual(asked.faults(bank, one), [], one)

    def test_a_wrong_account_in_the_code_is_told(self):
        text = pathlib.Path(accounts.__file__).read_text(encoding="utf-8")
        for what, (old, new) in PLANTED.items():
            with self.subTest(planted=what):
                self.assertEqual(text.count(old), 1)
                made = types.ModuleType("clearing_tools.desk.account_with_a_fault")
                made.__package__ = "clearing_tools.desk"
                sys.modules[made.__name__] = made
                self.addCleanup(sys.modules.pop, made.__name__, None)
                exec(compile(text.replace(old, new), what, "exec"), made.__dict__)
                self.assertTrue(any(self.is_told(asked, made) for asked in self.asked))

    def is_told(self, asked: Asked, made: Any) -> bool:
        """Whether the accounts of a network by this module are told to be wrong: by itself, or by the model."""
        found = asked.found
        if made.account_by.__code__.co_filename == "no test at the end":
            # What is taken away there shows where the program's word is another.
            found = found._replace(banks=[bank._replace(equity=bank.equity + 1) for bank in found.banks])
            try:
                return account_of(asked.base, found, 0, made) is not None
            except runner.ToolError:
                return False
        for bank in range(len(asked.net.banks)):
            try:
                if asked.faults(bank, account_of(asked.base, found, bank, made)):
                    return True
            except runner.ToolError:
                return True
        return False

    def page_lines(self, pairs: List[Tuple[Any, Any]]) -> List[List[Dict[str, Any]]]:
        """The lines of the page for each pair of accounts, of a state and of that held against it."""
        given = json.dumps([[account.view() for account in pair] for pair in pairs])
        folder = tempfile.TemporaryDirectory()
        self.addCleanup(folder.cleanup)
        for part in SCRIPTS:
            shutil.copytree(part, folder.name, dirs_exist_ok=True)
        script = LINES % json.dumps(pathlib.Path(folder.name, "account.mjs").as_uri())
        words = ["node", "--input-type=module", "-e", script]
        done = subprocess.run(words, input=given, capture_output=True, encoding="utf-8")
        self.assertEqual((done.returncode, done.stderr), (0, ""))
        found: List[List[Dict[str, Any]]] = json.loads(done.stdout)
        self.assertEqual(len(found), len(pairs))
        return found

    def assert_add_up(self, pair: Tuple[Any, Any], lines: List[Dict[str, Any]]) -> None:
        """The lines of the page come to what is left in both states, and those that stand together to theirs."""
        for when, account in zip(("is", "was"), pair):
            self.assertEqual(sum(line[when] for line in lines), account.left)
        for line in lines:
            if line.get("rest"):
                sums = [sum(one[when] for one in line["rest"]) for when in ("was", "is")]
                self.assertEqual(sums, [line["was"], line["is"]])

    @needs("node")
    def test_the_lines_of_the_page_add_up(self):
        """Also those of the debtors that stand together, and in the state that is held against."""
        pairs = [
            (account_of(asked.base, asked.found, bank), account_of(asked.base, asked.before, bank))
            for asked in self.asked
            for bank in range(len(asked.net.banks))
        ]
        together = 0
        for pair, lines in zip(pairs, self.page_lines(pairs)):
            self.assert_add_up(pair, lines)
            together += any(line.get("rest") for line in lines)
        self.assertGreater(together, 20)

    @needs("node")
    def test_the_lines_of_999_debtors_and_of_the_largest_amounts_add_up(self):
        """Of a bank to which all others of the standard limits owe, and that has, lost and owes as much as one may."""
        unpaid = [accounts.Line(debtor, 20_000, debtor % 7) for debtor in range(1, 1000)]
        gone = sum(line.claim - line.paid for line in unpaid)
        whole, loss, outside, lost = 10**12 + 999 * 20_000, 10**12 - 1, 10**11 - 1, 10**9 + 1
        now = accounts.Account(whole, loss, unpaid, outside, lost, whole - loss - gone - outside - lost)
        before = accounts.Account(whole, 0, unpaid[:1], outside, 0, whole - 20_000 + unpaid[0].paid - outside)
        (lines,) = self.page_lines([(now, before)])
        self.assert_add_up((now, before), lines)
        # Five have a line of their own, and the others stand together.
        self.assertEqual([len(line["rest"]) for line in lines if line.get("rest")], [994])


if __name__ == "__main__":
    unittest.main()
