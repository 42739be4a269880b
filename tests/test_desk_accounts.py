"""The account of a bank at the desk is one of the program's word, and so are its debts; the journal ends in what is
paid."""
import re
import unittest

from common import TWELVE, clearing, files_of
from desk import DeskCase, account_of

from clearing_client.case import Case as Folder
from clearing_tools.desk import state as states
from clearing_tools.desk.runs import Desk as Table, Runs, base_of
from clearing_tools.runner import ToolError


class Accounts(DeskCase):
    def test_an_account_that_does_not_come_to_the_program_s_word_is_told(self):
        runs = Runs(str(self.folder))
        base = base_of(runs, *map(str, files_of(TWELVE)[1::2]), None)
        found = Table(runs, base, Folder()).cleared(states.AS_IT_IS)
        wrong = found._replace(banks=[bank._replace(equity=bank.equity + 1) for bank in found.banks])
        account_of(base, found, 3)
        with self.assertRaises(ToolError):
            account_of(base, wrong, 3)

    def test_the_debts_of_a_bank_are_those_of_the_program(self):
        desk = self.desk()
        names = desk.see("/network")["names"]
        debts = [line.split(",") for line in clearing("clear", *files_of(TWELVE)).stdout.decode().splitlines()[1:]]
        for at, name in enumerate(names):
            bank = desk.see(f"/bank/0/{at}")
            for side, key in ((0, "owes"), (1, "owed")):
                expected = [
                    [place, names.index(debt[1 - side]), *map(int, debt[2:])]
                    for place, debt in enumerate(debts)
                    if debt[side] == name
                ]
                self.assertEqual(bank[key], expected)


class Journal(DeskCase):
    def test_the_journal_ends_in_what_is_paid(self):
        desk = self.desk()
        at = desk.change(0, set="cut", value="300")["id"]
        at = desk.change(at, set="keep", value="500")["id"]
        data = desk.see(f"/journal/{at}")["data"]
        paid = {}
        for frame in data["frames"]:
            paid.update(zip(frame[5][::2], frame[5][1::2]))
        shock = self.file("s.toml", '[[scenario]]\nname = "s"\ncut = 300\n')
        lines = clearing("stress", *files_of(TWELVE), "--scenarios", shock).stdout.decode().splitlines()[2:42]
        self.assertEqual([paid.get(debt, 0) for debt in range(40)], [int(line.split(",")[4]) for line in lines])

    def test_the_journal_is_in_the_currency_of_the_case(self):
        found = self.desk(None, "--unit", "1000", "--currency", "EUR").see("/journal/0")
        data = found["data"]
        self.assertEqual([data[key] for key in ("currency", "mantissa", "places", "bare")], ["EUR", "1000", 0, False])
        pairs = {}
        for line in clearing("clear", *files_of(TWELVE)).stdout.decode().splitlines()[1:]:
            debtor, creditor, _, claim, paid = line.split(",")
            before = pairs.get((debtor, creditor), (0, 0))
            pairs[debtor, creditor] = before[0] + int(claim), before[1] + int(paid)
        body = re.sub("[\u2068\u2069]", "", found["picture"]["body"])
        said = re.findall("<title>([^<]* paid)</title>", body)
        self.assertEqual(
            sorted(said),
            sorted(f"{a} to {b}: {1000 * paid:,} of {1000 * claim:,} paid" for (a, b), (claim, paid) in pairs.items()),
        )


if __name__ == "__main__":
    unittest.main()
