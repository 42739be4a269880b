"""Every task on networks of the greatest size, 1,000 banks, 20,000 debts and 10,000,000 units: beside the plain model
tests/system/model.py where that is quick enough, else by another route to the same answer."""
import random
import unittest
from typing import Any, List, Tuple

from common import clearing
from compared import Compared, model

from networks import judge_compression, judge_journal

BANKS, DEBTS, UNITS = 1000, 20000, 10_000_000


def small_claims(rng: random.Random) -> Any:
    """Small claims of all classes by all rules, where money is short. One rich bank owes what is left of the units,
    and pays it."""
    keys = {}
    while len(keys) < DEBTS - 10:
        debtor, creditor = rng.randrange(1, BANKS), rng.randrange(BANKS)
        if debtor != creditor:
            keys[debtor, creditor, rng.randint(1, 9)] = rng.randint(0, 12)
    debts = [model.Debt(*key, claim) for key, claim in keys.items()]
    rest = UNITS - sum(keys.values())
    for creditor in range(1, 11):
        debts.insert(
            rng.randrange(len(debts)), model.Debt(0, creditor, 3, rest // 10 + (rest % 10 if creditor == 1 else 0))
        )
    banks = [
        model.Bank(
            f"Bank {i}", UNITS if i == 0 else rng.choice([0, 0, 20, 90]), model.RULES[i % 6], rng.choice([0, 0, 5])
        )
        for i in range(BANKS)
    ]
    return model.Net(banks, debts)


def large_claims() -> Any:
    """Claims of hundreds of units by all rules, where half of the cash that would do is there."""
    debts = [
        model.Debt(x % 1000, (x % 1000 + 1 + x // 1000 * 37) % 1000, 1 + x % 3, 1 + x * 104729 % 990)
        for x in range(DEBTS)
    ]
    banks = [model.Bank(f"bank {i}", i * 7919 % 2500, model.RULES[i * 5 % 6], i % 4) for i in range(BANKS)]
    return model.Net(banks, debts)


class Largest(Compared):
    def test_small_claims_beside_the_model(self):
        net = small_claims(random.Random("largest"))
        self.write(net)
        low = model.least(net)
        payments = model.payments_text(net, low)
        self.assertTrue(200 < sum(model.state(net, low, i) != "sound" for i in range(BANKS)) < 900)
        for words in (["--workers", "1"], [], ["--workers", "3", "--sweeps", "7"], ["--workers", "64"]):
            self.same(payments, "clear", *words)
        self.same(payments, "central")
        self.same(model.check_text(net), "check")
        self.same(model.banks_text(net, True), "convert")
        self.same(model.defaults_text(net, low), "defaults")
        self.same(model.bounds_text(net), "bounds")
        self.same(model.costs_text(net, 500), "costs", "--keep", "500")
        self.same(model.cost_bounds_text(net, 500), "cost-bounds", "--keep", "500")
        # A bank that lacks little, since the model tries all sums.
        lacks = {i: model.due(net, i) - model.estate(net, low, i) for i in range(BANKS)}
        bank = min((i for i in lacks if lacks[i] > 3), key=lacks.get)
        self.same(model.rescue_text(net, bank), "rescue", "--bank", net.banks[bank].name)
        with self.subTest(task="compress"):
            self.assertIsNone(judge_compression(net, self.text("compress")))
        self.stressed(net)
        self.turned_round(net)
        journal = self.text("clear", "--show", "journal", "--workers", "4")
        self.assertIsNone(judge_journal(net, low, journal))
        raises = journal.count("\n") - 2
        self.same(f"lawful,{raises}\n\n{payments}", "replay", "--journal", self.file("journal.csv", journal))
        # A journal without its last raise is not complete.
        lines = journal.split("\n")
        done = clearing("replay", *self.files, "--journal", self.file("short.csv", "\n".join(lines[:-3] + lines[-2:])))
        debtor = lines[-3].split(",")[1]
        self.assertEqual((done.returncode, done.stdout), (7, f"unfinished,{debtor}\n".encode()))

    def stressed(self, net: Any) -> None:
        """Scenarios one by one, each as the network that it leaves is cleared."""
        scenarios = [
            model.Scenario("as it is", 0, []),
            model.Scenario("half", 500, []),
            model.Scenario("losses", 1, [(i, 1 + i % 50) for i in range(1, BANKS)]),
            model.Scenario("all", 1000, []),
        ]
        loss = lambda pair: f'[[scenario.loss]]\nbank = "{net.banks[pair[0]].name}"\namount = {pair[1]}\n'
        toml = "".join(
            f'[[scenario]]\nname = "{one.name}"\ncut = {one.cut}\n' + "".join(map(loss, one.losses))
            for one in scenarios
        )
        blocks, sums, fallen, own = [], "", [0] * BANKS, [0] * BANKS
        for scenario in scenarios:
            left = self.file("left.csv", model.banks_text(model.shocked(net, scenario), True))
            files = ["--banks", left, *self.files[2:]]
            defaults = self.printed("defaults", *files)
            blocks.append(f"scenario,{scenario.name}\n" + self.printed("central", *files) + defaults)
            *rows, total, cash = (line.split(",") for line in defaults.splitlines()[1:])
            states = [row[-1] for row in rows]
            sums += (
                f"{scenario.name},{cash[1]},{total[3]},{total[2]},{total[5]},{total[6]},{states.count('fundamental')}\n"
            )
            fallen = [count + (state != "sound") for count, state in zip(fallen, states)]
            own = [count + (state == "fundamental") for count, state in zip(own, states)]
        self.same("\n".join(blocks), "stress", "--scenarios", self.file("s.toml", toml))
        counts = "".join(f"{bank.name},{count},{deep}\n" for bank, count, deep in zip(net.banks, fallen, own))
        self.same(
            f"scenario,cash,paid,outside_paid,equity,defaults,fundamental\n{sums}\nbank,defaults,fundamental\n{counts}",
            "outcomes",
            "--scenarios",
            self.file("s.toml", toml),
        )

    def standing(self, banks: Any) -> Tuple[List[int], List[str]]:
        """What each bank keeps where the banks are these, and its state."""
        files = ["--banks", self.file("other.csv", model.banks_text(model.Net(banks, []), True)), *self.files[2:]]
        rows = [line.split(",") for line in self.printed("defaults", *files).splitlines()[1:-2]]
        return [int(row[2]) + int(row[5]) for row in rows], [row[-1] for row in rows]

    def turned_round(self, net: model.Net) -> None:
        """Of some banks what `breaking`, `impact` and `rescues` say, by the networks that are meant."""
        kept, states = self.standing(net.banks)
        some = [0, *range(3, BANKS, 211)]
        with self.subTest(task="impact"):
            self.impact_of(net, some, kept, states)
        with self.subTest(task="breaking"):
            self.breaking_of(net, some)
        with self.subTest(task="rescues"):
            self.rescues_of(net, states)

    def impact_of(self, net: model.Net, some: List[int], kept: List[int], states: List[str]) -> None:
        """What falls with each of some banks, by the network in which it has no cash."""
        first, second = (part.splitlines()[1:] for part in self.text("impact").split("\n\n"))
        for j in some:
            then, after = self.standing([bank._replace(cash=0) if i == j else bank for i, bank in enumerate(net.banks)])
            lost = [old - new for old, new in zip(kept, then)]
            falls = [old == "sound" != new for old, new in zip(states, after)]
            name, cash = net.banks[j].name, net.banks[j].cash
            self.assertEqual(first[j], f"{name},{cash},{lost[j]},{cash - lost[j]},{sum(falls) - falls[j]}")
            wanted = [
                f"{name},{net.banks[i].name},{lost[i]},{'yes' if falls[i] else 'no'}"
                for i in range(BANKS)
                if lost[i] or falls[i]
            ]
            self.assertEqual([line for line in second if line.startswith(f"{name},")], wanted)

    def breaking_of(self, net: model.Net, some: List[int]) -> None:
        """The cut that breaks each of some banks, by the networks of that cut and of one below."""
        lines = [line.split(",") for line in self.text("breaking").splitlines()[1:]]
        self.assertEqual([line[0] for line in lines], [bank.name for bank in net.banks])
        for at in some:
            cut = int(lines[at][1])
            for tried in {cut - 1, cut} & set(range(1001)):
                after = self.standing(model.shocked(net, model.Scenario("", tried, [])).banks)[1][at]
                self.assertEqual(after, lines[at][2] if tried == cut else "sound", (at, tried))
            self.assertEqual(lines[at][2] == "sound", cut == 1001)

    def rescues_of(self, net: model.Net, states: List[str]) -> None:
        """What saves each of some banks in default, by the network in which it has as much more."""
        first, second = (part.splitlines()[1:] for part in self.text("rescues").split("\n\n"))
        short = [i for i in range(BANKS) if states[i] != "sound"]
        self.assertEqual([line.split(",")[0] for line in first], [net.banks[i].name for i in short])
        for at in range(0, len(short), 97):
            name, added, lacks, also, still = first[at].split(",")
            told = self.text("rescue", "--bank", name).split("\n", 2)
            self.assertEqual(told[:2], [f"rescue,{name},{added}", f"short,{lacks}"])
            after = self.standing(model.added(net, short[at], int(added)).banks)[1]
            others = [net.banks[i].name for i in short if after[i] == "sound" and i != short[at]]
            self.assertEqual((also, still), (f"{len(others)}", f"{BANKS - after.count('sound')}"))
            self.assertEqual(
                [line for line in second if line.startswith(f"{name},")], [f"{name},{other}" for other in others]
            )

    def large(self) -> Tuple[model.Net, str, List[int]]:
        """The network of large claims, which is written; what `central` prints of it, and what it pays of each debt."""
        net = large_claims()
        self.write(net)
        payments = self.text("central")
        return net, payments, [int(line.split(",")[4]) for line in payments.splitlines()[1:]]

    def test_large_claims_pay_no_more_than_is_owed_or_there_and_no_money_goes_astray(self) -> None:
        net, payments, paid = self.large()
        self.assertTrue(all(0 <= units <= debt.claim for units, debt in zip(paid, net.debts)))
        self.assertTrue(payments == model.payments_text(net, paid))
        defaults = model.defaults_text(net, paid)
        total = [int(field) for field in defaults.splitlines()[-2].split(",")[1:]]
        self.assertEqual(total[0], sum(bank.cash for bank in net.banks) + sum(paid))
        self.assertGreater(total[5], 100)
        self.same(defaults, "defaults")
        with self.subTest(task="compress"):
            self.assertIsNone(judge_compression(net, self.text("compress")))

    def test_the_journal_of_large_claims_is_lawful_for_the_program_and_the_audit(self) -> None:
        _, payments, _ = self.large()
        for words in (["--workers", "1"], ["--workers", "4", "--sweeps", "3"]):
            with self.subTest(task="journal", words=words):
                shown, _, journal = self.text("clear", "--show", "both", *words).partition("\n\n")
                self.assertTrue(shown + "\n" == payments)
                raises, kept = journal.count("\n") - 2, self.file("journal.csv", journal)
                self.same(f"lawful,{raises}\n\n{payments}", "replay", "--journal", kept)
                paid = self.file("payments.csv", payments)
                told = self.made("clearing-audit", *self.files, "--journal", kept, "--payments", paid)
                self.assertIn(f"{raises} raises lawful\nnobody can pay more\npayments same\n", told)

    def test_the_bounds_of_large_claims_begin_at_the_payments(self) -> None:
        _, payments, paid = self.large()
        bounds = self.text("bounds").partition("\n\n")[0]
        rows = [[int(field) for field in line.split(",")[3:6]] for line in bounds.splitlines()[1:]]
        with self.subTest(task="bounds"):
            self.assertEqual([least for _, least, _ in rows], paid)
            self.assertTrue(all(least <= greatest <= claim for claim, least, greatest in rows))
        self.same(payments, "costs", "--keep", "1000", cut=lambda text: text.partition("\n\n")[0] + "\n")
        self.same(bounds, "cost-bounds", "--keep", "1000", cut=lambda text: text.partition("\n\n")[0])

    def test_with_its_rescue_a_bank_of_large_claims_is_sound_and_with_a_unit_less_it_is_short(self) -> None:
        net, _, paid = self.large()
        bank = next(i for i in range(BANKS) if model.due(net, i) > model.estate(net, paid, i))
        first, second, _, shown = self.text("rescue", "--bank", net.banks[bank].name).split("\n", 3)
        added, lacks = int(first.split(",")[2]), int(second.split(",")[1])
        for units, short in ((added, 0), (added - 1, lacks)):
            richer = model.added(net, bank, units)
            files = ["--banks", self.file("richer.csv", model.banks_text(richer, True)), *self.files[2:]]
            told = self.printed("central", *files)
            given = [int(line.split(",")[4]) for line in told.splitlines()[1:]]
            self.assertEqual(max(0, model.due(net, bank) - model.estate(richer, given, bank)), short)
            if not short:
                self.assertTrue(shown == told)

    def test_a_generated_network_by_its_files(self):
        words = ["--seed", "7", "--size", BANKS, "--tries", DEBTS]
        files = [self.file("b.csv"), self.file("d.csv")]
        self.made("clearing-gen-files", *words, "--banks", files[0], "--debts", files[1])
        files = ["--banks", files[0], "--debts", files[1]]
        counts = self.printed("check", *files).partition("\n\n")[0]
        total = self.printed("defaults", *files).splitlines()[-2].split(",")
        self.assertEqual(
            self.printed("gen", *words), f"{counts}\npaid,{total[2]}\ndefaults,{total[5]}\nequity,{total[4]}\n"
        )


if __name__ == "__main__":
    unittest.main()
