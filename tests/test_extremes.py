"""Every task at the edges of what is accepted: long names, rows and columns, the greatest numbers, many rounds,
raises, workers, scenarios and words, late rows, no debts. Each run ends with 0, and its text is that of
tests/system/model.py, or known beforehand."""
import pathlib
import random
import unittest
from typing import List, Tuple
from unittest import mock

from common import Word
from compared import Compared, model
from networks import RULES, generated, judge_compression, judge_journal, scenarios_toml

Bank, Debt, Net, Scenario = model.Bank, model.Debt, model.Net, model.Scenario
CASH, OUTSIDE, CLAIM = 10**12, 10**11, 10**6
# The most bytes that a file may have, but for a journal.
LARGEST = 8_388_608
PLANS = [
    ["--workers", "1"],
    [],
    ["--workers", "9", "--sweeps", "1000"],
    ["--workers", "17"],
    ["--workers", "33", "--sweeps", "2"],
    ["--workers", "64"],
]

# Options of a run with numbers as long as they may be.
LONG_PLAN = ["--workers", f"{64:020}", "--sweeps", f"{1000:020}"]
KEEP = ["--keep", f"{1000:020}"]
# Bytes that a file with late rows has, or as few as it can have.
SIZES = (0, 4_000, LARGEST)
# Each a name, a cut and losses: one of them is as large as it may be, or is one more than in another.
ODD_SCENARIOS = [
    Scenario("n" * 64, 0, []),
    Scenario("😀" * 16, 1, []),
    Scenario("cut", 1000, []),
    Scenario("loss", 5, [(0, CASH)]),
    Scenario("second", 5, [(0, 1), (1, 2)]),
    Scenario("alone", 0, [(0, 1), (1, 2)]),
    Scenario("eight", 0, [(i, 1) for i in range(8)]),
]


def wide_net() -> Net:
    """1,000 banks with names of 64 bytes that begin with a character of four. One owes all the others in each class,
    one is owed by all the others in two, and every seventh has the greatest cash and owes the most outside. Many
    default."""
    rng = random.Random("wide")
    rich = lambda i: i < 2 or i % 7 == 3
    banks = [
        Bank(
            "😀" * 14 + f"{i:08}",
            CASH if rich(i) else rng.randint(0, 12),
            RULES[5 - i % 6],
            OUTSIDE if rich(i) else rng.choice([0, 4]),
        )
        for i in range(1000)
    ]
    debts = [Debt(0, i, c, (i + c) % 4) for i in range(1, 1000) for c in range(1, 10)]
    debts += [Debt(i, 1, c, 3) for i in range(2, 1000) for c in (1, 9)]
    debts += [
        Debt(i, (i + step) % 1000, c, rng.randint(0, most))
        for i in range(1, 1000)
        for step, c, most in ((1, 5, 9), (37, 5, 9), (500, 2, 4))
    ]
    debts += [Debt(1, 2 + i, 4, CLAIM - i) for i in range(9)]
    rng.shuffle(debts)
    return Net(banks, list({debt[:3]: debt for debt in debts}.values()))


def chain_net(size: int, claim: int) -> Net:
    """Each bank owes the one before it, in the last class. The last bank has a unit, and all others have nothing."""
    banks = [Bank(f"bank {i}", int(i == size - 1), RULES[i % 6], 0) for i in range(size)]
    return Net(banks, [Debt(i, i - 1, 9, claim) for i in range(1, size)])


def greatest_net() -> Net:
    """Few banks with the greatest numbers: cash, claims, and debts outside, by all rules. Some owe more than they
    have, some pay nothing."""
    names = ["n" * 64, "é" * 32, "y", "漢" * 21, "\U0010ffff" * 16, "x", "total", "rounds"]
    cash = [CASH, CASH, 5, OUTSIDE - 1, OUTSIDE + 3, 0, CASH - 1, OUTSIDE]
    banks = [
        Bank(name, units, RULES[(i + 5) % 6], OUTSIDE if i != 5 else 0)
        for i, (name, units) in enumerate(zip(names, cash))
    ]
    debts = [
        Debt(0, 1, 1, CLAIM),
        Debt(0, 5, 9, CLAIM),
        Debt(1, 2, 9, CLAIM),
        Debt(6, 7, 5, CLAIM),
        Debt(6, 0, 5, CLAIM),
        Debt(2, 3, 1, CLAIM),
        Debt(3, 4, 2, 7),
        Debt(4, 5, 2, 4),
        Debt(4, 6, 2, 4),
        Debt(4, 6, 9, CLAIM),
        Debt(5, 0, 1, 20),
        Debt(7, 6, 1, 0),
        Debt(1, 0, 3, CLAIM),
    ]
    return Net(banks, debts)


def column_net() -> Net:
    """1,000 banks with names of 64 bytes and the greatest cash, that owe the most outside. All owe one of them in
    each class."""
    banks = [Bank(f"{i:064}", CASH, RULES[i % 6], OUTSIDE) for i in range(1000)]
    return Net(banks, [Debt(i, 0, c, 1_112) for i in range(1, 1000) for c in range(1, 10)])


def late(text: str, size: int) -> str:
    """The text of a file with blank records after its header and at its end, with so many bytes or as few as it has
    then."""
    text = text.replace("\n", "\n" + ("," * 70 + "\n") * 2, 1) + '""\n' + "," * 300 + "\n"
    room = max(0, size - len(text.encode()))
    return text.replace("\n", "\n" + ",\n" * (room // 2), 1) + "\n" * (room % 2)


class Extremes(Compared):
    def journals(self, net: Net, low: List[int], plans: List[List[str]]) -> None:
        """The journal of each plan is lawful, ends at the least payments, and is replayed."""
        payments = model.payments_text(net, low)
        for plan in plans:
            with self.subTest(task="journal", plan=plan):
                shown, _, journal = self.printed("clear", *self.files, "--show", "both", *plan).partition("\n\n")
                self.assertEqual(shown + "\n", payments)
                self.assertIsNone(judge_journal(net, low, journal))
                self.same(
                    f"lawful,{journal.count(chr(10)) - 2}\n\n{payments}",
                    "replay",
                    "--journal",
                    self.file("journal.csv", journal),
                )

    def every_task(
        self,
        net: Net,
        scenarios: List[Scenario],
        saved: List[int],
        keeps: Tuple[int, ...] = (0, 1, 999, 1000),
        plans: List[List[str]] = PLANS,
    ) -> None:
        """Each task but gen on a network: with these scenarios, rescues of these banks, parts that are kept in default,
        and plans of workers."""
        low = model.least(net)
        self.write(net)
        payments = model.payments_text(net, low)
        self.same(model.check_text(net), "check")
        self.same(model.banks_text(net, True), "convert")
        self.same(payments, "central")
        defaults, bounds = model.defaults_text(net, low), model.bounds_text(net)
        stress, toml = model.stress_text(net, scenarios), self.file("s.toml", scenarios_toml(net, scenarios))
        saved = [(net.banks[i].name, model.rescue_text(net, i)) for i in saved]
        for plan in plans:
            self.same(payments, "clear", *plan)
            self.same(defaults, "defaults", *plan)
            self.same(bounds, "bounds", *plan)
            self.same(stress, "stress", "--scenarios", toml, *plan)
            for name, text in saved:
                self.same(text, "rescue", "--bank", name, *plan)
        for keep in keeps:
            self.same(model.costs_text(net, keep), "costs", "--keep", keep)
            if keep != 999:
                # What is left of an estate falls by a thousandth a round.
                self.same(model.cost_bounds_text(net, keep), "cost-bounds", "--keep", keep)
        self.same(model.outcomes_text(net, scenarios), "outcomes", "--scenarios", toml)
        if len(net.banks) <= 8:
            self.same(model.impact_text(net), "impact")
        with self.subTest(task="compress"):
            self.assertIsNone(judge_compression(net, self.printed("compress", *self.files)))
        self.journals(net, low, plans)

    def test_wide(self):
        net = wide_net()
        low = model.least(net)
        lacks = {i: model.due(net, i) - model.estate(net, low, i) for i in range(900, 1000)}
        saved = min((i for i in lacks if lacks[i] > 1), key=lacks.get)
        scenarios = [Scenario("😀" * 16, 0, []), Scenario("n" * 64, 1, [(3, CASH), (999, 1)])]
        self.every_task(net, scenarios, [saved], keeps=(0, 1), plans=[PLANS[1], PLANS[4], PLANS[5]])

    def test_greatest_numbers(self):
        net = greatest_net()
        cuts = [0, 1, 999, 1000]
        losses = [[], [(0, CASH)], [(0, CASH), (1, CASH), (6, CASH)], [(i, i * CASH // 8) for i in range(8)]]
        scenarios = [
            Scenario(net.banks[i % 8].name if i % 3 else f"{i}" * 20, cuts[i % 4], losses[i // 4 % 4])
            for i in range(100)
        ]
        self.every_task(net, scenarios, [0, 5, 7])

    def test_one_thing_of_scenarios_at_a_time(self):
        """Their number, each greatest number, and a second loss."""
        net = greatest_net()
        self.write(net)
        some = [[Scenario(f"{i}", i, []) for i in range(count)] for count in (0, 1, 2, 5, 6, 7, 16, 64, 100)]
        for scenarios in [*some, *([scenario] for scenario in ODD_SCENARIOS)]:
            with self.subTest(scenarios=str(scenarios)[:100], count=len(scenarios)):
                toml = self.file("some.toml", scenarios_toml(net, scenarios))
                for more in ([], ["--sweeps", "2"]):
                    self.same(model.stress_text(net, scenarios), "stress", "--scenarios", toml, *more)
                self.same(model.outcomes_text(net, scenarios), "outcomes", "--scenarios", toml)

    def test_rescues_that_only_a_search_by_halves_finds(self):
        """Where nothing comes in, or it comes whatever the bank has."""
        net = greatest_net()
        self.write(net)
        for i in (2, 3, 4):
            sum_added = model.due(net, i) - model.estate(net, model.least(net), i)
            lacks = lambda units: model.due(net, i) - model.estate(
                model.added(net, i, units), model.least(model.added(net, i, units)), i
            )
            while lacks(sum_added - 1) <= 0:
                sum_added -= 1
            richer = model.added(net, i, sum_added)
            payments = model.payments_text(richer, model.least(richer))
            text = f"rescue,{net.banks[i].name},{sum_added}\nshort,{lacks(sum_added - 1)}\n\n{payments}"
            self.same(text, "rescue", "--bank", net.banks[i].name)

    def test_greatest_sums(self):
        net = column_net()
        scenarios = [Scenario("n" * 64, 0, [(i, CASH - i) for i in range(1000)]), Scenario("cut", 1000, [])]
        # Known beforehand: all pays who kept the cash, and nothing who lost some.
        least = lambda net, *_, **__: [debt.claim * (net.banks[debt.debtor].cash == CASH) for debt in net.debts]
        with mock.patch.object(model, "least", least):
            self.every_task(net, scenarios, [999], keeps=(0,), plans=PLANS[1:2])

    def test_the_greatest_sum_that_a_bank_may_lack_is_added(self):
        banks = [Bank(f"bank {i}", 0, "order", OUTSIDE) for i in range(11)]
        net = Net(banks, [Debt(0, i, 9, CLAIM) for i in range(1, 11)])
        self.write(net)
        payments = model.payments_text(net, [CLAIM] * 10)
        self.same(f"rescue,bank 0,{OUTSIDE + 10 * CLAIM}\nshort,1\n\n{payments}", "rescue", "--bank", "bank 0")

    def test_without_debts(self):
        banks = [Bank("n" * 64, CASH, "order", OUTSIDE), Bank("B", 3, "adams", 5), Bank("C", 0, "equal", 0)]
        self.every_task(Net(banks, []), [Scenario("all", 1000, [(1, 2), (0, CASH)])], [0, 1, 2], plans=PLANS[:2])
        self.same(model.breaking_text(Net(banks, [])), "breaking")
        self.same("bank,added,short,also_saved,still_short\nB,2,1,0,0\n\nbank,saves\n", "rescues")
        self.every_task(Net([bank._replace(outside=0) for bank in banks], []), [], [2], plans=PLANS[:1])
        self.every_task(Net([], []), [Scenario("none", 0, [])], [], plans=PLANS[:2])
        for second in (False, True):
            self.write(Net(banks[2:], []), second)
            self.same(
                "banks,1\ndebts,0\nowed,0\ncash,0\n\nname,cash,rule\nC,0,equal\n\ndebtor,creditor,class,claim\n",
                "check",
            )

    def test_payments_along_the_longest_chain(self):
        size, net = 1000, chain_net(1000, 2)
        self.write(net)
        low = [1] * (size - 1)
        bounds = (
            "debtor,creditor,class,claim,least,greatest\n"
            + "".join(f"bank {i},bank {i - 1},9,2,1,1\n" for i in range(1, size))
            + "\nbank,wave,gridlock,equity\n"
            + "".join(f"bank {i},{size - i if i else 0},no,{int(i == 0)}\n" for i in range(size))
        )
        for plan in (PLANS[0], PLANS[1], PLANS[5]):
            self.same(model.payments_text(net, low), "clear", *plan)
            self.same(model.defaults_text(net, low), "defaults", *plan)
            self.same(bounds, "bounds", *plan)
        self.same(model.payments_text(net, low), "central")
        journal = self.printed("clear", *self.files, "--show", "journal", *PLANS[0])
        self.assertIsNone(judge_journal(net, low, journal))
        with self.subTest(task="compress"):
            self.assertIsNone(judge_compression(net, self.printed("compress", *self.files)))

    def test_losses_and_rescues_along_the_longest_chain(self):
        net = chain_net(1000, 2)
        self.write(net)
        # The last bank's unit breaks all of them but the first, which owes nothing, and goes to it.
        ruin = "".join(f"bank {i},{int(i == 999)},0,{int(i == 999)},0\n" for i in range(1000))
        self.same(f"bank,cash,own,others,falls\n{ruin}\nbank,of,lost,falls\nbank 999,bank 0,1,no\n", "impact")
        cuts = "".join(f"bank {i},0,contagion\n" for i in range(1, 999))
        self.same(f"bank,cut,state\nbank 0,1001,sound\n{cuts}bank 999,0,fundamental\n", "breaking")
        for bank, paid in ((1, [2] + [1] * 998), (999, [2] * 999)):
            text = f"rescue,bank {bank},1\nshort,1\n\n{model.payments_text(net, paid)}"
            self.same(text, "rescue", "--bank", f"bank {bank}")
        saves = "".join(f"bank {i},1,1,{i - 1},{999 - i}\n" for i in range(1, 1000))
        pairs = "".join(f"bank {i},bank {j}\n" for i in range(1, 1000) for j in range(1, i))
        self.same(f"bank,added,short,also_saved,still_short\n{saves}\nbank,saves\n{pairs}", "rescues")

    def test_rings_are_cancelled_whole_and_pay_nothing(self):
        for size, claim, cls in ((1000, 5, 9), (200, 1, 3), (10, CLAIM, 5), (4, 7, 1), (3, 7, 9)):
            net = Net(
                [Bank(f"bank {i}", 0, RULES[i % 6], 0) for i in range(size + (size < 5))],
                [Debt(i, (i + 1) % size, cls, claim) for i in range(size)],
            )
            self.write(net)
            with self.subTest(task="compress", size=size):
                text = self.printed("compress", *self.files)
                self.assertIsNone(judge_compression(net, text))
                self.assertTrue(text.endswith(f"\ncancelled,{size * claim}\n"))
            self.same(model.payments_text(net, [0] * size), "clear")

    def to_and_fro(self) -> Tuple[Net, List[int], str]:
        """One unit goes to and fro until both debts are paid, in 55,000 rounds: the network, which is written, what is
        paid, and its text."""
        units = 55_000
        net = Net(
            [Bank("n" * 64, 1, "losses", 0), Bank("B", 0, "webster", 0), Bank("C", 0, "order", 9)],
            [Debt(0, 1, 1, units), Debt(1, 0, 9, units), Debt(2, 0, 1, 1)],
        )
        low = [units, units, 0]
        self.write(net)
        return net, low, model.payments_text(net, low)

    def test_many_rounds_by_each_plan_of_workers(self):
        net, low, payments = self.to_and_fro()
        rescue = model.payments_text(model.added(net, 2, 10), [*low[:2], 1])
        for plan in (PLANS[0], PLANS[1], ["--workers", "2", "--sweeps", "1000"], PLANS[5]):
            self.same(payments, "clear", *plan)
            self.same(model.defaults_text(net, low), "defaults", *plan)
            self.same(f"rescue,C,10\nshort,1\n\n{rescue}", "rescue", "--bank", "C", *plan)

    def test_a_journal_of_many_raises_is_replayed(self):
        _, _, payments = self.to_and_fro()
        text = self.printed("clear", *self.files, "--show", "both", "--workers", "1")
        shown, _, journal = text.partition("\n\n")
        self.assertEqual(shown + "\n", payments)
        raises = journal.count("\n") - 2
        self.assertGreater(raises, 100_000)
        self.same(f"lawful,{raises}\n\n{payments}", "replay", "--journal", self.file("journal.csv", journal))

    def test_many_rounds_in_the_tasks_without_a_plan(self):
        net, low, payments = self.to_and_fro()
        self.same(payments, "central")
        toml = self.file("s.toml", scenarios_toml(net, [Scenario(f"{i}", 0, []) for i in range(2)]))
        block = payments + model.defaults_text(net, low)
        self.same("\n".join(f"scenario,{i}\n{block}" for i in range(2)), "stress", "--scenarios", toml)
        with mock.patch.object(model, "least", lambda *_: low):
            self.same(model.costs_text(net, 1000), "costs", "--keep", 1000)
        with self.subTest(task="compress"):
            self.assertIsNone(judge_compression(net, self.printed("compress", *self.files)))
        bounds = "debtor,creditor,class,claim,least,greatest\n" + "".join(
            f"{','.join(map(str, model.debt_fields(net, debt)))},{debt.claim},{paid},{paid}\n"
            for debt, paid in zip(net.debts, low)
        )
        self.same(bounds + f"\nbank,wave,gridlock,equity\n{'n' * 64},0,no,1\nB,0,no,0\nC,1,no,0\n", "bounds")

    def test_generated(self):
        for seed, size, tries in (
            (2**64 - 1, 1000, 20_000),
            (2**64 - 1, 1, 20_000),
            (2**63, 40, 90),
            (0, 1000, 0),
            (2**32, 501, 2_001),
            (2**64 - 1, 3, 5),
            (9, 30, 20_000),
            (2**64 - 1, 2, 19_999),
        ):
            net = generated(seed, size, tries)
            self.write(net, False)
            with self.subTest(seed=seed, size=size, tries=tries):
                total = self.printed("defaults", *self.files).splitlines()[-2].split(",")
                text = model.counts_text(net) + f"paid,{total[2]}\ndefaults,{total[5]}\nequity,{total[4]}\n"
                if len(net.debts) < 100:
                    self.assertEqual(text, model.gen_text(net))
                words = ["--seed", seed, "--size", size, "--tries", tries]
                for plan in PLANS:
                    self.same(text, "gen", *words, *plan, files=[])

    def late_files(self, net: Net, size: int) -> List[Word]:
        """The words for both files of a network, with late rows and so many bytes."""
        banks, debts = late(model.banks_text(net, True), size), late(model.debts_text(net), size)
        return ["--banks", self.file("b.csv", banks), "--debts", self.file("d.csv", debts)]

    def test_late_rows(self):
        net, scenarios = greatest_net(), [Scenario("a", 0, [(0, 1)])]
        toml = "# " + "x" * 200_000 + "\n" + scenarios_toml(net, scenarios)
        toml = self.file("s.toml", "\n" * (LARGEST - len(toml.encode())) + toml)
        payments = model.payments_text(net, model.least(net))
        texts = [
            (model.check_text(net), "check"),
            (model.banks_text(net, True), "convert"),
            (payments, "clear"),
            (payments, "central"),
            (model.defaults_text(net, model.least(net)), "defaults"),
            (model.bounds_text(net), "bounds"),
            (model.costs_text(net, 500), "costs", "--keep", 500),
            (model.rescue_text(net, 0), "rescue", "--bank", net.banks[0].name),
            (model.stress_text(net, scenarios), "stress", "--scenarios", toml),
            (model.impact_text(net), "impact"),
            (model.outcomes_text(net, scenarios), "outcomes", "--scenarios", toml),
        ]
        for size in SIZES:
            files = self.late_files(net, size)
            for text, task, *more in texts:
                self.same(text, task, *more, files=files)
            with self.subTest(task="compress", size=size):
                self.assertIsNone(judge_compression(net, self.printed("compress", *files)))

    def test_late_rows_of_a_journal(self):
        net = greatest_net()
        low = model.least(net)
        raises = [(4294967295, x, to) for x, to in enumerate(low) if to]
        text = f"lawful,{len(raises)}\n\n{model.payments_text(net, low)}"
        for size in SIZES:
            with self.subTest(size=size):
                journal = self.file("j.csv", late(model.journal_text(net, raises, 99), size))
                self.same(text, "replay", "--journal", journal, files=self.late_files(net, size))

    def long_files(self, *texts: str) -> List[pathlib.Path]:
        """Files of these texts, whose names are as long as the system takes them: 4,095 bytes."""
        folder = self.folder
        while (room := 4094 - len(bytes(folder))) > 255:
            folder = folder / ("é" * 100)
            folder.mkdir(exist_ok=True)
        paths = [folder / (letter * (room // len(letter.encode()))) for letter in ("b", "😀", "s", "j")]
        for path, text in zip(paths, texts):
            path.write_text(text)
        return paths[: len(texts)]

    def test_the_longest_names_of_files_and_numbers_are_taken(self):
        net, scenarios = greatest_net(), [Scenario("a", 1, [])]
        toml = scenarios_toml(net, scenarios)
        banks, debts, third = self.long_files(model.banks_text(net, True), model.debts_text(net), toml)
        files = ["--banks", banks, "--debts", debts]
        payments, stress = model.payments_text(net, model.least(net)), model.stress_text(net, scenarios)
        for plan in ([], LONG_PLAN[:2], LONG_PLAN, [*LONG_PLAN, "--show", "payments"]):
            self.same(payments, "clear", *plan, files=files)
        for plan in ([], LONG_PLAN):
            self.same(stress, "stress", "--scenarios", third, *plan, files=files)
            self.same(model.rescue_text(net, 0), "rescue", "--bank", net.banks[0].name, *plan, files=files)
            words = ["--seed", "5", "--size", "7", "--tries", "20"]
            self.same(model.gen_text(generated(5, 7, 20)), "gen", *words, *plan, files=[])

    def test_two_dashes_may_end_the_words_of_each_task(self):
        net, scenarios = greatest_net(), [Scenario("a", 1, [])]
        low = model.least(net)
        raises = [(0, x, to) for x, to in enumerate(low) if to]
        banks, debts, third, journal = self.long_files(
            model.banks_text(net, True),
            model.debts_text(net),
            scenarios_toml(net, scenarios),
            model.journal_text(net, raises, 1),
        )
        files, payments = ["--banks", banks, "--debts", debts], model.payments_text(net, low)
        lawful = f"lawful,{len(raises)}\n\n{payments}"
        # The text of a task, and its words after those that name the files.
        for text, task, *words in [
            (payments, "clear", *LONG_PLAN, "--show", "payments"),
            (model.stress_text(net, scenarios), "stress", "--scenarios", third, *LONG_PLAN),
            (model.outcomes_text(net, scenarios), "outcomes", "--scenarios", third),
            (model.rescue_text(net, 0), "rescue", "--bank", net.banks[0].name, *LONG_PLAN),
            (lawful, "replay", "--journal", journal),
        ]:
            self.same(text, task, *words, "--", files=files)
        words = ["--seed", "5", "--size", "7", "--tries", "20", *LONG_PLAN]
        self.same(model.gen_text(generated(5, 7, 20)), "gen", *words, "--", files=[])
        self.write(net)
        for task in ("check", "central", "convert", "compress", "breaking", "impact", "rescues"):
            self.same(self.printed(task, *self.files), task, "--", files=files)
        for task, *plan in (["defaults", *LONG_PLAN], ["bounds", *LONG_PLAN], ["costs", *KEEP], ["cost-bounds", *KEEP]):
            self.same(self.printed(task, *self.files, *plan), task, *plan, "--", files=files)


if __name__ == "__main__":
    unittest.main()
