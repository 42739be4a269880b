"""The tools that ask what would break a network, against the plain model."""
import functools
import random
import statistics
import unittest
from typing import Any, Dict, Iterator, List, Tuple

from analyses import AnalysisCase
from common import ROOT, files_of, records
from compared import model

import quick

from clearing_client.records import Debt, Harm
from clearing_tools.analysis import breaking, impact, losses, queries
from clearing_tools.evidence import audit

# The same networks are cleared hundreds of times: it pays to put more units into their order once.
quick.SORTED = 200_000


class Solver:
    """How banks stand by the least payments of the plain model, which are those of its quicker ways, as the networks
    are large."""

    def __init__(self, banks: bytes, debts: bytes) -> None:
        self.net = audit.read_network(banks, debts)
        self.cash = [bank.cash for bank in self.net.banks]
        banks = [model.Bank(bank.name.decode(), bank.cash, bank.rule, bank.outside) for bank in self.net.banks]
        self.plain = model.Net(banks, [model.Debt(*debt) for debt in self.net.debts])
        # How banks divide does not depend on their cash, and is kept from here on.
        quick.least(self.plain)

    @functools.lru_cache(maxsize=None)
    def standings(self, cash: Tuple[int, ...]) -> List[Tuple[int, Tuple[int, ...], str]]:
        """For each bank what it keeps and how it stands, with this cash."""
        paid = quick.least(model.with_cash(self.plain, lambda i, bank: cash[i]))
        net = audit.Network([bank._replace(cash=units) for bank, units in zip(self.net.banks, cash)], self.net.debts)
        return [(numbers[1] + numbers[4], numbers, state) for numbers, state in audit.standings(net, paid)]

    def after(self, cut: int = 0, losses: Dict[int, int] = {}) -> List[Tuple[int, Tuple[int, ...], str]]:
        return self.standings(tuple(max(0, c - c * cut // 1000 - losses.get(i, 0)) for i, c in enumerate(self.cash)))


class Analysis(AnalysisCase):
    def solver(self, words: List[Any]) -> Solver:
        return Solver(words[1].read_bytes(), words[3].read_bytes())

    def test_the_help_of_impact_says_what_the_program_calls_a_column(self):
        self.assertIn(
            "`defaults`, which `clearing impact` calls `falls`",
            " ".join(self.made("clearing-impact", "--help").split()),
        )

    def test_breaking_cuts(self):
        for name, words in self.networks():
            solver, found = self.solver(words), records(self.made("clearing-breaking", *words))
            self.assertEqual([bank for bank, _, _ in found], [bank.name.decode() for bank in solver.net.banks])
            for i, (bank, cut, state) in enumerate(found):
                with self.subTest(network=name, bank=bank):
                    cut = int(cut)
                    # Sound just below it, and in that state at it; below and above it all goes one way.
                    self.assertEqual(solver.after(cut)[i][2] if cut <= 1000 else "sound", state)
                    self.assertNotEqual((cut <= 1000) and state, "sound")
                    if cut:
                        self.assertEqual(solver.after(cut - 1)[i][2], "sound")
        # Every cut, on the small network.
        words = self.small()
        solver, found = self.solver(words), records(self.made("clearing-breaking", *words))
        for i, (_, cut, _) in enumerate(found):
            self.assertEqual([k for k in range(1001) if solver.after(k)[i][2] != "sound"], list(range(int(cut), 1001)))
        self.assertEqual({int(cut) <= 1000 for _, cut, _ in found}, {True, False})

    def test_breaking_losses(self):
        example = lambda name: files_of(ROOT / "examples" / name)
        for words, of in ((self.small(), 0), (example("twelve-banks"), 9), (example("core"), 2), (self.generated(), 7)):
            solver = self.solver(words)
            name = solver.net.banks[of].name.decode()
            text = self.made("clearing-breaking", *words, "--loss", name)
            self.assertTrue(text.startswith("bank,loss,state\n"))
            for i, (bank, loss, state) in enumerate(records(text)):
                loss = int(loss)
                after = lambda units: solver.after(0, {of: units})[i][2]
                self.assertEqual(after(loss) if loss <= solver.cash[of] else "sound", state)
                self.assertLessEqual(loss, solver.cash[of] + 1)
                if loss:
                    self.assertEqual(after(loss - 1), "sound")
        self.refused("clearing-breaking", 4, "no bank has the name 'Z'\n", *words, "--loss", "Z")
        self.refused(
            "clearing-breaking",
            4,
            "no bank has the name 'jura '; is it 'Jura'?\n",
            *example("twelve-banks"),
            "--loss",
            "jura ",
        )

    def test_impacts(self):
        for name, words in self.networks():
            with self.subTest(network=name):
                solver = self.solver(words)
                names = [bank.name.decode() for bank in solver.net.banks]
                matrix, fallen = self.file("matrix.csv"), self.file("fallen.csv")
                ranking = records(self.made("clearing-impact", *words, "--matrix", matrix, "--defaults", fallen))
                before, lost, down, ranks = solver.after(), [], [], []
                for i, bank in enumerate(names):
                    after = solver.after(0, {i: solver.cash[i]})
                    less = [old[0] - new[0] for old, new in zip(before, after)]
                    states = [new[2] if old[2] == "sound" != new[2] else None for old, new in zip(before, after)]
                    self.assertEqual(sum(less), solver.cash[i])
                    lost += [[bank, names[j], str(units)] for j, units in enumerate(less) if units]
                    down += [[bank, names[j], state] for j, state in enumerate(states) if state]
                    others = sum(state is not None for j, state in enumerate(states) if j != i)
                    ranks.append([bank, *map(str, (solver.cash[i], less[i], sum(less) - less[i], others))])
                self.assertEqual(records(matrix.read_text()), lost)
                if down:
                    self.assertEqual(records(fallen.read_text()), down)
                else:
                    self.assertEqual(fallen.read_text(), "bank,of,state\n")
                self.assertEqual(sorted(ranking), sorted(ranks))
                hardest = [(-int(others), -int(defaults)) for _, _, _, others, defaults in ranking]
                self.assertEqual(hardest, sorted(hardest))

    def test_rescues(self):
        for name, words in self.networks():
            with self.subTest(network=name):
                solver = self.solver(words)
                names = [bank.name.decode() for bank in solver.net.banks]
                short = [i for i, standing in enumerate(solver.after()) if standing[2] != "sound"]
                saved = self.file("saved.csv")
                found = records(self.made("clearing-rescues", *words, "--saved", saved))
                self.assertEqual(sorted(bank for bank, *_ in found), sorted(names[i] for i in short))
                given = lambda i, units: solver.standings(
                    tuple(c + units * (i == j) for j, c in enumerate(solver.cash))
                )
                listed, per_unit = [], []
                for bank, added, also, still in found:
                    i, added = names.index(bank), int(added)
                    self.assertNotEqual(given(i, added - 1)[i][2], "sound")
                    left = [j for j, standing in enumerate(given(i, added)) if standing[2] != "sound"]
                    others = [j for j in short if j not in left and j != i]
                    self.assertEqual((i in left, int(also), int(still)), (False, len(others), len(left)))
                    listed += [f"{bank},{names[j]}" for j in others]
                    per_unit.append((1 + len(others)) / added)
                self.assertEqual(saved.read_text().splitlines(), ["bank,of", *listed])
                self.assertEqual(per_unit, sorted(per_unit, reverse=True))

    def test_draws_of_the_past(self):
        for name, words in self.networks():
            with self.subTest(network=name):
                self.check_draws(words)

    def check_draws(self, words: List[Any]) -> None:
        solver = self.solver(words)
        names = [bank.name.decode() for bank in solver.net.banks]
        past = self.file(
            "past.csv",
            f"year,cut,{names[3]},{names[1]}\n2001,10,0,100\n2008,600,900,50.5\n2020,100,5e1,-4\n2021,2000,0,0\n",
        )
        losses = [(10, {1: 100}), (600, {3: 900, 1: 51}), (100, {3: 50}), (1000, {})]
        each = self.file("each.csv")
        first, second, third = self.made(
            "clearing-draws", *words, "--past", past, "--draws", 60, "--seed", 4, "--each", each
        ).split("\n\n")
        chance = random.Random(4)
        drawn = [losses[int(chance.random() * 4)] for _ in range(60)]
        lines, columns, causes = [], [], [[0, 0] for _ in solver.cash]
        for number, (cut, lost) in enumerate(drawn, 1):
            standings = solver.after(cut, lost)
            states = [standing[2] for standing in standings]
            unpaid = sum(numbers[3] - numbers[2] for _, numbers, _ in standings)
            outside = sum(bank.outside - numbers[1] for bank, (_, numbers, _) in zip(solver.net.banks, standings))
            defaults, fundamental = len(states) - states.count("sound"), states.count("fundamental")
            gone = sum(solver.cash) - sum(
                max(0, c - c * cut // 1000 - lost.get(i, 0)) for i, c in enumerate(solver.cash)
            )
            lines.append([str(number), str(cut), *map(str, (gone, defaults, fundamental, unpaid, outside))])
            columns.append((defaults, fundamental, unpaid, outside, gone))
            for i, state in enumerate(states):
                causes[i][0] += state == "fundamental"
                causes[i][1] += state == "contagion"
        self.assertEqual(records(each.read_text()), lines)
        for (name, *numbers), column in zip(records(first), zip(*columns)):
            column = sorted(column)
            at = [sum(1 for _ in column) * percent for percent in (1, 5, 25, 50, 75, 95, 99)]
            wanted = [
                column[0],
                *(next(n for k, n in enumerate(column, 1) if 100 * k >= rank) for rank in at),
                column[-1],
            ]
            self.assertEqual(numbers, [*map(str, wanted), f"{statistics.fmean(column):.3f}"], name)
        counts = [column[0] for column in columns]
        self.assertEqual(records(second), [[str(n), str(counts.count(n))] for n in sorted(set(counts))])
        self.assertEqual(records(third), [[name, *map(str, cause)] for name, cause in zip(names, causes)])

    def test_draws_have_the_moments_that_are_asked_for(self):
        known = {"A": 0, "B": 1, "C": 2}
        table = self.file(
            "moments.csv", "of,mean,deviation,cut,A,B\ncut,300,100,1,0.5,-0.5\nA,50,10,0.5,1,0.25\nB,7,2,-0.5,0.25,1\n"
        )
        source, chance = losses.Moments(table, known), random.Random(1)
        columns = list(zip(*(source.draw(chance) for _ in range(20_000))))
        for column, mean, deviation in zip(columns, (300, 50, 7), (100, 10, 2)):
            self.assertAlmostEqual(statistics.fmean(column) / mean, 1, delta=0.01)
            self.assertAlmostEqual(statistics.stdev(column) / deviation, 1, delta=0.02)
        for one, other, wanted in ((0, 1, 0.5), (0, 2, -0.5), (1, 2, 0.25)):
            self.assertAlmostEqual(statistics.correlation(columns[one], columns[other]), wanted, delta=0.02)
        # All that can be drawn is within the limits, and the same seed draws the same.
        words = self.small()
        table = self.file("wild.csv", "of,mean,deviation\ncut,500,2000\nA,6,100\nD,0,1\n")
        each = [self.file(f"each-{n}.csv") for n in (1, 2, 3)]
        for file, seed in zip(each, (3, 3, 4)):
            self.made("clearing-draws", *words, "--moments", table, "--draws", 40, "--seed", seed, "--each", file)
        texts = [file.read_text() for file in each]
        self.assertEqual(texts[0], texts[1])
        self.assertNotEqual(texts[0], texts[2])
        self.assertLessEqual({0, 1000}, {int(line[1]) for line in records(texts[0])})

    def test_faulty_tables_of_losses_are_refused(self):
        words = self.small()
        for option, text, message in [
            ("--moments", "of,mean\nA,1\n", "not the header"),
            ("--moments", "of,mean,deviation\nZ,1,1\n", "no bank has the name 'Z'"),
            ("--moments", "of,mean,deviation\nA,1,-1\n", "line 2: '-1'"),
            ("--moments", "of,mean,deviation\nA,nan,1\n", "line 2: 'nan'"),
            ("--moments", "of,mean,deviation\nA,1,1\nA,1,1\n", "twice"),
            ("--moments", "of,mean,deviation,B\nA,1,1,1\n", "not named as"),
            ("--moments", "of,mean,deviation,A,B\nA,1,1,1,0.5\nB,1,1,0.4,1\n", "not symmetric"),
            ("--moments", "of,mean,deviation,A,B,C\nA,1,1,1,1,0\nB,1,1,1,1,1\nC,1,1,0,1,1\n", "no losses have"),
            ("--past", "year,A\n2001\n", "as many fields"),
            ("--past", "year,A\n", "no line below"),
            ("--past", "year,A\n1,inf\n", "'inf'"),
            ("--past", b"year,A\n\xff,1\n", "UTF-8"),
        ]:
            self.refused("clearing-draws", 4, message, *words, option, self.file("table.csv", text))
        self.refused("clearing-draws", 3, "cannot read", *words, "--past", self.folder / "none.csv")
        self.refused("clearing-draws", 2, "one of the arguments", *words)

    def test_names_of_any_kind(self):
        """The same numbers as with plain names."""
        names = ["total", "cash", "-x", "it's", "back\\slash", "$a b", "é\u2028é", "bank", "estate", "scenario,"[:-1]]
        banks = "name,cash,rule,outside\n{}" + "".join(
            f"{{{k}}},{3 * k},{rule},{k % 3}\n" for k, rule in enumerate(model.RULES + model.RULES[:4])
        )
        debts = "debtor,creditor,class,claim\n" + "".join(
            f"{{{k}}},{{{(k * 3 + step) % 10}}},{1 + k % 2},{7 + k}\n"
            for k in range(10)
            for step in (1, 2)
            if (k * 3 + step) % 10 != k
        )
        made = {}
        for kind, each in (("plain", [f"P{k}" for k in range(10)]), ("hostile", names)):
            words = [
                "--banks",
                self.file("b.csv", banks.replace("{}", "").format(*each)),
                "--debts",
                self.file("d.csv", debts.format(*each)),
            ]
            texts = [self.made(*command, *words) for command in self.commands()]
            texts.append(self.made("clearing-breaking", *words, "--loss=" + each[4]))
            made[kind] = texts
        plain = [
            "\n".join(
                ",".join([names[int(line[1])] if line[:1] == "P" else line.split(",")[0], *line.split(",")[1:]])
                for line in text.split("\n")
            )
            for text in made["plain"]
        ]
        self.assertEqual(made["hostile"], plain)


class Once(unittest.TestCase):
    """How often the debts are gone over, which on the largest networks is what a tool takes."""

    class Debts(list):
        """Debts that count how often they are gone over."""

        times = 0

        def __iter__(self) -> Iterator[Any]:
            self.times += 1
            return super().__iter__()

    def test_the_debts_are_gone_over_once_however_many_banks_fall(self):
        names = [f"B{number}" for number in range(200)]
        debts = self.Debts(
            Debt(one, other, 1, 1 + at % 3) for at, (one, other) in enumerate(zip(names, [*names[1:], names[0]]))
        )
        network = queries.Network(names, [at % 2 for at in range(200)], [at % 5 == 0 for at in range(200)], debts)
        fallen = impact.fallen_of(network, [Harm(one, of, 1, True) for one in names for of in (one, names[0])])
        self.assertEqual((debts.times, len(fallen)), (1, 400))
        for at, (one, of, state) in enumerate(fallen):
            place = at // 2
            spare = (1 + (place - 1) % 200 % 3) - (1 + place % 3) - (place % 5 == 0)
            self.assertEqual(
                (one, state), (names[place], "fundamental" if of == one and spare < 0 else "contagion"), place
            )
        debts.times = 0
        depths = list(breaking.depths_of(network, 1000, range(200)))
        self.assertEqual((debts.times, 0 < len(depths) <= 200), (1, True))


if __name__ == "__main__":
    unittest.main()
