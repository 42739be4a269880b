"""Samples of networks with given totals, which `clearing-from-totals` draws by a chain: they come as often as their
distribution says."""
import random
from typing import Any, List

from imported import TOTALS, TotalsCase

from clearing_tools.imports.networks import chain as chains
from clearing_tools.imports.networks import claims as whole_claims


class Samples(TotalsCase):
    """What is drawn: how often, from where, and what is told of it."""

    def test_samples_are_drawn_from_a_number_each_to_a_folder(self):
        for method in ("sample", "sparse"):
            self.made_of(TOTALS, "--method", method, "--samples", 6, "--seed", 5, "--steps", 2000)
            first = [self.debts(f"out/{n}") for n in range(1, 7)]
            for debts in first:
                self.check_totals(debts, TOTALS)
            self.assertGreater(len({tuple(debts.items()) for debts in first}), 2)
            self.made_of(TOTALS, "--method", method, "--samples", 6, "--seed", 5, "--steps", 2000)
            self.assertEqual([self.debts(f"out/{n}") for n in range(1, 7)], first)
            self.made_of(TOTALS, "--method", method, "--samples", 6, "--seed", 6, "--steps", 2000)
            self.assertNotEqual([self.debts(f"out/{n}") for n in range(1, 7)], first)

    def check_frequencies(self, owes: List[int], owed: List[int], rounds: int, steps: int) -> int:
        """Compares how often networks come with their weights: each claim is there with the probability 0.3, and of a
        geometric size with the mean that the totals ask for."""
        size = len(owes)
        cells = [(a, b) for a in range(size) for b in range(size) if a != b]
        mean = max(sum(owes) / (0.3 * len(cells)), 1.0)
        more = 1 - 1 / mean
        weights = {}

        def visit(at: int, claims: Any, out: Any, in_: Any) -> None:
            if at == len(cells):
                if not any(out) and not any(in_):
                    weight = 1.0
                    for claim in claims:
                        weight *= 0.7 if claim == 0 else 0.3 * (1 - more) * more ** (claim - 1)
                    weights[tuple(claims)] = weight
                return
            a, b = cells[at]
            for claim in range(min(out[a], in_[b]) + 1):
                out[a] -= claim
                in_[b] -= claim
                if b < size - 1 - (a == size - 1) or out[a] == 0:
                    visit(at + 1, claims + [claim], out, in_)
                out[a] += claim
                in_[b] += claim

        visit(0, [], owes[:], owed[:])
        start = max(weights, key=weights.get)
        totals = whole_claims.Totals([str(n) for n in range(size)], owes, owed)
        chain = chains.Chain(
            totals, 0.3, random.Random(11), {pair: claim for pair, claim in zip(cells, start) if claim}
        )
        counts, whole = dict.fromkeys(weights, 0), sum(weights.values())
        for _ in range(rounds):
            for _ in range(steps):
                chain.step()
            counts[tuple(chain.claim(a, b) for a, b in cells)] += 1
        for network, weight in weights.items():
            want = weight / whole
            self.assertAlmostEqual(counts[network] / rounds, want, delta=6 * (want / rounds) ** 0.5, msg=network)
        return len(weights)

    def test_samples_come_as_often_as_their_distribution_says(self):
        # Of three banks there is one cycle, and each move is a new draw; of four there are many.
        self.assertEqual(self.check_frequencies([12, 9, 10], [11, 10, 10], 6000, 60), 9)
        self.assertEqual(self.check_frequencies([2, 1, 1], [1, 2, 1], 6000, 60), 2)
        self.assertGreater(self.check_frequencies([3, 2, 2, 1], [2, 2, 2, 2], 10_000, 25), 20)

    def test_a_move_is_drawn_by_the_weights_of_its_places(self):
        class Grid:
            """Draws the middles of so many equal parts, one after another."""

            def __init__(self, parts: Any) -> None:
                self.numbers = ((part + 0.5) / parts for part in range(parts))

            def random(self) -> float:
                return next(self.numbers)

        for up, down in [([3, 5], [4, 4]), ([0, 2], [1, 7]), ([2, 2, 9], [3, 3, 3]), ([1, 0], [1, 1])]:
            least, most = -min(up), min(down)
            chain = chains.Chain(whole_claims.Totals(list("ABC"), [4, 4, 4], [4, 4, 4]), 0.3, Grid(20_000), {})
            odds = chain.none / chain.there
            weights = {
                at: odds ** sum(cell == 0 for cell in [*(cell + at for cell in up), *(cell - at for cell in down)])
                for at in range(least, most + 1)
            }
            counts = dict.fromkeys(weights, 0)
            for _ in range(20_000):
                counts[chain.drawn(least, most, up, down)] += 1
            for at, weight in weights.items():
                self.assertAlmostEqual(counts[at] / 20_000, weight / sum(weights.values()), 3, (up, down, at))

    def test_it_is_told_whether_the_chain_came_to_rest(self):
        draw = random.Random(3)
        for banks, steps, rests in ((40, 100_000, True), (40, 1000, False), (300, 20_000, False), (40, 10, False)):
            lines = [f"N{n},{draw.randrange(1, 4000)},{draw.randrange(1, 4000)},1\n" for n in range(banks)]
            told = self.made_of(
                "bank,assets,liabilities,cash\n" + "".join(lines), "--method", "sample", "--steps", steps
            )
            (line,) = [line for line in told.splitlines() if line.startswith("steps of the chain: ")]
            self.assertRegex(
                line,
                rf"^steps of the chain: {steps:,}; [0-9,]+ claims in the third quarter of them, [0-9,]+ in the last",
            )
            self.assertEqual(line.endswith(": it has not come to rest, so say more --steps"), not rests, line)

    def test_a_chain_begins_with_about_as_many_claims_as_are_likely(self):
        draw = random.Random(4)
        size = 300
        owes, owed = ([draw.randrange(1, 9000) for _ in range(size)] for _ in range(2))
        owed[0], owes[0] = owed[0] + max(sum(owes) - sum(owed), 0), owes[0] + max(sum(owed) - sum(owes), 0)
        totals = whole_claims.Totals(list(range(size)), owes, owed)
        for density in (0.02, 0.2):
            claims = chains.begun(totals, density, whole_claims.Draw(1))
            self.assertAlmostEqual(len(claims) / (size * (size - 1)), density, delta=density / 3)
            self.assertFalse([pair for pair, claim in claims.items() if pair[0] == pair[1] or claim < 1])
            for place, want in ((0, owes), (1, owed)):
                self.assertEqual(
                    [sum(claim for pair, claim in claims.items() if pair[place] == n) for n in range(size)], want
                )

    def test_samples_forget_where_the_chain_began(self):
        draw = random.Random(2)
        claims = {
            (a, b): draw.randrange(1, 900) for a in range(20) for b in range(20) if a != b and draw.random() < 0.5
        }
        owes, owed = (
            [sum(claim for pair, claim in claims.items() if pair[place] == n) for n in range(20)] for place in (0, 1)
        )
        table = "bank,assets,liabilities,cash\n" + "".join(f"N{n},{owed[n]},{owes[n]},1\n" for n in range(20))
        for density, steps in ((0.6, 3000), (0.2, 40_000)):
            self.made_of(table, "--method", "sample", "--samples", 5, "--density", density, "--steps", steps)
            count = sum(len(self.debts(f"out/{n}")) for n in range(1, 6)) / 5
            # Of 380 pairs: the totals were not drawn with this density, so that it is met roughly.
            self.assertAlmostEqual(count / 380, density, delta=0.1)
