"""Networks of some totals drawn at random, one after another of a Markov chain, in whole units with every total kept.
They are drawn from a generator of their own, by whole numbers and the four operations alone, so that a number makes the
same networks for good."""
from __future__ import annotations

from typing import List, Optional, Sequence, Tuple

from ...runner import Progress
from .claims import Claims, Draw, Pair, Totals, complete, some_network

# How often a chain is looked at on its way to the first network.
LOOKS = 40
Look = Tuple[float, float, float]
"""How many claims a chain has, how large they are, and how much of the first network is there still."""


class Left:
    """What banks have left of their totals, from which a bank is drawn by it: sums over blocks of banks, each twice as
    long."""

    def __init__(self, left: List[int]) -> None:
        self.left, self.sum, self.sums = list(left), sum(left), [0] * (len(left) + 1)
        for at, units in enumerate(left):
            self.add(at, units)

    def add(self, at: int, units: int) -> None:
        """Adds units to what a bank has left, in each block that it is of."""
        at += 1
        while at < len(self.sums):
            self.sums[at] += units
            at += at & -at

    def take(self, at: int, units: int) -> None:
        """Takes units from what a bank has left."""
        self.left[at] -= units
        self.sum -= units
        self.add(at, -units)

    def drawn(self, draw: Draw) -> int:
        """A bank, as likely as what it has left."""
        unit, at = int(draw.random() * self.sum), 0
        for step in [1 << power for power in range(len(self.left).bit_length() - 1, -1, -1)]:
            if at + step < len(self.sums) and self.sums[at + step] <= unit:
                at += step
                unit -= self.sums[at]
        return at


def begun(totals: Totals, density: float, draw: Draw) -> Optional[Claims]:
    """A network to begin a chain with that has about as many claims as are likely: pairs are drawn by what is left, and
    load a part of it, up to twice the mean claim."""
    mean, (owes, owed) = mean_of(totals, density), map(Left, totals.left())
    claims: Claims = {}
    misses = 0
    while owes.sum and misses < 200:
        pair = owes.drawn(draw), owed.drawn(draw)
        if not totals.is_open(*pair):
            misses += 1
            continue
        load = min(1 + int(draw.random() * (2 * mean - 1)), owes.left[pair[0]], owed.left[pair[1]])
        claims[pair], misses = claims.get(pair, 0) + load, 0
        owes.take(pair[0], load)
        owed.take(pair[1], load)
    return claims if complete(owes.left, owed.left, totals.is_open, claims) else some_network(totals)


def mean_of(totals: Totals, density: float) -> float:
    """The mean of a claim that is there, where a claim is there with a probability."""
    pairs = totals.size * (totals.size - 1) - len(totals.fixed)
    return max((totals.sum - sum(totals.fixed.values())) / (density * pairs), 1.0) if pairs > 0 else 1.0


class Chain:
    """A sampler over matrices of whole units with fixed totals and a diagonal of 0.

    A step draws some claims and with them a cycle of cells that go down and up in turn, and then how far, from the
    distribution in which a claim is there with a probability and its size above 0 is geometric. Along a cycle the sum
    of its cells stays, so that only the number of cells that are 0 tells one place from another. Since claims are drawn
    of those that are there, a step is taken as likely as the way back is to be drawn against the way there."""

    def __init__(self, totals: Totals, density: float, draw: Draw, claims: Claims) -> None:
        self.draw, self.totals, self.size = draw, totals, totals.size
        self.cells, self.keys = dict(claims), list(claims)
        self.places = {pair: at for at, pair in enumerate(self.keys)}
        more = 1 - 1 / mean_of(totals, density)
        # The weight of a claim of 1 against none, where each further unit weighs `more`; a cycle keeps the sum of
        # units.
        self.there = density * (1 - more) / (more or 1e-12)
        self.none = 1 - density

    def claim(self, debtor: int, creditor: int) -> int:
        """A claim, 0 where there is none."""
        return self.cells.get((debtor, creditor), 0)

    def step(self) -> None:
        """Draws a cycle, and how far it moves."""
        length, random, count = 2, self.draw.random, len(self.keys)
        while length < self.size and random() < 0.3:
            length += 1
        if count < length:
            return
        down = [self.keys[int(random() * count)] for _ in range(length)]
        if len({row for row, _ in down}) < length or len({column for _, column in down}) < length:
            return
        up = [(down[at][0], down[at + 1 - length][1]) for at in range(length)]
        if not all(self.totals.is_open(*pair) for pair in up):
            return
        highs, lows = [self.cells.get(pair, 0) for pair in up], [self.cells[pair] for pair in down]
        move = self.drawn(-min(highs), min(lows), highs, lows)
        if move and self.is_taken(move, highs, lows, count):
            for pair, cell in zip(up, highs):
                self.put(pair, cell + move)
            for pair, cell in zip(down, lows):
                self.put(pair, cell - move)

    def is_taken(self, move: int, highs: List[int], lows: List[int], count: int) -> bool:
        """Whether a step is taken: by how likely its cycle is drawn from where it leads, against how likely from
        here."""
        after = (
            count + sum((cell + move > 0) - (cell > 0) for cell in highs) + sum((cell - move > 0) - 1 for cell in lows)
        )
        ways = all(cell + move > 0 for cell in highs) + all(cell - move > 0 for cell in lows)
        ratio = ways / (1 + all(cell > 0 for cell in highs))
        for _ in range(len(lows)):
            ratio = ratio * count / after
        return ratio >= 1 or self.draw.random() < ratio

    def put(self, pair: Pair, claim: int) -> None:
        """Sets a cell."""
        if claim and pair not in self.cells:
            self.places[pair] = len(self.keys)
            self.keys.append(pair)
        if claim:
            self.cells[pair] = claim
        elif pair in self.cells:
            at, last = self.places.pop(pair), self.keys.pop()
            del self.cells[pair]
            if last != pair:
                self.keys[at], self.places[last] = last, at

    def drawn(self, least: int, most: int, up: List[int], down: List[int]) -> int:
        """How far a cycle moves: each place between its ends has no cell at 0, and weighs the same."""
        odds, ends = self.none / self.there, [1.0, 1.0]
        for _ in range(sum(cell + least == 0 for cell in up)):
            ends[0] *= odds
        for _ in range(sum(cell - most == 0 for cell in down)):
            ends[1] *= odds
        between = most - least - 1
        at = self.draw.random() * (ends[0] + ends[1] + between)
        if at < ends[0]:
            return least
        if at < ends[0] + ends[1]:
            return most
        return least + 1 + min(int(at - ends[0] - ends[1]), between - 1)


def sampled(
    totals: Totals, density: float, steps: int, samples: int, draw: Draw
) -> Tuple[List[Claims], Optional[Settling]]:
    """Networks at random, one after another of one chain; and what was seen of it on the way to the first."""
    start = begun(totals, density, draw) or {}
    chain = Chain(totals, density, draw, start)
    seen: List[Look] = []
    networks: List[Claims] = []
    every = [steps if at == 0 else max(steps // 10, 1) for at in range(samples)] if totals.size > 2 else []
    progress, done = Progress("per cent of the steps", 100), 0
    for count in every:
        for at in range(count):
            chain.step()
            done += 1
            if done * 100 // sum(every) > progress.done:
                progress.one_more()
            if not networks and (at + 1) * LOOKS // steps > len(seen):
                seen.append(look_at(chain, start))
        networks.append(dict(sorted(chain.cells.items())))
    progress.end()
    return networks or [dict(sorted(chain.cells.items()))] * samples, Settling(steps, seen) if seen else None


def look_at(chain: Chain, start: Claims) -> Look:
    """How many claims there are, how large they are, and how much of the first network is there still, as shares of all
    units."""
    units = max(sum(start.values()), 1)
    still_there = sum(min(claim, chain.claim(*pair)) for pair, claim in start.items())
    return len(chain.keys), sum(claim * claim for claim in chain.cells.values()) / units, still_there / units


class Settling:
    """How a chain came to rest on its way to the first network: what was seen in the third quarter of the steps and in
    the last. Where they differ by more than chance would have it, the chain has not forgotten where it began."""

    def __init__(self, steps: int, seen: Sequence[Look]) -> None:
        self.steps = steps
        quarters = seen[len(seen) // 2 : len(seen) * 3 // 4], seen[len(seen) * 3 // 4 :]
        (self.before, large, kept), (self.after, last, left) = (
            [sum(numbers) / len(quarter) for numbers in zip(*quarter)] or [0, 0, 0] for quarter in quarters
        )
        chance = 1 / max(self.after, 1) ** 0.5
        self.is_done = len(seen) == LOOKS and all(
            (
                abs(self.before - self.after) <= max(0.02, 2 * chance) * self.after,
                abs(large - last) <= max(0.1, 3 * chance) * last,
                kept - left <= max(0.02, chance / 2),
            )
        )

    def line(self) -> Tuple[str, int, None, str]:
        """What is told of it: the count of steps, and the number of claims."""
        detail = f"{self.before:,.0f} claims in the third quarter of them, {self.after:,.0f} in the last"
        return (
            "steps of the chain",
            self.steps,
            None,
            detail + ("" if self.is_done else ": it has not come to rest, so say more --steps"),
        )
