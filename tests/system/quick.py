"""Quicker ways to the divisions and payments of model.py, for large networks. compare.py holds both ways against each
other on small ones.

All units of a class are put into their order at once, what a bank has is kept as a sum, and a bank divides anew only
where what it has has changed. Networks are those of model.py.
"""
import array
import bisect
import collections
from typing import Any, Callable, Dict, Iterable, List, Optional, Sequence, Set, Tuple

# At which place the unit after k units of a claim c comes: a unit of a smaller place before one of a greater. The
# quotients are exact enough: two that are not equal are 10^-12 apart at least, since no claim is above a million, and
# two that are equal round to one number.
PLACE: Dict[str, Callable[[int, int], float]] = {
    "equal": lambda c, k: k,
    "losses": lambda c, k: k - c,
    "jefferson": lambda c, k: (k + 1) / c,
    "webster": lambda c, k: (2 * k + 1) / c,
    "adams": lambda c, k: k / c,
}
# How many units of a class are put into their order one by one.
SORTED = 50_000
# How many units of a claim come before a level, and the greatest level. No two units of a claim come between two
# levels, since no claim is above a million.
FINE = 10**12
BEFORE: Dict[str, Callable[[int, int], int]] = {
    "equal": lambda c, t: min(c, t),
    "losses": lambda c, t: max(0, c + t - 10**6),
    "jefferson": lambda c, t: min(c, max(0, t * c - 1) // FINE),
    "webster": lambda c, t: min(c, (max(0, t * c - 1) // FINE + 1) // 2),
    "adams": lambda c, t: min(c, max(0, t * c - 1) // FINE + (t > 0)),
}
HIGHEST = {"equal": 10**6, "losses": 10**6, "jefferson": 3 * FINE, "webster": 3 * FINE, "adams": 3 * FINE}


def dealt(rule: str, claims: Sequence[int], units: int) -> List[int]:
    """What each claim gets of so many units: those that come before the greatest level that they reach, and a unit
    each of what they leave, which come at that level."""

    def before(level: int) -> List[int]:
        """How many units of each claim come before a level."""
        return [BEFORE[rule](claim, level) for claim in claims]

    low, high = 0, HIGHEST[rule]
    while low < high:
        level = (low + high + 1) // 2
        low, high = (level, high) if sum(before(level)) <= units else (low, level - 1)
    given = before(low)
    left = units - sum(given)
    for x, to in enumerate(before(low + 1)):
        if left and to > given[x]:
            given[x] += 1
            left -= 1
    return given


class Class:
    """The debts of a bank in one class."""

    def __init__(self, rule: str, places: List[int], claims: List[int]) -> None:
        self.rule, self.places, self.claims, self.sum = rule, places, claims, sum(claims)
        self.turns: Optional[List["array.array[int]"]] = None

    def in_turn(self) -> List["array.array[int]"]:
        """Of each debt how many units are given before each of its own."""
        turns: List["array.array[int]"] = [array.array("I") for _ in self.claims]
        place = PLACE[self.rule]
        units = sorted((place(claim, k), x) for x, claim in enumerate(self.claims) for k in range(claim))
        for before, (_, x) in enumerate(units):
            turns[x].append(before)
        return turns

    def award(self, units: int) -> List[int]:
        """What each debt gets of so many units for the class."""
        if units in (0, self.sum):
            return self.claims if units else [0] * len(self.claims)
        if self.rule == "order":
            given: List[int] = []
            for claim in self.claims:
                given.append(min(claim, units))
                units -= given[-1]
            return given
        if self.sum > SORTED:
            return dealt(self.rule, self.claims, units)
        self.turns = self.turns or self.in_turn()
        return [bisect.bisect_left(turn, units) for turn in self.turns]


class Division:
    """How a bank divides among all its debts."""

    def __init__(self, rule: str, claims: Sequence[int], classes: Sequence[int]) -> None:
        groups: Dict[int, List[int]] = collections.defaultdict(list)
        for x, cls in enumerate(classes):
            groups[cls].append(x)
        self.parts = [Class(rule, places, [claims[x] for x in places]) for _, places in sorted(groups.items())]
        self.last = 0, [0] * len(claims)

    def share(self, units: int) -> List[int]:
        """What each debt gets, in the order of the file. It is not to be written into."""
        if units != self.last[0]:
            left, shares = units, [0] * len(self.last[1])
            for part in self.parts:
                given = min(left, part.sum)
                left -= given
                for x, gets in zip(part.places, part.award(given)):
                    shares[x] = gets
            self.last = units, shares
        return self.last[1]


def estates(net: Any, paid: Iterable[int]) -> List[int]:
    """What each bank has: its cash, and what others pay it."""
    has = [bank.cash for bank in net.banks]
    for debt, units in zip(net.debts, paid):
        has[debt.creditor] += units
    return has


def divides(net: Any, keep: int, i: int, has: int) -> int:
    """What a bank that has so much divides among its debts."""
    outside: int = net.banks[i].outside
    return max(0, (has if has >= net.owed[i] + outside else has * keep // 1000) - outside)


def least(
    net: Any, keep: int = 1000, start: Optional[Sequence[int]] = None, richer: Optional[Iterable[int]] = None
) -> List[int]:
    """The least payments, by visits of banks that may pay more. Where payments to start with clear the network but for
    some banks that have become richer, only these are visited first."""
    paid = list(start) if start else [0] * len(net.debts)
    has = estates(net, paid)
    waiting = collections.deque(range(len(net.banks)) if richer is None else richer)
    waits = set(waiting)
    while waiting:
        i = waiting.popleft()
        waits.remove(i)
        for x, to in zip(net.rows[i], net.divisions[i].share(divides(net, keep, i, has[i]))):
            if to != paid[x]:
                assert to > paid[x]
                creditor = net.debts[x].creditor
                has[creditor] += to - paid[x]
                paid[x] = to
                if creditor not in waits:
                    waits.add(creditor)
                    waiting.append(creditor)
    return paid


def falling(net: Any, keep: int = 1000) -> Tuple[List[int], List[int]]:
    """The greatest payments, and of each bank the round in which it is short first, or 0: the rounds go down from all
    debts paid."""
    paid = [debt.claim for debt in net.debts]
    has, waves, rounds = estates(net, paid), [0] * len(net.banks), 0
    changed: Set[int] = set(range(len(net.banks)))
    while changed:
        rounds += 1
        for i in changed:
            if not waves[i] and has[i] < net.owed[i] + net.banks[i].outside:
                waves[i] = rounds
        below = [(i, net.divisions[i].share(divides(net, keep, i, has[i]))) for i in changed]
        changed = set()
        for i, shares in below:
            for x, to in zip(net.rows[i], shares):
                if to != paid[x]:
                    assert to < paid[x]
                    creditor = net.debts[x].creditor
                    has[creditor] -= paid[x] - to
                    paid[x] = to
                    changed.add(creditor)
    return paid, waves


def touched(net: Any, paid: Sequence[int], others: Sequence[int]) -> Set[int]:
    """The banks that pay or receive other sums in the one list than in the other."""
    changed = [debt for debt, units, other in zip(net.debts, paid, others) if units != other]
    return {debt.debtor for debt in changed} | {debt.creditor for debt in changed}
