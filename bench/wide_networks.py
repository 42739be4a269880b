"""Networks of the wide limits. They are made where they are named, as each has some megabytes."""
import random
from functools import partial
from typing import Callable

from networks import Network, Networks, rule_of


def spread(count: int, owed: int, cash: Callable[[int], int], rule: str) -> Network:
    """So many banks, each of which owes as many others up to 48 units each; cash is what `cash` says of a bank."""
    debts = [
        (f"W{i}", f"W{(i + 1 + k * 97) % count}", 1 + k % 3, 1 + (i * 7919 + k * 104729) % 48)
        for i in range(count)
        for k in range(owed)
    ]
    return Network([(f"W{i}", cash(i), rule_of(rule, i)) for i in range(count)], debts)


def dense(rule: str) -> Network:
    """10,000 banks and 1,000,000 debts. Each bank has up to half of what it owes in cash."""
    return spread(10_000, 100, lambda bank: bank * 7919 % 1250, rule)


def scarce(rule: str) -> Network:
    """10,000 banks and 1,000,000 debts, where one bank of fifty has cash, so that units go round for long."""
    return spread(10_000, 100, lambda bank: 20_000 if bank % 50 == 0 else 0, rule)


def complete(rule: str) -> Network:
    """1,000 banks that each owe nearly all others, 990,000 debts, where one bank of fifty has cash."""
    banks, debts = spread(1_000, 990, lambda bank: 200_000 if bank % 50 == 0 else 0, rule)
    keys = ((i, (i + 1 + k) % 1_000) for i in range(1_000) for k in range(990))
    return Network(banks, [(f"W{i}", f"W{j}", rank, claim) for (i, j), (_, _, rank, claim) in zip(keys, debts)])


def tiered(rule: str) -> Network:
    """4,500 banks and 150,000 debts: 45 at the core that all owe each other in three classes, and 4,455 round them."""
    rng = random.Random(4500)
    keys = ((a, b, rank) for a in range(45) for b in range(45) for rank in (1, 2, 3) if a != b)
    debts = {key: rng.randint(500, 2000) for key in keys}
    while len(debts) < 150_000:
        a, b = rng.randrange(45), rng.randrange(45, 4500)
        if rng.random() < 0.5:
            a, b = b, a
        if rng.random() < 0.3:
            a, b = rng.randrange(45, 4500), rng.randrange(45, 4500)
        if a != b:
            debts.setdefault((a, b, rng.randint(1, 9)), rng.randint(1, 200))
    rows = [(f"W{a}", f"W{b}", rank, claim) for (a, b, rank), claim in debts.items()]
    rng.shuffle(rows)
    cash = [rng.randint(20_000, 120_000) if i < 45 else rng.choice([0, 200, 900, 3000]) for i in range(4500)]
    return Network([(f"W{i}", cash[i], rule_of(rule, i)) for i in range(4500)], rows)


WIDE: Networks = {
    f"wide-{kind}-{rule}": partial(make, rule)
    for kind, make in (("dense", dense), ("scarce", scarce), ("complete", complete), ("tiered", tiered))
    for rule in ("order", "webster", "mixed")
}
