"""Networks of many banks within the standard limits: the largest, and some that are drawn or built as networks of banks
may be."""
import functools
import random
from functools import partial
from typing import Dict, List

from networks import RULES, Debt, Network, Networks, rule_of


def largest(rule: str) -> Network:
    """1,000 banks and 20,000 debts that come to 9.9 million units."""
    debts = [
        (f"bank {x % 1000}", f"bank {(x % 1000 + 1 + x // 1000 * 37) % 1000}", 1, 1 + x * 104729 % 990)
        for x in range(20000)
    ]
    return Network([(f"bank {i}", i * 7919 % 5000, rule_of(rule, i)) for i in range(1000)], debts)


def ordinary(rng: random.Random) -> Network:
    """200 banks of all rules, and 2,000 debts of three classes."""
    debts: List[Debt] = []
    keys = set()
    while len(debts) < 2000:
        key = rng.randrange(200), rng.randrange(200), rng.randint(1, 3)
        if key[0] != key[1] and key not in keys:
            keys.add(key)
            debts.append((f"N{key[0]}", f"N{key[1]}", key[2], rng.randint(1, 500)))
    return Network([(f"N{i}", rng.randrange(2000), rng.choice(RULES)) for i in range(200)], debts)


def tight(rng: random.Random, rule: str) -> Network:
    """Long chains: each bank owes twenty that come after it, and only twenty banks have cash."""
    order = rng.sample(range(1000), 1000)
    debts = [
        (f"T{order[i]}", f"T{order[(i + 1 + k * k) % 1000]}", 1 + k % 3, rng.randint(100, 890))
        for i in range(1000)
        for k in range(20)
    ]
    cash = {bank: rng.randint(100, 3000) for bank in rng.sample(range(1000), 20)}
    return Network([(f"T{i}", cash.get(i, 0), rule_of(rule, i)) for i in range(1000)], debts)


def core(rng: random.Random, rule: str) -> Network:
    """15 banks at the core that all owe each other, and 985 at the edge, most of which know the core only."""
    debts = {}
    for key in ((a, b, rank) for a in range(15) for b in range(15) for rank in (1, 2, 3) if a != b):
        debts[key] = rng.randint(1000, 4000)
    while len(debts) < 20000:
        a, b = rng.randrange(15), rng.randrange(15, 1000)
        if rng.random() < 0.5:
            a, b = b, a
        if rng.random() < 0.05:
            a, b = rng.randrange(15, 1000), rng.randrange(15, 1000)
        if a != b:
            debts.setdefault((a, b, rng.randint(1, 9)), rng.randint(1, 850))
    rows = [(f"C{a}", f"C{b}", rank, claim) for (a, b, rank), claim in debts.items()]
    rng.shuffle(rows)
    cash = [rng.randint(20000, 120000) if i < 15 else rng.choice([0, 500, 2000, 6000]) for i in range(1000)]
    return Network([(f"C{i}", cash[i], rule_of(rule, i)) for i in range(1000)], rows)


def star(rule: str) -> Network:
    """Two banks owe all others in nine classes: 8,991 debts each, the longest rows there are."""
    keys = [(a, b, rank) for a in (0, 1) for b in range(1000) for rank in range(1, 10) if a != b]
    rest = ((a, b, 1) for a in range(2, 1000) for b in range(1000) if a != b)
    keys += [next(rest) for _ in range(20000 - len(keys))]
    debts = [(f"S{a}", f"S{b}", rank, 400 + (a * 7 + b * 13 + rank) % 90) for a, b, rank in keys]
    return Network([(f"S{i}", 700000 if i < 2 else 50, rule) for i in range(1000)], debts)


@functools.cache
def drawn() -> Dict[str, Network]:
    """The networks that are drawn at random, each after the one before it."""
    rng = random.Random(1)
    networks = {"ordinary": ordinary(rng)}
    for rule in ("order", "mixed"):
        networks[f"tight-{rule}"] = tight(rng, rule)
        networks[f"core-{rule}"] = core(rng, rule)
    return networks


USUAL: Networks = {
    **{f"largest-{rule}": partial(largest, rule) for rule in (*RULES, "mixed")},
    **{f"star-{rule}": partial(star, rule) for rule in RULES},
    **{name: partial(lambda name: drawn()[name], name)
       for name in ("ordinary", "tight-order", "core-order", "tight-mixed", "core-mixed")},
}
