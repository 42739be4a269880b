"""Networks within the standard limits in which money goes round or far: rings, chains, hubs, and a bank that owes all
others."""
from functools import partial
from typing import List

from networks import Debt, Network, Networks


def ring(size: int, claim: int, step: int) -> Network:
    """A ring round which one unit goes, along the order of the file or against it."""
    debts = [(f"R{i}", f"R{(i + step) % size}", 1, claim) for i in range(size)]
    return Network([(f"R{i}", int(i == 0), "order") for i in range(size)], debts)


def dry_ring(size: int, claim: int, step: int) -> Network:
    """A ring in which nobody has any cash: one unit at a bank would save it, and then goes round."""
    return Network([(f"R{i}", 0, "order") for i in range(size)], ring(size, claim, step).debts)


def chain(size: int) -> Network:
    """Each bank owes the next, and only the first has cash, so that each pays once the one before it has paid."""
    debts = [(f"L{i}", f"L{i + 1}", 1, 1000) for i in range(size - 1)]
    return Network([(f"L{i}", 900 if i == 0 else 0, "order") for i in range(size)], debts)


def one_debtor() -> Network:
    """One bank owes all others in nine classes, the most debts that one bank can have, and can pay half of them."""
    debts = [("D0", f"D{j}", rank, 1000) for rank in range(1, 10) for j in range(1, 1000)]
    return Network([(f"D{i}", 4_495_500 if i == 0 else 0, "equal") for i in range(1000)], debts)


def leak(claim: int) -> Network:
    """A ring of ten that owes all it has, and one unit outside, so that the greatest payments fall by a unit a
    round."""
    debts = [(f"K{i}", f"K{(i + 1) % 10}", 1, claim) for i in range(10)]
    return Network([(f"K{i}", 0, "order", int(i == 0)) for i in range(10)], debts)


def hub(claim: int, cash: int = 1) -> Network:
    """A bank that owes 999 others in nine classes and is owed back. With one unit of cash a unit goes to and fro in
    each round."""
    debts = [
        (debtor, creditor, rank, claim)
        for rank in range(1, 10)
        for i in range(1, 1000)
        for debtor, creditor in (("hub", f"edge {i}"), (f"edge {i}", "hub"))
    ]
    return Network([("hub", cash, "order"), *((f"edge {i}", 0, "order") for i in range(1, 1000))], debts)


def beside_leak(banks: int, claim: int, cash: int = 1) -> Network:
    """Two banks between which the cash of one goes to and fro, one unit here, and banks with cash that owe nothing."""
    idle = [(f"idle {i}", 1, "order") for i in range(banks)]
    debts = [("to", "fro", 1, claim), ("fro", "to", 1, claim)]
    return Network([("to", cash, "order"), ("fro", 0, "order"), *idle], debts)


def linked(owed: int) -> Network:
    """1,000 banks that each owe the next few in one class, without any cash: one cycle, or many long ones."""
    debts = [
        (f"bank {i}", f"bank {(i + step) % 1000}", 1, 1 + (i * 7919 + step * 104729) % 990)
        for step in range(1, owed + 1)
        for i in range(1000)
    ]
    return Network([(f"bank {i}", 0, "order") for i in range(1000)], debts)


def beside_ten(debts: List[Debt], rest: int, claim: int) -> List[Debt]:
    """Debts among ten banks, and so many debts of one claim among the 990 others."""
    pairs = ((10 + x % 990, 10 + (x % 990 + 1 + x // 990 * 37) % 990) for x in range(rest))
    return debts + [(f"bank {debtor}", f"bank {creditor}", 1, claim) for debtor, creditor in pairs]


def ring_of_ten(rest: int) -> Network:
    """Ten of 1,000 banks in a ring, round which one unit goes in a hundred thousand rounds, and so many debts at rest
    on which nothing is owed."""
    debts = beside_ten([(f"bank {i}", f"bank {(i + 9) % 10}", 1, 10000) for i in range(10)], rest, 0)
    return Network([(f"bank {i}", int(i == 9), "order") for i in range(1000)], debts)


def leak_of_ten(rest: int) -> Network:
    """Ten of 1,000 banks in a ring, whose greatest payments are found in nine million rounds, a unit each, and so many
    debts that are paid."""
    debts = beside_ten([(f"bank {i}", f"bank {(i + 1) % 10}", 1, 900000) for i in range(10)], rest, 10)
    return Network([(f"bank {i}", 0 if i < 10 else 210, "order", int(i == 0)) for i in range(1000)], debts)


WAYS = (("forward", 1), ("reverse", -1))
RINGS: Networks = {
    **{f"ring-{size}-{way}": partial(ring, size, claim, step)
       for size, claim in ((10, 10000), (1000, 100)) for way, step in WAYS},
    **{f"{kind}-{size}-{way}": partial(make, size, claim, step)
       for size, claim in ((10, 10000), (100, 10000), (1000, 1000))
       for kind, make in (("dry-ring", dry_ring), ("one-ring", ring)) for way, step in WAYS},
    **{f"linked-{owed}": partial(linked, owed) for owed in (1, 5, 10, 20)},
    **{f"{kind}-{what}": partial(make, rest) for kind, make in (("unit", ring_of_ten), ("fall", leak_of_ten))
       for what, rest in (("alone", 0), ("at-rest", 19990))},
    "long-journal": partial(ring, 10, 100000, 1),
    "chain": partial(chain, 1000),
    "one-debtor": one_debtor,
    "leak": partial(leak, 90000),
    "hub": partial(hub, 11),
    "hub-with-cash": partial(hub, 11, 98901),
    "beside-leak": partial(beside_leak, 40, 100000),
    "beside-leak-with-cash": partial(beside_leak, 40, 100000, 100000),
}
