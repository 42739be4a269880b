"""A second, plain model of clearing, for tests/system/compare.sh: unit by unit.

It shares no code with the program. Payments are a list over the debts, in file order. Two things are there for speed:
what was divided is kept until forget(), and after a raise only what its creditor pays is worked out anew. Of a network
that is large the divisions and the payments are those of quick.py.
"""
import functools
from collections import namedtuple
from typing import Any, Callable, Dict, Iterator, List, Optional, Sequence, Tuple

import quick

RULES = ["order", "equal", "losses", "jefferson", "webster", "adams"]
Bank = namedtuple("Bank", "name cash rule outside")
Debt = namedtuple("Debt", "debtor creditor cls claim")
Scenario = namedtuple("Scenario", "name cut losses")
Raises = List[Tuple[int, int, int]]
"""The raises of a journal: of each its stamp, the place of its debt, and what is then paid on that."""
Limits = namedtuple("Limits", "banks debts owed size")
# How many banks, debts and units owed a network has at most, and how many bytes each of its files, by the words of
# `--limits`.
LIMITS = {
    "standard": Limits(1_000, 20_000, 10_000_000, 8_388_608),
    "wide": Limits(10_000, 1_000_000, 25_000_000, 167_772_160),
}
# What does not depend on the banks' cash.
KEPT = "rows", "columns", "owed", "claims", "classes", "divisions", "large"


class Net(namedtuple("Net", "banks debts")):
    @functools.cached_property
    def large(self) -> bool:
        """Whether quick.py divides and pays."""
        return len(self.banks) > 300 or len(self.debts) > 2_000 or sum(self.owed) > 100_000

    @functools.cached_property
    def divisions(self) -> List[Any]:
        """How each bank divides, by quick.py."""
        rules = [bank.rule for bank in self.banks]
        return [quick.Division(*known) for known in zip(rules, self.claims, self.classes)]

    def with_banks(self, banks: List[Bank]) -> "Net":
        """The same debts, and banks that differ in cash alone."""
        other = Net(banks, self.debts)
        other.__dict__.update({name: value for name, value in self.__dict__.items() if name in KEPT})
        return other

    @functools.cached_property
    def rows(self) -> List[List[int]]:
        """The places of the debts that each bank owes, in file order."""
        rows = [[] for _ in self.banks]
        for x, debt in enumerate(self.debts):
            rows[debt.debtor].append(x)
        return rows

    @functools.cached_property
    def columns(self) -> List[List[int]]:
        """The places of the debts that are owed to each bank."""
        columns = [[] for _ in self.banks]
        for x, debt in enumerate(self.debts):
            columns[debt.creditor].append(x)
        return columns

    @functools.cached_property
    def owed(self) -> List[int]:
        return [sum(self.debts[x].claim for x in places) for places in self.rows]

    @functools.cached_property
    def claims(self) -> List[Tuple[int, ...]]:
        return [tuple(self.debts[x].claim for x in places) for places in self.rows]

    @functools.cached_property
    def classes(self) -> List[Tuple[int, ...]]:
        return [tuple(self.debts[x].cls for x in places) for places in self.rows]


def refusal(net: Net, by: str, sizes: Sequence[int]) -> Optional[str]:
    """The message of a run that reads a network, from files of so many bytes without a blank record, that passes these
    limits; None within them."""
    limits, owed = LIMITS[by], 0
    for file, size in zip(("banks", "debts"), sizes):
        if size > limits.size:
            return f"clearing: {file} row 0: file size (14)\n"
    if len(net.banks) > limits.banks:
        return f"clearing: banks row {limits.banks + 1}: too many (12)\n"
    for row, debt in enumerate(net.debts, 1):
        owed += debt.claim
        if row > limits.debts or owed > limits.owed:
            return f"clearing: debts row {row}: {'too many (12)' if row > limits.debts else 'total (13)'}\n"
    return None


# How a bank divides.

# Whether a debt of claim c with k units so far comes before one of claim d with m units, by each rule.
GOES_BEFORE = {
    "order": lambda c, k, d, m: False,
    "equal": lambda c, k, d, m: k < m,
    "losses": lambda c, k, d, m: c - k > d - m,
    "jefferson": lambda c, k, d, m: c * (m + 1) > d * (k + 1),
    "webster": lambda c, k, d, m: c * (2 * m + 1) > d * (2 * k + 1),
    "adams": lambda c, k, d, m: c * m > d * k,
}


@functools.lru_cache(maxsize=None)
def units_in_turn(rule: str, claims: Tuple[int, ...]) -> List[int]:
    """Which debt gets each unit, one after another, until all are met."""
    given, turns, goes_before = [0] * len(claims), [], GOES_BEFORE[rule]
    while given != list(claims):
        unmet = [x for x in range(len(claims)) if given[x] < claims[x]]
        best = next(x for x in unmet if not any(goes_before(claims[y], given[y], claims[x], given[x]) for y in unmet))
        given[best] += 1
        turns.append(best)
    return turns


def award(rule: str, claims: Sequence[int], units: int) -> Sequence[int]:
    if units in (0, sum(claims)):
        return claims if units else [0] * len(claims)
    turns = units_in_turn(rule, tuple(claims))[:units]
    return [turns.count(x) for x in range(len(claims))]


@functools.lru_cache(maxsize=None)
def share(rule: str, claims: Tuple[int, ...], classes: Tuple[int, ...], units: int) -> List[int]:
    shares = [0] * len(claims)
    for cls in range(1, 10):
        places = [x for x in range(len(claims)) if classes[x] == cls]
        part = min(units, sum(claims[x] for x in places))
        units -= part
        for x, given in zip(places, award(rule, [claims[x] for x in places], part)):
            shares[x] = given
    return shares


def forget() -> None:
    """Lets go of what was divided, so that many networks take no more memory than one."""
    units_in_turn.cache_clear()
    share.cache_clear()


# Payments.


def estate(net: Net, paid: List[int], i: int) -> int:
    return net.banks[i].cash + sum(paid[x] for x in net.columns[i])


def due(net: Net, i: int) -> int:
    return net.owed[i] + net.banks[i].outside


def worth(net: Net, i: int) -> int:
    return net.banks[i].cash + sum(net.debts[x].claim for x in net.columns[i])


def kept(net: Net, keep: int, i: int, has: int) -> int:
    return has if has >= due(net, i) else has * keep // 1000


def pays(net: Net, paid: List[int], i: int, keep: int = 1000) -> List[int]:
    """What a bank pays on each of its debts, where so many thousandths are kept of an estate in default."""
    units = max(0, kept(net, keep, i, estate(net, paid, i)) - net.banks[i].outside)
    if net.large:
        return net.divisions[i].share(units)
    return share(net.banks[i].rule, net.claims[i], net.classes[i], units)


def pay(net: Net, paid: List[int], keep: int = 1000) -> List[int]:
    """What all banks pay at once."""
    after = [0] * len(net.debts)
    for i in range(len(net.banks)):
        for x, given in zip(net.rows[i], pays(net, paid, i, keep)):
            after[x] = given
    return after


def put(net: Net, paid: List[int], may: List[int], x: int, to: int, keep: int = 1000) -> None:
    """Pays so much on a debt. What the others may pay stays as it was, but for what its creditor may."""
    paid[x] = to
    creditor = net.debts[x].creditor
    for y, given in zip(net.rows[creditor], pays(net, paid, creditor, keep)):
        may[y] = given


def least(net: Net, keep: int = 1000, start: Optional[List[int]] = None) -> List[int]:
    """Raises one debt as long as its debtor's rule gives more: by one unit, and by all of it where much is owed.
    Begins with nothing paid, or with payments that are known to be no more than the least."""
    if net.large:
        paid = quick.least(net, keep, start)
        assert paid == pay(net, paid, keep)
        return paid
    paid = list(start) if start else [0] * len(net.debts)
    by_units = sum(debt.claim for debt in net.debts) <= 400
    may = pay(net, paid, keep)
    rising = [x for x in range(len(paid)) if paid[x] < may[x]]
    while rising:
        x = rising[-1]
        if paid[x] == may[x]:
            rising.pop()
            continue
        put(net, paid, may, x, paid[x] + 1 if by_units else may[x], keep)
        for y in net.rows[net.debts[x].creditor]:
            assert paid[y] <= may[y]
            if paid[y] < may[y]:
                rising.append(y)
    assert paid == pay(net, paid, keep)
    return paid


def falling(net: Net, keep: int = 1000) -> Tuple[List[int], List[int]]:
    """The greatest payments, found round by round on the way down from all debts paid in full, and the round in which
    each bank is short first, or 0."""
    if net.large:
        greatest, waves = quick.falling(net, keep)
        assert greatest == pay(net, greatest, keep)
        return greatest, waves
    lists = [[debt.claim for debt in net.debts]]
    while (below := pay(net, lists[-1], keep)) != lists[-1]:
        lists.append(below)
    return lists[-1], [wave(net, lists, i) for i in range(len(net.banks))]


def wave(net: Net, lists: List[List[int]], i: int) -> int:
    short = [n for n, paid in enumerate(lists) if estate(net, paid, i) < due(net, i)]
    return short[0] + 1 if short else 0


def state(net: Net, paid: List[int], i: int) -> str:
    outside = net.banks[i].outside
    if sum(paid[x] for x in net.rows[i]) == net.owed[i] and min(outside, estate(net, paid, i)) == outside:
        return "sound"
    return "fundamental" if worth(net, i) < due(net, i) else "contagion"


def with_cash(net: Net, cash_of: Callable[[int, Bank], int]) -> "Net":
    return net.with_banks([bank._replace(cash=cash_of(i, bank)) for i, bank in enumerate(net.banks)])


def with_cash_at(net: Net, i: int, cash: int) -> "Net":
    """The network in which one bank has other cash."""
    banks = list(net.banks)
    banks[i] = banks[i]._replace(cash=cash)
    return net.with_banks(banks)


def added(net: Net, i: int, sum_added: int) -> "Net":
    return with_cash_at(net, i, net.banks[i].cash + sum_added)


def rescue(net: Net, i: int, low: Optional[List[int]] = None) -> Tuple[int, int, List[int]]:
    """The least sum that saves the bank i, and what it lacks with a unit less: all sums are tried, from 0 on. With
    more cash no less is paid, so each begins with what was paid before."""
    if net.large:
        return rescue_by_halves(net, i, low or least(net))
    sum_added = lacks = 0
    paid = None
    while True:
        richer = added(net, i, sum_added)
        paid = least(richer, start=paid)
        if state(richer, paid, i) == "sound":
            return sum_added, lacks, paid
        lacks = due(net, i) - estate(richer, paid, i)
        sum_added += 1


def rescue_by_halves(net: Net, i: int, low: List[int]) -> Tuple[int, int, List[int]]:
    """The same by halves between a sum that does not save the bank and one that does: with more cash it is no worse
    off."""
    if state(net, low, i) == "sound":
        return 0, 0, low
    paid, fails, saves = low, 0, due(net, i) - net.banks[i].cash
    while saves - fails > 1:
        middle = (fails + saves) // 2
        richer = added(net, i, middle)
        then = quick.least(richer, start=paid, richer=[i])
        if state(richer, then, i) == "sound":
            saves = middle
        else:
            paid, fails = then, middle
    lacks = due(net, i) - estate(added(net, i, fails), paid, i)
    return saves, lacks, quick.least(added(net, i, saves), start=paid, richer=[i])


def shocked(net: Net, scenario: Scenario) -> "Net":
    losses = dict(scenario.losses)
    return with_cash(net, lambda i, bank: max(0, bank.cash - bank.cash * scenario.cut // 1000 - losses.get(i, 0)))


def breaking(net: Net) -> List[Tuple[int, str]]:
    """The least cut that breaks each bank, and its state then: all cuts are tried, from the greatest down. A milder
    one lowers no payment, so each begins with what was paid before. Cuts that leave the same cash leave the same."""
    found, paid, before, states = [(1001, "sound")] * len(net.banks), None, None, []
    for cut in range(1000, -1, -1):
        left = shocked(net, Scenario("", cut, []))
        if left.banks != before:
            paid, before = least(left, start=paid), left.banks
            states = [state(left, paid, i) for i in range(len(net.banks))]
        found = [(cut, told) if told != "sound" else at for at, told in zip(found, states)]
    return found


def ruins(net: Net) -> Iterator[Tuple["Net", List[int]]]:
    """Of each bank the network in which it has no cash, and the least payments there."""
    banks = range(len(net.banks))
    if net.large:
        yield from ruins_by_blocks(net, banks)
        return
    for j in banks:
        ruined = with_cash_at(net, j, 0)
        yield ruined, least(ruined)


def ruins_by_blocks(net: Net, banks: Any) -> Iterator[Tuple["Net", List[int]]]:
    """The same by blocks of banks: each clearing begins with what is paid where all of the block have no cash."""
    size = int(len(banks) ** 0.5)
    for first in range(0, len(banks), size):
        block = banks[first : first + size]
        start = quick.least(with_cash(net, lambda i, bank: 0 if i in block else bank.cash))
        for j in block:
            ruined = with_cash_at(net, j, 0)
            yield ruined, quick.least(ruined, start=start, richer=[i for i in block if i != j])


def keeps(net: Net, paid: List[int], i: int) -> int:
    """What a bank does not pay on its debts."""
    return estate(net, paid, i) - sum(paid[x] for x in net.rows[i])


def verdict(net: Net, raises: Raises) -> Tuple[str, int, List[int]]:
    """The verdict on raises (stamp, debt, to), as it is printed, its status, and the payments at its end."""
    paid, last, has = [0] * len(net.debts), 0, [bank.cash for bank in net.banks]
    at = {x: place for places in net.rows for place, x in enumerate(places)}
    for entry, (stamp, x, to) in enumerate(raises, 1):
        if stamp < last:
            return f"falls,{entry},{last},{stamp}\n", 7, paid
        debtor, creditor = net.debts[x].debtor, net.debts[x].creditor
        if net.large:
            may = net.divisions[debtor].share(quick.divides(net, 1000, debtor, has[debtor]))
        else:
            may = pays(net, paid, debtor)
        allowed = may[at[x]]
        if to <= paid[x] or to > allowed:
            return f"unlawful,{entry},{paid[x]},{allowed}\n", 7, paid
        has[creditor] += to - paid[x]
        paid[x], last = to, stamp
    may = pay(net, paid)
    for i, bank in enumerate(net.banks):
        if any(paid[x] != may[x] for x in net.rows[i]):
            return f"unfinished,{bank.name}\n", 7, paid
    return f"lawful,{len(raises)}\n", 0, paid


# Texts.


def line(*fields: object) -> str:
    return ",".join(str(field) for field in fields) + "\n"


def debt_fields(net: Net, debt: Debt) -> Tuple[str, str, int]:
    return net.banks[debt.debtor].name, net.banks[debt.creditor].name, debt.cls


def payments_text(net: Net, paid: List[int]) -> str:
    return line("debtor", "creditor", "class", "claim", "paid") + "".join(
        line(*debt_fields(net, debt), debt.claim, paid[x]) for x, debt in enumerate(net.debts)
    )


def defaults_text(net: Net, paid: List[int]) -> str:
    shown = any(bank.outside for bank in net.banks)
    text = line("bank", "estate", *(["outside_paid"] if shown else []), "paid", "owed", "equity", "state")
    totals, defaults = [0] * 5, 0
    for i, bank in enumerate(net.banks):
        has = estate(net, paid, i)
        outside = min(bank.outside, has)
        pays = sum(paid[x] for x in net.rows[i])
        numbers = [has, outside, pays, net.owed[i], has - outside - pays]
        totals = [a + b for a, b in zip(totals, numbers)]
        defaults += state(net, paid, i) != "sound"
        text += line(bank.name, *(numbers if shown else numbers[:1] + numbers[2:]), state(net, paid, i))
    return text + line("total", *(totals if shown else totals[:1] + totals[2:]), defaults) + cash_line(net)


def cash_line(net: Net) -> str:
    return line("cash", sum(bank.cash for bank in net.banks))


def bounds_text(net: Net) -> str:
    low, (greatest, waves) = least(net), falling(net)
    text = line("debtor", "creditor", "class", "claim", "least", "greatest")
    for x, debt in enumerate(net.debts):
        text += line(*debt_fields(net, debt), debt.claim, low[x], greatest[x])
    text += "\n" + line("bank", "wave", "gridlock", "equity")
    for i, bank in enumerate(net.banks):
        has, round_of = estate(net, low, i), waves[i]
        gridlock = "yes" if state(net, low, i) != "sound" and round_of == 0 else "no"
        equity = has - min(bank.outside, has) - sum(low[x] for x in net.rows[i])
        text += line(bank.name, round_of, gridlock, equity)
    return text


def cost_standing(net: Net, keep: int, paid: List[int], i: int) -> Tuple[List[int], str]:
    """What a bank has, loses, pays outside, pays on its debts and keeps, and its state."""
    has = estate(net, paid, i)
    left = kept(net, keep, i, has)
    outside, on_debts = min(net.banks[i].outside, left), sum(paid[x] for x in net.rows[i])
    health = "sound" if has >= due(net, i) else "fundamental" if worth(net, i) < due(net, i) else "contagion"
    return [has, has - left, outside, on_debts, left - outside - on_debts], health


def costs_text(net: Net, keep: int) -> str:
    paid = least(net, keep)
    text = payments_text(net, paid) + "\n" + line("bank", "estate", "lost", "outside_paid", "paid", "equity", "state")
    totals, defaults = [0] * 5, 0
    for i, bank in enumerate(net.banks):
        numbers, health = cost_standing(net, keep, paid, i)
        totals = [a + b for a, b in zip(totals, numbers)]
        defaults += health != "sound"
        text += line(bank.name, *numbers, health)
    return text + line("total", *totals, defaults) + cash_line(net)


def cost_bounds_text(net: Net, keep: int) -> str:
    ends = least(net, keep), falling(net, keep)[0]
    text = line("debtor", "creditor", "class", "claim", "least", "greatest")
    for x, debt in enumerate(net.debts):
        text += line(*debt_fields(net, debt), debt.claim, *(paid[x] for paid in ends))
    text += "\n" + line(
        "bank", *(f"{what}_at_{end}" for end in ("least", "greatest") for what in ("lost", "equity", "state"))
    )
    for i, bank in enumerate(net.banks):
        fields = []
        for paid in ends:
            (_, lost, _, _, equity), health = cost_standing(net, keep, paid, i)
            fields += [lost, equity, health]
        text += line(bank.name, *fields)
    return text


def breaking_text(net: Net) -> str:
    return line("bank", "cut", "state") + "".join(
        line(bank.name, *told) for bank, told in zip(net.banks, breaking(net))
    )


def impact_text(net: Net) -> str:
    paid, first, second = (
        least(net),
        line("bank", "cash", "own", "others", "falls"),
        line("bank", "of", "lost", "falls"),
    )
    for j, (ruined, then) in enumerate(ruins(net)):
        # Of a large network those banks alone for which anything is other.
        banks = sorted({j} | quick.touched(net, paid, then)) if net.large else range(len(net.banks))
        lost = {i: keeps(net, paid, i) - keeps(ruined, then, i) for i in banks}
        falls = {i: state(net, paid, i) == "sound" != state(ruined, then, i) for i in banks}
        others, fallen = sum(lost.values()) - lost[j], sum(falls.values()) - falls[j]
        first += line(net.banks[j].name, net.banks[j].cash, lost[j], others, fallen)
        for i in banks:
            if lost[i] or falls[i]:
                second += line(net.banks[j].name, net.banks[i].name, lost[i], "yes" if falls[i] else "no")
    return first + "\n" + second


def rescues_text(net: Net, found: Dict[int, Tuple[int, int, List[int]]]) -> str:
    """`found` has what rescue() tells of each bank in default."""
    paid, first, second = least(net), line("bank", "added", "short", "also_saved", "still_short"), line("bank", "saves")
    fallen = [i for i in range(len(net.banks)) if state(net, paid, i) != "sound"]
    for i in fallen:
        sum_added, lacks, then = found[i]
        saved_one = added(net, i, sum_added)
        if net.large:
            # Nobody is worse off, and of the others those alone are better off to whom or by whom more is paid.
            better = {i} | quick.touched(net, paid, then)
            still = [j for j in fallen if j not in better or state(saved_one, then, j) != "sound"]
        else:
            still = [j for j in range(len(net.banks)) if state(saved_one, then, j) != "sound"]
        saved = [j for j in fallen if j != i and j not in still]
        first += line(net.banks[i].name, sum_added, lacks, len(saved), len(still))
        second += "".join(line(net.banks[i].name, net.banks[j].name) for j in saved)
    return first + "\n" + second


def outcomes_text(net: Net, scenarios: List[Scenario]) -> str:
    text = line("scenario", "cash", "paid", "outside_paid", "equity", "defaults", "fundamental")
    banks = range(len(net.banks))
    fallen, own = [0] * len(banks), [0] * len(banks)
    for scenario in scenarios:
        left = shocked(net, scenario)
        paid = least(left)
        states = [state(left, paid, i) for i in banks]
        outside = sum(min(bank.outside, estate(left, paid, i)) for i, bank in enumerate(left.banks))
        equity = sum(keeps(left, paid, i) for i in banks) - outside
        defaults, fundamental = len(banks) - states.count("sound"), states.count("fundamental")
        text += line(
            scenario.name, sum(bank.cash for bank in left.banks), sum(paid), outside, equity, defaults, fundamental
        )
        fallen = [n + (told != "sound") for n, told in zip(fallen, states)]
        own = [n + (told == "fundamental") for n, told in zip(own, states)]
    text += "\n" + line("bank", "defaults", "fundamental")
    return text + "".join(line(bank.name, fallen[i], own[i]) for i, bank in enumerate(net.banks))


def rescue_text(net: Net, i: int, low: Optional[List[int]] = None) -> str:
    sum_added, lacks, paid = rescue(net, i, low)
    return line("rescue", net.banks[i].name, sum_added) + line("short", lacks) + "\n" + payments_text(net, paid)


def stress_text(net: Net, scenarios: List[Scenario]) -> str:
    blocks = []
    for scenario in scenarios:
        left = shocked(net, scenario)
        paid = least(left)
        blocks.append(line("scenario", scenario.name) + payments_text(left, paid) + defaults_text(left, paid))
    return "\n".join(blocks)


def banks_text(net: Net, second: bool) -> str:
    extra = lambda bank: [bank.outside] if second else []
    return line("name", "cash", "rule", *(["outside"] if second else [])) + "".join(
        line(bank.name, bank.cash, bank.rule, *extra(bank)) for bank in net.banks
    )


def debts_text(net: Net) -> str:
    return line("debtor", "creditor", "class", "claim") + "".join(
        line(*debt_fields(net, debt), debt.claim) for debt in net.debts
    )


def counts_text(net: Net) -> str:
    owed_by_all = sum(debt.claim for debt in net.debts)
    return line("banks", len(net.banks)) + line("debts", len(net.debts)) + line("owed", owed_by_all) + cash_line(net)


def gen_text(net: Net) -> str:
    paid = least(net)
    equity = sum(estate(net, paid, i) - sum(paid[x] for x in net.rows[i]) for i in range(len(net.banks)))
    defaults = sum(state(net, paid, i) != "sound" for i in range(len(net.banks)))
    return counts_text(net) + line("paid", sum(paid)) + line("defaults", defaults) + line("equity", equity)


def check_text(net: Net) -> str:
    return counts_text(net) + "\n" + banks_text(net, any(bank.outside for bank in net.banks)) + "\n" + debts_text(net)


def journal_text(net: Net, raises: Raises, rounds: Optional[int]) -> str:
    text = line("stamp", "debtor", "creditor", "class", "to")
    for stamp, x, to in raises:
        text += line(stamp, *debt_fields(net, net.debts[x]), to)
    return text + (line("rounds", rounds) if rounds is not None else "")
