"""Random networks for tests/system/compare.py, the jobs that are tried on each, and what the program must print by
tests/system/model.py."""
import collections
import itertools
import random
from typing import Any, Dict, Iterator, List, Optional, Set, Tuple

from model import (
    LIMITS,
    RULES,
    Bank,
    Debt,
    Net,
    Raises,
    Scenario,
    banks_text,
    bounds_text,
    breaking_text,
    check_text,
    cost_bounds_text,
    costs_text,
    debt_fields,
    debts_text,
    defaults_text,
    due,
    gen_text,
    impact_text,
    journal_text,
    least,
    line,
    outcomes_text,
    pay,
    payments_text,
    put,
    refusal,
    rescue,
    rescue_text,
    rescues_text,
    state,
    stress_text,
    verdict,
)

NAMES = [
    "A",
    "B",
    "Crédit Loire",
    "銀行",
    "x y",
    "o'Hara",
    "a\\b",
    "rounds",
    "total",
    "-dash",
    "#1",
    "[scenario]",
    "=",
    "7",
    "name",
    "order",
    "n" * 64,
    "é" * 32,
    "\u00a0nbsp",
    "a;b",
    "A ",
    " A",
    "b" * 63,
]
MOST_CLAIMED = 1_000_000  # of one debt
Case = Tuple[List[str], str, int]
"""The words of a run, its text and its status."""


# Random networks, and files that say the same in another dress.


def random_net(rng: random.Random, size: int) -> Net:
    odd = [name for name in NAMES if name == name.strip(" ")]
    names = rng.sample(odd + [f"N{i}" for i in range(size - 8)], size)
    most = rng.choice([1, 3, 8, 25])
    rule = rng.choice(RULES + [None, None])
    outside = rng.random() < 0.5
    banks = [
        Bank(
            name,
            rng.choice([0, 0, rng.randint(0, most), rng.randint(0, 2 * most)]),
            rule or rng.choice(RULES),
            rng.choice([0, rng.randint(0, most)]) if outside else 0,
        )
        for name in names
    ]
    debts, seen = [], set()
    last = rng.choice([1, 3, 3, 9])
    for _ in range(rng.choice([0, 3, 10, 20, 30] if size <= 8 else [size, 3 * size, 6 * size])):
        key = (rng.randrange(len(banks)), rng.randrange(len(banks)), rng.randint(1, last))
        if key[0] != key[1] and key not in seen:
            seen.add(key)
            debts.append(Debt(*key, rng.randint(0, most)))
    return Net(banks, debts)


def ring_net(rng: random.Random, size: int) -> Net:
    """Few units that go round one or two rings, with a chord here and there."""
    claim = rng.choice([1, 2, 5])
    order = rng.choice([list(range(size)), list(range(size))[::-1], rng.sample(range(size), size)])
    cut = rng.choice([size, rng.randint(2, size - 2)])
    keys = [
        (order[i], order[start + (i + 1 - start) % count], 1)
        for start, count in [(0, cut), (cut, size - cut)]
        for i in range(start, start + count)
    ]
    keys += [(rng.randrange(size), rng.randrange(size), 2) for _ in range(rng.choice([0, 1, size // 4]))]
    debts = [Debt(*key, claim) for key in dict.fromkeys(keys) if key[0] != key[1]]
    rng.shuffle(debts)
    rich = rng.sample(range(size), rng.randint(0, 2))
    return Net(
        [Bank(f"N{i}", int(i in rich), rng.choice(RULES), rng.choice([0, 0, 0, 0, 1])) for i in range(size)], debts
    )


def wide_net(rng: random.Random) -> Net:
    """One bank with many debts of up to some hundred units, so that its rule has much to round."""
    count = rng.randint(4, 8)
    most = rng.choice([30, 100, 400])
    debts = [
        Debt(0, creditor, cls, rng.choice([rng.randint(0, most), most, most // 2]))
        for cls in range(1, 4)
        for creditor in range(1, count)
        if rng.random() < 0.8
    ]
    debts.append(Debt(1, 0, 1, rng.randint(0, most)))
    rng.shuffle(debts)
    rules = [rng.choice(RULES) for _ in range(count)]
    debt_of_first = sum(debt.claim for debt in debts if debt.debtor == 0)
    banks = [
        Bank(name, rng.randint(0, debt_of_first) if i == 0 else rng.choice([0, most]), rules[i], 0)
        for i, name in enumerate(rng.sample(NAMES[:8], count))
    ]
    return Net(banks, debts)


# Networks at the edge of the standard limits and beyond: by their banks, by their debts, or by what is owed. Most money
# is short.


def net_of_many_banks(rng: random.Random) -> Net:
    """1,000 to 1,200 banks, each of which owes some that follow."""
    size = rng.choice([1_000, 1_001, rng.randint(1_001, 1_200)])
    debtors = [i for i in range(size) for _ in range(rng.randint(0, 3))]
    keys = {(i, (i + rng.choice([1, 1, 2, 7, size // 2])) % size, rng.randint(1, 3)) for i in debtors}
    banks = [Bank(f"N{i}", rng.choice([0, 0, 1, 3]), rng.choice(RULES), rng.choice([0, 0, 0, 1])) for i in range(size)]
    return Net(banks, [Debt(*key, rng.randint(0, 4)) for key in rng.sample(sorted(keys), len(keys))])


def net_of_many_debts(rng: random.Random) -> Net:
    """20,000 debts or some more, of 150 to 200 banks in all classes."""
    size, count = rng.randint(150, 200), rng.choice([20_000, 20_001, rng.randint(20_001, 20_100)])
    return spread_net(rng, size, count, rng.choice([2, 10, 60]))


def net_of_much_owed(rng: random.Random, total: Optional[int] = None) -> Net:
    """Two banks owe 10,000,000 units to 25,000,000 together in claims of up to a million, and have a part of that. The
    others owe little."""
    others = random_net(rng, 8)
    first = len(others.banks)
    total = total or rng.choice([10_000_000, 10_000_001, rng.randint(10_000_001, 25_000_000)])
    keys = list(itertools.product((first, first + 1), range(first), range(1, 10)))
    debts, left = list(others.debts), total - sum(others.owed)
    rng.shuffle(keys)
    while left:
        claim = min(left, rng.choice([MOST_CLAIMED, rng.randint(500_000, MOST_CLAIMED)]))
        debts.append(Debt(*keys.pop(), claim))
        left -= claim
    rng.shuffle(debts)
    more = [
        Bank(name, rng.choice([0, rng.randint(0, total), total]), rng.choice(RULES), rng.choice([0, 7]))
        for name in ("first", "second")
    ]
    return Net([*others.banks, *more], debts)


def spread_net(rng: random.Random, size: int, count: int, most: int) -> Net:
    """So many banks and debts of up to so many units, where banks have some part of what they owe in cash."""
    keys, last, near = {}, rng.choice([3, 9]), rng.random()
    while len(keys) < count:
        debtor = rng.randrange(size)
        creditor = (debtor + rng.randint(1, 40)) % size if rng.random() < near else rng.randrange(size)
        if debtor != creditor:
            cls = rng.randint(1, last if len(keys) < count // 2 else 9)
            keys[debtor, creditor, cls] = rng.randint(0, most)
    part = int(most * count / size * rng.choice([0.05, 0.4, 0.9]))
    banks = [
        Bank(f"N{i}", rng.choice([0, rng.randint(0, part)]), rng.choice(RULES), rng.choice([0, 0, 0, most]))
        for i in range(size)
    ]
    return Net(banks, [Debt(*key, claim) for key, claim in keys.items()])


def larger_net(rng: random.Random) -> Net:
    """Some thousand banks and some ten thousand debts."""
    return spread_net(rng, rng.randint(1_201, 4_000), rng.randint(5_000, 80_000), rng.choice([3, 40, 300]))


def net_at_the_wide_limits(rng: random.Random) -> Tuple[Net, Optional[List[Optional[int]]]]:
    """As many banks, debts or units as the wide limits allow, or one more; and files as long as they may be by either
    limits, or longer by a byte. Tells the bytes of both files too, or that they are as they are printed."""
    kind, more, limits = rng.choice(["banks", "debts", "owed", "size"]), rng.choice([0, 0, 1]), LIMITS["wide"]
    if kind == "banks":
        return spread_net(rng, limits.banks + more, rng.randint(15_000, 40_000), rng.choice([3, 40, 300])), None
    if kind == "debts":
        return spread_net(rng, rng.randint(2_000, limits.banks), limits.debts + more, rng.choice([3, 1])), None
    if kind == "owed":
        return net_of_much_owed(rng, limits.owed + more), None
    sizes = [LIMITS[rng.choice(["standard", "wide"])].size + more, None]
    return random_net(rng, 8), sizes if rng.random() < 0.5 else sizes[::-1]


EDGES = [net_of_many_banks, net_of_many_debts, net_of_much_owed]


def beyond_net(rng: random.Random) -> Tuple[Net, Optional[List[Optional[int]]]]:
    """A network at the edge of the standard limits or beyond, and the bytes of its files where these are told. One in
    ten is larger, and one in twenty is at the edge of the wide limits."""
    drawn = rng.random()
    if drawn < 0.05:
        return net_at_the_wide_limits(rng)
    return larger_net(rng) if drawn < 0.15 else rng.choice(EDGES)(rng), None


def generated_words(seed: int) -> Iterator[int]:
    """The successive words of PCG32 on the stream 0 (O'Neill 2014)."""
    mask, state = 2**64 - 1, 0
    step = lambda state: (state * 6364136223846793005 + 1) & mask
    state = step((step(state) + seed) & mask)
    while True:
        mixed, turn = (((state >> 18) ^ state) >> 27) & 0xFFFFFFFF, state >> 59
        yield ((mixed >> turn) | (mixed << (32 - turn))) & 0xFFFFFFFF
        state = step(state)


def generated(seed: int, size: int, tries: int) -> Net:
    words = generated_words(seed)
    banks = [Bank(f"N{i}", next(words) % 2000, RULES[next(words) % 6], 0) for i in range(size)]
    debts, seen = [], set()
    for _ in range(tries):
        key = (next(words) % size, next(words) % size, 1 + next(words) % 3)
        claim = 1 + next(words) % 500
        if key[0] != key[1] and key not in seen:
            seen.add(key)
            debts.append(Debt(*key, claim))
    return Net(banks, debts)


def dressed(rng: random.Random, text: str, numbers: Set[int]) -> bytes:
    """A file of records as it is printed, or with other line ends, quotes, blanks, zeros and blank records."""
    lines = text.splitlines()
    if rng.random() < 0.5:
        return text.encode()
    end, out = rng.choice(["\n", "\r\n", "\r"]), []
    for n, record in enumerate(lines):
        fields = record.split(",")
        for place, field in enumerate(fields):
            if n and place in numbers and field.isdigit() and rng.random() < 0.2:
                field = field.rjust(rng.randint(len(field), 20), "0")
            blanks = rng.choice(["", "", "", " ", "\t", " \t "])
            field = rng.choice([blanks, ""]) + field + blanks
            fields[place] = '"' + field + '"' if rng.random() < 0.2 else field
        out.append(",".join(fields))
        if rng.random() < 0.1:
            out.append(rng.choice(["", ",", ",,,", '""', " , ,\t"]))
    mark = "\ufeff" if rng.random() < 0.3 else ""
    return (mark + end.join(out) + (end if rng.random() < 0.5 else "")).encode()


def random_scenarios(rng: random.Random, net: Net) -> List[Scenario]:
    scenarios = []
    for _ in range(rng.randint(0, 4)):
        hit = rng.sample(range(len(net.banks)), rng.randint(0, min(3, len(net.banks))))
        scenarios.append(
            Scenario(
                rng.choice(NAMES),
                rng.choice([0, 1, 333, 500, 999, 1000]),
                [(i, rng.choice([0, 1, rng.randint(0, 20), 10**12])) for i in hit],
            )
        )
    return scenarios


def toml_string(text: str) -> str:
    return '"' + text.replace("\\", "\\\\").replace('"', '\\"') + '"'


def scenarios_toml(net: Net, scenarios: List[Scenario]) -> str:
    text = ""
    for scenario in scenarios:
        text += f"[[scenario]]\nname = {toml_string(scenario.name)}\n"
        if scenario.cut:
            text += f"cut = {scenario.cut}\n"
        for i, amount in scenario.losses:
            text += f"[[scenario.loss]]\nbank = {toml_string(net.banks[i].name)}\namount = {amount}\n"
    return text


def random_journal(rng: random.Random, net: Net) -> Raises:
    """A lawful history that ends at the least payments, made by raises in some order."""
    paid, raises, stamp = [0] * len(net.debts), [], rng.choice([0, 0, 5])
    may = pay(net, paid)
    while rising := [x for x in range(len(paid)) if paid[x] < may[x]]:
        x = rng.choice(rising)
        put(net, paid, may, x, rng.choice([may[x], rng.randint(paid[x] + 1, may[x])]))
        raises.append((stamp, x, paid[x]))
        stamp += rng.choice([0, 0, 1, 3])
    return raises


def changed_journal(rng: random.Random, net: Net, raises: Raises) -> Raises:
    raises = list(raises)
    for _ in range(rng.randint(1, 2)):
        if not raises:
            break
        at = rng.randrange(len(raises))
        stamp, x, to = raises[at]
        kind = rng.randrange(6)
        if kind == 0:
            del raises[at]
        elif kind == 1:
            raises[at] = (stamp, x, to + 1)
        elif kind == 2:
            raises[at] = (stamp, x, max(0, to - 1))
        elif kind == 3:
            raises[at] = (max(0, stamp - 1), x, to)
        elif kind == 4:
            other = rng.randrange(len(raises))
            raises[at], raises[other] = raises[other], raises[at]
        else:
            raises[at] = (stamp, rng.randrange(len(net.debts)), to)
    return raises


# What is tried of a network.


def drawn_net(rng: random.Random) -> Net:
    """A network of 2 to 8 banks, now and then of 9 to 30, and seldom of 200."""
    drawn = rng.random()
    if drawn < 0.003:
        return random_net(rng, 200)
    if drawn < 0.11:
        size = rng.randint(9, 30)
        return rng.choice([random_net, random_net, ring_net])(rng, size)
    return wide_net(rng) if drawn < 0.3 else random_net(rng, rng.randint(2, 8))


def fallen_of(net: Net, low: List[int]) -> List[int]:
    """The banks in default."""
    return [i for i in range(len(net.banks)) if state(net, low, i) != "sound"]


def further_cases(
    rng: random.Random, net: Net, low: List[int], files: List[str], scenarios: List[Scenario]
) -> List[Case]:
    """Cases that clear a network many times over. Where the model would take long, only some of them."""
    cases = [(["outcomes", *files, "--scenarios", "scenarios.toml"], outcomes_text(net, scenarios), 0)]
    if len(net.banks) <= 30:
        cases.append((["impact", *files], impact_text(net), 0))
    if len(net.banks) <= 8 and rng.random() < 0.2:
        cases.append((["breaking", *files], breaking_text(net), 0))
    fallen = fallen_of(net, low)
    if all(due(net, i) - net.banks[i].cash <= 100 for i in fallen):
        cases.append((["rescues", *files], rescues_text(net, {i: rescue(net, i, low) for i in fallen}), 0))
    return cases


def limits(rng: random.Random) -> List[str]:
    """The option of limits, or none."""
    return rng.choice([[], [], ["--limits", "standard"], WIDE])


FILES = ["--banks", "banks.csv", "--debts", "debts.csv"]


def workers(rng: random.Random) -> str:
    """A number of workers: of some, or of as many as there may be."""
    return str(rng.choice([rng.randint(1, 9), rng.randint(1, 64)]))


def plan(rng: random.Random) -> List[str]:
    """The option of workers or that of sweeps, or none."""
    return rng.choice([[], ["--workers", workers(rng)], ["--sweeps", str(rng.choice([1, 2, 7, 1000]))]])


def cases_of_one_answer(rng: random.Random, net: Net, low: List[int], scenarios: List[Scenario]) -> List[Case]:
    """Cases that clear a network a few times at most."""
    cases = [
        (["clear", *FILES, *plan(rng)], payments_text(net, low), 0),
        (["central", *FILES], payments_text(net, low), 0),
        (["defaults", *FILES, *plan(rng)], defaults_text(net, low), 0),
        (["bounds", *FILES, *plan(rng)], bounds_text(net), 0),
        (["stress", *FILES, "--scenarios", "scenarios.toml", *plan(rng)], stress_text(net, scenarios), 0),
        (["check", *FILES], check_text(net), 0),
        (["convert", *FILES], banks_text(net, True), 0),
    ]
    for keep in [1000, rng.choice([0, 1, 999]), rng.randint(0, 1000)]:
        cases.append((["costs", *FILES, "--keep", str(keep)], costs_text(net, keep), 0))
        cases.append((["cost-bounds", *FILES, "--keep", str(keep)], cost_bounds_text(net, keep), 0))
    return cases


def rescue_cases(rng: random.Random, net: Net) -> List[Case]:
    """Rescues of up to three banks, where they do not lack much: the model tries each sum. A name that begins with a
    dash cannot be said."""
    cases = []
    for i in rng.sample(range(len(net.banks)), min(3, len(net.banks))):
        name = net.banks[i].name
        if due(net, i) - net.banks[i].cash > 100:
            continue
        words = ["rescue", *FILES, "--bank", name, *plan(rng)]
        cases.append((words, "", 2) if name.startswith("-") else (words, rescue_text(net, i), 0))
    return cases


def generated_cases(rng: random.Random) -> List[Case]:
    """A network that the program makes, and that no limits are said of it."""
    seed, size = rng.choice([rng.randrange(100), rng.randrange(2**64)]), (
        rng.randint(1, 8) if rng.random() < 0.9 else rng.randint(9, 40)
    )
    tries = rng.randint(0, 5 * size)
    made = ["gen", "--seed", str(seed), "--size", str(size), "--tries", str(tries), *plan(rng)]
    text = gen_text(generated(seed, size, tries))
    return [(made, text, 0), ([*made, "--limits", rng.choice(["standard", "wide"])], "", 2)]


def journals_and_cases(rng: random.Random, net: Net, low: List[int]) -> Tuple[Dict[str, bytes], List[Case]]:
    """Four journals by their names, the first of which is lawful and ends at the least payments, and their replays."""
    texts, cases, raises = {}, [], random_journal(rng, net)
    for n in range(4):
        tried = raises if n == 0 else changed_journal(rng, net, raises)
        text, status, paid = verdict(net, tried)
        assert n or (status == 0 and paid == low)
        rounds = rng.choice([None, 0, 12])
        texts[f"journal{n}.csv"] = dressed(rng, journal_text(net, tried, rounds), {0, 4})
        text += "" if status else "\n" + payments_text(net, paid)
        cases.append((["replay", *FILES, "--journal", f"journal{n}.csv"], text, status))
    return texts, cases


def files_and_cases(rng: random.Random, net: Net) -> Tuple[Dict[str, bytes], List[Any], List[str], List[str]]:
    """The files of a network by their names, and its cases: the words of a run, its text, and its status. Then the
    words of two runs that are judged, since more than one answer is right: of a journal, and of a compression."""
    second = any(bank.outside for bank in net.banks) or rng.random() < 0.3
    scenarios = random_scenarios(rng, net)
    texts = {
        "banks.csv": dressed(rng, banks_text(net, second), {1, 3}),
        "debts.csv": dressed(rng, debts_text(net), {3}),
        "scenarios.toml": scenarios_toml(net, scenarios).encode(),
    }
    low = least(net)
    cases = cases_of_one_answer(rng, net, low, scenarios)
    cases += further_cases(rng, net, low, FILES, scenarios)
    cases += rescue_cases(rng, net)
    cases += generated_cases(rng)
    journals, replays = journals_and_cases(rng, net, low)
    # Within the standard limits both give the same.
    cases = [(words + limits(rng) if words[0] != "gen" else words, *told) for words, *told in cases + replays]
    shown = ["clear", *FILES, *limits(rng), "--show", "journal", "--workers", workers(rng)]
    shown += ["--sweeps", str(rng.choice([1, 1, 2, 7, 1000]))]
    return {**texts, **journals}, cases, shown, ["compress", *FILES]


STANDARD, WIDE = ["--limits", "standard"], ["--limits", "wide"]


def many_times(net: Net) -> bool:
    """Whether the model tries a network as often as it has banks, cuts or banks in default."""
    return len(net.banks) <= 1_200 and len(net.debts) <= 20_100


def files_beyond(
    rng: random.Random, net: Net, sizes: Optional[List[Optional[int]]]
) -> Tuple[Dict[str, bytes], List[Scenario]]:
    """The files of a network by their names, of so many bytes where these are told: lines without a byte are no
    records."""
    second = any(bank.outside for bank in net.banks) or rng.random() < 0.3
    scenarios = random_scenarios(rng, net)[: 2 if many_times(net) else 1]
    texts = {
        "banks.csv": banks_text(net, second).encode(),
        "debts.csv": debts_text(net).encode(),
        "scenarios.toml": scenarios_toml(net, scenarios).encode(),
        "none.csv": b"stamp,debtor,creditor,class,to\n",
    }
    for name, size in zip(("banks.csv", "debts.csv"), sizes or ()):
        texts[name] += b"\n" * ((size or 0) - len(texts[name]))
    return texts, scenarios


def files_and_cases_beyond(
    rng: random.Random, net: Net, sizes: Optional[List[Optional[int]]] = None
) -> Tuple[Dict[str, bytes], List[Any], Optional[List[str]], List[str]]:
    """The same of a network at the edge of the standard limits or beyond. Each task is refused, or answers, as the
    limits are that it reads by. `shown` is None where the wide limits refuse the network."""
    texts, scenarios = files_beyond(rng, net, sizes)
    files = ["--banks", "banks.csv", "--debts", "debts.csv"]
    third, keep = ["--scenarios", "scenarios.toml"], ["--keep", str(rng.randint(0, 1000))]
    how = lambda: rng.choice([[], ["--workers", str(rng.randint(1, 64))], ["--sweeps", "7"]])
    saved = rng.choice([i for i, bank in enumerate(net.banks) if not bank.name.startswith("-")])
    # What each task prints, and its status where that is not 0, to be made where it is wanted.
    told = [
        (["clear", *files, *how()], lambda low: payments_text(net, low)),
        (["central", *files], lambda low: payments_text(net, low)),
        (["defaults", *files, *how()], lambda low: defaults_text(net, low)),
        (["bounds", *files, *how()], lambda low: bounds_text(net)),
        (["stress", *files, *third, *how()], lambda low: stress_text(net, scenarios)),
        (["outcomes", *files, *third], lambda low: outcomes_text(net, scenarios)),
        (["costs", *files, *keep], lambda low: costs_text(net, int(keep[1]))),
        (["cost-bounds", *files, *keep], lambda low: cost_bounds_text(net, int(keep[1]))),
        (["check", *files], lambda low: check_text(net)),
        (["convert", *files], lambda low: banks_text(net, True)),
        (["rescue", *files, "--bank", net.banks[saved].name, *how()], lambda low: rescue_text(net, saved, low)),
        (["replay", *files, "--journal", "none.csv"], lambda low: replay_of(net, [])),
        (["impact", *files], lambda low: impact_text(net)),
        (["breaking", *files], lambda low: breaking_text(net)),
        (["rescues", *files], lambda low: rescues_text(net, {i: rescue(net, i, low) for i in fallen_of(net, low)})),
    ]
    compress, long = ["compress", *files], () if many_times(net) else ("impact", "breaking", "rescues")
    bytes_of = [len(texts[name]) for name in ("banks.csv", "debts.csv")]
    refused = {by: refusal(net, by, bytes_of) for by in LIMITS}
    low, cases = None if refused["wide"] else least(net), []
    for words, text_of in told:
        left_out = low is None or words[0] in long
        answer = None if left_out else text_of(low)
        answer = answer if isinstance(answer, tuple) else (answer, 0)
        for by, asked in (("standard", words + rng.choice([[], STANDARD])), ("wide", words + WIDE)):
            if refused[by]:
                cases.append((asked, "", 4, refused[by]))
            elif not left_out:
                cases.append((asked, *answer))
    for by, option in (("standard", []), ("wide", WIDE)):
        if refused[by]:
            cases.append((compress + option, "", 4, refused[by]))
    shown = ["clear", *files, "--show", "journal", "--workers", str(rng.randint(1, 9)), *WIDE]
    return texts, cases, None if refused["wide"] else shown, compress + WIDE


# Answers of which more than one is right.


def balances(net: Net) -> Any:
    """What each bank is owed in each class, less what it owes."""
    sums = collections.Counter()
    for debt in net.debts:
        sums[debt.cls, debt.creditor] += debt.claim
        sums[debt.cls, debt.debtor] -= debt.claim
    return sums


def judge_compression(net: Net, text: str) -> Optional[str]:
    """What is wrong with a compression, as it is printed; None where it is right."""
    parts = text.split("\n\n")
    if len(parts) != 2:
        return "the text has not two parts"
    claims = [int(record.split(",")[3]) for record in parts[0].splitlines()[1:]]
    left = net._replace(debts=[debt._replace(claim=claim) for debt, claim in zip(net.debts, claims)])
    if len(claims) != len(net.debts) or parts[0] + "\n" != debts_text(left):
        return "the debts are others"
    if any(new.claim > old.claim for new, old in zip(left.debts, net.debts)):
        return "a claim has risen"
    ranks = {}
    expected = line("class", "bank", "rank")
    cancelled = sum(debt.claim for debt in net.debts) - sum(claims)
    by_name = {bank.name: i for i, bank in enumerate(net.banks)}
    for record in parts[1].splitlines()[1:-1]:
        cls, name, rank = record.split(",")
        ranks[int(cls), by_name[name]] = int(rank)
    if balances(net) != balances(left):
        return "the balance of a bank is another"
    highest = collections.Counter()
    for debt in left.debts:
        if debt.claim:
            at = debt.cls, debt.creditor
            highest[at] = max(highest[at], ranks.get((debt.cls, debt.debtor), 0) + 1)
    for cls in sorted({debt.cls for debt in net.debts}):
        for i, bank in enumerate(net.banks):
            expected += line(cls, bank.name, highest[cls, i])
    if parts[1] != expected + line("cancelled", cancelled):
        return "the ranks or the sum are wrong"
    return None


def raises_of(net: Net, lines: List[str]) -> Raises:
    """The raises of a journal, as it is printed."""
    places = {debt_fields(net, debt): x for x, debt in enumerate(net.debts)}
    raises = []
    for record in lines[1:-1]:
        stamp, debtor, creditor, cls, to = record.split(",")
        raises.append((int(stamp), places[debtor, creditor, int(cls)], int(to)))
    return raises


def replay_of(net: Net, raises: Raises) -> Tuple[Any, ...]:
    """What a replay of raises prints, and its status, with the message where they are refused."""
    for row, (_, _, to) in enumerate(raises, 1):
        if to > MOST_CLAIMED:
            return "", 4, f"clearing: journal row {row}: limit (6)\n"
    told, status, paid = verdict(net, raises)
    return told + ("" if status else "\n" + payments_text(net, paid)), status


def changed_replay(rng: random.Random, net: Net, text: str) -> Tuple[Any, ...]:
    """A journal that is changed from one as it is printed, and what replay_of() says of it."""
    changed = changed_journal(rng, net, raises_of(net, text.splitlines()))
    return journal_text(net, changed, None), *replay_of(net, changed)


def judge_journal(net: Net, low: List[int], text: str) -> Optional[str]:
    """What is wrong with a journal of a run, as it is printed, where these are the least payments; None where it is
    right."""
    lines = text.splitlines()
    if lines[:1] != ["stamp,debtor,creditor,class,to"] or not lines[-1].startswith("rounds,"):
        return "no journal"
    raises = raises_of(net, lines)
    rounds = int(lines[-1].split(",")[1])
    if journal_text(net, raises, rounds) != text:
        return "the text is not as it is printed"
    told, status, paid = verdict(net, raises)
    if status or paid != low:
        return "not lawful and complete: " + told.strip()
    if raises != sorted(raises) or len({raised[:2] for raised in raises}) != len(raises):
        return "the raises do not stand in order"
    if not 1 <= rounds <= sum(debt.claim for debt in net.debts) + 1:
        return f"{rounds} rounds"
    return None
