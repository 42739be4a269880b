"""What each rescue does: the cheapest and those of the banks that leave most unpaid, tried one by one."""
from typing import Dict, List, Sequence

from clearing_client.format import MAX_CASH
from clearing_client.records import Saving
from clearing_client.results import Outcomes, Rescues
from clearing_client.scenarios import Scenario, Scenarios

from ..texts import Bank, given_by, shortfall_of
from .original import Original
from .records import Rescue

MOST_TRIED = 40  # of the rescues
CHEAPEST = MOST_TRIED // 4  # of those that are tried


def chosen(original: Original, banks: Sequence[Bank], rescues: Sequence[Saving]) -> List[Saving]:
    """The rescues that are tried: the cheapest, and those of the banks that leave most unpaid, as far as a bank may
    have so much cash."""
    by_name = {bank.name: bank for bank in banks}
    cash = {row[0]: int(row[1]) for row in original.files.banks}
    able = [one for one in rescues if one.added and cash[one.bank] + one.added <= MAX_CASH]
    cheap = sorted(able, key=lambda one: one.added)[:CHEAPEST]
    large = sorted(able, key=lambda one: -shortfall_of(by_name[one.bank]))
    return list(dict.fromkeys([*cheap, *large]))[:MOST_TRIED]


def less_unpaid(original: Original, banks: Sequence[Bank], tried: Sequence[Saving]) -> Dict[str, int]:
    """By how much less stays unpaid with each of some rescues, by its bank. All cash that is tried is put in at once,
    and each scenario takes that of all others away."""
    if not tried:
        return {}
    added = {one.bank: one.added for one in tried}
    rows = [[row[0], str(int(row[1]) + added.get(row[0], 0)), *row[2:]] for row in original.files.banks]
    changed = original.put_banks("banks-rescued.csv", rows)
    scenarios = [
        Scenario(f"rescue {at}", losses=[(name, units) for name, units in added.items() if name != one.bank])
        for at, one in enumerate(tried, 1)
    ]
    program = original.program
    path = str(program.put("rescues.toml", Scenarios(scenarios).to_toml(plain=True).encode()))
    words = original.words(changed, original.names[1], "--scenarios", path)
    sums = program.result("outcomes", Outcomes, program.ask("outcomes-rescues.csv", "outcomes", *words))
    paid_as_is = sum(map(given_by, banks))
    return {one.bank: then.paid + then.outside_paid - paid_as_is for one, then in zip(tried, sums.scenarios)}


def rescues_of(original: Original, banks: Sequence[Bank], rescues: Rescues) -> List[Rescue]:
    """The rescues, in file order, each with the other banks that it saves, and with what it does where it is tried."""
    saves: Dict[str, List[str]] = {}
    for pair in rescues.saved:
        saves.setdefault(pair.bank, []).append(pair.saves)
    less = less_unpaid(original, banks, chosen(original, banks, list(rescues.banks)))
    return [Rescue(one.bank, one.added, saves.get(one.bank, []), less.get(one.bank)) for one in rescues.banks]
