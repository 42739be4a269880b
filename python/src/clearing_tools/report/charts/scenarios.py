"""What stays unpaid in each scenario, and what all keep less: two rows of bars, each on one scale."""
from typing import List, Tuple

from ...labels import count, listed
from ...money import Money, Scale
from ..matter import Matter
from ..words import begun, counted
from .cases import Case, cases_of, leading, shown_of
from .figure import Data, Figure
from .scenario_bars import charts_of

MOST_NAMES = 3  # banks that are named in the title


def title_of(matter: Matter, cases: List[Case]) -> str:
    """The message: that unpaid is not loss, where a scenario shows it, else what the worst one does."""
    base = cases[0]
    still = [case for case in cases[1:] if case.cash and case.total == base.total]
    if still:
        most = max(still, key=lambda case: case.cash)
        hit = sorted((name for name in most.less if most.less[name] > 0), key=lambda name: matter.place[name])
        at = f" at {matter.listed(hit, MOST_NAMES)}" if 0 < len(hit) <= MOST_NAMES else ""
        return f"Unpaid is not loss: with {matter.amount(most.cash)} less{at}, no debt more goes unpaid"
    worst = max(cases[1:], key=lambda case: case.total)
    more = worst.total - base.total
    than = f"{matter.amount(more)} more than as things are" if more >= 0 else "less than as things are"
    stays = matter.money.verb(worst.total, "stays", "stay")
    return f"In the worst of {counted(len(cases) - 1, 'scenario')} {matter.amount(worst.total)} {stays} unpaid, {than}"


def scale_for(money: Money, cases: List[Case]) -> Scale:
    """The scale of the chart: as a sentence has the largest amount, or that of a table where a row would have less than
    two digits of what stays unpaid."""
    amounts = [part for case in cases for part in (case.total, case.cash)]
    scale = money.short_scale_of(amounts)
    least = min((case.total for case in cases if case.total), default=0)
    is_told = not least or not scale.is_rounded or scale.value(least) * 10**scale.places >= 10
    return scale if is_told else money.scale_of(amounts)


def data_of(cases: List[Case]) -> Data:
    """The numbers of all rows."""
    columns = ("scenario", "in_default", "own_fundamentals", "contagion", "unpaid", "kept_less_by_all")
    rows: List[Tuple[object, ...]] = []
    for case in cases:
        states = [bank.state for bank in case.banks]
        default = len(states) - states.count("sound")
        own = states.count("fundamental")
        rows.append((case.name, default, own, default - own, case.total, case.cash))
    return Data(columns, rows)


def figure_of(matter: Matter) -> Figure:
    """The figure, where there are scenarios."""
    cases = cases_of(matter)
    drawn = shown_of(cases)
    scale = scale_for(matter.money, drawn)
    names = [matter.in_sentence(name) for name in leading(drawn)]
    order = f". Unpaid by {listed(names)}, in this order" if names else ""
    others = ", then all others" if sum(map(bool, drawn[-1].unpaid.values())) > len(names) else ""
    left_out = len(cases) - len(drawn)
    note = f"{count(left_out, 'scenario')} with less unpaid: in the CSV." if left_out else ""
    unit = f"{begun(scale.words)}, both on one scale{order}{others}"
    charts, data = charts_of(matter, drawn, scale), data_of(cases)
    return Figure("scenarios", title_of(matter, cases), unit, charts, "stress", data, note)
