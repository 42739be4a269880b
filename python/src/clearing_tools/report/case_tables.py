"""The tables of the case: changed in one point, and its scenarios with the labels that change."""
from typing import Dict, List, Sequence

from clearing_client.steady import MARK, WHY

from ..money import Scale
from ..texts import Bank
from . import stands
from .cells import Cell, Row, Table, amount
from .charts.cases import Case, cases_of, shown_of
from .charts.figure import Data
from .matter import Matter
from .states import moved

STANDS_HEADS = [("Change", ""), ("In default", ""), ("Unpaid", ""), ("Against the first", "st")]
SCENARIO_HEADS = [
    ("Scenario", ""),
    ("In default", ""),
    ("Own fundamentals", "wide"),
    ("Contagion", "wide"),
    ("Unpaid", ""),
    ("All keep less", ""),
    ("Against as things are", "st"),
]


def stands_table(matter: Matter) -> Table:
    """The case, changed in one point."""
    scale = matter.money.scale_of([change.unpaid for change in matter.changed])
    rows = [
        Row(
            None,
            change.words,
            "",
            [Cell(f"{change.defaults:,}"), amount(scale, change.unpaid, "u-t"), Cell(change.against, "st")],
        )
        for change in matter.changed
    ]
    data = Data(
        ("change", "in_default", "unpaid", "against_the_first"),
        [(change.words, change.defaults, change.unpaid, change.against) for change in matter.changed],
    )
    unit = f"The same case, changed in one point; unpaid in {scale.words}"
    title, tasks = stands.title_of(matter.changed, matter.unsure), "defaults and bounds"
    return Table("stands", title, unit, STANDS_HEADS, rows, None, tasks, data, note_of_unsure(matter))


def note_of_unsure(matter: Matter) -> str:
    """Whose figures one unit decides, and what that means."""
    if not matter.unsure:
        return ""
    names = [bank.name for bank in matter.banks if bank.name in matter.unsure]
    return f"{MARK} {matter.listed(names)}. {WHY}"


def scenarios_table(matter: Matter) -> Table:
    """The scenarios in numbers, with the labels that change."""
    cases = cases_of(matter)
    scale = matter.money.scale_of([part for case in cases for part in (case.total, case.cash)])
    base = {bank.name: bank.state for bank in matter.banks}
    printed = {case.name for case in shown_of(cases)}
    rows: List[Row] = []
    for case in cases:
        change = against(matter, base, case.banks) if case is not cases[0] else ""
        cells = [*scenario_cells(case, scale), Cell(change, "st")]
        rows.append(Row(None, case.name, "", cells, case.name in printed))
    unit = f"Labels and amounts by scenario, {scale.words}{outside_too(matter)}"
    left = sum(not row.is_printed for row in rows)
    note = f"On paper stand the {len(rows) - left - 1} of which most stays unpaid; all are on the page." if left else ""
    return Table("cases", "The scenarios in numbers", unit, SCENARIO_HEADS, rows, None, "stress", note=note)


def outside_too(matter: Matter) -> str:
    """That what all keep less has in it what is paid outside, where some bank owes there."""
    return "; all keep less: what they have left and what they pay outside" if matter.has_outside else ""


def scenario_cells(case: Case, scale: Scale) -> List[Cell]:
    """The numbers of a scenario: who is in default, by which labels, what stays unpaid, and what all keep less."""
    states = [bank.state for bank in case.banks]
    default, alone = len(states) - states.count("sound"), states.count("fundamental")
    return [
        Cell(f"{default:,}"),
        Cell(f"{alone:,}", "wide"),
        Cell(f"{default - alone:,}", "wide"),
        amount(scale, case.total, "u-t"),
        amount(scale, case.cash),
    ]


def against(matter: Matter, base: Dict[str, str], banks: Sequence[Bank]) -> str:
    """Which banks stand otherwise than as things are."""
    words = ("newly in default", "no longer in default", "with the other label")
    groups = moved(base, {bank.name: bank.state for bank in banks})
    return (
        "; ".join(f"{what}: {matter.listed(names)}" for names, what in zip(groups, words) if names)
        or "the same banks, the same labels"
    )
