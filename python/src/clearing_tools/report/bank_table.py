"""The table of the banks: how each stands, what it owes, pays and keeps, its least rescue, and the cut at which it
falls."""
from typing import List, Sequence

from clearing_client.format import MAX_CUT
from clearing_client.steady import MARK, NOTE, WHY

from ..labels import shown
from ..money import Scale
from ..texts import Bank, due_of, given_by, shortfall_of
from .cells import NOT, STATE_WORDS, Cell, Row, Table, amount
from .charts.figure import Data
from .matter import Matter
from .words import begun, counted, cut_words

MOST_PRINTED = 100  # with more banks those in default alone stand on paper, and of them
MOST_FALLEN = 200  # those that leave most unpaid
MOST_CUT, LEAST_CUT = 24, 18  # of names that pictures may cut: how many are told, and above how many letters
CHOICES = {
    "all": "all banks",
    "default": "in default",
    "sound": "sound",
    "fundamental": "label own fundamentals",
    "contagion": "label contagion",
    "gridlock": "in gridlock",
}
HEADS = [
    ("Bank", ""),
    ("State", "st"),
    ("Owed", "wide"),
    ("Paid", "wide"),
    ("Unpaid", ""),
    ("Keeps", "wide"),
    ("Least rescue", ""),
    ("Falls at a cut of", ""),
]
COLUMNS = (
    "bank",
    "name",
    "label",
    "cash",
    "owed",
    "owed_outside",
    "paid",
    "paid_outside",
    "unpaid",
    "keeps",
    "least_rescue",
    "falls_at_a_cut_of_per_mille",
    "note",
)


def outside_of(bank: Bank) -> int:
    """What a bank owes outside the network."""
    return due_of(bank) - bank.owed


def scale_of_banks(matter: Matter) -> Scale:
    """The scale of the table of banks, by its largest amount but for the sums."""
    amounts = [part for bank in matter.banks for part in (due_of(bank), bank.equity)]
    return matter.money.scale_of([*amounts, *(rescue.added for rescue in matter.rescues)])


def falls_at(matter: Matter, bank: Bank) -> Cell:
    """At which cut of all cash a bank is in default."""
    cut = matter.cut_of.get(bank.name, 0)
    if bank.state != "sound":
        return Cell("now", "", 0)
    return Cell(cut_words(cut), "", cut) if cut <= MAX_CUT else Cell(NOT, "nil", None)


def row_of_bank(matter: Matter, bank: Bank, scale: Scale) -> Row:
    """The row of a bank."""
    rescue = matter.rescue_of.get(bank.name)
    mark = f" {MARK}" if bank.name in matter.unsure else ""
    cells = [
        Cell(STATE_WORDS[bank.state] + mark, "st", STATE_WORDS[bank.state]),
        amount(scale, due_of(bank)),
        amount(scale, given_by(bank)),
        amount(scale, shortfall_of(bank), "u-t"),
        amount(scale, bank.equity),
        amount(scale, rescue.added) if rescue else Cell(NOT, "nil", None),
        falls_at(matter, bank),
    ]
    is_printed = len(matter.banks) <= MOST_PRINTED or bank in matter.fallen[:MOST_FALLEN]
    return Row(matter.place[bank.name], matter.called(bank.name), bank.state, cells, is_printed)


def foot_of_banks(matter: Matter, scale: Scale) -> Row:
    """The sums over all banks."""
    fallen = len(matter.fallen)
    sums = [
        Cell(f"{counted(fallen) if fallen > 12 else fallen} in default", "st"),
        amount(scale, matter.due),
        amount(scale, matter.due - matter.unpaid),
        amount(scale, matter.unpaid, "u-t"),
        amount(scale, sum(bank.equity for bank in matter.banks)),
    ]
    return Row(None, f"All {len(matter.banks):,} banks", "", [*sums, Cell(NOT, "nil"), Cell("")])


def unit_of_banks(matter: Matter, scale: Scale) -> str:
    """What the table is in, and what its columns mean."""
    rounded = ", rounded" if scale.is_rounded else ""
    unit = (
        f"{begun(scale.words)}{rounded}; those in default first. Keeps: cash and receipts less all it owes here, not"
        " book equity. Falls: least cut of all cash after which it is in default."
    )
    return f"{unit} {MARK} {WHY}" if matter.unsure else unit


def banks_table(matter: Matter) -> Table:
    """The table of banks, those in default first, the most unpaid first."""
    scale = scale_of_banks(matter)
    rows = [row_of_bank(matter, bank, scale) for bank in [*matter.fallen, *matter.sound]]
    foot, unit, tasks = foot_of_banks(matter, scale), unit_of_banks(matter, scale), "defaults, rescues and breaking"
    data = Data(COLUMNS, [data_of_bank(matter, bank) for bank in matter.banks])
    return Table("banks", "The banks", unit, HEADS, rows, foot, tasks, data, paper_note(matter))


def paper_note(matter: Matter) -> str:
    """What stands on paper of many banks."""
    if len(matter.banks) <= MOST_PRINTED:
        return ""
    fallen = len(matter.fallen)
    which = f"the {fallen:,} in default"
    if fallen > MOST_FALLEN:
        which = f"the {MOST_FALLEN} of {fallen:,} in default that leave most unpaid"
    return f"On paper stand {which}; all {len(matter.banks):,} banks are in the CSV of the page."


def data_of_bank(matter: Matter, bank: Bank) -> Sequence[object]:
    """The numbers of a bank."""
    rescue, cut = matter.rescue_of.get(bank.name), matter.cut_of.get(bank.name, 0)
    return (
        bank.name,
        matter.called(bank.name),
        bank.state,
        matter.cash[bank.name],
        due_of(bank),
        outside_of(bank),
        given_by(bank),
        bank.outside_paid,
        shortfall_of(bank),
        bank.equity,
        rescue.added if rescue else "",
        cut if cut <= MAX_CUT else "",
        NOTE if bank.name in matter.unsure else "",
    )


def cut_names(matter: Matter) -> List[str]:
    """The full names of banks that pictures may cut, for those who cannot point at them."""
    names = [shown(matter.called(bank.name)) for bank in [*matter.fallen, *matter.sound]]
    return [name for name in names if len(name) > LEAST_CUT][:MOST_CUT]
