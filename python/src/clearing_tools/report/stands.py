"""Does it stand: the same case, changed in one point, and cleared again."""
from typing import Callable, Dict, List, NamedTuple, Sequence, Set

from clearing_client.format import MAX_CASH, MAX_CLAIM, MAX_OUTSIDE
from clearing_client.limits import MOST, WIDE, needed
from clearing_client.results import Bounds, Defaults
from clearing_client.steady import MARK, Place, half

from ..labels import count, listed
from ..texts import Bank, shortfall_of
from .original import Original, text_of
from .records import Change
from .states import moved, plain
from .words import counted

MOST_NAMES = 3  # of banks that stand otherwise


class Unit(NamedTuple):
    """Another unit of account: a word for the names of files, words, what an amount is in it, and what such amounts are
    multiplied with and divided by to be of the case again."""

    key: str
    words: str
    amount: Callable[[int], int]
    times: int = 1
    parts: int = 1


AS_GIVEN = Unit("", "as given", int)
TWICE = Unit("unit", "unit twice as large", half, times=2)
HALF = Unit("half-unit", "unit half as large", lambda units: 2 * units, parts=2)


class Stands:
    """The case, what its banks are called in a sentence, and the program that clears it changed."""

    def __init__(
        self, original: Original, banks: Sequence[Bank], bounds: Bounds, called: Callable[[str], str]
    ) -> None:
        self.original, self.bounds, self.called = original, bounds, called
        self.base = {bank.name: plain(bank.state) for bank in banks}
        self.unpaid = sum(map(shortfall_of, banks))

    def cleared(
        self, key: str, words: str, banks: str, debts: str, unit: Unit = AS_GIVEN, limits: str = ""
    ) -> Change:
        """The case with these files, whose amounts are in a unit, cleared by some limits, or its own, against the
        first."""
        program, files = self.original.program, self.original.files
        path = program.ask(f"defaults-{key}.csv", "defaults", *self.original.words(banks, debts, limits=limits))
        defaults = program.result("defaults", Defaults, path)
        outside = {row[0]: unit.amount(int(row[3])) for row in files.banks if len(row) > 3}
        gaps = ((bank, outside.get(bank.bank, 0) - bank.outside_paid) for bank in defaults.standings)
        unpaid = sum(bank.owed - bank.paid + gap for bank, gap in gaps)
        states = {bank.bank: bank.state for bank in defaults.standings}
        change = self.change(words, states, unpaid * unit.times // unit.parts)
        if unit is AS_GIVEN:
            return change
        return change._replace(places={bank.bank: Place(bank.state, bank.equity > 0) for bank in defaults.standings})

    def change(self, words: str, states: Dict[str, str], unpaid: int) -> Change:
        """A changed case beside the first."""
        return Change(words, sum(state != "sound" for state in states.values()), unpaid, self.against(states), states)

    def against(self, states: Dict[str, str]) -> str:
        """What is otherwise than in the first."""
        words = ("in default", "sound", "with the other label")
        parts = [f"{self.few(names)} {what}" for names, what in zip(moved(self.base, states), words) if names]
        return "; ".join(parts) or "the same banks"

    def few(self, names: List[str]) -> str:
        """Some banks by name, or how many there are."""
        return listed(list(map(self.called, names))) if len(names) <= MOST_NAMES else count(len(names), "bank")

    def by_rule(self, rule: str, words: str) -> Change:
        """The case with one rule for all banks."""
        rows = [[*row[:2], rule, *row[3:]] for row in self.original.files.banks]
        return self.cleared(rule, words, self.original.put_banks(f"banks-{rule}.csv", rows), self.original.names[1])

    def by_unit(self, unit: Unit) -> Change:
        """The case in another unit, by the wide limits where its amounts need them."""
        original, files = self.original, self.original.files
        banks = [
            [row[0], in_unit(row[1], unit), row[2], *(in_unit(cell, unit) for cell in row[3:])] for row in files.banks
        ]
        debts = [[*row[:3], in_unit(row[3], unit)] for row in files.debts]
        banks_file = original.put_banks(f"banks-{unit.key}.csv", banks)
        debts_file = original.put_debts(f"debts-{unit.key}.csv", debts)
        is_large = needed(text_of(files.banks_header, banks), text_of(files.debts_header, debts)) == WIDE
        return self.cleared(unit.key, unit.words, banks_file, debts_file, unit, WIDE if is_large else "")

    def may_double(self) -> bool:
        """Whether amounts twice as large are within the wide limits."""
        files = self.original.files
        claims = [2 * int(row[3]) for row in files.debts]
        banks = [(2 * int(row[1]), *(2 * int(cell) for cell in row[3:])) for row in files.banks]
        is_bank = all(cash <= MAX_CASH and max(outside, default=0) <= MAX_OUTSIDE for cash, *outside in banks)
        return is_bank and max(claims, default=0) <= MAX_CLAIM and sum(claims) <= MOST.owed

    def by_order(self) -> Change:
        """The case with its debts in reverse order."""
        debts = self.original.put_debts("debts-reversed.csv", self.original.files.debts[::-1])
        return self.cleared("reversed", "debts in reverse order", self.original.names[0], debts)

    def by_greatest(self) -> Change:
        """The greatest payments that clear, in place of the least."""
        least, greatest = (sum(self.bounds.payments.column(word)) for word in ("least", "greatest"))
        gridlock = {wave.bank for wave in self.bounds.waves if wave.gridlock}
        states = {name: "sound" if name in gridlock else state for name, state in self.base.items()}
        change = self.change("greatest payments, not least", states, self.unpaid - (greatest - least))
        return change if greatest != least else change._replace(against="no payment differs")

    def all(self) -> List[Change]:
        """All changes, the first as it was given."""
        first = self.change("as given", dict(self.base), self.unpaid)._replace(against="")
        rules = [
            self.by_rule("webster", "each bank by webster, in proportion"),
            self.by_rule("order", "each bank pays one after another (order)"),
        ]
        units = [self.by_unit(unit) for unit in (TWICE, HALF) if unit is TWICE or self.may_double()]
        return [first, *rules, *units, self.by_order(), self.by_greatest()]


def in_unit(amount: str, unit: Unit) -> str:
    """An amount of a file in another unit."""
    return str(unit.amount(int(amount)))


def changes_of(
    original: Original, banks: Sequence[Bank], bounds: Bounds, called: Callable[[str], str]
) -> List[Change]:
    """The case, changed in one point each."""
    return Stands(original, banks, bounds, called).all()


def title_of(changes: List[Change], unsure: Set[str]) -> str:
    """The message of the table: which changes matter. `unsure` are the banks that one unit decides."""
    first, webster, order, *rounding, greatest = changes
    by_rule = any(differs(change, first) for change in (webster, order))
    if unsure:
        return f"One unit decides the figures of {counted(len(unsure))}, which are marked {MARK}"
    if any(differs(change, first) for change in rounding):
        return "Rounding decides: another order of the debts changes a label"
    title = "The rule matters; the unit and the order of the debts do not"
    if not by_rule:
        title = "Neither rule nor unit matters" if differs(greatest, first) else (
            "It stands: no rule, unit or order changes which banks are in default"
        )
    return title + ("; greater payments would clear too" if differs(greatest, first) else "")


def differs(change: Change, first: Change) -> bool:
    """Whether a change alters a label."""
    return any(plain(state) != plain(first.states[name]) for name, state in change.states.items())
