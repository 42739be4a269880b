"""The picture of what each bank in default leaves unpaid: a bar for each, or two where the debts are known."""
from types import ModuleType
from typing import TYPE_CHECKING, Callable, Dict, List, NamedTuple, Optional, Sequence, Tuple

from clearing_client.records import Payment

from .. import labels
from ..money import Money
from ..texts import STATES, Bank, due_of, shortfall_of
from . import lettering, style
from .tokens import LIGHT

if TYPE_CHECKING:
    from matplotlib.axes import Axes
    from matplotlib.figure import Figure

WIDE, MOST_LEFT, RIGHT = 9.5, 2.8, 0.25  # inches: of the picture, of its names, and right of the bars
ABOVE, BELOW, MARGINS = 0.8, 1.15, 2.3  # inches above the bars, below them, and both with what is between
ROW, ROW_OF_TWO = 0.34, 0.6  # inches for a bank with one bar, and with two
NAMES, WORDS, SMALL = 10, 8.5, 7  # the sizes of letters, in points
MARK = 0.018  # how far left of the bars the mark of a state stands, as a share of the longest bar
BESIDE = 0.008  # how far right of a bar its words stand, likewise
LEAST_PART, LEAST_WORD = 0.04, 0.1  # of a part that has room for a sign, and for a word, likewise
MOST_WORDS = 0.8  # of the width, that the words right of a bar may take
CASH = {"facecolor": LIGHT["ink-2"], "edgecolor": LIGHT["paper"]}
RECEIPTS = {"facecolor": LIGHT["paid-fill"], "edgecolor": LIGHT["paper"]}
PAID = {"facecolor": LIGHT["paid"], "edgecolor": LIGHT["paper"]}
UNPAID = {"facecolor": LIGHT["unpaid"], "edgecolor": LIGHT["paper"]}


class Bar(NamedTuple):
    """Where a bar stands: how far its middle is from that of its bank, and how tall it is, as shares of a row."""

    off: float
    height: float


ALONE, HAS, OWES = Bar(0, 0.62), Bar(-0.2, 0.34), Bar(0.2, 0.36)
"""The bar of a bank, or that of what it has and that of what it owes."""


def in_default(banks: Sequence[Bank], most: int) -> Tuple[List[Bank], List[Bank]]:
    """The banks in default by their state, the largest shortfall first, and at most so many of them to be shown."""
    short = sorted((bank for bank in banks if bank.state != "sound"), key=lambda bank: -shortfall_of(bank))
    return short, short[:most]


def parts_owed(bank: Bank, debts: Optional[Sequence[Payment]]) -> List[Tuple[str, int, int]]:
    """What a bank owes, in the order in which it is paid: a word, how much, and how much of it is paid."""
    outside = bank.outside_paid if bank.outside is None else bank.outside
    parts = [("outside", outside, bank.outside_paid)] if outside else []
    if debts is None:
        return parts + [("", bank.owed, bank.paid)]
    own = [debt for debt in debts if debt.debtor == bank.name]
    for class_ in sorted({debt.class_ for debt in own}):
        of_class = [debt for debt in own if debt.class_ == class_]
        parts.append((str(class_), sum(debt.claim for debt in of_class), sum(debt.paid for debt in of_class)))
    return parts


def label_of(bank: Bank, money: Money) -> str:
    """What stands beside a bank's bar: its shortfall."""
    unpaid = shortfall_of(bank)
    return f"{money.number(unpaid)} ({labels.percent(unpaid, due_of(bank))})"


class Picture:
    """The picture, part by part. `debts` are what banks owe one another, where that is known; `say` gives what a bank
    of a name is called."""

    def __init__(
        self,
        pyplot: ModuleType,
        banks: Sequence[Bank],
        debts: Optional[Sequence[Payment]],
        money: Money,
        most: int,
        say: Callable[[str], str] = str,
    ) -> None:
        self.pyplot, self.banks, self.debts, self.money, self.say = pyplot, banks, debts, money, say
        self.short, self.shown = in_default(banks, most)
        self.longest = max([max(due_of(bank), bank.estate) for bank in self.shown], default=0) or 1
        step = ROW if debts is None else ROW_OF_TWO
        tall = MARGINS + step * max(len(self.shown), 1)
        self.left = style.column_for([say(bank.name) for bank in self.shown], NAMES, MOST_LEFT)
        self.figure: "Figure"
        self.axes: "Axes"
        self.figure, self.axes = pyplot.subplots(figsize=(WIDE, tall))
        left, right = (self.left + 0.55) / WIDE, 1 - RIGHT / WIDE
        self.figure.subplots_adjust(left=left, right=right, bottom=BELOW / tall, top=1 - ABOVE / tall)

    def part(self, bar: Tuple[float, float], at: int, units: int, kind: Dict[str, str]) -> int:
        """A part of a bar, told by its middle and its height; answers its end."""
        place, height = bar
        if units:
            self.axes.barh(place, units, height=height, left=at, linewidth=0.7, **kind)
        return at + units

    def bank(self, place: int, bank: Bank) -> None:
        """The bars of a bank, and the mark of its state."""
        if self.debts is not None:
            receipts = sum(debt.paid for debt in self.debts if debt.creditor == bank.name)
            bar = place + HAS.off, HAS.height
            self.part(bar, self.part(bar, 0, bank.estate - receipts, CASH), receipts, RECEIPTS)
        self.owed(place, bank)
        self.axes.plot([-MARK * self.longest], [place], clip_on=False, **style.mark_of(bank.state, SMALL))

    def owed(self, place: int, bank: Bank) -> None:
        """What a bank owes, part by part, each with what is paid of it; and the shortfall beside it."""
        off, height = ALONE if self.debts is None else OWES
        bar, at = (place + off, height), 0
        for word, claim, paid in parts_owed(bank, self.debts):
            begins = at
            at = self.part(bar, self.part(bar, at, paid, PAID), claim - paid, UNPAID)
            if word and claim > (LEAST_PART if len(word) == 1 else LEAST_WORD) * self.longest:
                self.word_on(bar[0], begins + claim / 2, word)
        how = {"va": "center", "fontsize": WORDS, "color": LIGHT["ink"]}
        self.axes.text(at + BESIDE * self.longest, bar[0], label_of(bank, self.money), **how)

    def word_on(self, place: float, at: float, word: str) -> None:
        """The word of a part on its bar."""
        box = {
            "boxstyle": "round,pad=0.15",
            "facecolor": LIGHT["paper"],
            "edgecolor": LIGHT["ink"],
            "linewidth": 0.5,
        }
        self.axes.text(at, place, word, va="center", ha="center", fontsize=SMALL, color=LIGHT["ink"], bbox=box)

    def title(self) -> None:
        """The message, and the unit below it."""
        total, short, shown = sum(map(shortfall_of, self.short)), len(self.short), len(self.shown)
        left_out = f"; the {shown} largest are shown" if shown < short else ""
        of = labels.count(len(self.banks), "bank")
        message = f"{short:,} of {of} in default leave {self.money(total)} unpaid{left_out}"
        style.title(self.figure, message, self.money.about())

    def right(self) -> float:
        """Where the axis ends: with room for the words behind each bar."""
        wide = self.axes.get_position().width * WIDE
        ends = [1.02 * self.longest]
        for bank in self.shown:
            words = lettering.width_of(label_of(bank, self.money), WORDS) / style.POINTS + 0.15
            ends.append(due_of(bank) / (1 - min(MOST_WORDS, words / wide)))
        return max(ends)

    def scale(self) -> None:
        """The axes: the amounts in one size, and the names of the banks."""
        axes, sizes = self.axes, self.money.scale_of([self.longest])
        axes.set(xlim=(-0.035 * self.longest, self.right()), ylim=(max(len(self.shown), 1) - 0.4, -0.6))
        axes.tick_params(axis="y", length=0, pad=8)
        axes.locator_params(axis="x", nbins=6)
        axes.xaxis.set_major_formatter(lambda units, _: sizes.number(round(units)) if units >= 0 else "")
        axes.set_xlabel(sizes.words, fontsize=WORDS, loc="right", labelpad=1)
        axes.tick_params(axis="x", labelsize=WORDS)
        axes.spines[["top", "right", "left"]].set_visible(False)
        names = [style.name_of(self.say(bank.name), self.left + 0.05, NAMES) for bank in self.shown]
        axes.set_yticks(range(len(self.shown)), names, fontsize=NAMES)

    def legend(self) -> None:
        """What bars and marks mean."""
        kinds = {"paid": PAID, "left unpaid": UNPAID}
        if self.debts is not None:
            has = {"above: cash": CASH, "above: receipts": RECEIPTS}
            kinds = {**has, "below: paid, by class": PAID, "below: left unpaid": UNPAID}
        states = [state for state in STATES if any(bank.state == state for bank in self.shown)]
        handles = [self.pyplot.Rectangle((0, 0), 1, 1, **kind) for kind in kinds.values()]
        handles += [self.pyplot.Line2D([], [], linestyle="", **style.mark_of(state, SMALL)) for state in states]
        words = [*kinds, *(labels.in_short(state) for state in states)]
        wide, tall = self.figure.get_size_inches()
        place, columns = (0.05 / wide, 0.02 / tall), 4 if len(handles) > 5 else 3
        how = {"ncol": columns, "frameon": False, "fontsize": WORDS}
        self.figure.legend(handles, words, loc="lower left", bbox_to_anchor=place, **how)

    def draw(self) -> "Figure":
        """The whole."""
        for place, bank in enumerate(self.shown):
            self.bank(place, bank)
        self.title()
        self.scale()
        self.legend()
        return self.figure
