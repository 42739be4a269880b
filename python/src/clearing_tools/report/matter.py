"""What a report says, as the program answered it. Amounts are whole units of account; lists over banks are in file
order."""
import dataclasses
import functools
from typing import TYPE_CHECKING, Dict, List, Optional, Sequence, Set

from clearing_client.format import MAX_CUT
from clearing_client.records import BreakingCut, Harm, Payment, Ruin
from clearing_client.steady import MARK, Place, decided_by_one

from .. import labels
from ..drawing.lettering import short
from ..fullnames import FullNames
from ..money import Money, Scale
from ..texts import Bank, due_of, given_by, shortfall_of
from .journal import Frame
from .records import Change, Evidence, Head, Rescue, Scenario
from .states import plain

if TYPE_CHECKING:
    from .costs import Costs


def in_sentence(names: FullNames, name: str) -> str:
    """A bank in a sentence: its full name where it has one, cut where it is long, and held apart where it runs from
    right to left."""
    return labels.held(short(labels.shown(names(name))))


@dataclasses.dataclass(frozen=True)
class Matter:
    """All that a report says. `names` are the full names of banks; `more` is by how much greater payments would
    clear too."""

    head: Head
    money: Money
    banks: List[Bank]
    names: FullNames
    cash: Dict[str, int]
    rules: Dict[str, str]
    debts: Sequence[Payment]
    more: int
    rescues: List[Rescue]
    ruins: List[Ruin]
    harms: List[Harm]
    cuts: List[BreakingCut]
    costs: "Optional[Costs]"
    scenarios: Optional[List[Scenario]]
    changed: List[Change]
    frames: Optional[List[Frame]]
    changes: List[str]
    evidence: Evidence

    def called(self, name: str) -> str:
        """A bank in a table or beside its mark: its full name where it has one."""
        return self.names(name)

    def marked(self, name: str) -> str:
        """A bank in a picture: as it is called, with a mark behind it where one unit decides its figures."""
        return self.called(name) + (f" {MARK}" if name in self.unsure else "")

    def in_sentence(self, name: str) -> str:
        """A bank in a sentence, marked where one unit decides its figures."""
        return in_sentence(self.names, name) + (f"\u00a0{MARK}" if name in self.unsure else "")

    def listed(self, names: Sequence[str], most: int = 4) -> str:
        """Some banks in a sentence."""
        return labels.listed([self.in_sentence(name) for name in names], most)

    def amount(self, units: int) -> str:
        """An amount in a sentence."""
        return self.money.in_short(units)

    @functools.cached_property
    def place(self) -> Dict[str, int]:
        """Each bank's place in the file."""
        return {bank.name: at for at, bank in enumerate(self.banks)}

    @functools.cached_property
    def by_name(self) -> Dict[str, Bank]:
        """Each bank by its name."""
        return {bank.name: bank for bank in self.banks}

    @functools.cached_property
    def fallen(self) -> List[Bank]:
        """The banks in default, those that leave most unpaid first."""
        return sorted((bank for bank in self.banks if bank.state != "sound"), key=lambda bank: -shortfall_of(bank))

    @functools.cached_property
    def sound(self) -> List[Bank]:
        """The banks that stand, in file order."""
        return [bank for bank in self.banks if bank.state == "sound"]

    @functools.cached_property
    def own(self) -> List[Bank]:
        """The banks with the label own fundamentals, those that leave most unpaid first."""
        return [bank for bank in self.fallen if bank.state == "fundamental"]

    @functools.cached_property
    def labelled(self) -> List[Bank]:
        """The banks with the label contagion, in gridlock or not, those that leave most unpaid first."""
        return [bank for bank in self.fallen if bank.state != "fundamental"]

    @functools.cached_property
    def due(self) -> int:
        """All that banks owe."""
        return sum(map(due_of, self.banks))

    @functools.cached_property
    def unpaid(self) -> int:
        """All that stays unpaid."""
        return self.due - sum(map(given_by, self.banks))

    @functools.cached_property
    def all_cash(self) -> int:
        """All cash at first."""
        return sum(self.cash.values())

    @functools.cached_property
    def rescue_of(self) -> Dict[str, Rescue]:
        """The rescue of each bank in default."""
        return {rescue.bank: rescue for rescue in self.rescues}

    @functools.cached_property
    def cut_of(self) -> Dict[str, int]:
        """The least cut of all cash, per mille, after which a bank is in default; above 1000 where there is none."""
        return {cut.bank: cut.cut for cut in self.cuts}

    @functools.cached_property
    def near(self) -> List[BreakingCut]:
        """The banks that stand and would fall at some cut, the nearest first."""
        return sorted((cut for cut in self.cuts if 0 < cut.cut <= MAX_CUT), key=lambda cut: cut.cut)

    @functools.cached_property
    def scale(self) -> Scale:
        """The scale of sums over all banks."""
        return self.money.scale_of([self.all_cash, self.due])

    @functools.cached_property
    def unsure(self) -> Set[str]:
        """The banks whose figures one unit decides."""
        here = {bank.name: Place(plain(bank.state), bank.equity > 0) for bank in self.banks}
        return set(decided_by_one(here, [change.places for change in self.changed if change.places is not None]))

    @functools.cached_property
    def has_outside(self) -> bool:
        """Whether some bank owes outside."""
        return any(due_of(bank) > bank.owed for bank in self.banks)
