"""Questions that take time: what breaks each bank, what saves it, what its ruin costs, and which banks one unit
decides. Each goes on in a thread of its own, comes in pieces, says how far it is, and can be stopped."""
import itertools
import pathlib
import tempfile
import threading
import time
from collections import OrderedDict
from typing import Callable, Dict, Iterable, Iterator, List, Mapping, Optional, Sequence, Tuple, TypeVar, Union

from clearing_client import errors, steady
from clearing_client.format import MAX_CUT, MAX_KEEP
from clearing_client.limits import words_of
from clearing_client.network import Network
from clearing_client.records import Bank, Debt, Standing
from clearing_client.results import Costs, Defaults, Impact, Outcomes, Rescue, Rescues
from clearing_client.scenarios import Scenario, Scenarios

from .. import runner, texts
from ..analysis import queries
from ..runner import StrPath
from . import state as states
from .runs import Desk, Mark, Place, Runs, mark_of
from .state import State

MOST_QUESTIONS = 64
STEP = 10  # per mille between the cuts that are tried first
EACH = 10  # such steps in one run of the program
FEW = 60  # banks up to which all cuts that are tried first go in one run
PARTS = 4  # else they go in so many

T = TypeVar("T")
R = TypeVar("R")
Piece = Dict[str, object]
Pieces = Iterator[Tuple[Piece, int]]  # each with how many pieces there are in all, as far as it is known


class OwnRuns(runner.ProgramRuns):
    """The runs of one question, which take their turn among those of the desk, and can be ended alone."""

    def __init__(self, runs: Runs) -> None:
        super().__init__()
        self.room = runs.room

    def run(self, command: Sequence[str], folder: Optional[StrPath] = None) -> Tuple[int, bytes, bytes]:
        while not self.room.acquire(timeout=0.1):
            if self.stopped:
                raise KeyboardInterrupt
        try:
            return super().run(command, folder)
        finally:
            self.room.release()

    def all(self, work: Callable[[T], R], items: Iterable[T], what: str) -> List[R]:
        """What the work gives for each item, one after the other: a question leaves room for changes."""
        return [work(one) for one in items]


class Question:
    """A question that goes on, or has ended: its pieces so far."""

    def __init__(self, desk: Desk, ask_pieces: Callable[[OwnRuns, Place], Pieces]) -> None:
        self.pieces: List[Piece] = []
        self.total, self.fault, self.has_ended = 1, "", False
        self.began, self.took = time.monotonic(), 0.0
        self.runs = OwnRuns(desk.runs)
        threading.Thread(target=self.go, args=(desk, ask_pieces), daemon=True).start()

    def go(self, desk: Desk, ask_pieces: Callable[[OwnRuns, Place], Pieces]) -> None:
        """Takes the pieces as they come."""
        try:
            with Place(desk.runs) as place:
                for piece, total in ask_pieces(self.runs, place):
                    self.total = total
                    self.pieces.append(piece)
        except KeyboardInterrupt:
            pass
        except (runner.ToolError, errors.ClearingError, OSError) as fault:
            self.fault = "" if self.runs.stopped else str(fault)
        finally:
            self.took, self.has_ended = time.monotonic() - self.began, True

    def stop(self) -> None:
        """Ends its runs; what has come stays."""
        self.runs.stop()

    @property
    def is_stopped(self) -> bool:
        """Whether it was ended before all of it had come."""
        return self.runs.stopped and len(self.pieces) < self.total

    def view(self, after: int) -> Dict[str, object]:
        """How far it is, and the pieces behind so many."""
        ended = self.has_ended
        come = list(self.pieces)
        seconds = self.took if ended else time.monotonic() - self.began
        return {
            "pieces": come[after:],
            "come": len(come),
            "of": self.total,
            "ended": ended,
            "stopped": ended and self.is_stopped,
            "fault": self.fault,
            "seconds": round(seconds, 1),
        }


class Questions:
    """The questions of a session, by their numbers. One that goes on, or has its answer, is not asked again."""

    def __init__(self, desk: Desk) -> None:
        self.desk, self.lock = desk, threading.Lock()
        self.by_number: "OrderedDict[int, Tuple[Mark, Question]]" = OrderedDict()
        self.numbers = itertools.count()

    def ask(self, what: str, state: State, bank: Optional[int], desk: Optional[Desk] = None) -> int:
        """The number of a question on a state, or on one bank of it; of the case at hand, or of another one's desk."""
        pieces, asked_desk = KINDS[what], desk or self.desk
        if what == "breaking":
            state, bank = state._replace(cut="0"), None
        if what != "unit":
            # What default keeps is not asked for: these are of the clearing without costs.
            state = state._replace(keep=states.AS_IT_IS.keep)
        mark = what, bank, mark_of(state), id(asked_desk)
        with self.lock:
            for number, (other, question) in self.by_number.items():
                if other == mark and not question.runs.stopped and not question.fault:
                    return number
            number = next(self.numbers)
            question = Question(asked_desk, lambda runs, place: pieces(asked_desk, runs, place, state, bank))
            self.by_number[number] = mark, question
            while len(self.by_number) > MOST_QUESTIONS:
                self.by_number.popitem(last=False)[1][1].stop()
            return number

    def question(self, number: int) -> Optional[Question]:
        """The question of a number, where there is one."""
        with self.lock:
            return self.by_number[number][1] if number in self.by_number else None

    def stop(self) -> None:
        """Ends all."""
        with self.lock:
            for _, question in self.by_number.values():
                question.stop()


# What breaks each bank.


def breaking_pieces(desk: Desk, runs: OwnRuns, place: Place, state: State, bank: Optional[int]) -> Pieces:
    """For each bank the least cut of all cash at which it is not sound, on top of what a scenario takes. A harder cut
    saves nobody (stress::laws::milder_shock_hurts_nobody), so that in how many of some cuts a bank is in default tells
    between which two it falls."""
    words = desk.files(place, state._replace(losses=()))
    losses = [(desk.base.banks[at].name, amount) for at, amount in state.losses]
    coarse, count = range(0, MAX_CUT, STEP), len(desk.base.banks)
    parts = 1 if count <= FEW else PARTS
    counts = [(0, 0)] * count
    for part in range(parts):
        more_counts = counts_of(runs, place, words, losses, coarse[part::parts])
        counts = [(one + more, own + own_more) for (one, own), (more, own_more) in zip(counts, more_counts)]
        if part < parts - 1:
            yield {"kind": "begun", "exact": []}, parts + 1
    # The first of these cuts at which a bank is in default; their number where it is so at none.
    first = [len(coarse) - defaults for defaults, _ in counts]
    steps = sorted({at for at in first if at > 0})
    groups = [steps[at:at + EACH] for at in range(0, len(steps), EACH)]
    at_once = [[at, 0, state_at(*counts[at])] for at, step in enumerate(first) if step == 0]
    high = [STEP * step if step < len(coarse) else MAX_CUT + 1 for step in first]
    yield {"kind": "between", "high": high, "exact": at_once}, parts + len(groups)
    for group in groups:
        cuts = [STEP * (step - 1) + more for step in group for more in range(1, STEP + 1)]
        counts = counts_of(runs, place, words, losses, cuts)
        exact = []
        for at, step in enumerate(first):
            if step in group:
                defaults, fundamental = counts[at]
                exact.append([at, cuts[-defaults] if defaults else None, state_at(defaults, fundamental)])
        yield {"kind": "exact", "exact": exact}, parts + len(groups)


def state_at(defaults: int, fundamental: int) -> str:
    """How a bank stands at the least cut at which it is in default: by own fundamentals only where it is so at all
    harder ones too."""
    return "sound" if not defaults else "fundamental" if defaults == fundamental else "contagion"


def counts_of(
    runs: OwnRuns, place: Place, words: List[str], losses: List[Tuple[str, int]], cuts: Sequence[int]
) -> List[Tuple[int, int]]:
    """For each bank in how many of some cuts it is in default, and in how many of these by its own fundamentals."""
    text = Scenarios([Scenario(f"cut {cut}", cut, dict(losses)) for cut in cuts]).to_toml(plain=True)
    scenarios = place.put("cuts.toml", text.encode())
    answer = queries.answer_of(runs, ["outcomes", *words, f"--scenarios={scenarios}"], Outcomes)
    return list(zip(answer.banks.column("defaults"), answer.banks.column("fundamental")))


# What saves a bank in default.


def rescue_pieces(desk: Desk, runs: OwnRuns, place: Place, state: State, bank: Optional[int]) -> Pieces:
    """The least cash that makes a bank pay all it owes, for one bank first, then for all in default with whom it saves
    besides."""
    words, places = desk.files(place, state), states.names_of(desk.base)
    if bank is not None and not desk.base.banks[bank].name.startswith("-"):
        rescue = queries.answer_of(runs, ["rescue", *words, f"--bank={desk.base.banks[bank].name}"], Rescue)
        yield {"kind": "one", "bank": bank, "added": rescue.added}, 2
    every = queries.answer_of(runs, ["rescues", *words], Rescues)
    saved: Dict[int, List[int]] = {}
    for pair in every.saved:
        saved.setdefault(places[pair.bank], []).append(places[pair.saves])
    added = {places[name]: units for name, units in zip(every.banks.column("bank"), every.banks.column("added"))}
    rows = [[at, units, saved.get(at, [])] for at, units in added.items()]
    if bank is not None:
        rows = [row for row in rows if row[0] == bank or bank in row[2]]
    yield {"kind": "all", "rows": rows}, 2


# What the loss of a bank's cash costs.


def impact_pieces(desk: Desk, runs: OwnRuns, place: Place, state: State, bank: Optional[int]) -> Pieces:
    """What a bank and all others keep less where it loses all its cash, and who falls; for one bank alone, else for
    all."""
    words, places = desk.files(place, state), states.names_of(desk.base)
    if bank is not None:
        yield ruin_of(desk, runs, place, words, state, bank), 1
        return
    impact = queries.answer_of(runs, ["impact", *words], Impact)
    rows = [[at, one.cash, one.own, one.others, one.falls] for at, one in enumerate(impact.banks)]
    falls: Dict[int, List[int]] = {}
    for pair in impact.pairs:
        if pair.falls and pair.of != pair.bank:
            falls.setdefault(places[pair.bank], []).append(places[pair.of])
    yield {"kind": "all", "rows": rows, "falls": falls}, 1


def ruin_of(desk: Desk, runs: OwnRuns, place: Place, words: List[str], state: State, bank: int) -> Piece:
    """What the loss of all its cash takes from one bank and the others: the program's standings with and without it."""
    before, name = desk.cleared(state), desk.base.banks[bank].name
    text = Scenarios([Scenario("ruin", 0, {name: before.left[bank]})]).to_toml(plain=True)
    [after] = queries.stress(runs, str(place.path), words, [text.encode()], lambda standings: list(standings))
    less = [keeps(was) - keeps(now) for was, now in zip(before.banks, after)]
    falls = [was.state == "sound" and now.state != "sound" for was, now in zip(before.banks, after)]
    return {
        "kind": "one",
        "bank": bank,
        "cash": before.left[bank],
        "own": less[bank],
        "others": sum(less) - less[bank],
        "fallen": [at for at, is_so in enumerate(falls) if is_so and at != bank],
    }


def keeps(bank: Union[texts.Bank, Standing]) -> int:
    """What a bank keeps, and pays outside."""
    return bank.equity + bank.outside_paid


# Which banks one unit decides.


def unit_pieces(desk: Desk, runs: OwnRuns, place: Place, state: State, bank: Optional[int]) -> Pieces:
    """The banks that are in another state, or begin or cease to keep anything, where a unit is worth twice or half as
    much: of the state with what the shock leaves, and with what default keeps."""
    cleared, rows = desk.cleared(state), [states.row_of(desk.base, state, at) for at in range(len(desk.base.banks))]
    banks = [Bank(one.name, left, row[1], int(row[2])) for one, left, row in zip(desk.base.banks, cleared.left, rows)]
    debts = [Debt(debt.debtor, debt.creditor, debt.class_, debt.claim) for debt in cleared.payments]
    # What is in gridlock has the label contagion where the greatest payments are not asked for.
    here = {
        one.name: steady.Place("contagion" if one.state == "gridlock" else one.state, one.equity > 0)
        for one in cleared.banks
    }
    scales: List[Callable[[int], int]] = [steady.half]
    if steady.within_limits(banks, debts, 2):
        scales.append(lambda units: 2 * units)
    answers: List[steady.Places] = []
    for scale in scales:
        answers.append(places_of(runs, place, steady.scaled(banks, debts, scale), int(state.keep)))
        decided = set(steady.decided_by_one(here, answers))
        yield {"kind": "unit", "banks": [at for at, one in enumerate(banks) if one.name in decided]}, len(scales)


def places_of(runs: OwnRuns, place: Place, network: Network, keep: int) -> Dict[str, steady.Place]:
    """How the banks of a network are, by the program."""
    banks, debts = (pathlib.Path(tempfile.mkdtemp(dir=place.path)) / f"{what}.csv" for what in ("banks", "debts"))
    network.write(banks, debts)
    words = [f"--banks={banks}", f"--debts={debts}", *words_of(network.limits)]
    if keep == MAX_KEEP:
        defaults = queries.answer_of(runs, ["defaults", *words, "--workers=1"], Defaults)
        return {one.bank: steady.Place(one.state, one.equity > 0) for one in defaults.standings}
    costs = queries.answer_of(runs, ["costs", *words, f"--keep={keep}"], Costs)
    return {one.bank: steady.Place(one.state, one.equity > 0) for one in costs.standings}


KINDS: Mapping[str, Callable[[Desk, OwnRuns, Place, State, Optional[int]], Pieces]] = {
    "breaking": breaking_pieces, "rescue": rescue_pieces, "ruin": impact_pieces, "unit": unit_pieces,
}
