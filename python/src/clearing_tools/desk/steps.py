"""The states of a session by their numbers, and those that are kept under a name.

A state is held as the change that led to it, and some as they are: thousands of states of a large network share what
they do not change."""
import threading
from collections import OrderedDict
from typing import Dict, List, Mapping, NamedTuple, Optional

from .. import runner
from . import state as states
from .state import Base, State

MOST_STATES = 10_000
MOST_KEPT, MOST_NOTE = 100, 2000
EACH = 64  # of so many changes in a row the state is held as it is
MOST_RECENT = 32


class Step(NamedTuple):
    """How a state was reached: the number of the one before, and the change; none for a state that was there at the
    beginning."""

    before: Optional[int]
    change: Mapping[str, object]
    depth: int  # changes since the last state that is held as it is


class Kept(NamedTuple):
    """A state under a name."""

    name: str
    state: int
    note: str = ""


class Steps:
    """The states of a session by their numbers, from 0, which is as it is."""

    def __init__(self) -> None:
        self.steps: List[Step] = [Step(None, {}, 0)]
        self.held: Dict[int, State] = {0: states.AS_IT_IS}
        self.recent: "OrderedDict[int, State]" = OrderedDict()
        self.lock = threading.Lock()

    def __len__(self) -> int:
        return len(self.steps)

    def state(self, base: Base, number: int) -> State:
        """The state of a number: from the nearest one that is held, by the changes since."""
        with self.lock:
            changes: List[Mapping[str, object]] = []
            at = number
            while at not in self.held and at not in self.recent:
                step = self.steps[at]
                changes.append(step.change)
                assert step.before is not None
                at = step.before
            state = self.held[at] if at in self.held else self.recent[at]
            for change in reversed(changes):
                state = states.changed(base, state, change)
            self.remember(number, state)
            return state

    def remember(self, number: int, state: State) -> None:
        """Holds a state for a while."""
        self.recent[number] = state
        self.recent.move_to_end(number)
        while len(self.recent) > MOST_RECENT:
            self.recent.popitem(last=False)

    def add(self, state: State, before: int, change: Mapping[str, object], is_same: bool) -> int:
        """The number of a state that was reached from another by a change; that of the other where nothing is changed
        by it."""
        if is_same:
            return before
        with self.lock:
            self.check_room()
            depth = self.steps[before].depth + 1
            number = len(self.steps)
            if depth >= EACH:
                self.held[number], depth = state, 0
            self.steps.append(Step(before, {key: value for key, value in change.items() if key != "from"}, depth))
            self.remember(number, state)
            return number

    def put(self, state: State) -> int:
        """The number of a state that is there at the beginning: one step behind the state as it is."""
        with self.lock:
            if state == states.AS_IT_IS:
                return 0
            self.check_room()
            self.held[len(self.steps)] = state
            self.steps.append(Step(0, {}, 0))
            return len(self.steps) - 1

    def check_room(self) -> None:
        """Fails where there are as many states as a desk has."""
        if len(self.steps) >= MOST_STATES:
            raise runner.ToolError(f"a desk has {MOST_STATES:,} states at most; save the session, and open it again")

    def line(self, number: int) -> List[int]:
        """The states from the first one to this."""
        line = [number]
        while (before := self.steps[line[-1]].before) is not None:
            line.append(before)
        return line[::-1]


class Shelf:
    """The states that are kept under names, in order; no two have one name."""

    def __init__(self) -> None:
        self.kept: List[Kept] = [Kept("As it is", 0)]
        self.lock = threading.Lock()

    def keep(self, name: str, state: int, note: str) -> None:
        """Keeps a state under a name, in place of what had the name; the first stays as it is."""
        with self.lock:
            place = next((at for at, one in enumerate(self.kept) if one.name == name), len(self.kept))
            if states.NO_LINE.search(name) or runner.shown(name) != name:
                raise states.InvalidFieldError("a name is one line, and each of its signs can be seen", "keep-name")
            if place == 0:
                raise states.InvalidFieldError(f"“{self.kept[0].name}” is the name of the state as it is", "keep-name")
            if place >= MOST_KEPT:
                raise states.InvalidFieldError(f"a desk keeps {MOST_KEPT} states at most", "keep-name")
            self.kept[place:place + 1] = [Kept(name, state, note)]

    def drop(self, name: str) -> None:
        """Keeps a state no more; the first stays."""
        with self.lock:
            self.kept = self.kept[:1] + [one for one in self.kept[1:] if one.name != name]
