"""The states of banks before and after a change, as labels: gridlock is contagion at the least payments alone."""
from typing import List, Mapping, NamedTuple


def plain(state: str) -> str:
    """A state without gridlock, as a task tells it that looks at the least payments alone."""
    return "contagion" if state == "gridlock" else state


class Moved(NamedTuple):
    """Banks that stand otherwise than before: those that are newly in default, those that are so no more, and those
    with the other label."""

    fallen: List[str]
    saved: List[str]
    other: List[str]


def moved(before: Mapping[str, str], after: Mapping[str, str]) -> Moved:
    """The banks whose states are others than before, in the order of those after; gridlock is contagion."""
    found = Moved([], [], [])
    for name, state in after.items():
        if plain(state) != plain(before[name]):
            group = found.fallen if before[name] == "sound" else found.saved if state == "sound" else found.other
            group.append(name)
    return found
