"""A figure of a report: its message, its unit, the chart at some widths, where it comes from, and its numbers as a
table."""
from typing import Dict, List, NamedTuple, Sequence, Tuple

from ...drawing.svg import Svg, steps_to

PHONE, HALF, WIDE, WHOLE = 352, 576, 704, 1184
SMALL, MIDDLE, LARGE = "w-s", "w-m", "w-l"


class Data(NamedTuple):
    """A table as numbers: the names of its columns, and its rows. Amounts are exact."""

    columns: Sequence[str]
    rows: Sequence[Sequence[object]]


class Figure(NamedTuple):
    """A figure: `charts` are the same chart by the widths at which it is shown, `key` is a word for links, `tasks`
    what the program was asked, `note` a line below it."""

    key: str
    title: str
    unit: str
    charts: Dict[str, Svg]
    tasks: str
    data: Data
    note: str = ""


def half(small: Svg, middle: Svg, large: Svg) -> Dict[str, Svg]:
    """A chart that stands beside another on a wide page."""
    return {SMALL: small, MIDDLE: middle, LARGE: large}


def scale_of(most: float, left: float, right: float, count: int = 4) -> Tuple[List[float], List[float]]:
    """The steps of a scale from 0, and their places between two places."""
    steps = steps_to(most, count)
    return steps, [left + (right - left) * step / steps[-1] for step in steps]


def unparted(text: str) -> str:
    """A sentence as a picture has it, which has no line to break: a number and its unit with a plain blank between."""
    return text.replace("\u00a0", " ")


def step_words(steps: Sequence[float]) -> List[str]:
    """The steps of a scale as text, all with as many decimals as one needs."""
    places = max((len(f"{step:.6f}".rstrip("0").partition(".")[2]) for step in steps), default=0)
    return [f"{step:,.{places}f}" for step in steps]
