"""The debts of the ring as curves: bent towards its middle, as wide as what stays unpaid, with an arrow. The player of
a journal draws them by the same sizes, in `web/script/flows.mjs`."""
import math
from typing import NamedTuple, Tuple

from ..texts import Flow
from . import svg
from .drawn import unpaid_on

MOST_WIDTH, LEAST_WIDTH, PAID_WIDTH = 15.0, 2.0, 1.0  # of a debt, in pixels
CASE = 3  # by how much wider the ground about a debt is
LEAST_HEAD, HEAD, HEAD_MORE = 6.0, 0.95, 5  # the length of an arrow: in pixels, and by the width of the debt
BREADTH = 2.1  # by how much wider than half of the debt half of the arrow is
LEAVES = 0.8  # where a debt begins: within the mark, by how far that reaches
GAP = 3  # between an arrow and the bank
STRAIGHT = 1  # what is bent towards the middle less than this is bent the same way as all

Point = Tuple[float, float]
"""A point by its x and y, in pixels."""


class Place(NamedTuple):
    """Where a bank stands: its middle, its direction from the middle of the ring, how far its mark reaches, and the
    side of its square."""

    x: float
    y: float
    angle: float
    reach: float
    side: float


class Curve(NamedTuple):
    """A debt from one bank to another: where it begins, its bend, and the point of its arrow."""

    start: Point
    bend: Point
    end: Point

    def at(self, part: float) -> Point:
        """A point of the curve, from 0 at its begin to 1 at its end."""
        weights = (1 - part) ** 2, 2 * part * (1 - part), part * part
        x, y = (sum(weight * at for weight, at in zip(weights, axis)) for axis in zip(*self))
        return x, y

    def paths(self, width: float) -> Tuple[str, str]:
        """The line up to its arrow, and the arrow, for a line of this width."""
        angle = math.atan2(self.bend[1] - self.end[1], self.bend[0] - self.end[0])
        head = max(LEAST_HEAD, HEAD * width + HEAD_MORE)
        half = width / 2 + BREADTH
        neck = self.end[0] + head * math.cos(angle), self.end[1] + head * math.sin(angle)
        side = half * -math.sin(angle), half * math.cos(angle)
        left, right = (neck[0] + side[0], neck[1] + side[1]), (neck[0] - side[0], neck[1] - side[1])
        line = f"M{svg.numbers(*self.start)}Q{svg.numbers(*self.bend, *neck)}"
        return line, f"M{svg.numbers(*self.end)}L{svg.numbers(*left)}L{svg.numbers(*right)}z"


def curve_of(start: Place, end: Place, middle: Point, bent: float) -> Curve:
    """The curve from the edge of one bank's mark to that of another's, bent towards the middle of the ring."""
    dx, dy = end.x - start.x, end.y - start.y
    x, y = start.x + dx / 2, start.y + dy / 2
    inwards = (middle[1] - y) * dx - (middle[0] - x) * dy
    turn = math.copysign(bent, inwards) if abs(inwards) > STRAIGHT else bent
    bend = x - turn * dy, y + turn * dx
    leave = math.atan2(bend[1] - start.y, bend[0] - start.x)
    arrive = math.atan2(bend[1] - end.y, bend[0] - end.x)
    out, tip = start.reach * LEAVES, end.reach + GAP
    begin = start.x + out * math.cos(leave), start.y + out * math.sin(leave)
    return Curve(begin, bend, (end.x + tip * math.cos(arrive), end.y + tip * math.sin(arrive)))


def width_for(unpaid: int, most: int) -> float:
    """The width of a debt of which so much stays unpaid, where the most is so much."""
    return max(LEAST_WIDTH, MOST_WIDTH * min(1.0, unpaid / most)) if unpaid and most else PAID_WIDTH


def flow_of(at: int, flow: Flow, curve: Curve, width: float, title: str) -> str:
    """A debt: a line and an arrow, with a gap about it where it is wide."""
    line, tip = curve.paths(width)
    points = svg.numbers(*curve.start, *curve.bend, *curve.end)
    kind = "flow" if unpaid_on(flow) else "flow done"
    return svg.element(
        "g",
        {"class": kind, "data-flow": at, "data-curve": points},
        svg.title_of(title),
        svg.element("path", {"class": "case", "d": line, "stroke-width": width + CASE}),
        svg.element("path", {"class": "line", "d": line, "stroke-width": width}),
        svg.element("path", {"class": "tip", "d": tip}),
    )
