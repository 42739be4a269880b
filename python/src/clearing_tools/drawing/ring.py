"""A network of at most 40 banks as a ring: banks keep their places, what is paid is thin and grey, what stays unpaid
has the accent.

The width of a debt is the amount that stays unpaid, the area of a bank what it leaves unpaid, both from zero; the
least marks are a debt of 2 pixels and a bank of 12. The ten largest amounts are written."""
import math
from typing import Dict, List, Optional, Sequence, Tuple

from ..texts import Bank, Flow, shortfall_of
from . import lettering, svg
from .curves import Curve, Place, Point, curve_of, flow_of, width_for
from .drawn import Drawn, Legend, Speech, sample, states_in, unpaid_on
from .ring_names import NOTE, STEP, Name, name_of, name_text, ray_text, spread

WIDTH, HEIGHT, MORE_HEIGHT = 752.0, 496.0, 120  # of the picture; what names that stand across it take more
RADIUS = 206.0
MOST_BANKS = 40
MOST_LEVEL = 16  # so many banks have names that are written level; more have names along the rays
MOST_AMOUNTS = 10
MOST_SIDE, LEAST_SIDE = 50.0, 12.0  # of a bank
REACH, LEAST_REACH, MORE_REACH = 0.62, 0.6, 2  # how far a mark reaches, by its side: one of an area, and the least
OUTSIDE = 18  # the side of the world outside
ROUND, ROUND_SAMPLE = 4, 3  # the radius of its corners, and of those of its sample
SOUND = 5.6  # the radius of a bank that pays all
SIDE_TO_RADIUS = 1.78  # of the mark of a state
BEND, BEND_BACK = 0.17, 0.07  # towards the middle; of two debts between two banks the second is bent less
ALONG = (0.5, 0.42, 0.58, 0.34, 0.66, 0.26, 0.74)  # where an amount may stand on its debt, the best first
AMOUNT = (-8, 7)  # from the middle of an amount up and down
BASE = 4  # from the middle of a word down to its line
BELOW = 6  # below the last line of a name

Box = Tuple[float, float, float, float]
"""Left, top, right and bottom."""


def side_of(bank: Bank, most: int) -> float:
    """The side of the square of a bank's area, which is what it leaves unpaid; a bank that pays all has the least."""
    unpaid = shortfall_of(bank)
    return max(LEAST_SIDE, MOST_SIDE * math.sqrt(unpaid / most)) if bank.state != "sound" and most else LEAST_SIDE


def height_of(count: int) -> float:
    """How tall a ring of so many places is: one with many has names that stand across it."""
    return HEIGHT if count <= MOST_LEVEL else HEIGHT + MORE_HEIGHT


def places_of(banks: Sequence[Bank], has_outside: bool) -> Dict[Optional[str], Place]:
    """Where each bank stands, clockwise from the top in the order of the file; last the world outside, where
    something is owed there."""
    most = max((shortfall_of(bank) for bank in banks), default=0)
    names: List[Optional[str]] = [bank.name for bank in banks]
    sides = [side_of(bank, most) for bank in banks]
    if has_outside:
        names, sides = [*names, None], [*sides, float(OUTSIDE)]
    tall = height_of(len(names))
    places: Dict[Optional[str], Place] = {}
    for at, (name, side) in enumerate(zip(names, sides)):
        angle = 2 * math.pi * at / max(len(names), 1) - math.pi / 2
        reach = side * (REACH if name is None or side > LEAST_SIDE else LEAST_REACH) + MORE_REACH
        x, y = WIDTH / 2 + RADIUS * math.cos(angle), tall / 2 + RADIUS * math.sin(angle)
        places[name] = Place(x, y, angle, reach, side)
    return places


def box_about(point: Point, half: float) -> Box:
    """A square about a point."""
    return point[0] - half, point[1] - half, point[0] + half, point[1] + half


def box_of_amount(point: Point, half: float) -> Box:
    """The box of an amount at a point, by half of its width."""
    return point[0] - half, point[1] + AMOUNT[0], point[0] + half, point[1] + AMOUNT[1]


def overlaps(one: Box, other: Box) -> bool:
    """Whether two boxes overlap."""
    return one[0] < other[2] and other[0] < one[2] and one[1] < other[3] and other[1] < one[3]


def outside_mark(x: float, y: float, side: int, round_: int) -> str:
    """The mark of the world outside, by its upper left corner."""
    return svg.element(
        "rect", {"class": "n-outside", "x": x, "y": y, "width": side, "height": side, "rx": round_}
    )


def amount_at(point: Point, word: str) -> str:
    """An amount in words at a point of its debt."""
    x, y = point
    where: svg.Attributes = {"x": x, "y": y + BASE, "class": "amt", "text-anchor": "middle"}
    return svg.element("text", where, svg.text_of(word))


class Ring:
    """The drawing of a ring, part by part."""

    def __init__(self, flows: Sequence[Flow], banks: Sequence[Bank], speech: Speech) -> None:
        self.flows, self.banks, self.speech = list(flows), banks, speech
        self.places = places_of(banks, any(flow.creditor is None for flow in flows))
        self.most = max(map(unpaid_on, flows), default=0)
        self.is_level = len(self.places) <= MOST_LEVEL
        self.notes: Dict[Optional[str], str] = {bank.name: self.note(bank) for bank in banks}
        self.laid = self.level_names() if self.is_level else {}
        self.curves = self.curves_of()

    def curves_of(self) -> List[Curve]:
        """The curves of the flows; of two between two banks the one of which less stays unpaid is bent less."""
        unpaid = {(flow.debtor, flow.creditor): (unpaid_on(flow), flow.debtor) for flow in self.flows}
        middle, curves = (WIDTH / 2, height_of(len(self.places)) / 2), []
        for flow in self.flows:
            back = unpaid.get((flow.creditor or "", flow.debtor))
            bent = BEND_BACK if back is not None and back > unpaid[flow.debtor, flow.creditor] else BEND
            curves.append(curve_of(self.places[flow.debtor], self.places[flow.creditor], middle, bent))
        return curves

    def debts(self) -> str:
        """The debts, those that are paid first, and thin above wide."""

        def rank(at: int) -> Tuple[bool, int]:
            return unpaid_on(self.flows[at]) > 0, unpaid_on(self.flows[at])

        return "".join(map(self.debt, sorted(range(len(self.flows)), key=rank)))

    def debt(self, at: int) -> str:
        """A debt by its place."""
        flow = self.flows[at]
        width = width_for(unpaid_on(flow), self.most)
        return flow_of(at, flow, self.curves[at], width, self.speech.flow(flow))

    def amounts(self) -> str:
        """The largest amounts, each on its debt where there is room."""
        unpaid = [at for at in range(len(self.flows)) if unpaid_on(self.flows[at])]
        largest = sorted(unpaid, key=lambda at: -unpaid_on(self.flows[at]))[:MOST_AMOUNTS]
        taken = [box_about((place.x, place.y), place.side / 2) for place in self.places.values()]
        parts = []
        for at in largest:
            word = self.speech.scale.number(unpaid_on(self.flows[at]))
            half = lettering.width_of(word, NOTE, True) / 2 + BASE
            free = self.free_point(at, half, taken)
            if free is not None:
                taken.append(box_of_amount(free, half))
                parts.append(amount_at(free, word))
        return "".join(parts)

    def free_point(self, at: int, half: float, taken: Sequence[Box]) -> Optional[Point]:
        """Where on a debt an amount stands over no other and over no bank; nothing where there is no such place."""
        points = map(self.curves[at].at, ALONG)
        return next(
            (point for point in points if not any(overlaps(box_of_amount(point, half), other) for other in taken)), None
        )

    def note(self, bank: Bank) -> str:
        """What stands beside a bank's name: what it leaves unpaid."""
        if bank.state == "sound":
            return ""
        unpaid = shortfall_of(bank)
        word = self.speech.scale.number(unpaid)
        return f"{word} unpaid" if self.is_level and unpaid else word if unpaid else "in default"

    def called(self, name: Optional[str]) -> str:
        """What a bank is called, or the world outside."""
        return "outside" if name is None else self.speech.say(name)

    def level_names(self) -> Dict[Optional[str], Name]:
        """The names that are written level, by the banks, on each side moved apart."""
        names = {
            name: name_of(place, self.called(name), self.notes.get(name, ""), WIDTH)
            for name, place in self.places.items()
        }
        for anchor in ("start", "end"):
            side = [name for name in names if names[name].anchor == anchor]
            for old, new in zip(sorted(side, key=lambda name: names[name].top), spread([names[name] for name in side])):
                names[old] = new
        return names

    def names(self) -> Dict[Optional[str], str]:
        """The names as text, by the banks."""
        if self.is_level:
            return {name: name_text(one) for name, one in self.laid.items()}
        return {
            name: ray_text(place, self.called(name), self.notes.get(name, "")) for name, place in self.places.items()
        }

    def nodes(self) -> str:
        """The banks, each with its name, a link where there is something to link to; and the world outside."""
        names = self.names()
        parts = [self.node(bank, names[bank.name]) for bank in self.banks]
        if None in self.places:
            place = self.places[None]
            parts.append(outside_mark(place.x - OUTSIDE / 2, place.y - OUTSIDE / 2, OUTSIDE, ROUND) + names[None])
        return "".join(parts)

    def node(self, bank: Bank, name: str) -> str:
        """A bank with its name."""
        place = self.places[bank.name]
        radius = place.side / SIDE_TO_RADIUS if bank.state != "sound" else SOUND
        return self.speech.node(bank, svg.mark(bank.state, place.x, place.y, radius, f"n n-{bank.state}") + name)

    def box(self) -> List[float]:
        """The box that the drawing fills: taller than the ring where names above or below it need that."""
        tops = [name.top - STEP for name in self.laid.values()]
        ends = [name.top + STEP * (len(name.lines) - 1) + BELOW for name in self.laid.values()]
        tall = height_of(len(self.places))
        return [0.0, min([0.0, *tops]), WIDTH, max([tall, *ends])]


def draw(flows: Sequence[Flow], banks: Sequence[Bank], speech: Speech) -> Drawn:
    """The network as a ring."""
    ring = Ring(flows, banks, speech)
    body = ring.debts() + ring.nodes() + ring.amounts()
    own = {bank.name: bank.name for bank in banks}
    return Drawn(body, ring.box(), legend_of(banks, None in ring.places), ring.flows, own, own, ring.most)


def legend_of(banks: Sequence[Bank], has_outside: bool) -> Legend:
    """What the lines and marks of a ring mean."""
    has_unpaid = any(bank.state != "sound" for bank in banks)
    unpaid = sample('<g class="flow"><path class="line" d="M0 8H28" stroke-width="6"/></g>')
    paid = sample('<g class="flow done"><path class="line" d="M0 8H28"/></g>')
    outside = sample(outside_mark(1, 1, svg.MARK - 2, ROUND_SAMPLE), svg.MARK)
    return [
        *[(unpaid, "unpaid; width: the amount")] * has_unpaid,
        (paid, "paid in full"),
        *states_in(banks),
        *[(outside, "the world outside, which is paid first")] * has_outside,
        *[("", "Area of a bank: what it leaves unpaid.")] * has_unpaid,
    ]
