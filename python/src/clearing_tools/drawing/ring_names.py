"""The names of the banks about the ring: level beside their banks, or along the rays where there are many."""
import math
from typing import List, NamedTuple, Tuple

from .. import runner
from . import lettering, svg
from .curves import Place

NAME, NOTE, STEP = 14, 12, 17  # the sizes of letters, and from line to line, in pixels
SIDE = 0.2  # from this cosine on a name stands left or right of its bank
REACH, RAY_REACH = 8, 6  # from a mark to its name
MIDDLE, RAY = 170.0, 118  # how wide a name above or below its bank is, and one along a ray
EDGE, GAP = 2, 2  # at the edge of the picture, and between two names
ABOVE, BELOW, BASE = 8, 15, 5  # from a mark up to the last line, down to the first, and from its middle to a line


class Name(NamedTuple):
    """A name beside its bank: its lines with their classes, where it stands, and how."""

    lines: List[Tuple[str, str]]
    x: float
    top: float
    anchor: str
    whole: str


def name_of(place: Place, called: str, note: str, wide: float) -> Name:
    """A name that is written level, outwards of its bank, in a picture so wide."""
    side = math.cos(place.angle)
    anchor = "middle" if abs(side) < SIDE else "start" if side > 0 else "end"
    x = place.x + (0 if anchor == "middle" else math.copysign(place.reach + REACH, side))
    room = {"start": wide - EDGE - x, "end": x - EDGE, "middle": MIDDLE}[anchor]
    called = runner.shown(called)
    lines = [(line, "nm") for line in lettering.lines_of(called, room, NAME, True)] + ([(note, "un")] if note else [])
    return Name(lines, x, top_of(place, anchor, len(lines)), anchor, called)


def top_of(place: Place, anchor: str, lines: int) -> float:
    """Where the first line of a name stands: beside its bank, or above or below it."""
    if anchor != "middle":
        return place.y + BASE - STEP * (lines - 1) / 2
    if math.sin(place.angle) < 0:
        return place.y - place.reach - STEP * lines + ABOVE
    return place.y + place.reach + BELOW


def spread(names: List[Name]) -> List[Name]:
    """The names of a side, from the top down, moved apart where they would overlap."""
    moved: List[Name] = []
    for name in sorted(names, key=lambda name: name.top):
        least = moved[-1].top + STEP * len(moved[-1].lines) + GAP if moved else -math.inf
        moved.append(name._replace(top=max(name.top, least)))
    return moved


def name_text(name: Name) -> str:
    """A name as text, with the whole of it on pointing."""
    shown = " ".join(line for line, kind in name.lines if kind == "nm")
    whole = svg.title_of(name.whole) if shown != name.whole else ""
    return "".join(
        svg.element(
            "text",
            {"x": name.x, "y": name.top + STEP * at, "class": kind, "text-anchor": name.anchor},
            svg.text_of(line),
            whole,
        )
        for at, (line, kind) in enumerate(name.lines)
    )


def ray_text(place: Place, called: str, note: str) -> str:
    """A name along the ray of its bank, where there are many."""
    is_turned = math.cos(place.angle) < -1e-9
    degrees = math.degrees(place.angle) + (180 if is_turned else 0)
    far = place.reach + RAY_REACH
    x, y = place.x + far * math.cos(place.angle), place.y + far * math.sin(place.angle)
    called = runner.shown(called)
    short = lettering.cut(called, RAY - (lettering.width_of(note, NOTE) + BASE if note else 0), NOTE, True)
    amount = svg.element("tspan", {"class": "un"}, f" {svg.text_of(note)}") if note else ""
    where = {"transform": f"translate({svg.numbers(x, y)}) rotate({degrees:.1f})"}
    anchor = {"text-anchor": "end" if is_turned else "start"}
    whole = svg.title_of(called) if short != called else ""
    return svg.element("text", {"class": "nm2", "dy": 4, **where, **anchor}, svg.text_of(short), amount, whole)
