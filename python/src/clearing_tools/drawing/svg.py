"""Drawings as SVG: elements, marks of states, and a chart of texts, bars and lines, by classes whose style stands in
web/charts.css."""
import math
from typing import Dict, List, Mapping, Optional, Sequence, Union
from xml.sax.saxutils import escape

from . import tokens

Attributes = Mapping[str, Union[str, int, float]]
"""The attributes of an element, in their order."""
MARK = 16  # the side of the box of a mark beside a name
# The sizes of marks by their radius, so that their areas are about the same.
CIRCLE, SQUARE, DIAMOND = 0.9, 1.78, 1.26  # the radius, the side, and half of the width
TRIANGLE = 1.35, 1.2 * 1.17, 0.8 * 1.17  # half of its base, and how far it is above and below the middle


def text_of(text: str) -> str:
    """Text within XML. Names in it can be read already: a code that stands for a sign is not shown as a code again."""
    return escape(text, {'"': "&quot;"})


def numbers(*values: float) -> str:
    """Numbers as an element has them, each with one decimal."""
    return " ".join(f"{value:.1f}" for value in values)


def element(tag: str, attributes: Attributes, *inner: str) -> str:
    """An element with its attributes in their order, each a text, a whole number or one with one decimal; and the
    markup within it."""
    texts: Dict[str, str] = {
        name: numbers(value) if isinstance(value, float) else text_of(str(value)) for name, value in attributes.items()
    }
    head = "".join([tag, *(f' {name}="{text}"' for name, text in texts.items())])
    body = "".join(inner)
    return f"<{head}>{body}</{tag}>" if body else f"<{head}/>"


def title_of(text: str) -> str:
    """What an element says where it is pointed at; nothing of no text."""
    return element("title", {}, text_of(text)) if text else ""


def mark(state: str, x: float, y: float, radius: float = 5.6, kind: str = "") -> str:
    """The mark of a state about a point: a circle, a square, a diamond or a triangle of about the same area."""
    name, x, y = kind or f"m-{state}", float(x), float(y)
    if state == "sound":
        return element("circle", {"class": name, "cx": x, "cy": y, "r": CIRCLE * radius})
    if state == "fundamental":
        side = SQUARE * radius
        return element(
            "rect", {"class": name, "x": x - side / 2, "y": y - side / 2, "width": side, "height": side}
        )
    if state == "contagion":
        half = DIAMOND * radius
        steps = f"l{numbers(half, half)}l{numbers(-half, half)}l{numbers(-half, -half)}"
        return element("path", {"class": name, "d": f"M{numbers(x, y - half)}{steps}z"})
    wide, up, down = (part * radius for part in TRIANGLE)
    return element("path", {"class": name, "d": f"M{numbers(x, y - up)}L{numbers(x + wide, y + down)}H{x - wide:.1f}z"})


def icon(state: str, words: str) -> str:
    """The mark of a state beside a text."""
    box: Attributes = {"class": "ico", "viewBox": f"0 0 {MARK} {MARK}", "width": MARK, "height": MARK}
    return element("svg", {**box, "role": "img", "aria-label": words}, mark(state, MARK / 2, MARK / 2))


def steps_to(most: float, count: int = 4) -> List[float]:
    """Round numbers from 0 to the least one that is not below the greatest amount, about so many."""
    if most <= 0:
        return [0.0, 1.0]
    size = 10.0 ** math.floor(math.log10(most / count))
    step = next(size * factor for factor in (1, 2, 2.5, 5, 10) if size * factor * count >= most * 0.999)
    return [step * at for at in range(math.ceil(most / step - 1e-9) + 1)]


class Svg:
    """A chart of a width and a height in pixels, which grows by what is drawn into it."""

    def __init__(self, width: float, height: float, label: str, kind: str = "chart") -> None:
        self.width, self.height, self.label, self.kind = width, height, label, kind
        self.parts: List[str] = []

    def add(self, part: str) -> None:
        """Adds a part as it is."""
        self.parts.append(part)

    def text(self, x: float, y: float, text: str, kind: str, anchor: str = "start", title: str = "") -> None:
        """A text of a class; with the whole of it on pointing, where a title is given."""
        place: Attributes = {"x": float(x), "y": float(y), "class": kind, "text-anchor": anchor}
        self.add(element("text", place, text_of(text), title_of(title if title != text else "")))

    def bar(self, x: float, y: float, width: float, height: float, kind: str, title: str = "") -> None:
        """A bar of a class; one that is not 0 is at least a pixel wide."""
        if width > 0:
            box: Attributes = {"x": float(x), "y": float(y), "width": float(max(width, 1)), "height": float(height)}
            self.add(element("rect", {"class": kind, **box}, title_of(title)))

    def line(self, d: str, kind: str) -> None:
        """A line of a class along a path."""
        self.add(element("path", {"class": kind, "d": d}))

    def axis(self, at: Sequence[float], words: Sequence[str], top: float, bottom: float) -> None:
        """Vertical lines of a scale, with a word below each."""
        for x, word in zip(at, words):
            self.line(f"M{x:.1f} {top:.1f}V{bottom:.1f}", "grid")
            self.text(x, bottom + 16, word, "ax", "middle" if x > 8 else "start")

    def whole(self, style: Optional[str] = None, ground: bool = False) -> str:
        """The chart as an element of a page, or with a style as a file of its own."""
        wide, tall = f"{self.width:.0f}", f"{self.height:.0f}"
        file: Attributes = {"xmlns": "http://www.w3.org/2000/svg"} if style else {}
        box: Attributes = {"class": self.kind, "viewBox": f"0 0 {wide} {tall}", "width": wide, "height": tall}
        words: Attributes = {"role": "img" if self.kind == "chart" else "group", "aria-label": self.label}
        inner = [element("style", {}, style)] if style else []
        inner += [element("rect", {"class": "ground", "width": "100%", "height": "100%"})] if ground else []
        return element("svg", {**file, **box, **words}, *inner, *self.parts)


def style_of() -> str:
    """The style of charts in light colours, for a file of its own."""
    text = (tokens.FILE.parent / "charts.css").read_text(encoding="utf-8")
    for name, value in tokens.tokens_of("light").items():
        text = text.replace(f"var(--{name})", value)
    return " ".join(text.split())
