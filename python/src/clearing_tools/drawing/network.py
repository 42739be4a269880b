"""The network as SVG: a ring of up to 40 banks, else a matrix by blocks, each with its legend."""
from typing import Optional, Sequence

from ..money import Money, Scale
from ..texts import Bank, Flow, shortfall_of
from . import blocks, lettering, ring, svg
from .drawn import Drawn, Link, Say, Speech, unpaid_on
from .ring import MOST_BANKS

FORMS = ("graph", "matrix")
TITLE, BELOW, WORDS = 18, 14, 12  # the sizes of letters, in pixels
TITLE_STEP, BELOW_STEP, WORDS_STEP = 24, 19, 17  # from line to line
MOST_LINES = 4  # of a text
LEAST_WIDE, EDGE, FIRST, LEGEND = 560, 16, 28.0, 56  # the least width, the margin, the first line, words of the legend


def is_small(banks: Sequence[Bank]) -> bool:
    """Whether the network is drawn as a ring."""
    return len(banks) <= MOST_BANKS


def scale_for(flows: Sequence[Flow], banks: Sequence[Bank], money: Money) -> Scale:
    """The scale in which the amounts of a picture are written."""
    return money.short_scale_of([*map(unpaid_on, flows), *map(shortfall_of, banks)])


def drawing_of(
    flows: Sequence[Flow],
    banks: Sequence[Bank],
    money: Money,
    form: Optional[str] = None,
    link: Link = None,
    say: Say = str,
) -> Drawn:
    """A network of few banks as a ring, else as a matrix. `link` gives what a bank links to in the report, and `say`
    what a bank of a name is called."""
    form = form or ("graph" if is_small(banks) else "matrix")
    work = ring.draw if form == "graph" else blocks.draw
    return work(flows, banks, Speech(money, scale_for(flows, banks, money), link, say))


def texts_on(chart: svg.Svg, lines: Sequence[str], at: float, x: float, kind: str, step: int) -> float:
    """Writes lines of a text below each other, and answers where the next one stands."""
    for line in lines:
        chart.text(x, at, line, kind)
        at += step
    return at


def picture(drawn: Drawn, title: str, below: str) -> str:
    """A whole SVG file: the title, the unit below it, the drawing, and the legend."""
    x0, y0, x1, y1 = drawn.box
    wide = max(x1 - x0, LEAST_WIDE) + 2 * EDGE
    inner = wide - 2 * EDGE
    chart, at = svg.Svg(wide, 0, title, "net chart"), FIRST
    for text, size, kind, step in ((title, TITLE, "tt", TITLE_STEP), (below, BELOW, "sub", BELOW_STEP)):
        lines = lettering.lines_of(plain(text), inner, size, kind == "tt", MOST_LINES)
        at = texts_on(chart, lines, at, EDGE, kind, step)
    at += 4
    chart.add(f'<g transform="translate({svg.numbers(EDGE + (inner - (x1 - x0)) / 2 - x0, at - y0)})">{drawn.body}</g>')
    at += y1 - y0 + 24
    for sample, words in drawn.legend:
        if sample:
            chart.add(f'<g transform="translate({EDGE} {at - WORDS:.1f})">{sample}</g>')
        lines = lettering.lines_of(plain(words), wide - LEGEND - 24, WORDS, False, MOST_LINES)
        at = texts_on(chart, lines, at, LEGEND, "sub", WORDS_STEP) + 3
    chart.height = at
    return chart.whole(svg.style_of(), ground=True) + "\n"


def plain(text: str) -> str:
    """A text as a picture has it, which breaks lines at blanks alone: a number and its unit may part."""
    return text.replace("\u00a0", " ")
