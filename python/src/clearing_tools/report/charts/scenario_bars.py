"""The bars of the scenarios: what stays unpaid, in parts by bank, and what all keep less, both on one scale; below each
other on a phone, and beside each other on a page."""
from typing import Dict, List, NamedTuple, Tuple

from ...drawing import lettering, svg
from ...labels import shown
from ...money import Scale
from ..matter import Matter
from .cases import SEGMENTS, Case, leading
from .figure import LARGE, MIDDLE, PHONE, SMALL, WHOLE, WIDE, scale_of, step_words

ROW, NARROW_ROW, TOP = 74.0, 124.0, 32  # of a scenario on a page and on a phone, and above all rows, in pixels
BAR, NAME, NOTE, LINE = 20.0, 14, 12, 17  # the height of a bar, the sizes of letters, and from line to line
BASE, BELOW = 15, 37  # from a bar down to the line of the words beside it, and to those below it
LEFT, LEFT_LARGE, LARGE_FROM = 176.0, 272.0, 900  # what names take, and the width from which on they take more
NUMBER, GAP = 64, 40  # what a number behind a bar takes, and between the two rows of bars
LEAST_FIRST = 0.42  # what the first row of bars has at least, as a share of the second
STEP, PAST = 90, 1.08  # pixels for each step of an axis, and how far past the largest amount a step may be
LEAST = 1e-9  # an amount by which can be divided


def words_of(matter: Matter, amounts: Dict[str, int], scale: Scale, most: int) -> str:
    """The banks with the largest amounts, each with its own."""
    largest = sorted((name for name in amounts if amounts[name] > 0), key=lambda name: -amounts[name])
    named = [f"{matter.in_sentence(name)} {scale.number(amounts[name])}" for name in largest[:most]]
    more = f" and {len(largest) - most:,} more" if len(largest) > most else ""
    return ", ".join(named) + more if named else "nothing"


class Scene(NamedTuple):
    """What the two rows of bars share: the scale, the banks with parts of their own, the width and the pixels that an
    amount of 1 has."""

    matter: Matter
    scale: Scale
    names: List[str]
    wide: float
    size: float = 0.0

    def long(self, units: int) -> float:
        """How long an amount is."""
        return self.size * self.scale.value(units)

    def chart(self, height: float) -> svg.Svg:
        """An empty chart."""
        return svg.Svg(self.wide, height, f"Unpaid and what all keep less, by scenario, {self.scale.words}")

    def less_words(self, case: Case, most: int) -> str:
        """Which banks keep most less."""
        return f"most: {words_of(self.matter, case.less, self.scale, most)}"


def bars_unpaid(chart: svg.Svg, scene: Scene, case: Case, x: float, y: float) -> float:
    """The bar of what stays unpaid, in parts by bank; answers its end."""
    rest = case.total - sum(case.unpaid[name] for name in scene.names)
    for name, units in [*((name, case.unpaid[name]) for name in scene.names), ("others", rest)]:
        long = scene.long(units)
        called = "others" if name == "others" else shown(scene.matter.called(name))
        chart.bar(x, y, max(long - 1, 0.5) if units else 0, BAR, "u", f"{called}: {scene.matter.money(units)} unpaid")
        x += long
    return x


def narrow(scene: Scene, cases: List[Case]) -> svg.Svg:
    """The chart on a phone: the two bars of a scenario below its name."""
    most = max(max(case.total, case.cash) for case in cases)
    room = lettering.width_of(f"{scene.scale.number(most)} unpaid", NAME, True) + 10
    scene = scene._replace(size=(scene.wide - room) / max(scene.scale.value(most), LEAST))
    chart = scene.chart(NARROW_ROW * len(cases) + 8)
    for at, case in enumerate(cases):
        narrow_row(chart, scene, case, NARROW_ROW * at)
    return chart


def narrow_row(chart: svg.Svg, scene: Scene, case: Case, y: float) -> None:
    """A scenario on a phone: its name, what stays unpaid, and what all keep less."""
    number = scene.scale.number
    for line, name in enumerate(lettering.lines_of(case.name, scene.wide, NAME, True, 1)):
        chart.text(0, y + 20 + LINE * line, name, "nm", title=case.name)
    end = bars_unpaid(chart, scene, case, 0, y + 30)
    chart.text(end + 5, y + 30 + BASE, f"{number(case.total)} unpaid", "val")
    chart.bar(0, y + 70, scene.long(case.cash), BAR, "g")
    chart.text(scene.long(case.cash) + 5, y + 70 + BASE, number(case.cash), "num")
    label = f"kept less; {scene.less_words(case, 2)}" if case.cash else "kept less"
    chart.text(0, y + 106, lettering.cut(label, scene.wide, NOTE), "sub")


class Halves(NamedTuple):
    """Where the two rows of bars begin on a page: what stays unpaid, and what all keep less; and the largest amount of
    each, in the numbers of the scale."""

    left: float
    second: float
    most_unpaid: float
    most_less: float


def laid(scene: Scene, cases: List[Case]) -> Tuple[Scene, Halves]:
    """The chart on a page, with its scale and its two halves, of which the first has some room even where little is
    unpaid."""
    left = LEFT if scene.wide < LARGE_FROM else LEFT_LARGE
    most_unpaid = max(*(scene.scale.value(case.total) for case in cases), LEAST)
    most_less = max(*(scene.scale.value(case.cash) for case in cases), 0.0)
    first = max(most_unpaid, LEAST_FIRST * most_less)
    size = (scene.wide - left - 2 * NUMBER - GAP) / (first + most_less)
    return scene._replace(size=size), Halves(left, left + size * first + NUMBER + GAP, most_unpaid, most_less)


def draw_axes(chart: svg.Svg, scene: Scene, halves: Halves, bottom: float) -> None:
    """The heads and the axes of the two halves, both on one scale."""
    chart.text(halves.left, 14, "Unpaid", "hd")
    chart.text(halves.second, 14, "What all keep less", "hd")
    for x, most in ((halves.left, halves.most_unpaid), (halves.second, halves.most_less)):
        if most:
            steps, _ = scale_of(most, 0, 1, max(2, min(4, int(scene.size * most / STEP))))
            steps = [step for step in steps if step <= most * PAST or step == 0]
            chart.axis([x + scene.size * step for step in steps], step_words(steps), 24, bottom)


def wide_row(chart: svg.Svg, scene: Scene, case: Case, halves: Halves, y: float) -> None:
    """A scenario on a page: its name, what stays unpaid by bank, and beside it what all keep less."""
    matter, scale, left, second = scene.matter, scene.scale, halves.left, halves.second
    for line, name in enumerate(lettering.lines_of(case.name, left - 24, NAME, True, 3)):
        chart.text(0, y + BASE + LINE * line, name, "nm", title=case.name)
    end = bars_unpaid(chart, scene, case, left, y)
    chart.text(end + 6, y + BASE, scale.number(case.total), "val halo")
    unpaid = words_of(matter, case.unpaid, scale, SEGMENTS)
    chart.text(left, y + BELOW, lettering.cut(unpaid, second - left - 12, NOTE), "sub halo")
    chart.bar(second, y, scene.long(case.cash), BAR, "g")
    chart.text(second + scene.long(case.cash) + 6, y + BASE, scale.number(case.cash), "num halo")
    less = scene.less_words(case, 3) if case.cash else "nothing"
    chart.text(second, y + BELOW, lettering.cut(less, scene.wide - second, NOTE), "sub halo")


def wide(scene: Scene, cases: List[Case]) -> svg.Svg:
    """The chart on a page: names, what stays unpaid, and beside it on the same scale what all keep less."""
    scene, halves = laid(scene, cases)
    bottom = TOP + ROW * len(cases)
    chart = scene.chart(bottom + 24)
    draw_axes(chart, scene, halves, bottom)
    for at, case in enumerate(cases):
        wide_row(chart, scene, case, halves, TOP + 6 + ROW * at)
    return chart


def charts_of(matter: Matter, cases: List[Case], scale: Scale) -> Dict[str, svg.Svg]:
    """The chart at each width."""
    names = leading(cases)
    small, middle, large = (Scene(matter, scale, names, width) for width in (PHONE, WIDE, WHOLE))
    return {SMALL: narrow(small, cases), MIDDLE: wide(middle, cases), LARGE: wide(large, cases)}
