"""Whom the ruin of a bank that stands would reach: what it keeps less itself, and what others then keep less."""
from typing import Dict, List, NamedTuple, Tuple

from clearing_client.records import Harm, Ruin

from ...drawing import lettering, svg
from ...labels import shown
from ...money import Scale
from ..matter import Matter
from ..words import counted
from .figure import HALF, PHONE, WIDE, Data, Figure, half, scale_of, step_words

MOST, MOST_NAMES = 10, 4  # banks that are drawn, and others that are named at each
NARROW = 500  # pixels below which names stand above their bars
ROW, WORDS, ABOVE = 30.0, 18, 16  # a row, what words below it take, and what a name above it takes
BAR, BASE, NAME, NOTE = 14.0, 11, 12, 12  # the height of a bar, from it down to a line, and the sizes of letters
BESIDE, LEAST_LEFT, MOST_LEFT = 32, 112.0, 200.0  # beside a name, and what names take
NUMBER, FIRST, BELOW = 58, 4.0, 28  # what a number behind a bar takes, and what stands above and below all rows


def ranked(matter: Matter) -> List[Ruin]:
    """The banks that stand, those first whose ruin others feel most; of a bank in default the harm is there already."""
    standing = [ruin for ruin in matter.ruins if matter.by_name[ruin.bank].state == "sound"]
    return sorted(standing, key=lambda ruin: (-ruin.others, -ruin.falls, -ruin.own))


def harmed(matter: Matter) -> Dict[str, List[Harm]]:
    """The others that keep less at the ruin of each bank, the most first."""
    by_bank: Dict[str, List[Harm]] = {}
    for harm in sorted(matter.harms, key=lambda harm: -harm.lost):
        if harm.bank != harm.of and harm.lost:
            by_bank.setdefault(harm.bank, []).append(harm)
    return by_bank


def title_of(matter: Matter, ruins: List[Ruin]) -> str:
    """The message: whose ruin reaches others, and by how much."""
    reach = [ruin for ruin in ruins if ruin.others]
    stand = f"the {counted(len(ruins))} that {'stands' if len(ruins) == 1 else 'stand'}"
    if not ruins:
        return "No bank stands whose ruin could reach others"
    if not reach:
        return f"Of {stand}, no ruin reaches another bank"
    most, only = reach[0], len(reach) == 1
    if only:
        whose = matter.in_sentence(most.bank)
        return f"Of {stand}, only the ruin of {whose} reaches others: {matter.amount(most.others)}"
    return (
        f"Of {stand}, {counted(len(reach), 'reaches', 'reach')} others by ruin; {matter.in_sentence(most.bank)}"
        f" most: {matter.amount(most.others)}"
    )


def words_of(matter: Matter, ruin: Ruin, harms: List[Harm], scale: Scale) -> str:
    """Whom a ruin reaches, and how many it brings into default."""
    named = ", ".join(f"{matter.in_sentence(harm.of)} {scale.number(harm.lost)}" for harm in harms[:MOST_NAMES])
    more = f" and {len(harms) - MOST_NAMES:,} more" if len(harms) > MOST_NAMES else ""
    falls = f"; {counted(ruin.falls)} then in default" if ruin.falls else ""
    return f"others {scale.number(ruin.others)}: {named}{more}{falls}"


class Layout(NamedTuple):
    """Where the bars of a chart stand: its width, where bars begin, the pixels that an amount of 1 has, and whether
    names stand above their bars."""

    width: float
    left: float
    size: float
    is_narrow: bool

    def height(self, ruin: Ruin) -> float:
        """How tall a row is."""
        return ROW + (WORDS if ruin.others else 0) + (ABOVE if self.is_narrow else 0)


def left_of(names: List[str], width: float) -> float:
    """Where the bars begin: behind the widest name, or at the left where names stand above them."""
    widest = max((lettering.width_of(name, NAME, True) for name in names), default=0.0)
    return 0.0 if width < NARROW else min(max(widest + BESIDE, LEAST_LEFT), MOST_LEFT)


def chart_of(matter: Matter, ruins: List[Ruin], scale: Scale, width: float) -> svg.Svg:
    """The chart at a width."""
    left = left_of([shown(matter.marked(ruin.bank)) for ruin in ruins], width)
    most = max((scale.value(ruin.own + ruin.others) for ruin in ruins), default=1.0)
    steps, places = scale_of(most, left, width - NUMBER)
    layout = Layout(width, left, (places[-1] - left) / steps[-1], width < NARROW)
    tall = sum(map(layout.height, ruins))
    chart = svg.Svg(width, tall + BELOW, f"Who keeps less if a bank that stands has no cash, {scale.words}")
    chart.axis(places, step_words(steps), 0, tall + FIRST)
    by_bank, y = harmed(matter), FIRST
    for ruin in ruins:
        words = words_of(matter, ruin, by_bank.get(ruin.bank, []), scale)
        one_row(chart, matter, ruin, (layout, scale), (y, words))
        y += layout.height(ruin)
    return chart


def one_row(
    chart: svg.Svg, matter: Matter, ruin: Ruin, sizes: Tuple[Layout, Scale], row: Tuple[float, str]
) -> None:
    """The row of a bank from some place down: its mark and name, what it keeps less and what others do, and words
    below."""
    (layout, scale), (y, words) = sizes, row
    left, name = layout.left, shown(matter.marked(ruin.bank))
    down = y + (ABOVE + 2 if layout.is_narrow else 2)
    chart.add(svg.mark("sound", 7, down + (-8 if layout.is_narrow else BAR / 2)))
    room = (layout.width if layout.is_narrow else left) - 28
    chart.text(20, down + (-4 if layout.is_narrow else BASE), lettering.cut(name, room, NAME, True), "nm2", title=name)
    own, others = layout.size * scale.value(ruin.own), layout.size * scale.value(ruin.others)
    chart.bar(left, down, own, BAR, "g", f"{name}: keeps {matter.money(ruin.own)} less")
    chart.bar(left + own, down, others, BAR, "k", f"others keep {matter.money(ruin.others)} less")
    chart.text(left + own + others + 5, down + BASE, scale.number(ruin.own + ruin.others), "sub halo")
    if ruin.others:
        chart.text(left, down + BAR + 14, lettering.cut(words, layout.width - left, NOTE), "sub halo")


def figure_of(matter: Matter) -> Figure:
    """The figure: the banks that stand, those whose ruin reaches others first."""
    ruins = ranked(matter)
    drawn = ruins[:MOST]
    scale = matter.money.short_scale_of(ruin.own + ruin.others for ruin in drawn)
    charts = half(*(chart_of(matter, drawn, scale, width) for width in (PHONE, WIDE, HALF)))
    rows: List[Tuple[object, ...]] = [(ruin.bank, ruin.cash, ruin.own, ruin.others, ruin.falls) for ruin in ruins]
    note = f"{counted(len(ruins) - len(drawn), 'bank')} more that stand: in the CSV." if len(ruins) > len(drawn) else ""
    unit = f"A bank has no cash: what it keeps less (grey) and what others do (dark), {scale.words}"
    data = Data(("bank", "cash", "keeps_less_itself", "others_keep_less", "then_in_default"), rows)
    return Figure("ruin", title_of(matter, ruins), unit, charts, "impact", data, note)
