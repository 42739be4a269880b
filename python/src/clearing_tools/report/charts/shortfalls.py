"""What each bank leaves unpaid, and the least rescue that lets it pay in full."""
from typing import List, NamedTuple, Optional, Tuple

from ...drawing import lettering, svg
from ...labels import shown
from ...money import Scale
from ...texts import Bank, due_of, shortfall_of
from ..matter import Matter
from ..records import Rescue
from ..words import counted
from .figure import HALF, PHONE, WIDE, Data, Figure, half, scale_of, step_words, unparted

MOST, MOST_NARROW = 8, 6  # of the bars, and on a phone and on paper
NARROW = 500  # pixels below which names stand above their bars
ROW, BAR, LEFT, BESIDE = 64.0, 20.0, 150.0, 22  # from bar to bar, its height, what names take, and what a mark takes
NAME, SMALL, LINE = 14, 12, 17  # the sizes of letters, and from line to line
BASE, BELOW = 15, 36  # from a bar down to the line of the words beside it, and to those below it
AXIS, REST = 24, 28  # what the axis takes, and the words on all other banks
MOST_SAVED = 2  # banks that are named


def best_of(matter: Matter) -> Optional[Rescue]:
    """The rescue that takes most of unpaid debt away for each unit of money."""
    tried = [rescue for rescue in matter.rescues if rescue.less is not None and rescue.added > 0]
    return max(tried, key=ratio_of) if tried else None


def ratio_of(rescue: Rescue) -> float:
    """What a unit of money takes of unpaid debt away."""
    return (rescue.less or 0) / rescue.added


def title_of(matter: Matter) -> str:
    """The message: which rescue takes most away for each unit of money."""
    best = best_of(matter)
    if best is None:
        return "No bank leaves anything unpaid"
    one = f"{matter.money.currency}\u00a01" if matter.money.currency else "A unit"
    gone = f"{matter.money.currency}\u00a0{ratio_of(best):.2f}" if matter.money.currency else f"{ratio_of(best):.2f}"
    tried = sum(rescue.less is not None for rescue in matter.rescues)
    if tried == 1:
        return f"{matter.in_sentence(best.bank)} alone leaves debts unpaid"
    of = f"the {counted(tried)} in default" if tried == len(matter.rescues) else f"{tried} tried"
    return f"{one} for {matter.in_sentence(best.bank)} takes {gone} of unpaid debt away, the most of {of}"


def words_of(matter: Matter, bank: Bank, scale: Scale) -> str:
    """What stands below a bar: the least rescue, and what it does."""
    rescue = matter.rescue_of.get(bank.name)
    if rescue is None:
        return ""
    words = f"rescue {scale.number(rescue.added)}"
    if rescue.less is not None:
        words += f", takes {scale.number(rescue.less)} of unpaid away"
    if rescue.saves:
        words += (
            f", saves {matter.listed(rescue.saves, MOST_SAVED)} too"
            if len(rescue.saves) <= MOST_SAVED
            else f", saves {len(rescue.saves)} more"
        )
    return words


class Layout(NamedTuple):
    """Where the bars of a chart stand: its width, where bars begin, the first of them, from bar to bar, and the pixels
    that an amount of 1 has."""

    wide: float
    left: float
    top: float
    row: float
    size: float


def largest_in(matter: Matter, bank: Bank) -> int:
    """The largest amount of a bank: what it leaves unpaid, or its least rescue."""
    rescue = matter.rescue_of.get(bank.name)
    return max(shortfall_of(bank), rescue.added if rescue else 0)


def chart_of(matter: Matter, banks: List[Bank], scale: Scale, wide: float) -> svg.Svg:
    """The chart at a width: on a narrow one names stand above their bars."""
    is_narrow = wide < NARROW
    left, top, row = (0.0, 24.0, ROW + 12) if is_narrow else (LEFT, 12.0, ROW)
    rest, tall = len(matter.fallen) - len(banks), row * len(banks)
    chart = svg.Svg(wide, tall + (REST if rest else 0) + AXIS, f"Unpaid by bank, {scale.words}")
    amounts = [largest_in(matter, bank) for bank in banks]
    room = max((lettering.width_of(scale.number(amount), NAME, True) for amount in amounts), default=40.0) + 16
    steps, places = scale_of(max(map(scale.value, amounts), default=1.0), left, wide - room, 3 if is_narrow else 4)
    chart.axis(places, step_words(steps), 0, tall)
    layout = Layout(wide, left, top, row, (places[-1] - left) / steps[-1])
    for at, bank in enumerate(banks):
        one_bar(chart, matter, bank, scale, layout, at)
    if rest:
        gone = sum(map(shortfall_of, matter.fallen[len(banks) :]))
        words = f"{counted(rest, 'other')} leave {unparted(matter.amount(gone))} unpaid"
        chart.text(left, tall + 44, words, "sub")
    return chart


def name_at(chart: svg.Svg, bank: Bank, name: str, layout: Layout, y: float) -> None:
    """The mark and the name of a bank: beside its bar, or above it."""
    if layout.left:
        chart.add(svg.mark(bank.state, 8, y + BAR / 2))
        for at, line in enumerate(lettering.lines_of(name, layout.left - 30, NAME, True)):
            chart.text(BESIDE, y + BASE + LINE * at, line, "nm", title=name)
    else:
        chart.add(svg.mark(bank.state, 8, y - 9))
        chart.text(BESIDE, y - 4, lettering.cut(name, layout.wide - 24, NAME, True), "nm", title=name)


def one_bar(chart: svg.Svg, matter: Matter, bank: Bank, scale: Scale, layout: Layout, at: int) -> None:
    """The bar of a bank: its mark and name, what it leaves unpaid, a line at its least rescue, and words below."""
    left, y, unpaid = layout.left, layout.row * at + layout.top, shortfall_of(bank)
    name = shown(matter.marked(bank.name))
    long = layout.size * scale.value(unpaid)
    name_at(chart, bank, name, layout, y)
    chart.bar(left, y, long, BAR, "u", f"{name}: {matter.money(unpaid)} unpaid")
    chart.text(left + long + 7, y + BASE, scale.number(unpaid), "val")
    chart.text(left, y + BELOW, lettering.cut(words_of(matter, bank, scale), layout.wide - left, SMALL), "sub halo")
    rescue = matter.rescue_of.get(bank.name)
    if rescue is not None:
        above = 4 if left else 0  # a name above the bar stays free
        x = left + layout.size * scale.value(rescue.added)
        chart.line(f"M{x:.1f} {y - above:.1f}v{BAR + 4 + above:.0f}", "resc")


def data_of(matter: Matter) -> Data:
    """The numbers of all banks in default."""
    columns = ("bank", "label", "owed", "unpaid", "least_rescue", "takes_away", "saves_too")
    rows: List[Tuple[object, ...]] = []
    for bank in matter.fallen:
        rescue = matter.rescue_of.get(bank.name)
        less = rescue.less if rescue else None
        known = ("", "", "") if rescue is None else (rescue.added, "" if less is None else less, len(rescue.saves))
        rows.append((bank.name, bank.state, due_of(bank), shortfall_of(bank), *known))
    return Data(columns, rows)


def figure_of(matter: Matter) -> Figure:
    """The figure: the banks that leave most unpaid."""
    banks = matter.fallen[:MOST]
    few, scale = banks[:MOST_NARROW], matter.money.short_scale_of(map(shortfall_of, banks))
    sizes = ((few, PHONE), (few, WIDE), (banks, HALF))
    charts = half(*(chart_of(matter, drawn, scale, wide) for drawn, wide in sizes))
    unit = f"Unpaid by bank (bar) and least rescue (line), {scale.words}; rescues do not add up"
    return Figure("unpaid", title_of(matter), unit, charts, "defaults and rescues", data_of(matter))
