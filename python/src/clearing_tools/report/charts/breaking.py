"""How many banks stand at each cut of all cash."""
from typing import List, NamedTuple, Optional, Tuple

from clearing_client.format import MAX_CUT

from ...drawing import lettering, svg
from ...labels import count, shown
from ..matter import Matter
from ..words import begun, counted, cut_words
from .figure import HALF, PHONE, WIDE, Data, Figure, half

TALL, TOP, BELOW, LEFT = 200.0, 16.0, 32.0, 40.0
STEP, TALLEST = 16.0, 360.0  # a bank's step has room for its name, up to so tall a chart
NARROW = 500  # pixels below which a second panel stands below the first
NAMES, NO_NAMES = 130.0, 24.0  # what the names right of the curve take, and what is left without
MOST_NAMES, MOST_NAMED = 12, 40  # names that are written, and banks that fall up to which there are names
LINE, LETTERS = 14, 12  # from name to name, and the size of names
ZOOM = 0.5  # a first fall beyond that share of the range is drawn a second time, larger
ROUND = 20  # the second panel begins at a multiple of so many per mille, and
MARGIN = 10  # at least so many below the first fall
FIRST = 0.3  # the share of the width that the whole range then has
GAP, GAP_BELOW = 56, 32  # between two panels beside, and below each other


class Panel(NamedTuple):
    """A part of the chart: from which cut on, its left and right ends, its top, how many banks its height stands for,
    and how tall it is."""

    first: int
    left: float
    right: float
    top: float
    most: int
    tall: float

    def x(self, cut: float) -> float:
        """Where a cut stands."""
        return self.left + (self.right - self.left) * (cut - self.first) / (MAX_CUT - self.first)

    def y(self, number: int) -> float:
        """Where a number of banks stands."""
        return self.top + self.tall * (1 - number / self.most)

    @property
    def bottom(self) -> float:
        """Where no bank stands."""
        return self.top + self.tall


def tall_of(matter: Matter) -> float:
    """How tall a panel is."""
    return min(max(TALL, STEP * len(matter.banks)), TALLEST)


def standing(matter: Matter) -> List[Tuple[int, int]]:
    """The cuts at which the number of banks that stand changes, with that number; first none."""
    left, steps = len(matter.sound), [(0, len(matter.sound))]
    for cut in matter.near:
        left -= 1
        if steps[-1][0] == cut.cut:
            steps.pop()
        steps.append((cut.cut, left))
    return steps


def title_of(matter: Matter) -> str:
    """The message: until which cut the banks stand that stand now, and what then."""
    if not matter.sound:
        return "No bank is left that could fall"
    stand = f"{begun(counted(len(matter.sound)))} {'stands' if len(matter.sound) == 1 else 'stand'}"
    if not matter.near:
        return f"{stand} at any cut of all cash"
    first = matter.near[0]
    title = f"{stand} until a cut of {cut_words(first.cut)} of all cash"
    at_end = standing(matter)[-1][1]
    if at_end:
        return f"{title}; {counted(at_end)} at any cut"
    return title + ("; then one after another falls" if len(matter.near) > 1 else "")


def path_of(steps: List[Tuple[int, int]], panel: Panel) -> str:
    """The curve within a panel."""
    before = [number for cut, number in steps if cut <= panel.first][-1]
    path = f"M{panel.left:.1f} {panel.y(before):.1f}"
    for cut, number in steps:
        if cut > panel.first:
            path += f"H{panel.x(cut):.1f}V{panel.y(number):.1f}"
    return path + f"H{panel.right:.1f}"


def numbers_at(matter: Matter, panel: Panel) -> List[int]:
    """The numbers of banks that the axis has: none, all, and those that stand where their words have room."""
    stand, room = len(matter.sound), panel.tall * len(matter.sound) / panel.most
    return sorted({0, panel.most, *([stand] if STEP <= room <= panel.tall - STEP else [])})


def draw_panel(chart: svg.Svg, matter: Matter, panel: Panel) -> None:
    """The axes and the curve of a panel."""
    for number in numbers_at(matter, panel):
        y = panel.y(number)
        chart.line(f"M{panel.left:.1f} {y:.1f}H{panel.right:.1f}", "grid")
        chart.text(panel.left - 8, y + 4, f"{number:,}", "ax", "end")
    path = path_of(standing(matter), panel)
    chart.line(f"{path}V{panel.bottom:.1f}H{panel.left:.1f}z", "area")
    chart.line(path, "curve")
    parts = 4 if panel.right - panel.left > 150 else 2
    for at in range(parts + 1):
        cut = panel.first + (MAX_CUT - panel.first) * at / parts
        x = panel.x(cut)
        chart.line(f"M{x:.1f} {panel.bottom:.1f}v5", "tick")
        word = f"{cut / 10:.0f}%" if cut % 10 < 0.01 else f"{cut / 10:.1f}%"
        chart.text(x, panel.bottom + 20, word, "ax", "middle")


def draw_names(chart: svg.Svg, matter: Matter, panel: Panel) -> None:
    """The names of the banks that fall first, each right of its step; one without room of its own is left out."""
    lowest = panel.top
    for at, cut in enumerate(matter.near[:MOST_NAMES]):
        step, y = panel.x(cut.cut), panel.y(len(matter.sound) - at) + LINE - 1
        if y < lowest:
            continue
        lowest = y + LINE
        words = f" {cut_words(cut.cut)}"
        wide = lettering.width_of(words, LETTERS)
        name = shown(matter.marked(cut.bank))
        short = lettering.cut(name, max(chart.width - step - 10 - wide, 72), LETTERS, True)
        whole = f"<title>{svg.text_of(name)}</title>" if short != name else ""
        x = min(step + 6, chart.width - lettering.width_of(short, LETTERS, True) - wide - 2)
        chart.add(
            f'<text class="nm2" x="{x:.1f}" y="{y:.1f}">{svg.text_of(short)}<tspan class="sub">{words}'
            f'</tspan>{whole}</text>'
        )


def zoom_of(matter: Matter) -> Optional[int]:
    """From which cut on the range is drawn a second time; nothing where it is not."""
    first = matter.near[0].cut if matter.near else MAX_CUT
    return ROUND * ((first - MARGIN) // ROUND) if MAX_CUT * ZOOM < first < MAX_CUT else None


def draw_defaults(chart: svg.Svg, matter: Matter, panel: Panel) -> None:
    """How many banks are in default at no cut, where there is room above the curve."""
    default = len(matter.banks) - len(matter.sound)
    if default * panel.tall / panel.most > 40:
        chart.text(panel.left + 8, panel.top + 16, f"{count(default, 'bank')} in default", "nm2 halo")
        chart.text(panel.left + 8, panel.top + 32, "at no cut", "sub halo")


def draw_zoomed(chart: svg.Svg, matter: Matter, first: Panel, zoom: int) -> None:
    """The same from a cut on, beside the first panel or below it."""
    begin = f"{zoom / 10:.0f}%"
    if chart.width < NARROW:
        below = chart.height + GAP_BELOW
        chart.text(LEFT, below - 8, f"The same from {begin} on", "nm2")
        panel, chart.height = first._replace(right=chart.width - NAMES - 2, top=below), below + first.tall + BELOW
    else:
        panel = first._replace(left=first.right + GAP, right=chart.width - names_of(matter))
        chart.text(panel.left + 8, TOP - 4, f"the same from {begin} on", "sub")
    panel = panel._replace(first=zoom)
    draw_panel(chart, matter, panel)
    draw_names(chart, matter, panel)


def names_of(matter: Matter) -> float:
    """What the names right of the curve take."""
    return NAMES if matter.near and len(matter.near) <= MOST_NAMED else NO_NAMES


def chart_of(matter: Matter, wide: float) -> svg.Svg:
    """The chart at a width: the whole range, and where all falls come late the same from there on, beside or below."""
    zoom, tall = zoom_of(matter), tall_of(matter)
    chart = svg.Svg(wide, TOP + tall + BELOW, "How many banks stand at each cut of all cash")
    right = wide - names_of(matter) if zoom is None else wide - 20 if wide < NARROW else LEFT + (wide - LEFT) * FIRST
    panel = Panel(0, LEFT, right, TOP, max(len(matter.banks), 1), tall)
    draw_panel(chart, matter, panel)
    draw_defaults(chart, matter, panel)
    if zoom is not None:
        draw_zoomed(chart, matter, panel, zoom)
    elif len(matter.near) <= MOST_NAMED:
        draw_names(chart, matter, panel)
    return chart


def figure_of(matter: Matter) -> Figure:
    """The figure."""
    charts = half(*(chart_of(matter, wide) for wide in (PHONE, WIDE, HALF)))
    data = Data(
        ("bank", "least_cut_per_mille", "label_then"),
        [(cut.bank, cut.cut if cut.cut <= MAX_CUT else "", cut.state) for cut in matter.cuts],
    )
    return Figure("breaking", title_of(matter), "Banks that stand, by the cut of all cash", charts, "breaking", data)
