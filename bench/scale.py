#!/usr/bin/env python3
"""Measures how time and memory grow with the network, from 10 debts to 1,000,000, for docs/SPEED.md.

    bench/scale.py [OPTION ..]            prints the table, as Markdown
    bench/scale.py --write [OPTION ..]    puts it into docs/SPEED.md, in the place of the one that stands there,
                                          and draws docs/pictures/scale.svg
    bench/scale.py --draw [OPTION ..]     draws the picture of the table that stands there, and measures nothing

All networks are of one kind, that of `wide-dense-order` in bench/inputs.py: each bank owes so many others up to 48
units each, has up to half of that in cash, and divides by `order`. A cell has the milliseconds of the whole process,
the least of some runs by turns, and the most memory that it held, in units of 1,048,576 bytes. The last row is
computed: what ten times the debts of the last network would take if the growth from the network before it went on.

The environment variable CLEARING names the program, else it is the repository's. Run it on a machine with nothing else
to do. The picture wants matplotlib.
"""
import math
import os
import pathlib
import sys
from typing import Any, Dict, List, NamedTuple, Optional, Tuple

ROOT = pathlib.Path(__file__).resolve().parents[1]
sys.dont_write_bytecode = True
sys.path[:0] = [str(ROOT / "bench"), str(ROOT / "python/src")]
import frame  # noqa: E402
import inputs  # noqa: E402
import timing  # noqa: E402
from jobs import WIDELY, Program  # noqa: E402
from networks import Network  # noqa: E402
from wide_networks import spread  # noqa: E402

# Banks, and how many others each of them owes.
SIZES = ((5, 2), (20, 5), (100, 10), (400, 25), (2_000, 50), (10_000, 100))
# Tasks by what the page calls them, with words of theirs.
TASKS = {
    "`check`": ("check",),
    "`clear`, 1 worker": ("clear", "--workers", "1"),
    "`clear`, 4 workers": ("clear", "--workers", "4"),
    "`central`": ("central",),
    "`defaults`": ("defaults", "--workers", "1"),
    "`bounds`": ("bounds", "--workers", "1"),
    "`compress`": ("compress",),
    "`impact`": ("impact",),
}
# The most debts with which a task is measured, where it is not measured with all.
MOST = {"`impact`": 100_000}
NONE = "-"
BEYOND = 10  # how many times the debts of the last network the computed row has


class Options(frame.PageOptions):
    """What the script was told: whether the picture alone is drawn, and the most debts of a network."""

    draw: bool
    most: int


class Cell(NamedTuple):
    """What a task took on a network: milliseconds, and MB of 1,048,576 bytes."""

    ms: float
    memory: float


Size = Tuple[int, int]
"""Banks, and how many others each of them owes."""
Row = Tuple[Size, Dict[str, Cell]]
"""A network's size, and its cells by task; a task that was not measured, or passed the limit, has none."""
Column = Tuple[List[float], List[float], List[float]]
"""Of a task the debts, the milliseconds and the memory, a place a network."""


def network(count: int, owed: int) -> Network:
    """So many banks, each of which owes so many others and has up to half of that in cash."""
    half = max(1, owed * 25 // 2)
    return spread(count, owed, lambda bank: bank * 7919 % half, "order")


def cells_of(program: Program, size: Size, options: Options) -> Dict[str, Cell]:
    """The cells of one network by task."""
    count, owed = size
    name, debts = f"scale-{count}-{owed}", count * owed
    inputs.write(name, *network(count, owed))
    jobs = {
        task: program.on(words[0], inputs.files(name), *words[1:], *WIDELY)
        for task, words in TASKS.items()
        if debts <= MOST.get(task, debts)
    }
    best = timing.least(jobs, options.runs, options.limit)
    took = {task: seconds for task, seconds in best.items() if seconds is not None}
    held = {task: timing.memory(jobs[task]).replace(NONE, "nan") for task in took}
    return {task: Cell(1000 * took[task], float(held[task])) for task in took}


def shown(cell: Optional[Cell]) -> str:
    """The cell of a time and a memory, each in two digits at least."""
    return NONE if cell is None else " / ".join(f"{value:.1f}" if value < 10 else f"{value:,.0f}" for value in cell)


def further(last: Row, before: Row) -> Dict[str, Cell]:
    """What ten times the debts of the last network would take, if the growth to it from the one before went on."""
    (count, owed), (fewer, less) = last[0], before[0]
    growth = math.log(BEYOND) / math.log(count * owed / (fewer * less))
    both = {task: zip(cell, before[1][task]) for task, cell in last[1].items() if task in before[1]}
    return {task: Cell(*(value * (value / other) ** growth for value, other in pairs)) for task, pairs in both.items()}


def table(program: Program, options: Options) -> str:
    """The table with the line above it."""
    said = frame.said(program.path, options.runs, os.getloadavg()[0])
    sizes = [(count, owed) for count, owed in SIZES if count * owed <= options.most]
    measured = [(size, cells_of(program, size, options)) for size in sizes]
    rows = [
        [f"{count * owed:,}", f"{count:,}", *(shown(cells.get(task)) for task in TASKS)]
        for (count, owed), cells in measured
    ]
    if len(measured) > 1:
        (count, owed), _ = measured[-1]
        beyond = further(measured[-1], measured[-2])
        rows.append([f"{BEYOND * count * owed:,}, computed", NONE, *(shown(beyond.get(task)) for task in TASKS)])
    return f"{said}\n\n" + frame.markdown(["debts", "banks", *TASKS], rows)


def columns_of(text: str) -> Dict[str, Column]:
    """Of each task the debts, the milliseconds and the memory that were measured, as the table has them."""
    rows = [line.strip("| \n").split(" | ") for line in text.splitlines() if line.startswith("| ")]
    columns: Dict[str, Column] = {}
    for debts, _, *cells in rows[1:]:
        for task, cell in zip(TASKS, cells):
            if cell != NONE and not debts.endswith("computed"):
                values = [float(word.replace(",", "")) for word in (debts, *cell.split(" / "))]
                for column, value in zip(columns.setdefault(task, ([], [], [])), values):
                    column.append(value)
    return columns


class Group(NamedTuple):
    """Heights that touch one another: their names from the lowest up, and the middle of them."""

    names: List[str]
    middle: float


def apart(heights: Dict[str, float], least: float) -> Dict[str, float]:
    """The same heights, each at least so far above the one below it, and all of them as near as that allows."""
    placed: List[Group] = []
    for name, height in sorted(heights.items(), key=lambda pair: pair[1]):
        group = Group([name], height)
        # A group that would touch the one below is joined with it, round the middle of both.
        while placed and placed[-1].middle + least * (len(placed[-1].names) + len(group.names)) / 2 > group.middle:
            lower = placed.pop()
            count = len(lower.names), len(group.names)
            middle = (lower.middle * count[0] + group.middle * count[1]) / sum(count)
            group = Group(lower.names + group.names, middle)
        placed.append(group)
    return {
        name: middle + least * (place - (len(names) - 1) / 2)
        for names, middle in placed
        for place, name in enumerate(names)
    }


def lines_in(axes: Any, columns: Dict[str, Column], place: int, title: str) -> None:
    """One of the two pictures on the axes of matplotlib: a line for each task, of the place of its column, with its
    name at its end, and both axes in powers of ten."""
    from clearing_tools.drawing.tokens import LIGHT

    axes.set(xscale="log", yscale="log", xlabel="debts")
    axes.set_title(title, size=11, loc="left")
    ends = {}
    for number, (task, column) in enumerate(columns.items()):
        first = task.startswith("`clear`")
        axes.plot(
            column[0],
            column[place],
            color=LIGHT["ink" if first else "paid"],
            linewidth=2 if first else 1.2,
            marker="o",
            markersize=3,
            linestyle=("-", "--", ":", "-.")[number % 4],
        )
        ends[task] = math.log10(column[place][-1])
    name_lines(axes, columns, ends)
    axes.spines[["top", "right"]].set_visible(False)
    axes.grid(color=LIGHT["rule"], linewidth=0.5)


def name_lines(axes: Any, columns: Dict[str, Column], ends: Dict[str, float]) -> None:
    """Puts the names of tasks beside the ends of their lines, whose heights are told in powers of ten."""
    from clearing_tools.drawing.tokens import LIGHT

    low, high = (math.log10(height) for height in axes.get_ylim())
    heights = apart(ends, (high - low) / 16)
    axes.set_ylim(top=10 ** max(high, *(height + (high - low) / 32 for height in heights.values())))
    to_name: Dict[str, Any] = {"arrowstyle": "-", "linewidth": 0.5, "color": LIGHT["ink-2"]}
    to_name.update(relpos=(0, 0.5), shrinkA=1, shrinkB=3)
    for task, height in heights.items():
        axes.annotate(
            task.replace("`", ""),
            (columns[task][0][-1], 10 ** ends[task]),
            xytext=(1.07, 10**height),
            textcoords=("axes fraction", "data"),
            size=9,
            va="center",
            annotation_clip=False,
            arrowprops=to_name,
        )


def draw(text: str, path: pathlib.Path) -> None:
    """Draws the picture of a table: time on the left, memory on the right."""
    from clearing_tools.drawing import style

    figure, (left, right) = style.pyplot_of().subplots(1, 2, figsize=(11, 4.6))
    columns = columns_of(text)
    lines_in(left, columns, 1, "Milliseconds of the whole process")
    lines_in(right, columns, 2, "Most memory held, in MB of 1,048,576 bytes")
    figure.subplots_adjust(left=0.06, right=0.86, wspace=0.55, bottom=0.13, top=0.9)
    figure.savefig(path, metadata={"Date": None})


def main(words: List[str]) -> int:
    """Measures or draws, as the words ask for. The status."""
    parser = frame.parser_of("scale.py", "[OPTION ..]", __doc__)
    frame.add_page(parser)
    parser.add_argument("--draw", action="store_true", help="draw the picture of the table that stands in the page")
    parser.add_argument("--most", type=int, default=1_000_000, metavar="DEBTS", help="no larger network (1000000)")
    options = frame.options_of(parser, words, Options())
    path = options.page.resolve()

    def work() -> None:
        """The work itself; a Fault where the page has no place."""
        page = frame.Page(path, "scale.py") if options.write or options.draw else None
        made = page.table() if page and options.draw else table(Program(), options)
        if page and options.write:
            page.put(made)
        if page:
            draw(made, path.parent / "pictures/scale.svg")
        else:
            print(made, end="")

    return frame.ended("scale.py", work)


if __name__ == "__main__":
    sys.exit(main(sys.argv[1:]))
