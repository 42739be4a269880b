"""The tables of bench/measure.py: rows of what runs took, in times of one of them."""
from typing import Callable, Iterable, List, Mapping, NamedTuple, Optional, Sequence

import frame
import timing
from timing import Fault, Times

More = Callable[[Times], str]
"""What a cell at the end of a row has, by the least seconds of its runs."""


class Options(frame.Options):
    """What bench/measure.py was told: the table, the column whose times the others are told in, and another build of
    the program."""

    table: str
    beside: Optional[str]
    other: Optional[str]


class Form(NamedTuple):
    """The form of a table: its title, the column that has milliseconds, and those in times of it; then the columns
    whose memory it has, the heads of what stands at the end, and how wide its first column is."""

    title: str
    base: str
    columns: Sequence[str]
    memory: Sequence[str] = ()
    more: Sequence[str] = ()
    wide: int = 38


class Table:
    """Rows of ratios: what the first job took in milliseconds, and the others in times of it."""

    def __init__(self, options: Options, form: Form) -> None:
        """A table, whose heads are printed. A Fault where it has not the column that is asked for."""
        self.options, self.form, self.columns = options, form, [form.base, *form.columns]
        self.base = options.beside or form.base
        if self.base not in self.columns:
            raise Fault(f"no column {self.base}; there are {', '.join(self.columns)}")
        others = [name for name in self.columns if name != self.base]
        heads = [f"{self.base}, ms", *others, *(f"MB, {name}" for name in form.memory), *form.more]
        self.widths = [max(len(head), 8) + 2 for head in heads]
        self.put(form.title, heads)

    def put(self, label: str, cells: Iterable[str]) -> None:
        """Prints a line of cells below the heads, at once."""
        padded = "".join(f"{cell:>{width}}" for cell, width in zip(cells, self.widths))
        print(f"{label:{self.form.wide}}{padded}", flush=True)

    def row(
        self,
        label: str,
        jobs: timing.Jobs,
        ends: Optional[Mapping[str, Sequence[int]]] = None,
        parts: Optional[Mapping[str, int]] = None,
        more: Sequence[More] = (),
    ) -> None:
        """Measures jobs by their columns. `ends` has the statuses of those that end otherwise than with 0, `parts` the
        number by which the time of one is divided, and `more` what stands at the end."""
        best = timing.least(jobs, self.options.runs, self.options.limit, ends)
        best = {name: took and took / (parts or {}).get(name, 1) for name, took in best.items()}
        ratios = self.ratios(best)
        held = [timing.memory(jobs[name]) if best.get(name) else "-" for name in self.form.memory]
        self.put(label, [timing.ms(best.get(self.base)), *ratios, *held, *(text(best) for text in more)])

    def ratios(self, best: Times) -> List[str]:
        """The cells of all columns but the first, which is their base."""
        base = best.get(self.base)
        return [timing.ratio(best.get(name), base) for name in self.columns if name != self.base]
