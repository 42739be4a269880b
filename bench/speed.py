#!/usr/bin/env python3
"""Measures the tasks of the program on six hard networks, as a table for docs/SPEED.md.

    bench/speed.py [OPTION ..] [INPUT ..]    prints the table, as Markdown
    bench/speed.py --write [OPTION ..]       puts it into docs/SPEED.md, in the place of the one that stands there

The first row has the milliseconds of `clear` by one worker on each network. Each other row says how many times as
long a task takes there, as a whole: `stress` and `outcomes` on a hundred scenarios, `impact` on all banks,
`breaking` on all cuts, `rescues` on all banks in default. The last row has the most memory that a task held, and
names the task. Each time is the least of some runs, which are made by turns. INPUT is a network of
bench/inputs.py; without one it is the six.

The environment variable CLEARING names the program, else it is the repository's. Run it on a machine with nothing
else to do: the line above the table has the load that the machine had before, beside the day, the commit and the
program's checksum.
"""
import os
import pathlib
import sys
from typing import List

sys.dont_write_bytecode = True
sys.path.insert(0, str(pathlib.Path(__file__).resolve().parent))
import frame  # noqa: E402
import timing  # noqa: E402
from jobs import Program, jobs_of_tasks  # noqa: E402

# Networks, and what the page calls them.
NETWORKS = {
    "largest-order": "largest, `order`",
    "largest-mixed": "largest, mixed",
    "core-mixed": "core, mixed",
    "star-webster": "star, `webster`",
    "ring-1000-forward": "ring of 1,000",
    "tight-mixed": "scarce cash, mixed",
}
TASKS = """check central replay defaults stress outcomes bounds rescue rescues breaking impact costs cost-bounds
    compress""".split()


def figures(program: Program, name: str, options: frame.Options) -> List[str]:
    """What the rows have of a network, a cell each: milliseconds, ratios, and the most memory."""
    jobs = jobs_of_tasks(program, TASKS, name).jobs
    best = timing.least(jobs, options.runs, options.limit)
    held = {task: timing.memory(words) for task, words in jobs.items() if best[task]}
    known = [(float(most), task) for task, most in held.items() if most != "-"]
    memory = f"{max(known)[0]:.0f} (`{max(known)[1]}`)" if known else "-"
    return [timing.ms(best["clear"]), *(shown(best[task], best["clear"], options.limit) for task in TASKS), memory]


def shown(took: timing.Time, base: timing.Time, limit: float) -> str:
    """How many times the one time is of the other, in two digits; or that a run passed the limit in seconds."""
    if took is None or base is None:
        return f"over {limit:.0f} s"
    times = took / base
    return f"{times:.2f}" if times < 1 else f"{times:.1f}" if times < 10 else f"{times:,.0f}"


def table(program: Program, options: frame.Options) -> str:
    """The table with the line above it."""
    said = frame.said(program.path, options.runs, os.getloadavg()[0])
    names = options.inputs or list(NETWORKS)
    columns = [figures(program, name, options) for name in names]
    heads = ["`clear`, ms", *(f"`{task}`" for task in TASKS), "most memory, MB"]
    rows = [[head, *cells] for head, *cells in zip(heads, *columns)]
    return f"{said}\n\n" + frame.markdown(["task", *(NETWORKS.get(name, f"`{name}`") for name in names)], rows)


def options_of(words: List[str]) -> frame.PageOptions:
    """What the words say. Faulty words end the script with 2."""
    parser = frame.parser_of("speed.py", "[OPTION ..] [INPUT ..]", __doc__)
    parser.add_argument("inputs", metavar="INPUT", nargs="*")
    frame.add_page(parser)
    options = frame.options_of(parser, words, frame.PageOptions())
    frame.check_networks(parser, options.inputs)
    return options


def main(words: List[str]) -> int:
    """Measures, and prints the table or puts it into the page. The status."""
    options = options_of(words)
    path = options.page.resolve()

    def work() -> None:
        """The work itself; a Fault where the page has no place."""
        page = frame.Page(path, "speed.py") if options.write else None
        made = table(Program(), options)
        if page:
            page.put(made)
        else:
            print(made, end="")

    return frame.ended("speed.py", work)


if __name__ == "__main__":
    sys.exit(main(sys.argv[1:]))
