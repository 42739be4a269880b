"""The table `wide` of bench/measure.py: networks of the wide limits."""
from typing import Dict, Tuple

import inputs
import peer_tables
import timing
from jobs import ONE, WIDELY, Program
from table import Form, Options, Table


def wide(program: Program, options: Options) -> None:
    """The parts of the table that are asked for."""
    for part in options.inputs or PARTS:
        PARTS[part](program, options)


def beside_the_peer(program: Program, options: Options) -> None:
    """The three tasks beside the peer's payments, and the most memory of each."""
    path = peer_tables.built("--cfg", "wide")
    tasks: Dict[str, Tuple[str, ...]] = {"check": (), "clear": ONE, "central": ()}
    form = Form("10,000 banks, 1,000,000 debts", "peer", [*tasks], memory=["peer", *tasks], more=["same"])
    table = Table(options, form)
    for name in ("wide-dense-order", "wide-dense-webster", "wide-scarce-order", "wide-complete-webster"):
        jobs = {"peer": [path, "clear", *inputs.made(name)]}
        jobs.update({task: program.words(task, name, *more, *WIDELY) for task, more in tasks.items()})

        def same(_: timing.Times, jobs: timing.Jobs = jobs) -> str:
            """Whether `clear` prints what the peer prints."""
            return timing.same(jobs["clear"], jobs["peer"], options.limit)

        table.row(name, jobs, more=[same])


def tasks_that_clear_a_few_times(program: Program, options: Options) -> None:
    """Tasks that clear a few times beside `clear` by one worker."""
    tasks: Dict[str, Tuple[str, ...]] = {
        "defaults": ONE,
        "bounds": ONE,
        "rescue": ("--bank", "W1", *ONE),
        "costs": ("--keep", "500"),
        "cost-bounds": ("--keep", "500"),
        "compress": (),
    }
    table = Table(options, Form("beside clear, 1 worker", "clear", [*tasks], memory=["clear", *tasks], wide=24))
    for name in ("wide-dense-order", "wide-dense-webster", "wide-scarce-order"):
        jobs = {"clear": program.words("clear", name, *ONE, *WIDELY)}
        jobs.update({task: program.words(task, name, *words, *WIDELY) for task, words in tasks.items()})
        table.row(name, jobs)


def scenarios(program: Program, options: Options) -> None:
    """A hundred scenarios printed whole, told by the scenario."""
    form = Form("stress, 100 scenarios", "clear", ["stress"], memory=["clear", "stress"], wide=24)
    table = Table(options, form)
    for name in ("wide-dense-order", "wide-tiered-order"):
        jobs = {"clear": program.words("clear", name, *ONE, *WIDELY)}
        jobs["stress"] = program.words("stress", name, "--scenarios", inputs.cuts(), *WIDELY)
        table.row(name, jobs, parts={"stress": inputs.SCENARIOS})


def tasks_that_clear_many_times(program: Program, options: Options) -> None:
    """Tasks that clear a thousand times and more, in times of `clear` by one worker."""
    tasks: Dict[str, Tuple[str, ...]] = {
        "impact": (),
        "rescues": (),
        "breaking": (),
        "outcomes": ("--scenarios", inputs.cuts()),
    }
    form = Form("4,500 banks, 150,000 debts", "clear", [*tasks], memory=["clear", *tasks], wide=30)
    table = Table(options, form)
    for name in ("wide-tiered-order", "wide-tiered-mixed"):
        jobs = {"clear": program.words("clear", name, *ONE, *WIDELY)}
        jobs.update({task: program.words(task, name, *more, *WIDELY) for task, more in tasks.items()})
        table.row(name, jobs)


def workers(program: Program, options: Options) -> None:
    """`clear` to the first byte of its journal, whose lines are made while they are written, less `convert` to its
    first byte. This reads the same files, and makes a line for each bank."""
    counts = {"1 worker": "1", "4 workers": "4", "64 workers": "64"}
    form = Form("clear less reading and printing", "1 worker", [*counts][1:], more=["reading, ms"])
    table = Table(options, form)
    for name in ("wide-dense-order", "wide-dense-webster", "wide-scarce-order", "wide-complete-order"):
        jobs = {"reading": program.words("convert", name, *WIDELY)}
        shown = ("--show", "journal", *WIDELY)
        for label, count in counts.items():
            jobs[label] = program.words("clear", name, "--workers", count, *shown)
        best = timing.least(jobs, options.runs, options.limit, timer=timing.until_it_prints)
        took = {label: less(best[label], best["reading"]) for label in counts}
        table.put(name, [timing.ms(took[table.base]), *table.ratios(took), timing.ms(best["reading"])])


def less(took: timing.Time, reading: timing.Time) -> timing.Time:
    """What is left of a time without that of reading; None where either is not known, or nothing is left."""
    return took - reading if took and reading and took > reading else None


PARTS = {
    "peer": beside_the_peer,
    "tasks": tasks_that_clear_a_few_times,
    "stress": scenarios,
    "many": tasks_that_clear_many_times,
    "workers": workers,
}
