#!/usr/bin/env python3
"""How long the program takes, in times of something known on the same input in the same run.

    bench/measure.py [OPTION ..] TABLE [INPUT ..]

TABLE is one of
  tasks    every task beside `clear` by one worker, on the hardest networks within the limits, in two tables: `stress`
           and `outcomes` are told by the scenario, `impact` by the bank, and `rescues` by the bank in default
  rules    `clear` and `central` by each rule beside `order`; INPUT is `largest` or `star`
  workers  `clear` by 1, 2 and 4 workers beside `central`
  rounds   one round and all of them beside reading alone; and a round that moves one unit, with 19,990 debts at rest
           beside it and without: of `clear` (INPUT `unit`) and of `bounds` (INPUT `fall`)
  units    the hardest lawful networks: a unit goes to and fro in each round. Beside `clear` of the same network with
           cash enough
  scenarios  `outcomes` of a hundred scenarios beside `clear` by one worker: cuts, five banks ruined, and draws that are
           not alike, each told by the scenario; with `--other` by another build as well
  reading  files read, and a journal of a million raises printed and replayed (INPUT `journal`), beside `wc` of the
           same bytes
  peer     everything beside an unverified peer, plain Rust that reads the same files and prints the same texts:
           payments of a network, files of 8 MB (INPUT `full`), payments with their journal (`both`), a journal replayed
           and a hundred scenarios (`stress`)
  wide     networks of the wide limits: `check`, `clear` and `central` on 10,000 banks and 1,000,000 debts beside the
           peer with its limits raised (`peer`); the other tasks beside `clear` (`tasks`); a hundred scenarios printed
           (`stress`), and `outcomes` of as many, `impact`, `rescues` and `breaking` on 4,500 banks and 150,000 debts
           (`many`); and what 4 and 64 workers make of the part of `clear` that is neither reading nor printing
           (`workers`), where the last column is what was taken off for reading. INPUT is one of these words
  others   the payments beside what a user would take instead: Eisenberg and Noe's algorithm and plain repetition in
           numpy, pro rata, in real numbers; and networkx, which loads the graph and clears nothing
INPUT is a network of bench/inputs.py, such as largest-order, core-mixed or chain; all that the table has where none is
named.

Of each row the first column has milliseconds of the whole process, the least of some runs by turns. The others have
times of it. `over` is above the limit, MB the most memory that was held, and `same` whether both printed the same
bytes.
"""
import os
import pathlib
import shutil
import subprocess
import sys
from typing import Callable, Dict, List, Sequence

BENCH = pathlib.Path(__file__).resolve().parent
sys.dont_write_bytecode = True
sys.path.insert(0, str(BENCH))
import frame  # noqa: E402
import inputs  # noqa: E402
import timing  # noqa: E402
from jobs import ONE, Program, jobs_of_tasks  # noqa: E402
from networks import RULES  # noqa: E402
from peer_tables import peer  # noqa: E402
from table import Form, Options, Table  # noqa: E402
from timing import Fault, Times  # noqa: E402
from wide_tables import PARTS, wide  # noqa: E402

HARDEST = """largest-order largest-mixed tight-order tight-mixed core-order core-mixed star-order star-webster
    one-debtor chain leak ring-10-forward ring-10-reverse ring-1000-forward ring-1000-reverse dry-ring-10-forward
    dry-ring-10-reverse dry-ring-100-forward dry-ring-100-reverse dry-ring-1000-forward dry-ring-1000-reverse linked-1
    linked-20""".split()
OF_SCENARIOS = "largest-order largest-mixed core-order core-mixed tight-order tight-mixed ordinary".split()
OF_UNITS = ["hub", "beside-leak"]
OF_OTHERS = "ordinary largest-order tight-order core-order star-order ring-10-forward ring-1000-forward".split()
# The programs of bench/others, and the modules that they want.
OTHERS = {"fictitious": "numpy", "iteration": "numpy", "graph": "networkx"}
# The tasks beside `clear` and `gen`, in two tables.
HALVES = {
    "every task": "check central replay defaults stress bounds rescue compress costs".split(),
    "and these": "breaking impact rescues outcomes cost-bounds".split(),
}


def tasks(program: Program, options: Options) -> None:
    """A ring without cash (`dry`) stands beside `clear` of the same ring with one unit at a bank."""
    for title, columns in HALVES.items():
        # What the others are told in stands in both tables.
        beside = options.beside
        if beside and beside not in columns and any(beside in half for half in HALVES.values()):
            columns = [beside, *columns]
        table = Table(options, Form(title, "clear", columns, wide=24))
        for name in options.inputs or HARDEST:
            row_of_tasks(program, table, columns, name)


def row_of_tasks(program: Program, table: Table, columns: List[str], name: str) -> None:
    """Some tasks on a network."""
    jobs, states = jobs_of_tasks(program, columns, name)
    short = sum(state != "sound" for state in states.values())
    parts = {"stress": inputs.SCENARIOS, "outcomes": inputs.SCENARIOS}
    table.row(name, jobs, parts={**parts, "impact": len(states), "rescues": max(1, short)})


def rules(program: Program, options: Options) -> None:
    """Each rule beside `order`, on networks in which all banks have one."""
    table = Table(options, Form("by each rule", RULES[0], RULES[1:]))
    for family in options.inputs or ["largest", "star"]:
        for task in ("clear", "central"):
            jobs = {rule: program.words(task, f"{family}-{rule}") for rule in RULES}
            table.row(f"{family}, {task}", jobs)


def workers(program: Program, options: Options) -> None:
    """`clear` by one worker and by more, beside `central`."""
    table = Table(options, Form("clear, by workers", "central", ["1", "2", "4"]))
    for name in options.inputs or [*(f"largest-{rule}" for rule in RULES), "ring-10-forward"]:
        jobs = {"central": program.words("central", name)}
        jobs.update({count: program.words("clear", name, "--workers", count) for count in ("1", "2", "4")})
        table.row(name, jobs)


def rounds(program: Program, options: Options) -> None:
    """Rounds beside reading alone, and rounds that move one unit each."""
    chosen = options.inputs or ["largest-order", "largest-mixed", "tight-order", "star-order", "unit", "fall"]
    names = [name for name in chosen if name not in ("unit", "fall")]
    if names:
        table = Table(options, Form("clear by one worker", "reading", ["one round", "all rounds"]))
    for name in names:
        files = {
            "reading": inputs.refused(name), "one round": inputs.without_claims(name), "all rounds": inputs.made(name)
        }
        jobs = {job: program.on("clear", pair, *ONE) for job, pair in files.items()}
        table.row(name, jobs, ends={"reading": (4,)})
    if names != chosen:
        table = Table(options, Form("a unit a round", "alone", ["at rest"]))
    if "unit" in chosen:
        row_of_units(program, table, "100,000 rounds of clear", "unit", ["clear", *ONE])
    if "fall" in chosen:
        row_of_units(program, table, "9,000,000 rounds of bounds", "fall", ["bounds"])


def row_of_units(program: Program, table: Table, label: str, kind: str, run: List[str]) -> None:
    """Rounds of a task on a kind of network, with and without debts at rest."""
    task, *more = run
    rests = {"alone": f"{kind}-alone", "at rest": f"{kind}-at-rest"}
    table.row(label, {rest: program.words(task, name, *more) for rest, name in rests.items()})


def units(program: Program, options: Options) -> None:
    """Each network stands beside itself with so much cash that all is paid in a few rounds."""
    columns = ["clear", "impact", "rescues", "breaking"]
    table = Table(options, Form("a unit to and fro", "with cash", columns, memory=columns))
    for name in options.inputs or OF_UNITS:
        jobs = {"with cash": program.words("clear", f"{name}-with-cash", *ONE)}
        jobs["clear"] = program.words("clear", name, *ONE)
        table.row(name, {**jobs, **{task: program.words(task, name) for task in columns[1:]}})


def builds_of(program: Program, options: Options, own: str, other: str) -> Dict[str, str]:
    """The program's file and, where one is named, another build of it, by names for both."""
    return {own: program.path, **({other: os.path.realpath(options.other)} if options.other else {})}


def scenarios(program: Program, options: Options) -> None:
    """A hundred scenarios of three kinds on each network."""
    kinds: Dict[str, Callable[[str], str]] = {
        "cuts": lambda name: inputs.cuts(), "alike": inputs.alike, "unlike": inputs.unlike
    }
    builds = builds_of(program, options, "", ", other")
    columns = [kind + build for kind in kinds for build in builds]
    table = Table(options, Form("a hundred scenarios", "clear", columns, memory=columns))
    for name in options.inputs or OF_SCENARIOS:
        jobs = {"clear": program.words("clear", name, *ONE)}
        for kind, made in kinds.items():
            words = program.words("outcomes", name, "--scenarios", made(name))
            jobs.update({kind + build: [path, *words[1:]] for build, path in builds.items()})
        table.row(name, jobs, parts=dict.fromkeys(columns, inputs.SCENARIOS))


def reading(program: Program, options: Options) -> None:
    """Of a network the program reads both files and refuses the last record. Of a file of 8 MB it says what it
    finds."""
    builds = builds_of(program, options, "program", "other")
    table = Table(options, Form("bytes read or printed", "wc", ["cat", *builds], memory=list(builds)))

    def row(label: str, files: Sequence[str], words: List[str], ends: Sequence[int] = (0,)) -> None:
        """The files beside a run of each build on them."""
        jobs = {tool: [shutil.which(tool) or tool, *files] for tool in ("wc", "cat")}
        jobs.update({name: [path, *words[1:]] for name, path in builds.items()})
        table.row(label, jobs, ends={name: ends for name in builds})

    for name in options.inputs or ["largest-order", "star-order", *inputs.FULL, "journal"]:
        if name == "journal":
            words = program.words("clear", "long-journal", *ONE, "--sweeps", "1000")
            journal = program.kept("journal.csv", [*words, "--show", "journal"])
            replay = program.words("replay", "long-journal", "--journal", journal)
            check_replay(replay, words, options.limit)
            row("a journal, its payments printed", [journal], words)
            row("a journal printed", [journal], [*words, "--show", "journal"])
            row("a journal replayed", [journal], replay)
        elif name in inputs.FULL:
            row(name, inputs.made(name), program.words("check", name))
        else:
            files = inputs.refused(name)
            row(name, files, program.on("check", files), ends=(4,))


def check_replay(replay: List[str], clear: List[str], limit: float) -> None:
    """A Fault where a journal does not replay to the payments."""
    replayed = timing.output(replay, limit)
    if replayed is None or replayed.partition(b"\n\n")[2] != timing.output(clear, limit):
        raise Fault("the journal does not replay to the payments")


def distance(jobs: timing.Jobs) -> str:
    """How far both programs in numpy are from each other, in units at one bank, or why one gave no answer."""
    paid = []
    for name in ("fictitious", "iteration"):
        if name not in jobs:
            return "-"
        done = subprocess.run(jobs[name], capture_output=True, encoding="utf-8")
        if done.returncode:
            return done.stderr.strip().splitlines()[-1].partition(":")[0]
        paid.append([float(word) for word in done.stdout.split()])
    return f"{max((abs(a - b) for a, b in zip(*paid)), default=0):.3g}"


def others(program: Program, options: Options) -> None:
    """What a user would take instead, each program by a Python that has what it wants."""
    pythons = {name: frame.python_with(module, os.environ.get("PYTHON")) for name, module in OTHERS.items()}
    for name in [name for name, python in pythons.items() if python is None]:
        print(f"{name}: left out, since no Python here has {OTHERS[name]}", file=sys.stderr)
    table = Table(options, Form("the payments", "clearing", list(OTHERS), more=["far, units"]))
    for name in options.inputs or OF_OTHERS:
        files = inputs.made(name)
        jobs = {"clearing": program.on("clear", files, *ONE)}
        for other, python in pythons.items():
            if python:
                jobs[other] = [python, "-B", str(BENCH / f"others/{other}.py"), *files]

        def far(_: Times, jobs: timing.Jobs = jobs) -> str:
            """How far both are from each other."""
            return distance(jobs)

        # The system of equations of a ring without cash has no single answer.
        table.row(name, jobs, ends={"fictitious": (0, 1)}, more=[far])


TABLES: Dict[str, Callable[[Program, Options], None]] = {
    "tasks": tasks,
    "rules": rules,
    "workers": workers,
    "rounds": rounds,
    "units": units,
    "scenarios": scenarios,
    "reading": reading,
    "peer": peer,
    "wide": wide,
    "others": others,
}
# What may be named of a table that takes other inputs than networks within the standard limits.
KINDS = {
    "rules": {"largest", "star"},
    "rounds": {*inputs.NETWORKS, "unit", "fall"},
    "units": {*OF_UNITS},
    "reading": {*inputs.NETWORKS, *inputs.FULL, "journal"},
    "peer": {*inputs.NETWORKS, "full", "both", "stress"},
    "wide": {*PARTS},
}


def options_of(words: List[str]) -> Options:
    """What the words say. Faulty words end the script with 2."""
    parser = frame.parser_of("measure.py", "[OPTION ..] TABLE [INPUT ..]", __doc__)
    parser.add_argument("table", metavar="TABLE", choices=TABLES)
    parser.add_argument("inputs", metavar="INPUT", nargs="*")
    parser.add_argument(
        "--limit", type=float, metavar="SECONDS", help="the longest time of a run (60, of the table `wide` 900)"
    )
    parser.add_argument(
        "--beside", metavar="COLUMN", help="the column whose times the others are told in, in place of the first"
    )
    parser.add_argument(
        "--other",
        metavar="PROGRAM",
        help="another build of the program, in columns of its own: of `reading`, `scenarios`",
    )
    options = frame.options_of(parser, words, Options())
    known = KINDS.get(options.table, set(inputs.NETWORKS))
    unknown = [name for name in options.inputs if name not in known]
    if unknown:
        parser.error(f"no input {', '.join(unknown)} of {options.table}; there are {', '.join(sorted(known))}")
    options.limit = options.limit or (900 if options.table == "wide" else 60)
    return options


def main(words: List[str]) -> int:
    """Measures the table that the words name. The status."""
    options = options_of(words)
    options.other = options.other and os.path.abspath(options.other)
    return frame.ended("measure.py", lambda: TABLES[options.table](Program(), options))


if __name__ == "__main__":
    sys.exit(main(sys.argv[1:]))
