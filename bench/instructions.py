#!/usr/bin/env python3
"""Counts the instructions of each task by two programs, and prints how many times those of the first the second takes.

    bench/instructions.py [OPTION ..] BEFORE AFTER [INPUT ..]

BEFORE and AFTER are two builds of the program. A column is a network of bench/inputs.py, and a row is a task: 1.000
says that both take as many instructions. The last line has the least and the greatest of all. Each task has one worker
if it has workers. `impact`, `breaking`, `rescues` and `outcomes` have four threads all the same, so that two runs of
one program differ a little.

valgrind's tool callgrind counts them. What is spent on copying and filling memory is left out, since valgrind counts
that by the byte, and a processor does not.
"""
import concurrent.futures
import os
import pathlib
import re
import shutil
import subprocess
import sys
import tempfile
from typing import Dict, List

sys.dont_write_bytecode = True
sys.path.insert(0, str(pathlib.Path(__file__).resolve().parent))
import frame  # noqa: E402
import timing  # noqa: E402
from jobs import ONE, Program, jobs_of_tasks  # noqa: E402

NETWORKS = ["ordinary", "chain", "linked-5", "one-debtor", "ring-10-forward"]
TASKS = """check convert central replay defaults stress outcomes bounds rescue rescues breaking impact costs cost-bounds
    compress""".split()
GENERATED = ("gen", "--seed", "1", "--size", "200", "--tries", "2000", *ONE)
# Functions whose own instructions are left out.
LEFT_OUT = re.compile(r"mem(cpy|move|set)")


class Options(frame.Options):
    """What the script was told: the two programs, and how many runs go side by side."""

    programs: List[str]
    jobs: int


def own_cost(text: str) -> int:
    """The instructions that all functions take by themselves in a file of callgrind's, but those that are left out."""
    names: Dict[str, str] = {}
    total, counts, called = 0, True, False
    for line in text.splitlines():
        kind, is_function, rest = line.partition("fn=")
        if is_function and kind in ("", "c"):
            number, _, name = rest.partition(" ")
            # A function has its name where it is first told of, as one that takes something or as one that is called.
            name = names.setdefault(number, name)
            counts = counts if kind else not LEFT_OUT.search(name)
        elif line.startswith("calls="):
            called = True
        elif line[:1] and line[0] in "0123456789+-*":
            # The line below a call has what was called, which counts where it stands by itself.
            total += int(line.split()[1]) if counts and not called else 0
            called = False
    return total


def counted(words: List[str]) -> int:
    """How many instructions a run takes, in all threads. A Fault where it ends otherwise than with 0."""
    with tempfile.TemporaryDirectory() as folder:
        out = pathlib.Path(folder, "out")
        tool = [shutil.which("valgrind") or "valgrind", "--tool=callgrind", f"--callgrind-out-file={out}"]
        run = [*tool, *words]
        done = subprocess.run(run, stdin=subprocess.DEVNULL, stdout=subprocess.DEVNULL, stderr=subprocess.PIPE)
        if done.returncode:
            raise timing.Fault(f"{' '.join(words)}: status {done.returncode}")
        return own_cost(out.read_text(encoding="utf-8", errors="replace"))


def table(before: Program, after: Program, options: Options) -> None:
    """Prints the rows, and the least and the greatest ratio."""
    jobs = {name: jobs_of_tasks(before, TASKS, name).jobs for name in options.inputs or NETWORKS}
    names = list(jobs)
    ratios: List[float] = []
    print(f"{'AFTER for one of BEFORE':24}" + "".join(f"{name:>17}" for name in names), flush=True)
    with concurrent.futures.ThreadPoolExecutor(options.jobs) as pool:
        for task in ["clear", *TASKS, "gen"]:
            # What is generated is no network of the table, and stands in its first column.
            runs = [[before.path, *GENERATED]] if task == "gen" else [jobs[name][task] for name in names]
            both = [[program.path, *words[1:]] for words in runs for program in (before, after)]
            counts = list(pool.map(counted, both))
            row = [second / first for first, second in zip(counts[::2], counts[1::2])]
            print(f"{task:24}" + "".join(f"{ratio:17.4f}" for ratio in row), flush=True)
            ratios += row
    print(f"the least {min(ratios):.4f}, the greatest {max(ratios):.4f}")


def options_of(words: List[str]) -> Options:
    """What the words say. Faulty words end the script with 2."""
    parser = frame.parser_of("instructions.py", "[OPTION ..] BEFORE AFTER [INPUT ..]", __doc__, runs=False)
    parser.add_argument("programs", metavar="PROGRAM", nargs=2)
    parser.add_argument("inputs", metavar="INPUT", nargs="*")
    parser.add_argument("--jobs", type=int, default=1, metavar="N", help="how many runs go side by side (1)")
    options = parser.parse_args(words, Options())
    frame.check_networks(parser, options.inputs)
    if options.jobs < 1:
        parser.error("a run at least")
    return options


def main(words: List[str]) -> int:
    """Counts by the two programs that the words name. The status."""
    options = options_of(words)
    first, second = (os.path.abspath(path) for path in options.programs)

    def work() -> None:
        """Prints the table; a Fault where there is no tool."""
        if not shutil.which("valgrind"):
            raise timing.Fault("valgrind is not on the path")
        table(Program(first), Program(second), options)

    return frame.ended("instructions.py", work)


if __name__ == "__main__":
    sys.exit(main(sys.argv[1:]))
