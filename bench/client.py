#!/usr/bin/env python3
"""How long the package for Python takes from DataFrame to DataFrame, in times of the program on the same network.

    bench/client.py [RUNS]

A network of 1,000 banks and 20,000 debts, the least of so many runs by turns (5). Prints a line with both times in
milliseconds and their ratio. The environment variable CLEARING names the program, as for the package. Wants pandas.
"""
import argparse
import pathlib
import subprocess
import sys
import tempfile
import time
from typing import Any, Callable, Tuple

BENCH = pathlib.Path(__file__).resolve().parent
sys.dont_write_bytecode = True
sys.path[:0] = [str(BENCH), str(BENCH.parent / "python/src")]
import clearing_client as cc  # noqa: E402
import timing  # noqa: E402
from clearing_client.program import find_program  # noqa: E402
from networks import RULES  # noqa: E402


def frames() -> Tuple[Any, Any]:
    """The DataFrames of 1,000 banks and of 20,000 debts."""
    import pandas

    banks = {
        "name": [f"bank {n}" for n in range(1000)],
        "cash": [n * 7919 % 2000 for n in range(1000)],
        "rule": [RULES[n % 6] for n in range(1000)],
    }
    pairs = [(n, (n + step) % 1000) for n in range(1000) for step in range(1, 21)]
    debts = {
        "debtor": [f"bank {n}" for n, _ in pairs],
        "creditor": [f"bank {n}" for _, n in pairs],
        "class": [1 + n % 3 for n, _ in pairs],
        "claim": [1 + (n * 31 + m * 17) % 500 for n, m in pairs],
    }
    return pandas.DataFrame(banks), pandas.DataFrame(debts)


def seconds(call: Callable[[], object]) -> float:
    """How long a call takes, in seconds."""
    start = time.perf_counter()
    call()
    return time.perf_counter() - start


def main(runs: int) -> None:
    """Prints the line, of the least of so many runs."""
    banks, debts = frames()
    with tempfile.TemporaryDirectory() as folder:
        files = pathlib.Path(folder, "b.csv"), pathlib.Path(folder, "d.csv")
        cc.Network(banks, debts).write(*files)
        words = [find_program(), "clear", "--banks", str(files[0]), "--debts", str(files[1])]
        jobs: Tuple[Callable[[], object], ...] = (
            lambda: subprocess.run(words, stdout=subprocess.PIPE, check=True),
            lambda: cc.Network(banks, debts).clear().payments.to_pandas(),
        )
        took = [[seconds(job) for job in jobs] for _ in range(runs)]
    own, whole = (min(times) for times in zip(*took))
    told = f"the program {timing.ms(own)} ms, from DataFrame to DataFrame {timing.ms(whole)} ms"
    print(f"{told}, {timing.ratio(whole, own)} times")


if __name__ == "__main__":
    parser = argparse.ArgumentParser(description=__doc__, formatter_class=argparse.RawDescriptionHelpFormatter)
    parser.add_argument("runs", metavar="RUNS", type=int, nargs="?", default=5, help="how often each job is run (5)")
    main(parser.parse_args().runs)
