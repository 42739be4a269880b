#!/usr/bin/env python3
"""The networks that bench/measure.py measures. Each is made from fixed numbers, so that two runs make the same files.

    bench/inputs.py FOLDER [NAME ..]    all networks within the standard limits, or those named

Writes NAME-banks.csv and NAME-debts.csv into the folder for each network, and cuts.toml with a hundred scenarios for
any of them.
"""
import os
import pathlib
import random
import sys
from typing import Callable, Iterable, List, Tuple, Union

from networks import BANKS_HEADER, DEBTS_HEADER, OUTSIDE_HEADER, Bank, Debt, Networks
from ring_networks import RINGS
from usual_networks import USUAL
from wide_networks import WIDE

FILE_SIZE = 8_388_608
SCENARIOS = 100
Pair = Tuple[str, str]
"""The names of the two files of a network, of its banks and of its debts."""
NETWORKS: Networks = {**USUAL, **RINGS}
"""The networks within the standard limits."""
# Debts files as long as a file may be, all of one piece.
FULL = {"full-empty-lines": "\n", "full-blank-records": " \n", "full-commas": ",", "full-comma-records": ",\n"}


def files(name: str) -> Pair:
    """The names of the files of a network, which may have a folder before them."""
    return f"{name}-banks.csv", f"{name}-debts.csv"


def text_of(header: str, records: Iterable[Union[Bank, Debt]]) -> str:
    """A file of a header and a line for each record."""
    return header + "".join(",".join(map(str, record)) + "\n" for record in records)


def write(name: str, banks: List[Bank], debts: List[Debt]) -> None:
    """Writes the files of a network. It has a bank at least."""
    header = BANKS_HEADER if len(banks[0]) == 3 else OUTSIDE_HEADER
    for path, text in zip(files(name), (text_of(header, banks), text_of(DEBTS_HEADER, debts))):
        pathlib.Path(path).write_text(text)


def write_full(name: str, piece: str) -> None:
    """Writes the files of two banks, with a debts file of 8 MB that is made of one piece."""
    banks, debts = map(pathlib.Path, files(name))
    banks.write_text(BANKS_HEADER + "A,7,order\nB,1,order\n")
    pieces, rest = divmod(FILE_SIZE - len(DEBTS_HEADER), len(piece))
    debts.write_text(DEBTS_HEADER + piece * pieces + "\n" * rest)


def made(name: str) -> Pair:
    """The names of the files of a network in the current folder, which are written first where they are not there."""
    if not os.path.exists(files(name)[1]):
        if name in FULL:
            write_full(name, FULL[name])
        else:
            write(name, *{**NETWORKS, **WIDE}[name]())
    return files(name)


def refused(name: str) -> Pair:
    """The files of a network whose debts file ends in a record that is refused, so that a run ends when both are
    read."""
    banks, debts = made(name)
    other = pathlib.Path(f"{name}-refused-debts.csv")
    other.write_text(pathlib.Path(debts).read_text() + "x\n")
    return banks, str(other)


def without_claims(name: str) -> Pair:
    """The files of a network all claims of which are 0, so that the first round raises nothing."""
    banks, debts = made(name)
    other = pathlib.Path(f"{name}-zero-debts.csv")
    header, *lines = pathlib.Path(debts).read_text().splitlines()
    other.write_text("".join(line + "\n" for line in [header, *(line[:line.rindex(",") + 1] + "0" for line in lines)]))
    return banks, str(other)


def cuts() -> str:
    """The name of a file with a hundred scenarios, which cut the cash by a hundredth more each."""
    path = pathlib.Path("cuts.toml")
    steps = range(0, 1000, 1000 // SCENARIOS)
    path.write_text("".join(f'[[scenario]]\nname = "cut {cut}"\ncut = {cut}\n' for cut in steps))
    return str(path)


def losing(name: str, lost: int, cut: Callable[[random.Random], int] = lambda rng: 0) -> str:
    """The name of a file with a hundred scenarios of a network, in each of which so many banks lose all their cash,
    drawn with a cut in thousandths."""
    rng = random.Random(2)
    banks = [(bank[0], bank[1]) for bank in NETWORKS[name]().banks]
    path = pathlib.Path(f"{name}-losing-{lost}.toml")
    with open(path, "w", encoding="utf-8") as file:
        for number in range(SCENARIOS):
            file.write(f'[[scenario]]\nname = "draw {number}"\ncut = {cut(rng)}\n')
            for bank, cash in rng.sample(banks, min(lost, len(banks))):
                file.write(f'[[scenario.loss]]\nbank = "{bank}"\namount = {cash}\n')
    return str(path)


def alike(name: str) -> str:
    """A hundred scenarios that are alike: five banks lose their cash in each."""
    return losing(name, 5)


def unlike(name: str) -> str:
    """A hundred scenarios that are not: a tenth of all banks lose their cash in each, and up to three tenths of the
    rest are cut."""
    return losing(name, len(NETWORKS[name]().banks) // 10, lambda rng: rng.randrange(300))


def main(words: List[str]) -> None:
    """Writes the files of the networks that the words name after a folder."""
    if not words or words[0] in ("-h", "--help"):
        sys.exit((__doc__ or "").strip())
    known = [*NETWORKS, *FULL, *WIDE]
    unknown = [name for name in words[1:] if name not in known]
    if unknown:
        sys.exit(f"inputs.py: no network {', '.join(unknown)}; there are {', '.join(known)}")
    os.makedirs(words[0], exist_ok=True)
    os.chdir(words[0])
    for name in words[1:] or [*NETWORKS, *FULL]:
        made(name)
    cuts()


if __name__ == "__main__":
    main(sys.argv[1:])
