#!/usr/bin/env python3
"""The one reader of crates.txt, which says on which crates each crate of the repository stands.

    tools/dev/crates.py [--above | --below] [CRATE ..]

prints crates, a line each, each after those that it stands on: those that are named, or all; with `--above` those too
that stand on them, and with `--below` those that they stand on. The status is 2 where a crate is not in crates.txt.

A line is `NAME: CRATE ..`. Words may stand between the name and the colon, as in `NAME staticlib: CRATE ..`, and what
follows a `#` is a comment. The crates on which one stands are the repository's own and those of the toolchain.
"""
import argparse
import pathlib
import sys
from typing import Dict, List, NamedTuple, Optional, Set

ROOT = pathlib.Path(__file__).resolve().parents[2]


class Crate(NamedTuple):
    """A line of crates.txt: as it stands there, and the crates that it names after the colon, in turn."""

    line: str
    uses: List[str]


def listed(root: pathlib.Path) -> Dict[str, Crate]:
    """The crates of a repository by their names, in the order of the file. An OSError where that cannot be read."""
    found = {}
    for line in (root / "crates.txt").read_text(encoding="utf-8").split("\n"):
        head, colon, uses = line.partition("#")[0].partition(":")
        if colon and head.split():
            found[head.split()[0]] = Crate(line, uses.split())
    return found


def stands_on(root: pathlib.Path) -> Dict[str, List[str]]:
    """By name the crates that each crate names, those of the repository alone, in the order of the file."""
    crates = listed(root)
    return {name: [used for used in crate.uses if used in crates] for name, crate in crates.items()}


def lowest_first(crates: Dict[str, Crate], name: str, found: Optional[List[str]] = None) -> List[str]:
    """A crate after all crates of the repository that it stands on, each once and after those below it. They are added
    to what was found before."""
    found = [] if found is None else found
    for used in crates[name].uses:
        if used in crates and used not in found:
            lowest_first(crates, used, found)
    if name not in found:
        found.append(name)
    return found


def in_order(crates: Dict[str, Crate]) -> List[str]:
    """All crates, each after those that it stands on."""
    found: List[str] = []
    for name in crates:
        lowest_first(crates, name, found)
    return found


def with_above(crates: Dict[str, Crate], named: Set[str]) -> Set[str]:
    """Some crates and all that stand on them."""
    found = set(named)
    for name in in_order(crates):
        if found.intersection(crates[name].uses):
            found.add(name)
    return found


def with_below(crates: Dict[str, Crate], named: Set[str]) -> Set[str]:
    """Some crates and all of the repository that they stand on."""
    return {below for name in named for below in lowest_first(crates, name)}


def main() -> int:
    """Prints the crates that are wanted; the status."""
    parser = argparse.ArgumentParser(description="Crates of crates.txt, each after those that it stands on.")
    way = parser.add_mutually_exclusive_group()
    way.add_argument("--above", action="store_true", help="also those that stand on them")
    way.add_argument("--below", action="store_true", help="also those that they stand on")
    parser.add_argument("crates", metavar="CRATE", nargs="*", help="all where none is named")
    args = parser.parse_args()
    crates = listed(ROOT)
    for name in args.crates:
        if name not in crates:
            parser.error(f"no crate {name} in crates.txt")
    named = set(args.crates or crates)
    wanted = with_above(crates, named) if args.above else with_below(crates, named) if args.below else named
    print("".join(f"{name}\n" for name in in_order(crates) if name in wanted), end="")
    return 0


if __name__ == "__main__":
    sys.exit(main())
