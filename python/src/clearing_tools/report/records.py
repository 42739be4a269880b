"""What a report is told by the program and by the case, record by record. Amounts are whole units of account."""
from typing import Dict, List, NamedTuple, Optional, Tuple

from clearing_client.steady import Place

from ..texts import Bank


class Given(NamedTuple):
    """A file that was given: what it is, its name, its bytes, and its SHA-256."""

    what: str
    name: str
    size: int
    digest: str


class Verdict(NamedTuple):
    """What `clearing replay` says of the journal: whether it is lawful and makes these payments, its line, and
    words."""

    is_lawful: bool
    line: str
    words: str


class Evidence(NamedTuple):
    """What another person needs to do it again: files, program, commands, each with its checksum."""

    files: List[Tuple[str, str, str, str]]
    commit: str
    toolchain: str
    commands: List[Tuple[str, int, str]]
    verdict: Verdict
    made: str
    words: str


class Scenario(NamedTuple):
    """A scenario: its name, the banks in it, and the cash that it leaves in all."""

    name: str
    banks: List[Bank]
    left: int


class Change(NamedTuple):
    """The case changed in one point: its words, and how the banks then stand. `unpaid` is in units of this case,
    rounded down; `places` are there where another unit is the change, and tell whether one unit decides a figure."""

    words: str
    defaults: int
    unpaid: int
    against: str
    states: Dict[str, str]
    places: Optional[Dict[str, Place]] = None


class Head(NamedTuple):
    """What the case says of itself: empty where it says nothing."""

    title: str
    description: str
    as_of: str
    test: str
    author: str
    version: str


class Rescue(NamedTuple):
    """A bank in default: the least cash that lets it pay in full, the other banks that then do too, and how much
    less then stays unpaid in all (None where it was not tried)."""

    bank: str
    added: int
    saves: List[str]
    less: Optional[int]
