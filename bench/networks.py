"""What a network of bench/ is: the records of its two files."""
from typing import Callable, Dict, List, NamedTuple, Tuple, Union

RULES = ["order", "equal", "losses", "jefferson", "webster", "adams"]
BANKS_HEADER, OUTSIDE_HEADER = "name,cash,rule\n", "name,cash,rule,outside\n"
DEBTS_HEADER = "debtor,creditor,class,claim\n"

Bank = Union[Tuple[str, int, str], Tuple[str, int, str, int]]
"""A record of a banks file: a name, cash and a rule, and what is owed outside where the file has that column."""
Debt = Tuple[str, str, int, int]
"""A record of a debts file: debtor, creditor, class and claim."""


class Network(NamedTuple):
    """The records of a network in the order of its files. Cash, claims and what is owed outside are whole units."""

    banks: List[Bank]
    debts: List[Debt]


Networks = Dict[str, Callable[[], Network]]
"""Networks by their names, each made where it is asked for."""


def rule_of(rule: str, bank: int) -> str:
    """The rule of a bank, by its number, where all have one, or where they are `mixed`."""
    return RULES[bank % 6] if rule == "mixed" else rule
