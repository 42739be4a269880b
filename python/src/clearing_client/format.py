"""What the formats of the program say, said once: limits of numbers, rules, states, kinds of fault, statuses. The
headers are those of `texts`, which takes them from `records`; how much a network may have is in `limits`. Amounts are
whole units of account."""
from typing import Dict, Tuple

RULES = ("order", "equal", "losses", "jefferson", "webster", "adams")
"""The rules by which a bank divides what it has."""
STATES = ("sound", "fundamental", "contagion")
"""How a bank stands after clearing."""

MAX_CASH, MAX_OUTSIDE, MAX_CLAIM = 10**12, 10**11, 10**6
MAX_SCENARIOS, MAX_CUT, MAX_LOSS, MAX_STAMP = 100, 1000, 10**12, 2**32 - 1
MAX_WORKERS, MAX_SWEEPS, MAX_KEEP = 64, 1000, 1000
MAX_SEED, MAX_SIZE, MAX_TRIES = 2**64 - 1, 1000, 20_000
"""From which numbers a network is made, of how many banks and tries at a debt."""

KINDS: Dict[int, Tuple[str, str]] = {
    1: ("header", "the first record is missing, or not the header's words"),
    2: ("fields", "the record has not as many fields as the header"),
    3: ("name", "a field is not a name"),
    4: ("number", "a field is not 1 to 20 digits"),
    5: ("rule", "a field is not one of the six rules"),
    6: ("limit", "a number is outside its limit"),
    7: ("double bank", "the bank was named before"),
    8: ("unknown bank", "no bank has the name"),
    9: ("self debt", "debtor and creditor are the same bank"),
    10: ("class", "a field is not one digit from 1 to 9"),
    11: ("double debt", "a debt of this debtor, creditor and class came before"),
    12: ("too many", "one more bank, debt, scenario or raise than the limit"),
    13: ("total", "the claims so far pass the limit of all together"),
    14: ("file size", "the file is longer than its limit"),
    15: ("unknown debt", "no debt has this debtor, creditor and class"),
    16: ("toml", "the scenarios file is not UTF-8, or not TOML"),
    17: ("shape", "the document, or a scenario, is not of its shape"),
}
"""The kinds of fault of a file by their number for good, each in a word or two, and in a sentence."""
NUMBERS: Dict[str, int] = {kind: number for number, (kind, _) in KINDS.items()}
"""The number of each kind of fault."""

STATUSES: Dict[int, str] = {
    2: "the words are not understood",
    3: "a file cannot be read",
    4: "a file is refused",
    5: "the output cannot be written",
    6: "want of memory",
    7: "the journal is not lawful, or not complete",
    8: "there is no program, or it cannot be built",
}
"""What each status of the program means but 0."""


def is_name(text: str) -> bool:
    """Whether the program takes a text as the name of a bank: 1 to 64 bytes, no comma, quote or control character."""
    is_control = any(ord(letter) < 32 or 127 <= ord(letter) <= 159 for letter in text)
    return 1 <= len(text.encode("utf-8", "surrogatepass")) <= 64 and not is_control and not set(text) & {",", '"'}
