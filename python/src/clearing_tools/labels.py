"""What the pictures and the report say: states, shares, counts, names within sentences, banks and debts."""
import re
import shlex
import unicodedata
from typing import Callable, Optional, Sequence, Tuple

from .money import Money
from .runner import UNSEEN
from .runner import shown as shown  # what is said of names begins with it
from .texts import STATES, Bank, Flow, due_of, given_by, shortfall_of

STATE_WORDS = {
    "sound": "sound: pays all it owes",
    "fundamental": "in default, label own fundamentals",
    "contagion": "in default, label contagion",
    "gridlock": "in default, label contagion, gridlock: at the least alone",
}

RULE_WORDS = {
    "order": "debts in the order of the file",
    "equal": "the same to each debt",
    "losses": "the same loss to each debt",
    "jefferson": "in proportion (Jefferson)",
    "webster": "in proportion (Webster)",
    "adams": "in proportion (Adams)",
}


def percent(part: int, whole: int) -> str:
    """A share as text, which is 0% or 100% only where it is just that."""
    if not whole:
        return "0%"
    if part in (0, whole):
        return "100%" if part else "0%"
    share = 100 * part / whole
    return "<0.1%" if share < 0.05 else ">99.9%" if share >= 99.95 else f"{share:.1f}%"


def count(number: int, one: str, many: Optional[str] = None) -> str:
    """A number with its noun, whose plural ends with s unless another is given."""
    return f"{number:,} {one if number == 1 else many or one + 's'}"


def is_turned(text: str) -> bool:
    """Whether a text has letters that run from right to left."""
    left = ("L", "EN", "ES", "CS", "ET", "ON", "WS", "NSM", "BN", "AN")
    return not text.isascii() and any(unicodedata.bidirectional(letter) not in left for letter in text)


def held(name: str) -> str:
    """A name that can be read, held apart within a sentence where it has letters that run from right to left."""
    return f"\u2068{name}\u2069" if is_turned(name) else name


def apart(name: str) -> str:
    """A name within a sentence, as it can be read, and held apart where it has letters that run from right to left."""
    return held(shown(name))


def word_shown(word: str) -> str:
    """A word of a command line as a shell takes it. Signs that are not seen are escapes, which bash reads."""
    if shown(word) == word or any(letter < " " for letter in word):
        return shlex.quote(word)
    escaped = re.sub(r"([\\'])", r"\\\1", word)
    return "$'" + UNSEEN.sub(lambda found: "".join(f"\\x{byte:02x}" for byte in found[0].encode()), escaped) + "'"


def in_short(state: str) -> str:
    """A state in a few words."""
    return STATE_WORDS[state].split(":")[0]


def say_bank(bank: Bank, money: Money) -> str:
    """How a bank stands, in a line."""
    due = due_of(bank)
    pays = f"pays {money(given_by(bank))} of {money(due)}" if due else "owes nothing"
    return f"{apart(bank.name)}: {in_short(bank.state)}, {pays}, keeps {money(bank.equity)}"


def say_flow(flow: Flow, money: Money) -> str:
    """What one bank owes another and pays, in a line."""
    creditor = "the world outside" if flow.creditor is None else apart(flow.creditor)
    return f"{apart(flow.debtor)} to {creditor}: {money.number(flow.paid)} of {money.number(flow.claim)} paid"


def headline(banks: Sequence[Bank], money: Money, called: Callable[[str], str] = str) -> Tuple[str, str]:
    """The title of a picture of the network, which is its message, and the line below it."""
    owed, unpaid = sum(map(due_of, banks)), sum(map(shortfall_of, banks))
    fallen = sorted((bank for bank in banks if bank.state != "sound"), key=lambda bank: -shortfall_of(bank))
    below = (
        f"{count(len(banks), 'bank')} owe {money(owed)}; {money(unpaid)} of it, {percent(unpaid, owed)},"
        f" stays unpaid. {defaults_of(banks)}"
    )
    if not owed:
        return (
            f"{count(len(banks), 'bank')} {'owes others' if len(banks) == 1 else 'owe each other'} nothing",
            defaults_of(banks),
        )
    if not fallen:
        return "All that is owed is paid", below
    first = apart(called(fallen[0].name))
    if len(fallen) == 1:
        return f"{first} alone leaves debts unpaid, {money.in_short(unpaid)}", below
    return (
        f"{first} leaves the most unpaid, {money.in_short(shortfall_of(fallen[0]))} of {money.in_short(unpaid)}",
        below,
    )


def defaults_of(banks: Sequence[Bank]) -> str:
    """How many banks default, and with which labels."""
    of = {state: sum(bank.state == state for bank in banks) for state in STATES}
    defaults = len(banks) - of["sound"]
    if not defaults:
        return "No bank is in default."
    words = {
        "fundamental": "with the label own fundamentals",
        "contagion": "with the label contagion",
        "gridlock": "in gridlock",
    }
    parts = [f"{of[state]:,} {words[state]}" for state in STATES[1:] if of[state]]
    return f"{count(defaults, 'bank')} {'is' if defaults == 1 else 'are'} in default: {', '.join(parts)}."


def listed(words: Sequence[str], most: int = 4) -> str:
    """Words in a sentence, with `and` before the last, and the number of those that are left out."""
    words = list(words)
    if len(words) > most:
        words = words[: most - 1] + [f"{len(words) - most + 1:,} more"]
    return " and ".join(filter(None, (", ".join(words[:-1]), words[-1] if words else "")))
