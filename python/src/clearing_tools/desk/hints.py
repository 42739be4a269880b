"""What to do about a change that the program refuses: the hints of `lint` for the field in which it was typed."""
import re
from typing import Mapping

from clearing_client.format import MAX_CASH, MAX_CLAIM, MAX_CUT, MAX_KEEP, MAX_OUTSIDE
from clearing_client.limits import MOST as MOST_BY_LIMITS

from ..checks import field_hints
from ..money import Money

MOST = {
    "cash": MAX_CASH,
    "outside": MAX_OUTSIDE,
    "claim": MAX_CLAIM,
    "add": MAX_CLAIM,
    "cut": MAX_CUT,
    "keep": MAX_KEEP,
}
PERCENT = re.compile(r"([0-9]{1,3})(?:[.,]([0-9]))? ?%")


def hint_of(change: Mapping[str, object], kind: str, money: Money) -> str:
    """What to do, in some words; empty where nothing is known. The kind is that of the program's fault, empty where a
    word is refused."""
    word = str(change.get("set"))
    field = str(change.get("field")) if word == "bank" else word
    text = str(change.get("claim" if word == "add" else "value", "")).strip(" \t")
    if field in ("cut", "keep"):
        return of_share(text, MOST[field])
    if kind == "number":
        return field_hints.number_hint(text.encode("utf-8", "replace"))
    if kind == "rule":
        return field_hints.rule_hint(text.encode("utf-8", "replace"))
    if kind == "class":
        return field_hints.class_hint(str(change.get("class", "")).encode("utf-8", "replace"))
    if kind == "total":
        return f"all that banks owe is at most {MOST_BY_LIMITS.owed:,}; {larger_unit(money)}"
    if kind == "limit" and field in MOST:
        return f"it is at most {MOST[field]:,}" + (f"; {larger_unit(money)}" if field in ("claim", "add") else "")
    return ""


def larger_unit(money: Money) -> str:
    """What to do where amounts meet a limit: import them anew by a unit ten times as large."""
    unit = money.worth(10)
    worth = f"{money.currency} {unit:,f}" if money.currency else f"{unit:,f}"
    return f"a unit of account of {worth} has room for ten times as much: import the sheets again with --unit {unit:f}"


def of_share(text: str, most: int) -> str:
    """What to do about a number per mille."""
    percent = PERCENT.fullmatch(text)
    if percent:
        return f"it is per mille: write {int(percent[1] + (percent[2] or '0'))} for {text}"
    if text.isascii() and text.isdigit():
        return f"it is a number from 0 to {most:,}, per mille"
    return f"it is a whole number from 0 to {most:,}, per mille, such as 50 for 5%"
