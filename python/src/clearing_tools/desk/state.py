"""A state of the desk: what was changed of the network as it is, as a value that is never altered, and the files that
it makes.

What is typed stands in the files as it was typed, so that the program judges it. Amounts are whole units of account."""
import csv
import io
import re
from typing import Callable, Dict, Iterator, List, Mapping, NamedTuple, Optional, Sequence, Tuple

from clearing_client.format import MAX_CUT, MAX_KEEP
from clearing_client.records import Bank, Debt
from clearing_client.scenarios import Scenario, Scenarios

from ..evidence import shock

GROUPED = re.compile("[0-9]{1,3}(,[0-9]{3})+")
NO_LINE = re.compile("[\x00\r\n\ud800-\udfff]")  # what no field of one line has
MOST_LETTERS = 200  # of a field that is typed: more than any field that the program takes


class Base(NamedTuple):
    """The network as it is: banks and debts as the program reads them, and the scenarios of the file."""

    banks: Sequence[Bank]
    debts: Sequence[Debt]
    scenarios: Sequence[shock.Scenario] = ()


class State(NamedTuple):
    """What was changed. `cut` and `keep` are per mille; `losses` are those of the scenario of this number, by the
    bank's place."""

    cut: str = "0"
    keep: str = str(MAX_KEEP)
    scenario: int = 0
    losses: Tuple[Tuple[int, int], ...] = ()
    banks: Mapping[int, Tuple[str, str, str]] = {}  # cash, rule and what is owed outside, by the bank's place
    claims: Mapping[int, Optional[str]] = {}  # of debts of the file, by their place; None where the debt is struck
    # Debtor, creditor, class and claim of debts more; None where one was struck again.
    added: Tuple[Optional[Tuple[str, str, str, str]], ...] = ()


class MalformedChangeError(ValueError):
    """A change that is none: the page does not ask for such a thing."""


class InvalidFieldError(ValueError):
    """What was typed cannot be taken, and the program is not asked: what is said of it, and the field of the page."""

    def __init__(self, message: str, field: str) -> None:
        super().__init__(message)
        self.message, self.field = message, field


AS_IT_IS = State()


def plain(text: str) -> str:
    """A field as the program prints it, where it is a number, with or without the commas between thousands with which
    the page shows it; else as it was typed."""
    inner = text.strip(" \t")
    if GROUPED.fullmatch(inner):
        inner = inner.replace(",", "")
    return str(int(inner)) if inner.isascii() and inner.isdigit() and len(inner) <= 20 else text


def number_of(text: str) -> Optional[int]:
    """The number that a field is, None where it is none."""
    return int(text) if text.isascii() and text.isdigit() and len(text) <= 20 else None


# Changes. Each takes the network, a state and what the page sent, and gives another state.


def typed(change: Mapping[str, object], name: str) -> str:
    """A text of a change, as it was typed in a field of one line."""
    value = change.get(name)
    if not isinstance(value, str) or len(value) > MOST_LETTERS or NO_LINE.search(value):
        raise MalformedChangeError(f"{name} is no line of at most {MOST_LETTERS} letters")
    return plain(value)


def placed(change: Mapping[str, object], name: str, count: int) -> int:
    """A place among so many of a change."""
    value = change.get(name)
    if type(value) is not int or not 0 <= value < count:
        raise MalformedChangeError(f"{name} is no place")
    return value


def with_cut(base: Base, state: State, change: Mapping[str, object]) -> State:
    """Another cut of all cash."""
    return state._replace(cut=typed(change, "value"))


def with_keep(base: Base, state: State, change: Mapping[str, object]) -> State:
    """Another part that is kept of an estate in default."""
    return state._replace(keep=typed(change, "value"))


def with_scenario(base: Base, state: State, change: Mapping[str, object]) -> State:
    """The cut and the losses of a scenario of the file; none of the number 0."""
    number = placed(change, "value", len(base.scenarios) + 1)
    if not number:
        return state._replace(cut="0", scenario=0, losses=())
    chosen = base.scenarios[number - 1]
    return state._replace(cut=str(chosen.cut), scenario=number, losses=tuple(sorted(chosen.losses.items())))


def with_bank(base: Base, state: State, change: Mapping[str, object]) -> State:
    """Another cash, rule or sum owed outside of a bank."""
    place, field = placed(change, "bank", len(base.banks)), change.get("field")
    if field not in ("cash", "rule", "outside"):
        raise MalformedChangeError("field is none of a bank")
    row = dict(zip(("cash", "rule", "outside"), row_of(base, state, place)))
    row[str(field)] = typed(change, "value")
    banks = dict(state.banks)
    banks[place] = (row["cash"], row["rule"], row["outside"])
    if banks[place] == row_of(base, AS_IT_IS, place):
        del banks[place]
    return state._replace(banks=banks)


def with_claim(base: Base, state: State, change: Mapping[str, object]) -> State:
    """Another claim of a debt."""
    return with_debt(base, state, change, typed(change, "value"))


def with_struck(base: Base, state: State, change: Mapping[str, object]) -> State:
    """A debt less; one of the file that was struck is there again where `again` is said."""
    key = placed(change, "debt", len(base.debts) + len(state.added))
    if change.get("again") is True and key < len(base.debts):
        return state._replace(claims={place: claim for place, claim in state.claims.items() if place != key})
    return with_debt(base, state, change, None)


def with_debt(base: Base, state: State, change: Mapping[str, object], claim: Optional[str]) -> State:
    """A debt with another claim, or struck where it is None."""
    key = placed(change, "debt", len(base.debts) + len(state.added))
    if key >= len(base.debts):
        added, at = list(state.added), key - len(base.debts)
        before = added[at]
        if before is None:
            raise MalformedChangeError("debt was struck")
        added[at] = None if claim is None else (*before[:3], claim)
        return state._replace(added=tuple(added))
    claims = dict(state.claims)
    if claims.get(key, "") is None:
        raise MalformedChangeError("debt was struck")
    claims[key] = claim
    if claim == str(base.debts[key].claim):
        del claims[key]
    return state._replace(claims=claims)


def with_added(base: Base, state: State, change: Mapping[str, object]) -> State:
    """A debt more."""
    debtor, creditor, rank, claim = (typed(change, name) for name in ("debtor", "creditor", "class", "claim"))
    if not any(field.strip(" \t") for field in (debtor, creditor, rank, claim)):
        # The program passes over a record of blanks.
        raise InvalidFieldError("a debt has a debtor, a creditor, a class and a claim", "creditor")
    return state._replace(added=(*state.added, (debtor, creditor, rank, claim)))


CHANGES: Mapping[str, Callable[[Base, State, Mapping[str, object]], State]] = {
    "cut": with_cut,
    "keep": with_keep,
    "scenario": with_scenario,
    "bank": with_bank,
    "claim": with_claim,
    "strike": with_struck,
    "add": with_added,
}


def changed(base: Base, state: State, change: object) -> State:
    """The state that a change leads to. Nothing is judged here but the form of what the page sends."""
    work = CHANGES.get(str(change.get("set"))) if isinstance(change, dict) else None
    if work is None or not isinstance(change, dict):
        raise MalformedChangeError("this is no change")
    return work(base, state, change)


# What a state is as files.


def row_of(base: Base, state: State, place: int) -> Tuple[str, str, str]:
    """The cash, the rule and what is owed outside of a bank, as texts."""
    bank = base.banks[place]
    return state.banks.get(place) or (str(bank.cash), bank.rule, str(bank.outside))


def debts_of(base: Base, state: State) -> Iterator[Tuple[int, str, str, str, str]]:
    """The debts, each with its key: the place in the file, and behind those the place among the debts added."""
    for key, debt in enumerate(base.debts):
        claim = state.claims[key] if key in state.claims else str(debt.claim)
        if claim is not None:
            yield (key, debt.debtor, debt.creditor, str(debt.class_), claim)
    for key, record in enumerate(state.added, len(base.debts)):
        if record is not None:
            yield (key, *record)


def csv_of(header: str, rows: Sequence[Sequence[object]]) -> bytes:
    """A file of the program. What is typed stands in it as one field, whatever it is."""
    text = io.StringIO()
    text.write(header + "\n")
    csv.writer(text, lineterminator="\n").writerows(rows)
    return text.getvalue().encode("utf-8", "surrogatepass")


def banks_csv(base: Base, rows: Sequence[Sequence[object]]) -> bytes:
    """A banks file of rows of cash, rule and outside; in version 2 where a bank owes something outside."""
    if all(str(outside) == "0" for _, _, outside in rows):
        return csv_of("name,cash,rule", [(bank.name, *row[:2]) for bank, row in zip(base.banks, rows)])
    return csv_of("name,cash,rule,outside", [(bank.name, *row) for bank, row in zip(base.banks, rows)])


def debts_csv(debts: Sequence[Tuple[int, str, str, str, str]]) -> bytes:
    """A debts file."""
    return csv_of("debtor,creditor,class,claim", [debt[1:] for debt in debts])


def shock_toml(base: Base, state: State) -> bytes:
    """The cut and the losses as a scenarios file of one. A cut that is no number stands there as a text."""
    number = number_of(state.cut)
    in_range = number is not None and number < 2**63
    losses = {base.banks[place].name: amount for place, amount in state.losses}
    text = Scenarios([Scenario("tried at the desk", 0, losses)]).to_toml(plain=True)
    cut = str(number) if in_range else '"no number"'
    return text.replace('name = "tried at the desk"\n', f'name = "tried at the desk"\ncut = {cut}\n', 1).encode()


def left_of(base: Base, state: State) -> Optional[List[int]]:
    """What the cut and the losses leave of each bank's cash, None where a number is none. The program's word on it is
    compared."""
    cut, banks = number_of(state.cut), list(base.banks)
    for place, row in state.banks.items():
        cash = number_of(row[0])
        if cash is None:
            return None
        banks[place] = banks[place]._replace(cash=cash)
    if cut is None or cut > MAX_CUT:
        return None
    return [bank.cash for bank in shock.left_by(banks, shock.Scenario("", cut, dict(state.losses)))]


def left_csv(base: Base, state: State, left: Sequence[int]) -> bytes:
    """The banks file with what is left of the cash."""
    return banks_csv(base, [(units, *row_of(base, state, place)[1:]) for place, units in enumerate(left)])


def as_scenario(
    base: Base, state: State, left: Optional[List[int]], name: str = "tried at the desk"
) -> Optional[Scenario]:
    """The changes as one scenario of a name, None where they are none: a scenario cuts all cash and takes cash from
    single banks, no more. `left` is what is left of the cash."""
    touched = state.claims or any(record is not None for record in state.added) or state.keep != AS_IT_IS.keep
    if touched or any(row[1:] != row_of(base, AS_IT_IS, place)[1:] for place, row in state.banks.items()):
        return None
    cut = left_of(base, AS_IT_IS._replace(cut=state.cut))
    if left is None or cut is None or any(after > before for before, after in zip(cut, left)):
        return None
    losses = {bank.name: before - after for bank, before, after in zip(base.banks, cut, left) if before != after}
    return Scenario(name, int(state.cut), losses) if int(state.cut) or losses else None


def field_of(change: Mapping[str, object], file: str, kind: str) -> str:
    """The field of the page to which a fault of the program belongs."""
    word = str(change.get("set"))
    if word == "bank":
        return str(change.get("field"))
    if word != "add" or file != "debts":
        return {"strike": "claim"}.get(word, word)
    if kind == "class":
        return "class"
    return "creditor" if kind in ("unknown bank", "self debt", "double debt", "name") else "claim"


def names_of(base: Base) -> Dict[str, int]:
    """The place of each bank, by its name."""
    return {bank.name: place for place, bank in enumerate(base.banks)}
