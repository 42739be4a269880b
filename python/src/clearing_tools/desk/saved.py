"""A state as a value of JSON, for a session that is saved."""
from typing import Dict, List, Tuple

from clearing_client.format import MAX_LOSS

from .state import AS_IT_IS, Base, MalformedChangeError, State, number_of, placed, typed


def as_json(state: State) -> Dict[str, object]:
    """A state as a value of JSON; what is not changed is left out."""
    whole: Dict[str, object] = {
        "cut": state.cut,
        "keep": state.keep,
        "scenario": state.scenario,
        "losses": [list(pair) for pair in state.losses],
        "banks": {str(place): list(row) for place, row in sorted(state.banks.items())},
        "claims": {str(key): claim for key, claim in sorted(state.claims.items())},
        "added": [None if record is None else list(record) for record in state.added],
    }
    unchanged = {"cut": "0", "keep": AS_IT_IS.keep, "scenario": 0}
    return {key: value for key, value in whole.items() if value and value != unchanged.get(key)}


def from_json(base: Base, value: object) -> State:
    """The state of such a value. Fails with `MalformedChangeError` where it is none."""
    keys = {"cut", "keep", "scenario", "losses", "banks", "claims", "added"}
    if not isinstance(value, dict) or not set(value) <= keys:
        raise MalformedChangeError("a state has other keys")
    banks, claims = value.get("banks", {}), value.get("claims", {})
    added, losses = value.get("added", []), value.get("losses", [])
    if not all(isinstance(part, kind) for part, kind in ((banks, dict), (claims, dict), (added, list), (losses, list))):
        raise MalformedChangeError("a state has a part of another kind")
    return State(
        cut=typed({"cut": value.get("cut", "0")}, "cut"),
        keep=typed({"keep": value.get("keep", AS_IT_IS.keep)}, "keep"),
        scenario=placed({"scenario": value.get("scenario", 0)}, "scenario", len(base.scenarios) + 1),
        losses=tuple(pair_of(base, pair) for pair in losses),
        banks={key_of(place, len(base.banks)): bank_row(row) for place, row in banks.items()},
        claims={
            key_of(key, len(base.debts)): None if claim is None else typed({"claim": claim}, "claim")
            for key, claim in claims.items()
        },
        added=tuple(None if record is None else debt_record(record) for record in added),
    )


def pair_of(base: Base, pair: object) -> Tuple[int, int]:
    """A loss: the bank's place, and the units."""
    if not isinstance(pair, list) or len(pair) != 2:
        raise MalformedChangeError("a loss is no pair")
    return placed({"bank": pair[0]}, "bank", len(base.banks)), placed({"amount": pair[1]}, "amount", MAX_LOSS + 1)


def key_of(key: str, count: int) -> int:
    """A place that stands as a key of JSON."""
    number = number_of(key)
    if number is None or number >= count:
        raise MalformedChangeError("a key is no place")
    return number


def bank_row(row: object) -> Tuple[str, str, str]:
    """The cash, the rule and what is owed outside of a bank, as they were typed."""
    cash, rule, outside = texts_of(row, 3)
    return cash, rule, outside


def debt_record(record: object) -> Tuple[str, str, str, str]:
    """The debtor, the creditor, the class and the claim of a debt, as they were typed."""
    debtor, creditor, rank, claim = texts_of(record, 4)
    return debtor, creditor, rank, claim


def texts_of(row: object, count: int) -> List[str]:
    """So many texts, as they were typed."""
    if not isinstance(row, list) or len(row) != count:
        raise MalformedChangeError("a row has another length")
    return [typed({"field": field}, "field") for field in row]
