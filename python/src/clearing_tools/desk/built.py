"""Scenarios that are built at the desk."""
from typing import Dict, Mapping, Sequence

from clearing_client.format import MAX_CUT, MAX_LOSS, is_name
from clearing_client.scenarios import Scenario, Scenarios

from ..evidence import shock
from .state import Base, InvalidFieldError, MalformedChangeError, number_of, placed, typed


def scenario_of(base: Base, form: Mapping[str, object]) -> shock.Scenario:
    """A scenario as the page sends it: a name, a cut, and losses as pairs of a bank's place and an amount. What the
    program refuses of it it refuses itself; here stands what it would read as something else."""
    name, cut, losses = typed(form, "name").strip(" \t"), typed(form, "cut"), form.get("losses")
    if not is_name(name):
        raise InvalidFieldError("a scenario has a name of 1 to 64 bytes, without comma and quote", "scenario-name")
    if any(name == one.name for one in base.scenarios):
        raise InvalidFieldError("there is a scenario of this name; give this one another", "scenario-name")
    if number_of(cut) is None or int(cut) > MAX_CUT:
        raise InvalidFieldError(f"a cut is a whole number from 0 to {MAX_CUT:,}, per mille", "scenario-cut")
    amounts = losses_in(base, losses)
    if not int(cut) and not any(amounts.values()):
        raise InvalidFieldError("a scenario takes cash: a cut, or a loss of a bank", "scenario-losses")
    return shock.Scenario(name, int(cut), amounts)


def losses_in(base: Base, losses: object) -> Dict[int, int]:
    """The losses of a scenario as the page sends them, by the places of banks."""
    if not isinstance(losses, list) or len(losses) > len(base.banks):
        raise MalformedChangeError("losses are pairs of a bank and an amount")
    amounts: Dict[int, int] = {}
    for pair in losses:
        if not isinstance(pair, list) or len(pair) != 2:
            raise MalformedChangeError("losses are pairs of a bank and an amount")
        place = placed({"bank": pair[0]}, "bank", len(base.banks))
        amount = number_of(typed({"amount": pair[1]}, "amount"))
        if place in amounts:
            raise InvalidFieldError(f"{base.banks[place].name} stands there twice", "scenario-losses")
        if amount is None or amount > MAX_LOSS:
            raise InvalidFieldError(f"a loss is a whole number from 0 to {MAX_LOSS:,}", "scenario-losses")
        amounts[place] = amount
    return amounts


def scenarios_toml(base: Base, scenarios: Sequence[shock.Scenario]) -> bytes:
    """The scenarios file of some scenarios."""
    named = [
        Scenario(one.name, one.cut, {base.banks[place].name: units for place, units in sorted(one.losses.items())})
        for one in scenarios
    ]
    return Scenarios(named).to_toml(plain=True).encode()
