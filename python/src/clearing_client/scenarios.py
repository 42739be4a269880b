"""Scenarios of losses, and how they are written as TOML."""
from __future__ import annotations

import contextlib
import importlib
import operator
from typing import Dict, Iterable, Iterator, List, Mapping, Sequence, SupportsIndex, Tuple, Union, overload

from .errors import TableError
from .tabular import whole_of

Losses = Union[Mapping[str, float], Iterable[Tuple[str, float]]]


def whole(value: object, row: int, field: str) -> int:
    """A whole number of a scenario: what a table takes for one, or anything else that is an index."""
    number = whole_of(value)
    if number is not None:
        return number
    if isinstance(value, SupportsIndex) and not isinstance(value, bool):
        # An array of several numbers has the method, and is no index.
        with contextlib.suppress(TypeError):
            return operator.index(value)
    raise TableError("scenarios", row, field, value, f"{value!r} is not a whole number")


class Scenario:
    """What is lost in one state of the world.

    name    what the scenario is called
    cut     per mille of its cash that every bank loses, 0 to 1,000; what is lost is rounded down
    losses  units that single banks lose after the cut, as a dict or as pairs of a bank's name and an amount; cash does
            not fall below 0

    A float is taken where it is a whole number, as in a table, and refused otherwise.

    >>> Scenario("a bad year", cut=500, losses={"Kemi": 2000000})
    Scenario('a bad year', cut=500, losses={'Kemi': 2000000})
    """

    __slots__ = ("name", "cut", "losses")

    def __init__(self, name: str, cut: float = 0, losses: Losses = ()) -> None:
        pairs = losses.items() if isinstance(losses, Mapping) else losses
        self.name = name
        self.cut = whole(cut, 0, "cut")
        self.losses: Tuple[Tuple[str, int], ...] = tuple((bank, whole(loss, 0, "amount")) for bank, loss in pairs)
        for text, field in [(name, "name"), *((bank, "bank") for bank, _ in self.losses)]:
            if not isinstance(text, str):
                raise TableError("scenarios", 0, field, text, f"{text!r} is not a text")

    def __repr__(self) -> str:
        banks = dict(self.losses)
        losses: object = banks if len(banks) == len(self.losses) else self.losses
        return f"Scenario({self.name!r}, cut={self.cut}, losses={losses!r})"

    def __eq__(self, other: object) -> bool:
        if not isinstance(other, Scenario):
            return NotImplemented
        return (self.name, self.cut, self.losses) == (other.name, other.cut, other.losses)

    def __hash__(self) -> int:
        return hash((self.name, self.cut, self.losses))

    def as_table(self) -> Dict[str, object]:
        """The scenario as a table of the TOML document."""
        table: Dict[str, object] = {"name": self.name}
        if self.cut:
            table["cut"] = self.cut
        if self.losses:
            table["loss"] = [{"bank": bank, "amount": amount} for bank, amount in self.losses]
        return table


def scenario_of(one: object) -> Scenario:
    """A scenario from itself, or from a dict of the shape of the TOML document."""
    if isinstance(one, Scenario):
        return one
    if isinstance(one, Mapping):
        unknown = [key for key in one if key not in ("name", "cut", "loss")]
        if unknown or "name" not in one:
            raise TableError("scenarios", 0, "", one, f"not a scenario's name, cut and loss: {one!r}")
        losses = [(loss["bank"], loss["amount"]) for loss in one.get("loss", ())]
        return Scenario(one["name"], one.get("cut", 0), losses)
    raise TableError("scenarios", 0, "", one, f"{one!r} is not a scenario")


class Scenarios(Sequence[Scenario]):
    """Scenarios in order, from `Scenario`s, or from dicts of the shape of the TOML document.

    >>> print(Scenarios([Scenario("half", cut=500)]).to_toml(plain=True), end="")
    [[scenario]]
    name = "half"
    cut = 500
    """

    def __init__(self, scenarios: Iterable[Union[Scenario, Mapping[str, object]]] = ()) -> None:
        self._all = tuple(scenario_of(one) for one in scenarios)

    @classmethod
    def cuts(cls, cuts: Iterable[float]) -> "Scenarios":
        """A scenario for each cut of all cash, per mille.

        >>> Scenarios.cuts([0, 100])[1]
        Scenario('cut 100', cut=100, losses={})
        """
        return cls([Scenario(f"cut {cut}", cut) for cut in (whole(one, 0, "cut") for one in cuts)])

    @overload
    def __getitem__(self, place: int) -> Scenario:
        ...

    @overload
    def __getitem__(self, place: slice) -> "Scenarios":
        ...

    def __getitem__(self, place: Union[int, slice]) -> "Union[Scenario, Scenarios]":
        return Scenarios(self._all[place]) if isinstance(place, slice) else self._all[place]

    def __len__(self) -> int:
        return len(self._all)

    def __iter__(self) -> Iterator[Scenario]:
        return iter(self._all)

    def __eq__(self, other: object) -> bool:
        if not isinstance(other, Scenarios):
            return NotImplemented
        return self._all == other._all

    def __hash__(self) -> int:
        return hash(self._all)

    def __repr__(self) -> str:
        return f"Scenarios({list(self._all)!r})"

    def to_toml(self, plain: bool = False) -> str:
        """The TOML document, by `tomli_w` where it is there and unless `plain` is said."""
        document = {"scenario": [one.as_table() for one in self._all]}
        if not plain:
            try:
                return str(importlib.import_module("tomli_w").dumps(document))
            except ImportError:
                pass
        return toml_of(self._all)


def toml_of(scenarios: Iterable[Scenario]) -> str:
    """The TOML document, by a few lines of its own."""
    lines: List[str] = []
    for one in scenarios:
        lines += ["[[scenario]]", f"name = {quoted(one.name)}"]
        lines += [f"cut = {one.cut}"] if one.cut else []
        for bank, amount in one.losses:
            lines += ["[[scenario.loss]]", f"bank = {quoted(bank)}", f"amount = {amount}"]
    return "".join(line + "\n" for line in lines)


def quoted(text: str) -> str:
    """A text as a basic string of TOML.

    >>> print(quoted('a "b" c:\\\\d'))
    "a \\"b\\" c:\\\\d"
    """
    return '"' + "".join(escaped(one) for one in text) + '"'


def escaped(one: str) -> str:
    """A character as it stands within a basic string of TOML."""
    if one in '"\\':
        return "\\" + one
    return f"\\u{ord(one):04X}" if ord(one) < 0x20 or ord(one) == 0x7F else one
