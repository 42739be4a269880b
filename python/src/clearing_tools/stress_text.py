"""What `clearing stress` prints, read scenario by scenario."""
from typing import Dict, Iterator, List, Mapping, NamedTuple, Optional

from clearing_client.texts import SUMS

from . import texts
from .runner import StrPath, ToolError
from .texts import DEFAULTS_HEADERS, Bank, lines_in


class Scenario(NamedTuple):
    """A scenario, and its banks by name."""

    name: str
    banks: Dict[str, Bank]


class Part(NamedTuple):
    """The lines of a scenario without its payments: the number of the first line, that line, and from the header of
    the defaults on, with its number; where there is no such header it is None."""

    first: int
    head: str
    header: Optional[int]
    lines: List[str]


def parts_in(name: StrPath) -> Iterator[Part]:
    """The parts of a file, one after another as it is read. An empty line stands between two; payments are passed
    over unread."""
    part: Optional[Part] = None
    empty = False
    for at, line in enumerate(lines_in(name), 1):
        if at == 1 and line == SUMS:
            raise ToolError(
                f"{name}: this is what `clearing outcomes` prints, scenarios in sums; a map is drawn of what"
                " `clearing stress` prints"
            )
        if line.startswith("scenario,") and (at == 1 or empty):
            if part:
                yield part
            part, empty = Part(at, line, None, []), False
        elif part is None:
            if line:
                raise ToolError(f"{name}: line 1: no scenario begins here")
        else:
            if part.header is None and line in DEFAULTS_HEADERS:
                part, empty = part._replace(header=at), False
            if part.header is not None:
                part.lines.extend([""] * empty + [line] * (line != ""))
            empty = line == ""
    if part is None:
        raise ToolError(f"{name}: it has no scenario")
    part.lines.extend([""] * empty)
    yield part


def read_scenario(name: StrPath, part: Part, outside: Optional[Mapping[str, int]]) -> Scenario:
    """One scenario, of whose part the defaults are read."""
    if part.header is None:
        raise ToolError(f"{name}: line {part.first}: the scenario has no table of defaults")
    header, *lines = part.lines
    if len(lines) < 2 or not lines[-2].startswith("total,") or not lines[-1].startswith("cash,"):
        raise ToolError(f"{name}: line {part.first}: the scenario does not end with the lines total and cash")
    banks = texts.table_of(name, header, lines[:-2], part.header + 1, outside)
    return Scenario(part.head.removeprefix("scenario,"), {bank.name: bank for bank in banks})


def read_stress(name: StrPath, outside: Optional[Mapping[str, int]] = None) -> List[Scenario]:
    """The scenarios in file order. What is held is the banks of each."""
    scenarios: List[Scenario] = []
    for part in parts_in(name):
        scenarios.append(read_scenario(name, part, outside))
        if scenarios[-1].banks.keys() != scenarios[0].banks.keys():
            raise ToolError(f"{name}: scenario {len(scenarios)} has other banks than the first")
    return scenarios
