"""The faults of a file of scenarios."""
from __future__ import annotations

from typing import Mapping, Set

from clearing_client.format import MAX_CUT, MAX_LOSS, MAX_SCENARIOS

from .field_hints import shown
from .findings import Findings
from .records import Record
from .scenario_document import DocumentError, document_of, lines_of_scenarios, shape_faults


def check_scenarios(found: Findings, data: bytes) -> None:
    """Looks at the scenarios file."""
    try:
        document = document_of(data)
    except DocumentError as fault:
        found.add("scenarios", Record(fault.line, 0, []), "", fault.kind, fault.what, fault.hint)
        return
    whole = Record(1, 0, [])
    for key in document:
        if key != "scenario":
            is_meant = key.casefold() in ("scenario", "scenarios")
            hint = "write [[scenario]]" if is_meant else "the document has [[scenario]] alone"
            found.add("scenarios", whole, "", "shape", f"the document has a key {key!r}", hint)
    scenarios = document.get("scenario", [])
    if not isinstance(scenarios, list):
        hint = "write [[scenario]], with two brackets at each end"
        found.add("scenarios", whole, "scenario", "shape", "scenario is no array of tables", hint)
        return
    lines = lines_of_scenarios(data, len(scenarios))
    for row, (line, scenario) in enumerate(zip(lines, scenarios), 1):
        record = Record(line, row, [])
        if row == MAX_SCENARIOS + 1:
            what = f"the file has {len(scenarios):,} scenarios, and the most is {MAX_SCENARIOS}"
            found.add("scenarios", record, "", "too many", what, "more go into several files")
        check_scenario(found, record, scenario)


def check_scenario(found: Findings, record: Record, scenario: object) -> None:
    """Looks at a scenario."""
    for field, what, hint in shape_faults(scenario):
        found.add("scenarios", record, field, "shape", what, hint)
    if not isinstance(scenario, dict):
        return
    name, cut = scenario.get("name"), scenario.get("cut", 0)
    if isinstance(name, str) and found.is_name("scenarios", record, name.encode("utf-8", "surrogatepass"), "name"):
        found.named["scenarios"].setdefault(name, record)
    check_within(found, record, "cut", cut, MAX_CUT, "a cut is per mille: 0 to 1,000")
    losses = scenario.get("loss", [])
    named: Set[bytes] = set()
    for loss in losses if isinstance(losses, list) else []:
        check_loss(found, record, loss if isinstance(loss, dict) else {}, named)


def check_loss(found: Findings, record: Record, loss: Mapping[str, object], named: Set[bytes]) -> None:
    """Looks at a loss; `named` are the banks of those before."""
    bank = loss.get("bank")
    if isinstance(bank, str):
        name = bank.encode("utf-8", "surrogatepass")
        if found.is_known("scenarios", record, "bank", name) and name in named:
            what = f"the bank {shown(name)} has two losses"
            found.add("scenarios", record, "bank", "double bank", what, "add them up")
        named.add(name)
    check_within(found, record, "amount", loss.get("amount"), MAX_LOSS, "take a larger unit of account")


def check_within(found: Findings, record: Record, field: str, number: object, most: int, hint: str) -> None:
    """Refuses a whole number below 0, or above the most."""
    if isinstance(number, int) and not isinstance(number, bool) and not 0 <= number <= most:
        what = f"{number:,} is {'below 0' if number < 0 else f'more than {most:,}'}"
        found.add("scenarios", record, field, "limit", what, "write it without a sign" if number < 0 else hint)
