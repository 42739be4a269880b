"""Writes the banks file that a scenario leaves.

In:   --banks FILE and --scenarios FILE, as `clearing stress` reads them, and --scenario N, the scenario's number from 1
Out:  the banks file with what the scenario leaves of each bank's cash, on standard output, or in --output FILE, which
      must be none of the inputs. It is in the form in which `clearing check` prints it, in version 2 where a bank owes
      something outside.

Of a bank's cash c a cut k leaves c less c k / 1000, the quotient rounded down; then its loss is taken away, down to
nothing at least. `clearing clear` and `clearing defaults` on that file print what `clearing stress` prints of the
scenario.

Scenarios are read by Python's module tomllib. Where that knows TOML 1.0 alone, what TOML 1.1 added is refused here,
though the program reads it: the escape \\x41, and a line break or a last comma within the braces of an inline table.

A file with thousands of tables or of points that no scenario has is refused as one of another shape (17), though the
program may name an earlier fault of it.

It shares no code with the program.

Ends with 0; 2 where the words are not understood, there is no scenario of that number, or Python is older than 3.11,
whose module tomllib is wanted; 3 where a file cannot be read; 4 where a file is refused, with its first fault as
`clearing` names it; 5 where the output cannot be written; 130 at an interrupt.
"""
import argparse
import os
import signal
import sys
from typing import Dict, List, Mapping, NamedTuple, Optional, Protocol, Sequence, TypeVar

from .. import files, runner
from . import audit, bounds


class WithCash(Protocol):
    """A bank: a named tuple that has cash."""

    @property
    def cash(self) -> int:
        """The cash, in units."""

    def _replace(self: "B", *, cash: int) -> "B":
        """The same bank with other cash."""


B = TypeVar("B", bound=WithCash)


class Scenario(NamedTuple):
    """What happens to the cash of banks: a cut per mille of all, and then losses, by the bank's place, in units."""

    name: str
    cut: int
    losses: Dict[int, int]


MAX_BYTES, MAX_SCENARIOS, MAX_CUT, MAX_LOSS = 8_388_608, 100, 1000, 10**12


class ScenarioError(Exception):
    """Why there is no banks file, and the `status` with which the tool ends."""

    def __init__(self, message: str, status: int) -> None:
        super().__init__(message)
        self.status = status


def refused(row: int, kind: str) -> ScenarioError:
    """The fault of a file of scenarios, as the program names it."""
    number = {**audit.KINDS, "toml": 16, "shape": 17}[kind]
    return ScenarioError(f"scenarios row {row}: {kind} ({number})", 4)


def document(data: bytes) -> Dict[str, object]:
    """The TOML document, all numbers of which are within 64 bits."""
    try:
        import tomllib
    except ImportError as fault:
        raise ScenarioError("scenarios are read by Python's module tomllib, which came with 3.11", 2) from fault
    try:
        text = data.decode("utf-8-sig")
        beyond = bounds.fault_of(text)
        if beyond:
            raise refused(0, beyond)
        tables: Dict[str, object] = tomllib.loads(text)
    except (UnicodeDecodeError, tomllib.TOMLDecodeError, RecursionError, ValueError) as fault:
        raise refused(0, "toml") from fault
    waiting: List[object] = [tables]
    while waiting:
        value = waiting.pop()
        if isinstance(value, dict):
            waiting.extend(value.values())
        elif isinstance(value, list):
            waiting.extend(value)
        elif type(value) is int and not -(2**63) <= value < 2**63:
            raise refused(0, "toml")
    return tables


class Table:
    """A table of a document with these keys alone, each of its type. Fails where it is none."""

    def __init__(
        self, row: int, value: object, required: Mapping[str, type], optional: Optional[Mapping[str, type]] = None
    ) -> None:
        types = {**required, **(optional or {})}
        if not isinstance(value, dict) or not set(required) <= set(value) <= set(types):
            raise refused(row, "shape")
        if any(type(one) is not types[key] for key, one in value.items()):
            raise refused(row, "shape")
        self.texts: Dict[str, str] = {key: one for key, one in value.items() if isinstance(one, str)}
        self.numbers: Dict[str, int] = {key: one for key, one in value.items() if isinstance(one, int)}
        self.lists: Dict[str, List[object]] = {key: one for key, one in value.items() if isinstance(one, list)}


def scenario_of(row: int, value: object, places: Mapping[bytes, int]) -> Scenario:
    """The scenario of a table, with its number in the file."""
    table = Table(row, value, {"name": str}, {"cut": int, "loss": list})
    losses = [Table(row, loss, {"bank": str, "amount": int}) for loss in table.lists.get("loss", [])]
    name, cut = table.texts["name"], table.numbers.get("cut", 0)
    if not audit.is_name(name.encode()):
        raise refused(row, "name")
    if not 0 <= cut <= MAX_CUT:
        raise refused(row, "limit")
    lost: Dict[int, int] = {}
    for loss in losses:
        bank, amount = loss.texts["bank"].encode(), loss.numbers["amount"]
        if bank not in places:
            raise refused(row, "unknown bank")
        if places[bank] in lost:
            raise refused(row, "double bank")
        if not 0 <= amount <= MAX_LOSS:
            raise refused(row, "limit")
        lost[places[bank]] = amount
    return Scenario(name, cut, lost)


def read_scenarios(data: bytes, banks: Sequence[audit.Bank]) -> List[Scenario]:
    """The scenarios of a file for these banks."""
    if len(data) > MAX_BYTES:
        raise refused(0, "file size")
    whole = document(data)
    tables = whole.get("scenario", [])
    if not set(whole) <= {"scenario"} or not isinstance(tables, list):
        raise refused(0, "shape")
    places = {bank.name: place for place, bank in enumerate(banks)}
    scenarios = []
    for row, table in enumerate(tables, 1):
        if row > MAX_SCENARIOS:
            raise refused(row, "too many")
        scenarios.append(scenario_of(row, table, places))
    return scenarios


def left_by(banks: Sequence[B], scenario: Scenario) -> List[B]:
    """The banks after a scenario."""
    left = []
    for place, bank in enumerate(banks):
        after_cut = bank.cash - bank.cash * scenario.cut // 1000
        left.append(bank._replace(cash=max(0, after_cut - scenario.losses.get(place, 0))))
    return left


def banks_text(banks: Sequence[audit.Bank]) -> bytes:
    """The banks file, as it is printed."""
    second = any(bank.outside for bank in banks)
    text = [audit.line(b"name", b"cash", b"rule", *([b"outside"] if second else []))]
    text += [audit.line(bank.name, bank.cash, bank.rule, *([bank.outside] if second else [])) for bank in banks]
    return b"".join(text)


def contents(name: str, most: int = MAX_BYTES) -> bytes:
    """The bytes of a file, one more than the limit of a longer one."""
    try:
        with open(name, "rb") as file:
            return file.read(most + 1)
    except (OSError, ValueError) as fault:
        raise ScenarioError(f"cannot read {audit.shown(name)}", 3) from fault


def write(name: Optional[str], content: bytes, inputs: Sequence[str] = ()) -> None:
    """Writes a file whole and in the place of the old one, or as it is to a stream, or to standard output. Who may not
    read the inputs may not read a new file."""
    try:
        files.put(content, name, inputs, 5, folders=False)
    except runner.ToolError as fault:
        raise ScenarioError(audit.shown(str(fault)), fault.status) from fault


def main() -> None:
    """Does what the words of the command line ask for."""
    summary, _, rest = __doc__.partition("\n\n")
    parser = audit.Parser(
        description=summary, epilog=rest, formatter_class=argparse.RawDescriptionHelpFormatter, allow_abbrev=False
    )
    parser.add_argument("--banks", metavar="FILE", required=True, help="the banks file")
    parser.add_argument("--scenarios", metavar="FILE", required=True, help="the scenarios file")
    parser.add_argument("--scenario", metavar="N", type=int, required=True, help="the scenario's number, from 1")
    parser.add_argument("--output", metavar="FILE", help="the file to write, standard output where it is not given")
    parser.add_argument("--limits", choices=list(audit.LIMITS), help="the limits of the banks")
    args = parser.parse_args()
    for name in (args.banks, args.scenarios):
        if args.output is not None and files.is_same(name, args.output):
            raise ScenarioError(f"{audit.shown(args.output)} would be written over", 2)
    banks_data, scenarios_data = contents(args.banks, audit.LIMITS[audit.WIDE].size), contents(args.scenarios)
    by = args.limits or audit.limits_needed(banks_data, b"debtor,creditor,class,claim\n")[0]
    if by != args.limits and by == audit.WIDE:
        what = f"the banks are read by the wide limits, as they pass the standard ones; --limits {by} says so"
        print(f"{os.path.basename(sys.argv[0])}: {what}", file=sys.stderr)
    try:
        audit.check_sizes({"banks": banks_data}, by)
        banks = audit.read_banks(banks_data, by)
    except audit.RefusedError as fault:
        raise ScenarioError(str(fault), 4) from fault
    scenarios = read_scenarios(scenarios_data, banks)
    if not 1 <= args.scenario <= len(scenarios):
        has = f"{audit.shown(args.scenarios)} has {len(scenarios)} scenarios"
        raise ScenarioError(f"{has}, and none of the number {args.scenario}", 2)
    write(args.output, banks_text(left_by(banks, scenarios[args.scenario - 1])), (args.banks, args.scenarios))


def run() -> None:
    """The command, which ends with its status; what it cannot do is told. A request to end is an interrupt."""
    for number in (signal.SIGTERM, signal.SIGHUP):
        if signal.getsignal(number) is signal.SIG_DFL:
            signal.signal(number, signal.default_int_handler)
    audit.with_streams()
    try:
        main()
    except ScenarioError as fault:
        print(f"{os.path.basename(sys.argv[0])}: {fault}", file=sys.stderr)
        sys.exit(fault.status)
    except KeyboardInterrupt:
        sys.exit(130)
