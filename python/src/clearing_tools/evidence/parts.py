"""The networks of an evidence: as it is, what each scenario leaves, and with the sum that saves a bank; the commands
that print what is there of each, and what follows from what."""
from typing import Callable, IO, Iterable, List, NamedTuple, Optional, Sequence, Set, Tuple

from ..runner import ToolError
from . import audit, shock
from .layout import TEXTS, UNREAD, CommandOf, limits_words

Read = Callable[[str], bytes]
"""What gives the content of a file of an evidence."""


class Part(NamedTuple):
    """A network of the evidence: what it is called, its folder, and its banks file, none where that is the one of the
    inputs."""

    label: str
    folder: str
    banks: Optional[bytes]


def read_rescue(text: bytes) -> Tuple[bytes, int, int, bytes]:
    """The bank, the sum and what is lacking with a unit less, as `clearing rescue` prints them, and the payments."""
    head, _, payments = text.partition(b"\n\n")
    try:
        (_, bank, added), (_, short) = (each.split(b",") for each in head.split(b"\n"))
        # Byte for byte as it is printed.
        if len(added) <= 20 and len(short) <= 20 and head == b"rescue,%s,%d\nshort,%d" % (bank, int(added), int(short)):
            return bank, int(added), int(short), payments
    except ValueError:
        pass
    raise ToolError("rescue.csv is not what `clearing rescue` prints", UNREAD)


def with_added(banks: Sequence[audit.Bank], name: bytes, units: int) -> List[audit.Bank]:
    """The banks, with so much more cash of one."""
    if all(bank.name != name for bank in banks):
        raise ToolError("rescue.csv is of a bank that the inputs do not have", UNREAD)
    return [bank._replace(cash=bank.cash + (units if bank.name == name else 0)) for bank in banks]


def parts_of(banks: Sequence[audit.Bank], scenarios: Sequence[shock.Scenario], rescue: Optional[bytes]) -> List[Part]:
    """The networks of an evidence: as it is, what each scenario leaves, and with the sum that saves a bank and a unit
    less."""
    parts = [Part("as it is", "as-is", None)]
    for number, scenario in enumerate(scenarios, 1):
        left = shock.banks_text(shock.left_by(banks, scenario))
        parts.append(Part(f"scenario {number}", f"scenario-{number}", left))
    if rescue:
        bank, added, _, _ = read_rescue(rescue)
        parts.append(Part("rescue", "rescue", shock.banks_text(with_added(banks, bank, added))))
        if added:
            parts.append(Part("a unit less", "unit-less", shock.banks_text(with_added(banks, bank, added - 1))))
    return parts


def words_of(part: Part) -> List[str]:
    """The banks and the debts of a network, as words of a command that runs in the folder of the evidence."""
    banks = f"{part.folder}/banks.csv" if part.banks is not None else "inputs/banks.csv"
    return ["--banks", banks, "--debts", "inputs/debts.csv"]


def commands_of(parts: Sequence[Part], has_scenarios: bool, rescued: Optional[str], by: str) -> List[CommandOf]:
    """Each file that the program prints, with the words that make it, which say the limits where they are wide."""
    inputs = ["--banks", "inputs/banks.csv", "--debts", "inputs/debts.csv", *limits_words(by)]
    commands = []
    if has_scenarios:
        commands.append(("stress.csv", ["stress", *inputs, "--scenarios", "inputs/scenarios.toml"]))
    if rescued is not None:
        commands.append(("rescue/rescue.csv", ["rescue", *inputs, "--bank", rescued]))
    for part in parts:
        files = [*words_of(part), *limits_words(by)]
        commands.append((f"{part.folder}/journal.csv", ["clear", *files, "--show", "journal", "--workers", "1"]))
        commands.append((f"{part.folder}/payments.csv", ["clear", *files, "--workers", "1"]))
        commands.append((f"{part.folder}/defaults.csv", ["defaults", *files, "--workers", "1"]))
    return commands


def names_of(parts: Iterable[Part], commands: Iterable[CommandOf], has_scenarios: bool) -> Set[str]:
    """The names of all files of an evidence."""
    inputs = ["inputs/banks.csv", "inputs/debts.csv", *(["inputs/scenarios.toml"] if has_scenarios else [])]
    banks = [f"{part.folder}/banks.csv" for part in parts if part.banks is not None]
    return {*TEXTS, *inputs, *banks, *(file for file, _ in commands)}


def stress_of(scenarios: Sequence[shock.Scenario], parts: Sequence[Part], read: Read) -> bytes:
    """What `clearing stress` is to print, from the payments and defaults of each scenario."""
    return b"\n".join(outcome_of(scenario, part, read) for scenario, part in zip(scenarios, parts[1:]))


def outcome_of(scenario: shock.Scenario, part: Part, read: Read) -> bytes:
    """What `clearing stress` is to print of one scenario."""
    tables = read(f"{part.folder}/payments.csv") + read(f"{part.folder}/defaults.csv")
    return b"scenario," + scenario.name.encode() + b"\n" + tables


def is_stress(file: IO[bytes], scenarios: Sequence[shock.Scenario], parts: Sequence[Part], read: Read) -> bool:
    """Whether a file has what `clearing stress` is to print, of which one scenario at a time is held."""
    for number, (scenario, part) in enumerate(zip(scenarios, parts[1:])):
        outcome = (b"\n" if number else b"") + outcome_of(scenario, part, read)
        if file.read(len(outcome)) != outcome:
            return False
    return not file.read(1)


def state_of(defaults: bytes, place: int) -> Tuple[int, bytes]:
    """How the bank of this place stands: its estate, and its state."""
    fields = defaults.split(b"\n")[1 + place].split(b",")
    return int(fields[1]), fields[-1]


def rescue_holds(network: audit.Network, rescue: bytes, read: Read) -> bool:
    """Whether the bank is sound with the sum, and without its last unit lacks what the answer says."""
    bank, added, short, payments = read_rescue(rescue)
    place = [each.name for each in network.banks].index(bank)
    due = network.banks[place].outside + sum(debt.claim for debt in network.debts if debt.debtor == place)
    if payments != read("rescue/payments.csv") or state_of(read("rescue/defaults.csv"), place)[1] != b"sound":
        return False
    if not added:
        return short == 0
    estate, state = state_of(read("unit-less/defaults.csv"), place)
    return state != b"sound" and due - estate == short


def read_inputs(
    banks_data: bytes, debts_data: bytes, scenarios_data: Optional[bytes], by: str
) -> Tuple[audit.Network, Sequence[shock.Scenario]]:
    """The network and the scenarios of the inputs, by some limits."""
    network = audit.read_network(banks_data, debts_data, by)
    scenarios = shock.read_scenarios(scenarios_data, network.banks) if scenarios_data is not None else []
    return network, scenarios
