"""What is asked many times: the network, and how its banks stand in many scenarios or as things are, by the one parser
of the program's texts."""
import json
import os
import tempfile
from typing import Callable, Dict, Iterable, Iterator, List, NamedTuple, Sequence, Tuple, Type, TypeVar

from clearing_client import texts
from clearing_client.errors import TextError
from clearing_client.format import MAX_SCENARIOS
from clearing_client.limits import MOST
from clearing_client.records import Debt, Standing
from clearing_client.results import Check, Outcomes
from clearing_client.table import Table

from ..runner import ProgramRuns, ToolError, groups_of, program

T = TypeVar("T")


class Network(NamedTuple):
    """Names, cash and what is owed outside, by the banks' places; and the debts as records."""

    names: List[str]
    cash: List[int]
    outside: List[int]
    debts: List[Debt]


def answer_of(runs: ProgramRuns, words: Sequence[str], kind: Type[T]) -> T:
    """The answer to some words of the program, which is a result of this kind."""
    try:
        answer = texts.parse(runs.answer(words).decode())
    except (TextError, UnicodeDecodeError) as fault:
        raise ToolError(f"{program()} did not print what `clearing {words[0]}` does") from fault
    if not isinstance(answer, kind):
        raise ToolError(f"{program()} did not print what `clearing {words[0]}` does")
    return answer


def network_of(runs: ProgramRuns, words: Sequence[str]) -> Network:
    """The network as `clearing check` prints it."""
    check = answer_of(runs, ["check", *words], Check)
    names, cash, outside = (check.banks.column(name) for name in ("name", "cash", "outside"))
    return Network(names, cash, outside, list(check.debts))


def spare_of(network: Network) -> Dict[str, int]:
    """What the cash of each bank and all that is owed to it come to, less all that it owes, by its name: below 0 it is
    in default by its own fundamentals. The debts are gone over once."""
    spare = {name: cash - outside for name, cash, outside in zip(network.names, network.cash, network.outside)}
    for debtor, creditor, _, claim in network.debts:
        spare[debtor] -= claim
        spare[creditor] += claim
    return spare


def scenario_text(cut: int, losses: Iterable[Tuple[str, int]]) -> bytes:
    """A scenario with a cut per mille and losses, each a bank's name and units."""
    lines = ['[[scenario]]\nname = "s"\n', f"cut = {cut}\n"]
    for bank, amount in losses:
        lines.append(f"[[scenario.loss]]\nbank = {json.dumps(bank, ensure_ascii=False)}\namount = {amount}\n")
    return "".join(lines).encode()


def scenario_groups(numbers: Iterable[int], texts: Sequence[bytes]) -> Iterator[List[int]]:
    """The numbers of some scenarios, in groups that a file of scenarios may have, for all processors."""
    for group in groups_of(numbers, MAX_SCENARIOS):
        part: List[int] = []
        size = 0
        for number in group:
            if part and size + len(texts[number]) > MOST.bytes["scenarios"]:
                yield part
                part, size = [], 0
            part.append(number)
            size += len(texts[number])
        yield part


def by_groups(
    runs: ProgramRuns,
    folder: str,
    words: Sequence[str],
    texts: Sequence[bytes],
    groups: Iterable[Sequence[int]],
    read: Callable[[List[str], int], T],
) -> List[T]:
    """What `read` makes of the words of a run on each group of scenarios, which stand in a file for so long, and of
    their number."""

    def work(group: Sequence[int]) -> T:
        handle, name = tempfile.mkstemp(suffix=".toml", dir=folder)
        with open(handle, "wb") as file:
            file.writelines(texts[number] for number in group)
        answer = read([*words, "--scenarios", name], len(group))
        os.unlink(name)
        return answer

    return runs.all(work, groups, "group of scenarios")


def stress(
    runs: ProgramRuns, folder: str, words: Sequence[str], texts: Sequence[bytes], take: Callable[[Table[Standing]], T]
) -> List[T]:
    """What `take` makes of the table of standings of each scenario, in their order."""

    def read(line: List[str], count: int) -> List[T]:
        read_so_far = [take(standings) for standings in tables_of(runs.answer(["stress", *line, "--workers", "1"]))]
        if len(read_so_far) != count:
            raise ToolError(f"{program()} did not print a table for each scenario")
        return read_so_far

    groups = list(scenario_groups(range(len(texts)), texts))
    return [read_so_far for part in by_groups(runs, folder, words, texts, groups, read) for read_so_far in part]


def outcomes(
    runs: ProgramRuns, folder: str, words: Sequence[str], texts: Sequence[bytes], groups: Iterable[Sequence[int]]
) -> List[Outcomes]:
    """The sums of each group of scenarios."""

    def read(line: List[str], count: int) -> Outcomes:
        answer = answer_of(runs, ["outcomes", *line], Outcomes)
        if len(answer.scenarios) != count:
            raise ToolError(f"{program()} did not print a line for each scenario")
        return answer

    return by_groups(runs, folder, words, texts, groups, read)


def tables_of(output: bytes) -> Iterator[Table[Standing]]:
    """The table of standings of each scenario of what `clearing stress` prints. The payments are passed over unread."""
    output = b"\n" + output
    for header, without in ((texts.STANDINGS_1, "outside_paid"), (texts.STANDINGS_2, "")):
        # No name has a comma or an end of a line, so that no other line is a header. A table ends at an empty line, or
        # with the output.
        mark = f"\n{header}\n".encode()
        at = output.find(mark)
        while at >= 0:
            end = output.find(b"\n\n", at + 1)
            lines = output[at : end if end >= 0 else len(output)].decode().strip("\n").split("\n")
            try:
                yield texts.records_of(Standing, lines[1:-2], 1, without)  # without the header, `total` and `cash`
            except TextError as fault:
                raise ToolError(f"{program()} did not print what `clearing stress` does") from fault
            at = output.find(mark, at + 1)
