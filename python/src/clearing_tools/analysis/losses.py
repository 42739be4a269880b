"""What may be lost: normal draws by their moments, or losses that came about, each a scenario."""
import csv
import io
import math
import operator
import random
import statistics
from typing import Dict, List, NamedTuple, Tuple

from clearing_client.fields import long_fields
from clearing_client.format import MAX_CUT

from .. import files
from ..runner import ToolError
from . import queries

CUT = "cut"
# As many bytes has a file of losses at most.
MOST_BYTES = 64_000_000


class Draw(NamedTuple):
    """A scenario that is drawn: a cut of all cash, and losses by the banks' places."""

    cut: int
    losses: Tuple[Tuple[int, int], ...]


def records_of(name: str) -> List[Tuple[int, List[str]]]:
    """The lines of a CSV, the fields without blanks at their ends, each with its number."""
    try:
        text = files.bytes_of(name, MOST_BYTES).decode("utf-8-sig")
    except OSError as fault:
        raise ToolError(f"cannot read {name}: {fault.strerror}", 3) from fault
    except UnicodeDecodeError as fault:
        raise ToolError(f"{name}: it is not UTF-8", 4) from fault
    reader = csv.reader(io.StringIO(text, newline=""))
    try:
        with long_fields(len(text)):
            lines = [(reader.line_num, [field.strip(" \t") for field in fields]) for fields in reader]
    except csv.Error as fault:
        raise ToolError(f"{name}: line {reader.line_num}: {fault}", 4) from fault
    lines = [(line, fields) for line, fields in lines if any(fields)]
    if len(lines) < 2:
        raise ToolError(f"{name}: it has no line below its header", 4)
    for line, fields in lines:
        if len(fields) != len(lines[0][1]):
            raise ToolError(f"{name}: line {line}: not as many fields as the header", 4)
    return lines


def decimal(name: str, line: int, field: str, least: float = -math.inf, most: float = math.inf) -> float:
    """The number of a field within limits."""
    try:
        number = float(field)
    except ValueError:
        number = math.nan
    if not least <= number <= most or math.isinf(number):
        raise ToolError(f"{name}: line {line}: {field!r} is not a number that may stand here", 4)
    return number


def check_names(name: str, line: int, names: List[str], known: Dict[str, int]) -> None:
    """Refuses names of no bank, and a name that stands there twice."""
    for at, each in enumerate(names):
        if each != CUT and each not in known:
            raise ToolError(f"{name}: line {line}: no bank has the name {each!r}", 4)
        if each in names[:at]:
            raise ToolError(f"{name}: line {line}: {each!r} stands there twice", 4)


class Moments:
    """Normal draws with means, deviations and correlations."""

    def __init__(self, name: str, known: Dict[str, int]) -> None:
        (first, header), *lines = records_of(name)
        if header[:3] != ["of", "mean", "deviation"]:
            raise ToolError(f"{name}: line {first}: not the header of,mean,deviation", 4)
        self.names = [fields[0] for _, fields in lines]
        check_names(name, lines[0][0], self.names, known)
        self.means = [decimal(name, line, fields[1]) for line, fields in lines]
        self.deviations = [decimal(name, line, fields[2], least=0) for line, fields in lines]
        self.rows = None
        if len(header) > 3:
            if header[3:] != self.names:
                raise ToolError(f"{name}: line {first}: the columns of correlations are not named as the lines are", 4)
            matrix = [[decimal(name, line, field, -1, 1) for field in fields[3:]] for line, fields in lines]
            self.rows = triangle_of(name, matrix)

    def draw(self, chance: random.Random) -> List[float]:
        """A draw: a number for each name."""
        normal = statistics.NormalDist()
        free = [normal.inv_cdf(chance.random() or 2.0**-54) for _ in self.names]
        if self.rows is not None:
            free = [math.fsum(map(operator.mul, row, free)) for row in self.rows]
        return [mean + deviation * each for mean, deviation, each in zip(self.means, self.deviations, free)]


def triangle_of(name: str, matrix: List[List[float]]) -> List[List[float]]:
    """The lower triangle whose product with itself is a matrix of correlations (Cholesky)."""
    count = len(matrix)
    rows: List[List[float]] = []
    for i in range(count):
        if matrix[i][i] != 1 or any(matrix[i][j] != matrix[j][i] for j in range(i)):
            raise ToolError(f"{name}: the correlations are not symmetric with 1 on the diagonal", 4)
        row: List[float] = []
        for j in range(i):
            rest = matrix[i][j] - math.fsum(map(operator.mul, row, rows[j]))
            pivot = rows[j][j]
            if pivot == 0 and abs(rest) > 1e-7:
                raise ToolError(f"{name}: no losses have such correlations", 4)
            row.append(rest / pivot if pivot else 0.0)
        rest = 1 - math.fsum(each * each for each in row)
        if rest < -1e-7:
            raise ToolError(f"{name}: no losses have such correlations", 4)
        row.append(math.sqrt(rest) if rest > 1e-12 else 0.0)
        rows.append(row)
    return rows


class Past:
    """Draws of one of the lines of a table."""

    def __init__(self, name: str, known: Dict[str, int]) -> None:
        (first, header), *lines = records_of(name)
        self.names = header[1:]
        check_names(name, first, self.names, known)
        self.lines = [[decimal(name, line, field) for field in fields[1:]] for line, fields in lines]

    def draw(self, chance: random.Random) -> List[float]:
        """A draw: a number for each name."""
        return self.lines[int(chance.random() * len(self.lines))]


def whole(number: float, most: int) -> int:
    """The nearest whole number, a half up, within limits."""
    return max(0, min(most, math.floor(number + 0.5)))


def draw_of(
    network: queries.Network, places: Dict[str, int], names: List[str], numbers: List[float], relative: bool
) -> Draw:
    """The scenario of some numbers, which are per mille of a bank's cash where they are relative."""
    cut, losses = 0, {}
    for name, number in zip(names, numbers):
        if name == CUT:
            cut = whole(number, MAX_CUT)
        else:
            cash = network.cash[places[name]]
            losses[places[name]] = whole(number * cash / 1000 if relative else number, cash)
    return Draw(cut, tuple(sorted((place, loss) for place, loss in losses.items() if loss)))
