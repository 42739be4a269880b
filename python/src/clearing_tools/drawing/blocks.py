"""A network of many banks as a matrix by blocks: the debtors that leave most unpaid and the creditors to whom most
stays unpaid, each by name, and all others in two blocks, those in default and those that stand. The area of a square is
what stays unpaid, on one scale; a square that is too small is drawn at 3 pixels. Where the others leave far more than
a debtor by name, the scale is that of the debtors by name, and what passes it is a square with a broken edge."""
import math
from typing import Dict, List, NamedTuple, Sequence, Set, Tuple

from .. import runner
from ..labels import count, say_flow
from ..texts import Bank, Flow, shortfall_of
from . import lettering, svg
from .drawn import Drawn, Legend, Speech, sample, states_in, unpaid_on

NAMED = 12  # debtors, and creditors, by name
CELL, GAP, SIZE = 36.0, 4, 12  # the side of a cell, what is free of it, and the size of letters, in pixels
MOST_LEFT, MOST_TOP, LEAN = 196.0, 140.0, 50  # what names of rows and columns take, and how far these lean, in degrees
BESIDE, ABOVE = 34, 24  # what stands beside the name of a row, and above that of a column
MARK, TO_MARK, TO_NAME = 5.6, 14, 28  # the radius of a mark, and from the cells to it and to the name of a row
TO_COLUMN, COLUMN_BASE, EDGE = 8, 3, 16  # from the cells to the name of a column, from its middle, and above it
BASE = 4  # from the middle of a row down to the line of its words
AMOUNT, LEAST_AMOUNTS = 8, 96.0  # from the cells to what a row leaves unpaid, and what these amounts take at least
LEAST_SIDE = 3.0  # of a square
MOST_TIMES = 4  # so many times the largest square of a debtor by name may be what the scale holds
SINE = math.sin(math.radians(LEAN))
# Blocks of the other banks in default, of those that stand, and of the world outside; no bank has such a name.
DEFAULT, STAND, OUTSIDE = "\n", "\n\n", "\n\n\n"


class Block(NamedTuple):
    """Rows or columns: the banks by name that are blocks of their own, and how many others are in default and stand."""

    names: List[str]
    in_default: int
    stand: int

    def all(self) -> List[str]:
        """The banks by name and the blocks of others that there are."""
        return [*self.names, *[DEFAULT] * (self.in_default > 0), *[STAND] * (self.stand > 0)]


def block_of(amounts: Dict[str, Tuple[int, int]], banks: Sequence[Bank]) -> Block:
    """The banks with the largest amounts, and the others."""
    names = sorted(amounts, key=lambda name: amounts[name], reverse=True)[:NAMED]
    named = set(names)
    stand = sum(bank.state == "sound" for bank in banks if bank.name not in named)
    return Block(names, len(banks) - len(names) - stand, stand)


def blocks_of(flows: Sequence[Flow], banks: Sequence[Bank]) -> Tuple[Block, Block]:
    """The debtors that leave most unpaid, and the creditors to whom most stays unpaid; where nothing does, those that
    owe and are owed most."""
    owed: Dict[str, Tuple[int, int]] = {bank.name: (0, 0) for bank in banks}
    owes = dict(owed)
    for flow in flows:
        unpaid, claim = owes[flow.debtor]
        owes[flow.debtor] = unpaid + unpaid_on(flow), claim + flow.claim
        if flow.creditor is not None:
            unpaid, claim = owed[flow.creditor]
            owed[flow.creditor] = unpaid + unpaid_on(flow), claim + flow.claim
    return block_of(owes, banks), block_of(owed, banks)


class Matrix:
    """The drawing of a matrix, part by part."""

    def __init__(self, flows: Sequence[Flow], banks: Sequence[Bank], speech: Speech) -> None:
        self.speech = speech
        self.banks = {bank.name: bank for bank in banks}
        rows, columns = blocks_of(flows, banks)
        self.rows, self.columns = rows.all(), columns.all()
        if any(flow.creditor is None for flow in flows):
            self.columns.append(OUTSIDE)
        self.words = {("column", OUTSIDE): "outside"}
        for way, block in (("row", rows), ("column", columns)):
            self.words[way, DEFAULT] = f"{count(block.in_default, 'other')} in default"
            self.words[way, STAND] = f"{count(block.stand, 'other')} that stand{'s' if block.stand == 1 else ''}"
        self.row_of, self.column_of = self.blocks(self.rows), self.blocks(self.columns)
        self.flows = self.summed(flows)
        self.largest = max(map(unpaid_on, self.flows), default=0)
        self.most = self.scaled(set(rows.names))
        self.left = min(BESIDE + self.widest("row", self.rows), MOST_LEFT)
        self.top = min(ABOVE + self.widest("column", self.columns) * SINE, MOST_TOP)

    def widest(self, way: str, names: Sequence[str]) -> float:
        """How wide the widest of some names is."""
        return max((lettering.width_of(runner.shown(self.called(way, name)), SIZE, True) for name in names), default=0)

    def blocks(self, names: Sequence[str]) -> Dict[str, str]:
        """In which row or column each bank stands."""
        named = set(names)
        return {
            name: name if name in named else STAND if bank.state == "sound" else DEFAULT
            for name, bank in self.banks.items()
        }

    def summed(self, flows: Sequence[Flow]) -> List[Flow]:
        """The flows from row to column, all of a block as one."""
        pairs: Dict[Tuple[str, str], Tuple[int, int]] = {}
        for flow in flows:
            ends = self.row_of[flow.debtor], OUTSIDE if flow.creditor is None else self.column_of[flow.creditor]
            claim, paid = pairs.get(ends, (0, 0))
            pairs[ends] = claim + flow.claim, paid + flow.paid
        return [Flow(*pair, *sums) for pair, sums in pairs.items()]

    def scaled(self, named: Set[str]) -> int:
        """What the largest square that has an area stands for: all others together do not hide the debtors by name."""
        most = max((unpaid_on(flow) for flow in self.flows if flow.debtor in named), default=0)
        return most if 0 < MOST_TIMES * most < self.largest else self.largest

    def called(self, way: str, name: str) -> str:
        """What a row or a column is called."""
        return self.words.get((way, name)) or self.speech.say(name)

    def ground(self) -> str:
        """The lines between rows and between columns."""
        right, bottom = self.left + CELL * len(self.columns), self.top + CELL * len(self.rows)
        lines = [f"M{self.left + CELL * at:.0f} {self.top:.0f}V{bottom:.0f}" for at in range(len(self.columns) + 1)]
        lines += [f"M{self.left:.0f} {self.top + CELL * at:.0f}H{right:.0f}" for at in range(len(self.rows) + 1)]
        return svg.element("path", {"class": "grid", "d": "".join(lines)})

    def name(self, way: str, name: str, width: float, where: svg.Attributes) -> str:
        """The name of a row or a column, no wider than that, with the whole of it on pointing."""
        whole = runner.shown(self.called(way, name))
        short = lettering.cut(whole, width, SIZE, True)
        title = svg.title_of(whole) if short != whole else ""
        return svg.element("text", {"class": "nm2", **where}, svg.text_of(short), title)

    def column(self, at: int, name: str) -> str:
        """The name above a column, which leans."""
        x, y = self.left + CELL * (at + 0.5) + COLUMN_BASE, self.top - TO_COLUMN
        where = {"transform": f"translate({svg.numbers(x, y)}) rotate({-LEAN})"}
        return self.name("column", name, (self.top - EDGE) / SINE, where)

    def row(self, at: int, name: str) -> str:
        """The name beside a row with the mark of its bank, and what it leaves unpaid behind the row."""
        y = self.top + CELL * (at + 0.5)
        where: svg.Attributes = {"x": self.left - TO_NAME, "y": y + BASE, "text-anchor": "end"}
        text = self.name("row", name, self.left - BESIDE, where)
        unpaid = sum(unpaid_on(flow) for flow in self.flows if flow.debtor == name)
        place: svg.Attributes = {"class": "un", "x": self.left + CELL * len(self.columns) + AMOUNT, "y": y + BASE}
        amount = svg.element("text", place, svg.text_of(self.speech.scale.number(unpaid)))
        bank = self.banks.get(name)
        if bank is None:
            return text + amount
        mark = svg.mark(bank.state, self.left - TO_MARK, y, MARK, f"m-{bank.state} n-mark")
        return self.speech.node(bank, mark + text) + amount

    def square(self, at: int, flow: Flow) -> str:
        """What stays unpaid from a row to a column."""
        unpaid = unpaid_on(flow)
        side = max(LEAST_SIDE, (CELL - GAP) * math.sqrt(min(1.0, unpaid / self.most))) if unpaid else LEAST_SIDE
        kind = " done" if not unpaid else " over" if unpaid > self.most else ""
        x = self.left + CELL * (self.columns.index(str(flow.creditor)) + 0.5)
        y = self.top + CELL * (self.rows.index(flow.debtor) + 0.5)
        debtor, creditor = self.called("row", flow.debtor), self.called("column", str(flow.creditor))
        called = say_flow(flow._replace(debtor=debtor, creditor=creditor), self.speech.money)
        may_be_over = {"data-over": ""} if self.largest > self.most else {}
        middle = svg.numbers(x, y)
        group: svg.Attributes = {"class": f"flow cell{kind}", "data-flow": at, **may_be_over, "data-middle": middle}
        box: svg.Attributes = {"x": x - side / 2, "y": y - side / 2, "width": side, "height": side}
        return svg.element("g", group, svg.title_of(called), svg.element("rect", {"class": "sq", **box}))

    def box(self) -> List[float]:
        """The box that the matrix fills, with room for the last name that leans and for the amounts."""
        wide = max(lettering.width_of(self.speech.scale.number(sum(map(unpaid_on, self.flows))), SIZE), LEAST_AMOUNTS)
        return [0.0, 0.0, self.left + CELL * len(self.columns) + wide + 12, self.top + CELL * len(self.rows) + 6]


def draw(flows: Sequence[Flow], banks: Sequence[Bank], speech: Speech) -> Drawn:
    """The network as a matrix by blocks."""
    matrix = Matrix(flows, banks, speech)
    body = [matrix.ground()]
    body += [matrix.column(at, name) for at, name in enumerate(matrix.columns)]
    body += [matrix.row(at, name) for at, name in enumerate(matrix.rows)]
    body += [matrix.square(at, flow) for at, flow in enumerate(matrix.flows)]
    flows_drawn = [flow._replace(creditor=None if flow.creditor == OUTSIDE else flow.creditor) for flow in matrix.flows]
    legend = legend_of(matrix, banks)
    return Drawn("".join(body), matrix.box(), legend, flows_drawn, matrix.row_of, matrix.column_of, matrix.most)


def square_sample(kind: str, side: int = svg.MARK - 2) -> str:
    """A sample of a square of a kind."""
    at = (svg.MARK - side) // 2
    square = svg.element("rect", {"class": "sq", "x": at, "y": at, "width": side, "height": side})
    return sample(svg.element("g", {"class": f"cell{kind}"}, square), svg.MARK)


def legend_of(matrix: Matrix, banks: Sequence[Bank]) -> Legend:
    """What the squares and marks of a matrix mean."""
    shown = [bank for bank in banks if bank.name in matrix.rows]
    unpaid = sum(shortfall_of(bank) > 0 for bank in banks)
    money = matrix.speech.money
    most = f"; the largest is {money.in_short(matrix.most)}" if matrix.most else ""
    more = f"unpaid by many together, more than the areas show: up to {money.in_short(matrix.largest)}"
    named = f"the {len(shown)} with most unpaid, all others in two blocks"
    how_to_read = f"A row is a debtor, a column a creditor: {named}. "
    return [
        (square_sample(""), f"unpaid; area: the amount{most}"),
        *[(square_sample(" over"), more)] * (matrix.largest > matrix.most),
        (square_sample(" done", 4), "owed, and paid in full"),
        *states_in(shown),
        ("", how_to_read + f"Of {count(len(banks), 'bank')} {unpaid:,} leave something unpaid."),
    ]
