"""What the tests of the report share: networks, what a page has, and headless Chromium.

The tests in the browser drive Chromium by Selenium, Debian's packages chromium, chromium-driver and python3-selenium,
and want the library d3, its package node-d3; the page wants Jinja2, its package python3-jinja2. They are skipped
where one of them is not there."""
import html.parser
import os
import pathlib
import unittest
from decimal import Decimal
from typing import Dict, Iterable, Iterator, List, Mapping, Optional, Sequence, Tuple

from browser import Browsing
from common import TWELVE, Case, Word, clearing, files_of, tool
from odd_names import MARKUP, ODD_NAMES, all_names, untrimmed
from pythons import python_with

__all__ = [
    "PYTHON", "TWELVE", "InTheBrowser", "Reader", "Report", "amount", "files_of", "largest",
    "networks_of_every_character", "odd_net", "outside_net", "ring_with_outside", "rows_of",
]
PYTHON = python_with("jinja2")
Attributes = Dict[str, Optional[str]]
"""The attributes of an element."""


def largest(folder: pathlib.Path) -> List[Word]:
    """The largest network that is allowed: 1,000 banks and 20,000 debts, of which many are not paid in full."""
    banks = [f"bank {i},{i * 7919 % 5000},webster" for i in range(1000)]
    debts = [
        f"bank {x % 1000},bank {(x % 1000 + 1 + x // 1000 * 37) % 1000},1,{1 + x * 104729 % 990}" for x in range(20000)
    ]
    (folder / "banks.csv").write_text("name,cash,rule\n" + "\n".join(banks) + "\n")
    (folder / "debts.csv").write_text("debtor,creditor,class,claim\n" + "\n".join(debts) + "\n")
    return files_of(folder)


def outside_net(folder: pathlib.Path) -> List[Word]:
    """Four banks that owe outside: A pays less there than it owes, B defaults on its debts, C pays all."""
    (folder / "banks.csv").write_text(
        "name,cash,rule,outside\nA,3,order,9\nB,10,webster,4\nC,50,equal,5\nD,0,adams,0\n"
    )
    (folder / "debts.csv").write_text(
        "debtor,creditor,class,claim\nA,B,1,8\nB,C,1,5\nB,D,1,5\nC,A,1,4\nC,D,2,7\nD,A,1,1\n"
    )
    return files_of(folder)


def ring_with_outside(folder: pathlib.Path, count: int) -> List[Word]:
    """So many banks in a ring, each of which owes outside too; some pay all of that, some a part, some nothing."""
    banks = [f"bank {at},{at * 7 % 11},equal,{2 + at % 5}" for at in range(count)]
    debts = [f"bank {at},bank {(at + 1) % count},1,{1 + at * 5 % 9}" for at in range(count)] if count > 1 else []
    (folder / "banks.csv").write_text("name,cash,rule,outside\n" + "\n".join(banks) + "\n")
    (folder / "debts.csv").write_text("debtor,creditor,class,claim\n" + "".join(f"{debt}\n" for debt in debts))
    return files_of(folder)


def odd_net(folder: pathlib.Path, most: Optional[int] = None) -> Tuple[List[Word], List[str]]:
    """A ring of banks with names that HTML, a script or a reader of lines may take for something else."""
    names = untrimmed([*MARKUP, *ODD_NAMES])[:most]
    (folder / "banks.csv").write_text(
        "name,cash,rule\n" + "".join(f"{name},{at % 3},equal\n" for at, name in enumerate(names))
    )
    debts = [f"{name},{names[(at + 1) % len(names)]},1,{2 + at % 4}" for at, name in enumerate(names)]
    (folder / "debts.csv").write_text("debtor,creditor,class,claim\n" + "\n".join(debts) + "\n")
    return files_of(folder), names


def networks_of_every_character() -> Iterator[List[str]]:
    """The names of networks of up to 900 banks: in the first those that HTML or a script may take for something else,
    in others every allowed character of up to three bytes, and in the last some of four. With REPORT_NAMES=all in the
    environment all of four too.
    """
    names = untrimmed([*MARKUP, *ODD_NAMES])
    yield names[:38]
    yield names
    every = [*all_names(last=0xFFFF), *all_names(0x10000, step=1 if os.environ.get("REPORT_NAMES") == "all" else 211)]
    for at in range(0, len(every), 900):
        yield list(dict.fromkeys(every[at : at + 900]))


def rows_of(task: str, files: Iterable[Word], *more: Word) -> List[List[str]]:
    """The records of a table that the program prints, without the sums at the end of the defaults."""
    lines = clearing(task, *files, *more).stdout.decode().split("\n")
    return [line.split(",") for line in lines[1:] if line and not line.startswith(("total,", "cash,"))]


def amount(units: str, unit: str) -> str:
    """A number of units as the page has it, where a unit is worth so much."""
    worth = Decimal(unit).normalize()
    return f"{int(units) * worth:,.{max(0, -int(worth.as_tuple().exponent))}f}"


class Reader(html.parser.HTMLParser):
    """What a page has: its elements with their attributes, and the texts of its scripts, styles and of the rows of
    its tables."""

    def __init__(self, text: str) -> None:
        super().__init__()
        self.elements: List[Tuple[str, Attributes]] = []
        self.raw: List[Tuple[str, Attributes, str]] = []  # of scripts and styles
        self.rows: List[Tuple[Attributes, List[str]]] = []
        self.cell = False
        self.inside: Optional[Tuple[str, Attributes, List[str]]] = None
        self.feed(text)
        self.close()

    def handle_starttag(self, tag: str, pairs: List[Tuple[str, Optional[str]]]) -> None:
        """Notes an element."""
        self.elements.append((tag, dict(pairs)))
        if tag in ("script", "style"):
            self.inside = (tag, dict(pairs), [])
        if tag == "tr":
            self.rows.append((dict(pairs), []))
        if tag in ("td", "th") and self.rows:
            self.rows[-1][1].append("")
            self.cell = True

    def handle_endtag(self, tag: str) -> None:
        """Notes the text of a script or a style, and that a cell has ended."""
        if self.inside and tag == self.inside[0]:
            self.raw.append((self.inside[0], self.inside[1], "".join(self.inside[2])))
            self.inside = None
        if tag in ("td", "th", "tr", "table"):
            self.cell = False

    def handle_data(self, data: str) -> None:
        """Notes a text."""
        if self.inside:
            self.inside[2].append(data)
        elif self.cell:
            self.rows[-1][1][-1] += data


@unittest.skipUnless(PYTHON, "no Python here has jinja2 (Debian's package python3-jinja2)")
class Report(Case):
    """A case that makes reports."""

    def page(self, files: Iterable[Word], *more: Word, status: int = 0, message: str = "") -> str:
        """The page of a report on some files; with a status other than 0 there is none."""
        out = self.folder / "report.html"
        done = tool("clearing-report", *files, "--out", out, *more, python=PYTHON)
        self.assertEqual((done.returncode, done.stdout), (status, ""), done.stderr)
        self.assertIn(message, done.stderr)
        return out.read_text(encoding="utf-8") if not status else ""


class InTheBrowser(Browsing, Report):
    """A case that opens reports in the browser."""

    def tearDown(self) -> None:
        """The page was quiet."""
        self.assert_quiet()

    def assert_quiet(self) -> None:
        """No request leaves the page, and no error is on the console."""
        told, asked = self.logged()
        # What the page makes itself, such as a picture to be saved, has an address too, and leaves it by no request.
        left = [url for url in asked if url.split("#")[0] != self.address and not url.startswith("blob:")]
        self.assertEqual(left, [])
        self.assertEqual(told, [])

    def open(self, files: Iterable[Word], *more: Word, part: str = "") -> None:
        """Makes a report on some files, and opens it."""
        self.page(files, *more)
        self.address = (self.folder / "report.html").as_uri()
        self.driver.get(self.address + part)

    def shown_rows(self) -> List[str]:
        """The names in the rows of the table of banks that can be seen, in their order."""
        return list(
            self.js(
                "return [...document.querySelectorAll('#banks-table tbody tr')].filter(r => r.checkVisibility())"
                ".map(r => r.cells[0].textContent)"
            )
        )

    def heads(self) -> List[str]:
        """The heads of the table of banks, without what the amounts are in."""
        return list(
            self.js(
                "return [...document.querySelectorAll('#banks-table thead button')]"
                ".map(b => b.firstChild.textContent.trim())"
            )
        )

    def flows(self) -> Dict[str, float]:
        """What the drawing says of each debt drawn, and how wide it is drawn as unpaid: 0 where it is drawn as paid."""
        found: Dict[str, float] = self.js(
            """return Object.fromEntries([...document.querySelectorAll('#network g[data-flow]')].map(g => {
            const line = g.querySelector('.line'), square = g.querySelector('.sq');
            const size = line ? +line.getAttribute('stroke-width') : +square.getAttribute('width');
            return [g.querySelector('title').textContent, g.classList.contains('done') ? 0 : size];
        }))"""
        )
        return found

    def expected_flows(
        self, paid_of: Iterable[Tuple[Sequence[str], int]], outside: Mapping[str, Tuple[int, int]]
    ) -> Dict[str, Tuple[int, int]]:
        """What it must say of debts and what is paid of them: for each pair the sums of its debts; and of what each
        bank owes and pays outside."""
        pairs: Dict[Tuple[str, str], Tuple[int, int]] = {}
        for (debtor, creditor, _, claim), paid in paid_of:
            sums = pairs.get((debtor, creditor), (0, 0))
            pairs[debtor, creditor] = sums[0] + int(claim), sums[1] + paid
        for name, (owed, paid) in outside.items():
            if owed:
                pairs[name, "the world outside"] = owed, paid
        return {
            f"{debtor} to {creditor}: {paid:,} of {claim:,} paid": (paid, claim)
            for (debtor, creditor), (claim, paid) in pairs.items()
        }

    def assert_same(self, shown: Mapping[str, float], before: Mapping[str, float]) -> None:
        """Each debt is drawn as it was before, but for what rounding moves."""
        self.assertEqual(shown.keys(), before.keys())
        for title, size in shown.items():
            self.assertAlmostEqual(size, before[title], delta=0.11, msg=title)

    def assert_flows(self, expected: Mapping[str, Tuple[int, int]]) -> None:
        """Each debt is drawn, as paid where it is paid in full, and else as wide as what stays unpaid, from 2 to 15
        pixels."""
        shown = self.flows()
        self.assertEqual(sorted(shown), sorted(expected))
        most = self.js("return JSON.parse(document.getElementById('data').textContent).mostUnpaid")
        for title, (paid, claim) in expected.items():
            unpaid = claim - paid
            self.assertAlmostEqual(
                shown[title], max(2, 15 * min(1, unpaid / most)) if unpaid else 0, delta=0.06, msg=title
            )
