"""What the page of a report shows, part by part, as its templates and the documents ask for it."""
import functools
from typing import Dict, Iterator, List, Optional

from clearing_client.records import CostBound
from clearing_client.steady import MARK, NOTE

from .. import labels
from . import bank_table, case_tables, cells, costs, markdown
from .charts import breaking, ruin, scenarios, shortfalls
from .charts import network as network_chart
from .charts.figure import Data
from .kpis import kpis
from .matter import Matter
from .parts import MANY_BANKS, MOST_PARTS, Part, most_each, parts_of_banks
from .summary import headline, summary
from .words import begun

MOST_CHANGES = 40  # lines of what was changed, under the title
PARTS = {
    "network": "Network",
    "unpaid": "Unpaid",
    "breaking": "Breaking",
    "scenarios": "Scenarios",
    "stands": "Does it stand?",
    "costs": "Costs",
    "banks": "Banks",
    "journal": "Journal",
    "limits": "Limits",
    "evidence": "Evidence",
}
"""The parts of the page that its head links to, by their keys."""


class View:
    """A page: what the templates ask of it, by name."""

    mark, note, most_changes = MARK, NOTE, MOST_CHANGES

    def __init__(self, matter: Matter, library: Optional[str] = None) -> None:
        self.matter, self.library = matter, library
        self.headline, self.sentences, self.kpis = headline(matter), summary(matter), kpis(matter)
        self.picture = network_chart.picture_of(matter)
        self.unpaid = shortfalls.figure_of(matter) if matter.fallen else None
        self.breaking = breaking.figure_of(matter)
        self.scenarios = scenarios.figure_of(matter) if matter.scenarios else None
        self.ruin = ruin.figure_of(matter)
        self.stands, self.banks = case_tables.stands_table(matter), bank_table.banks_table(matter)
        self.cases = case_tables.scenarios_table(matter) if matter.scenarios else None
        self.text = markdown.html_of(matter.head.description)
        self.fallen_with_costs = costs.shown_of(matter.costs) if matter.costs else []
        self.figures = [
            figure for figure in (self.unpaid, self.breaking, self.scenarios, self.ruin) if figure is not None
        ]

    @property
    def has_more_names(self) -> bool:
        """Whether some bank is called as in the files, beside those that have full names."""
        return any(bank.name not in self.matter.names.full for bank in self.matter.banks)

    @property
    def meta(self) -> List[str]:
        """The line under the title: the date, the test, the list, the version, the author, each also where it is not
        stated."""
        head = self.matter.head
        return [
            f"As of {head.as_of}" if head.as_of else "Date not stated",
            head.test or "test not stated",
            "list of least payments",
            head.version,
            f"author: {head.author}" if head.author else "author not stated",
            f"made {self.matter.evidence.made}",
        ]

    @property
    def parts(self) -> Dict[str, str]:
        """The parts of the page that its head links to."""
        absent = {
            "unpaid": self.unpaid is None,
            "scenarios": self.matter.scenarios is None,
            "costs": self.matter.costs is None,
            "journal": self.matter.frames is None or self.library is None,
        }
        return {key: words for key, words in PARTS.items() if not absent.get(key)}

    @functools.cached_property
    def numbers(self) -> Dict[str, str]:
        """The numbers of figures and tables, in their order on the page."""
        keys = ["network", *(figure.key for figure in self.figures)]
        figures = {key: f"Figure {at}" for at, key in enumerate(keys, 1)}
        more = ["stands", *(["cases"] if self.cases else []), "banks"]
        return {**figures, **{key: f"Table {at}" for at, key in enumerate(more, 1)}}

    def each(self) -> Iterator[Part]:
        """The part of each bank."""
        return parts_of_banks(self.matter)

    @property
    def is_many(self) -> bool:
        """Whether the part of one bank is shown at a time."""
        return len(self.matter.banks) > MANY_BANKS

    @property
    def few_parts(self) -> str:
        """Which banks have a part, where not all have."""
        if len(self.matter.banks) <= MOST_PARTS:
            return ""
        half = f"the {MOST_PARTS // 2:,}"
        which = f"{half} that leave most unpaid, and {half} to which most stays unpaid"
        return f"Of {len(self.matter.banks):,} banks a part stands here for {which}."

    @property
    def is_cut(self) -> bool:
        """Whether the part of a bank may have some of its debts alone."""
        return most_each(self.matter) < len(self.matter.debts)

    @property
    def files(self) -> Dict[str, str]:
        """The tables that the page gives as files of CSV, by their keys."""
        tables_of_page = {
            "network": self.picture.data,
            **{figure.key: figure.data for figure in self.figures},
            "stands": self.stands.data,
            "banks": self.banks.data,
        }
        if self.matter.costs:
            tables_of_page["costs"] = Data(CostBound._fields, list(self.matter.costs.banks))
        return {key: cells.csv_of(data) for key, data in tables_of_page.items() if data is not None}

    @property
    def page_title(self) -> str:
        """The title in the browser."""
        return f"{labels.shown(self.matter.head.title)}: {self.headline}"

    @property
    def limits(self) -> List[str]:
        """The model's limits in two lines."""
        head = self.matter.head
        of = " as of ".join(filter(None, (head.test or "test not stated", head.as_of or "a date not stated")))
        costs = "" if self.matter.costs else ", costs of default"
        return [
            f"{begun(of)}; the least list of payments that clears. All debts are due at once; each bank pays by its own"
            " rule, smaller classes first.",
            f"Left out: fire sales, maturities, runs{costs}. Contagion is a label, and names no debtor."
            + (f" {MARK}: {NOTE}, within its rounding." if self.matter.unsure else ""),
        ]
