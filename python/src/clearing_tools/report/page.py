"""The page of a report: HTML that stands alone, whole without its script, made from the templates beside this file."""
import html
import pathlib
import re
from typing import TYPE_CHECKING, List, Type

from .. import labels
from ..drawing import svg, web
from ..runner import lacking
from . import bank_table, cells, costs
from .assets import assets_of
from .charts.figure import Figure
from .matter import Matter
from .parts import with_parts
from .view import View

if TYPE_CHECKING:
    from jinja2 import Environment
    from markupsafe import Markup

FOLDER = pathlib.Path(__file__).resolve().parent


def templates() -> "Environment":
    """The templates, by Jinja2, each text escaped. Where that is missing the tool fails with 2 and says for which
    Python."""
    try:
        import jinja2
    except ImportError as fault:
        raise lacking("jinja2", "report", ", which makes the page") from fault
    return jinja2.Environment(
        loader=jinja2.FileSystemLoader([FOLDER / "templates", web.FOLDER]),
        autoescape=True,
        undefined=jinja2.StrictUndefined,
        trim_blocks=True,
        lstrip_blocks=True,
    )


class Texts:
    """How names and elements stand in the page: what the templates call."""

    def __init__(self, matter: Matter, markup: "Type[Markup]") -> None:
        self.matter, self.markup = matter, markup
        self.icons = {state: markup(svg.icon(state, words)) for state, words in cells.STATE_WORDS.items()}
        self.with_parts = with_parts(matter)
        self.links = {bank.name: self.link_to(at, bank.name) for at, bank in enumerate(matter.banks)}

    def link_to(self, at: int, name: str) -> "Markup":
        """A bank's name, linked to its part; where it has none, to its row."""
        kind = "bank" if name in self.with_parts else "row"
        return self.markup('<a href="#{}-{}">{}</a>').format(kind, at, self.name(self.matter.called(name)))

    def head(self, place: int, head: str) -> "Markup":
        """The name of a bank in its own row, linked to its part where it has one."""
        name = self.name(head)
        is_linked = self.matter.banks[place].name in self.with_parts
        return self.markup('<a href="#bank-{}">{}</a>').format(place, name) if is_linked else name

    def name(self, text: str) -> "Markup":
        """A name as HTML, held apart where it may run from right to left."""
        return self.readable(labels.shown(text))

    def readable(self, text: str) -> "Markup":
        """The same of a name that can be read already."""
        return self.markup("<bdi>{}</bdi>").format(text) if labels.is_turned(text) else self.markup.escape(text)

    def link(self, name: str) -> "Markup":
        """A bank by its name of the files, as a link."""
        return self.links[name]

    def chart(self, figure: Figure) -> "Markup":
        """The charts of a figure, each in a box that is shown at its widths."""
        return self.markup(
            "".join(f'<div class="{size}">{chart.whole()}</div>' for size, chart in figure.charts.items())
        )

    def raw(self, text: str) -> "Markup":
        """Markup as it is."""
        return self.markup(text)


def page_of(view: View, environment: "Environment") -> str:
    """The page; without the library d3 it has no script."""
    from markupsafe import Markup

    template = environment.get_template("page.html")
    texts, assets = Texts(view.matter, Markup), assets_of(view)
    tables = {"STATE_WORDS": cells.STATE_WORDS, "CHOICES": bank_table.CHOICES, "cut": bank_table.cut_names(view.matter)}
    return template.render(
        view=view, matter=view.matter, texts=texts, assets=assets, labels=labels, tables=tables, costs=costs
    )


def limits_of(view: View) -> List[str]:
    """The limits of the model in whole, as plain paragraphs."""
    from markupsafe import Markup

    texts = Texts(view.matter, Markup)
    markup = templates().get_template("limits.html").render(view=view, matter=view.matter, texts=texts)
    parts = re.findall("<p>(.*?)</p>", markup, re.DOTALL)
    return [html.unescape(re.sub("<[^>]*>", "", part.replace("\n", " "))) for part in parts]
