"""The report as a document of Word, by python-docx: the parts of the page in its order."""
import importlib
import io
from types import ModuleType
from typing import TYPE_CHECKING, NamedTuple, Optional, Sequence, Tuple

from ..drawing import svg
from ..runner import lacking, seen
from .browser import png_of
from .cells import Table
from .charts.figure import MIDDLE
from .markdown import paragraphs_of
from .matter import Matter
from .page import limits_of
from .view import View

if TYPE_CHECKING:
    from docx.text.paragraph import Paragraph

MOST_ROWS = 100  # of a table
WIDE = 6.3  # inches between the margins
PAPER = 210, 297  # A4, in mm
MARGIN = 25  # mm
FONT, SIZE, SMALL = "Arial", 10, 8  # of texts, and of cells, in points


class Shown(NamedTuple):
    """A figure of a document: its key, message and unit, the picture, where it comes from, and a line below it."""

    key: str
    title: str
    unit: str
    picture: svg.Svg
    tasks: str
    note: str = ""


def check_docx() -> ModuleType:
    """The library python-docx. Where it is missing the tool fails with 2 and says for which Python."""
    try:
        return importlib.import_module("docx")
    except ImportError as fault:
        raise lacking("docx", "report", ", which makes documents") from fault


class Word:
    """A document of Word, part by part."""

    def __init__(self, matter: Matter) -> None:
        self.docx = check_docx()
        self.matter, self.view = matter, View(matter)
        self.document = self.docx.Document()
        style = self.document.styles["Normal"]
        style.font.name, style.font.size = FONT, self.docx.shared.Pt(SIZE)
        section = self.document.sections[0]
        section.page_width, section.page_height = map(self.docx.shared.Mm, PAPER)
        section.left_margin = section.right_margin = self.docx.shared.Mm(MARGIN)
        section.header.paragraphs[0].text = f"Clearing report: {readable(matter.head.title)}"
        self.number_pages(section.footer.paragraphs[0])

    def number_pages(self, paragraph: "Paragraph") -> None:
        """A field with the number of the page."""
        paragraph.add_run("page ")
        run = paragraph.add_run()
        for kind, text in (("begin", None), (None, "PAGE"), ("end", None)):
            element = self.docx.oxml.OxmlElement("w:fldChar" if kind else "w:instrText")
            if kind:
                element.set(self.docx.oxml.ns.qn("w:fldCharType"), kind)
            else:
                element.text = text
            run._r.append(element)

    def paragraph(self, text: str, style: Optional[str] = None) -> "Paragraph":
        """A paragraph."""
        return self.document.add_paragraph(readable(text), style)

    def heading(self, text: str, level: int) -> None:
        """A head."""
        self.document.add_heading(readable(text), level)

    def first(self) -> None:
        """The finding, the analyst's text, the figures, the summary and the limits."""
        self.heading(self.view.headline, 0)
        self.paragraph(" · ".join(self.view.meta))
        for line in self.matter.changes:
            self.paragraph(f"Changed: {line}", "List Bullet")
        for text in paragraphs_of(self.matter.head.description):
            self.paragraph(text)
        rows = [
            (one.title, " ".join(filter(None, (one.before, one.value, one.after))), one.words) for one in self.view.kpis
        ]
        self.grid([("", ""), ("", ""), ("", "")], rows)
        self.heading("Summary", 1)
        for sentence in self.view.sentences:
            self.paragraph(sentence, "List Number")
        for line in self.view.limits:
            self.paragraph(line)

    def figure(self, shown: Shown) -> None:
        """A figure: its number and message, its unit, the picture, and where it comes from."""
        self.heading(f"{self.view.numbers[shown.key]}. {shown.title}", 2)
        self.paragraph(shown.unit)
        chart = shown.picture
        picture = png_of(chart.whole(svg.style_of(), ground=True), chart.width, chart.height)
        if picture is None:
            self.paragraph("The picture is on the page: no browser was there to draw it here.")
        else:
            self.document.add_picture(io.BytesIO(picture), width=self.docx.shared.Inches(WIDE))
        source = f"Source: {self.matter.head.version}, {shown.tasks}."
        self.paragraph(" ".join(filter(None, (shown.note, source))))

    def network(self) -> Shown:
        """The picture of the network."""
        picture = self.view.picture
        left, top, right, bottom = picture.drawn.box
        chart = svg.Svg(right - left, bottom - top, picture.title, "net chart")
        chart.add(f'<g transform="translate({-left:.1f} {-top:.1f})">{picture.drawn.body}</g>')
        return Shown("network", picture.title, picture.unit, chart, "clear and defaults")

    def figures(self) -> None:
        """All figures, in the order of the page."""
        self.figure(self.network())
        for one in self.view.figures:
            chart = one.charts.get(MIDDLE) or next(iter(one.charts.values()))
            self.figure(Shown(one.key, one.title, one.unit, chart, one.tasks, one.note))

    def table(self, table: Table) -> None:
        """A table, at most so many of its rows."""
        self.heading(f"{self.view.numbers[table.key]}. {table.title}", 2)
        self.paragraph(table.unit)
        printed = [row for row in table.rows if row.is_printed][:MOST_ROWS]
        shown = [*printed, *([table.foot] if table.foot else [])]
        self.grid(table.heads, [(row.head, *[cell.text for cell in row.cells]) for row in shown])
        left = len(table.rows) - len(printed)
        if left > 0:
            self.paragraph(f"{left:,} rows more are on the page and in its CSV.")

    def tables(self) -> None:
        """All tables, in the order of the page."""
        for table in (self.view.stands, self.view.cases, self.view.banks):
            if table is not None:
                self.table(table)

    def grid(self, heads: Sequence[Tuple[str, str]], rows: Sequence[Tuple[str, ...]]) -> None:
        """Rows of cells, numbers to the right."""
        has_head = any(head for head, _ in heads)
        grid = self.document.add_table(rows=int(has_head), cols=len(heads))
        grid.style = "Light List" if has_head else "Light Grid"
        if has_head:
            for cell, (head, _) in zip(grid.rows[0].cells, heads):
                cell.text = head
        for row in rows:
            cells = grid.add_row().cells
            for at, text in enumerate(row[: len(heads)]):
                cells[at].text = readable(text)
                if has_head and at and heads[at][1] != "st":
                    cells[at].paragraphs[0].alignment = self.docx.enum.text.WD_ALIGN_PARAGRAPH.RIGHT
                for run in cells[at].paragraphs[0].runs:
                    run.font.size = self.docx.shared.Pt(SMALL)

    def limits(self) -> None:
        """The limits in whole, and the evidence."""
        self.heading("What this says and what not", 1)
        for part in limits_of(self.view):
            self.paragraph(part)
        known = self.matter.evidence
        self.heading("The evidence", 1)
        self.paragraph(f"Verdict of replay on the journal: {known.verdict.line} {known.verdict.words}.")
        self.paragraph(f"Made {known.made} by {known.words}. Repository: {known.commit}. Toolchain: {known.toolchain}.")
        self.grid([("What", "st"), ("Name", "st"), ("Bytes", ""), ("SHA-256", "st")], list(known.files))
        self.grid(
            [("Command", "st"), ("Status", ""), ("SHA-256 of what it printed", "st")],
            [(line, str(status), digest) for line, status, digest in known.commands],
        )


def readable(text: str) -> str:
    """A text as a document takes it: no sign that is not seen. Names in it may be shown already."""
    return seen(text.replace("\u2068", "").replace("\u2069", "").replace("\u00a0", " "))


def docx_of(matter: Matter) -> bytes:
    """The report as a document of Word."""
    word = Word(matter)
    word.first()
    word.figures()
    word.tables()
    word.limits()
    out = io.BytesIO()
    word.document.save(out)
    return out.getvalue()
