"""What a page has of its own beside its text: its style, its scripts with what they need, and what a browser may load
and run."""
import base64
import dataclasses
import hashlib
import json
from typing import TYPE_CHECKING, List, Sequence

from .. import labels
from ..drawing import web
from . import player
from .matter import Matter
from .view import View

if TYPE_CHECKING:
    from markupsafe import Markup

MOST_TITLE = 80  # letters of the running title


def hashed(text: str) -> str:
    """The word by which the page's policy allows a text."""
    return "'sha256-" + base64.b64encode(hashlib.sha256(text.encode()).digest()).decode() + "'"


def policy_of(style: str, scripts: Sequence[str]) -> str:
    """What a browser may load and run: nothing but the style and the scripts of the page itself; a picture that it
    makes of itself."""
    rules = ["default-src 'none'", "base-uri 'none'", "form-action 'none'", f"style-src {hashed(style)}"]
    return "; ".join(rules + ([f"script-src {' '.join(map(hashed, scripts))}", "img-src blob:"] if scripts else []))


def style_of(matter: Matter) -> str:
    """The style: the tokens, that of charts, that of the page, and the running titles on paper."""
    head = matter.head
    right = f"as of {head.as_of}" if head.as_of else "date not stated"
    boxes = "".join(
        f"@{place}{{content:{string_of(text)}}}"
        for place, text in (("top-left", f"Clearing report: {head.title}"), ("top-right", right))
    )
    return web.tokens() + web.charts() + web.player_style() + web.report_style() + f"@page{{{boxes}}}"


def string_of(text: str) -> str:
    """A text as a string of CSS, in which nothing ends the style."""
    short = labels.shown(text)[:MOST_TITLE]
    return (
        '"'
        + "".join(letter if letter.isalnum() or letter in " .,:-" else f"\\{ord(letter):x} " for letter in short)
        + '"'
    )


@dataclasses.dataclass(frozen=True)
class Assets:
    """What a page has of its own beside its text: the style, the scripts with what they need as JSON, and what a
    browser may load and run."""

    style: "Markup"
    scripts: List["Markup"]
    data: "Markup"
    policy: str


def assets_of(view: View) -> Assets:
    """The assets of a page; without the library d3 it has no script."""
    from markupsafe import Markup

    style = style_of(view.matter)
    scripts = [view.library, web.bundle("report.mjs")] if view.library else []
    data = data_text(view) if scripts else ""
    return Assets(Markup(style), list(map(Markup, scripts)), Markup(data), policy_of(style, scripts))


def data_text(view: View) -> str:
    """What the script needs, as JSON that may stand within a page."""
    matter, drawn = view.matter, view.picture.drawn
    data = player.data_of(matter, drawn)
    rows = sorted(view.banks.rows, key=lambda row: row.place or 0)
    data["columns"] = [[labels.shown(row.head) for row in rows]] + [
        [row.cells[at].value for row in rows] for at in range(len(rows[0].cells) if rows else 0)
    ]
    data["files"] = view.files
    return json.dumps(data, ensure_ascii=False, separators=(",", ":")).replace("<", "\\u003c")
