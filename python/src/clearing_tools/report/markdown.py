"""The analyst's text: Markdown's simple forms, by the library markdown-it. Without it the text stands as it was
written."""
import html
from typing import TYPE_CHECKING, List, Optional

from ..labels import shown

if TYPE_CHECKING:
    from markdown_it import MarkdownIt

FORMS = ["emphasis", "list", "newline", "escape", "entity", "backticks"]


def reader() -> "Optional[MarkdownIt]":
    """The library, which passes no HTML, no links and no pictures on; nothing where it is not there."""
    try:
        from markdown_it import MarkdownIt
    except ImportError:
        return None
    return MarkdownIt("zero", {"html": False}).enable([*FORMS, "heading", "blockquote"])


def html_of(text: str) -> str:
    """The text as HTML."""
    text = "\n".join(map(shown, text.replace("\r\n", "\n").split("\n"))).strip()
    if not text:
        return ""
    library = reader()
    if library is None:
        return "".join(f"<p>{html.escape(part)}</p>" for part in text.split("\n\n") if part.strip())
    markup: str = library.render(text)
    # Its heads stand below the title of the page.
    for level in range(6, 0, -1):
        below = min(6, level + 2)
        markup = markup.replace(f"<h{level}>", f"<h{below}>").replace(f"</h{level}>", f"</h{below}>")
    return markup


def paragraphs_of(text: str) -> List[str]:
    """The text in paragraphs, for a document."""
    return [" ".join(part.split()) for part in text.replace("\r\n", "\n").split("\n\n") if part.strip()]
