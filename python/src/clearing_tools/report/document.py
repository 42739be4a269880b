"""The formats of the report, each told by the command line or by the ending of its name."""
from typing import Optional

FORMATS = ("html", "docx", "pdf")


def format_of(named: Optional[str], out: str) -> str:
    """The format: what was said, else by the ending of the name, html where that is none."""
    ending = out.rpartition(".")[2].lower()
    return named or (ending if ending in FORMATS else "html")
