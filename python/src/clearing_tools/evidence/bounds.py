"""The limits of a scenarios file that are looked at before it is parsed, as a parser may need gigabytes for a few
thousand dots.

The program reads values that are at most 80 deep in one another, under keys of at most 80 parts. A file of scenarios
has two kinds of tables, `[[scenario]]` and `[[scenario.loss]]`, and no other point but in a text. One with thousands
of others is of another shape, whatever else is wrong with it.
"""
import re
from typing import Optional

MOST_DEEP, MOST_OTHERS = 80, 10_000
SIGN = re.compile(r"""["'#\[\]{}.=,\n]""")
ENDS = {
    '"': re.compile(r'\\.|["\n]', re.DOTALL),
    "'": re.compile(r"['\n]"),
    '"""': re.compile(r'\\.|"""', re.DOTALL),
    "'''": re.compile("'''"),
}
QUOTES_AND_BLANKS = str.maketrans("", "", "\"' \t")


def end_of_text(document: str, at: int) -> int:
    """The place behind the text between quotes that begins at a place."""
    quote = document[at : at + 3] if document[at : at + 3] in ENDS else document[at]
    at += len(quote)
    while match := ENDS[quote].search(document, at):
        at = match.end()
        if not match[0].startswith("\\"):
            # Up to two quotes before the last three belong to the text.
            while len(quote) == 3 and document[at : at + 1] == quote[0] and at < match.end() + 2:
                at += 1
            return at
    return len(document)


def fault_of(document: str) -> Optional[str]:
    """The kind of the fault of a document that is beyond these limits, `toml` or `shape`, else None."""
    at = line = deep = parts = others = 0
    header: Optional[int] = None
    while match := SIGN.search(document, at):
        sign, at = match[0], match.end()
        if sign == "#":
            at = document.find("\n", at)
            at = at if at >= 0 else len(document)
        elif sign in "\"'":
            at = end_of_text(document, match.start())
        elif sign == ".":
            parts, others = parts + 1, others + (header is None)
        elif sign == "[" and not deep and header is None and not document[line : match.start()].strip(" \t"):
            header, parts = match.start(), 0
        elif sign == "]" and header is not None:
            if document[header:at].translate(QUOTES_AND_BLANKS) not in ("[[scenario]", "[[scenario.loss]"):
                others += 1 + parts
            header, at = None, at + (document[at : at + 1] == "]")
        elif header is None:
            deep = max(0, deep + (sign in "[{") - (sign in "]}"))
            parts = 0
        if sign == "\n":
            line, header, parts = at, None, 0
        if deep > MOST_DEEP or parts >= MOST_DEEP:
            return "toml"
        if others > MOST_OTHERS:
            return "shape"
    return None
