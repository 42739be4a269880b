"""The design tokens, read from the one file of styles that has them: the colours of three themes, the font, and the
sizes."""
import functools
import pathlib
import re
from typing import Dict

FILE = pathlib.Path(__file__).resolve().parent / "web/tokens.css"
THEMES = {
    "light": ":root {",
    "dark": "@media screen and (prefers-color-scheme: dark) { :root {",
    "grey": "@media print and (monochrome) { :root {",
}


@functools.lru_cache(maxsize=None)
def css() -> str:
    """The tokens as a page has them."""
    return FILE.read_text(encoding="utf-8")


def tokens_of(theme: str) -> Dict[str, str]:
    """The tokens of a theme by their names, without the two dashes; those that it leaves are those of the light one."""
    block = css().partition(f"\n{THEMES[theme]}")[2].partition("}")[0]
    values = dict(re.findall(r"--([a-z0-9-]+): ([^;]+);", block))
    return values if theme == "light" else {**tokens_of("light"), **values}


def colours_of(theme: str) -> Dict[str, str]:
    """The colours of a theme, as #rrggbb, by their names."""
    return {name: value for name, value in tokens_of(theme).items() if value.startswith("#")}


LIGHT, DARK = map(colours_of, ("light", "dark"))
