"""What the pictures of matplotlib share: the marks of the banks' states, titles and names that are wrapped and cut,
and how they are written.

One meaning each: grey is what is paid, the accent what stays unpaid; the shape of a bank and its colour are its
state."""
import importlib
import io
import os
from types import ModuleType
from typing import TYPE_CHECKING, Dict, List, Optional, Sequence, Union

from clearing_client.steady import MARK

from .. import runner
from ..files import is_stream, put
from ..runner import ToolError, lacking
from . import lettering
from .tokens import LIGHT

if TYPE_CHECKING:
    from matplotlib.figure import Figure

COLOUR_OF = {
    "sound": "sound",
    "fundamental": "fundamental",
    "contagion": "contagion",
    "gridlock": "contagion",
}  # of a state
MARKERS = {"sound": "o", "fundamental": "s", "contagion": "D", "gridlock": "^"}  # the same shapes in matplotlib
POINTS = 72  # in an inch


# Pictures by matplotlib.


def pyplot_of() -> ModuleType:
    """The part of matplotlib that draws. Where it is missing the tool fails with 2 and says for which Python."""
    try:
        import matplotlib
    except ImportError as fault:
        raise lacking("matplotlib", "pictures", ", which draws") from fault
    matplotlib.use("Agg")
    # The same data make the same file.
    matplotlib.rcParams.update({"svg.hashsalt": "clearing", "font.family": ["DejaVu Sans"]})
    return importlib.import_module("matplotlib.pyplot")


def mark_of(state: str, size: float) -> Dict[str, Union[str, float]]:
    """How matplotlib draws the mark of a state."""
    return {
        "marker": MARKERS[state],
        "markersize": size,
        "markerfacecolor": "none" if state == "sound" else LIGHT[COLOUR_OF[state]],
        "markeredgewidth": 1.7,
        "color": LIGHT[COLOUR_OF[state]],
    }


def plain(text: str) -> str:
    """Text that matplotlib shows as it is."""
    return runner.shown(text).replace("$", r"\$")


def name_of(text: str, inches: float, size: float, most: int = 2) -> str:
    """A name in at most so many lines of a width in inches, cut after a whole word where it is longer."""
    return "\n".join(map(plain, lettering.lines_of(runner.shown(text), inches * POINTS, size, False, most)))


def in_short(text: str, inches: float = 2.2, size: float = 9) -> str:
    """A name in one line of a width in inches. The mark of a bank that one unit decides is not cut off."""
    name = text.removesuffix(f" {MARK}")
    return name_of(name, inches, size, 1) + text[len(name) :]


def column_for(names: Sequence[str], size: float, most: float) -> float:
    """How wide a column of names is, in inches: as the widest, and no wider than that."""
    return min(max((lettering.width_of(runner.shown(name), size) / POINTS for name in names), default=0.5), most)


def lines_for(text: str, inches: float, size: float, is_bold: bool = False) -> List[str]:
    """A text in lines of a width in inches, none of it left out."""
    return lettering.lines_of(runner.shown(text), inches * POINTS, size, is_bold, 8)


def title(figure: "Figure", message: str, below: str = "") -> float:
    """The message of a picture as its title, with a line below it, in lines that the picture has room for. Answers
    how tall they are, in inches."""
    wide, tall = figure.get_size_inches()
    at = 0.12
    for text, size, how in (
        (message, 12, {"fontweight": "bold", "color": LIGHT["ink"]}),
        (below, 9, {"color": LIGHT["ink-2"]}),
    ):
        for line in lines_for(text, wide - 0.3, size, size == 12) if text else []:
            figure.text(0.12 / wide, 1 - at / tall, plain(line), va="top", fontsize=size, **how)
            at += size * 1.4 / POINTS
    return at + 0.08


def check_kind(output: str) -> str:
    """The kind of a picture is the ending of its name, or of the file that the name is a link to."""
    name = output if is_stream(output) else os.path.realpath(output)
    kind = os.path.splitext(name)[1].removeprefix(".").lower()
    if kind not in ("svg", "png", "pdf"):
        raise ToolError(f"{output}: does not end with .svg, .png or .pdf")
    return kind


def save(figure: "Figure", output: str, inputs: Sequence[Optional[str]] = (), folders: bool = True) -> None:
    """Writes a picture of matplotlib, whole or not at all, and never over an input."""
    kind = check_kind(output)
    content = io.BytesIO()
    try:
        figure.savefig(content, format=kind, dpi=150, metadata={"Date": None} if kind == "svg" else None)
    except ValueError as fault:
        raise ToolError(f"cannot write {output}: {fault}") from fault
    put(content.getvalue(), output, inputs, folders=folders)
