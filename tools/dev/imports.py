#!/usr/bin/env python3
"""Draws which module of the two Python packages imports which.

    tools/dev/imports.py > docs/pictures/imports.svg

In:  the modules in python/src.
Out: the picture as SVG on standard output: a module stands above all that it imports. A line that other lines make up
     for is left out.

Ends with 0, with 1 where modules import one another in a ring, or one that is to stand alone imports another, and
with 2 where the words are not understood.
"""
import argparse
import ast
import html
import pathlib
import sys
from typing import Collection, Dict, List, Mapping, Set, Tuple

SOURCES = pathlib.Path(__file__).resolve().parents[2] / "python/src"
# What imports nothing of the packages beside what is named here, so that it may be judged alone.
EVIDENCE = "clearing_tools.evidence."
ALONE: Dict[str, Set[str]] = {
    EVIDENCE + "audit": set(),
    EVIDENCE + "bounds": set(),
    EVIDENCE + "confined": set(),
    EVIDENCE + "shock": {EVIDENCE + "audit", EVIDENCE + "bounds", "clearing_tools.files", "clearing_tools.runner"},
    EVIDENCE + "layout": {EVIDENCE + "audit", "clearing_tools.runner"},
    EVIDENCE + "plain_files": {EVIDENCE + "audit", EVIDENCE + "layout", "clearing_tools.runner"},
    EVIDENCE + "parts": {EVIDENCE + each for each in ("audit", "layout", "shock")} | {"clearing_tools.runner"},
    EVIDENCE + "source": {EVIDENCE + "confined", EVIDENCE + "layout", "clearing_tools.runner"},
    EVIDENCE + "checking": {
        EVIDENCE + each for each in ("audit", "layout", "parts", "plain_files", "shock", "source", "versions")
    }
    | {"clearing_tools.runner"},
    EVIDENCE + "versions": {EVIDENCE + "audit", "clearing_tools.runner"},
    EVIDENCE + "evidence": {EVIDENCE + each for each in ("audit", "checking", "making")} | {"clearing_tools.runner"},
    # What makes an evidence reads a case as all tools read it; what checks one does not.
    EVIDENCE + "making": {
        EVIDENCE + each for each in ("audit", "layout", "parts", "plain_files", "shock", "source", "versions")
    }
    | {"clearing_tools.cases", "clearing_tools.files", "clearing_tools.runner", "clearing_tools.way"}
    | {"clearing_client.case", "clearing_client.errors"},
    "clearing_tools.files": {"clearing_tools.runner", "clearing_tools.way"},
    "clearing_tools.way": {"clearing_tools.runner"},
    "clearing_tools.runner": {"clearing_tools.finding", "clearing_tools.running", "clearing_tools.saying"},
    "clearing_tools.running": {"clearing_tools.finding", "clearing_tools.saying"},
    "clearing_tools.finding": {"clearing_tools.saying"},
    "clearing_tools.saying": set(),
}
# What modules import by `import_module`, as it is written there: of the packages what no line of the picture shows, and
# names that are computed. No other module may do so.
BY_NAME: Dict[str, Set[str]] = {
    EVIDENCE + "confined": {"f'clearing_tools.imports.{TOOLS[words[0]]}'", "library"},
    "clearing_client.errors": {"name"},
    "clearing_client.sheets": {
        "f'clearing_tools.imports.{MODULES[kind]}'", "clearing_tools.cli", "clearing_tools.runner"
    },
}
BOX, TALL, GAP, ROW, LEFT, MOST = 132, 24, 10, 62, 20, 9
FILLS = {"clearing_client": "#e4ecf4", "clearing_tools": "#f7e6b0", "evidence": "#dcefdc"}


Graph = Mapping[str, Set[str]]
"""The modules that each module imports, by their names."""


def modules() -> Dict[str, pathlib.Path]:
    """The file of each module by its name; a package is the module of its `__init__`."""
    paths = [path for path in sorted(SOURCES.rglob("*.py")) if path.stem != "__init__"]
    return {".".join(path.relative_to(SOURCES).with_suffix("").parts): path for path in paths}


def is_for_types(node: ast.stmt) -> bool:
    """Whether a statement stands there for the check of types alone."""
    return isinstance(node, ast.If) and ast.unparse(node.test) == "TYPE_CHECKING"


def imported_by(name: str, path: pathlib.Path, known: Set[str]) -> Set[str]:
    """The modules that a module in a file imports, of those that are known."""
    found: Set[str] = set()
    tree = ast.parse(path.read_text(encoding="utf-8"))
    tree.body = [node for node in tree.body if not is_for_types(node)]
    for node in ast.walk(tree):
        if isinstance(node, ast.ImportFrom):
            base = name.split(".")[: -node.level] if node.level else []
            target = ".".join([*base, *((node.module or "").split(".") if node.module else [])])
            found |= {target} | {f"{target}.{alias.name}" for alias in node.names}
        elif isinstance(node, ast.Import):
            found |= {alias.name for alias in node.names}
    return (found & known) - {name}


def is_importer(node: ast.expr) -> bool:
    """Whether something is a function that imports by a name."""
    return ast.unparse(node).rpartition(".")[2] in ("import_module", "__import__")


def imported_by_name(path: pathlib.Path) -> Set[str]:
    """What a file imports by a name, as it is written there, but for other libraries."""
    found: Set[str] = set()
    for node in ast.walk(ast.parse(path.read_text(encoding="utf-8"))):
        names: List[ast.expr] = []
        if isinstance(node, ast.Call) and is_importer(node.func):
            names = node.args[:1]
        elif isinstance(node, ast.Call) and any(map(is_importer, node.args)):
            others = [each for each in node.args if not is_importer(each)]
            names = [one for each in others for one in (each.elts if isinstance(each, ast.Tuple) else [each])]
        for name in names:
            said = name.value if isinstance(name, ast.Constant) else ast.unparse(name)
            if not isinstance(name, ast.Constant) or str(said).partition(".")[0] in FILLS:
                found.add(str(said))
    return found


def graph() -> Dict[str, Set[str]]:
    """What each module imports."""
    files = modules()
    return {name: imported_by(name, path, set(files)) for name, path in files.items()}


def levels_of(below: Graph) -> Dict[str, int]:
    """How far each module stands above the lowest; a ring is a fault, and ends the script."""
    levels: Dict[str, int] = {}
    waiting = dict(below)
    while waiting:
        ready = [name for name, others in waiting.items() if others <= levels.keys()]
        if not ready:
            sys.exit(f"imports.py: these import one another in a ring, or stand on one: {', '.join(sorted(waiting))}")
        for name in ready:
            levels[name] = max((levels[other] + 1 for other in waiting[name]), default=0)
        for name in ready:
            del waiting[name]
    return levels


def faults_of(below: Graph) -> List[str]:
    """The modules that are to stand alone, and do not."""
    return [f"{name} imports {other}" for name, may in ALONE.items() for other in sorted(below.get(name, set()) - may)]


def hidden_in(files: Mapping[str, pathlib.Path]) -> List[str]:
    """The modules that import by a name what they are not listed to."""
    found = {name: imported_by_name(path) - BY_NAME.get(name, set()) for name, path in files.items()}
    return [f"{name} imports {other} by its name" for name, others in found.items() for other in sorted(others)]


def reached_by(below: Graph, names: Collection[str]) -> Set[str]:
    """All that some modules import, and what those import, and so on."""
    found: Set[str] = set()
    waiting = list(names)
    while waiting:
        others = below[waiting.pop()] - found
        found |= others
        waiting += others
    return found


def shown_of(below: Graph) -> Dict[str, Set[str]]:
    """The lines that are drawn: none to what is also reached through another."""
    return {name: others - reached_by(below, others) for name, others in below.items()}


def rows_of(levels: Dict[str, int]) -> List[List[str]]:
    """The modules in rows from the top, each of a level and of as many as fit."""
    rows: List[List[str]] = []
    for level in range(max(levels.values()), -1, -1):
        names = sorted(name for name in levels if levels[name] == level)
        rows += [names[at : at + MOST] for at in range(0, len(names), MOST)]
    return rows


def line_between(upper: Tuple[int, int], lower: Tuple[int, int]) -> str:
    """The line from a box down to another, which begin at places of the picture."""
    (x1, y1), (x2, y2) = upper, lower
    return (f'<line x1="{x1 + BOX // 2}" y1="{y1 + TALL}" x2="{x2 + BOX // 2}" y2="{y2}" '
            'stroke="#9aa5af" stroke-width="0.8"/>')


def box(name: str, x: int, y: int) -> List[str]:
    """The lines of a module, whose box begins at a place of the picture."""
    package, _, short = name.partition(".")
    fill = FILLS["evidence" if short.startswith("evidence.") else package]
    return [(f'<rect x="{x}" y="{y}" width="{BOX}" height="{TALL}" rx="3" fill="{fill}" stroke="#5b6670">'
             f"<title>{name}</title></rect>"),
            f'<text x="{x + BOX // 2}" y="{y + 16}" text-anchor="middle" fill="#16191d">{html.escape(short)}</text>']


def picture(below: Graph) -> List[str]:
    """The lines of the picture."""
    places: Dict[str, Tuple[int, int]] = {}
    tall = 16
    for row in rows_of(levels_of(below)):
        for at, name in enumerate(row):
            places[name] = (LEFT + at * (BOX + GAP) + (MOST - len(row)) * (BOX + GAP) // 2, tall)
        tall += ROW
    wide = 2 * LEFT + MOST * (BOX + GAP)
    lines = [f'<svg xmlns="http://www.w3.org/2000/svg" width="{wide}" height="{tall}" font-family="sans-serif" '
             'font-size="11">',
             f'<rect width="{wide}" height="{tall}" fill="#ffffff"/>']
    for name, others in shown_of(below).items():
        lines += [line_between(places[name], places[other]) for other in sorted(others)]
    for name, (x, y) in places.items():
        lines += box(name, x, y)
    return [*lines, "</svg>"]


def main() -> None:
    """Prints the picture, or ends with what is wrong with the imports."""
    argparse.ArgumentParser(description=__doc__, formatter_class=argparse.RawDescriptionHelpFormatter).parse_args()
    below = graph()
    faults = [*faults_of(below), *hidden_in(modules())]
    if faults:
        sys.exit("imports.py: " + "; ".join(faults))
    with open(1, "w", encoding="utf-8", closefd=False) as output:
        output.write("\n".join(picture(below)) + "\n")


if __name__ == "__main__":
    main()
