"""What the pages share: the design tokens, the style of charts, that of the player of a journal, and modules of
scripts. The report has its modules in one script, and the desk serves those that it needs one by one."""
import pathlib
import re
from typing import Dict

from .. import tokens as design

FOLDER = pathlib.Path(__file__).resolve().parent
SCRIPTS = FOLDER / "script"
D3 = ["/usr/share/nodejs/d3/dist/d3.min.js", "/usr/share/javascript/d3/d3.min.js"]
"""Where the library d3 may be, as packages of Debian have it."""
IMPORT = re.compile(r'^import \{ ([\w, ]+) \} from "\./([\w-]+\.mjs)";\n', re.MULTILINE)
EXPORT = re.compile(r"^export (?=(?:const|class) (\w+))", re.MULTILINE)


def tokens() -> str:
    """The design tokens as a style: colours of all themes, sizes, font and grid. It comes before every other style."""
    return design.css()


def charts() -> str:
    """The style of charts and of the network, by their classes."""
    return (FOLDER / "charts.css").read_text(encoding="utf-8")


def player_style() -> str:
    """The style of the player of a journal."""
    return (FOLDER / "player.css").read_text(encoding="utf-8")


def report_style() -> str:
    """The style of the report's page, without its colours."""
    return (FOLDER / "report.css").read_text(encoding="utf-8")


def check_forms(name: str, text: str) -> None:
    """Fails where a module imports or exports in another form than those that are read here."""
    others = re.findall(r"^[ \t]*(?:import|export)\b.*", EXPORT.sub("", IMPORT.sub("", text)), re.MULTILINE)
    if others:
        raise ValueError(f"{name}: this line is in no form that is read: {others[0]}")


def modules() -> Dict[str, str]:
    """The modules by their names."""
    return {path.name: path.read_text(encoding="utf-8") for path in sorted(SCRIPTS.glob("*.mjs"))}


def needed(name: str) -> Dict[str, str]:
    """A module and all that it imports, by their names, each behind those that it imports."""
    found, texts = modules(), {}  # type: Dict[str, str], Dict[str, str]

    def visit(one: str) -> None:
        check_forms(one, found[one])
        for _, other in IMPORT.findall(found[one]):
            if other not in texts:
                visit(other)
        texts[one] = found[one]

    visit(name)
    return texts


def bundle(name: str) -> str:
    """A module with all that it imports, as one script: each module a function that is called once and answers what
    it exports."""
    return '"use strict";\n' + "".join(as_function(one, text) for one, text in needed(name).items())


def as_function(name: str, text: str) -> str:
    """A module as a constant of its name that has what it exports."""
    names = EXPORT.findall(text)
    body = IMPORT.sub(
        lambda match: f"const {{ {match[1]} }} = {match[2].removesuffix('.mjs')}Module;\n", EXPORT.sub("", text)
    )
    return f"const {name.removesuffix('.mjs')}Module = (() => {{\n{body}return {{ {', '.join(names)} }};\n}})();\n"


def player_markup() -> str:
    """The player's part of a page."""
    return (FOLDER / "player.html").read_text(encoding="utf-8")
