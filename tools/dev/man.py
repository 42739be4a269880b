#!/usr/bin/env python3
"""Makes a manual page of each tool from its --help.

In:  TOOL..., files of tools, or none for all of bin/.
Out: in --out FOLDER a page NAME.1 for each tool NAME, in the form of man(7); all are written or none.

Ends with 0, or with 1 and a message where a tool has no --help or a page cannot be written, or with 2 where the words
are not understood.
"""
import os
import pathlib
import re
import subprocess
import sys
from typing import Iterator, List

ROOT = pathlib.Path(__file__).resolve().parents[2]
sys.path.insert(0, str(ROOT / "python/src"))

from clearing_tools import cli, files  # noqa: E402
from clearing_tools.runner import ToolError, command  # noqa: E402

ITEM = re.compile(r"  (?P<words>\S.*?)(?:  +(?P<text>\S.*))?")


# What roff reads as something else than the sign.
ESCAPES = str.maketrans({"\\": "\\e", "-": "\\-", "'": "\\(aq", "`": "\\(ga", "^": "\\(ha", "~": "\\(ti"})


def help_of(tool: pathlib.Path) -> str:
    """What a tool prints by --help; a ToolError where it prints nothing."""
    run = ["sh"] if tool.read_bytes().startswith(b"#!/bin/sh\n") else [sys.executable]
    environment = {**os.environ, "COLUMNS": "1000", "PYTHONDONTWRITEBYTECODE": "1"}
    words = [*run, str(tool), "--help"]
    done = subprocess.run(words, env=environment, stdin=subprocess.DEVNULL, capture_output=True, encoding="utf-8")
    if done.returncode or not done.stdout.strip():
        raise ToolError(f"{tool}: --help ends with {done.returncode}: {done.stderr.strip()}")
    return done.stdout.strip("\n")


def escaped(text: str) -> str:
    """A text that roff prints as it is."""
    text = text.translate(ESCAPES)
    return re.sub(r"^\.", r"\\&.", text, flags=re.MULTILINE)


def paragraphs_of(text: str) -> List[str]:
    """The paragraphs of a text, with empty lines between them."""
    return [block.strip("\n") for block in re.split(r"\n[ \t]*\n", text) if block.strip()]


def is_list(paragraph: str) -> bool:
    """Whether a paragraph is one of argparse's lists: a title, then words with their meaning."""
    title, _, rest = paragraph.partition("\n")
    return title.endswith(":") and title[:1].islower() and rest.startswith("  ")


def list_of(paragraph: str) -> Iterator[str]:
    """The lines of a list of words and their meaning."""
    for line in paragraph.split("\n")[1:]:
        item = ITEM.fullmatch(line)
        if line.startswith("    "):
            yield escaped(line.strip())
        elif item:
            yield f".TP\n.B {escaped(item['words'])}\n{escaped(item['text'] or '')}".rstrip("\n")


def plain_of(paragraph: str) -> Iterator[str]:
    """The lines of a paragraph of text: what stands after `In:` and `Out:`, prose, or lines whose blanks mean
    something."""
    lines = paragraph.split("\n")
    if re.match(r"(In|Out): ", lines[0]) and all(re.match(r"(In|Out): |    ", line) for line in lines):
        for part in re.split(r"\n(?=In:|Out:)", paragraph):
            label, _, text = part.partition(":")
            yield f".TP 6\n.B {label}:\n{escaped(' '.join(text.split()))}"
    elif not any(line.startswith(" ") for line in lines):
        yield f".PP\n{escaped(paragraph)}"
    else:
        yield f".PP\n.nf\n{escaped(paragraph)}\n.fi"


def page_of(tool: pathlib.Path) -> str:
    """The page of a tool."""
    command = tool.name
    parts = paragraphs_of(help_of(tool))
    synopsis = command
    if parts[0].startswith("usage: "):
        synopsis = " ".join(parts.pop(0).removeprefix("usage: ").split())
    else:
        lines = re.findall(rf"{re.escape(command)}[^\n]*", parts[1] if len(parts) > 1 else "")
        synopsis = "\n.br\n".join(re.split(r"   +", line)[0] for line in lines) or command
    summary = " ".join(parts[0].split())
    lists = [part for part in parts[1:] if is_list(part)]
    others = [part for part in parts[1:] if not is_list(part)]
    lines = [f'.TH {command.upper()} 1 "" clearing "User commands"', ".SH NAME"]
    lines.append(f"{command} \\- {escaped(summary.rstrip('.'))}")
    lines += [".SH SYNOPSIS", "\n".join(line if line == ".br" else escaped(line) for line in synopsis.split("\n"))]
    lines += [".SH DESCRIPTION", escaped(summary)]
    for part in others:
        lines += plain_of(part)
    if lists:
        lines.append(".SH OPTIONS")
    for part in lists:
        lines += list_of(part)
    lines += [".SH SEE ALSO", ".BR clearing (1)"]
    return "\n".join(lines) + "\n"


@command("man")
def main() -> None:
    """Writes the pages of the tools that are named, or all."""
    parser = cli.parser_of(__doc__)
    parser.add_argument("tools", nargs="*", type=pathlib.Path, metavar="TOOL", help="a tool (all)")
    parser.add_argument("--out", required=True, metavar="FOLDER", help="the folder to write to")
    words = parser.parse_args()
    tools = words.tools or sorted((ROOT / "bin").iterdir())
    files.write_all([(os.path.join(words.out, f"{tool.name}.1"), page_of(tool)) for tool in tools], tools)


if __name__ == "__main__":
    main()
