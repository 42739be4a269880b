"""What a tool says to people: why it cannot do what it is asked for, the name by which it speaks of itself, and texts
as they can be read."""
import pathlib
import re
import sys
from dataclasses import dataclass
from typing import Iterable


@dataclass
class Tool:
    """A tool as it was called."""

    name: str
    """The name by which it speaks of itself."""
    may_build: bool = False
    """Whether its command line says that the program may be built."""


THIS = Tool(pathlib.Path(sys.argv[0]).name if sys.argv else "")
"""The tool of this process. `runner.run_command` alone sets it, before any work."""


def tool_name() -> str:
    """The name by which a tool speaks of itself."""
    return THIS.name


class ToolError(Exception):
    """Why a tool cannot do what it is asked for, in one line or more, and the `status` with which it ends."""

    def __init__(self, message: str, status: int = 1, more: Iterable[str] = ()) -> None:
        super().__init__(message)
        self.status, self.lines = status, [message, *more]

    def __str__(self) -> str:
        return "\n".join(self.lines)

    def with_status(self, status: int) -> "ToolError":
        """The same with another status."""
        return ToolError(self.lines[0], status, self.lines[1:])


def lacking(name: str, extra: str, use: str = "") -> ToolError:
    """That this Python lacks a library, in one line: what it is for, Debian's package, which is for Debian's Python,
    and the extra of the wheel that installs it for any other. The status is 2."""
    debian = f"Debian's package python3-{name} is for /usr/bin/python3 and its environments with --system-site-packages"
    return ToolError(f"{sys.executable} has no {name}{use} ({debian}; for others: pip install 'FILE.whl[{extra}]')", 2)


# Signs that are not seen, or that turn the letters beside them: controls, marks of direction, joiners, blanks of
# another width, fillers and selectors of a form, and codes that are no characters. Each is the first and last code of
# a range.
HIDDEN = (
    "0-9 B-1F 7F-A0 AD 34F 61C 115F-1160 1680 17B4-17B5 180B-180F 2000-200F 2028-202F 205F-206F 2800 3000 3164"
    " FDD0-FDEF FE00-FE0F FEFF FFA0 FFF0-FFFB FFFE-FFFF 13430-1343F 1BCA0-1BCA3 1D173-1D17A E0000-E0FFF "
    + " ".join(f"{plane:X}FFFE-{plane:X}FFFF" for plane in range(1, 17))
)


def signs_of(ranges: str) -> str:
    """Ranges of codes as the inner part of a set of a regular expression."""
    ends = (part.partition("-") for part in ranges.split())
    return "".join(f"\\U{int(first, 16):08x}-\\U{int(last or first, 16):08x}" for first, _, last in ends)


NOT_SEEN = re.compile(f"[{signs_of(HIDDEN)}]|(?<= ) ")
UNSEEN = re.compile(f"{NOT_SEEN.pattern}|<(?=U\\+[0-9A-F]{{4,6}}>)")


def shown(text: str) -> str:
    """A text as it can be read: a sign that is not seen, or that turns the order of letters, stands as its code, such
    as <U+202E>, and so does a blank behind a blank. Two texts that differ are shown differently."""
    return UNSEEN.sub(lambda match: f"<U+{ord(match[0]):04X}>", text)


def seen(text: str) -> str:
    """A text in which names may be shown already, so that a code in it stays as it is."""
    return NOT_SEEN.sub(lambda match: f"<U+{ord(match[0]):04X}>", text)


MOST_SHOWN = 2000


def say(message: str) -> None:
    """Tells people something in one line on standard error, whatever stands in it."""
    line = shown(message[: MOST_SHOWN + 1]).replace("\n", "<U+000A>")
    print(f"{tool_name()}: {line if len(message) <= MOST_SHOWN else line + '...'}", file=sys.stderr)
