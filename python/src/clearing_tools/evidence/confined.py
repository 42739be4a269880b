"""Runs a tool for sheets on what somebody else made, confined to the working folder: it opens no other file but those
of Python and the packages, to read; it starts no program and calls nobody; and its memory, time and files have limits.

    python3 -IB confined.py matrix|list|totals WORD ..

It is started by `source.py`, in a folder of its own, and ends with the status of the tool.
"""
import contextlib
import importlib
import os
import pathlib
import resource
import sys
from typing import Callable, Dict, List, Tuple

SOURCES = pathlib.Path(__file__).resolve().parents[2]
TOOLS = {"matrix": "matrix", "list": "exposure_list", "totals": "totals"}
"""The modules of the tools for sheets, by the word that names them here."""

LIMITS: Dict[int, int] = {
    resource.RLIMIT_AS: 4 << 30,
    resource.RLIMIT_CPU: 600,
    resource.RLIMIT_FSIZE: 400_000_000,
    resource.RLIMIT_CORE: 0,
}
"""Bytes of memory, seconds of a processor, and bytes of a file that it writes."""

# What tools for sheets import once they need it, and what binds to C while it is imported.
LIBRARIES = ("numpy", "openpyxl", "odf.opendocument", "odf.table", "odf.teletype")
# What a tool for sheets has no need of, by the beginnings of the names that Python has for it.
FORBIDDEN = (
    "socket.", "subprocess.", "os.system", "os.exec", "os.posix_spawn", "os.spawn", "os.startfile", "os.fork", "pty.",
    "os.kill", "ctypes.", "urllib.", "http.", "ftplib.", "smtplib.", "webbrowser.", "os.chdir", "os.chroot",
    "os.symlink", "os.link", "os.setxattr",
)
# What has names of files and folders as its first words, and changes something. A folder's descriptor may stand behind
# them.
CHANGES = ("os.remove", "os.rename", "os.mkdir", "os.rmdir", "os.truncate", "os.chmod", "os.chown", "os.utime")


def limit() -> None:
    """Sets the limits, or leaves lower ones."""
    for what, most in LIMITS.items():
        _, hard = resource.getrlimit(what)
        least = most if hard == resource.RLIM_INFINITY else min(most, hard)
        resource.setrlimit(what, (least, least))


def is_below(name: object, places: Tuple[str, ...]) -> bool:
    """Whether something is the name of one of some folders, or of a file in one, whatever links lead there."""
    if not isinstance(name, (str, bytes, os.PathLike)):
        return False
    return (os.path.realpath(os.fsdecode(name)) + os.sep).startswith(places)


def guard(folder: str, libraries: Tuple[str, ...]) -> Callable[[str, Tuple[object, ...]], None]:
    """What Python asks before it opens a file, or does anything else outside itself. Python does not say in which open
    folder a name is looked for; but no folder can be opened that is not below the one that all are confined to."""
    own = (os.path.realpath(folder) + os.sep,)

    def refuse(what: str) -> None:
        raise PermissionError(1, f"{what} is not for a command of an evidence")

    def ask(event: str, words: Tuple[object, ...]) -> None:
        if event == "open" and not isinstance(words[0], int):
            name, _, flags = words
            is_library = isinstance(flags, int) and flags & os.O_ACCMODE == os.O_RDONLY and is_below(name, libraries)
            if not (is_library or is_below(name, own)):
                shown = os.fsdecode(name) if isinstance(name, (str, bytes, os.PathLike)) else name
                refuse(f"the file {shown!r}")
        elif event in CHANGES and not isinstance(words[0], int) and not is_below(words[0], own):
            refuse(event)
        elif event.startswith(FORBIDDEN):
            refuse(event)

    return ask


def main(words: List[str]) -> None:
    """Runs the tool, whose module comes first among the words."""
    if not words or words[0] not in TOOLS:
        sys.exit("confined.py: the first word is matrix, list or totals")
    limit()
    # The folder of this file is no place to import from: it is the first on the path.
    others = [place for place in sys.path if os.path.isabs(place) and place != os.path.dirname(__file__)]
    sys.path[:] = [str(SOURCES), *others]
    tool = importlib.import_module(f"clearing_tools.imports.{TOOLS[words[0]]}")
    for library in LIBRARIES:
        with contextlib.suppress(ImportError):
            importlib.import_module(library)
    sys.argv[:] = [f"from_{words[0]}", *words[1:]]
    libraries = tuple(os.path.realpath(place) + os.sep for place in sys.path)
    sys.addaudithook(guard(os.getcwd(), libraries))
    tool.main()


if __name__ == "__main__":
    main(sys.argv[1:])
