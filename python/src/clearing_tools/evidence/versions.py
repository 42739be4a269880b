"""Which program, toolchain and sources an answer is of, and which program is at hand."""
import os
import platform
import stat
from typing import Optional

from .. import runner
from ..runner import ROOT, ToolError
from . import audit


def at_hand() -> Optional[str]:
    """The program that the tools came with, where it is there: that of the wheel; in a repository what was built, and
    not the script that may build it; and beside installed tools the program itself."""
    beside = runner.BUILT if (ROOT / "crates").is_dir() else ROOT / "clearing"
    places = [runner.PACKED, *([beside] if runner.STANDS else [])]
    return next((str(place) for place in places if os.access(place, os.X_OK)), None)


def program_sum() -> str:
    """The checksum of the program that runs; it ends with 2 where it cannot be read."""
    try:
        with open(runner.program_file(runner.program()), "rb") as file:
            if not stat.S_ISREG(os.fstat(file.fileno()).st_mode):
                raise OSError(0, "it is no file")
            return runner.digest_of(file)
    except OSError as fault:
        raise ToolError(f"cannot read the program {audit.shown(runner.program())}", 2) from fault


def line_printed_by(*words: str) -> Optional[str]:
    """The first line of what a command prints in the repository, none where it fails."""
    text = runner.printed_by(*words, folder=ROOT)
    return None if text is None else text.partition("\n")[0]


def commit_of() -> Optional[str]:
    """The commit of the repository that the tools are in, none where they are in none, and whether its files were
    changed since. A file that it does not have counts below crates/ alone, where a build would take it up."""
    if not runner.STANDS:
        return None
    top = line_printed_by("git", "rev-parse", "--show-toplevel")
    commit = line_printed_by("git", "rev-parse", "HEAD")
    if commit is None or top is None or not runner.same_file(top, ROOT):
        return None
    changed = line_printed_by("git", "status", "--porcelain", "--untracked-files=no")
    added = line_printed_by("git", "ls-files", "--others", "--exclude-standard", "--", "crates")
    return commit + (", with changes that are not committed" if changed or added else "")


def versions() -> bytes:
    """What versions.txt says."""
    lines = [
        f"repository {commit_of() or 'none: the tools are not in a repository'}",
        f"program {program_sum()}",
        f"toolchain {line_printed_by('rt', 'version') or 'none: rt is not on the path'}",
        f"python {platform.python_version()}",
    ]
    return "".join(line + "\n" for line in lines).encode()
