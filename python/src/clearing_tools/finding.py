"""How the program is found, and the checksum of a file. The program is that of the environment variable CLEARING, else
the one of the repository or the installation that the package stands in, else `clearing` on the path, whose absolute
entries alone are looked at."""
import functools
import hashlib
import os
import pathlib
import shutil
import subprocess
import sys
from typing import IO, Optional, Union

from .saying import THIS, ToolError, say, tool_name

PACKAGES, ROOT = (pathlib.Path(__file__).resolve().parents[above] for above in (1, 3))
"""The repository, or what stands for it where the package is installed."""
STANDS = PACKAGES == ROOT / "python" / "src"
"""Whether the packages stand in a repository, or in an installation: elsewhere nothing that is in ROOT is run or
asked."""
BUILT = ROOT / "crates/clear_main/out/clear_main"
"""The program that a repository has built."""
PACKED = PACKAGES / "clearing_client/bin/clearing"
"""The program of a wheel that has one."""
StrPath = Union[str, "os.PathLike[str]"]
"""The name of a file or a folder."""


def on_path(name: str) -> Optional[str]:
    """The file of a command, which is looked for in the absolute entries of the path alone."""
    return shutil.which(name, path=os.pathsep.join(filter(os.path.isabs, os.get_exec_path())))


def printed_by(*words: str, folder: Optional[StrPath] = None, seconds: float = 30) -> Optional[str]:
    """What a command of the system prints, without blanks at its ends, or nothing where it is not there or fails."""
    path = on_path(words[0])
    if path is None:
        return None
    try:
        done = subprocess.run(
            [path, *words[1:]], cwd=folder, stdin=subprocess.DEVNULL, capture_output=True, timeout=seconds
        )
        return done.stdout.decode().strip() if done.returncode == 0 else None
    except (OSError, ValueError, subprocess.TimeoutExpired):
        return None


BUILD = "--build"
WAYS = (
    "to have the program install the wheel of a release: pip install FILE.whl",
    f"or build it in the repository: ./clearing, or this command with {BUILD}; it proves first, for 15 to 40 minutes",
)
"""What to do where there is no program."""


@functools.lru_cache(maxsize=None)
def built(script: str) -> str:
    """The repository's script, once its program is built. That takes long, so it is built where that was said on the
    command line or at the terminal alone; else this fails with 8. Installed, it is the program itself, which knows
    nothing of that."""
    environment = {**os.environ, "CLEARING_BUILD": "never"}
    done = subprocess.run([script], env=environment, stdin=subprocess.DEVNULL, capture_output=True)
    if done.returncode != 8:
        return script
    why = done.stderr.decode("utf-8", "replace").strip().removeprefix("clearing: ")
    if not (THIS.may_build or says_yes(why)):
        raise ToolError(why, 8, WAYS)
    example = ROOT / "examples/chain"
    words = [script, "check", "--banks", str(example / "banks.csv"), "--debts", str(example / "debts.csv")]
    # How far it is the script says itself.
    if subprocess.run(words, stdin=subprocess.DEVNULL, stdout=subprocess.DEVNULL).returncode:
        raise ToolError("the program cannot be built", 8)
    return script


def says_yes(why: str) -> bool:
    """Whether somebody at the terminal wants the program built."""
    if not (sys.stdin and sys.stdin.isatty() and sys.stderr and sys.stderr.isatty()):
        return False
    say(why)
    question = "build it now? It proves first, for 15 to 40 minutes [y/N] "
    print(f"{tool_name()}: {question}", end="", file=sys.stderr, flush=True)
    return sys.stdin.readline().strip().lower() in ("y", "yes")


def program() -> str:
    """The program: an absolute name, and never that of one without a proof."""
    name = os.environ.get("CLEARING") or "clearing"
    beside = ROOT / "clearing"
    if os.sep in name:
        path: Optional[str] = os.path.abspath(name)
    elif not os.environ.get("CLEARING") and os.access(PACKED, os.X_OK):
        path = str(PACKED)
    elif not os.environ.get("CLEARING") and STANDS and beside.is_file():
        path = str(beside)
    else:
        path = on_path(name)
    if path is None:
        why = "it is on no absolute entry of the path; CLEARING names the program"
        raise ToolError(f"cannot run {name}: {why}", 8, WAYS)
    if os.path.basename(os.path.realpath(path)) == "first-look":
        raise ToolError(f"{name} is a first look, which is not proved; name the proved program by CLEARING", 2)
    # The script begins a build also where it was named.
    return built(path) if STANDS and same_file(path, beside) else path


def program_file(name: str) -> str:
    """The file that runs where a program is called by a name: of the repository's script what it has built."""
    is_script = STANDS and same_file(name, ROOT / "clearing")
    return str(BUILT) if is_script and BUILT.is_file() else name


def version() -> str:
    """The number of the release, or nothing where it is not known. A repository and an installation have it beside the
    tools, and a wheel has it beside this file."""
    place = ROOT / "VERSION" if STANDS else pathlib.Path(__file__).with_name("VERSION")
    try:
        return place.read_text(encoding="utf-8").strip()
    except (OSError, UnicodeDecodeError):
        return ""


def digest_of(file: IO[bytes]) -> str:
    """The SHA-256 checksum of what is left of an open file, which is read block by block."""
    digest = hashlib.sha256()
    while block := file.read(1 << 20):
        digest.update(block)
    return digest.hexdigest()


def same_file(one: StrPath, other: StrPath) -> bool:
    """Whether two names are those of one file that is there."""
    try:
        return os.path.samefile(one, other)
    except OSError:
        return False
