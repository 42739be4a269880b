#!/usr/bin/env python3
"""Makes the files of bin/ from the list of commands in python/pyproject.toml, and what stands for them in tools/ for
one more release.

    tools/dev/commands.py            names the files that are not as the list has them
    tools/dev/commands.py --write    makes them anew, and removes those that the list does not have

In:  the table project.scripts of python/pyproject.toml: the name of each command, and the function of the packages
     that it calls.
Out: bin/NAME for each command, a file of Python, or of the shell where nothing but the packages may be imported. In
     tools/, where the commands stood before, a file of each older name that hands over to `_moved.py` or `_moved.sh`,
     which run the file of today. No file is a link: `rt ci` takes none.

Ends with 0, with 1 where a file is not as the list has it, and with 2 where the words are not understood.
"""
import argparse
import pathlib
import re
import sys
from typing import Dict, List, NamedTuple, Tuple

ROOT = pathlib.Path(__file__).resolve().parents[2]
# Commands whose input may be meant to harm, or which took no Python before: nothing else is imported, and no command
# of the working folder is run.
ALONE = ("clearing-evidence", "clearing-many")
# The scripts that stood in tools/, beside the commands of Python.
SCRIPTS = ("clean", "evidence", "many", "quick", "release", "test")

BY_PYTHON = """\
#!/usr/bin/env python3
import pathlib, sys; sys.path.insert(0, str(pathlib.Path(__file__).resolve().parents[1] / "python/src"))
from {module} import {function}; {function}()
"""
BY_SHELL = """\
#!/bin/sh
# Runs the command by Python and the packages alone: nothing that PYTHONPATH or the working folder has is imported.

# Of the path the absolute entries alone count: no command is one that the working folder has.
set -f; IFS=: path=; for entry in $PATH; do case $entry in /*) path=$path:$entry ;; esac; done
PATH=${{path#:}} && export PATH; unset IFS; set +f

command -v python3 >/dev/null 2>&1 || {{ echo "${{0##*/}}: python3 is not on the path" >&2; exit 2; }}
top=$(dirname -- "$(dirname -- "$(realpath -- "$0")")")
if ! [ -f "$top/python/src/{file}" ]; then
    echo "${{0##*/}}: needs bin/{name} and python/src of the repository, in one folder as they are there" >&2
    exit 2
fi
exec python3 -IBc 'import sys; del sys.argv[0]; sys.path.insert(0, sys.argv.pop(1))
from {module} import {function}; {function}()' "$0" "$top/python/src" "$@"
"""
# What stands in tools/ under an older name, by its suffix.
OLDER = {
    ".py": """\
#!/usr/bin/env python3
import pathlib; exec(pathlib.Path(__file__).resolve().with_name("_moved.py").read_bytes())
""",
    ".sh": """\
#!/bin/sh
# Of the path the absolute entries alone count: no command is one that the working folder has.
set -f; IFS=: path=; for entry in $PATH; do case $entry in /*) path=$path:$entry ;; esac; done
PATH=${path#:} && export PATH; unset IFS; set +f
self=$(realpath -- "$0") && . "${self%/*}/_moved.sh"
""",
}


COMMAND = re.compile(r'^([a-z-]+) = "([\w.]+):(\w+)"$', re.MULTILINE)


def commands() -> Dict[str, Tuple[str, str]]:
    """The module and the function of each command, by its name."""
    text = (ROOT / "python/pyproject.toml").read_text(encoding="utf-8")
    table = text.partition("[project.scripts]\n")[2].partition("\n[")[0]
    return {name: (module, function) for name, module, function in COMMAND.findall(table)}


def text_of(name: str, module: str, function: str) -> str:
    """The text of the file of a command."""
    form = BY_SHELL if name in ALONE else BY_PYTHON
    return form.format(name=name, module=module, function=function, file=module.replace(".", "/") + ".py")


def older_names() -> List[str]:
    """The names that stood in tools/ before."""
    older = [name.removeprefix("clearing-").replace("-", "_") + ".py" for name in commands() if name != "clearing-many"]
    return [*older, *(f"{name}.sh" for name in SCRIPTS)]


def file_today(older: str) -> pathlib.Path:
    """The file that an older name of tools/ runs."""
    command = ROOT / "bin" / ("clearing-" + older.rpartition(".")[0].replace("_", "-"))
    return command if older.endswith(".py") or command.exists() else ROOT / "tools/dev" / older


def texts() -> Dict[pathlib.Path, str]:
    """The text that each file is to have."""
    called = {ROOT / "bin" / name: text_of(name, *it) for name, it in commands().items()}
    return {**called, **{ROOT / "tools" / name: OLDER[pathlib.PurePath(name).suffix] for name in older_names()}}


def is_as(path: pathlib.Path, text: str) -> bool:
    """Whether there is a file, and no link, of this text that may be run."""
    if not path.is_file() or path.is_symlink():
        return False
    return path.read_text(encoding="utf-8") == text and path.stat().st_mode & 0o777 == 0o755


def is_older(path: pathlib.Path) -> bool:
    """Whether a file of tools/ is one that hands over, or a link, as those of before were."""
    return path.is_symlink() or path.suffix in OLDER and is_as(path, OLDER[path.suffix])


class Wrong(NamedTuple):
    """Files that are not as they are to be, and files that are there beside them."""

    wrong: List[pathlib.Path]
    beside: List[pathlib.Path]


def wrong_files() -> Wrong:
    """The files that are to be made anew, and those that are to go."""
    listed = texts()
    beside = [path for path in (ROOT / "bin").iterdir() if path not in listed]
    beside += [path for path in (ROOT / "tools").iterdir() if path not in listed and is_older(path)]
    return Wrong([path for path, text in listed.items() if not is_as(path, text)], beside)


def write(wrong: List[pathlib.Path], beside: List[pathlib.Path]) -> None:
    """Makes files as they are to be, and removes those beside them."""
    listed = texts()
    for path in [*wrong, *beside]:
        path.unlink(missing_ok=True)
    for path in wrong:
        path.write_text(listed[path], encoding="utf-8")
        path.chmod(0o755)


def main() -> int:
    """Names the files that are wrong, and makes them anew where that is asked for. The status."""
    parser = argparse.ArgumentParser(description=__doc__, formatter_class=argparse.RawDescriptionHelpFormatter)
    parser.add_argument("--write", action="store_true", help="makes the files")
    args = parser.parse_args()
    wrong, beside = wrong_files()
    if args.write:
        write(wrong, beside)
    for path in [*wrong, *beside]:
        print(path.relative_to(ROOT))
    return int(bool(wrong or beside) and not args.write)


if __name__ == "__main__":
    sys.exit(main())
