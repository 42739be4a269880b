#!/usr/bin/env python3
"""Makes what the completions of three shells say of the program: its tasks, the options of each, the values of options,
and how names of banks are read of a file.

    tools/dev/completions.py            names the files that are not as the table has them
    tools/dev/completions.py --write    puts into them what the table has

In:  the tables of clearing_tools.checks.command_line.
Out: the lines between `# Made by tools/dev/completions.py.` and `# End of what was made.` of tools/clearing.bash,
     tools/clearing.fish and tools/clearing.zsh. All else in them is written by hand.

Ends with 0, with 1 where a file is not as the table has it, and with 2 where the words are not understood.
"""
import argparse
import pathlib
import re
import sys
from typing import Callable, Dict, List, Tuple

ROOT = pathlib.Path(__file__).resolve().parents[2]
sys.path.insert(0, str(ROOT / "python/src"))

from clearing_tools.checks.command_line import OPTIONS, TASKS  # noqa: E402

PLACE = re.compile(
    r"(?<=^# Made by tools/dev/completions\.py\.\n).*?(?=^# End of what was made\.$)", re.MULTILINE | re.DOTALL
)


# The names of the banks in a file: by bytes, as a name may be no UTF-8, and no more than there may be banks. The header
# is the first record with a byte, a byte order mark apart. `FILE` stands for the file as a shell writes it.
NAMES = r"""head -c 167772160 -- FILE | LC_ALL=C tr -d '\0' | LC_ALL=C tr '\r' '\n' | LC_ALL=C awk '
        NR == 1 { sub(/^\357\273\277/, "") }
        $0 == "" { next }
        !header { header = 1; next }
        {
            comma = index($0, ",")
            name = comma ? substr($0, 1, comma - 1) : $0
            if (length(name) > 1000) next
            gsub(/^[ \t]+|[ \t]+$/, "", name)
            if (name ~ /^".*"$/) name = substr(name, 2, length(name) - 2)
            if (name == "" || name ~ /^-/ || name ~ /[\001-\037\177]|\302[\200-\237]/) next
            print name
            if (++count == 10000) exit
        }'"""


def alike() -> Dict[Tuple[str, ...], List[str]]:
    """The tasks that take the same options, by these."""
    found: Dict[Tuple[str, ...], List[str]] = {}
    for name, task in TASKS.items():
        found.setdefault(tuple(task.options), []).append(name)
    return found


def kind_of(option: str) -> str:
    """What the value of an option is: a `file`, a `bank`, a `number`, or one of these words."""
    value = OPTIONS[option].value
    return value if isinstance(value, str) else " ".join(value) if isinstance(value, list) else "number"


def for_bash() -> str:
    """What bash has of the table: each function prints."""
    kinds: Dict[str, List[str]] = {}
    for name in OPTIONS:
        kinds.setdefault(kind_of(name), []).append(f"--{name}")
    lines = [f'_clearing_tasks="{" ".join(TASKS)}"', "", "_clearing_options() { # the task", "    case $1 in"]
    for options, tasks in alike().items():
        lines.append(f'    {" | ".join(tasks)}) echo "{" ".join(f"--{name}" for name in options)}" ;;')
    lines += ["    esac", "}", "", "# What the value of an option is: a file, a bank, a number, or one of the words.",
              "_clearing_kind() { # the option", "    case $1 in"]
    lines += [f'    {" | ".join(names)}) echo "{value}" ;;' for value, names in kinds.items()]
    names = NAMES.replace("FILE", '"$1"')
    lines += ["    esac", "}", "", "# The names of banks, a line each."]
    lines += ["_clearing_banks() { # the file", f"    {names}", "}"]
    return "\n".join(lines) + "\n"


def for_zsh() -> str:
    """What zsh has of the table: functions that put the tasks and the options of a task into lists of their caller."""
    actions = {"file": "file:_files", "bank": "bank:_clearing_banks", "number": "number:"}
    lines = ["_clearing_tasks() {", "    tasks=("]
    lines += [f"        '{name}:{task.about}'" for name, task in TASKS.items()]
    lines += ["    )", "}", "", "_clearing_options() { # the task", "    case $1 in"]
    lines += [f'    {" | ".join(tasks)}) set -- {" ".join(options)} ;;' for options, tasks in alike().items()]
    lines += ["    esac", "    local name", "    for name; do", "        case $name in"]
    for name, option in OPTIONS.items():
        action = actions.get(kind_of(name), f"{name}:({kind_of(name)})")
        lines.append(f"        {name}) options+=('--{name}[{option.about}]:{action}') ;;")
    lines += ["        esac", "    done", "}", "", "# The names of banks, a line each."]
    lines += ["_clearing_banks_of() { # the file", f'    {NAMES.replace("FILE", "$1")}', "}"]
    return "\n".join(lines) + "\n"


def for_fish() -> str:
    """What fish has of the table: functions that print, and a line for each option."""
    values = {"file": "-r -F", "bank": "-x -a '(__clearing_banks)'", "number": "-x"}
    names = NAMES.replace("\\", "\\\\").replace("LC_ALL=C", "env LC_ALL=C").replace("FILE", "$argv[1]")
    lines = ["function __clearing_tasks", f"    printf '%s\\n' {' '.join(TASKS)}", "end", "",
             "# The names of banks, a line each.", "function __clearing_banks_of # the file", f"    {names}", "end", ""]
    for name, option in OPTIONS.items():
        tasks = " ".join(task for task in TASKS if name in TASKS[task].options)
        value = values.get(kind_of(name), f"-x -a '{kind_of(name)}'")
        lines.append(f"complete -c clearing -n '__clearing_task_in {tasks}' -l {name} {value} -d '{option.about}'")
    return "\n".join(lines) + "\n"


SHELLS: Dict[str, Callable[[], str]] = {"bash": for_bash, "fish": for_fish, "zsh": for_zsh}


def texts() -> Dict[pathlib.Path, str]:
    """The text that each file is to have. Ends the script where one has no place for what is made, or several."""
    found = {}
    for shell, made in SHELLS.items():
        path = ROOT / f"tools/clearing.{shell}"
        text = path.read_text(encoding="utf-8")
        if len(PLACE.findall(text)) != 1:
            sys.exit(f"completions.py: tools/{path.name} has no place for what is made, or several")
        found[path] = PLACE.sub(lambda _: made(), text)
    return found


def main() -> int:
    """Names the files that are not as the table has them, and makes them so where that is asked for. The status."""
    parser = argparse.ArgumentParser(description=__doc__, formatter_class=argparse.RawDescriptionHelpFormatter)
    parser.add_argument("--write", action="store_true", help="puts what the table has into the files")
    args = parser.parse_args()
    wrong = {path: text for path, text in texts().items() if path.read_text(encoding="utf-8") != text}
    for path, text in wrong.items():
        if args.write:
            path.write_text(text, encoding="utf-8")
        print(path.relative_to(ROOT))
    return int(bool(wrong) and not args.write)


if __name__ == "__main__":
    sys.exit(main())
