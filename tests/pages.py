"""How the commands of the documents are run, and what they print.

In a block of the language `console` a line that begins with `$ ` is a command of the shell, and what follows is what it
prints, both streams together. The blocks of a page are run in order in a copy of its examples, commands and package,
where `./clearing` is the program.
"""
import os
import pathlib
import re
import shlex
import shutil
import subprocess
import tempfile

from common import PROGRAM, ROOT

BLOCK = re.compile(r"(?<=^```console\n).*?(?=^```$)", re.MULTILINE | re.DOTALL)
# Reads all of its input, where head itself ends at once: else the program writes to a pipe that is closed, or does not,
# as the two happen to run.
HEAD = 'head() { command head "$@"; local status=$?; cat >/dev/null; return $status; }'


def output_of(command: str, folder: pathlib.Path) -> str:
    """What a command of the shell prints in a folder."""
    run = ["bash", "-c", f"{HEAD}\n{command}"]
    environment = {**os.environ, "LC_ALL": "C.UTF-8", "PYTHONDONTWRITEBYTECODE": "1"}
    return subprocess.run(
        run,
        cwd=folder,
        env=environment,
        stdin=subprocess.DEVNULL,
        stdout=subprocess.PIPE,
        stderr=subprocess.STDOUT,
        encoding="utf-8",
    ).stdout


def block_run(block: str, folder: pathlib.Path) -> str:
    """The text of a block, with what its commands print now."""
    commands = [line for line in block.splitlines() if line.startswith("$ ")]
    parts = []
    for command in commands:
        output = output_of(command.removeprefix("$ "), folder)
        parts.append(command + "\n" + output + ("\n" if output and not output.endswith("\n") else ""))
    return "".join(parts)


def page_run(text: str) -> str:
    """The text of a page, with what its commands print now."""
    with tempfile.TemporaryDirectory() as name:
        folder = pathlib.Path(name)
        for part in ("examples", "python", "bin"):
            shutil.copytree(ROOT / part, folder / part)
        script = folder / "clearing"
        script.write_text(f'#!/bin/sh\nexec {shlex.quote(PROGRAM)} "$@"\n')
        script.chmod(0o755)
        return BLOCK.sub(lambda block: block_run(block[0], folder), text)
