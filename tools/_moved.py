"""Runs the command that a file's name stood for: tools/NAME.py is bin/clearing-NAME. It goes with the next release."""
import os, pathlib, sys

here = pathlib.Path(__file__).resolve()
if here.name == "evidence.py":
    os.execv("/bin/sh", ["sh", str(here.with_name("evidence.sh")), *sys.argv[1:]])
command = here.parents[1] / "bin" / f"clearing-{here.stem.replace('_', '-')}"
exec(compile(command.read_bytes(), command, "exec"))
