"""Runs many jobs of the program: thousands of scenarios or networks, on one machine or as an array of a cluster.

  clearing-many run JOBS FOLDER [SLOTS]     all jobs, so many at a time (1 to 1000; as many as processors)
  clearing-many one JOBS FOLDER NUMBER [LAST]
                                            one job, counted from 1, or those up to the last, one after another
  clearing-many slurm JOBS FOLDER [--each N] [--tasks N]
                                            prints a batch script for sbatch, an array whose tasks have so many jobs
                                            each (1); where that makes more tasks than a cluster takes (1000, its
                                            MaxArraySize less one), each has as many more jobs as it needs

In:   JOBS, a file with a line for each job: its name, then the words of the program, with a tab between any two. Names
      differ, and are made of letters, digits, `.`, `_` and `-`. Lines end with LF or CR LF; a line without a byte is no
      job. Names of files in it are from the folder that the command is run in. The environment variable CLEARING names
      the program, the repository's where it is not set. The words `--case FOLDER` stand for the banks file and the
      debts file of a case, and for its scenarios in a job of stress or outcomes, as far as the job names no such file
      itself. A job whose case cannot be read, or is refused, fails with status 3 or 4. A job that does not say --limits
      is run by `--limits=wide` where its case says `limits: wide`, or the network passes the standard limits, which is
      told.
Out:  in FOLDER, for each job, NAME.out with what it prints, where its status is 0, or 7 (a journal that is not lawful
      and complete), and beside it NAME.job with its words and the SHA-256 checksums of the program and of the files
      that it reads; else NAME.failed with the status and the message, and no NAME.out. `run` ends with a line of
      counts: of the jobs whose result is there now, of those that failed or were killed, and of those that are not
      finished, where the run was broken off.

A result is moved into its place when it is whole. A job whose words, files and program are those in NAME.job is not run
again: after an interrupt the same command goes on, and what was changed is made anew. When a job begins again its older
result goes, and so does what a killed run left beside it, NAME.part+MACHINE.PROCESS.

Ends with 0, with 1 where a job failed or is not finished, with 2 where the words, or a file or folder that they name,
cannot be used, with 8 where the repository's program is not built yet, since no job builds it, and with 129, 130 or 143
where it was ended by a signal, HUP, INT or TERM, which ends all its jobs too.

Example: the network of each of a thousand seeds, in sums
  for seed in $(seq 1000); do
      printf 'seed-%d\\tgen\\t--seed\\t%d\\t--size\\t200\\t--tries\\t4000\\t--workers\\t1\\n' $seed $seed
  done >jobs.tsv
  clearing-many run jobs.tsv results
"""
import os
import re
import shlex
import subprocess
import sys
from typing import List, NoReturn, Optional, Sequence

from .. import runner
from ..runner import ROOT, STANDS, WAYS, ToolError
from .job import Runs, jobs_in, program_sum, tell, wrong_job
from .session import AskedToEndError, in_session, run_all, run_in_turn

TAKES = {
    "run": (range(3, 5), "run takes a file of jobs, a folder, and how many at a time"),
    "slurm": (range(3, 1_000_000), "slurm takes a file of jobs and a folder"),
    "one": (range(4, 6), "one takes a file of jobs, a folder and a number, or a first and a last"),
}
"""How many words each task takes, itself included, and what is said where they are not so many."""
MOST_BYTES, MOST_SLOTS, MOST = 1_000_000_000, 1000, 999_999_999
SCRIPT = """\
#!/bin/sh
#SBATCH --array=1-{tasks}
#SBATCH --cpus-per-task=1
#SBATCH --output=/dev/null
last=$((SLURM_ARRAY_TASK_ID * {each}))
CLEARING={program} exec {command} one {jobs} {folder} $((last - {each} + 1)) "$last"
"""


def refuse(what: str) -> NoReturn:
    """Ends, since the words cannot be used."""
    raise ToolError(f"{what}; --help says more", 2)


def number_in(word: str, most: int) -> Optional[int]:
    """The number from 1 to a greatest one that a word is, or nothing."""
    return int(word) if re.fullmatch("[0-9]{1,9}", word, re.ASCII) and 1 <= int(word) <= most else None


def program() -> str:
    """The program by its file: one without a folder is looked for on the path."""
    named = os.environ.get("CLEARING")
    if not named:
        return str(ROOT / "clearing") if STANDS else runner.program()
    found = named if os.sep in named else runner.on_path(named)
    return found or refuse(f"CLEARING names {named}, which is on no absolute entry of the path")


def lines_of(jobs: str) -> List[str]:
    """The jobs of a file."""
    if not os.path.isfile(jobs):
        refuse(f"{jobs} is no regular file of jobs")
    if not os.access(jobs, os.R_OK):
        refuse(f"{jobs} cannot be read")
    if os.path.getsize(jobs) > MOST_BYTES:
        refuse(f"{jobs} is longer than {MOST_BYTES:,} bytes")
    with open(jobs, "rb") as file:
        lines = jobs_in(file.read())
    if not lines:
        refuse(f"{jobs} has no job")
    wrong = wrong_job(lines)
    if wrong is not None:
        refuse(f"{jobs}: job {wrong}: no name of its own and words, with a tab between any two")
    return lines


def check_program(path: str) -> None:
    """Refuses a program that is not proved, and the repository's that is not built yet: each job would begin a build,
    which takes long, and would say so in a file of its own alone."""
    if os.path.basename(os.path.realpath(path)) == "first-look":
        refuse(f"{path} is a first look, which is not proved")
    if not (STANDS and runner.same_file(path, ROOT / "clearing")):
        return
    environment = {**os.environ, "CLEARING_BUILD": "never"}
    done = subprocess.run([path], env=environment, stdin=subprocess.DEVNULL, capture_output=True)
    if done.returncode == 8:
        why = os.fsdecode(done.stderr).rstrip("\n").removeprefix("clearing: ")
        build = "or build it in the repository: ./clearing; it proves first, for 15 to 40 minutes"
        raise ToolError(why, 8, [WAYS[0], build])


def make_folder(folder: str) -> str:
    """The folder of the results, made where it is not there. Another user could put links in the place of what is
    written there."""
    mask = os.umask(0o077)
    os.umask(mask | 0o022)
    try:
        os.makedirs(folder, exist_ok=True)
    except (OSError, ValueError):
        refuse(f"{folder} is no folder that can be written")
    finally:
        os.umask(mask)
    if not os.access(folder, os.W_OK):
        refuse(f"{folder} is no folder that can be written")
    about = os.stat(folder)
    if about.st_uid != os.geteuid():
        refuse(f"{folder} is another user's, and others can write there")
    if about.st_mode & 0o022:
        refuse(f"others can write in {folder} (chmod go-w)")
    return f"./{folder}" if folder.startswith("-") else folder


# The tasks.


def slurm(words: Sequence[str], count: int, path: str) -> int:
    """Prints a batch script."""
    _, jobs, folder, *options = words
    numbers = {"--each": 1, "--tasks": 1000}
    for at in range(0, len(options), 2):
        number = number_in("".join(options[at + 1 : at + 2]), MOST)
        if number is None:
            refuse(f"{options[at]} is followed by no number, 1 or more")
        if options[at] not in numbers:
            refuse(f"slurm knows no {options[at]}")
        numbers[options[at]] = number
    each = max(numbers["--each"], -(-count // numbers["--tasks"]))
    own = ROOT / "bin/clearing-many"
    command = str(own) if STANDS and own.is_file() else os.path.realpath(sys.argv[0])
    names = {"program": path, "command": command, "jobs": jobs, "folder": folder}
    # One word for a shell, whatever it has, an end of a line too.
    texts = {name: shlex.quote(word) for name, word in names.items()}
    text = SCRIPT.format(tasks=-(-count // each), each=each, **texts)
    sys.stdout.buffer.write(os.fsencode(text))
    sys.stdout.flush()
    return 0


def one(words: Sequence[str], lines: Sequence[str], path: str) -> int:
    """Runs a job, or some of them in turn."""
    _, jobs, folder, *numbers = words
    first, last = number_in(numbers[0], len(lines)), number_in(numbers[-1], MOST)
    if first is None:
        refuse(f"{numbers[0]} is no number of a job; {jobs} has {len(lines)}")
    if last is None or last < first:
        refuse(f"{numbers[-1]} is no number of a job from {numbers[0]} on")
    runs, chosen = Runs(path, make_folder(folder)), lines[first - 1 : last]
    if len(chosen) == 1:
        return runs.run(chosen[0])
    return run_in_turn(runs._replace(digest=program_sum(path)), chosen)


def run(words: Sequence[str], lines: Sequence[str], path: str) -> int:
    """Runs all jobs, side by side."""
    word = words[3] if len(words) > 3 else str(min(runner.processors(), MOST_SLOTS))
    slots = number_in(word, MOST_SLOTS)
    if slots is None:
        refuse(f"{word} is not how many jobs may run at a time, 1 to {MOST_SLOTS}")
    folder = make_folder(words[2])
    os.environ["CLEARING"] = path
    return run_all(Runs(path, folder, program_sum(path)), lines, slots)


def do(words: Sequence[str]) -> int:
    """Does what the words ask for: the status."""
    path = program()
    if not words[2]:
        refuse("the folder has no name")
    lines = lines_of(words[1])
    check_program(path)
    if words[0] == "slurm":
        return slurm(words, len(lines), path)
    return (run if words[0] == "run" else one)(words, lines, path)


def told(words: Sequence[str]) -> int:
    """The same, and what cannot be done is told."""
    try:
        return do(words)
    except ToolError as fault:
        for line in fault.lines:
            tell(line)
        return fault.status
    except OSError as fault:
        tell(f"{fault.filename or 'the output'}: {fault.strerror}")
        return 1


def helped() -> int:
    """The status of the command that says what it is for."""
    try:
        print(__doc__, end="", flush=True)
    except OSError as fault:
        tell(f"cannot write the output: {fault.strerror}")
        return 1
    return 0


def status_of(words: Sequence[str]) -> int:
    """The status of the command."""
    if words[:1] in (["--help"], ["-h"]):
        return helped()
    takes, why = TAKES.get("".join(words[:1]), (range(0), "the first word is run, one or slurm"))
    if len(words) not in takes:
        tell(f"{why}; --help says more")
        return 2
    return told(words) if words[0] == "slurm" else in_session(lambda: told(words))


def main() -> None:
    """The command."""
    runner.with_streams()
    os.environ["PATH"] = os.pathsep.join(filter(os.path.isabs, os.environ.get("PATH", "").split(os.pathsep)))
    try:
        status = status_of(sys.argv[1:])
    except AskedToEndError as asked:
        status = asked.status
    os._exit(status)
