"""A case whose inputs, outputs, working folder, home and temporary files each have a folder of their own, of which all
but the outputs stay as they are; and each tool in a line of words that does well there."""
import json
import os
import pathlib
import random
import runpy
import signal
import subprocess
import sys
import traceback
from typing import IO, Any, Callable, Dict, Iterator, List, NamedTuple, Optional, Sequence, Tuple, Union

from common import PROGRAM, ROOT, Case, Word, clearing, file_of, run_of
from pythons import python_with

RULES = ["order", "equal", "losses", "jefferson", "webster", "adams"]
Done = Any
"""A run that has ended, with its status, output and messages as bytes."""
Stdout = Union[IO[bytes], int, None]
"""A file for the output of a run, or -1 for none at all."""


def records_of(text: str) -> List[List[str]]:
    """The records of a file whose lines end with LF alone, as no name has an end of a line."""
    return [line.split(",") for line in text.removesuffix("\n").split("\n")]


def lines_of(records: Sequence[Sequence[object]]) -> str:
    """A file of some records."""
    return "".join(",".join(map(str, record)) + "\n" for record in records)


def toml(text: str) -> str:
    """A text as TOML has it."""
    return json.dumps(text, ensure_ascii=False).replace("\x7f", "\\u007f")


def ended_by(work: Callable[[], object]) -> int:
    """The status with which Python would end after this, with its output written."""
    try:
        work()
        status = 0
    except SystemExit as end:
        status = end.code if isinstance(end.code, int) else 0 if end.code is None else 1
        if not isinstance(end.code, int) and end.code is not None:
            print(end.code, file=sys.stderr)
    except BaseException:
        traceback.print_exc()
        status = 1
    try:
        if sys.stdout is not None:
            sys.stdout.flush()
    except OSError:
        status = 120
    sys.stderr.flush()
    return status


class Place(Case):
    """A case in whose folders a tool changes nothing but its outputs."""

    def setUp(self) -> None:
        """Makes the folders."""
        super().setUp()
        for name in ("in", "out", "work", "home", "temporary", "matplotlib"):
            (self.folder / name).mkdir()
        self.inputs, self.out = self.folder / "in", self.folder / "out"
        self.environment = {
            **os.environ,
            "CLEARING": os.path.realpath(PROGRAM),
            "HOME": str(self.folder / "home"),
            "TMPDIR": str(self.folder / "temporary"),
            "MPLCONFIGDIR": str(self.folder / "matplotlib"),
            "PYTHONDONTWRITEBYTECODE": "1",
        }

    def given(self, name: str, content: Union[str, bytes]) -> pathlib.Path:
        """An input."""
        path = self.inputs / name
        path.write_bytes(content if isinstance(content, bytes) else content.encode())
        return path

    def all_but_outputs(self) -> Dict[str, Tuple[Optional[bytes], int, int]]:
        """Each file and folder, with its content, its mode and when it was changed."""
        found = {}
        for place in ("in", "work", "home", "temporary"):
            for path in [self.folder / place, *(self.folder / place).rglob("*")]:
                about = path.lstat()
                # The folder for temporary files is used, and empty again in the end.
                changed = about.st_mtime_ns if place != "temporary" else 0
                found[str(path)] = (path.read_bytes() if path.is_file() else None, about.st_mode, changed)
        return found

    def attempt(
        self,
        name: str,
        *words: Word,
        python: Optional[str] = None,
        stdout: Stdout = None,
        program: Optional[Word] = None,
    ) -> Done:
        """A run of a tool, after which all but the outputs is as it was."""
        before = self.all_but_outputs()
        environment = {**self.environment, "CLEARING": str(program)} if program else self.environment
        with open(self.folder / "stdout", "w+b") as out, open(self.folder / "stderr", "w+b") as err:
            given = [str(word) for word in words]
            into: Stdout = out if stdout is None else stdout
            if python is None and run_of(name)[0] == sys.executable:
                status = self.forked(name, given, environment, into, err)
            else:
                status = self.spawned([*run_of(name, python), *given], environment, into, err)
            out.seek(0)
            err.seek(0)
            done = subprocess.CompletedProcess([name, *given], status, out.read(), err.read())
        after = self.all_but_outputs()
        changed = [key for key in before.keys() | after.keys() if before.get(key) != after.get(key)]
        self.assertEqual(changed, [], (name, words))
        # Python itself says what it is to have no output.
        self.assertFalse(b"Traceback" in done.stderr and stdout != -1, (name, words, done.stderr.decode()))
        return done

    def spawned(self, run: List[str], environment: Dict[str, str], out: Stdout, err: IO[bytes]) -> int:
        """The status of a command."""
        return subprocess.run(
            run,
            cwd=self.folder / "work",
            env=environment,
            stdin=subprocess.DEVNULL,
            stdout=None if out == -1 else out,
            stderr=err,
            preexec_fn=(lambda: os.close(1)) if out == -1 else None,
        ).returncode

    def forked(
        self, name: str, words: List[str], environment: Dict[str, str], out: Stdout, err: IO[bytes]
    ) -> int:
        """The status of a tool that runs in a copy of this process, which is quicker than another Python."""
        sys.stdout.flush()
        child = os.fork()
        if child:
            return os.waitstatus_to_exitcode(os.waitpid(child, 0)[1])
        try:
            status = 99
            os.chdir(self.folder / "work")
            os.environ.clear()
            os.environ.update(environment)
            os.dup2(os.open(os.devnull, os.O_RDONLY), 0)
            streams: Any = sys
            if out is None or isinstance(out, int):
                os.close(1)
                streams.stdout = streams.__stdout__ = None
            else:
                os.dup2(out.fileno(), 1)
                streams.stdout = streams.__stdout__ = open(1, "w", encoding="utf-8", closefd=False)
            os.dup2(err.fileno(), 2)
            messages = open(2, "w", encoding="utf-8", errors="backslashreplace", closefd=False)
            streams.stderr = streams.__stderr__ = messages
            sys.argv, sys.path[0] = [str(file_of(name)), *words], str(file_of(name).parent)
            signal.signal(signal.SIGINT, signal.default_int_handler)
            status = ended_by(lambda: runpy.run_path(sys.argv[0], run_name="__main__"))
        finally:
            os._exit(status)

    def well(self, name: str, *words: Word, **how: Any) -> str:
        """What a tool prints that ends with 0."""
        done = self.attempt(name, *words, **how)
        self.assertEqual(done.returncode, 0, (name, words, done.stderr.decode()))
        return (done.stdout or b"").decode()

    def write_network(self, names: Sequence[str], seed: str = "1") -> Tuple[List[List[Any]], List[List[Any]]]:
        """A ring of banks of these names with chords, short of cash, of which some owe outside; and two scenarios."""
        rng = random.Random(f"network {seed}")
        banks: List[List[Any]] = [[name, at % 5, RULES[at % 6], at % 3] for at, name in enumerate(names)]
        debts: List[List[Any]] = [[name, names[(at + 1) % len(names)], 1, 2 + at % 7] for at, name in enumerate(names)]
        debts += [
            [name, names[(at + rng.randint(2, len(names) - 1)) % len(names)], 1, rng.randint(1, 9)]
            for at, name in enumerate(names)
        ]
        # Each pair once, since a matrix has one cell for it.
        debts = list({tuple(debt[:2]): debt for debt in debts}.values())
        order = {name: at for at, name in enumerate(names)}
        debts.sort(key=lambda debt: (order[debt[0]], order[debt[1]]))
        self.banks = self.given("banks.csv", lines_of([["name", "cash", "rule", "outside"], *banks]))
        self.debts = self.given("debts.csv", lines_of([["debtor", "creditor", "class", "claim"], *debts]))
        losses = "".join(
            f"[[scenario.loss]]\nbank = {toml(name)}\namount = {at % 4}\n" for at, name in enumerate(names)
        )
        self.scenarios = self.given(
            "scenarios.toml",
            f"[[scenario]]\nname = {toml(names[0])}\ncut = 100\n{losses}[[scenario]]\nname = {toml(names[-1])}\n",
        )
        self.files: List[Word] = ["--banks", self.banks, "--debts", self.debts]
        return banks, debts

    def text(self, task: str, *more: Word) -> str:
        """What the program prints of the network."""
        done = clearing(task, *self.files, *more)
        self.assertEqual((done.returncode, done.stderr), (0, b""), (task, more))
        return done.stdout.decode()

    def texts(self) -> Dict[str, pathlib.Path]:
        """What the program prints of the network, as files, by the task."""
        asked: Dict[str, List[Word]] = {
            task: [task]
            for task in (
                "clear", "defaults", "bounds", "check", "compress", "convert", "breaking", "impact", "rescues",
            )
        }
        asked["both"] = ["clear", "--show", "both", "--workers", "1"]
        asked["journal"] = ["clear", "--show", "journal", "--workers", "1"]
        asked.update({task: [task, "--scenarios", self.scenarios] for task in ("stress", "outcomes")})
        asked.update({task: [task, "--keep", "500"] for task in ("costs", "cost-bounds")})
        return {name: self.given(f"{name}.csv", self.text(str(task), *more)) for name, (task, *more) in asked.items()}


class ToolLine(NamedTuple):
    """A tool with words of a line that does well, in which `OUT` is the place of an output; whether it asks the
    program; and its Python, where it wants another, or none that is here."""

    name: str
    words: List[Word]
    asks: bool = False
    python: Optional[str] = ""


class EachTool(Place):
    """A case with a line of words for each tool."""

    def setUp(self) -> None:
        """Writes the inputs of all lines."""
        super().setUp()
        self.write_network(["A", "B", "C", "D", "E"])
        self.made_of = self.texts()
        self.lines = [*self.lines_for_files(), *self.lines_for_texts(), *self.lines_that_ask(), *self.other_lines()]

    def lines_for_files(self) -> List[ToolLine]:
        """The tools that read or make the files of a network."""
        net, texts, to = self.files, self.made_of, self.out
        table = self.given("table.csv", self.banks.read_bytes())
        listed = self.given("list.csv", "debtor,creditor,amount\nA,B,5\n")
        matrix = self.given("matrix.csv", ",A,B,cash\nA,,3,1\nB,2,,1\n")
        totals = self.given("totals.csv", "name,assets,liabilities,cash\nA,3,4,1\nB,4,3,1\n")
        printed: List[Word] = ["--journal", texts["journal"], "--payments", texts["clear"]]
        lines = [
            ToolLine("clearing-lint", net),
            ToolLine("clearing-audit", [*net, *printed, "--defaults", texts["defaults"]]),
            ToolLine("clearing-to-matrix", net),
            ToolLine("clearing-to-matrix", [*net, "--payments", texts["clear"], "--out", "OUT"]),
            ToolLine("clearing-from-totals", [totals, "--out", "OUT"], python=python_with("numpy")),
            ToolLine("clearing-why", ["check", *net]),
        ]
        # Those that write two files, either of which is the output.
        both: Dict[str, List[Word]] = {
            "clearing-from-matrix": [matrix],
            "clearing-from-list": [listed, "--table", table],
            "clearing-gen-files": ["--seed", 1, "--size", 4, "--tries", 9],
        }
        for name, words in both.items():
            lines.append(ToolLine(name, [*words, "--banks", "OUT", "--debts", to / "d.csv"]))
            lines.append(ToolLine(name, [*words, "--banks", to / "b.csv", "--debts", "OUT"]))
        return lines

    def lines_for_texts(self) -> List[ToolLine]:
        """The tools that read what the program printed."""
        texts, drawing = self.made_of, python_with("matplotlib")
        both: List[Word] = [texts["clear"], texts["defaults"]]
        shock: List[Word] = ["--banks", self.banks, "--scenarios", self.scenarios, "--scenario", 1]
        return [
            ToolLine("clearing-tidy", [texts["both"], "--folder", "OUT"]),
            ToolLine(
                "clearing-to-graphml", [*both, "--banks", self.banks, "--out", "OUT"], python=python_with("networkx")
            ),
            ToolLine("clearing-who-pays", [*both, "--bounds", texts["bounds"], "--banks", self.banks]),
            ToolLine("clearing-who-pays", [*both, "--output", "OUT"]),
            ToolLine("clearing-shock", shock),
            ToolLine("clearing-shock", [*shock, "--output", "OUT"]),
            ToolLine(
                "clearing-shortfalls", [texts["defaults"], "OUT.svg", "--payments", texts["clear"]], python=drawing
            ),
            ToolLine("clearing-stress-map", [texts["stress"], "OUT.svg", "--banks", self.banks], python=drawing),
        ]

    def lines_that_ask(self) -> List[ToolLine]:
        """The tools that ask the program."""
        net = self.files
        moments = self.given("moments.csv", "of,mean,deviation\nA,1,1\n")
        draws: List[Word] = [*net, "--moments", moments, "--draws", 3]
        shocks: List[Word] = [*net, "--scenarios", self.scenarios]
        return [
            ToolLine("clearing-breaking", net, True),
            ToolLine("clearing-breaking", [*net, "--output", "OUT"], True),
            ToolLine("clearing-impact", net, True),
            ToolLine("clearing-impact", [*net, "--matrix", "OUT"], True),
            ToolLine("clearing-impact", [*net, "--defaults", "OUT"], True),
            ToolLine("clearing-rescues", net, True),
            ToolLine("clearing-rescues", [*net, "--saved", "OUT"], True),
            ToolLine("clearing-draws", draws, True),
            ToolLine("clearing-draws", [*draws, "--each", "OUT"], True),
            ToolLine("clearing-report", [*shocks, "--journal", self.made_of["journal"], "--out", "OUT"], True),
            ToolLine("clearing-report", [*net, "--out", self.out / "page.html", "--keep", "OUT"], True),
            ToolLine("clearing-evidence", ["make", "OUT", *shocks, "--bank", "A"], True),
        ]

    def other_lines(self) -> List[ToolLine]:
        """Many jobs, and what developers use."""
        jobs = self.given("jobs.tsv", "\t".join(["a", "check", *map(str, self.files)]) + "\n")
        return [
            ToolLine("clearing-many", ["run", jobs, "OUT", 1], True),
            ToolLine("clearing-many", ["slurm", jobs, self.out / "many"]),
            ToolLine("clearing-many", ["--help"]),
            ToolLine("dev/man.py", [ROOT / "bin/clearing-lint", "--out", "OUT"]),
            ToolLine("install.sh", ["OUT"]),
            ToolLine("install.sh", ["--help"]),
            # It reads the crates, which a wheel has not.
            *([ToolLine("dev/architecture.py", [])] if (ROOT / "crates.txt").is_file() else []),
        ]

    def each(self) -> Iterator[Tuple[str, List[Word], bool, Dict[str, Any]]]:
        """The lines that can be tried here, each with the words by which `attempt` runs it."""
        for name, words, asks, python in self.lines:
            if python is not None:
                yield name, words, asks, {"python": python or None}

    def is_input(self, word: Word) -> bool:
        """Whether a word is the name of an input."""
        return isinstance(word, pathlib.Path) and self.inputs in word.parents

    def placed(self, words: Sequence[Word], place: pathlib.Path) -> List[Word]:
        """The words with a place for the output."""
        return [str(word).replace("OUT", str(place)) if str(word).startswith("OUT") else word for word in words]
