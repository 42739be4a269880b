"""Each refusal of words by the program: command lines that are none, files that cannot be read, and an output that
cannot be written, each with its status, its whole message, and no output."""
import pathlib
import re
import subprocess
from typing import Iterable, Iterator, List, Sequence, Union

from common import PROGRAM
from refusals import FORMATS, LARGEST, USAGE, RefusalCase, Words

# The options that each task requires, and one of each name, with a value that may stand there.
BANKS, DEBTS, KEEP = ["--banks", "b"], ["--debts", "d"], ["--keep", "1"]
REQUIRED = {
    "check": [BANKS, DEBTS],
    "clear": [BANKS, DEBTS],
    "central": [BANKS, DEBTS],
    "defaults": [BANKS, DEBTS],
    "convert": [BANKS, DEBTS],
    "stress": [BANKS, DEBTS, ["--scenarios", "s"]],
    "replay": [BANKS, DEBTS, ["--journal", "j"]],
    "bounds": [BANKS, DEBTS],
    "gen": [["--seed", "1"], ["--size", "1"], ["--tries", "1"]],
    "rescue": [BANKS, DEBTS, ["--bank", "A"]],
    "compress": [BANKS, DEBTS],
    "costs": [BANKS, DEBTS, KEEP],
    "cost-bounds": [BANKS, DEBTS, KEEP],
    "breaking": [BANKS, DEBTS],
    "impact": [BANKS, DEBTS],
    "rescues": [BANKS, DEBTS],
    "outcomes": [BANKS, DEBTS, ["--scenarios", "s"]],
}
TASKS_OF_WORKERS = ["clear", "defaults", "stress", "gen", "bounds", "rescue"]
ONE_OF_EACH = [
    ["--scenarios", "s"],
    ["--journal", "j"],
    ["--bank", "A"],
    ["--seed", "1"],
    ["--size", "1"],
    ["--tries", "1"],
    KEEP,
    ["--show", "both"],
    ["--workers", "1"],
    ["--sweeps", "1"],
    BANKS,
    DEBTS,
]
CLEAR = ["clear", *BANKS, *DEBTS]
# Words that name no task.
NO_TASK: List[Words] = [
    [],
    [""],
    ["x"],
    ["Clear"],
    ["clears"],
    ["x" * 300],
    ["é" * 100],
    ["--"],
    ["-"],
    ["--help"],
    ["-h"],
    ["--version"],
    ["help"],
    ["--banks"],
    ["--x"],
    ["--", "--banks"],
    ["--workers", "1"],
    ["-x", *BANKS, *DEBTS],
    ["-V"],
    ["cost_bounds", *BANKS, *DEBTS, "--keep=5"],
]
# Options without a value, with one dash or of another name, and values that are none.
OPTIONS_OUT_OF_FORM: List[Words] = [
    [*CLEAR, ""],
    ["clear", "--banks", *DEBTS],
    ["clear", "--banks", "--", "b", *DEBTS],
    ["clear", "-banks", "b", *DEBTS],
    ["clear", *BANKS, "--debts="],
    ["clear", *BANKS, "--debts", "-"],
    [*CLEAR, "--workers", " 1"],
    ["clear", "--banks=a", "--debts=d", "--banks=b"],
    [*CLEAR, "--threads=2"],
    ["rescue", *BANKS, *DEBTS, "--bank=a,b"],
    ["gen", "--seed=1", "--size=0", "--tries=0"],
    *([*CLEAR, f"--show={value}"] for value in ("", "x", "Both", "x" * 300)),
    *(["clear", "--banks", name, *DEBTS] for name in ("", "-b", "-")),
    *(["rescue", *BANKS, *DEBTS, "--bank", name] for name in ("", "-A")),
]
NO_TEXT: List[Words] = [
    [b"\xff"],
    ["clear", *BANKS, "--debts", b"\xff"],
    [*CLEAR, b"\xc3"],
    [b"x" * 100 + b"\xff", *["x"] * 20],
]


def required_words(task: str) -> List[str]:
    """The options that a task requires, in one list of words."""
    return [word for option in REQUIRED[task] for word in option]


def may_have(task: str, option: Sequence[str]) -> bool:
    """Whether a task has an option that it does not require."""
    if option[0] in ("--workers", "--sweeps"):
        return task in TASKS_OF_WORKERS
    return option[0] == "--show" and task == "clear"


def words_about(task: str) -> Iterator[Words]:
    """A task twice, behind its options or between other words; and options that it does not know."""
    words = required_words(task)
    yield from ([task], [task, task, *words], [*words], [task, *words, "--", "x"], ["--", task, *words])
    yield from ([task, *words, "--help"], ["x", *words])
    yield from ([task, *words, more] for more in ("--x", "--x=1", "-x", "x", "--workers"))


def options_out_of_place(task: str) -> Iterator[Words]:
    """A task without one of its options, with one of them twice, or with one of another task."""
    options, words = REQUIRED[task], required_words(task)
    for left in options:
        yield [task, *(word for option in options if option is not left for word in option)]
    yield from ([task, *words, *option] for option in options)
    yield from (
        [task, *words, *option] for option in ONE_OF_EACH if option not in options and not may_have(task, option)
    )


def values_beyond() -> Iterator[Words]:
    """Values below or above what an option takes, and values that are no numbers."""
    for task in REQUIRED:
        for plan in (["--workers", "65"], ["--sweeps", "0"], ["--workers=0", "--sweeps=1"]):
            yield [task, *required_words(task), *plan]
    for name, (low, high) in {"workers": (1, 64), "sweeps": (1, 1000)}.items():
        for value in (low - 1, high + 1, -1, "", "x", "1.0", "0" * 21, "9" * 20, "9" * 300):
            yield [*CLEAR, f"--{name}={value}"]
    for name, high in (("seed", 2**64 - 1), ("size", 1000), ("tries", 20_000)):
        values = {"seed": 1, "size": 1, "tries": 1}
        for value in (high + 1, -1, "", "x", "1.0", "0" * 21, "9" * 20, *([0] if name == "size" else [])):
            yield ["gen", *(f"--{key}={value if key == name else kept}" for key, kept in values.items())]
    for task in ("costs", "cost-bounds"):
        yield from ([task, *BANKS, *DEBTS, f"--keep={value}"] for value in (1001, -1, "", "x", "9" * 20))


# The tasks that read the banks and the debts alone, and want nothing else.
TASKS_OF_TWO_FILES = [
    "check",
    "clear",
    "central",
    "defaults",
    "convert",
    "bounds",
    "compress",
    "breaking",
    "impact",
    "rescues",
]


class CommandLine(RefusalCase):
    """Lists of words that are no command line."""

    def usage(self, lists: Iterable[Words]) -> None:
        """Each of these lists of words is a faulty command line."""
        for words in lists:
            with self.subTest(words=[word[:60] for word in words][:16]):
                self.ends(words, *USAGE)

    def test_the_required_options_are_those_of_the_document(self) -> None:
        tasks = re.findall(r"^\| `([a-z-]+)` \| [^|]*\| `--[^|]*\| [^|]*\|$", FORMATS, re.M)
        self.assertEqual(sorted(REQUIRED), sorted(tasks))

    def test_words_without_a_task_are_a_faulty_command_line(self) -> None:
        self.usage(NO_TASK)

    def test_a_task_stands_once_and_before_its_options(self) -> None:
        self.usage(words for task in REQUIRED for words in words_about(task))

    def test_a_task_has_each_of_its_options_once_and_no_other(self) -> None:
        self.usage(words for task in REQUIRED for words in options_out_of_place(task))

    def test_long_lists_of_words_are_a_faulty_command_line(self) -> None:
        for task in REQUIRED:
            words = [task, *required_words(task)]
            self.usage([*words, *["x"] * count] for count in (1, 2, 3, 8, 30, 500))
            self.usage([*words, *BANKS * count] for count in (2, 6, 100))

    def test_values_beyond_their_limits_are_a_faulty_command_line(self) -> None:
        self.usage(values_beyond())

    def test_options_out_of_form_are_a_faulty_command_line(self) -> None:
        self.usage(OPTIONS_OUT_OF_FORM)

    def test_words_that_are_no_text_are_a_faulty_command_line(self) -> None:
        self.usage(NO_TEXT)

    def test_unknown_bank_of_rescue(self):
        unknown = ["Z", "a", "A ", "x" * 9, "x" * 63, "y" * 64, "é" * 32, "😁" * 16, "😀" * 15, "n" * 63]
        for many in self.on_both():
            for name in [*unknown, "y" * 65, "z" * 300, "😀" * 17, "a,b", "n" * 65]:
                for more in ([], ["--workers", 64, "--sweeps", 1000]):
                    with self.subTest(name=name[:70], more=more, many=many):
                        words = [
                            "rescue",
                            "--banks",
                            self.names["banks"],
                            "--debts",
                            self.names["debts"],
                            "--bank",
                            name,
                            *more,
                        ]
                        # What is no name of a bank is no word of the option.
                        self.ends(
                            words, *(4, "clearing: words row 0: unknown bank (8)\n") if name in unknown else USAGE
                        )


class Paths(RefusalCase):
    """Files that cannot be read, and output that cannot be written."""

    def missing(self) -> List[Union[pathlib.Path, str]]:
        """Paths at which no file can be read: nothing, a folder, a link to itself, and names too long."""
        folder = self.file("folder")
        folder.mkdir()
        self.file("loop").symlink_to(self.file("loop"))
        return [
            self.file("missing"),
            folder / "missing",
            self.file("m" * 21),
            self.file("m" * 200),
            self.file("m" * 255),
            self.file("m" * 300),
            folder,
            self.names["banks"] / "x",
            self.file("loop"),
            "/" + "x/" * 3_000,
            "nowhere/" + "é" * 100,
            "/dev/null/x",
        ]

    def test_each_file_that_cannot_be_read_is_named(self) -> None:
        missing = self.missing()
        for file in ("banks", "debts", "scenarios", "journal"):
            for path in missing:
                with self.subTest(file=file, path=str(path)[:100]):
                    self.ends(self.words(file, path), 3, f"clearing: cannot read {path}\n")

    def test_each_task_of_two_files_names_the_one_that_cannot_be_read(self) -> None:
        missing = self.missing()
        for task in TASKS_OF_TWO_FILES:
            for path in (missing[0], self.file("folder")):
                with self.subTest(task=task, path=path):
                    self.ends(
                        [task, "--banks", self.names["banks"], "--debts", path], 3, f"clearing: cannot read {path}\n"
                    )

    def test_each_file_is_read_and_measured_before_the_next_and_the_contents_come_after(self) -> None:
        long, faulty = self.file("long", b"x" * (LARGEST + 1)), self.file("faulty", "x\n")
        gone, other, third = self.missing()[:3]
        banks, debts = self.names["banks"], self.names["debts"]
        for names, status, message in [
            ((gone, other, third), 3, f"cannot read {gone}"),
            ((faulty, gone, other), 3, f"cannot read {gone}"),
            ((faulty, faulty, gone), 3, f"cannot read {gone}"),
            ((long, gone, gone), 4, "banks row 0: file size (14)"),
            ((faulty, long, gone), 4, "debts row 0: file size (14)"),
            ((faulty, faulty, faulty), 4, "banks row 0: header (1)"),
            ((banks, faulty, faulty), 4, "debts row 0: header (1)"),
            ((banks, debts, faulty), 4, "journal row 0: header (1)"),
        ]:
            words = [word for pair in zip(("--banks", "--debts", "--journal"), names) for word in pair]
            self.ends(["replay", *words], status, f"clearing: {message}\n")

    def test_output_that_cannot_be_written(self):
        for words in (self.words("banks", self.names["banks"]), ["gen", "--seed", 1, "--size", 9, "--tries", 9]):
            with open("/dev/full", "wb") as full:
                done = subprocess.run(
                    [PROGRAM, *map(str, words)], stdin=subprocess.DEVNULL, stdout=full, stderr=subprocess.PIPE
                )
            self.assertEqual((done.returncode, done.stderr), (5, b"clearing: cannot write the output\n"))
