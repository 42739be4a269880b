"""`clearing-why` judges a command line as the program does, and says what is wrong with it."""
import concurrent.futures
import os
import random
import re
import subprocess
import sys
from typing import List

from common import PROGRAM, ROOT, Case, needs_checkout, tool
from odd_names import ODD_NAMES, all_names

from clearing_tools.checks import why

LINES = 3000
VALUES = [
    "none.csv",
    "",
    "-",
    "-x",
    "--",
    "--banks",
    "0",
    "1",
    "7",
    "64",
    "65",
    "1000",
    "1001",
    "20000",
    "20001",
    "007",
    "1" * 20,
    "1" * 21,
    "18446744073709551615",
    "18446744073709551616",
    "+1",
    "-1",
    "1.0",
    " 1",
    "1 ",
    "٣",
    "both",
    "payments",
    "Journal",
    "journals",
    "x" * 64,
    "x" * 65,
    "é" * 33,
    "a,b",
    'a"b',
    "a\nb",
    "\x7f",
    "\u0085",
    "standard",
    "wide",
    "Wide",
    "A=B",
    "=",
    "=x",
    " ",
    "none with blanks",
    "$HOME",
    "check",
    "gen",
]
GOOD = {
    "bank": "A",
    "show": "both",
    "workers": "2",
    "sweeps": "3",
    "seed": "1",
    "size": "3",
    "tries": "4",
    "keep": "5",
    "limits": "wide",
}
STRAY = [
    "--",
    "-",
    "",
    "-b",
    "--help",
    "-h",
    "--version",
    "--bankz",
    "--Banks",
    "--ban",
    "---banks",
    "--banks=",
    "--=x",
    "-banks",
    "check",
    "x",
    "--workers",
    "--show=both",
    "help",
    "--no-banks",
    "--banks none.csv",
    "—banks",
    "-1",
    "\udcff",
    "a\udc80b",
    "--banks=\udcff",
    "--\udcff=1",
]


class MadeLines:
    """Makes a line of words that is understood, and then up to a few changes of it."""

    def __init__(self, seed: int) -> None:
        self.random = random.Random(seed)

    def words(self) -> List[str]:
        pick = self.random
        task = pick.choice(list(why.TASKS))
        _, required, allowed = why.TASKS[task]
        names = required + [name for name in allowed if pick.random() < 0.4]
        parts = [[task]]
        for name in names:
            value = GOOD.get(name, "none.csv") if pick.random() < 0.95 else pick.choice(VALUES)
            parts.append([f"--{name}={value}"] if pick.random() < 0.3 else [f"--{name}", value])
        pick.shuffle(parts)
        if pick.random() < 0.05:
            parts = [part for part in parts if part != [task]] + [["--"], [task]]
        for _ in range(pick.choice([0, 0, 0, 1, 1, 2, 3])):
            self.change(parts)
        return [word for part in parts for word in part]

    def change(self, parts: List[List[str]]) -> None:
        pick = self.random
        at = pick.randrange(len(parts) + 1)
        kind = pick.randrange(6)
        if kind == 0 and at < len(parts):
            del parts[at]
        elif kind == 1:
            parts.insert(at, [pick.choice(STRAY)])
        elif kind == 2:
            parts.insert(at, [f"--{pick.choice(list(why.OPTIONS))}", pick.choice(VALUES)])
        elif kind == 3 and at < len(parts):
            parts[at] = parts[at][:1]
        elif kind == 4 and at < len(parts) and len(parts[at]) == 2:
            parts[at][1] = pick.choice(VALUES)
        elif kind == 5 and at < len(parts):
            parts.append(list(parts[at]))


# A command line, and what is told of it.
FAULTS = [
    (
        "clearing stress --banks b --debts d --scenario s",
        [
            "word 7 '--scenario': there is no option --scenario; is it --scenarios?",
            "stress requires --scenarios",
            "2 faults",
        ],
    ),
    (
        "./clearing clera --banks b --debts d",
        ["word 2 'clera': there is no task 'clera'; is it clear?", "1 fault"],
    ),
    (
        "clear --banks b --debts d --show all",
        ["word 7 'all': 'all' is no value of --show: it is one of payments, journal, both", "1 fault"],
    ),
    (
        "clear --banks b --debts d --keep=5",
        ["word 6 '--keep=5': clear has no option --keep; it is of costs, cost-bounds", "1 fault"],
    ),
    (
        "gen --seed 1 --size 1,000 --tries -5",
        [
            (
                "word 5 '1,000': '1,000' is no value of --size: a number is 1 to 20 digits 0 to 9, and nothing"
                " else"
            ),
            "word 6 '--tries': --tries has no value; a value does not begin with a dash",
            "word 7 '-5': there are no options of one dash",
            "3 faults",
        ],
    ),
    (
        "rescue --banks b --debts d --bank Bank Two",
        [
            (
                "word 8 'Two': the task is 'rescue' already, and it is the only word that is no option; a value"
                " with a blank in it stands between quotes"
            ),
            "1 fault",
        ],
    ),
    (
        "check --banks a --banks b --debts d",
        ["word 4 '--banks': --banks stands in word 2 already; an option is given once", "1 fault"],
    ),
    (
        "--help --banks b",
        [
            "word 1 '--help': there is no option --help; docs/FORMATS.md and the manual page say what there is",
            "there is no task; the tasks are " + ", ".join(why.TASKS),
            "2 faults",
        ],
    ),
    ("clear --debts d --banks b", ["understood: the task clear"]),
    ("check --debts d --banks b --limits wide", ["understood: the task check"]),
    (
        "check --banks b --debts d --limits big",
        ["word 7 'big': 'big' is no value of --limits: it is one of standard, wide", "1 fault"],
    ),
    (
        "gen --seed 1 --size 3 --tries 4 --limits wide",
        [
            "word 8 '--limits': gen has no option --limits; it is of "
            + ", ".join(task for task in why.TASKS if task != "gen"),
            "1 fault",
        ],
    ),
]


class Why(Case):
    def is_understood(self, words: List[str]) -> bool:
        """Whether the program understands some words: it ends with 2 where it does not."""
        run = [PROGRAM, *(os.fsencode(word) for word in words)]
        done = subprocess.run(run, cwd=self.folder, stdin=subprocess.DEVNULL, capture_output=True)
        self.assertIn(done.returncode, (0, 2, 3), words)
        return done.returncode != 2

    def compare(self, lines: List[List[str]]) -> int:
        """Compares with the program on some lines, and says how many are understood."""
        with concurrent.futures.ThreadPoolExecutor(8) as pool:
            found = list(pool.map(self.is_understood, lines))
        for words, is_understood in zip(lines, found):
            self.assertEqual(why.faults_of(words) == [], is_understood, words)
        return sum(found)

    def test_made_up_lines_are_judged_as_the_program_does(self):
        count = self.compare([MadeLines(seed).words() for seed in range(LINES)])
        self.assertTrue(LINES // 5 < count < LINES * 4 // 5, count)

    def test_each_value_of_each_option_is_judged_as_the_program_does(self):
        lines = []
        for option in why.OPTIONS:
            task = next(task for task, uses in why.TASKS.items() if option in uses.options)
            others = [f"--{name}={GOOD.get(name, 'none.csv')}" for name in why.TASKS[task].required if name != option]
            for value in VALUES:
                lines += [
                    [task, *others, f"--{option}={value}"],
                    [f"--{option}", value, task, *others],
                    [task, *others, f"--{option}", value],
                ]
        self.compare(lines)

    def test_each_option_of_each_task_is_judged_as_the_program_does(self):
        lines = [[]]
        for task, (_, required, _) in why.TASKS.items():
            whole = [f"--{name}={GOOD.get(name, 'none.csv')}" for name in required]
            lines += [[task, *whole], [*whole], *([task, *whole[:at], *whole[at + 1 :]] for at in range(len(whole)))]
            lines += [
                [task, *whole, f"--{option}={GOOD.get(option, 'none.csv')}"]
                for option in why.OPTIONS
                if option not in required
            ]
        self.compare(lines)

    @needs_checkout
    def test_the_table_is_that_of_the_program(self):
        """The tasks and options in the program's own source."""
        source = (ROOT / "crates/clear_words/src/task.rt").read_text(encoding="utf-8")
        words = dict((name, word) for word, name in re.findall(r'"([a-z-]+)" => Some\(Task::([A-Za-z]+)\)', source))
        self.assertEqual(sorted(words.values()), sorted(why.TASKS))
        options = (ROOT / "crates/clear_words/src/option.rt").read_text(encoding="utf-8")
        names = re.findall(r'JobOption::([A-Z][a-z]+) => "([a-z]+)"', options)
        self.assertEqual([name for _, name in names], list(why.OPTIONS))
        uses = source[source.index("fn uses(") :]
        for name, word in words.items():
            body = re.search(rf"Task::{name}(?: \| Task::\w+)* => (.*?)(?=\n            Task::|\Z)", uses, re.DOTALL)[1]
            required = ["banks", "debts"] if "both_files" in body else []
            allowed = ["workers", "sweeps"] if "on_workers" in body else []
            required += re.findall(r"(\w+): Use::Required", body)
            allowed += re.findall(r"(\w+): Use::Allowed", body) + (["limits"] if "both_files" in body else [])
            self.assertEqual((required, allowed), why.TASKS[word][1:], word)

    def test_faults_have_their_word_and_a_hint(self) -> None:
        for line, lines in FAULTS:
            done = tool("clearing-why", *line.split(" "))
            self.assertEqual((done.stdout.splitlines(), done.stderr), (lines, ""))
            self.assertEqual(done.returncode, 0 if lines[-1].startswith("understood") else 1)

    def test_what_is_wrong_with_the_name_of_a_bank_is_told(self) -> None:
        """Its length is one in bytes: 32 letters of two bytes each are a name, and 33 are too long."""
        words = ["rescue", "--banks", "b.csv", "--debts", "d.csv", "--bank"]
        long, signs = "a name has 1 to 64 bytes", "a name has no comma, double quote or control character"
        for name, wrong in (("é" * 33, long), ("x" * 80, long), ("", long), ("A,B", signs), ("A\x7f", signs)):
            with self.subTest(name=name):
                ((at, told),) = why.faults_of([*words, name])
                self.assertEqual((at, told.endswith(f" is no value of --bank: {wrong}")), (7, True), told)
        self.assertEqual(why.faults_of([*words, "é" * 32]), [])

    def test_words_that_are_not_utf_8_are_told(self) -> None:
        self.assertEqual(why.faults_of(["clear", "\udcff"])[0], (2, "it is not UTF-8"))
        self.assertEqual(
            why.faults_of(["check", "--banks", "a\udc80", "--debts", "d"]), [(3, "the value of --banks is not UTF-8")]
        )

    def test_without_words_it_refuses_and_for_help_it_says_what_it_does(self) -> None:
        self.assertEqual(tool("clearing-why").returncode, 2)
        self.assertTrue(
            tool("clearing-why", "--help").stdout.startswith("usage: clearing-why WORDS..\n\nSays which word")
        )

    def test_an_output_that_cannot_be_written_is_said(self):
        for words in (["check", "--bankz", "b"], ["check", "--banks", "b", "--debts", "d"], ["--help"]):
            run = [sys.executable, str(ROOT / "bin/clearing-why"), *words]
            with open("/dev/full", "wb") as full:
                done = subprocess.run(run, stdout=full, stderr=subprocess.PIPE, encoding="utf-8")
            self.assertEqual(
                (done.returncode, done.stderr), (5, "clearing-why: cannot write the output: No space left on device\n")
            )
            reading, writing = os.pipe()
            os.close(reading)
            done = subprocess.run(run, stdout=writing, stderr=subprocess.PIPE, encoding="utf-8")
            os.close(writing)
            self.assertEqual(
                (done.returncode, done.stderr), (5, "clearing-why: cannot write the output: Broken pipe\n")
            )

    def test_names_of_every_character_are_taken(self):
        names = ODD_NAMES + list(all_names(last=0xFFFF, step=17))
        line = lambda name: ["rescue", "--banks", "none.csv", "--debts", "none.csv", "--bank", name]
        self.assertEqual(self.compare([line(name) for name in names]), len(names))
        self.compare([line(f"A{chr(code)}B") for code in [*range(1, 32), *range(127, 160)]])
