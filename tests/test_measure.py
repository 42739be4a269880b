"""bench/measure.py prints each table as ratios, and measures no run that ends otherwise than it has to. Times
themselves are not tested."""
import argparse
import contextlib
import functools
import hashlib
import io
import os
import pathlib
import re
import shutil
import subprocess
import sys
from typing import Any, List, Optional, Tuple
from unittest import mock

from common import PROGRAM, ROOT, Case, Word
from pythons import python_with

sys.path.append(str(ROOT / "bench"))
import inputs
import instructions
import measure
import scale
import timing
import wide_networks

# A peer that is the program itself, as a compiler makes it that only writes scripts.
RUSTC = """#!/bin/sh
while [ "$1" != -o ]; do shift; done
cat >"$2" <<'END'
#!/bin/sh
case $1 in
clear) exec "{program}" clear --banks "$2" --debts "$3" ;;
replay) exec "{program}" replay --banks "$2" --debts "$3" --journal "$4" ;;
stress) exec "{program}" stress --banks "$2" --debts "$3" --scenarios cuts.toml ;;
esac
END
chmod +x "$2"
"""
# A program that does something else in one task.
ODD = """#!/bin/sh
case "$*" in
*{words}*) {other} ;;
esac
exec "{program}" "$@"
"""
# What the table of one unit to and fro has beside `clear` with cash.
UNIT_TASKS = ["clear", "impact", "rescues", "breaking"]
# What each of the two tables of tasks has beside `clear`.
MANY_TASKS = ["check", "central", "replay", "defaults", "stress", "bounds", "rescue", "compress", "costs"]
FURTHER_TASKS = ["breaking", "impact", "rescues", "outcomes", "cost-bounds"]
# Words for bench/measure.py, and of the table that it prints: its title, its heads and the labels of its rows.
TABLES = [
    (
        ["rules", "star"],
        "by each rule",
        ["order, ms", "equal", "losses", "jefferson", "webster", "adams"],
        ["star, clear", "star, central"],
    ),
    (["workers", "chain"], "clear, by workers", ["central, ms", "1", "2", "4"], ["chain"]),
    (["rounds", "ordinary"], "clear by one worker", ["reading, ms", "one round", "all rounds"], ["ordinary"]),
    (
        ["rounds", "unit", "fall"],
        "a unit a round",
        ["alone, ms", "at rest"],
        ["100,000 rounds of clear", "9,000,000 rounds of bounds"],
    ),
    (
        ["units", "beside-leak"],
        "a unit to and fro",
        ["with cash, ms", *UNIT_TASKS, *(f"MB, {task}" for task in UNIT_TASKS)],
        ["beside-leak"],
    ),
    (
        ["reading", "--other", PROGRAM, "chain", "full-commas"],
        "bytes read or printed",
        ["wc, ms", "cat", "program", "other", "MB, program", "MB, other"],
        ["chain", "full-commas"],
    ),
    (
        ["reading", "journal"],
        "bytes read or printed",
        ["wc, ms", "cat", "program", "MB, program"],
        ["a journal, its payments printed", "a journal printed", "a journal replayed"],
    ),
    (
        ["others", "ordinary"],
        "the payments",
        ["clearing, ms", "fictitious", "iteration", "graph", "far, units"],
        ["ordinary"],
    ),
]


def cells(line: str) -> List[str]:
    """The cells of a line of a table, which at least two blanks part."""
    return re.split(r"\s{2,}", line.strip())


class Measure(Case):
    def run_of(self, *words: str, program: Optional[str] = None, **more: Any) -> Tuple[int, List[str], str]:
        environment = {
            **os.environ,
            "CLEARING": program or os.path.realpath(PROGRAM),
            "TMPDIR": str(self.folder),
            **more,
        }
        done = subprocess.run(
            [str(ROOT / "bench/measure.py"), "--runs", "1", *words],
            env=environment,
            stdin=subprocess.DEVNULL,
            capture_output=True,
            encoding="utf-8",
        )
        return done.returncode, done.stdout.splitlines(), done.stderr

    def odd(self, words: str, other: str) -> str:
        path = self.file("odd", ODD.format(program=os.path.realpath(PROGRAM), words=words, other=other))
        path.chmod(0o755)
        return str(path)

    def table(self, lines: List[str], title: str, heads: List[str], labels: List[str]) -> None:
        """Some lines are a table: its heads, and rows with milliseconds and then ratios."""
        self.assertEqual(cells(lines[0]), [title, *heads])
        self.assertEqual([cells(line)[0] for line in lines[1:]], labels)
        for line in lines[1:]:
            self.assertEqual(len(cells(line)), len(heads) + 1, line)
            self.assertRegex(cells(line)[1], r"^[0-9]+\.[0-9]$")
            for cell, head in zip(cells(line)[2:], heads[1:]):
                if not head.startswith(("MB", "same", "far")) and cell != "-":
                    self.assertRegex(cell, r"^[0-9]+\.[0-9][0-9]$")

    def test_both_tables_of_tasks_have_milliseconds_of_one_task_and_ratios_to_it(self):
        for words, first, second in (
            (["tasks"], ["clear, ms", *MANY_TASKS], ["clear, ms", *FURTHER_TASKS]),
            (
                ["tasks", "--beside", "check"],
                ["check, ms", "clear", *MANY_TASKS[1:]],
                ["check, ms", "clear", *FURTHER_TASKS],
            ),
            (
                ["tasks", "--beside", "impact"],
                ["impact, ms", "clear", *MANY_TASKS],
                ["impact, ms", "clear", "breaking", *FURTHER_TASKS[2:]],
            ),
        ):
            with self.subTest(words=words):
                status, lines, told = self.run_of(*words, "chain", "linked-1")
                self.assertEqual(status, 0, told)
                self.table(lines[:3], "every task", first, ["chain", "linked-1"])
                self.table(lines[3:], "and these", second, ["chain", "linked-1"])
                self.assertLessEqual(max(map(len, lines)), 136 if "impact" in words else 132)

    def test_each_other_table_has_milliseconds_of_one_and_ratios_to_it(self):
        for words, title, heads, labels in TABLES:
            with self.subTest(words=words):
                status, lines, told = self.run_of(*words)
                self.assertEqual(status, 0, told)
                self.table(lines, title, heads, labels)

    def test_what_the_peer_prints_is_compared(self):
        self.file("rustc", RUSTC.format(program=os.path.realpath(PROGRAM))).chmod(0o755)
        path = f"{self.folder}:{os.environ['PATH']}"
        status, lines, told = self.run_of("peer", "chain", PATH=path)
        self.assertEqual((status, cells(lines[1])[-1]), (0, "yes"), told)
        heads = ["peer, ms", "clear", "1 worker", "1 w., 1000 sweeps", "central", "MB, 1 worker", "MB, peer", "same"]
        self.table(lines, "the payments", heads, ["chain"])
        status, lines, _ = self.run_of("peer", "chain", PATH=path, program=self.odd("central", "echo other; exit"))
        self.assertEqual((status, cells(lines[1])[-1]), (0, "NO"))
        status, lines, told = self.run_of("peer", "full", "stress", PATH=path)
        heads = ["peer, ms", "program", "MB, program", "MB, peer", "same"]
        self.table(
            lines[:5],
            "debts files of 8,388,608 bytes, check",
            heads,
            ["full-empty-lines", "full-blank-records", "full-commas", "full-comma-records"],
        )
        self.table(
            lines[5:],
            "a journal, a hundred scenarios",
            heads,
            ["replay, long-journal", "stress, largest-order, 1 workers", "stress, largest-order, 4 workers"],
        )
        self.assertEqual([cells(line)[-1] for line in lines[6:]], ["yes"] * 3)

    def test_a_run_that_ends_otherwise_is_not_measured(self):
        status, _, told = self.run_of("tasks", "chain", program=self.odd("bounds", "exit 6"))
        self.assertEqual(status, 1)
        self.assertRegex(told, "^measure.py: .* bounds .*: status 6 in place of 0\n$")
        status, _, told = self.run_of("rounds", "ordinary", program=self.odd("refused", "exit 0"))
        self.assertIn("status 0 in place of 4", told)
        status, _, told = self.run_of("reading", "journal", program=self.odd("replay", "echo lawful,1; echo; exit 0"))
        self.assertEqual((status, told), (1, "measure.py: the journal does not replay to the payments\n"))
        self.assertEqual(self.run_of("tasks", "chain", program=str(self.folder / "none"))[0], 1)

    def test_a_run_above_the_limit_has_no_ratio(self):
        program = self.odd("central", "exec sleep 9")
        status, lines, told = self.run_of("--limit", "1", "workers", "chain", program=program)
        self.assertEqual((status, cells(lines[1])), (0, ["chain", "over", "-", "-", "-"]), told)
        status, lines, _ = self.run_of("--limit", "1", "tasks", "chain", program=program)
        self.assertEqual(cells(lines[1])[3], "-")
        self.assertRegex(cells(lines[1])[2], r"^[0-9.]+$")

    def speed(self, *words: Word, program: Optional[str] = None) -> "subprocess.CompletedProcess[str]":
        environment = {**os.environ, "CLEARING": program or os.path.realpath(PROGRAM)}
        run = [str(ROOT / "bench/speed.py"), "--runs", "1", *map(str, words)]
        return subprocess.run(run, env=environment, stdin=subprocess.DEVNULL, capture_output=True, encoding="utf-8")

    def test_the_table_of_the_page_has_each_task_that_reads_files(self):
        sources = (ROOT / "crates/clear_words/src/task.rt").read_text(encoding="utf-8")
        tasks = set(re.findall(r'"([a-z-]+)" => Some\(Task::', sources)) - {"gen", "convert"}
        done = self.speed("chain", "largest-order")
        self.assertEqual((done.returncode, done.stderr), (0, ""))
        said, _, head, rule, first, *rows, last = done.stdout.splitlines()
        checksum = hashlib.sha256(pathlib.Path(PROGRAM).read_bytes()).hexdigest()[:8]
        told = rf"^\d{{4}}-\d\d-\d\d, `\w+\+?`, the program `{checksum}`, one run on \d+ processors, which .*:$"
        self.assertRegex(said, told)
        self.assertEqual((head, rule), ("| task | `chain` | largest, `order` |", "|---|---|---|"))
        self.assertRegex(first, r"^\| `clear`, ms \| \d+\.\d \| \d+\.\d \|$")
        self.assertEqual({row.split("`")[1] for row in rows}, tasks - {"clear"})
        for row in rows:
            self.assertRegex(row, r"^\| `[a-z-]+` \| [\d.,]+ \| [\d.,]+ \|$")
        self.assertRegex(last, r"^\| most memory, MB \| (\d+ \(`[a-z-]+`\)|-) \| (\d+ \(`[a-z-]+`\)|-) \|$")

    def test_it_is_put_in_its_place_alone(self):
        page = self.file("page.md", "before\n<!-- bench/speed.py -->\nold\n<!-- end -->\nafter\n")
        done = self.speed("--write", "--page", page, "chain")
        self.assertEqual((done.returncode, done.stdout, done.stderr), (0, "", ""))
        before, made, after = re.split(r"(?<=-->\n)|(?=<!-- end)", page.read_text(encoding="utf-8"))[:3]
        self.assertEqual((before, after), ("before\n<!-- bench/speed.py -->\n", "<!-- end -->\n"))
        self.assertIn("| task | `chain` |\n", made)
        self.assertNotIn("old", made)
        self.assertTrue(page.read_text(encoding="utf-8").endswith("<!-- end -->\nafter\n"))

    def test_a_page_without_a_place_is_left_as_it_is(self):
        page = self.file("page.md", "before\nafter\n")
        done = self.speed("--write", "--page", page, "chain")
        self.assertEqual((done.returncode, done.stdout), (1, ""))
        self.assertIn("has no place for the table", done.stderr)
        self.assertEqual(page.read_text(encoding="utf-8"), "before\nafter\n")
        self.assertEqual((ROOT / "docs/SPEED.md").read_text(encoding="utf-8").count("<!-- bench/speed.py -->\n"), 1)

    def test_a_task_above_the_limit_says_so(self):
        done = self.speed("--limit", "1", "chain", program=self.odd("central", "exec sleep 9"))
        self.assertEqual(done.returncode, 0, done.stderr)
        self.assertIn("\n| `central` | over 1 s |\n", done.stdout)

    def test_what_takes_how_long_to_print_is_ended_then(self):
        """A run that printed is not waited for, and one that prints nothing is none."""
        self.assertLess(timing.until_it_prints(["/bin/sh", "-c", "echo x; exec sleep 600"], 300), 300)
        self.assertIsNone(timing.until_it_prints(["/bin/sleep", "600"], 0.5))
        self.assertRaisesRegex(timing.Fault, "nothing is printed", timing.until_it_prints, ["/bin/true"], 300)

    def wide_tables(self, *tables: str) -> List[List[str]]:
        """The lines of the tables of the wide limits, with small networks of the same names, since those have a million
        debts."""
        small = {
            name: functools.partial(wide_networks.spread, 12, 4, lambda bank: bank, name.rpartition("-")[2])
            for name in inputs.WIDE
        }
        options = argparse.Namespace(inputs=tables, runs=1, limit=60, beside=None)
        self.addCleanup(os.chdir, os.getcwd())
        os.chdir(self.folder)
        told = io.StringIO()
        with mock.patch.dict(inputs.WIDE, small), contextlib.redirect_stdout(told):
            measure.wide(measure.Program(os.path.realpath(PROGRAM)), options)
        return [part.splitlines() for part in re.split(r"(?<=\n)(?=stress|4,500|clear less)", told.getvalue())]

    def test_tables_of_the_wide_limits_have_each_network_and_task(self):
        tasks, stress, many = self.wide_tables("tasks", "stress", "many")
        columns = ["defaults", "bounds", "rescue", "costs", "cost-bounds", "compress"]
        held = [f"MB, {task}" for task in ["clear", *columns]]
        self.table(
            tasks,
            "beside clear, 1 worker",
            ["clear, ms", *columns, *held],
            ["wide-dense-order", "wide-dense-webster", "wide-scarce-order"],
        )
        self.table(
            stress,
            "stress, 100 scenarios",
            ["clear, ms", "stress", "MB, clear", "MB, stress"],
            ["wide-dense-order", "wide-tiered-order"],
        )
        columns = ["impact", "rescues", "breaking", "outcomes"]
        held = [f"MB, {task}" for task in ["clear", *columns]]
        self.table(
            many,
            "4,500 banks, 150,000 debts",
            ["clear, ms", *columns, *held],
            ["wide-tiered-order", "wide-tiered-mixed"],
        )

    def test_what_reading_takes_is_taken_off_before_workers_are_compared(self):
        took = {"1": 3.0, "4": 2.0, "64": 5.5}

        def seconds(words: List[str], *_: object) -> float:
            """What a run that reads takes, and one that clears and shows the journal."""
            if words[1] == "convert":
                return 1.0
            self.assertEqual(words[words.index("--show") + 1], "journal")
            return took[words[words.index("--workers") + 1]]

        with mock.patch.object(timing, "until_it_prints", seconds):
            (workers,) = self.wide_tables("workers")
        heads = ["clear less reading and printing", "1 worker, ms", "4 workers", "64 workers", "reading, ms"]
        self.assertEqual(cells(workers[0]), heads)
        # The others are told in times of one worker.
        names = ["wide-dense-order", "wide-dense-webster", "wide-scarce-order", "wide-complete-order"]
        rows = [[name, "2000.0", "0.50", "2.25", "1000.0"] for name in names]
        self.assertEqual([cells(line) for line in workers[1:]], rows)

    def scale(self, *words: Word, python: str = sys.executable) -> "subprocess.CompletedProcess[str]":
        environment = {**os.environ, "CLEARING": os.path.realpath(PROGRAM)}
        run = [python, "-B", ROOT / "bench/scale.py", "--runs", "1", *words]
        return subprocess.run(run, env=environment, stdin=subprocess.DEVNULL, capture_output=True, encoding="utf-8")

    def test_growth_has_a_row_for_each_network_and_one_that_is_computed(self):
        done = self.scale("--most", "100")
        self.assertEqual((done.returncode, done.stderr), (0, ""))
        said, _, head, rule, *rows = done.stdout.splitlines()
        told = r"^\d{4}-\d\d-\d\d, `\w+\+?`, the program `\w{8}`, one run on \d+ processors, which .*:$"
        self.assertRegex(said, told)
        self.assertEqual((head.count(" | "), rule), (9, "|---" * 10 + "|"))
        sizes = [row.split(" | ")[:2] for row in rows]
        self.assertEqual(sizes, [["| 10", "5"], ["| 100", "20"], ["| 1,000, computed", "-"]])
        for row in rows:
            for cell in row.strip("| ").split(" | ")[2:]:
                self.assertRegex(cell, r"^[0-9,.]+ / [0-9,.]+$")
        # A hundred times the debts take ten times the time and four times the memory, and ten times the roots of both.
        last, before = ((100, 10), {"a": (20.0, 12.0), "b": (1.0, 1.0)}), ((5, 2), {"a": (2.0, 3.0)})
        beyond = scale.further(last, before)
        self.assertEqual([*beyond], ["a"])
        for found, right in zip(beyond["a"], (20 * 10**0.5, 24.0)):
            self.assertAlmostEqual(found, right)

    def test_the_picture_of_growth_is_that_of_the_page(self):
        python = python_with("matplotlib")
        if python is None:
            self.skipTest("without matplotlib (Debian's package python3-matplotlib)")
        (self.folder / "pictures").mkdir()
        picture = self.folder / "pictures/scale.svg"
        page = self.file("page.md", "before\n<!-- bench/scale.py -->\nold\n<!-- end -->\nafter\n")
        done = self.scale("--most", "100", "--write", "--page", page, python=python)
        self.assertEqual((done.returncode, done.stdout, done.stderr), (0, "", ""))
        drawn = picture.read_bytes()
        self.assertEqual(self.scale("--draw", "--page", page, python=python).returncode, 0)
        self.assertEqual(picture.read_bytes(), drawn)
        text = page.read_text(encoding="utf-8")
        page.write_text(text.replace("| 5 | ", "| 5 | 7", 1), encoding="utf-8")
        self.assertEqual(self.scale("--draw", "--page", page, python=python).returncode, 0)
        self.assertNotEqual(picture.read_bytes(), drawn)
        self.assertEqual((text[:7], text[-6:], "old" in text), ("before\n", "after\n", False))
        # That of the repository is of its page, if the same version of matplotlib draws both.
        shutil.copy(ROOT / "docs/SPEED.md", page)
        self.assertEqual(self.scale("--draw", "--page", page, python=python).returncode, 0)
        drawn, kept = (path.read_text(encoding="utf-8") for path in (picture, ROOT / "docs/pictures/scale.svg"))
        if re.search("Matplotlib v[0-9.]+", drawn)[0] in kept:
            self.assertEqual(drawn, kept)

    def test_instructions_are_those_that_functions_take_themselves(self):
        """Of a file of callgrind's: a function has its name where it is called first, what it calls is counted there,
        and what copies memory is left out."""
        text = (
            "summary: 99\nob=(1) x\nfl=(1) a.c\nfn=(1) main\n1 10\n+1 5\ncfn=(2) memcpy\ncalls=1 1\n+2 40\n* 3\n"
            "cfi=(2) b.c\ncfn=(3) work\ncalls=1 7\n5 33\nfn=(2)\n1 40\nfn=(3)\n7 33\ntotals: 91\n"
        )
        self.assertEqual(instructions.own_cost(text), 10 + 5 + 3 + 33)

    def test_two_programs_are_counted_side_by_side(self):
        """By a tool that counts a hundred for the first program, and for the second a hundred and fifty in one task."""
        self.file(
            "valgrind",
            """#!/bin/sh
out=${2#*=}
count=100
case "$*" in */after\\ bounds*) count=150 ;; esac
printf 'fn=(1) main\\n1 %s\\n' $count >"$out"
""",
        ).chmod(0o755)
        for name in ("before", "after"):
            self.file(name, f'#!/bin/sh\nexec "{os.path.realpath(PROGRAM)}" "$@"\n').chmod(0o755)
        environment = {**os.environ, "PATH": f"{self.folder}:{os.environ['PATH']}"}
        programs = [self.folder / name for name in ("before", "after")]
        run = [sys.executable, "-B", ROOT / "bench/instructions.py", *programs, "chain"]
        done = subprocess.run(run, env=environment, stdin=subprocess.DEVNULL, capture_output=True, encoding="utf-8")
        self.assertEqual((done.returncode, done.stderr), (0, ""))
        head, *rows, last = [cells(line) for line in done.stdout.splitlines()]
        self.assertEqual(head, ["AFTER for one of BEFORE", "chain"])
        self.assertEqual(last, ["the least 1.0000, the greatest 1.5000"])
        sources = (ROOT / "crates/clear_words/src/task.rt").read_text(encoding="utf-8")
        tasks = set(re.findall(r'"([a-z-]+)" => Some\(Task::', sources))
        self.assertEqual(dict(rows), {task: "1.5000" if task == "bounds" else "1.0000" for task in tasks})
        self.assertEqual(len(tasks), 17)

    def test_faulty_words_measure_nothing(self):
        for words in (
            [],
            ["speed"],
            ["tasks", "no-such"],
            ["tasks", "unit"],
            ["rules", "chain"],
            ["--runs", "0", "tasks"],
            ["--runs", "x", "tasks"],
        ):
            status, lines, _ = self.run_of(*words)
            self.assertEqual((status, lines), (2, []), words)
        status, lines, told = self.run_of("--beside", "none", "workers", "chain")
        self.assertEqual((status, lines, told), (1, [], "measure.py: no column none; there are central, 1, 2, 4\n"))

    def test_a_network_is_the_same_whichever_are_made_beside_it(self):
        for folder, names in (("a", ["core-mixed"]), ("b", ["ordinary", "core-mixed", "chain"])):
            subprocess.run([str(ROOT / "bench/inputs.py"), str(self.folder / folder), *names], check=True)
        for kind in ("banks", "debts"):
            texts = {(self.folder / folder / f"core-mixed-{kind}.csv").read_bytes() for folder in "ab"}
            self.assertEqual(len(texts), 1)
        done = subprocess.run([str(ROOT / "bench/inputs.py"), str(self.folder / "c"), "none"], capture_output=True)
        self.assertEqual((done.returncode, (self.folder / "c").exists()), (1, False))
