"""Each task on runs of a million rounds and of five million units in five classes, on a stack of 256 KB, that of its
threads too. What calls itself once for each round, sweep or unit ends there by a signal. Scenarios that are nested as
deep as they may be, and deeper. And each task on as much stack as PROVED says that it takes."""
import json
import re
import resource
import subprocess
import unittest
from typing import Dict, Iterator, List, Tuple
from unittest import mock

from common import PROGRAM, ROOT, TWELVE, Case, Word, clearing, files_of, needs
from compared import model

from clearing_tools.checks import why
from networks import judge_compression

STACK = 256 * 1024
# For what is nested deepest.
DEEP_STACK = 2048 * 1024
# By as much the loader of another machine may take more.
LOADER = 8 * 1024
UNITS = 1_000_000
SECONDS = 300


def to_and_fro(classes: int) -> model.Net:
    """Two banks that owe each other a million units in each of some classes, of which one has a unit. It goes to and
    fro until all is paid: a round, and two raises, for each unit. A third bank owes nine units outside, and has
    nothing."""
    banks = [model.Bank("A", 1, "order", 0), model.Bank("B", 0, "losses", 0), model.Bank("C", 0, "equal", 9)]
    return model.Net(
        banks, [model.Debt(debtor, 1 - debtor, cls, UNITS) for cls in range(1, classes + 1) for debtor in (0, 1)]
    )


class Stack(Case):
    def ended(self, *words: Word, stack: int = STACK, environment: Dict[str, str] = {}) -> Tuple[int, str, str]:
        """A run on a small stack. Its environment counts as stack too, so it has none."""
        limit = lambda: resource.setrlimit(resource.RLIMIT_STACK, (stack, stack))
        run = [PROGRAM, *map(str, words)]
        done = subprocess.run(
            run,
            stdin=subprocess.DEVNULL,
            capture_output=True,
            encoding="utf-8",
            env=environment,
            timeout=SECONDS,
            preexec_fn=limit,
        )
        return done.returncode, done.stdout, done.stderr

    def text(self, *words: Word) -> str:
        """What a run prints that ends well."""
        status, text, message = self.ended(*words)
        self.assertEqual((status, message), (0, ""), words)
        return text

    def same(self, wanted: str, *words: Word) -> None:
        with self.subTest(words=[str(word) for word in words]):
            told = self.text(*words)
            # A long text is not shown.
            self.assertTrue(told == wanted, (len(told), told[:200]))

    def given(self, net: model.Net) -> List[Word]:
        """The words that name the two files of a network."""
        banks, debts = model.banks_text(net, True), model.debts_text(net)
        return ["--banks", self.file("banks.csv", banks), "--debts", self.file("debts.csv", debts)]

    def every_task(self, classes: int) -> None:
        """Each task but gen and replay, on the two banks that pay to and fro until all is paid."""
        net = to_and_fro(classes)
        files, low = self.given(net), [UNITS] * len(net.debts)
        self.payments_and_forms(net, low, files)
        self.both_ends(net, low, files)
        self.scenarios(net, low, files)
        self.rescues_and_losses(net, low, files)

    def payments_and_forms(self, net: model.Net, low: List[int], files: List[Word]) -> None:
        """What is paid and who defaults, the network in its other forms, and compressed."""
        payments = model.payments_text(net, low)
        self.same(model.check_text(net), "check", *files)
        self.same(model.banks_text(net, True), "convert", *files)
        for plan in ([], ["--workers", 64, "--sweeps", 1000]):
            self.same(payments, "clear", *files, *plan)
        self.same(payments, "central", *files)
        self.same(model.defaults_text(net, low), "defaults", *files)
        with self.subTest(task="compress"):
            self.assertIsNone(judge_compression(net, self.text("compress", *files)))

    def both_ends(self, net: model.Net, low: List[int], files: List[Word]) -> None:
        """The least and the greatest payments, which are the same, without costs of default and with them."""
        lines = "".join(
            f"{','.join(map(str, model.debt_fields(net, debt)))},{UNITS},{UNITS},{UNITS}\n" for debt in net.debts
        )
        debts = f"debtor,creditor,class,claim,least,greatest\n{lines}\n"
        self.same(f"{debts}bank,wave,gridlock,equity\nA,0,no,1\nB,0,no,0\nC,1,no,0\n", "bounds", *files)
        with mock.patch.object(model, "least", lambda *_: low):
            self.same(model.costs_text(net, 1000), "costs", *files, "--keep", 1000)
        ends = ",".join(f"{what}_at_{end}" for end in ("least", "greatest") for what in ("lost", "equity", "state"))
        banks = "A,0,1,sound,0,1,sound\nB,0,0,sound,0,0,sound\nC,0,0,fundamental,0,0,fundamental\n"
        self.same(f"{debts}bank,{ends}\n{banks}", "cost-bounds", *files, "--keep", 1000)

    def scenarios(self, net: model.Net, low: List[int], files: List[Word]) -> None:
        """Two scenarios that take nothing away."""
        names = ["0", "1"]
        toml = self.file("s.toml", "".join(f"[[scenario]]\nname = {json.dumps(name)}\n" for name in names))
        block = model.payments_text(net, low) + model.defaults_text(net, low)
        blocks = "\n".join(f"scenario,{name}\n{block}" for name in names)
        self.same(blocks, "stress", *files, "--scenarios", toml)
        sums = "".join(f"{name},1,{sum(low)},0,1,1,1\n" for name in names)
        self.same(
            f"scenario,cash,paid,outside_paid,equity,defaults,fundamental\n{sums}\n"
            "bank,defaults,fundamental\nA,0,0\nB,0,0\nC,2,2\n",
            "outcomes",
            *files,
            "--scenarios",
            toml,
        )

    def rescues_and_losses(self, net: model.Net, low: List[int], files: List[Word]) -> None:
        """What saves C, the cut at which each bank falls, and what the loss of a bank's cash does to the others."""
        self.same(f"rescue,C,9\nshort,1\n\n{model.payments_text(net, low)}", "rescue", *files, "--bank", "C")
        self.same("bank,added,short,also_saved,still_short\nC,9,1,0,0\n\nbank,saves\n", "rescues", *files)
        self.same("bank,cut,state\nA,1000,contagion\nB,1000,contagion\nC,0,fundamental\n", "breaking", *files)
        self.same(
            "bank,cash,own,others,falls\nA,1,1,0,1\nB,0,0,0,0\nC,0,0,0,0\n\nbank,of,lost,falls\nA,A,1,yes\nA,B,0,yes\n",
            "impact",
            *files,
        )

    def test_a_million_rounds(self):
        self.every_task(1)

    def test_five_million_units_in_five_classes(self):
        self.every_task(5)

    def test_the_journal_of_a_million_rounds_is_written_and_replayed(self):
        net = to_and_fro(1)
        files, payments = self.given(net), model.payments_text(net, [UNITS] * len(net.debts))
        shown = self.text("clear", *files, "--show", "journal", "--workers", 1)
        self.assertTrue(shown.endswith(f"\nrounds,{UNITS + 1}\n"), shown[-100:])
        journal = self.file("journal.csv", shown)
        self.same(f"lawful,{2 * UNITS}\n\n{payments}", "replay", *files, "--journal", journal)

    def test_the_largest_network_by_most_workers(self):
        words = ["gen", "--seed", 1, "--size", 1000, "--tries", 20_000]
        self.assertEqual(self.text(*words, "--workers", 64), self.text(*words, "--workers", 1))

    def said(self) -> List[int]:
        """The bytes that PROVED says of the main thread, a thread, and the deepest scenarios."""
        text = (ROOT / "docs/PROVED.md").read_text(encoding="utf-8")
        found = re.search(
            (
                r"the main thread takes ([0-9,]+) KB at most .*?\bA thread takes ([0-9,]+) KB,.*? The deepest scenarios"
                r" take ([0-9,]+) KB"
            ),
            text,
            re.DOTALL,
        )
        return [int(number.replace(",", "")) * 1024 for number in found.groups()]

    def tasks(self) -> Iterator[Tuple[List[Word], bool]]:
        """A run of each task, with 8 workers where it has some, and whether it starts threads."""
        files = files_of(TWELVE)
        journal = self.file("journal.csv", clearing("clear", *files, "--show", "journal", "--workers", 1).stdout)
        scenarios = ["--scenarios", TWELVE / "scenarios.toml"]
        for words in [
            ["check"],
            ["convert"],
            ["central"],
            ["compress"],
            ["costs", "--keep", 500],
            ["cost-bounds", "--keep", 500],
            ["replay", "--journal", journal],
        ]:
            yield [words[0], *files, *words[1:]], False
        for words in [["breaking"], ["impact"], ["rescues"], ["outcomes", *scenarios]]:
            yield [words[0], *files, *words[1:]], True
        for words in [["clear"], ["defaults"], ["bounds"], ["rescue", "--bank", "Dunmore"], ["stress", *scenarios]]:
            yield [words[0], *files, *words[1:], "--workers", 8], True
        yield ["gen", "--seed", 1, "--size", 1000, "--tries", 20_000, "--workers", 64], True

    def test_each_task_is_run(self):
        self.assertEqual(sorted(words[0] for words, _ in self.tasks()), sorted(why.TASKS))

    def test_what_is_said_of_the_stack_is_enough(self):
        main, _, deepest = self.said()
        for words, _ in self.tasks():
            told = clearing(*words)
            # Where the stack begins is drawn at each run.
            for _ in range(5):
                self.assertEqual(self.ended(*words, stack=main + LOADER), (0, told.stdout.decode(), ""), words)
        key = ".".join(["a"] * 80)
        deep = self.file("s.toml", f"[{key}]\n{key} = {'{' + ' = {'.join([key] * 80) + ' = 1' + '}' * 80}")
        for _ in range(5):
            status, _, message = self.ended("stress", *files_of(TWELVE), "--scenarios", deep, stack=deepest + LOADER)
            self.assertEqual((status, message), (4, "clearing: scenarios row 0: shape (17)\n"))

    @needs("cc")
    def test_what_is_said_of_the_stack_of_a_thread_is_enough(self):
        least, size = self.folder / "small.so", f"-DKILOBYTES={self.said()[1] // 1024}"
        source = ROOT / "tests/system/small.c"
        subprocess.run(["cc", "-shared", "-fPIC", size, "-o", least, source, "-ldl"], check=True)
        for words, starts_threads in self.tasks():
            if starts_threads:
                told = clearing(*words)
                ended = self.ended(*words, environment={"LD_PRELOAD": str(least)})
                self.assertEqual(ended, (0, told.stdout.decode(), ""), words)

    def test_scenarios_that_are_nested_deep(self):
        files = [
            "--banks",
            self.file("banks.csv", "name,cash,rule\n"),
            "--debts",
            self.file("debts.csv", "debtor,creditor,class,claim\n"),
        ]
        # A key has at most 80 parts, each a table in the one before it, and 80 values stand in one another at most.
        key, array = ".".join(["a"] * 80), "[" * 80 + "]" * 80
        tables = "{" + " = {".join([key] * 80) + " = 1" + "}" * 80
        cases = [
            (f"{key} = {array}", STACK, "shape (17)"),
            (f"[{key}]\na = {array}", STACK, "shape (17)"),
            (f"[{key}]\n{key} = {tables}", DEEP_STACK, "shape (17)"),
        ]
        deeper = [f"a = [{array}]", "a = " + "[" * 4_000_000, "a = " + "{a = " * 1_600_000]
        deeper += [f"{key}.a = 1", "a." * 4_000_000 + "a = 1", "[" + "a." * 4_000_000 + "a]"]
        for text, stack, kind in [*cases, *((text, STACK, "toml (16)") for text in deeper)]:
            with self.subTest(text=text[:40], size=len(text)):
                told = self.ended("stress", *files, "--scenarios", self.file("s.toml", text), stack=stack)
                self.assertEqual(told, (4, "", f"clearing: scenarios row 0: {kind}\n"))


if __name__ == "__main__":
    unittest.main()
