"""The package for Python on a program that lies, goes on, or prints without an end; and what it leaves where it is
ended itself."""
import os
import pathlib
import random
import signal
import subprocess
import sys
import time
import unittest
import unittest.mock
from typing import Any, Callable, Dict, Iterator, List, Tuple, Union

from common import HUB, PROGRAM, ROOT, TWELVE, Case, Word, clearing, files_of

import clearing_client as cc
from clearing_client import Network, Raise, Scenario, Scenarios, request, texts

SCENARIOS = [Scenario("as it is"), Scenario("half", 500), Scenario("one loses", losses={"Hub": 7})]


def each_task(net: Network, bank: str) -> Iterator[Tuple[str, Callable[..., Any]]]:
    """Each call of a network."""
    yield "check", net.check
    yield "clear", net.clear
    yield "journal", lambda **more: net.clear(journal=True, **more)
    yield "central", net.central
    yield "defaults", net.defaults
    yield "stress", lambda **more: net.stress(SCENARIOS, **more)
    yield "outcomes", lambda **more: net.outcomes(SCENARIOS, **more)
    yield "bounds", net.bounds
    yield "rescue", lambda **more: net.rescue(bank, **more)
    yield "costs", lambda **more: net.costs(500, **more)
    yield "cost_bounds", lambda **more: net.cost_bounds(500, **more)
    yield "breaking", net.breaking
    yield "impact", net.impact
    yield "rescues", net.rescues
    yield "compress", net.compress
    yield "replay", lambda **more: net.replay([Raise(1, "East", "Hub", 1, 10)], **more)
    yield "map_stress", lambda **more: list(cc.map_stress([net], SCENARIOS, jobs=1, **more))
    yield "map_outcomes", lambda **more: list(cc.map_outcomes([net], SCENARIOS, jobs=1, **more))
    yield "generate", lambda **more: cc.generate(1, 5, 9, **more)


# The words of the program behind each call that is asked about another network.
TASKS = {
    "check": ["check"],
    "clear": ["clear"],
    "journal": ["clear", "--show", "both"],
    "central": ["central"],
    "defaults": ["defaults"],
    "stress": ["stress", "--scenarios", "{scenarios}"],
    "outcomes": ["outcomes", "--scenarios", "{scenarios}"],
    "bounds": ["bounds"],
    "costs": ["costs", "--keep", "500"],
    "cost_bounds": ["cost-bounds", "--keep", "500"],
    "breaking": ["breaking"],
    "impact": ["impact"],
    "rescues": ["rescues"],
    "compress": ["compress"],
    "rescue": ["rescue", "--bank", "South"],
    "map_stress": ["stress", "--scenarios", "{scenarios}"],
    "map_outcomes": ["outcomes", "--scenarios", "{scenarios}"],
}
# The calls that say nothing of claims.
WITHOUT_CLAIMS = ["defaults", "breaking", "impact", "outcomes", "map_outcomes", "rescues", "compress"]


def other_hubs() -> Dict[str, Tuple[str, str]]:
    """The two files of the hub, each with a change."""
    banks, debts = (HUB / "banks.csv").read_text(), (HUB / "debts.csv").read_text()
    return {
        "a bank": (banks.replace("South", "Sud"), debts.replace("South", "Sud")),
        "a claim": (banks, debts.replace(",90\n", ",91\n")),
        "a debt less": (banks, debts[: debts.rstrip("\n").rindex("\n") + 1]),
        "cash": (banks.replace(",1", ",2"), debts),
        "a bank more": (banks + "More,1,order\n", debts),
    }


def is_alike(about: str, name: str) -> bool:
    """Whether what a call answers may not show such a change of the hub."""
    if name == "rescue" and about == "a bank":
        return True
    if name in ("central", "map_outcomes") and about != "a bank more":
        return True
    if about == "cash":
        return name not in ("check", "impact")
    return about in ("a claim", "a debt less") and name in WITHOUT_CLAIMS


# What a program may print, and say on standard error.
PRINTED = [
    ("falls,9,1,1\n", ""),
    ("falls,0,1,1\n", ""),
    (f"falls,{'9' * 5000},1,1\n", ""),
    ("unlawful,1,x,1\n", ""),
    ("unfinished,Nobody\n", ""),
    ("lawful,3\n\n", ""),
    ("", f"clearing: banks row {'9' * 5000}: rule (5)\n"),
    ("", "clearing: journal row 1: rule (5)\n"),
    ("", "clearing: scenarios row 9: shape (17)\n"),
    ("", "clearing: words row 1: rule (999)\n"),
    ("", "clearing: cannot read \n"),
    ("bank,added,short,also_saved,still_short\nHub,1,1," + "9" * 39 + ",0\n\nbank,saves\n", ""),
    ("\0\n", ""),
    ("\n", ""),
    ("scenario,x\n", ""),
    ("debtor,creditor,class,claim,paid\nA,B,1,2,3,4\n", ""),
    ("banks,1\ndebts,1\nowed,1\ncash,1\n", ""),
    ("rescue,x\n", ""),
]


def is_read(name: str, status: int, text: str) -> bool:
    """Whether a call is asked about such an answer: a message is read alike by each task, a text as a result of one
    kind."""
    is_fault, is_verdict = status in (4, 99), text.startswith(("falls", "unlawful", "unfinished", "lawful"))
    if is_fault and name not in ("check", "replay", "stress", "rescue", "generate") or bool(text) == is_fault:
        return False
    if status == 7 and not is_verdict or is_verdict and name not in ("replay", "clear", "map_stress"):
        return False
    return name not in ("central", "journal", "map_outcomes")


class Lying(Case):
    def net(self, example: pathlib.Path = HUB) -> Network:
        return Network(example / "banks.csv", example / "debts.csv")

    def printing(self, text: Union[str, bytes], status: int = 0, message: str = "") -> None:
        """Has a program that prints this, whatever it is asked."""
        printed, said = self.file("printed", text), self.file("said", message)
        self.program(f'cat "{printed}"; cat "{said}" >&2; exit {status}\n')

    def test_an_answer_on_another_network_is_none(self) -> None:
        """Each task on the hub, answered as the program answers on the hub with another bank, a debt less, other
        claims or other cash."""
        net, seen = self.net(), 0
        right = {name: self.answer(name, files_of(HUB)) for name in TASKS}
        for about, (banks, debts) in other_hubs().items():
            words = ["--banks", self.file("b.csv", banks), "--debts", self.file("d.csv", debts)]
            for name, call in each_task(net, "South"):
                if name not in TASKS or is_alike(about, name):
                    continue
                printed = self.answer(name, words)
                # Where the two say the same of names, claims and counts, nobody can tell them apart by these.
                if printed == right[name]:
                    continue
                self.printing(printed)
                with self.assertRaises(cc.TextError, msg=(about, name)):
                    call()
                seen += 1
        self.assertGreater(seen, 38)

    def answer(self, name: str, files: List[Word]) -> bytes:
        """What the program prints on some files where a call asks it."""
        scenarios = self.file("s.toml", Scenarios(SCENARIOS).to_toml())
        task, *more = (word.format(scenarios=scenarios) for word in TASKS[name])
        return clearing(task, *files, *more).stdout

    def test_an_answer_on_other_scenarios_is_none(self) -> None:
        net = self.net()
        others = Scenarios([Scenario("as it is"), Scenario("third", 333), Scenario("one loses")])
        other = self.file("s.toml", others.to_toml())
        for task, call in (
            ("stress", net.stress),
            ("outcomes", net.outcomes),
            ("stress", lambda s: list(cc.map_stress([net], s, jobs=1))),
        ):
            for printed in (clearing(task, *files_of(HUB), "--scenarios", other).stdout, ""):
                self.printing(printed)
                with self.assertRaises(cc.TextError):
                    call(SCENARIOS)

    def test_an_answer_on_another_bank_is_none(self) -> None:
        self.printing(clearing("rescue", *files_of(HUB), "--bank", "East").stdout)
        with self.assertRaises(cc.TextError):
            self.net().rescue("South")

    def test_a_network_of_another_size_is_none(self) -> None:
        self.printing(clearing("gen", "--seed", 1, "--size", 6, "--tries", 9, "--workers", 1).stdout)
        with self.assertRaises(cc.TextError):
            cc.generate(1, 5, 9)

    def test_whatever_a_program_prints_what_is_raised_is_a_fault_of_this_package(self) -> None:
        net = self.net()
        for status in (0, 4, 7, 99):
            for text, message in PRINTED:
                self.printing(text, status, message)
                for name, call in each_task(net, "South"):
                    if not is_read(name, status, text):
                        continue
                    try:
                        call()
                    except cc.ClearingError:
                        continue
                    except Exception as fault:
                        self.fail(f"{name} on {text!r} {message[:60]!r} with {status}: {type(fault).__name__}: {fault}")
                    self.assertIn((name, status), {("replay", 0), ("replay", 7)}, (text, message))

    def test_texts_that_were_altered_are_refused_or_differ(self):
        """The program's own answers with some bytes altered: nothing but a fault of the package, or another result."""
        made, net, seed = random.Random(20261130), self.net(TWELVE), 0
        whole = {
            name: clearing(name, *files_of(TWELVE)).stdout
            for name in ("clear", "defaults", "bounds", "breaking", "rescues", "impact", "compress", "check")
        }
        kept = {name: texts.parse(text.decode()) for name, text in whole.items()}
        taken = request.Request(net._banks, net._debts)
        for _ in range(400):
            name = made.choice(sorted(whole))
            data = bytearray(whole[name])
            at = made.randrange(len(data))
            data[at : at + made.choice((0, 1, 1, 5))] = made.choice(
                (b"", b"9", b",", b"\n", b"\xff", b"-1", b"\0", b"x")
            )
            if bytes(data) == whole[name]:
                continue
            seed += 1
            try:
                result = texts.parse(data.decode())
                taken.check(result)
            except (cc.ClearingError, UnicodeDecodeError):
                continue
            self.assertNotEqual(result, kept[name], (name, at))
        self.assertGreater(seed, 350)


class Fields(Case):
    def test_a_long_field_of_a_journal_is_read(self):
        """Blanks round a field, more than Python's csv takes: with quotes and without."""
        net = Network({"A": 7, "B": 1}, {("A", "B"): 10})
        for record in (
            f"1,A,B{' ' * 200_000},1,8\n",
            f'1,A,"B{" " * 200_000}",1,8\n',
            f'"1","A","B",{" " * 140_000}1,8\n',
        ):
            verdict = net.replay(self.file("j.csv", "stamp,debtor,creditor,class,to\n" + record))
            self.assertEqual((verdict.verdict, verdict.record), ("unlawful", Raise(1, "A", "B", 1, 8)), record[:20])

    def test_what_is_compared_is_read_as_the_program_reads_it(self):
        """Files as they come: blanks, quotes, ends of lines, a mark in front, empty records, zeros."""
        for banks, debts in [
            (
                '\ufeffname,cash,rule\r\nA , 7,order\r\n\r\n,,\r\n"B\t",1,order\r\n',
                'debtor,creditor,class,claim\r\nA,"B",1,007\r\n',
            ),
            (
                "name,cash,rule,outside\rA,0000000000000000007,order,0\rB,1,order,5\r",
                "debtor,creditor,class,claim\r , , ,\rA,B,1,3",
            ),
            (
                '"name","cash","rule"\nA,7,order\nB,1,"or""der"\n'.replace('"or""der"', '"order"'),
                '"debtor",creditor,class,claim\n"A" , B ,1, 3 \n',
            ),
            (
                "name,cash,rule\n" + "".join(f"É{n}\u00a0,{n},equal\n" for n in range(300)),
                "debtor,creditor,class,claim\n",
            ),
        ]:
            net = Network(self.file("b.csv", banks), self.file("d.csv", debts))
            for name, call in each_task(net, net.banks[0].name):
                if name not in ("stress", "outcomes", "map_stress", "map_outcomes", "replay", "generate"):
                    call()

    def test_a_plain_file_is_read_all_at_once_as_any_other(self):
        """Altered files: the quick way gives the columns that the other one gives, or leaves the file to it."""
        made, quick = random.Random(7), 0
        for _ in range(1500):
            data = bytearray(made.choice([(HUB / "banks.csv").read_bytes(), (HUB / "debts.csv").read_bytes()]))
            for _ in range(made.choice((0, 1, 3))):
                at = made.randrange(len(data) + 1)
                data[at : at + made.choice((0, 1))] = made.choice(
                    (b" ", b"\t", b",", b"\n", b"\r", b'"', b"7", b"x", b"")
                )
            read = []
            for way in (request.plain_columns, lambda *_: None):
                with unittest.mock.patch.object(request, "plain_columns", way):
                    quick += way(bytes(data), 2) is not None
                    try:
                        read.append(request.columns_of(bytes(data), 2))
                    except cc.TextError:
                        read.append(None)
            self.assertEqual(read[0], read[1], bytes(data))
        self.assertGreater(quick, 400)


class Ending(Case):
    def test_a_run_takes_no_longer_than_it_may(self):
        self.program("exec sleep 60\n")
        net = Network(HUB / "banks.csv", HUB / "debts.csv")
        for name, call in each_task(net, "South"):
            began = time.monotonic()
            with self.assertRaises(cc.OutOfTimeError, msg=name) as caught:
                call(timeout=0.3)
            self.assertIsInstance(caught.exception, (cc.ClearingError, TimeoutError))
            self.assertEqual(caught.exception.seconds, 0.3)
            self.assertLess(time.monotonic() - began, 20, name)
        # One that does not end at a request is killed; one that is in time is left alone.
        self.program("trap '' TERM; while :; do sleep 0.1; done\n")
        with self.assertRaises(cc.OutOfTimeError):
            net.check(timeout=0.3)
        os.environ["CLEARING"] = PROGRAM
        self.assertEqual(net.check(timeout=60), net.check())

    def test_nothing_is_left_in_the_folder_of_temporary_files(self):
        """Nor while a run goes on: so nothing can be left by a signal."""
        place = self.folder / "temporary"
        place.mkdir()
        self.program(f'echo begun >"{self.folder}/begun"; ls -A "{place}" >"{self.folder}/seen"; exec sleep 60\n')
        code = "import sys, clearing_client as cc; cc.Network(*sys.argv[1:]).stress([cc.Scenario('x')])"
        for number in (signal.SIGTERM, signal.SIGKILL, signal.SIGHUP):
            environment = {**os.environ, "TMPDIR": str(place), "PYTHONPATH": str(ROOT / "python/src")}
            running = subprocess.Popen(
                [sys.executable, "-c", code, HUB / "banks.csv", HUB / "debts.csv"],
                env=environment,
                stderr=subprocess.DEVNULL,
                start_new_session=True,
            )
            self.until((self.folder / "seen").exists)
            time.sleep(0.2)
            running.send_signal(number)
            running.wait(60)
            self.assertEqual(((self.folder / "seen").read_text(), os.listdir(place)), ("", []), number)
            os.killpg(running.pid, signal.SIGKILL)
            (self.folder / "seen").unlink()

    def test_no_file_of_a_run_has_a_name(self):
        """In the whole package no file is written but by a name that was given, or one that has none. A case is
        written whole beside the place where it goes, and a workbook is read from a folder of its own."""
        named = [
            f"{path.name}: {line.strip()}"
            for path in (ROOT / "python/src/clearing_client").glob("*.py")
            for line in path.read_text().splitlines()
            if any(word in line for word in ("NamedTemporaryFile", "mkstemp", "mkdtemp", "TemporaryDirectory"))
        ]
        self.assertEqual(
            sorted(named),
            [
                'case.py: with tempfile.TemporaryDirectory(prefix=".part-", dir=place.parent) as name:',
                'sheets.py: with tempfile.TemporaryDirectory(prefix="clearing-") as name:',
            ],
        )

    def test_output_without_an_end_is_not_held(self):
        self.program("exec cat /dev/zero\n")
        before = cc.program.MOST_OUTPUT
        self.addCleanup(setattr, cc.program, "MOST_OUTPUT", before)
        cc.program.MOST_OUTPUT = 1_000_000
        with self.assertRaisesRegex(cc.TextError, "more than 1,000,000 bytes"):
            Network(HUB / "banks.csv", HUB / "debts.csv").clear()
        self.program("cat /dev/zero | head -c 20000000 >&2; exit 9\n")
        with self.assertRaises(cc.StatusError):
            Network(HUB / "banks.csv", HUB / "debts.csv").clear()


if __name__ == "__main__":
    unittest.main()
