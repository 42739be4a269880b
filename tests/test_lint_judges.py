"""`clearing-lint` judges files as the program does: the first fault that it tells is the program's, of files that are
made up at random, at their limits, and with each odd field in each place."""
import concurrent.futures
import sys
import unittest
from typing import Any, Dict, Iterable, List

from common import Case, clearing
from made_up import FIELDS, NETWORK, OTHERS, TEXTS, WHOLE, MadeJournal, MadeNetwork, MadeScenarios
from odd_names import all_names

from clearing_client import limits
from clearing_tools.checks import field_hints, findings, lint, linter

FILES = 1200
"""How many files of each kind are made up."""


class Judges(Case):
    """A case that holds the first fault of lint against the program's."""

    def first_of_program(self, at: int, files: Dict[str, bytes]) -> str:
        """What the program says of two files, or of three: nothing where it accepts them, and else its first fault."""
        task = {"scenarios": "stress", "journal": "replay"}.get(list(files)[-1], "check")
        done = clearing(
            task,
            *(word for name, data in files.items() for word in (f"--{name}", self.file(f"{at}-{name}", data))),
            *(["--workers", "1"] if task == "stress" else []),
        )
        if done.returncode in ((0, 7) if task == "replay" else (0,)):
            return ""
        self.assertEqual(done.returncode, 4, (done.stderr, files))
        return done.stderr.decode().removeprefix("clearing: ").rstrip("\n")

    def compare_all(self, made: List[Dict[str, bytes]]) -> Any:
        """Compares the first fault of each of some files with the program's. Gives how often each kind came first."""
        counts = {}
        with concurrent.futures.ThreadPoolExecutor(8) as pool:
            for files, first in zip(made, pool.map(self.first_of_program, range(len(made)), made)):
                faults = linter.Linter(**files).faults
                said = (
                    f"{faults[0].file} row {faults[0].row}: {faults[0].kind} ({lint.NUMBERS[faults[0].kind]})"
                    if faults
                    else ""
                )
                self.assertEqual(said, first, {name: data[:600] for name, data in files.items()})
                kind = faults[0].kind if faults else ""
                counts[kind] = counts.get(kind, 0) + 1
        return counts

    def compare(self, banks: bytes, debts: bytes) -> Any:
        return next(iter(self.compare_all([{"banks": banks, "debts": debts}])))


class MadeUp(Judges):
    """Files that are made up at random, of which many are accepted and each kind of fault comes first in some."""

    def is_of_use(self, counts: Any, kinds: Iterable[str], accepted: int) -> None:
        """Many files are accepted, and each kind comes first in some."""
        for kind in ["", *kinds]:
            self.assertGreater(counts.get(kind, 0), 1, (kind, counts))
        self.assertGreater(counts[""], accepted, counts)

    def test_made_up_files_are_judged_as_the_program_does(self):
        counts = self.compare_all([dict(zip(("banks", "debts"), MadeNetwork(seed).files())) for seed in range(FILES)])
        self.is_of_use(
            counts, set(lint.NUMBERS) - {"too many", "file size", "unknown debt", "toml", "shape"}, FILES // 10
        )

    @unittest.skipIf(sys.version_info < (3, 11), "TOML is read by Python 3.11 or later")
    def test_made_up_scenarios_are_judged_as_the_program_does(self):
        counts = self.compare_all([{**NETWORK, "scenarios": MadeScenarios(seed).file()} for seed in range(FILES)])
        self.is_of_use(counts, ["toml", "shape", "name", "limit", "unknown bank", "double bank"], FILES // 10)
        # Each odd value at each key.
        made = []
        for value in TEXTS + WHOLE + OTHERS:
            made.append(f"scenario = {value}\n")
            for key in ("name", "cut", "loss"):
                made.append(
                    "".join(
                        f"{k} = {v}\n"
                        for k, v in [("[[scenario]]\nname", '"A"'), ("cut", "1"), ("loss", "[]")]
                        if k.split("\n")[-1] != key
                    ).replace("cut", "[[scenario]]\ncut", key == "name")
                    + f"{key} = {value}\n"
                )
            for key in ("bank", "amount"):
                rest = "amount = 1" if key == "bank" else 'bank = "B"'
                made.append(f'[[scenario]]\nname = "A"\n[[scenario.loss]]\n{rest}\n{key} = {value}\n')
        self.compare_all([{**NETWORK, "scenarios": text.encode()} for text in made])

    def test_made_up_journals_are_judged_as_the_program_does(self):
        counts = self.compare_all([{**NETWORK, "journal": MadeJournal(seed).file()} for seed in range(FILES // 2)])
        self.is_of_use(
            counts,
            ["header", "fields", "number", "limit", "name", "unknown bank", "class", "unknown debt"],
            FILES // 20,
        )


class Chosen(Judges):
    """Files at their limits, names of every character, odd fields in each place, and what Python reads of TOML."""

    @unittest.skipIf(sys.version_info < (3, 11), "TOML is read by Python 3.11 or later")
    def test_what_the_help_says_of_another_toml_is_so(self):
        inline = 'scenario = [{name = "a", loss = [{bank = "A", amount = 1%s}]}]\n'
        texts = [
            '[[scenario]]\nname = "\\x41"\n',
            inline % "\n",
            inline % " # it\n",
            inline % ",",
            inline % "\n,\n",
            inline % "",
        ]
        for at, text in enumerate(texts):
            files = {**NETWORK, "scenarios": text.encode()}
            self.assertEqual(self.first_of_program(at, files), "", text)
            # A Python that knows TOML 1.1 takes them all, and any Python the last.
            kinds = [fault.kind for fault in linter.Linter(**files).faults]
            self.assertIn(kinds, [[], ["toml"]] if at + 1 < len(texts) else [[]])
        values = ['"\\e"', "07:30", "[" * 81 + "]" * 81, "1e999"]
        for at, text in enumerate(values):
            files = {**NETWORK, "scenarios": f"[[scenario]]\nname = {text}\n".encode()}
            self.assertRegex(self.first_of_program(at, files), "toml|shape|name")
            self.assertIn(linter.Linter(**files).faults[0].kind, ["toml", "shape", "name"])
        for name in ("clearing-lint", "clearing-shock"):
            self.assertIn("TOML 1.1", self.made(name, "--help"))

    @unittest.skipIf(sys.version_info < (3, 11), "TOML is read by Python 3.11 or later")
    def test_third_files_at_the_limits_are_judged_as_the_program_does(self):
        one = '[[scenario]]\nname = "A"\n'
        for count, want in ((100, ""), (101, "too many")):
            self.assertEqual(self.compare_all([{**NETWORK, "scenarios": (one * count).encode()}]), {want: 1})
        long = b"#" * (limits.MOST.bytes["scenarios"] - 1) + b"\n"
        self.assertEqual(self.compare_all([{**NETWORK, "scenarios": long}]), {"": 1})
        # A file that is too long comes before a fault within the banks.
        bad = {"banks": b"name\n", "debts": NETWORK["debts"], "scenarios": long + b"#"}
        self.assertEqual(self.compare_all([bad]), {"file size": 1})
        for third in ({"scenarios": b"x"}, {"journal": b"x"}):
            self.assertEqual(
                self.compare_all([{"banks": b"name\n", "debts": NETWORK["debts"], **third}]), {"header": 1}
            )

    def test_names_of_every_character_are_taken(self):
        names = list(all_names(last=0xFFFF)) + list(all_names(0x10000, step=257))
        for at in range(0, len(names), 1000):
            part = names[at : at + 1000]
            banks = "name,cash,rule\n" + "".join(f"{name},1,order\n" for name in part)
            debts = "debtor,creditor,class,claim\n" + "".join(f"{a},{b},1,1\n" for a, b in zip(part, part[1:]))
            journal = "stamp,debtor,creditor,class,to\n" + "".join(f"1,{a},{b},1,1\n" for a, b in zip(part, part[1:]))
            files = {"banks": banks.encode(), "debts": debts.encode()}
            self.assertEqual(self.compare_all([{**files, "journal": journal.encode()}]), {"": 1})
            if sys.version_info >= (3, 11):
                losses = '[[scenario]]\nname = "x"\n' + "".join(
                    f"[[scenario.loss]]\nbank = '{name}'\namount = 1\n" for name in part if "'" not in name
                )
                self.assertEqual(self.compare_all([{**files, "scenarios": losses.encode()}]), {"": 1})
        for code in [*range(0, 32), *range(127, 160)]:
            self.assertTrue(field_hints.name_fault(f"A{chr(code)}B".encode()), code)

    def test_each_odd_field_in_each_place_is_judged_as_the_program_does(self):
        def quoted(records: List[List[str]]) -> bytes:
            return "".join(
                ",".join('"' + field.replace('"', '""') + '"' for field in record) + "\n" for record in records
            ).encode()

        made = []
        for field in FIELDS:
            for table, place in [(table, place) for table in range(2) for place in range(4)]:
                tables = [
                    [findings.BANKS_2, ["A", "1", "order", "0"], ["B", "2", "adams", "1"]],
                    [findings.DEBTS, ["A", "B", "1", "3"]],
                ]
                tables[table][1][place] = field
                made.append(dict(zip(("banks", "debts"), map(quoted, tables))))
            for place in range(5):
                raised = ["1", "A", "B", "1", "3"]
                raised[place] = field
                made.append({**NETWORK, "journal": quoted([findings.JOURNAL, raised])})
        self.compare_all(made)

    def test_files_at_the_limits_are_judged_as_the_program_does(self):
        head = b"name,cash,rule\n"
        debts = b"debtor,creditor,class,claim\n"
        two = head + b"A,1,order\nB,1,order\n"
        many = [head + b"".join(b"N%d,1,order\n" % n for n in range(count)) for count in (1000, 1001)]
        rows = [
            b"N%d,N%d,%d,1\n" % (n % 1000, (n % 1000 + 1 + n // 9000) % 1000, 1 + n // 1000 % 9) for n in range(20001)
        ]
        nine = b"".join(b"A,B,%d,1000000\n" % n for n in range(1, 10))
        size = lint.LIMITS["standard"].bytes["banks"]
        cases = [
            (many[0], debts, ""),
            (many[1], debts, "too many"),
            (many[1] + b"N0,x,order\n", debts, "too many"),
            (many[0], debts + b"".join(rows[:20000]), ""),
            (many[0], debts + b"".join(rows), "too many"),
            (two, debts + nine + b"B,A,1,1000000\n", ""),
            (two, debts + nine + b"B,A,1,1000000\nB,A,2,1\n", "total"),
            (two + b"\n" * (size - len(two)), debts, ""),
            (two + b"\n" * (size - len(two) + 1), debts, "file size"),
            (b"", debts + b"\n" * size, "file size"),
        ]
        for banks, owed, kind in cases:
            self.assertEqual(self.compare(banks, owed), kind)
