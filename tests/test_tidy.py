"""Tidy tables hold what the program printed, without its lines of sums."""
import csv
import os
import pathlib
import subprocess
import sys
import tempfile
from decimal import Decimal
from typing import Dict, List

from common import ROOT, Case, Word, clearing, files_of, tool

from clearing_tools import stress_text, texts
from clearing_tools.runner import ToolError

HUB = files_of(ROOT / "examples/hub")
CHAIN = files_of(ROOT / "examples/chain")
SCENARIOS = '[[scenario]]\nname = " half "\ncut = 500\n\n[[scenario]]\nname = " half "\n'


def lines_of(path: pathlib.Path) -> List[str]:
    return path.read_text(encoding="utf-8").splitlines()


def table_of(path: pathlib.Path) -> List[Dict[str, str]]:
    with open(path, encoding="utf-8", newline="") as file:
        return list(csv.DictReader(file))


class Tidy(Case):
    def tidy(self, text: str, *words: Word) -> Dict[str, pathlib.Path]:
        """The files made of a text, by the names of their tables, in a folder of their own."""
        output = pathlib.Path(tempfile.mkdtemp(dir=self.folder)) / "x.y.csv"
        output.write_bytes(text.encode() if isinstance(text, str) else text)
        named = [pathlib.Path(name) for name in self.made("clearing-tidy", output, *words).splitlines()]
        self.assertEqual({path for path in named[0].parent.iterdir() if path != output}, set(named))
        return {path.stem[len("x.y-") :]: path for path in named}

    def test_tables_are_the_lines_of_the_text_without_sums(self):
        for task in (["clear"], ["central"]):
            text = self.printed(*task, *HUB)
            self.assertEqual(self.tidy(text)["payments"].read_text(), text)
        text = self.printed("clear", *HUB, "--show", "both", "--workers", 1)
        made, (payments, journal) = self.tidy(text), text.split("\n\n")
        self.assertEqual(made["payments"].read_text(), payments + "\n")
        self.assertEqual(lines_of(made["journal"]), journal.splitlines()[:-1])
        self.assertEqual("rounds," + lines_of(made["totals"])[1], journal.splitlines()[-1])
        text = self.printed("defaults", *HUB)
        self.assertEqual(lines_of(self.tidy(text)["standings"]), text.splitlines()[:-2])
        text = self.printed("bounds", *HUB)
        made = self.tidy(text)
        self.assertEqual(made["payments"].read_text() + "\n" + made["waves"].read_text(), text)
        text = self.printed("costs", *HUB, "--keep", 900)
        made = self.tidy(text)
        self.assertEqual(lines_of(made["payments"]) + [""] + lines_of(made["standings"]), text.splitlines()[:-2])
        scenarios = ["--scenarios", self.file("s.toml", SCENARIOS)]
        for task, *names in (
            ["breaking", "cuts"],
            ["impact", "banks", "pairs"],
            ["rescues", "banks", "saved"],
            ["cost-bounds", "payments", "standings", "--keep", 900],
            ["outcomes", "scenarios", "banks", *scenarios],
        ):
            text = self.printed(task, *HUB, *names[1 if task == "breaking" else 2 :])
            made = self.tidy(text)
            self.assertEqual("\n".join(made[name].read_text() for name in made), text, task)
            self.assertEqual(list(made), names[: len(made)])
        made = self.tidy(self.printed("impact", *HUB), "--unit", "10")
        self.assertEqual(lines_of(made["banks"])[1].split(",")[:2], ["Hub", "1200"])
        text = self.printed("compress", *HUB)
        made = self.tidy(text)
        self.assertEqual(lines_of(made["debts"]) + [""] + lines_of(made["ranks"]), text.splitlines()[:-1])
        text = self.printed("check", *HUB)
        made = self.tidy(text)
        self.assertEqual(made["banks"].read_text() + "\n" + made["debts"].read_text(), text.split("\n\n", 1)[1])
        self.assertEqual(self.tidy(self.printed("convert", *HUB))["banks"].read_text(), self.printed("convert", *HUB))

    def test_scenarios_stand_below_one_another_with_number_and_name(self):
        text = self.printed("stress", *HUB, "--scenarios", self.file("s.toml", SCENARIOS))
        made = self.tidy(text)
        standings = table_of(made["standings"])
        self.assertEqual(
            [(row["number"], row["scenario"]) for row in standings], [("1", " half ")] * 5 + [("2", " half ")] * 5
        )
        totals = table_of(made["totals"])
        # The sums of the table are those that the program printed.
        printed = [line.split(",")[3] for line in text.splitlines() if line.startswith("total,")]
        for number, paid, total in zip("12", printed, totals):
            self.assertEqual(sum(int(row["paid"]) for row in standings if row["number"] == number), int(paid))
            self.assertEqual(total["paid"], paid)
        blocks = [",".join(line.split(",")[2:]) for line in lines_of(made["payments"])[1:]]
        self.assertEqual(blocks, [line for line in text.splitlines() if line.count(",") == 4 and line[-1].isdigit()])

    def test_what_is_printed_once(self):
        totals = lambda *words: table_of(self.tidy(self.printed(*words))["totals"])[0]
        self.assertEqual(totals("gen", "--seed", 1, "--size", 3, "--tries", 3)["banks"], "3")
        self.assertEqual(totals("rescue", *CHAIN, "--bank", "A"), {"bank": "A", "added": "3", "short": "1"})
        journal = self.file("j.csv", "stamp,debtor,creditor,class,to\n1,A,B,1,8\n")
        done = clearing("replay", *CHAIN, "--journal", journal)
        verdict = table_of(self.tidy(done.stdout)["totals"])[0]
        told = {"verdict": "unlawful", "entry": "1", "had": "0", "allowed": "7"}
        self.assertEqual({name: value for name, value in verdict.items() if value}, told)

    def test_amounts_in_the_currency_are_exact(self):
        text = self.printed("defaults", *HUB)
        made = self.tidy(text, "--unit", "0.10")
        for row, line in zip(table_of(made["standings"]), text.splitlines()[1:]):
            self.assertEqual(
                [Decimal(row[name]) * 10 for name in ("estate", "outside_paid", "paid", "owed", "equity")],
                [Decimal(field) for field in line.split(",")[1:6]],
            )
            self.assertEqual(row["state"], line.split(",")[6])
        self.assertEqual(table_of(made["totals"])[0]["defaults"], "2")
        text = self.printed("clear", *CHAIN, "--show", "both", "--workers", 1)
        self.assertEqual(
            lines_of(self.tidy(text, "--unit", "1000000000000000.000000000000001")["journal"])[1],
            "1,A,B,1,7000000000000000.000000000000007",
        )
        for unit in ("0", "-1", "nan", "inf", "x", ""):
            self.assertEqual(tool("clearing-tidy", "x.csv", "--unit", unit).returncode, 2)

    def test_each_number_is_an_amount_or_a_count(self):
        """Of all tables: amounts are in the currency, and counts stay."""
        counts = set(
            "also_saved banks class cut debts defaults entry falls fundamental last number raises rank rounds stamp "
            "still_short wave".split()
        )
        scenarios = self.file("s.toml", SCENARIOS)
        seen = set()
        for task, *words in (
            *([task] for task in ("defaults", "check", "bounds", "rescues", "breaking", "impact", "compress")),
            *([task, "--keep", 900] for task in ("costs", "cost-bounds")),
            *([task, "--scenarios", scenarios] for task in ("stress", "outcomes")),
            ["clear", "--show", "both"],
            ["rescue", "--bank", "South"],
        ):
            text = self.printed(task, *HUB, *words)
            units, tens = self.tidy(text), self.tidy(text, "--unit", "10")
            for name, path in units.items():
                records = table_of(path), table_of(tens[name])
                self.assertEqual(*map(len, records))
                for one, other in zip(*records):
                    for column in [column for column, value in one.items() if value.isdigit()]:
                        times = 1 if column in counts else 10
                        self.assertEqual(int(other[column]), times * int(one[column]), (task, name, column))
                        seen |= {column} if int(one[column]) else set()
        self.assertLessEqual({"others", "own", "added", "short", "lost", "greatest", "equity_at_least", "to"}, seen)

    def test_banks_named_like_sums(self):
        banks = self.file("b.csv", "name,cash,rule\ntotal,7,order\ncash,1,order\nscenario,0,order\n")
        debts = self.file("d.csv", "debtor,creditor,class,claim\ntotal,cash,1,10\ncash,scenario,1,9\n")
        scenarios = self.file("s.toml", SCENARIOS)
        texts = [
            self.printed("defaults", "--banks", banks, "--debts", debts),
            self.printed("stress", "--banks", banks, "--debts", debts, "--scenarios", scenarios),
        ]
        names = ["total", "cash", "scenario"]
        self.assertEqual([row["bank"] for row in table_of(self.tidy(texts[0])["standings"])], names)
        self.assertEqual(
            [row["bank"] for row in table_of(self.tidy(texts[1], "--folder", self.folder / "o")["standings"])],
            names * 2,
        )

    def test_texts_that_came_through_a_spreadsheet(self):
        text = self.printed("defaults", *HUB)
        plain = self.tidy(text)["standings"].read_bytes()
        again = self.tidy(b"\xef\xbb\xbf" + text.replace("\n", "\r\n").encode())["standings"].read_bytes()
        self.assertEqual(again, plain)

    def test_standard_input_and_a_folder_that_is_made(self):
        banks = self.file("b.csv", "name,cash,rule\nCrédit Loire,7,order\nB,1,order\n")
        text = self.printed(
            "clear",
            "--banks",
            banks,
            "--debts",
            self.file("d.csv", "debtor,creditor,class,claim\nCrédit Loire,B,1,9\n"),
        )
        sent = b"\xef\xbb\xbf" + text.replace("\n", "\r\n").encode()
        done = subprocess.run(
            [sys.executable, ROOT / "bin/clearing-tidy", "-", "--folder", "a/b"],
            input=sent,
            capture_output=True,
            cwd=self.folder,
        )
        self.assertEqual((done.returncode, done.stdout, done.stderr), (0, b"a/b/output-payments.csv\n", b""))
        self.assertEqual((self.folder / "a/b/output-payments.csv").read_text(), text)

    def test_what_is_no_text_of_the_program_is_refused_and_nothing_is_written(self):
        text = self.printed("defaults", *HUB)
        for wrong, message in [
            ("", "there is no text"),
            ("a,b\n", "begins with a,b"),
            (text[:-1], "was cut short"),
            (text.replace("\ntotal,", "\ntotals,"), "line 7"),
            (text + "x\n", "line 7"),
            (text + "\n" + text, "not the end of the text"),
        ]:
            path = self.file("wrong.csv", wrong)
            self.refused("clearing-tidy", 1, message, path)
            self.assertEqual(tool("clearing-tidy", path).stderr.count("\n"), 1)
            self.assertEqual(list(self.folder.iterdir()), [path])
        self.refused("clearing-tidy", 1, "cannot be read", self.folder / "none.csv")
        self.refused("clearing-tidy", 1, "cannot be read", self.folder)

    def test_all_files_are_written_or_none(self):
        output = self.file("x.csv", self.printed("clear", *CHAIN, "--show", "both"))
        (self.folder / "x-totals.csv").mkdir()
        self.refused("clearing-tidy", 1, "clearing-tidy: cannot write", output)
        self.assertEqual(tool("clearing-tidy", output).stderr.count("\n"), 1)
        self.assertFalse((self.folder / "x-payments.csv").exists())
        (self.folder / "x-totals.csv").rmdir()
        os.link(output, self.folder / "x-payments.csv")
        before = output.read_bytes()
        self.refused("clearing-tidy", 1, "is also read", output)
        self.assertEqual(output.read_bytes(), before)


class Texts(Case):
    """What the tools of pictures read by the same parser."""

    def test_files_that_came_through_a_spreadsheet_are_read_the_same(self):
        words = {"payments": ["clear"], "standings": ["defaults"], "gridlock": ["bounds"]}
        for name, task in words.items():
            text, read = self.printed(*task, *HUB), getattr(texts, f"read_{name}")
            plain = read(self.file("plain.csv", text))
            changed = b"\xef\xbb\xbf" + text.replace("\n", "\r\n").encode()
            self.assertEqual(read(self.file("changed.csv", changed)), plain)
            self.assertEqual(read(self.file("last.csv", text[:-1])), plain)
        self.assertEqual(plain, set())

    def test_what_they_read(self):
        payments = texts.read_payments(self.file("p.csv", self.printed("clear", *HUB, "--show", "both")))
        self.assertEqual((payments[0], len(payments)), (("East", "Hub", 1, 90, 80), 8))
        hub = texts.read_standings(self.file("d.csv", self.printed("defaults", *HUB)))[0]
        self.assertEqual((hub.bank, hub.estate, hub.owed, hub.paid, hub.state), ("Hub", 440, 360, 360, "sound"))
        self.assertEqual((hub.outside_paid, hub.equity), (40, 40))
        ring = [ROOT / f"examples/gridlock/{name}.csv" for name in ("banks", "debts")]
        bounds = self.file("b.csv", self.printed("bounds", "--banks", ring[0], "--debts", ring[1]))
        self.assertEqual(texts.read_gridlock(bounds), {"A", "B", "C"})
        stress = self.file("s.csv", self.printed("stress", *HUB, "--scenarios", self.file("s.toml", SCENARIOS)))
        self.assertEqual([one.name for one in stress_text.read_stress(stress)], [" half ", " half "])

    def test_what_they_refuse(self):
        text = self.printed("defaults", *HUB)
        for name, wrong, message in [
            ("standings", text.replace("sound", "Sound", 1), "line 2: 'Sound'"),
            ("standings", text.replace("total,", "t,"), "line 7"),
            ("standings", self.printed("clear", *HUB), "line 1: not the header"),
            ("payments", text, "line 1: not the header"),
            ("gridlock", text, "it has no line bank,wave"),
            ("gridlock", "bank,wave,gridlock,equity\nA,0,maybe,0\n", "line 2: 'maybe'"),
            ("payments", "debtor,creditor,class,claim,paid\nA,B,1,10,x\n", "line 2: 'x' is not a number"),
        ]:
            with self.subTest(name=name, message=message), self.assertRaises(ToolError) as caught:
                getattr(texts, f"read_{name}")(self.file("wrong.csv", wrong))
            self.assertIn(message, str(caught.exception))
