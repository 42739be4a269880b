"""Names of every allowed character through every tool, none of which changes what it reads, or writes anywhere but
where it is told. What a browser shows of such names in a report is tried in test_report_names.

The seed is fixed. HOSTILE_SEED gives another, and HOSTILE_ROUNDS more networks of random names."""
import csv
import io
import os
import pathlib
import random
import unicodedata
import unittest
import xml.etree.ElementTree as tree
from typing import Any, Iterator, List

from odd_names import DASHED, MARKUP, MORE_NAMES, ODD_NAMES, all_names, untrimmed
from places import Place, records_of
from pythons import python_with

import clearing_client as cc

SEED, ROUNDS = os.environ.get("HOSTILE_SEED", "1"), int(os.environ.get("HOSTILE_ROUNDS", "1"))
SPACE = "{http://graphml.graphdrawing.org/xmlns}"
# Where characters of a kind stand, each drawn as often as the others.
RANGES = [
    (0x20, 0x7E),
    (0x20, 0x7E),
    (0xA0, 0x24F),
    (0x300, 0x36F),
    (0x590, 0x6FF),
    (0x2000, 0x206F),
    (0x3000, 0x9FFF),
    (0xA0, 0xD7FF),
    (0xE000, 0xFDCF),
    (0xFE00, 0xFFFD),
    (0x10000, 0x1FFFF),
    (0xE0000, 0xE01EF),
    (0x10000, 0x10FFFF),
]


def drawn_name(rng: random.Random) -> str:
    """A name of 1 to 64 bytes, of characters of one kind or of all kinds."""
    size, name = rng.choice([1, 2, 3, rng.randint(1, 64), 64]), ""
    kinds = rng.choice([RANGES, [rng.choice(RANGES)]])
    while len(name.encode()) < size:
        c = chr(rng.randint(*rng.choice(kinds)))
        if c in ',"' or 0xD800 <= ord(c) <= 0xDFFF or unicodedata.category(c) == "Cc":
            continue
        if len((name + c).encode()) > 64:
            break
        name += c
    return name.strip(" \t")


def names_of(rng: random.Random, count: int) -> List[str]:
    """So many names at random."""
    names = {}
    while len(names) < count:
        names[drawn_name(rng)] = True
        names.pop("", None)
    return list(names)


def networks() -> Iterator[List[str]]:
    """The names of each network: all that are odd, some that have all characters, and random ones."""
    yield untrimmed([*DASHED, *ODD_NAMES, *MARKUP, *MORE_NAMES])
    yield list(all_names(last=0xFFFD))[::5][:250]
    for at in range(ROUNDS):
        yield names_of(random.Random(f"{SEED} {at}"), 40)


class Names(Place):
    def each_network(self) -> Iterator[Any]:
        """The networks, each with the names, the banks and the debts."""
        for number, names in enumerate(networks()):
            self.network = f"network {number} of the seed {SEED}"
            yield names, *self.write_network(names, f"{SEED} {number}")

    def test_names_come_through_the_tools_for_files(self):
        for names, banks, debts in self.each_network():
            # None of them is a fault; what is odd in some is told, each in a line.
            *warned, last = self.well("clearing-lint", *self.files, "--scenarios", self.scenarios).splitlines()
            self.assertEqual([line for line in warned if " name: warning: " not in line], [])
            self.assertIn(last, ("no fault", "no fault, 1 warning", f"no fault, {len(warned):,} warnings"))
            self.assertEqual(last == "no fault", not warned)
            texts = self.texts()
            told = self.well(
                "clearing-audit",
                *self.files,
                "--journal",
                texts["journal"],
                "--payments",
                texts["clear"],
                "--defaults",
                texts["defaults"],
            )
            self.assertIn("nobody can pay more\npayments same\ndefaults same\n", told)
            printed = self.banks.read_bytes(), self.debts.read_bytes()
            # There and back again. Names that lines of totals have are said to be banks.
            keep = [f"--keep={name}" for name in names]
            made = self.out / "banks.csv", self.out / "debts.csv"
            back = ["--banks", made[0], "--debts", made[1], *keep]
            columns = ["--cash", "(cash of)", "--outside", "(outside of)", "--rule-column", "(rule of)"]
            matrix = self.out / "matrix.csv"
            self.well("clearing-to-matrix", *self.files, "--out", matrix)
            # A column that is no bank has another name than any bank.
            header, rest = matrix.read_text(encoding="utf-8").split("\n", 1)
            head = header.split(",")[:-3] + ["(cash of)", "(outside of)", "(rule of)"]
            matrix = self.given("matrix.csv", ",".join(head) + "\n" + rest)
            self.well("clearing-from-matrix", matrix, *back, *columns)
            self.assertEqual(tuple(path.read_bytes() for path in made), printed)
            table = self.given("table.csv", self.banks.read_bytes())
            listed = io.StringIO()
            csv.writer(listed).writerows([["debtor", "creditor", "class", "amount"], *debts])
            self.well("clearing-from-list", self.given("list.csv", listed.getvalue()), "--table", table, *back)
            self.assertEqual(tuple(path.read_bytes() for path in made), printed)

    def test_names_come_through_the_tools_for_texts(self):
        for names, banks, debts in self.each_network():
            texts = self.texts()
            for task, text in texts.items():
                folder = self.out / task
                tables = self.well("clearing-tidy", text, "--folder", folder).removesuffix("\n").split("\n")
                self.assertEqual(sorted(tables), sorted(str(path) for path in folder.iterdir()))
                for path in tables:
                    records = records_of(pathlib.Path(path).read_text(encoding="utf-8"))
                    # Of pairs and of rescues there are not as many as banks.
                    if records[0][0] == "bank" and records[0][1] not in ("of", "saves", "added"):
                        self.assertEqual([record[0] for record in records[1:]], names, path)
            left = self.well("clearing-shock", "--banks", self.banks, "--scenarios", self.scenarios, "--scenario", 1)
            self.assertEqual([record[0] for record in records_of(left)[1:]], names)
            svg = self.well(
                "clearing-who-pays",
                texts["clear"],
                texts["defaults"],
                "--bounds",
                texts["bounds"],
                "--banks",
                self.banks,
            )
            self.assertNotIn("<script>", svg)
            tree.fromstring(svg)

    def test_names_come_through_the_tools_that_ask_many_times(self):
        for names, banks, debts in self.each_network():
            for name in ("clearing-breaking", "clearing-impact", "clearing-rescues"):
                records = records_of(self.well(name, *self.files))
                known = [record[0] for record in records[1:]]
                self.assertEqual(
                    known if name == "clearing-breaking" else sorted(known),
                    names if name == "clearing-breaking" else sorted(set(known)),
                )
                self.assertLessEqual(set(known), set(names))
            given = [name for name in names if name != "cut"]
            moments = self.given("moments.csv", "of,mean,deviation\n" + "".join(f"{name},1,1\n" for name in given))
            drawn = self.well("clearing-draws", *self.files, "--moments", moments, "--draws", 5).split("\n\n")
            self.assertEqual([record[0] for record in records_of(drawn[2])[1:]], names)

    def test_names_come_through_evidence_and_report(self):
        for number, (names, banks, debts) in enumerate(self.each_network()):
            bank = next(name for name in names if not name.startswith("-"))
            folder = self.out / f"evidence {number}"
            self.well("clearing-evidence", "make", folder, *self.files, "--scenarios", self.scenarios, "--bank", bank)
            self.well("clearing-evidence", "check", folder)
            page = self.out / "report.html"
            self.well("clearing-report", *self.files, "--scenarios", self.scenarios, "--out", page, "--title", names[0])
            text = page.read_text(encoding="utf-8")
            for name in ("<script>alert(1)</script>", "<img src=x onerror=X>"):
                self.assertNotIn(name, text)

    def test_names_come_through_many_and_why(self):
        for names, banks, debts in self.each_network():
            asked = [name for name in names if not name.startswith("-")][:12]
            lines = [["rescue", *map(str, self.files), "--bank", name] for name in asked]
            jobs = self.given(
                "jobs.tsv", "".join("\t".join([f"job-{at}", *words]) + "\n" for at, words in enumerate(lines))
            )
            self.assertEqual(
                self.well("clearing-many", "run", jobs, self.out / "many", 2), f"{len(asked)} done, 0 failed\n"
            )
            for at, name in enumerate(asked):
                made = (self.out / f"many/job-{at}.out").read_text(encoding="utf-8")
                self.assertEqual(made.split("\n")[0].split(",")[:2], ["rescue", name])
                self.assertEqual(self.well("clearing-why", *lines[at]), "understood: the task rescue\n")

    def test_names_come_through_the_package(self):
        os.environ["CLEARING"], kept = self.environment["CLEARING"], os.environ.get("CLEARING")
        self.addCleanup(lambda: os.environ.pop("CLEARING") if kept is None else os.environ.update(CLEARING=kept))
        for names, banks, debts in self.each_network():
            net = cc.Network(banks, debts)
            before = self.all_but_outputs()
            self.assertEqual([standing.bank for standing in net.defaults().standings], names)
            done = net.clear(journal=True)
            self.assertEqual([tuple(payment[:4]) for payment in done.payments], [tuple(debt) for debt in debts])
            self.assertTrue(net.replay(done.journal).lawful)
            scenario = cc.Scenario(names[0], cut=3, losses={name: 1 for name in names})
            self.assertEqual(net.stress([scenario]).scenarios[0].name, names[0])
            bank = next(name for name in names if not name.startswith("-"))
            self.assertEqual(net.rescue(bank).bank, bank)
            self.assertEqual([wave.bank for wave in net.bounds().waves], names)
            self.assertEqual(cc.Network(str(self.banks), str(self.debts)).defaults().text, net.defaults().text)
            self.assertEqual(before, self.all_but_outputs())

    @unittest.skipUnless(python_with("networkx"), "no Python here has networkx")
    def test_names_come_through_the_graph(self):
        for names, banks, debts in self.each_network():
            texts, graph = self.texts(), self.out / "graph.graphml"
            words = texts["clear"], texts["defaults"], "--banks", self.banks, "--out", graph
            self.well("clearing-to-graphml", *words, python=python_with("networkx"))
            root = tree.parse(graph).getroot()
            nodes, edges = list(root.iter(f"{SPACE}node")), list(root.iter(f"{SPACE}edge"))
            shown = {name: name.replace("\ufffe", "<U+FFFE>").replace("\uffff", "<U+FFFF>") for name in names}
            self.assertEqual([node.get("id") for node in nodes], list(shown.values()))
            label = next(key.get("id") for key in root.iter(f"{SPACE}key") if key.get("attr.name") == "label")
            labels = [part.text for node in nodes for part in node if part.get("key") == label]
            self.assertEqual(labels, list(shown.values()))
            pairs = sorted((shown[debtor], shown[creditor]) for debtor, creditor, *_ in debts)
            self.assertEqual(sorted((edge.get("source"), edge.get("target")) for edge in edges), pairs)

    @unittest.skipUnless(python_with("matplotlib"), "no Python here has matplotlib")
    def test_names_come_through_the_pictures(self):
        # Those that matplotlib could take for mathematics, and the others drawn.
        odd = [name for name in next(networks()) if "$" in name or "\\" in name or "_" in name]
        texts, python, picture = (
            self.write_network(odd + names_of(random.Random(SEED), 12)) and self.texts(),
            python_with("matplotlib"),
            self.out / "picture.svg",
        )
        self.well(
            "clearing-shortfalls",
            texts["defaults"],
            picture,
            "--banks",
            self.banks,
            "--payments",
            texts["clear"],
            "--currency",
            "$x_{",
            python=python,
        )
        tree.parse(picture)
        self.well("clearing-stress-map", texts["stress"], picture, "--banks", self.banks, python=python)
        tree.parse(picture)
        self.well(
            "clearing-impact", *self.files, "--ranking", self.out / "ranking.csv", "--picture", picture, python=python
        )
        tree.parse(picture)

    @unittest.skipUnless(python_with("numpy"), "no Python here has numpy")
    def test_names_come_through_totals(self):
        for names, banks, debts in self.each_network():
            totals = {name: [0, 0] for name in names}
            for debtor, creditor, _, claim in debts:
                totals[debtor][1] += claim
                totals[creditor][0] += claim
            lines = [f"{name},{assets},{liabilities},7\n" for name, (assets, liabilities) in totals.items()]
            given = self.given("totals.csv", "name,assets,liabilities,cash\n" + "".join(lines))
            keep = [f"--keep={name}" for name in names]
            self.well(
                "clearing-from-totals",
                given,
                "--out",
                self.out / "totals",
                "--method",
                "sparse",
                "--tries",
                2,
                *keep,
                python=python_with("numpy"),
            )
            made = records_of((self.out / "totals/banks.csv").read_text(encoding="utf-8"))
            self.assertEqual([record[0] for record in made[1:]], names)


if __name__ == "__main__":
    unittest.main()
