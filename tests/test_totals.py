"""`clearing-from-totals` makes debts of what each bank owes and is owed in all. How its samples are drawn is in
`test_totals_samples`."""
import contextlib
import itertools
import os
import pty
import random
import re
import shutil
import subprocess
import sys

from common import ROOT, Case, Word, run_of, tool
from imported import TOTALS, TotalsCase
from pythons import python_with

from clearing_tools.imports import options, summary
from clearing_tools.runner import ToolError

HEAD = "bank,assets,liabilities,cash\n"


class Words(Case):
    """What is asked for before any claim is made: numpy, and columns by their names."""

    def test_without_numpy_it_is_said_which_python_was_asked(self):
        # A folder that a package has left behind is no module.
        (self.folder / "left/numpy").mkdir(parents=True)
        script = self.executable("python", f'PYTHONPATH="{self.folder}/left" exec "{sys.executable}" -S "$@"\n')
        words = [self.file("t.csv", TOTALS), "--out", self.folder / "out"]
        done = tool("clearing-from-totals", *words, python=str(script))
        self.assertEqual((done.returncode, done.stdout), (2, ""))
        self.assertRegex(
            done.stderr,
            (
                r"clearing-from-totals: /.* has no numpy \(Debian's package python3-numpy is for /usr/bin/python3"
                r" .*FILE\.whl\[all\]'\)"
            ),
        )

    def test_a_stray_quote_is_refused_with_its_row(self):
        for row, text in [(6, TOTALS + 'E,7,7,"1\nF,8,8,2\n'), (3, TOTALS.replace("B,", '"B" (Ost),'))]:
            told = f"t.csv row {row}: a quote opens a field and none closes it"
            self.refused("clearing-from-totals", 1, told, self.file("t.csv", text), "--out", self.folder / "out")

    def test_a_column_that_is_named_is_there(self):
        table = self.file("t.csv", "bank,assets,liabilities,cash,Deposits,Regel\nA,5,7,1,1,order\nB,7,5,2,0,equal\n")
        for option, column in [
            ("outside", "Deposit"),
            ("rule-column", "Rgel"),
            ("outside", "outside"),
            ("rule-column", "rule"),
        ]:
            told = (
                f"t.csv row 1: no column {column}; it has assets, liabilities, cash, Deposits, Regel; say --{option} "
                "NAME"
            )
            self.refused("clearing-from-totals", 1, told, table, f"--{option}", column, "--out", self.folder / "out")

    def test_a_column_that_any_option_names_is_there_in_the_sheet_of_each_importer(self):
        sheets = {
            "clearing-from-totals": "bank,assets,liabilities,cash\nA,5,7,1\nB,7,5,2\n",
            "clearing-from-matrix": ",A,B,cash\nA,,7,1\nB,5,,2\n",
            "clearing-from-list": "debtor,creditor,amount\nA,B,7\nB,A,5\n",
        }
        banks = self.file("cash.csv", "bank,cash\nA,1\nB,2\n")
        codes = self.file("codes.csv", "name,label\n")
        for command, text in sheets.items():
            table = self.file("t.csv", text)
            helped = subprocess.run(run_of(command) + ["--help"], capture_output=True, encoding="utf-8").stdout
            options_of = set(re.findall(r"--[a-z-]+-column", helped))
            self.assertGreaterEqual(len(options_of), 4, command)
            for option in sorted(options_of):
                words = [table, option, "NOPE"]
                words += ["--table", banks] if command == "clearing-from-list" else []
                if option not in ("--rule-column", "--label-column"):
                    words += ["--case", self.folder / "case"]
                elif command == "clearing-from-totals":
                    words += ["--out", self.folder / "out", "--label", codes]
                else:
                    words += ["--banks", self.folder / "b.csv", "--debts", self.folder / "d.csv", "--label", codes]
                done = tool(command, *words)
                self.assertEqual((done.returncode, done.stdout), (1, ""), (command, option, done.stderr))
                self.assertIn("row 1: no column NOPE; it has ", done.stderr, (command, option))

    def test_capitals_in_the_names_of_columns_matter_between_two_of_them_alone(self):
        table = self.file("t.csv", "Bank,ASSETS,Liabilities,Cash,Outside,Rule\nA,5,7,1,1,order\nB,7,5,2,0,equal\n")
        self.told("clearing-from-totals", table, "--method", "sparse", "--out", self.folder / "out")
        self.assertEqual(
            (self.folder / "out/banks.csv").read_text(), "name,cash,rule,outside\nA,1,order,1\nB,2,equal,0\n"
        )
        table = self.file(
            "t.csv",
            (
                "bank,assets,liabilities,cash,outside,Outside,rule,Rule\nA,5,7,1,1,1,order,equal\n"
                "B,7,5,2,0,0,equal,order\n"
            ),
        )
        for option, column in [("outside", "Outside"), ("rule-column", "Rule")]:
            told = (
                f"column {column}: its name is {column.lower()} but for capitals or spaces; say --{option} {column}, or"
            )
            self.refused("clearing-from-totals", 1, told, table, "--out", self.folder / "other")


class Methods(TotalsCase):
    """Claims by each method: entropy, sparse and sample."""

    def test_each_method_keeps_every_total(self):
        for method in ("entropy", "sparse", "sample"):
            told = self.made_of(TOTALS, "--method", method)
            self.check_totals(self.debts(), TOTALS)
            made = (
                f"debts made: {len(self.debts())}; 250 in all; 250 units, the largest {max(self.debts().values())}, "
                f"in {self.folder}/out\n"
            )
            self.assertTrue(told.endswith(made), told)
        self.assertEqual(
            (self.folder / "out/banks.csv").read_text(),
            "name,cash,rule\nA,20,webster\nB,10,webster\nC,30,webster\nD,5,webster\n",
        )

    def test_made_up_totals_are_kept_by_each_method(self):
        draw = random.Random(7)
        for at, size in enumerate([3, 2, 4, 7, 30, 4, 3]):
            claims = {
                (a, b): draw.choice([0, 0, 1, 5, draw.randrange(1, 20000)])
                for a in range(size)
                for b in range(size)
                if a != b
            }
            if at % 4 == 0:
                # Everybody deals with the first alone.
                claims = {pair: claim for pair, claim in claims.items() if 0 in pair}
            table = "bank,assets,liabilities,cash\n" + "".join(
                f"N{n},{sum(c for p, c in claims.items() if p[1] == n)},"
                f"{sum(c for p, c in claims.items() if p[0] == n)},{n}\n"
                for n in range(size)
            )
            words = ["--keep", "N0"] + (["--keep", "N1", "--keep", "N2"] if size < 4 else [])
            for method in ("entropy", "sparse", "sample"):
                self.made_of(table, "--method", method, "--seed", at, "--steps", 500, *words)
                self.check_totals(self.debts(), table)

    def test_entropy_is_as_even_as_totals_allow(self):
        # Four alike owe each other alike; with the diagonal free for nobody that is a third each.
        self.made_of("bank,assets,liabilities,cash\n" + "".join(f"{n},300,300,1\n" for n in "ABCD"))
        self.assertEqual(set(self.debts().values()), {100})
        # Where that is no whole unit it is rounded down or up: 1,000 units to 70 others.
        self.made_of("bank,assets,liabilities,cash\n" + "".join(f"N{n},1000,1000,{n % 7}\n" for n in range(71)))
        self.assertEqual(set(self.debts().values()), {14, 15})
        # A matrix of maximum entropy is a product off the diagonal: each cross of four has the same ratio.
        self.made_of(
            "bank,assets,liabilities,cash\n"
            + "".join(
                f"{n},{a},{b},1\n"
                for n, a, b in [
                    ("A", 400000, 300000),
                    ("B", 200000, 500000),
                    ("C", 350000, 100000),
                    ("D", 150000, 250000),
                    ("E", 120000, 70000),
                ]
            )
        )
        debts = self.debts()
        for a, b, c, d in itertools.permutations("ABCDE", 4):
            self.assertAlmostEqual(debts[a, c] * debts[b, d] / (debts[a, d] * debts[b, c]), 1, 3)

    def test_entropy_is_rounded_down_or_up(self):
        draw = random.Random(9)
        claims = {(a, b): draw.choice([0, 0, 0, 1, 1, 2, 3]) for a in range(25) for b in range(25) if a != b}
        owes, owed = (
            [sum(claim for pair, claim in claims.items() if pair[place] == n) for n in range(25)] for place in (0, 1)
        )
        real = {pair: float(owes[pair[0]] * owed[pair[1]]) for pair in claims}
        for _ in range(200):
            for place, want in ((0, owes), (1, owed)):
                have = [0.0] * 25
                for pair, claim in real.items():
                    have[pair[place]] += claim
                real = {pair: claim * want[pair[place]] / have[pair[place]] for pair, claim in real.items()}
        self.made_of(
            "bank,assets,liabilities,cash\n" + "".join(f"{n},{owed[n]},{owes[n]},{n % 3}\n" for n in range(25))
        )
        debts = self.debts()
        for (a, b), claim in real.items():
            self.assertLess(abs(debts.get((str(a), str(b)), 0) - claim), 1, (a, b))

    def test_too_many_claims_of_entropy_are_cut_with_their_totals_kept(self):
        many = "bank,assets,liabilities,cash\n" + "".join(f"N{n},{1000 + n},{1000 + n},{n % 7}\n" for n in range(143))
        told = self.made_of(many, "--limits", "standard")
        debts = self.debts()
        self.check_totals(debts, many)
        self.assertLessEqual(len(debts), 20_000)
        self.assertNotIn("limits:", told)
        self.assertRegex(
            told,
            (
                "claims left out by --most: 306; [0-9,]+ in all; the largest [0-9]+; the others are fitted to the same "
                "totals\n"
            ),
        )
        told = self.made_of(TOTALS, "--most", 8)
        self.assertLessEqual(len(self.debts()), 8)
        self.check_totals(self.debts(), TOTALS)

    def test_sparse_has_few_claims(self):
        draw = random.Random(3)
        claims = {
            (a, b): draw.randrange(1, 900) for a in range(40) for b in range(40) if a != b and draw.random() < 0.2
        }
        table = "bank,assets,liabilities,cash\n" + "".join(
            f"N{n},{sum(c for p, c in claims.items() if p[1] == n)},{sum(c for p, c in claims.items() if p[0] == n)},"
            "1\n"
            for n in range(40)
        )
        self.made_of(table, "--method", "sparse")
        # No fewer than banks that owe, and no more than a tree of all sides.
        self.assertTrue(40 <= len(self.debts()) <= 79, len(self.debts()))
        self.made_of(table)
        self.assertGreater(len(self.debts()), 1000)

    def test_known_claims_stay(self):
        known = self.file("known.csv", "debtor,creditor,amount\nA,B,31\nC,A,0\nD,C,2\n")
        for method in ("entropy", "sparse", "sample"):
            told = self.made_of(TOTALS, "--method", method, "--known", known)
            self.assertIn("claims that are known, and stay: 3; 33 in all\n", told)
            debts = self.debts()
            self.check_totals(debts, TOTALS)
            self.assertEqual(
                (debts.get(("A", "B")), debts.get(("C", "A")), debts.get(("D", "C"))), (31, None, 2), method
            )
        shutil.rmtree(self.folder / "out")
        self.refuse(
            "no network has these totals with the known claims",
            TOTALS,
            "--known",
            self.file("known.csv", "debtor,creditor,amount\nA,B,61\n"),
        )
        self.refuse(
            "known.csv row 2: there is no bank X in the totals",
            TOTALS,
            "--known",
            self.file("known.csv", "debtor,creditor,amount\nA,X,6\n"),
        )

    def test_a_seed_makes_the_same_networks_for_good(self):
        # These claims stay as they are in each version and on each machine.
        sparse = {("A", "C"): 60, ("B", "A"): 60, ("B", "D"): 30, ("C", "A"): 40, ("D", "B"): 50, ("D", "C"): 10}
        sample = {
            ("A", "B"): 20,
            ("A", "C"): 10,
            ("A", "D"): 30,
            ("B", "A"): 42,
            ("B", "C"): 48,
            ("C", "A"): 40,
            ("D", "A"): 18,
            ("D", "B"): 30,
            ("D", "C"): 12,
        }
        for method, want in [("sparse", sparse), ("sample", sample)]:
            self.made_of(TOTALS, "--method", method, "--seed", 5, "--steps", 500, "--density", 0.9)
            self.assertEqual(self.debts(), want)


class Refused(TotalsCase):
    """Totals that make no network."""

    def test_totals_that_no_network_has_are_refused(self):
        for message, rows in [
            (
                "liabilities come to 30 and assets to 40: assets are 10 more; add a bank that stands for",
                "A,25,10,1\nB,15,20,1\n",
            ),
            (
                "row 2: A owes 20 and is owed 25, together 5 more than all claims, 40: no bank can owe itself",
                "A,25,20,1\nB,10,10,1\nC,5,10,1\n",
            ),
            ("1.5 is not a whole number of units", "A,1.5,1,1\nB,1,1.5,1\n"),
            ("row 5: All is a row of totals", "A,10,20,1\nB,20,5,1\nC,5,10,7\nAll,35,35,9\n"),
            ("a claim of 2,000,000 units, 1,000,000 more than the most", "A,2000000,2000000,1\nB,2000000,2000000,1\n"),
        ]:
            with self.subTest(message=message):
                self.refuse(message, HEAD + rows, *(["--no-rest"] if "add a bank" in message else []))

    def test_words_and_columns_that_do_not_fit_are_refused(self):
        told = "no column assets; it has claims, debts, cash; say --assets NAME"
        self.refuse(told, "bank,claims,debts,cash\nA,1,1,1\n")
        told = "row 2 column assets: 30.445: thousands or decimals?"
        self.refuse(told, HEAD + "A,30.445,1,1\nB,1,30.445,1\n", "--round")
        self.refuse("--samples is for sparse and sample", TOTALS, "--samples", 2, status=2)

    def test_a_line_that_is_a_sum_but_for_one_number_is_one_of_totals(self):
        """It is near, and no bank that doubles all claims."""
        # The line, the column that is off, what the line says there, and what the others come to.
        for all_, column, says, others in (
            ("1501,1500,30", "assets", "1,501", "1,500"),
            ("1500,1450,30", "liabilities", "1,450", "1,500"),
            ("1500,1500,33", "cash", "33", "30"),
        ):
            table = f"{HEAD}AT,700,600,10\nBE,300,400,20\nCH,500,500,0\nAll countries,{all_}\n"
            told = "row 5: All countries is a row of totals: each of its cells is the sum of the others but for what"
            self.refuse(f"{told} is told below", table)
            wrong = f"All countries says {says}, and the others come to {others}: correct the sheet"
            for more in ([], ["--drop", "All countries"]):
                self.refuse(f"row 5 column {column}: {wrong}", table, *more)

    def test_claims_beyond_the_limits_are_refused_with_how_much_is_too_much(self):
        table = HEAD + "A,20000000,20000000,1\nB,20000000,20000000,1\n"
        told = "all claims come to 40,000,000 units:"
        self.refuse(f"{told} 15,000,000 more than the most, 25,000,000", table)
        self.refuse(f"{told} 30,000,000 more than the most, 10,000,000", table, "--limits", "standard")


class Table(TotalsCase):
    """What is made of the table: units, a bank for what is missing, and how far the work is."""

    def test_a_unit_is_chosen_and_the_sums_are_kept(self):
        table = "bank,assets,liabilities,cash\nA,70000025,60000000,20\nB,40000000,50000050,10\nC,20000050,20000025,30\n"
        told = self.made_of(table, "--unit", "auto")
        debts = self.debts()
        self.assertLessEqual(max(debts.values()), 10**6)
        unit = int(re.search("in units of ([0-9]+);", told)[1])
        # A step smaller breaks the limit of a claim or of all.
        self.assertEqual(unit, 50)
        self.assertIn("130,000,075 in all; in units of 50; the largest rounding is 25, and 0 became 0\n", told)
        self.refuse_after("more than the most", table, "--unit", 20, "--round")
        # Rounding takes the two sums apart, and they are brought together.
        told = self.made_of(
            "bank,assets,liabilities,cash\nA,14,4,0\nB,14,14,0\nC,4,14,0\nD,0,0,10\n", "--unit", 10, "--round"
        )
        self.assertIn("32 in all; in units of 10;", told)
        self.assertIn("so that both sums are 3\n", told)
        self.assertEqual(sum(self.debts().values()), 3)

    def refuse_after(self, message: str, table: str, *words: Word) -> None:
        before = (self.folder / "out/debts.csv").read_bytes()
        done = self.run_of(table, *words)
        self.assertEqual((done.returncode, done.stdout), (1, ""))
        self.assertIn(message, done.stderr)
        self.assertEqual((self.folder / "out/debts.csv").read_bytes(), before)

    def test_sums_that_differ_make_a_bank(self):
        head = "bank,assets,liabilities,cash\n"
        told = self.made_of(head + "A,25,10,1\nB,15,20,1\n")
        self.assertIn(
            (
                "banks for those who are not in the file: 1; 10 in all; rest of the world owes the others 10, and has"
                " as much cash, since liabilities come to 30 and assets to 40\n"
            ),
            told,
        )
        self.assertEqual(
            (self.folder / "out/banks.csv").read_text(),
            "name,cash,rule\nA,1,webster\nB,1,webster\nrest of the world,10,webster\n",
        )
        self.assertEqual(sum(claim for (debtor, _), claim in self.debts().items() if debtor == "rest of the world"), 10)
        self.made_of(head + "A,10,25,1\nB,20,15,1\n", "--rest", "Abroad")
        self.assertEqual(
            (self.folder / "out/banks.csv").read_text(), "name,cash,rule\nA,1,webster\nB,1,webster\nAbroad,0,webster\n"
        )
        self.assertEqual(sum(claim for (_, creditor), claim in self.debts().items() if creditor == "Abroad"), 10)

    def test_a_table_is_not_written_over(self):
        table = self.file("banks.csv", TOTALS)
        done = tool("clearing-from-totals", table, "--out", self.folder, python=python_with("numpy"))
        self.assertEqual((done.returncode, done.stdout), (1, ""))
        self.assertIn("also read", done.stderr)
        self.assertEqual([path.name for path in self.folder.iterdir()], ["banks.csv"])
        self.assertEqual(table.read_text(), TOTALS)

    def test_a_terminal_is_told_how_far_each_method_is(self):
        for method, told in (
            ("entropy", b"round of the fit 1 of "),
            ("sparse", b"run 1 of "),
            ("sample", b"per cent of the steps 1 of 100"),
        ):
            main, other = pty.openpty()
            words = [
                self.file("t.csv", TOTALS),
                "--out",
                self.folder / "out",
                "--method",
                method,
                "--summary",
                self.folder / "summary.csv",
            ]
            running = subprocess.Popen(
                [python_with("numpy"), str(ROOT / "bin/clearing-from-totals"), *map(str, words)],
                stdout=subprocess.DEVNULL,
                stderr=other,
            )
            os.close(other)
            said = b""
            with contextlib.suppress(OSError):
                while part := os.read(main, 4096):
                    said += part
            os.close(main)
            self.assertEqual(running.wait(), 0, method)
            self.assertIn(b"clearing-from-totals: " + told, said)
            self.assertTrue(said.endswith(b"\r\x1b[K"), method)


class Kept(Case):
    """What of the sheet is kept in a case."""

    def test_a_long_sheet_is_kept_in_the_case_of_each_sample(self):
        """The limits are those of what the program reads; a copy of a sheet may be longer."""
        sheet = self.file("big.csv", TOTALS.replace("D,30", "D" + " " * 9_000_000 + ",30"))
        for more, folders in (([], ["one"]), (["--samples", 2], ["two/1", "two/2"])):
            place = self.folder / folders[0].partition("/")[0]
            self.told(
                "clearing-from-totals",
                sheet,
                "--method",
                "sparse",
                "--case",
                place,
                "--keep-sources",
                "--limits",
                "standard",
                *more,
            )
            for folder in folders:
                self.assertEqual((self.folder / folder / "sources/big.csv").read_bytes(), sheet.read_bytes())

    def test_no_other_file_of_a_case_passes_the_limits(self):
        """A folder that has the name of that of the sheets is none of them."""
        args = options.argparse.Namespace(case="sources", limits="standard", summary=None, replace=False)
        large = "x" * 8_400_000
        for name in ("sources/banks.csv", "sources/1/debts.csv", "sources/sources/1/labels.csv", "b/sources/banks.csv"):
            outputs = [("sources/datapackage.json", "{}"), ("sources/1/datapackage.json", "{}"), (name, large)]
            with self.assertRaisesRegex(ToolError, "would have 8,400,000 bytes"):
                options.write(options.Conversion(outputs, [], summary.Summary()), args)
