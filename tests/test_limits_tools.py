"""The limits of networks in the tools: which are taken where nobody says so, what is told of it, what keeps them."""
import collections
import decimal
import random
import re
import subprocess
import types
import unittest
from typing import Any

from common import CHAIN, ROOT, Case, files_of, needs_modules, needs_packages, tool
from pythons import python_with

import clearing_client as cc
from clearing_client.format import MAX_CLAIM
from clearing_client.limits import LIMITS, MOST
from clearing_tools import cases, cli, files, fullnames, money, texts
from clearing_tools.checks import linter
from clearing_tools.drawing import blocks
from clearing_tools.drawing import network as drawing
from clearing_tools.evidence import audit, layout, parts
from clearing_tools.exports import tidy
from clearing_tools.report import original, page, player, stands
from clearing_tools.report import parts as report_parts
from clearing_tools.report.charts import network, scenarios

DEBTS, JOURNAL = b"debtor,creditor,class,claim\n", b"stamp,debtor,creditor,class,to\n"
BANKS = b"name,cash,rule\n" + b"".join(b"N%d,0,order\n" % n for n in range(1001))
TOLD = "the network is read by the wide limits, as it has more than 1,000 banks; --limits wide says so\n"
Owed = collections.namedtuple("Owed", "debtor creditor class_ claim paid")


class Tools(Case):
    def setUp(self):
        super().setUp()
        self.files = ["--banks", self.file("b.csv", BANKS), "--debts", self.file("d.csv", DEBTS + b"N0,N1,1,5\n")]

    def test_all_limits_stand_in_one_table_but_for_the_audit_which_shares_no_code(self):
        for name, limits in LIMITS.items():
            own = audit.LIMITS[name]
            self.assertEqual(own[:4], limits[:4])
            self.assertEqual(
                [own.most_of(file) for file in ("banks", "debts", "journal")],
                [limits.bytes[file] for file in ("banks", "debts", "journal")],
            )

    def test_no_file_of_a_network_and_no_text_on_its_debts_is_too_long_for_the_tools(self):
        name, claim = "n" * 64, MAX_CLAIM
        bank = len(f"{name},fundamental\n") + 8 * 17
        for words in ("clear", "bounds", "cost-bounds", "check", "rescue"):
            amounts = {"check": 1, "clear": 2, "rescue": 2}.get(words, 3)
            debt = len(f"{name},{name},9" + f",{claim}" * amounts + "\n")
            self.assertLess(1_000 + MOST.debts * debt + MOST.banks * bank, files.MOST_BYTES, words)
            self.assertLess(
                MOST.debts * debt, layout.most_of("as-is/payments.csv") if amounts == 2 else files.MOST_BYTES
            )
        self.assertLess(max(MOST.bytes["banks"], MOST.bytes["debts"]), files.MOST_BYTES)
        # A journal, with the payments behind it.
        raised = len(f"{2**32 - 1},{name},{name},9,{claim}\n") * MOST.raises
        self.assertLess(min(raised, MOST.bytes["journal"]) + MOST.debts * debt, tidy.MOST_BYTES)

    def test_what_is_too_long_for_an_evidence_is_refused_and_not_cut(self):
        labels = self.file("l.csv", b"bank,short,full,group,country\n" + b"N1,,%b,,\n" % (b"x" * layout.MOST_OF_OTHERS))
        words = [*self.files, "--changes", labels]
        done = subprocess.run([ROOT / "bin/clearing-evidence", "make", self.folder / "e", *words], capture_output=True)
        self.assertEqual((done.returncode, (self.folder / "e").exists()), (4, False))
        self.assertIn(b"l.csv is longer than 8,388,608 bytes", done.stderr)

    def test_lint_names_what_passes_the_limits_that_were_said(self):
        done = tool("clearing-lint", *self.files)
        self.assertEqual((done.returncode, done.stdout, done.stderr), (0, "no fault\n", f"clearing-lint: {TOLD}"))
        done = tool("clearing-lint", *self.files, "--limits", "wide")
        self.assertEqual((done.returncode, done.stdout, done.stderr), (0, "no fault\n", ""))
        done = tool("clearing-lint", *self.files, "--limits", "standard")
        self.assertEqual(done.returncode, 1)
        self.assertIn(
            "too many (12): the file has 1,001 banks, and the most is 1,000; read it by --limits wide\n", done.stdout
        )
        self.assertEqual(tool("clearing-lint", *self.files, "--limits", "big").returncode, 2)
        for limits in LIMITS:
            most = LIMITS[limits]
            for count, kinds in ((most.banks, []), (most.banks + 1, ["too many"])):
                banks = b"name,cash,rule\n" + b"".join(b"N%d,1,order\n" % n for n in range(count))
                self.assertEqual([fault.kind for fault in linter.Linter(banks, DEBTS, limits).faults], kinds)
            claims = [10**6] * (most.owed // 10**6)
            for more, kinds in (([], []), ([1], ["total"])):
                rows = b"".join(b"N%d,N%d,1,%d\n" % (at, at + 1, claim) for at, claim in enumerate([*claims, *more]))
                whole = linter.Linter(BANKS[: BANKS.index(b"N100,")], DEBTS + rows, limits)
                self.assertEqual([fault.kind for fault in whole.faults], kinds)

    def test_the_audit_follows_a_journal_by_the_limits(self):
        banks = BANKS.replace(b"N0,0,", b"N0,7,")
        files = {"banks": banks, "debts": DEBTS + b"N0,N1,1,5\n", "journal": JOURNAL + b"1,N0,N1,1,5\n"}
        self.assertEqual(
            audit.judge(files, "wide"),
            (["1 raises lawful", "nobody can pay more", "payments: none given", "defaults: none given"], 0),
        )
        self.assertEqual(audit.judge(files), (["banks row 1001: too many (12)"], 4))
        names = [word for name, data in files.items() for word in (f"--{name}", self.file(f"{name}.csv", data))]
        done = tool("clearing-audit", *names)
        what = (
            "the network is read by the wide limits, as it passes the standard ones (banks row 1001: too many (12));"
            " --limits wide says so"
        )
        self.assertEqual((done.returncode, done.stderr), (0, f"audit.py: {what}\n"))
        self.assertEqual(tool("clearing-audit", *names, "--limits", "wide").stderr, "")
        done = tool("clearing-audit", *names, "--limits", "standard")
        self.assertEqual((done.returncode, done.stderr), (4, "audit.py: banks row 1001: too many (12)\n"))

    def test_evidence_says_wide_limits_in_its_commands(self):
        one = parts.Part("as it is", "as-is", None)
        for by, words in (("standard", []), ("wide", ["--limits", "wide"])):
            commands = parts.commands_of([one], True, "A", by)
            self.assertEqual({" ".join(words) in " ".join(command) for _, command in commands}, {True})
            self.assertEqual(sum("--limits" in command for _, command in commands), len(commands) if words else 0)
            self.assertEqual(layout.limits_of(layout.commands_text(commands)), by)

    def test_a_case_that_was_described_by_wide_limits_is_read_by_them(self):
        net, wide = cc.Network(CHAIN / "banks.csv", CHAIN / "debts.csv"), ["--limits", "wide"]
        for limits, more, words in (
            ("wide", [], wide),
            (None, [], []),
            (None, wide, wide),
            ("wide", ["--limits", "standard"], []),
        ):
            cc.Case(net, title="Chain", limits=limits).write(self.folder / "case", replace=True)
            parser = cli.case_parser("A tool.")
            asked = parser.parse_args([str(self.folder / "case"), *more])
            taken = cases.take_case(parser, asked)
            self.assertEqual(
                (cli.words_of(taken)[2:], taken.case.limits), (words, "wide" if words else "standard"), (limits, more)
            )
        # The program gets the words.
        self.program('for word in "$@"; do last=$word; done; [ "$last" = wide ] || exit 9; echo "bank,cut,state"\n')
        self.assertEqual(tool("clearing-breaking", *files_of(CHAIN), *wide).stdout, "bank,cut,state\n")
        self.assertEqual(tool("clearing-breaking", *self.files).stdout, "bank,cut,state\n")
        self.assertEqual(tool("clearing-breaking", *files_of(CHAIN)).returncode, 1)

    @needs_modules("numpy")
    def test_estimates_keep_as_many_claims_as_the_limits_have(self):
        table = self.file(
            "t.csv",
            "bank,assets,liabilities,cash\n" + "".join(f"N{n},{1000 + n},{1000 + n},{n % 7}\n" for n in range(143)),
        )
        words = ["clearing-from-totals", table, "--out", self.folder / "made"]
        python = python_with("numpy")
        debts = self.folder / "made/debts.csv"
        kept = lambda *more: (self.told(*words, *more, python=python), debts.read_bytes().count(b"\n") - 1)
        needed = "as the standard ones have at most 1,000 banks, 20,000 debts and 10,000,000 units owed"
        for more, what in (([], needed), (["--limits", "wide"], "as was said")):
            told, count = kept(*more)
            self.assertEqual(count, 143 * 142)
            self.assertIn(f"limits: wide, {what}: clearing reads the files by --limits wide\n", told)
        told, count = kept("--limits", "standard")
        self.assertLessEqual(count, 20_000)
        self.assertNotIn("limits:", told)
        self.assertEqual(kept("--most", 20_200)[1], 20_200)
        self.assertEqual(tool(*words, "--most", 20_200, "--limits", "standard", python=python).returncode, 2)
        # A bank that owes nothing, or is owed nothing, has no claims on that side: these need no wide limits.
        rows = [(f"N{n}", *((1000, 0) if n % 2 else (0, 1000))) for n in range(282)]
        for times, unit in ((1, 1), (90, 2)):
            lines = [f"{name},{times * owed},{times * owes},1\n" for name, owed, owes in rows]
            self.file("t.csv", "".join(["bank,assets,liabilities,cash\n", *lines]))
            told, count = kept("--unit", "auto")
            self.assertEqual((count, "limits:" in told), (141 * 141, False))
            self.assertIn(f"units of {unit};", told)


class LargeReports(unittest.TestCase):
    def large(self, count: int, has_unpaid: bool = True) -> Any:
        """What a report has of a network drawn at random, as far as is asked for here."""
        rng = random.Random(count)
        names = [f"N{at}" for at in range(count)]
        debts = []
        for _ in range(6 * count):
            debtor, creditor, claim = rng.choice(names), rng.choice(names[: count // 3]), rng.randint(1, 500)
            paid = rng.randint(0, claim) if has_unpaid and int(debtor[1:]) % 2 else claim
            debts += [Owed(debtor, creditor, 1, claim, paid)] if debtor != creditor else []
        owed, paid = collections.Counter(), collections.Counter()
        for debt in debts:
            owed[debt.debtor] += debt.claim
            paid[debt.debtor] += debt.paid
        banks = [
            texts.Bank(name, 9, 0, 0, paid[name], owed[name], 0, "sound" if paid[name] == owed[name] else "contagion")
            for name in names
        ]
        place = {name: at for at, name in enumerate(names)}
        return types.SimpleNamespace(
            banks=banks,
            debts=debts,
            place=place,
            called=str,
            names=fullnames.FullNames(),
            money=money.Money(None, None),
            cash=dict.fromkeys(names, 9),
            frames=None,
        )

    def test_of_very_many_banks_a_thousand_have_parts(self):
        for has_unpaid in (True, False):
            matter = self.large(3_000, has_unpaid)
            chosen = report_parts.with_parts(matter)
            self.assertLessEqual(len(chosen), 1_000)
            self.assertGreater(len(chosen), 500)
            unpaid = sorted(matter.banks, key=lambda bank: (bank.owed - bank.paid, bank.owed), reverse=True)
            self.assertTrue({bank.name for bank in unpaid[:500]} <= chosen)
            # All whom the picture names have one.
            rows, columns = blocks.blocks_of(texts.flows_of(matter.debts, matter.banks), matter.banks)
            self.assertEqual((len(rows.names), len(columns.names)), (12, 12))
            self.assertTrue({*rows.names, *columns.names} <= set(chosen))
        small = self.large(1_000)
        self.assertEqual(len(report_parts.with_parts(small)), 1_000)

    @needs_packages("markupsafe")
    def test_the_name_of_a_bank_without_a_part_leads_to_its_row(self):
        from markupsafe import Markup

        matter = self.large(3_000)
        names, chosen = page.Texts(matter, Markup), report_parts.with_parts(matter)
        for at, bank in enumerate(matter.banks):
            has_part = bank.name in chosen
            self.assertEqual(names.link(bank.name), f'<a href="#{"bank" if has_part else "row"}-{at}">{bank.name}</a>')
            self.assertEqual("<a " in names.head(at, bank.name), has_part)

    def test_all_others_together_do_not_hide_the_debtors_by_name(self):
        owed = [Owed(f"N{at}", f"C{at}", 1, 400 - at, 0) for at in range(12)] + [Owed("N0", "C1", 1, 100, 0)]
        few, many = [Owed(f"M{at}", f"D{at}", 1, 40, 0) for at in range(30)], [
            Owed(f"M{at}", f"D{at}", 1, 40, 0) for at in range(300)
        ]
        for others, most, broken in ((few, 1_200, 0), (many, 400, 1)):
            debts = owed + others
            names = sorted({name for debt in debts for name in (debt.debtor, debt.creditor)})
            owes = {debt.debtor for debt in debts}
            banks = [texts.Bank(name, 0, 0, 0, 0, 500, 0, "fundamental" if name in owes else "sound") for name in names]
            drawn = drawing.drawing_of(texts.flows_of(debts, banks), banks, money.Money(None, None), "matrix")
            cells = re.findall(
                r'<g class="flow cell( over)?".*?<title>(.*?)</title><rect class="sq".*? width="([0-9.]+)"', drawn.body
            )
            self.assertEqual((len(cells), drawn.most), (14, most))
            sides = {title: float(side) for _, title, side in cells}
            self.assertEqual(
                [title for over, title, _ in cells if over],
                ["300 others in default to 300 others that stand: 0 of 12,000 paid"] * broken,
            )
            # Areas are amounts up to the largest that has one.
            for title, side in sides.items():
                unpaid = int(title.split(" of ")[1].split()[0].replace(",", ""))
                self.assertAlmostEqual(side, 32 * min(1, unpaid / most) ** 0.5, delta=0.06, msg=title)
            words = [words for _, words in drawn.legend]
            self.assertIn(
                f"unpaid; area: the amount; the largest is {most:,} units",
                [said.replace("\u00a0", " ") for said in words],
            )
            self.assertEqual(
                [said.replace("\u00a0", " ") for said in words if "together" in said],
                ["unpaid by many together, more than the areas show: up to 12,000 units"] * broken,
            )

    def test_scenarios_are_told_by_two_digits_at_least(self):
        euros = money.Money(decimal.Decimal(1000), "EUR")
        for said, totals, cash, words, numbers in (
            (money.Money(), (700_257, 910_905), 3_960_878, "thousand units", ["700", "911", "3,961"]),
            (money.Money(), (12_000_000, 0), 3_960_878, "million units", ["12", "0", "4"]),
            (money.Money(), (70, 91), 396, "units", ["70", "91", "396"]),
            (euros, (1_493_329, 6_610_000), 9_000_000, "EUR billion", ["1.49", "6.61", "9.00"]),
            (euros, (93_329, 6_610_000), 9_000_000, "EUR million", ["93", "6,610", "9,000"]),
        ):  # fmt: skip
            cases = [scenarios.Case(f"S{at}", {"A": total}, {}, [], at * cash) for at, total in enumerate(totals)]
            scale = scenarios.scale_for(said, cases)
            self.assertEqual((scale.words, [*map(scale.number, (*totals, cash))]), (words, numbers))

    def test_a_scenario_is_told_in_units_as_in_a_currency(self):
        for said, sums, told in (
            (
                money.Money(),
                (700, 910),
                "In the worst of one scenario 910 units stay unpaid, 210 units more than as things are",
            ),
            (
                money.Money(None, "EUR"),
                (700, 910),
                "In the worst of one scenario EUR 910 stays unpaid, EUR 210 more than as things are",
            ),
        ):
            cases = [scenarios.Case("S", {"A": total}, {}, [], at) for at, total in enumerate(sums)]
            self.assertEqual(scenarios.title_of(types.SimpleNamespace(money=said, amount=said), cases), told)

    def test_a_page_without_a_journal_has_no_debts_for_it(self):
        matter = self.large(60)
        flows = texts.flows_of(matter.debts, matter.banks)
        drawn = drawing.drawing_of(
            flows, matter.banks, matter.money, "matrix", lambda bank: f"bank-{matter.place[bank.name]}"
        )
        without = player.data_of(matter, drawn)
        self.assertFalse({"debts", "flowOf", "cash", "owed"} & set(without))
        matter.frames = []
        with_frames = player.data_of(matter, drawn)
        self.assertEqual(len(with_frames["debts"]), 4 * len(matter.debts))
        self.assertEqual({key: with_frames[key] for key in without}, {**without, "frames": []})

    def test_of_very_many_debts_the_largest_stand_and_the_others_as_one(self):
        owed = [Owed("A", f"B{n}", 1, 100 + n, 100 + n - (n % 3)) for n in range(30)]
        largest, others = report_parts.largest_of(owed, 10)
        self.assertEqual([debt.creditor for debt in largest], [f"B{n}" for n in range(2, 30, 3)])
        self.assertEqual((len(others), set(largest) | set(others)), (20, set(owed)))
        self.assertEqual(report_parts.largest_of(owed, 30), (owed, []))
        money = types.SimpleNamespace(number=str)
        small = types.SimpleNamespace(debts=owed, banks=[None] * 31, money=money)
        self.assertIsNone(report_parts.debts_of(small, owed, 1).rest)
        large = types.SimpleNamespace(debts=owed * 1000, banks=[None] * 5000, money=money)
        told = report_parts.debts_of(large, owed, 1)
        self.assertEqual((len(told.rows), told.more), (10, 20))
        for word in ("claim", "paid", "unpaid"):
            self.assertEqual(sum(int(getattr(row, word)) for row in [*told.rows, told.rest]), int(getattr(told, word)))

    def test_half_the_unit_is_tried_by_the_wide_limits_where_the_standard_ones_have_no_room(self):
        asked = []
        program = types.SimpleNamespace(
            put=lambda name, data: name,
            ask=lambda name, *words: asked.append(words),
            result=lambda *_: types.SimpleNamespace(standings=[]),
        )
        header = ["debtor", "creditor", "class", "claim"]
        for claims, limits, may, words in (
            (9 * [500_000], "standard", True, []), (18 * [500_000], "standard", True, ["--limits", "wide"]),
            (24 * [500_000], "wide", True, ["--limits", "wide"]), (3 * [500_000], "wide", True, ["--limits", "wide"]),
            (26 * [500_000], "wide", False, None), ([500_001], "standard", False, None),
        ):  # fmt: skip
            debts = [[f"A{at}", "B", "1", str(claim)] for at, claim in enumerate(claims)]
            files = original.Files(["name", "cash", "rule"], [["B", "1", "order"]], header, debts)
            one = stands.Stands(original.Original(program, files, ("b.csv", "d.csv"), limits), [], None, str)
            self.assertEqual(one.may_double(), may, claims)
            if may:
                one.by_unit(stands.HALF)
                files = ("--banks", "banks-half-unit.csv", "--debts", "debts-half-unit.csv")
                self.assertEqual(asked.pop()[1:], (*files, *words))

    def test_the_numbers_of_the_picture_have_the_largest_flows_and_one_for_all_others(self):
        flows = [network.Flow(f"A{n}", f"B{n}", 10, 10 - n % 2) for n in range(20_003)]
        rows = network.rows_of(flows)
        self.assertEqual((len(rows), rows[-1]), (20_001, ("all others", "all others", 30, 30, 0)))
        self.assertEqual(
            network.rows_of(flows[:5]), [(f.debtor, f.creditor, f.claim, f.paid, f.claim - f.paid) for f in flows[:5]]
        )


if __name__ == "__main__":
    unittest.main()
