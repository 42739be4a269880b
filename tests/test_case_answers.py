"""What is asked of cases: two side by side, many networks, whether an answer stands, and scenarios from a sheet."""
import csv
import io
import tomllib
import unittest
import warnings
from decimal import Decimal
from typing import Any, Dict, List

import common
from common import TWELVE, Case, needs_packages

import clearing_client as cc
from clearing_client.ensemble import five_of
from clearing_client.steady import half, other_units, unsteady, within_limits

BANKS = [("A", 7, "webster"), ("B", 1, "webster"), ("C", 0, "webster"), ("D", 9, "webster")]
DEBTS = [("A", "B", 1, 7), ("B", "C", 1, 8), ("D", "A", 1, 2)]


def network(banks: Any = BANKS, debts: Any = DEBTS) -> cc.Network:
    return cc.Network(banks, debts)


def one_unit(more: int = 0) -> cc.Network:
    """A network in which one unit decides over B and C, unless A and B have more."""
    banks = [("A", 1 + more, "webster"), ("B", 1 + more, "webster"), ("C", 0, "webster")]
    return cc.Network(banks, [("A", "B", 1, 1), ("B", "C", 1, 2)])


class Compared(Case):
    def test_who_falls_comes_and_goes_and_by_how_much(self):
        before = cc.Case(network(), unit="0.5", currency="EUR", title="Before")
        after = cc.Case(
            cc.Network(
                [("A", 4, "webster"), ("B", 1, "webster"), ("C", 0, "webster"), ("E", 1, "webster")],
                DEBTS[:2] + [("E", "A", 1, 3)],
            ),
            unit="0.25",
            currency="EUR",
            labels=[cc.Label("A", full="Alpha")],
        )
        done = cc.compare(before, after)
        self.assertEqual([bank.change for bank in done.banks], ["falls", "falls", "", "went", "came"])
        a = done.banks[0]
        # 9 units of 0.5 before, of which 7 are paid; 4 and 1 units of 0.25 afterwards, which are all paid.
        self.assertEqual(
            (a.paid_before, a.paid_after, a.more("paid"), a.kept_before, a.kept_after),
            (Decimal("3.5"), Decimal("1.25"), Decimal("-2.25"), Decimal(1), Decimal(0)),
        )
        self.assertEqual((a.owed_before, a.owed_after), (Decimal("3.5"), Decimal("1.75")))
        went = done.banks[3]
        self.assertEqual((went.paid_after, went.more("owed")), (None, Decimal(-1)))
        self.assertEqual(done.of("falls"), ["A", "B"])
        with self.assertRaisesRegex(cc.CaseError, "in EUR and USD"):
            cc.compare(before, cc.Case(network(), currency="USD"))

    def test_banks_stand_as_in_the_first_case_and_behind_them_those_that_came(self):
        """In the order of the files, whatever their letters, and whether they are equal but for capitals."""
        before, after = (
            cc.Network(dict.fromkeys(names, 1), {}) for names in (["Zeta", "alma", "Mu"], ["Nu", "Alma", "Mu", "Zeta"])
        )
        done = cc.compare(before, after)
        self.assertEqual(
            [(bank.bank, bank.change) for bank in done.banks],
            [("Zeta", ""), ("alma", "went"), ("Mu", ""), ("Nu", "came"), ("Alma", "came")],
        )

    def test_what_a_unit_is_worth_counts_where_no_currency_is_said(self):
        bank = cc.compare(cc.Case(network(), unit="2"), cc.Case(network(), unit="0.5")).banks[0]
        self.assertEqual(
            (bank.paid_before, bank.paid_after, bank.more("paid")), (Decimal(14), Decimal("3.5"), Decimal("-10.5"))
        )

    def test_a_bank_that_is_saved_and_one_that_has_another_label(self):
        self.assertEqual(
            [bank.change for bank in cc.compare(network([("A", 0, "order"), *BANKS[1:]]), network()).banks][:2],
            ["saved", "saved"],
        )
        poor = network([("A", 0, "order"), ("B", 0, "order"), *BANKS[2:]])
        self.assertEqual(
            [bank.change for bank in cc.compare(network([("A", 0, "order"), *BANKS[1:]]), poor).banks][:2],
            ["", "label"],
        )

    def test_the_command_writes_a_table_a_page_and_a_workbook(self):
        one, other = self.folder / "one", self.folder / "other"
        cc.Case(network(), title="Before <b>", currency="EUR", unit="2").write(one)
        cc.Case(
            network([("A", 3, "webster"), *BANKS[1:]]),
            title="After",
            currency="EUR",
            unit="2",
            labels=[cc.Label("A", full="Alpha & Söhne")],
        ).write(other)
        told = self.made("clearing-case", "compare", one, other, "--page", self.folder / "p.html")
        rows = list(csv.DictReader(io.StringIO(told)))
        self.assertEqual(
            (rows[0]["bank"], rows[0]["full"], rows[0]["change"], rows[0]["paid_more"], rows[0]["note"]),
            ("A", "Alpha & Söhne", "falls", "-4", ""),
        )
        page = (self.folder / "p.html").read_text()
        self.assertIn("<li>Falls: Alpha &amp; Söhne, B</li>", page)
        self.assertIn("<h1>Before &lt;b&gt; and After</h1>", page)
        self.assertNotIn("<b>", page)
        self.assertNotIn("≈", page)

    def test_banks_have_the_full_names_of_all_cases_those_of_the_later_one_first(self):
        before = cc.Case(network(), labels=[cc.Label("A", full="Alpha"), cc.Label("D", full="Delta")])
        after = cc.Case(
            cc.Network([*BANKS[:3], ("E", 4, "webster")], DEBTS[:2]),
            labels=[cc.Label("A", full="Alpha & Co"), cc.Label("B", "Be"), cc.Label("E", full="Epsilon")],
        )
        names = {"A": "Alpha & Co", "B": "", "C": "", "D": "Delta", "E": "Epsilon"}
        rows = self.compared(before, after)
        self.assertEqual({row["bank"]: row["full"] for row in rows}, names)
        page = (self.folder / "page.html").read_text()
        self.assertIn("<li>Came: Epsilon</li>\n<li>Went: Delta</li>", page)
        told = self.made("clearing-case", "ensemble", self.folder / "before", self.folder / "after")
        shares = csv.DictReader(io.StringIO(told.split("\n\n")[0]))
        self.assertEqual({row["bank"]: row["full"] for row in shares if row["task"] == "defaults"}, names)

    def test_the_page_says_what_amounts_are_in_by_both_cases(self):
        for units, currencies, told in [
            ("11", (None, None), "units"),
            ("21", (None, None), "the currency"),
            ("12", (None, None), "the currency"),
            ("21", ("EUR", None), "EUR"),
            ("12", (None, "EUR"), "EUR"),
        ]:
            self.compared(*(cc.Case(network(), unit=unit, currency=one) for unit, one in zip(units, currencies)))
            self.assertIn(f"<p>Amounts in {told}.</p>", (self.folder / "page.html").read_text())

    def test_a_bank_that_one_unit_decides_is_marked(self):
        place = self.folder / "one"
        cc.Case(one_unit(), labels=[cc.Label("B", full="Beta")]).write(place)
        rows = list(
            csv.DictReader(
                io.StringIO(self.made("clearing-case", "compare", place, place, "--page", self.folder / "p"))
            )
        )
        self.assertEqual([row["note"] for row in rows], ["", "one unit decides", "one unit decides"])
        page = (self.folder / "p").read_text()
        self.assertIn("<td class=word>Beta ≈</td>", page)
        self.assertIn("<p>≈ one unit decides: where a unit is worth twice or half as much", page)
        share = cc.ensemble([one_unit(), one_unit(9)]).shares
        self.assertEqual([(one.bank, one.unsteady) for one in share], [("A", 0), ("B", 1), ("C", 1)])
        self.assertEqual(share[1].sentence("Beta"), "Beta defaults in 0 of 2 networks; one unit decides in 1")

    def compared(self, before: cc.Case, after: cc.Case) -> List[Dict[str, str]]:
        """The records of the table of two cases; the page is left in the folder."""
        places = [self.folder / name for name in ("before", "after")]
        for case, place in zip((before, after), places):
            case.write(place, replace=True)
        told = self.made("clearing-case", "compare", *places, "--page", self.folder / "page.html")
        return list(csv.DictReader(io.StringIO(told)))

    def test_a_bank_that_one_unit_decides_in_one_of_two_cases_is_marked(self):
        for units in ((0, 9), (9, 0)):
            rows = self.compared(*(cc.Case(one_unit(more)) for more in units))
            self.assertEqual([row["note"] for row in rows], ["", "one unit decides", "one unit decides"], units)

    def test_amounts_beyond_2_to_the_53rd_are_exact(self):
        rich = cc.Network([("A", 10**12 - 1, "order"), ("B", 0, "order")], [("A", "B", 1, 1)])
        less = rich.with_cash({"A": 10**12 - 2})
        row = self.compared(cc.Case(rich, unit="10001"), cc.Case(less, unit="10001"))[0]
        kept = [str(10001 * (10**12 - 2)), str(10001 * (10**12 - 3)), "-10001"]
        self.assertEqual([row[f"kept_{when}"] for when in ("before", "after", "more")], kept)
        page = (self.folder / "page.html").read_text()
        self.assertIn(f"<td class=amount>{10001 * (10**12 - 2):,}</td>", page)

    def test_ten_banks_are_named_and_of_more_the_others_counted(self):
        for count, more in ((9, ""), (10, ""), (11, " and 1 more"), (31, " and 21 more")):
            names = [f"B{at}" for at in range(count)]
            debts = [(name, "C", 1, 5) for name in names]
            nets = [cc.Network({**dict.fromkeys(names, cash), "C": 9}, debts) for cash in (5, 4)]
            self.compared(*map(cc.Case, nets))
            falls = f"<li>Falls: {', '.join(names[:10])}{more}</li>"
            self.assertIn(falls, (self.folder / "page.html").read_text())

    @needs_packages("openpyxl")
    def test_two_cases_as_a_workbook(self):
        import openpyxl

        place, book = self.folder / "one", self.folder / "book.xlsx"
        cc.Case(network(), unit="2.5", currency="EUR").write(place)
        self.made("clearing-case", "compare", place, place, "--output", book)
        rows = list(openpyxl.load_workbook(book)["banks"].iter_rows(values_only=True))
        self.assertEqual((rows[0][0], rows[0][-1], rows[1][0], rows[1][4]), ("bank", "note", "A", 17.5))


class Many(Case):
    def nets(self) -> List[cc.Network]:
        return [network([("A", cash, "webster"), *BANKS[1:]]) for cash in (3, 4, 5, 6, 7)]

    def test_numbers_are_spread_and_defaults_counted(self):
        done = cc.ensemble(self.nets(), ["defaults", "breaking", "rescues", "impact"])
        share = done.shares[0]
        self.assertEqual(
            (share.sentence(), share.fundamental), ("A defaults in 2 of 5 networks; one unit decides in 2", 2)
        )
        spread = next(one for one in done.spreads if (one.task, one.bank, one.number) == ("defaults", "A", "paid"))
        self.assertEqual((spread.networks, *spread[4:]), (5, 5, 6, 7, 7, 7))
        self.assertEqual({one.task for one in done.spreads}, {"defaults", "breaking", "rescues", "impact"})
        added = next(one for one in done.spreads if (one.bank, one.number) == ("A", "added"))
        self.assertEqual(added[4:], (0, 0, 0, 1, 2))

    def test_a_quartile_is_the_least_number_that_so_many_are_not_above(self):
        for count in (1, 2, 3, 4, 5, 8, 10, 31, 200):
            numbers = [Decimal(number * 7 % 11) for number in range(count)]
            least, *quartiles, greatest = five_of(numbers)
            self.assertEqual((least, greatest), (min(numbers), max(numbers)))
            for part, quartile in enumerate(quartiles, 1):
                are_enough = [one for one in numbers if 4 * sum(other <= one for other in numbers) >= part * count]
                self.assertEqual(quartile, min(are_enough), (count, part))

    def test_a_bank_of_some_networks_is_counted_in_these(self):
        done = cc.ensemble([network(), network(BANKS[:3], DEBTS[:2])])
        self.assertEqual({one.bank: one.networks for one in done.shares}, {"A": 2, "B": 2, "C": 2, "D": 1})

    def test_amounts_of_several_currencies_are_not_put_together(self):
        euros, dollars, bare = (cc.Case(network(), currency=code, unit="2") for code in ("EUR", "USD", None))
        for cases in ([euros, dollars], [bare, euros, bare, dollars, euros]):
            with self.assertRaisesRegex(cc.CaseError, "the cases are in EUR and USD"):
                cc.ensemble(cases)
        self.assertEqual(cc.ensemble([bare, euros, euros]).shares[0].networks, 3)
        places = [self.folder / "one", self.folder / "other"]
        for case, place in zip((euros, dollars), places):
            case.write(place)
        for task in ("compare", "ensemble"):
            self.refused("clearing-case", 1, "clearing.currency: the cases are in EUR and USD", task, *places)

    def test_costs_want_what_default_keeps(self):
        with self.assertRaisesRegex(cc.CaseError, "clearing.keep"):
            cc.ensemble(self.nets(), "costs")
        cases = [cc.Case(net, keep=500) for net in self.nets()]
        kept = cc.ensemble(cases, "costs").spreads
        # With 3 and 4 units A has 5 and 6, and half of them, rounded down, is left.
        self.assertEqual([one[4:] for one in kept if (one.bank, one.number) == ("A", "lost")], [(0, 0, 0, 3, 3)])
        self.assertEqual(cc.ensemble(cases, "costs", 1000).shares, cc.ensemble(cases, "costs", keep=1000).shares)
        for wrong in ("clear", ""):
            with self.assertRaises(ValueError):
                cc.ensemble(self.nets(), wrong)

    @needs_packages("matplotlib")
    def test_the_command_asks_all_samples_and_draws(self):
        folders = []
        for at, net in enumerate(self.nets()):
            folders.append(self.folder / str(at))
            cc.Case(net, unit="10").write(folders[-1])
        told = self.made("clearing-case", "ensemble", *folders, "--picture", self.folder / "p.svg")
        head = "task,bank,defaults,fundamental,networks,unsteady,sentence\n"
        self.assertTrue(
            told.startswith(f"{head}defaults,A,2,2,5,2,A defaults in 2 of 5 networks; one unit decides in 2\n")
        )
        self.assertIn("defaults,A,paid,5,50,60,70,70,70\n", told)
        self.assertIn("<svg", (self.folder / "p.svg").read_text())


class Standing(Case):
    def test_a_figure_of_one_unit_does_not_stand(self):
        # B owes 3 and has 1 and 1: half of each is 2 and 0 and 0, rounded to the even one.
        net = one_unit()
        left = cc.stands(net)
        self.assertEqual(
            left.variations,
            (
                "as it is",
                "unit x2",
                "unit /2",
                "debts reversed",
                "all webster",
                "one class",
                "keeps 950",
                "keeps 900",
                "keeps 800",
                "greatest",
            ),
        )
        self.assertEqual(
            [left.banks["B"][name].words() for name in left.variations[:3]], ["sound at 0", "fundamental", "sound at 0"]
        )
        self.assertEqual((left.unsteady, left.changed), (["B", "C"], ["B", "C"]))
        self.assertEqual(cc.unsteady(net), ["B", "C"])
        self.assertEqual(cc.unsteady(net, {bank: cc.Place("sound", True) for bank in "ABC"}), ["A", "B", "C"])

    def test_each_variation_changes_what_it_says(self):
        # The order of the file, the rule and the class decide who is paid; what default costs, and gridlock.
        banks = [
            ("A", 5, "order"),
            ("B", 0, "webster"),
            ("C", 0, "webster"),
            ("D", 100, "webster"),
            ("G", 0, "order"),
            ("H", 0, "order"),
        ]
        debts = [
            ("A", "B", 1, 4),
            ("A", "C", 2, 4),
            ("B", "D", 1, 4),
            ("C", "D", 1, 1),
            ("G", "H", 1, 7),
            ("H", "G", 1, 7),
        ]
        left = cc.stands(cc.Network([(n, 10 * c, r) for n, c, r in banks], [(a, b, k, 10 * x) for a, b, k, x in debts]))
        words = {bank: {name: place.words() for name, place in places.items()} for bank, places in left.banks.items()}
        self.assertEqual(
            (words["B"]["as it is"], words["B"]["debts reversed"], words["B"]["one class"]),
            ("sound at 0", "sound at 0", "sound at 0"),
        )
        self.assertEqual((words["C"]["as it is"], words["C"]["keeps 800"]), ("sound at 0", "contagion"))
        self.assertEqual((words["G"]["as it is"], words["G"]["greatest"]), ("contagion", "sound at 0"))
        self.assertEqual(left.unsteady, [])
        one_class = cc.stands(
            cc.Network([(n, 10 * c, "webster") for n, c, r in banks], [(a, b, k, 10 * x) for a, b, k, x in debts])
        )
        self.assertEqual(one_class.banks["B"]["one class"].words(), "contagion")
        turned = cc.stands(
            cc.Network(
                [("A", 4, "order"), *[(b, 0, "order") for b in "BCD"]],
                [("A", "B", 1, 4), ("A", "C", 1, 4), ("B", "D", 1, 4), ("C", "D", 1, 4)],
            )
        )
        self.assertEqual(
            (
                turned.banks["B"]["as it is"].words(),
                turned.banks["B"]["debts reversed"].words(),
                turned.banks["B"]["all webster"].words(),
            ),
            ("sound at 0", "contagion", "contagion"),
        )

    def test_half_of_units_is_the_nearest_and_of_two_the_even_one(self):
        self.assertEqual([half(units) for units in (*range(8), 2**60 + 2)], [0, 0, 1, 2, 2, 2, 3, 4, 2**59 + 1])

    def test_one_class_is_tried_as_far_as_two_debts_are_one_within_the_limits(self):
        """Debts of two classes that come to a million units are one debt; of a unit more they are none."""
        for claim, is_tried in ((500_000, True), (500_001, False)):
            net = cc.Network([("A", 1, "order"), ("B", 0, "order")], [("A", "B", 1, 500_000), ("A", "B", 2, claim)])
            self.assertEqual("one class" in cc.stands(net).variations, is_tried, claim)

    def test_a_unit_half_as_large_is_left_out_beyond_the_limits(self):
        large = cc.Network([("A", 1, "order"), ("B", 0, "order")], [("A", "B", 1, 600_000)])
        self.assertNotIn("unit /2", cc.stands(large).variations)
        rich = [bank._replace(cash=10**12 // 2 + more) for bank in large.banks for more in (0, 1)]
        self.assertEqual([within_limits([bank], [], 2) for bank in rich], [True, False] * 2)

    def test_a_unit_half_as_large_is_tried_by_the_wide_limits_where_the_standard_ones_have_no_room(self):
        # A pays B 2 and C 1 of 2 each. In units of half the worth it pays each 3 of 4, and B owes 4.
        banks = [
            ("A", 3, "webster"),
            *((name, 0, "order") for name in "BCD"),
            *((name, 10**7, "order") for name in "EF"),
        ]
        debts = [("A", "B", 1, 2), ("A", "C", 1, 2), ("A", "D", 2, 10), ("B", "D", 1, 2)]
        large = [(*pair, class_, 500_000) for class_ in range(1, 10) for pair in (("E", "F"), ("F", "E"), ("E", "C"))]
        needed = ((9, None, "standard"), (18, None, "wide"), (18, "standard", "wide"), (24, None, "wide"))
        for count, said, limits in needed:
            with self.subTest(count=count, said=said), warnings.catch_warnings():
                warnings.simplefilter("error")
                net = cc.Network(banks, debts + large[:count], limits=said if count <= 20 else "wide")
                self.assertEqual(other_units(net)["unit /2"].limits, limits)
                self.assertEqual((unsteady(net), cc.stands(net).unsteady), (["B"], ["B"]))
        self.assertNotIn("unit /2", other_units(cc.Network(banks, debts + large[:25], limits="wide")))

    def test_the_command_marks_what_is_otherwise(self):
        place = self.folder / "case"
        cc.Case(
            cc.Network(
                [("A", 1, "webster"), ("B", 1, "webster"), ("C", 0, "webster")], [("A", "B", 1, 1), ("B", "C", 1, 2)]
            ),
            labels=[cc.Label("B", full="Beta")],
        ).write(place)
        rows = list(csv.DictReader(io.StringIO(self.made("clearing-case", "stands", place))))
        self.assertEqual(
            [(row["bank"], row["full"], row["as it is"], row["unit x2"], row["note"]) for row in rows],
            [
                ("B", "Beta", "sound at 0", "fundamental *", "one unit decides"),
                ("C", "", "sound", "sound at 0 *", "one unit decides"),
            ],
        )
        self.assertEqual(len(self.made("clearing-case", "stands", place, "--all").splitlines()), 4)


class Shocks(Case):
    def setUp(self):
        super().setUp()
        self.place = self.folder / "case"
        cc.Case(cc.Network(TWELVE / "banks.csv", TWELVE / "debts.csv"), unit="1000", currency="EUR").write(self.place)

    def scenarios(self) -> List[Dict[str, Any]]:
        return tomllib.loads((self.place / "scenarios.toml").read_text())["scenario"]

    def test_amounts_become_units_and_what_is_rounded_is_told(self):
        sheet = self.file("s.csv", 'bank,a bad year,worse still\nKemi,"1,000,400.00",5000000\nElbe,,700\nIsar,2000,-\n')
        told = self.made("clearing-case", "scenarios", self.place, sheet, "--decimal=.")
        self.assertEqual(
            self.scenarios(),
            [
                {"name": "a bad year", "loss": [{"bank": "Kemi", "amount": 1000}, {"bank": "Isar", "amount": 2}]},
                {"name": "worse still", "loss": [{"bank": "Kemi", "amount": 5000}, {"bank": "Elbe", "amount": 1}]},
            ],
        )
        self.assertEqual(
            told,
            f"rows read: 3; {sheet}\nscenarios made: 2; 4 losses; 6,003,000 in all, in units of 1,000: 6,003\n"
            "losses rounded: 2; by 700 together, the largest by 400\n",
        )
        self.assertEqual(common.tool("clearing-case", "check", self.place).stdout, "the case is as it is described\n")
        self.printed(
            "stress",
            "--banks",
            self.place / "banks.csv",
            "--debts",
            self.place / "debts.csv",
            "--scenarios",
            self.place / "scenarios.toml",
        )
        self.refused("clearing-case", 1, "is there; say --replace to write over it", "scenarios", self.place, sheet)

    def test_a_sheet_in_millions(self):
        sheet = self.file("s.csv", "bank,x\nKemi,2.0005\n")
        told = self.made("clearing-case", "scenarios", self.place, sheet, "--amounts-in=1000000")
        self.assertEqual(self.scenarios(), [{"name": "x", "loss": [{"bank": "Kemi", "amount": 2000}]}])
        self.assertIn("scenarios made: 1; 1 loss; 2 in all, in units of 0.001: 2,000\n", told)
        self.assertIn("losses rounded: 1; by 0.0005 together", told)

    def test_shares_are_those_of_cash(self):
        cash = {bank.name: bank.cash for bank in cc.Case.read(self.place).network.banks}
        sheet = self.file("s.csv", "scenario,Kemi,Elbe,note\nstorm,25%,1,x\ndrought,0.333,,y\n")
        self.made("clearing-case", "scenarios", self.place, sheet, "--rows", "--share", "--ignore", "note")
        storm, drought = self.scenarios()
        self.assertEqual(
            storm["loss"],
            [{"bank": "Kemi", "amount": round(cash["Kemi"] / 4)}, {"bank": "Elbe", "amount": cash["Elbe"]}],
        )
        self.assertEqual(drought["loss"], [{"bank": "Kemi", "amount": round(cash["Kemi"] * 333 / 1000)}])

    def test_a_column_without_a_name_is_passed_over_where_it_is_empty_or_that_is_said(self):
        for text, words in [
            ("bank,,x\nKemi,,5000\n", []),
            ("bank,x,\nKemi,5000,7000\n", ["--ignore="]),
            ("scenario,,Kemi\nx,,5000\n", ["--rows"]),
            ("scenario,,Kemi\nx,7000,5000\n", ["--rows", "--ignore", ""]),
        ]:
            self.made("clearing-case", "scenarios", self.place, self.file("s.csv", text), "--replace", *words)
            self.assertEqual(self.scenarios(), [{"name": "x", "loss": [{"bank": "Kemi", "amount": 5}]}], text)

    def test_what_is_no_loss_is_refused(self):
        for text, words, told in [
            ('bank,"x ""y"""\nKemi,7\n', [], "is no name of a scenario"),
            ("bank,x\nNobody,7\n", [], "has no bank Nobody"),
            ("bank,x,\nKemi,5,7\n", [], "s.csv row 1 column without a name: fields stand below it; name it, or say"),
            ("scenario,Kemi,\nstorm,5,7\n", ["--rows"], "s.csv row 1 column without a name: fields stand below it"),
            ("bank,,x\nKemi,7,5\nElbe,,\n", [], "s.csv row 1 column without a name: fields stand below it"),
            ("bank,x\nKemi,5\n", ["--ignore", "nosuch"], "s.csv row 1: no column nosuch; it has x; say --ignore NAME"),
            ("bank,x\nKemi,-7\n", [], "is below 0"),
            ("bank,x\nKemi,seven\n", [], "'seven' is not an amount"),
            ("bank,x\nKemi,1.5\n", ["--share"], "1.5 is no share of cash from 0 to 1"),
            ("bank,x\nKemi,25\n", ["--share"], "25 is no share of cash"),
            (
                "bank," + ",".join(f"s{at}" for at in range(101)) + "\nKemi" + ",1" * 101 + "\n",
                [],
                "101 scenarios, 1 more than the most, 100",
            ),
        ]:
            self.refused("clearing-case", 1, told, "scenarios", self.place, self.file("s.csv", text), *words)
            self.assertFalse((self.place / "scenarios.toml").exists())


if __name__ == "__main__":
    unittest.main()
