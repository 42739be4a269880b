"""A network says the same in each form in which it can be given, and each task answers what the program prints."""
import os
import pathlib
import shlex
import unittest
from typing import Any, Iterator, List, Tuple

from clients import network_of
from common import CHAIN, EXAMPLES, HUB, ROOT, TWELVE, Case, Word, files_of, needs_checkout

import clearing_client as cc
from clearing_client import Network, Scenario, Scenarios, TableError

BANKS = [("A", 7, "order"), ("B", 1, "order"), ("C", 0, "order")]
DEBTS = [("A", "B", 1, 10), ("B", "C", 1, 9)]


class Tasks(Case):
    def answers(self, net: Network, folder: pathlib.Path) -> Iterator[Tuple[Any, List[Word]]]:
        """What each task answers, and what the program prints for the same words."""
        files, journal = files_of(folder), net.clear(workers=1, journal=True).journal
        written = self.file("journal.csv", self.printed("clear", *files, "--workers", 1, "--show", "journal"))
        first, last = net.banks[0].name, net.banks[-1].name
        scenarios = Scenarios([Scenario(" a ", 500), Scenario(" a ", losses={first: 3, last: 10**12})])
        toml = self.file("scenarios.toml", scenarios.to_toml())
        yield net.check(), ["check"]
        yield net.clear(), ["clear"]
        yield net.clear(workers=1, journal=True), ["clear", "--workers", 1, "--show", "both"]
        yield net.clear(workers=64, sweeps=1000), ["clear"]
        yield net.central(), ["central"]
        yield net.defaults(), ["defaults"]
        yield net.stress(scenarios), ["stress", "--scenarios", toml]
        yield net.stress(str(toml)), ["stress", "--scenarios", toml]
        yield net.bounds(), ["bounds"]
        yield net.rescue(last), ["rescue", "--bank", last]
        yield net.costs(900), ["costs", "--keep", 900]
        yield net.cost_bounds(900), ["cost-bounds", "--keep", 900]
        yield net.breaking(), ["breaking"]
        yield net.impact(), ["impact"]
        yield net.rescues(), ["rescues"]
        yield net.outcomes(scenarios), ["outcomes", "--scenarios", toml]
        yield net.outcomes(str(toml)), ["outcomes", "--scenarios", toml]
        yield net.compress(), ["compress"]
        yield net.replay(journal), ["replay", "--journal", written]
        yield net.replay(written), ["replay", "--journal", written]

    def test_each_task_answers_what_the_program_prints_for_every_example(self):
        for folder in EXAMPLES:
            net = network_of(folder)
            # The same network from its tables, which the package writes itself.
            for form in (net, Network(net.banks, net.debts)) if folder in (HUB, TWELVE) else (net,):
                for answer, words in self.answers(form, folder):
                    with self.subTest(example=folder.name, words=words):
                        self.assertEqual(answer.text, self.printed(*words, *files_of(folder), statuses=(0, 7)))
                        self.assertEqual(cc.read(answer.text), answer)

    def test_a_journal_is_handed_over_as_the_program_printed_it(self):
        text = self.printed("clear", *files_of(TWELVE), "--workers", 1, "--show", "journal")
        seen = self.folder / "seen.csv"
        net, before = network_of(TWELVE), os.environ["CLEARING"]
        self.program(
            f'for word; do case $last in --journal) cat "$word" >{seen};; esac; last=$word; done; '
            f'exec {shlex.quote(before)} "$@"'
        )
        self.assertTrue(net.replay(cc.read(text)).lawful)
        self.assertEqual(seen.read_text(encoding="utf-8"), text)

    def test_a_made_network_is_told_in_sums(self):
        words = ["gen", "--seed", 2**64 - 1, "--size", 40, "--tries", 300]
        self.assertEqual(cc.generate(2**64 - 1, 40, 300).text, self.printed(*words))

    def test_values_that_are_known(self):
        net = Network(BANKS, DEBTS)
        self.assertEqual(net.clear().payments.column("paid"), [7, 8])
        self.assertEqual(net.defaults().defaults, ["A", "B"])
        self.assertEqual((net.rescue("A").added, net.rescue("A").short), (3, 1))
        self.assertEqual(
            [tuple(bank) for bank in net.breaking().cuts],
            [("A", 0, "fundamental"), ("B", 0, "contagion"), ("C", 1001, "sound")],
        )
        self.assertEqual([tuple(pair) for pair in net.impact().pairs], [("A", "C", 7, False), ("B", "C", 1, False)])
        self.assertEqual(net.impact().to_lists(), [[0, 0, 7], [0, 0, 1], [0, 0, 0]])
        self.assertEqual([tuple(bank) for bank in net.rescues().banks], [("A", 3, 1, 1, 0), ("B", 1, 1, 0, 1)])
        self.assertEqual([tuple(pair) for pair in net.rescues().saved], [("A", "B")])
        self.assertEqual(tuple(net.outcomes([Scenario("half", 500)]).scenarios[0]), ("half", 5, 9, 0, 5, 2, 1))
        self.assertEqual(
            [tuple(bank)[1:] for bank in net.cost_bounds(500).standings],
            [(4, 0, "fundamental") * 2, (2, 0, "contagion") * 2, (0, 2, "sound") * 2],
        )
        self.assertEqual(net.check().total, (3, 2, 19, 8))
        self.assertEqual(net.clear().to_lists(), [[0, 7, 0], [0, 0, 8], [0, 0, 0]])
        self.assertEqual(net.clear().to_lists("claim"), [[0, 10, 0], [0, 0, 9], [0, 0, 0]])

    def test_the_largest_amounts_are_exact(self):
        banks = [(f"B{n}", 10**12, "adams", 10**11 if n else 10**11 - 1) for n in range(1000)]
        net = Network(banks, [("B1", "B2", 1, 10**6)])
        self.assertEqual(net.check().total.cash, 10**15)
        self.assertEqual(net.defaults().total.outside_paid, 10**14 - 1)

    def test_no_scenario_and_no_debt(self):
        self.assertEqual(Network(BANKS, []).stress([]).scenarios, ())
        self.assertEqual(list(Network(BANKS, []).outcomes([]).banks), [("A", 0, 0), ("B", 0, 0), ("C", 0, 0)])
        self.assertEqual(len(Network(BANKS, {}).clear().payments), 0)
        self.assertEqual(Network([], []).check().total, (0, 0, 0, 0))

    def test_a_journal_that_is_not_lawful_is_an_answer_with_its_raise(self):
        net = Network(BANKS, DEBTS)
        raises = list(net.clear(workers=1, journal=True).journal.raises)
        cases = [
            ([raises[0], raises[1]._replace(to=9)], "unlawful", 2, raises[1]._replace(to=9)),
            ([raises[1]._replace(to=1), raises[0]._replace(stamp=0)], "falls", 2, raises[0]._replace(stamp=0)),
            ([raises[0]], "unfinished", None, None),
        ]
        for journal, verdict, entry, record in cases:
            told = net.replay(journal)
            self.assertEqual((told.verdict, told.entry, told.record, told.lawful), (verdict, entry, record, False))
            with self.assertRaisesRegex(ValueError, verdict):
                told.to_lists()
        self.assertEqual(net.replay([raises[0]]).bank, "B")
        spaced = 'stamp,debtor,creditor,class,to\n,,,,\n\n1,A,B,1,7\r\n" 2 ",B, C ,1,9\n'
        self.assertEqual(net.replay(self.file("j.csv", spaced)).record, raises[1]._replace(to=9))


class Forms(Case):
    def same(self, *networks: Network) -> None:
        """Networks of which the program reads the same."""
        for net in networks:
            self.assertEqual(net.check().text, Network(BANKS, DEBTS).check().text)

    def test_records_columns_dicts_and_files(self):
        banks = [dict(zip(("name", "cash", "rule"), bank)) for bank in BANKS]
        debts = [dict(zip(("debtor", "creditor", "class", "claim"), debt)) for debt in DEBTS]
        columns = {name: [bank[name] for bank in banks] for name in ("rule", "name", "cash")}
        others = {name: [debt[name] for debt in debts] for name in ("claim", "class", "creditor", "debtor")}
        self.same(Network(banks, debts), Network(columns, others), network_of(CHAIN), Network(iter(BANKS), iter(DEBTS)))
        self.same(Network(str(CHAIN / "banks.csv"), str(CHAIN / "debts.csv")))
        self.same(Network([cc.Bank(*bank) for bank in BANKS], [cc.Debt(*debt) for debt in DEBTS]))
        self.same(Network({"A": 7, "B": 1, "C": 0}, {("A", "B"): 10, ("B", "C"): 9}, rule="order"))
        self.same(
            Network(
                {"A": {"cash": 7}, "B": {"cash": 1}, "C": {"cash": 0}}, [d[:2] + d[3:] for d in DEBTS], rule="order"
            )
        )

    def test_numbers_without_a_fraction_and_texts_of_digits(self):
        from decimal import Decimal
        from fractions import Fraction

        self.same(Network([("A", 7.0, "order"), ("B", Decimal("1.0"), "order"), ("C", " 0 ", "order")], DEBTS))
        for wrong in (
            7.5,
            float("nan"),
            float("inf"),
            2.0**60,
            Decimal("7.5"),
            Decimal("NaN"),
            Decimal("sNaN"),
            True,
            None,
            "",
            " ",
            [7],
            Fraction(7),
            10**40,
            7j,
        ):
            with self.subTest(wrong=wrong), self.assertRaises(TableError) as caught:
                Network([("A", 7, "order"), ("B", wrong, "order")], DEBTS)
            fault = caught.exception
            self.assertEqual((fault.file, fault.row, fault.field), ("banks", 2, "cash"))
            self.assertIs(fault.value, wrong)

    def test_scenarios_take_the_numbers_that_tables_take(self):
        from decimal import Decimal
        from fractions import Fraction

        class Index:
            def __index__(self) -> int:
                return 50

        for fifty in (50, 50.0, Decimal("50.0"), Index()):
            with self.subTest(fifty=fifty):
                self.assertEqual(Scenario("x", cut=fifty, losses={"A": fifty}), Scenario("x", 50, [("A", 50)]))
                self.assertEqual(
                    Scenarios([{"name": "x", "cut": fifty}]).to_toml(plain=True), '[[scenario]]\nname = "x"\ncut = 50\n'
                )
                self.assertEqual(Scenarios.cuts([fifty])[0], Scenario("cut 50", 50))
        net = Network({"A": 7e6, "B": 1}, {("A", "B"): 10})
        self.assertEqual(net.stress([Scenario("x", losses={"A": 7e6 - 1})]).payments[0].paid, 1)
        for wrong in (
            7.5,
            float("nan"),
            float("inf"),
            2.0**60,
            Decimal("7.5"),
            Decimal("sNaN"),
            True,
            None,
            "",
            [7],
            Fraction(7),
            7j,
        ):
            with self.subTest(wrong=wrong), self.assertRaises(TableError) as caught:
                Scenario("x", losses={"A": wrong})
            self.assertEqual((caught.exception.file, caught.exception.field), ("scenarios", "amount"))
            self.assertIs(caught.exception.value, wrong)

    def test_what_a_file_cannot_say_is_refused(self):
        for banks, debts, place in [
            ([("A", 7, "order"), (" B", 1, "order")], [], ("banks", 2, "name")),
            ([("A", 7, "order"), ("B\t", 1, "order")], [], ("banks", 2, "name")),
            ([("A", 7, "order"), ("\ud800", 1, "order")], [], ("banks", 2, "name")),
            ([("A", 7, "order"), (None, 1, "order")], [], ("banks", 2, "name")),
            ([("A", 7, "order"), (1.0, 1, "order")], [], ("banks", 2, "name")),
            ([("A", 7, "order"), (True, 1, "order")], [], ("banks", 2, "name")),
            ([{"name": "A", "cash": 7}, {"name": "B"}], [], ("banks", 2, "cash")),
            ([{"name": "A"}], [], ("banks", 0, "cash")),
            ([{"name": "A", "cash": 7, "outsde": 3}], [], ("banks", 0, "outsde")),
            ({"name": ["A"], "cash": [7, 8]}, [], ("banks", 0, "")),
            ([7], [], ("banks", 1, "")),
            ([("A",)], [], ("banks", 1, "")),
            (BANKS, [("A", "B", 1, 10, 7)], ("debts", 1, "")),
            (BANKS, {"A": 7}, ("debts", 1, "")),
            (BANKS, [{"debtor": "A", "creditor": "B", "class": 1.5, "claim": 7}], ("debts", 1, "class")),
        ]:
            with self.subTest(banks=banks, debts=debts), self.assertRaises(TableError) as caught:
                Network(banks, debts)
            fault = caught.exception
            self.assertEqual((fault.file, fault.row, fault.field), place)
        with self.assertRaises(TypeError):
            Network(BANKS)

    def test_columns_that_are_missing_are_as_the_call_says(self):
        net = Network({"A": 7, "B": 1}, {("A", "B"): 10}, rule="equal", class_=3)
        self.assertEqual((net.banks[0].rule, net.debts[0].class_), ("equal", 3))
        self.assertEqual(Network({"A": 7}, []).banks[0], ("A", 7, "webster", 0))

    def test_outside_claims_come_along(self):
        net = network_of(HUB)
        self.assertEqual([bank.outside for bank in net.banks], [40, 0, 0, 0, 25])
        self.assertEqual(Network(net.banks, net.debts).defaults(), net.defaults())

    def test_a_network_with_other_cash_or_debts(self):
        net = Network(BANKS, DEBTS)
        self.assertEqual(net.with_cash({"A": 10}).defaults().defaults, [])
        self.assertEqual(net.banks[0].cash, 7)
        with self.assertRaises(TableError):
            net.with_cash({"D": 1})
        left = network_of(TWELVE).compress()
        self.assertEqual(network_of(TWELVE).with_debts(left.debts).check().total.owed, 9750000 - left.cancelled)

    def test_files_are_read_once_and_written_never_over_others(self):
        banks, debts = self.folder / "-b.csv", self.folder / "d é.csv"
        Network(BANKS, DEBTS).write(banks, debts)
        self.assertEqual(banks.read_bytes(), (CHAIN / "banks.csv").read_bytes())
        self.assertEqual(debts.read_bytes(), (CHAIN / "debts.csv").read_bytes())
        net = Network(banks, debts)
        banks.unlink()
        self.same(net)
        with self.assertRaises(FileExistsError):
            net.write(banks, debts)
        self.assertFalse(banks.exists(), "one of two files is left")

    def test_a_relative_name_that_begins_with_a_dash(self):
        before = os.getcwd()
        self.addCleanup(os.chdir, before)
        Network(BANKS, DEBTS).write(self.folder / "-b.csv", self.folder / "-d.csv")
        os.chdir(self.folder)
        self.same(Network("-b.csv", pathlib.Path("-d.csv")))


class Tables(Case):
    def test_a_table_is_a_sequence(self):
        table = network_of(CHAIN).debts
        self.assertEqual((len(table), table[-1], list(table[1:])), (2, DEBTS[1], DEBTS[1:]))
        self.assertEqual(table, cc.Table.of(cc.Debt, [cc.Debt(*debt) for debt in DEBTS]))
        self.assertEqual((table.column("class"), table.columns), ([1, 1], ("debtor", "creditor", "class", "claim")))
        table.column("claim").append(3)
        self.assertEqual(len(table.column("claim")), 2)
        self.assertIn("more", str(network_of(TWELVE).debts))
        for wrong in ([["A"], ["B"], [1]], [["A"], ["B"], [1], []]):
            with self.assertRaises(ValueError):
                cc.Table(cc.Debt, wrong)

    def test_stress_has_its_scenarios_below_one_another(self):
        left = network_of(TWELVE).stress(TWELVE / "scenarios.toml")
        self.assertEqual((len(left.payments), len(left.standings), len(left.total)), (120, 36, 3))
        for one in left.scenarios:
            rows = [row[2:] for row in left.payments if row.number == one.number]
            self.assertEqual(rows, [tuple(row) for row in one.payments])
            rows = [row[2:] for row in left.standings if row.number == one.number]
            self.assertEqual(rows, [tuple(row) for row in one.standings])
        self.assertEqual([row.paid for row in left.total], [5156114, 8256671, 3139170])
        self.assertEqual({row.scenario for row in left.payments}, {one.name for one in left.scenarios})


class Program(Case):
    @needs_checkout
    def test_where_the_program_is_found(self):
        before, path = os.environ["CLEARING"], os.environ["PATH"]
        self.addCleanup(os.environ.__setitem__, "CLEARING", before)
        self.addCleanup(os.environ.__setitem__, "PATH", path)
        self.assertEqual(cc.find_program(), os.path.abspath(before))
        self.program("exit 0\n")
        del os.environ["CLEARING"]
        self.assertEqual(cc.find_program(), str(ROOT / "clearing"))
        os.environ["PATH"] = str(self.folder)
        os.environ["CLEARING"] = "clearing"
        self.assertEqual(cc.find_program(), str(self.folder / "clearing"))
        for path in (".", "", "bin"):
            os.environ["PATH"] = path
            with self.assertRaises(cc.NoProgramError):
                cc.find_program()


if __name__ == "__main__":
    unittest.main()
