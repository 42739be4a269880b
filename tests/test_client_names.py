"""Names of every character that the formats allow come through: tables, scenarios by either writer, words and
results."""
import unittest
from typing import Any, List

from common import Case, needs_packages, there
from odd_names import DASHED, ODD_NAMES, all_names, untrimmed

import clearing_client as cc
from clearing_client import Network, Scenario, Scenarios
from clearing_client.request import Request
from clearing_client.texts import PAYMENTS

NAMES = untrimmed([*ODD_NAMES, *DASHED])


class Names(Case):
    def check_all(self, names: List[str]) -> Any:
        """A ring of banks with these names, of which each pays the next."""
        banks = [(name, 3, "order") for name in names]
        debts = [(name, other, 1, 5) for name, other in zip(names, names[1:] + names[:1])]
        net = Network(banks, debts)
        self.assertEqual(net.banks.column("name"), names)
        done = net.clear(workers=1, journal=True)
        self.assertEqual(done.payments.column("debtor"), names)
        self.assertEqual(done.payments.column("creditor"), names[1:] + names[:1])
        self.assertEqual(net.defaults().standings.column("bank"), names)
        self.assertTrue(net.replay(done.journal).lawful)
        for plain in (True, False):
            for part in range(0, len(names), 100):
                here = names[part : part + 100]
                # A scenario of the bank's name, in which it alone loses what it has.
                scenarios = Scenarios(Scenario(" " + name[:15], losses={name: 3}) for name in here)
                left = net.stress(self.file("s.toml", scenarios.to_toml(plain)))
                self.assertEqual([one.name for one in left.scenarios], [" " + name[:15] for name in here])
                for name, one in zip(here, left.scenarios):
                    self.assertEqual(one.total.cash, 3 * len(names) - 3)
        return net

    def test_hostile_names(self):
        net = self.check_all(NAMES)
        for name in NAMES:
            with self.subTest(name=name):
                saved = net.rescue(name)
                self.assertEqual((saved.bank, saved.payments.column("debtor")), (name, NAMES))

    def test_a_bank_that_the_command_line_cannot_name_is_saved_all_the_same(self):
        banks, debts = [("-A", 7, "order"), ("0", 1, "order"), ("1", 0, "order")], [
            ("-A", "0", 1, 10),
            ("0", "1", 1, 9),
        ]
        told = Network(banks, debts).rescue("-A")
        plain = Network([("A", *banks[0][1:]), *banks[1:]], [("A", *debts[0][1:]), debts[1]]).rescue("A")
        self.assertEqual((told.bank, told.added, told.short), ("-A", plain.added, plain.short))
        self.assertEqual(told.payments.column("paid"), plain.payments.column("paid"))
        self.assertEqual(told.payments.column("debtor"), ["-A", "0"])
        self.assertEqual(told.text, plain.text.replace("rescue,A,", "rescue,-A,").replace("\nA,", "\n-A,"))

    def test_another_name_of_such_a_bank_is_none_that_is_there(self):
        """Whichever of the names that are tried others have."""
        for others in (["bank 0"], ["A", "bank 0", "bank 1"], ["0", *(f"bank {at}" for at in range(31))]):
            net = Network([("-A", 7, "order"), *((name, 0, "order") for name in others)], [("-A", others[-1], 1, 10)])
            told = net.rescue("-A")
            self.assertEqual((told.bank, told.added, told.short), ("-A", 3, 1))
            self.assertEqual(told.payments[0], ("-A", others[-1], 1, 10, 10))

    def test_an_answer_on_names_equal_but_for_capitals_is_none(self):
        asked = Request(b"name,cash,rule\nAsh,7,order\nASH,1,order\n", b"debtor,creditor,class,claim\nAsh,ASH,1,10\n")
        cuts, payments = "bank,cut,state\n{},143,fundamental\n{},1001,sound\n", f"{PAYMENTS}\n{{}},{{}},1,10,7\n"
        for table in (cuts, payments):
            asked.check(cc.read(table.format("Ash", "ASH")))
            for names in (("ASH", "Ash"), ("ash", "ASH"), ("Ash", "ash")):
                with self.subTest(names=names), self.assertRaises(cc.TextError):
                    asked.check(cc.read(table.format(*names)))

    def test_characters_of_each_plane_and_all_of_the_first(self):
        names = list(dict.fromkeys([*all_names(last=0xFFFF), *all_names(0x10000, step=257)]))
        self.assertGreater(sum(map(len, names)), 60_000)
        for part in range(0, len(names), 1000):
            self.check_some(names[part : part + 1000])

    def check_some(self, names: List[str]) -> None:
        net = Network([(name, 1, "order") for name in names], [(names[0], name, 1, 0) for name in names[1:]])
        self.assertEqual(net.banks.column("name"), names)
        for part in range(0, len(names), 500):
            scenarios = Scenarios([Scenario(names[part], losses={name: 1 for name in names[part : part + 500]})])
            for plain in (True, False):
                left = net.stress(self.file("s.toml", scenarios.to_toml(plain)))
                self.assertEqual(left.scenarios[0].name, names[part])
                self.assertEqual(left.scenarios[0].total.cash, len(names) - len(names[part : part + 500]))

    def test_characters_that_no_name_may_have_are_refused_by_the_program(self):
        for code in [*range(0x20), *range(0x7F, 0xA0), *map(ord, ',"')]:
            name = f"a{chr(code)}b"
            with self.subTest(name=name):
                for fault, call in [
                    ("banks", Network([(name, 1, "order")], []).check),
                    ("scenarios", lambda: Network([], []).stress([Scenario(name)])),
                ]:
                    with self.assertRaises(cc.RefusedError) as caught:
                        call()
                    self.assertEqual((caught.exception.file, caught.exception.kind), (fault, "name"))

    @needs_packages("tomli_w")
    def test_both_writers_say_the_same(self):
        scenarios = Scenarios([Scenario(name, n, {name: 7, '\x01\x7f"\\\n\t': 8}) for n, name in enumerate(NAMES)])
        import tomli_w

        document = {"scenario": [one.as_table() for one in scenarios]}
        self.assertEqual(scenarios.to_toml(), tomli_w.dumps(document))
        self.assertNotEqual(scenarios.to_toml(), scenarios.to_toml(plain=True))
        if there("tomllib"):
            import tomllib

            self.assertEqual(tomllib.loads(scenarios.to_toml()), tomllib.loads(scenarios.to_toml(plain=True)))

    @needs_packages("tomllib")
    def test_the_plain_writer_says_what_it_should(self):
        import tomllib

        text = "".join(map(chr, [*range(0x20), *range(0x7F, 0xA0)])) + '"\\\u2028\U0001f600'
        scenarios = Scenarios(
            [Scenario(text, 3, [(text, 1), (text, 2)]), Scenario("b"), Scenario("c", losses={"B": 0})]
        )
        self.assertEqual(
            tomllib.loads(scenarios.to_toml(plain=True)),
            {
                "scenario": [
                    {"name": text, "cut": 3, "loss": [{"bank": text, "amount": 1}, {"bank": text, "amount": 2}]},
                    {"name": "b"},
                    {"name": "c", "loss": [{"bank": "B", "amount": 0}]},
                ]
            },
        )
        self.assertEqual(list(Scenarios(tomllib.loads(scenarios.to_toml(plain=True))["scenario"])), list(scenarios))

    def test_integers_for_names(self):
        net = Network([(0, 7, "order"), (1, 0, "order")], [(0, 1, 1, 9)])
        self.assertEqual(net.clear().payments[0], ("0", "1", 1, 9, 7))
        with self.assertRaises(cc.RefusedError):
            Network([(1, 7, "order"), ("1", 0, "order")], []).check()


if __name__ == "__main__":
    unittest.main()
