"""The limits of networks in the package: which are taken where nobody says so, that it is said once, and what keeps
them."""
import pickle
import unittest
import warnings
from typing import Any, Callable, List, Tuple

from common import CHAIN, Case

import clearing_client as cc
from clearing_client import Network, Scenarios, limits

HEAD = b"debtor,creditor,class,claim\n"
MANY = [(f"B{n}", 1, "adams") for n in range(1001)]
OWED = [("A", "B", cls, 10**6) for cls in range(1, 10)] + [("B", "A", 1, 10**6)]


def banks_of(count: int) -> bytes:
    return b"name,cash,rule\n" + b"".join(b"N%d,1,order\n" % n for n in range(count))


class Limits(Case):
    def told(self, call: Callable[[], Any]) -> Tuple[Any, List[Tuple[str, str]]]:
        """What a call gives, and the warnings on limits that it gives rise to, each with the file that it is about."""
        with warnings.catch_warnings(record=True) as caught:
            warnings.simplefilter("always")
            made = call()
        own = [one for one in caught if issubclass(one.category, cc.LimitsWarning)]
        return made, [(str(one.message), one.filename) for one in own]

    def test_what_two_files_need(self):
        debts = [HEAD + b"".join(b"A,B,1,0\n" for _ in range(count)) for count in (20_000, 20_001)]
        owed = [HEAD + b"A,B,1,9999999\nB,A,1,%d\n" % more for more in (1, 2)]
        size = limits.LIMITS["standard"].bytes["banks"]
        for banks, owes, what in [
            (banks_of(1000), debts[0], None),
            (banks_of(1001), HEAD, "more than 1,000 banks"),
            (banks_of(2), debts[1], "more than 20,000 debts"),
            (banks_of(2), owed[0], None),
            (banks_of(2), owed[1], "claims of more than 10,000,000 units"),
            (banks_of(2).ljust(size, b"\n"), HEAD, None),
            (banks_of(2).ljust(size + 1, b"\n"), HEAD, "a banks file of more than 8,388,608 bytes"),
            (banks_of(2), HEAD.ljust(size + 1, b"\n"), "a debts file of more than 8,388,608 bytes"),
            # Records without a field with a byte do not count, however lines end.
            (
                banks_of(1000).replace(b"\n", b"\r\n") + b",,\r\n" * 2000,
                debts[0].replace(b"\n", b"\r") + b"\r" * 9,
                None,
            ),
            # Those with one do, however lines end, and so do amounts between quotes.
            (banks_of(1001).replace(b"\n", b"\r"), HEAD, "more than 1,000 banks"),
            (banks_of(2), debts[1].replace(b"\n", b"\r"), "more than 20,000 debts"),
            (banks_of(2), owed[1].replace(b"\n", b"\r"), "claims of more than 10,000,000 units"),
            (banks_of(2), HEAD + b'"A","B","1","9999999"\r\nB,A,1,"2"\r\n', "claims of more than 10,000,000 units"),
            (b"\xff" * 99, b'"', None),
        ]:
            with self.subTest(what=what):
                self.assertEqual(limits.beyond(banks, owes), what)
                self.assertEqual(limits.needed(banks, owes), "wide" if what else "standard")
        self.assertEqual(
            [limits.of_counts(1000, 20_000, 10**7), limits.of_counts(1000, 20_000, 10**7 + 1)], ["standard", "wide"]
        )

    def test_a_network_takes_the_limits_that_it_needs_and_says_so_once(self):
        net = Network(MANY, [("B0", "B1", 1, 5)])
        done, told = self.told(lambda: [net.check(), net.central()])
        self.assertEqual([one.limits for one in done], ["wide", "wide"])
        what = "the network is read by the wide limits, as it has more than 1,000 banks; limits='wide' says so"
        self.assertEqual(told, [(what, __file__)])
        # What is made of it is told of already, and goes to another process as it is.
        richer, again = net.with_cash({"B0": 5}), pickle.loads(pickle.dumps(net))
        self.assertEqual(
            self.told(lambda: [richer.central().limits, again.limits, again._is_told]), (["wide", "wide", True], [])
        )
        small, told = self.told(Network(CHAIN / "banks.csv", CHAIN / "debts.csv").check)
        self.assertEqual((small.limits, told), ("standard", []))

    def test_what_is_said_decides(self):
        debts = [("B0", "B1", 1, 5)]
        said, told = self.told(Network(MANY, debts, limits="wide").check)
        self.assertEqual((said.limits, told), ("wide", []))
        for call in (
            Network(MANY, debts, limits="standard").check,
            lambda: Network(MANY, debts).check(limits="standard"),
        ):
            with self.assertRaises(cc.RefusedError) as caught:
                call()
            self.assertEqual((caught.exception.row, caught.exception.kind), (1001, "too many"))
        small = Network({"A": 7, "B": 1}, {("A", "B"): 10})
        self.assertEqual(self.told(lambda: small.central(limits="wide").limits), ("wide", []))
        with self.assertRaises(cc.UsageError):
            small.check(limits="big")

    def test_what_was_said_is_kept_by_a_network_of_other_cash_or_debts(self):
        for said in ("standard", "wide", None):
            small = Network({"A": 7, "B": 1}, {("A", "B"): 10}, limits=said)
            for made in (small.with_cash({"A": 8}), small.with_debts({("B", "A"): 1}).with_cash({"B": 2})):
                self.assertEqual((made.limits, made.central().limits), (said or "standard",) * 2)

    def test_journals_and_scenarios_keep_them(self):
        net = Network(
            [("A", 1, "order"), ("B", 0, "order")], [*OWED, ("A", "B", 1, 1)][:10] + [("B", "A", 2, 1)], limits="wide"
        )
        small = Network({"A": 7, "B": 1}, {("A", "B"): 10}, limits="wide")
        journal = small.clear(workers=1, journal=True).journal
        self.assertEqual(journal.limits, "wide")
        other = Network({"A": 7, "B": 1}, {("A", "B"): 10})
        self.assertEqual(other.replay(journal).limits, "wide")
        self.assertEqual(other.replay(journal.raises).limits, "standard")
        (cuts, sums), told = self.told(
            lambda: (
                list(cc.map_stress([net._by_limits(None), other], Scenarios.cuts([1000]))),
                list(cc.map_outcomes([net, other], Scenarios.cuts([1000]))),
            )
        )
        self.assertEqual([one.limits for one in cuts], ["wide", "standard"])
        self.assertEqual([one.limits for one in sums], ["wide", "standard"])
        self.assertEqual(len(told), 1)
        self.assertIn("claims of more than 10,000,000 units", told[0][0])

    def test_a_case_says_what_its_network_needs(self):
        large, small = Network(MANY, []), Network({"A": 7}, {})
        for net, said, want in [(large, None, "wide"), (small, None, "standard"), (small, "wide", "wide")]:
            place = self.folder / f"{len(net._banks)}-{said}"
            cc.Case(net, title="A case", limits=said).write(place)
            case = cc.Case.read(place)
            self.assertEqual(
                (case.limits, case.document()["clearing"]["limits"], case.network.limits), (want, want, want)
            )
        self.assertEqual(cc.Case(large, limits="standard").network.limits, "standard")


if __name__ == "__main__":
    unittest.main()
