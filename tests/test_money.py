"""Amounts are told to the last digit, whatever context of decimal numbers the process has."""
import decimal
import unittest
from decimal import Decimal
from fractions import Fraction

import common  # noqa: F401

import clearing_client as cc
from clearing_client.compare import Comparison, Difference
from clearing_client.table import Table
from clearing_tools import money
from clearing_tools.casework import side_by_side
from clearing_tools.desk import hints

UNITS = [
    "1",
    "0.01",
    "1000",
    "1E+3",
    "2.50",
    "0.1234567890123456789",
    "1.00000000000000000000000000001",
    "999999999999999.123456789012345678901234567890123456789",
    "0." + "0" * 14 + "1" * 120,
]
AMOUNTS = [0, 1, -1, 7, 999, 10**6 - 1, 10**12 + 1, 25 * 10**18 + 3]


def told_of(unit: str) -> list[object]:
    """All that is told of some amounts in a unit, by each call that reckons with decimal numbers."""
    euros, bare = money.Money(Decimal(unit), "EUR"), money.Money(Decimal(unit))
    told: list[object] = [euros.about(), bare.about(), hints.larger_unit(euros)]
    for units in AMOUNTS:
        told += [euros.number(units), euros(units), bare(units), euros.in_short(units)]
        # This one fails where there are more digits than it keeps.
        told += [money.amount_by(Decimal(unit))(abs(units))] if len(unit) < 60 else []
        for scale in (euros.scale_of([units]), euros.short_scale_of([units])):
            told += [scale.words, scale.value(units), scale.number(units)]
    case = cc.Case(unit=unit if len(unit) < 40 else "1")
    few, more = case.amount(10**12), case.amount(10**12 + 1)
    bank = Difference("A", "", "sound", "sound", few, more, more, few, few, None)
    whole = Comparison(case, case, Table.of(Difference, [bank, bank]))
    told += [bank.more("paid"), whole.total("paid"), whole.total("kept"), whole.total("owed")]
    return [*told, *map(side_by_side.signed, told[-4:]), *map(side_by_side.shown, (few, more, bank.more("kept"), None))]


class Digits(unittest.TestCase):
    def test_no_digit_is_lost(self) -> None:
        for unit in UNITS:
            exact, euros = Fraction(unit), money.Money(Decimal(unit), "EUR")
            self.assertEqual(Fraction(euros.about().split("is EUR ")[1].rstrip(".").replace(",", "")), exact, unit)
            for units in AMOUNTS:
                self.assertEqual(Fraction(euros.number(units).replace(",", "")), units * exact, (unit, units))
        case = cc.Case(unit="0.1234567890123456789012345678901")
        bank = Difference("A", "", "sound", "sound", case.amount(0), case.amount(10**12 + 1), *[None] * 4)
        self.assertEqual(Fraction(bank.more("paid")), (10**12 + 1) * Fraction("0.1234567890123456789012345678901"))

    def test_no_digit_is_of_the_context_of_the_caller(self) -> None:
        for unit in UNITS:
            told = []
            for digits in (5, 28, 400):
                with decimal.localcontext() as context:
                    context.prec = digits
                    told.append(told_of(unit))
            self.assertEqual(told[0], told[1], unit)
            self.assertEqual(told[1], told[2], unit)

    def test_the_amounts_are_those_that_people_read(self) -> None:
        self.assertEqual(money.Money(Decimal("1E+3"), "EUR").about(), "Amounts in EUR; a unit of account is EUR 1,000.")
        self.assertEqual(money.Money(Decimal("0.10"), "EUR")(10**12 + 1), "EUR 100,000,000,000.1")
        self.assertEqual(money.Money(Decimal("1000")).in_short(-12_345_678), "-12.35\u00a0billion")
        euros = money.Money(Decimal("1000"), "EUR")
        amounts = (999, 1_000, 7_440, -9_949, 9_951, 999_499, 999_600)
        self.assertEqual(
            [euros.in_short(units).replace("\u00a0", " ") for units in amounts],
            [
                "EUR 999,000", "EUR 1 million", "EUR 7.4 million", "EUR -9.9 million", "EUR 10 million",
                "EUR 999 million", "EUR 1.00 billion",
            ],
        )
        self.assertEqual(
            [money.Money(None, "EUR").scale_of([10**9]).number(units) for units in (-(10**6), 1, 0)],
            ["\u22121", "<1", "0"],
        )
        with decimal.localcontext() as context:
            context.prec = 3
            self.assertEqual(money.Money().scale_of([10**9]).number(500_001), "1")
        for euros, unit in ((money.Money(None, "EUR"), 1), (money.Money(Decimal("0.01"), "EUR"), 100)):
            table = euros.scale_of([-(10**6) * unit])
            amounts = [table.number(of * unit) for of in (1, 499, 500, 501, 1500, -1, -499, -500, -501, 0)]
            small = ["<1", "<1", "<1", "1", "2", "\u2212<1", "\u2212<1", "\u2212<1", "\u22121", "0"]
            self.assertEqual((table.words, amounts), ("EUR thousand", small))
            chart = euros.short_scale_of([10**9 * unit])
            amounts = [chart.number(of * 10**6 * unit) for of in (4, 5, 6, -4, -5, -6, 0)]
            small = ["<0.01", "<0.01", "0.01", "\u2212<0.01", "\u2212<0.01", "\u22120.01", "0"]
            self.assertEqual((chart.words, amounts), ("EUR billion", small))
        self.assertEqual(
            [side_by_side.shown(Decimal(text)) for text in ("100", "1E+2", "0.50", "-3.00")],
            ["100", "100", "0.50", "\u22123"],
        )
