"""The parser takes every text of the program apart without loss, and no other text."""
import pathlib
import unittest
from typing import Any, Iterator, List, Sequence, Tuple

from common import CHAIN, EXAMPLES, HUB, TWELVE, Case, files_of

from clearing_client import TextError, read
from clearing_client.results import (
    Bounds,
    Breaking,
    Check,
    Clearing,
    Compression,
    Converted,
    CostBounds,
    Costs,
    Defaults,
    Generated,
    Impact,
    Journal,
    Outcomes,
    Rescue,
    Rescues,
    Stress,
    Verdict,
)


def lines(table: Any, without: Sequence[str] = ()) -> List[str]:
    """The lines of a table, as the program has them."""
    keep = [name for name in table.columns if name not in without]
    word = {True: "yes", False: "no"}
    rows = zip(*([word[one] if isinstance(one, bool) else str(one) for one in table.column(name)] for name in keep))
    return [",".join(keep), *map(",".join, rows)]


def standings(result: Any, outside: bool) -> List[str]:
    """The lines of standings with their sums."""
    total, without = list(result.total), [] if outside else ["outside_paid"]
    if not outside:
        total.pop(result.total._fields.index("outside_paid"))
    return [*lines(result.standings, without), "total," + ",".join(map(str, total[:-1])), f"cash,{total[-1]}"]


def text_of(result: Any, outside: bool) -> str:
    """The text of a result, made from its tables alone."""

    def banks(table: Any) -> List[str]:
        return lines(table, () if outside else ("outside",))

    if isinstance(result, Check):
        told = [f"{name},{value}" for name, value in zip(result.total._fields, result.total)]
        parts = [told, banks(result.banks), lines(result.debts)]
    elif isinstance(result, Converted):
        parts = [lines(result.banks)]
    elif isinstance(result, Generated):
        parts = [[f"{name},{value}" for name, value in zip(result.total._fields, result.total)]]
    elif isinstance(result, Journal):
        parts = [[*lines(result.raises), f"rounds,{result.rounds}"]]
    elif isinstance(result, Clearing):
        parts = [lines(result.payments)]
        parts += [[*lines(result.journal.raises), f"rounds,{result.journal.rounds}"]] if result.journal else []
    elif isinstance(result, Defaults):
        parts = [standings(result, outside)]
    elif isinstance(result, Stress):
        parts = [[f"scenario,{one.name}", *lines(one.payments), *standings(one, outside)] for one in result.scenarios]
    elif isinstance(result, Bounds):
        parts = [lines(result.payments), lines(result.waves)]
    elif isinstance(result, Rescue):
        parts = [[f"rescue,{result.bank},{result.added}", f"short,{result.short}"], lines(result.payments)]
    elif isinstance(result, Compression):
        parts = [lines(result.debts), [*lines(result.ranks), f"cancelled,{result.cancelled}"]]
    elif isinstance(result, (Breaking, CostBounds, Impact, Outcomes, Rescues)):
        parts = list(map(lines, result.tables().values()))
    elif isinstance(result, Costs):
        total = ",".join(map(str, result.total[:-1]))
        parts = [lines(result.payments), [*lines(result.standings), f"total,{total}", f"cash,{result.total.cash}"]]
    else:
        assert isinstance(result, Verdict) and result.verdict == "lawful"
        parts = [[f"lawful,{result.raises}"], lines(result.payments)]
    return "\n".join("".join(line + "\n" for line in part) for part in parts)


class Texts(Case):
    def texts(self, folder: pathlib.Path) -> Iterator[Tuple[str, str]]:
        """What each task prints for an example."""
        files = files_of(folder)
        journal = self.file("journal.csv", self.printed("clear", *files, "--show", "journal"))
        scenarios = self.file(
            "scenarios.toml", '[[scenario]]\nname = " a # "\n[[scenario]]\nname = " a # "\ncut = 700\n'
        )
        first = folder.joinpath("banks.csv").read_text(encoding="utf-8").splitlines()[1].split(",")[0]
        for words in (
            ["check"],
            ["clear", "--show", "both"],
            ["clear", "--show", "journal"],
            ["central"],
            ["defaults"],
            ["stress", "--scenarios", scenarios],
            ["replay", "--journal", journal],
            ["convert"],
            ["bounds"],
            ["rescue", "--bank", first],
            ["compress"],
            ["costs", "--keep", 900],
            ["cost-bounds", "--keep", 900],
            ["breaking"],
            ["impact"],
            ["rescues"],
            ["outcomes", "--scenarios", scenarios],
        ):
            yield words[0], self.printed(*words, *files)

    def test_every_text_of_every_example_is_taken_apart_without_loss(self):
        for folder in EXAMPLES:
            outside = "outside" in folder.joinpath("banks.csv").read_text(encoding="utf-8").partition("\n")[0]
            for task, text in self.texts(folder):
                with self.subTest(example=folder.name, task=task):
                    self.assertEqual(text_of(read(text), outside), text)
        text = self.printed("gen", "--seed", 7, "--size", 30, "--tries", 90)
        self.assertEqual(text_of(read(text), False), text)

    def test_values_that_are_known(self):
        payments = read(self.printed("clear", *files_of(CHAIN))).payments
        self.assertEqual([tuple(one) for one in payments], [("A", "B", 1, 10, 7), ("B", "C", 1, 9, 8)])
        self.assertEqual(read(self.printed("clear", *files_of(CHAIN))).total, (19, 15))

    def test_numbers_beyond_2_to_the_53rd_are_exact(self):
        for number in (2**53 + 1, 10**16 - 1, 25 * 10**18 + 7, 10**40 - 1):
            payments = read(f"debtor,creditor,class,claim,paid\nA,B,1,{number},{number - 1}\n")
            self.assertEqual(payments.payments[0], ("A", "B", 1, number, number - 1))
            sums = ("banks,2", "debts,1", f"owed,{number}", f"cash,{number - 1}", "paid,0", "defaults,0", "equity,7")
            self.assertEqual(tuple(read("\n".join([*sums, ""])).total), (2, 1, number, number - 1, 0, 0, 7))

    def test_a_text_that_was_cut_short_is_refused(self):
        for task, text in self.texts(HUB):
            for place in range(1, len(text)):
                # Within a line always; behind a whole line where sums must stand at the end.
                if text[place - 1] != "\n" or task in ("check", "defaults", "compress"):
                    with self.subTest(task=task, place=place), self.assertRaises(TextError):
                        read(text[:place])

    def test_what_is_no_number_no_state_or_no_record_is_refused_with_its_line(self):
        text = self.printed("defaults", *files_of(TWELVE))
        for old, new, line in [
            (",2566666,", ",2566666.0,", 2),
            (",2566666,", ", 2566666,", 2),
            (",2566666,", ",٣,", 2),
            (",2566666,", ",-1,", 2),
            (",2566666,", ",,", 2),
            (",2566666,", ",2_566_666,", 2),
            (",contagion\n", ",Contagion\n", 3),
            ("Birk,", "Birk,1,", 3),
            ("Birk,", "", 3),
            ("total,", "Total,", 14),
            ("bank,estate", "bank,asset", 1),
            ("\nGarda", "\n\nGarda", 6),
            (",2566666,", f",{'9' * 41},", 2),
        ]:
            with self.subTest(new=new):
                self.assertIn(old, text)
                with self.assertRaises(TextError) as caught:
                    read(text.replace(old, new, 1))
                self.assertEqual(caught.exception.line, line)

    def test_no_text_and_texts_of_others_are_refused(self):
        for text in ["", "\n", "\ufeff", "a,b\n1,2\n", "clearing: out of memory\n", "rescue,A\n", "banks,1\n"]:
            with self.subTest(text=text), self.assertRaises(TextError):
                read(text)
        with self.assertRaisesRegex(TextError, "2 banks .* in place of 3"):
            read(self.printed("check", *files_of(CHAIN)).replace("C,0,order\n", "", 1))

    def test_a_byte_order_mark_and_line_ends_of_spreadsheets_are_passed_over(self):
        text = self.printed("defaults", *files_of(TWELVE))
        path = self.file("d.csv", b"\xef\xbb\xbf" + text.replace("\n", "\r\n").encode())
        self.assertEqual(read(path), read(text))
        self.assertEqual(read(path.read_bytes().decode()), read(text))

    def test_nothing_may_stand_behind_a_text(self):
        for task, text in self.texts(HUB):
            for more in (text, "\n", "x\n", "\n\n", "total,1\n"):
                with self.subTest(task=task, more=more), self.assertRaises(TextError):
                    read(text + "\n" + more if more == text and task != "stress" else text + more)

    def test_verdicts_on_journals_that_are_not_lawful(self):
        known = [
            ("falls,3,9,8\n", ("falls", 3, 9, 8)),
            ("unlawful,48,632223,643335\n", ("unlawful", 48, 632223, 643335)),
        ]
        for text, (word, entry, first, second) in known:
            verdict = read(text)
            seen = (verdict.last, verdict.stamp) if word == "falls" else (verdict.had, verdict.allowed)
            self.assertEqual(
                (verdict.verdict, verdict.entry, seen, verdict.lawful), (word, entry, (first, second), False)
            )
        self.assertEqual(read("unfinished,A b\n").bank, "A b")

    def test_banks_named_like_words_of_the_texts(self):
        banks = self.file("b.csv", "name,cash,rule\ntotal,7,order\ncash,1,order\nscenario,0,order\nrounds,0,order\n")
        debts = self.file(
            "d.csv", "debtor,creditor,class,claim\ntotal,cash,1,10\ncash,scenario,1,9\nrounds,total,1,0\n"
        )
        scenarios = self.file("s.toml", '[[scenario]]\nname = "cash"\n')
        for words in (
            ["check"],
            ["clear", "--show", "both"],
            ["defaults"],
            ["stress", "--scenarios", scenarios],
            ["bounds"],
            ["rescue", "--bank", "total"],
            ["compress"],
            ["costs", "--keep", 1],
            ["cost-bounds", "--keep", 1],
            ["breaking"],
            ["impact"],
            ["rescues"],
            ["outcomes", "--scenarios", scenarios],
        ):
            text = self.printed(*words, "--banks", banks, "--debts", debts)
            self.assertEqual(text_of(read(text), False), text)


if __name__ == "__main__":
    unittest.main()
