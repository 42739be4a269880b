"""What the desk's page says of a bank: whom it owes, why it lacks what it lacks, and what is asked of it."""
import re
import unittest

from browser import Keys
from common import TWELVE, clearing, files_of
from desk import payments_of, wrapped
from desk_page import DeskPage, large, strip


class Banks(DeskPage):
    def test_a_bank_says_whom_it_owes_and_why_it_is_in_default(self):
        self.open()
        self.choose(1)
        debts = payments_of(*files_of(TWELVE))
        owes = self.js(
            "return [...document.querySelectorAll('#owes tbody tr')].map(r => [r.cells[0].innerText,"
            " r.querySelector('input').value, r.cells[3].innerText])"
        )
        self.assertEqual(
            [[strip(cell) for cell in row] for row in owes],
            [[debt[1], debt[3], f"{int(debt[4]):,}"] for debt in debts if debt[0] == "Birk"],
        )
        self.assertEqual(
            [[row[0], row[2], row[3]] for row in self.rows("owed")],
            [[debt[0], f"{int(debt[3]):,}", f"{int(debt[4]):,}"] for debt in debts if debt[1] == "Birk"],
        )
        self.assertIn("Label contagion", self.text("bank-state"))
        for what, words in (
            ("rescue", "more of cash lets it pay in full. So would the sum that saves Isar."),
            ("ruin", "Where it loses all its cash, 1,500,001 units, it keeps"),
        ):
            self.click(f"ask-{what}")
            self.until(lambda: words in self.text(f"answer-{what}"))
        self.until(lambda: "It is in default without a cut." in self.text("breaks"))

    def open_fjord(self) -> None:
        """Opens the account of Fjord, after nearly all cash was lost."""
        self.open(None, "--unit", "1000", "--currency", "EUR")
        self.slide("cut", 950)
        self.until_state(1)
        self.choose(5)
        self.until(lambda: len(self.account()) > 3)

    def test_why_is_an_account_that_adds_up(self):
        self.open_fjord()
        # What a line is called, its units as it was given, and those of the state.
        self.assertEqual(
            [tuple(line[:3]) for line in self.account()],
            [
                ("All its cash, and all debtors pay", 1965000, 1965000),
                ("loss of its cash", 0, -950000),
                ("unpaid by Birk", 0, -500000),
                ("unpaid by Isar", -133333, -500000),
                ("unpaid by Jura", 0, -25000),
                ("debts outside", 0, 0),
                ("Left; below 0: lacking", 1831667, -10000),
            ],
        )
        self.assertEqual(
            self.text("bank-lead").replace("\u00a0", " "), "It lacks EUR 10 million of the EUR 150 million it owes."
        )
        self.assertEqual(
            self.js("return document.querySelector('#account caption').innerText"),
            "The account of what it lacks, EUR thousand, to the last unit",
        )

    def test_each_debtor_of_an_account_opens_and_one_of_its_own_within(self):
        self.open_fjord()
        self.js("document.querySelector('#account .opens[data-bank=\"9\"]').click()")
        said = (
            "990,000 with all; less 950,000 of its cash, less 100,000 unpaid by Elbe: Jura lacks 60,000. It pays Fjord"
            " nothing of 25,000"
        )
        self.until(lambda: said in strip(self.js("return document.querySelector('#account').innerText")))
        self.js("document.querySelector('#account .further .opens').click()")
        self.until(lambda: "Elbe lacks 1,776" in strip(self.js("return document.querySelector('#account').innerText")))
        for words in ("cause", "because", "creditors lose", "by contagion"):
            self.assertNotIn(words, self.js("return document.body.innerText"))

    def test_the_account_of_each_bank_adds_up_also_where_the_rest_is_a_sum(self):
        self.open_fjord()
        for bank in range(12):
            self.choose(bank)
            self.until(lambda: self.js("return document.getElementById('bank').dataset.of") == str(bank))
            lines = self.account()
            for column in (1, 2):
                self.assertEqual(sum(line[column] for line in lines[:-1]), lines[-1][column], bank)

    def test_a_bank_that_is_pointed_at_or_chosen_is_so_in_all_places(self):
        self.open()
        self.until(lambda: self.count("#curve-place a[data-bank]") == 12)
        self.choose(3)
        marked = self.js(
            "return [...document.querySelectorAll('.chosen')].map(e => [e.closest('#picture, #curve-place,"
            " #differences')?.id, e.dataset.bank])"
        )
        self.assertEqual(sorted(map(tuple, marked)), [("curve-place", "3"), ("differences", "3"), ("picture", "3")])
        far = self.js(
            "return [...document.querySelectorAll('#picture g[data-flow]')].map(e =>"
            " [e.dataset.flow.split('-').includes('3'), e.classList.contains('far')])"
        )
        self.assertTrue(far)
        self.assertTrue(all(own != faint for own, faint in far))
        for place in (
            "#picture a[data-bank='5']",
            "#differences tr[data-bank='5'] .link",
            "#curve-place a[data-bank='5']",
        ):
            self.js(
                "document.querySelector(arguments[0]).dispatchEvent(new PointerEvent('pointerover', {bubbles: true}))",
                place,
            )
            pointed = set(
                self.js(
                    "return [...document.querySelectorAll('.pointed')].map(e => e.closest('#picture, #curve-place,"
                    " #differences')?.id + e.dataset.bank)"
                )
            )
            self.assertEqual(pointed, {"picture5", "curve-place5", "differences5"}, place)
        # The curve and the table open the account too.
        self.js(
            "document.querySelector('#curve-place a[data-bank=\"7\"]').dispatchEvent(new MouseEvent('click', {bubbles:"
            " true, cancelable: true}))"
        )
        self.until(lambda: "Havel" in self.text("bank-name"))
        self.js("document.querySelector('#differences tr[data-bank=\"4\"] .link').click()")
        self.until(lambda: "Elbe" in self.text("bank-name"))

    def test_a_bank_is_found_among_a_thousand(self):
        self.open(large(self.folder, 1000, 3000), "--labels", self.file("l.csv", "code,name\nbank 555,Osuuspankki Å\n"))
        self.focus("find")
        self.press("ank 77")
        self.assertEqual(self.count("#found button"), 11)
        self.press("7", Keys.ENTER)
        self.until(lambda: self.js("return document.getElementById('bank-name')?.textContent.includes('bank 777')"))
        self.assertEqual(self.js("return document.activeElement.id"), "bank-name")
        self.focus("find")
        self.press("OSUUS", Keys.ENTER)
        self.until(lambda: "Osuuspankki Å (bank 555)" in self.text("bank-name"))
        self.focus("find")
        self.press("nobody")
        self.assertEqual(self.text("find-none"), "No bank has this in its name.")
        self.press(Keys.ESCAPE)
        self.assertEqual(self.text("find-none"), "")

    def test_an_answer_of_a_bank_is_seen_and_says_of_which_cash(self):
        self.open()
        self.size(1366, 900)
        self.slide("cut", 100)
        self.until_state(1)
        self.choose(9)
        for what in ("rescue", "ruin"):
            self.js(
                "const e = document.getElementById(arguments[0]); e.scrollIntoView({ block: 'end' }); e.focus()",
                f"ask-{what}",
            )
            self.click(f"ask-{what}")
            self.until(lambda: self.text(f"answer-{what}") not in ("", "The program is asked."))
            box = self.js(
                "const e = document.getElementById(arguments[0]), b = e.getBoundingClientRect();"
                " return [b.top, b.bottom, innerHeight, document.activeElement.id, e.getAttribute('role')]",
                f"answer-{what}",
            )
            self.assertTrue(0 <= box[0] and box[1] <= box[2] + 1, (what, box))
            self.assertEqual(box[3:], [f"ask-{what}", "status"])
        self.until(lambda: " per mille of the cash before this cut (" in self.text("breaks"))

    def test_a_question_that_takes_time_says_how_far_it_is_and_is_stopped(self):
        files = large(self.folder, 62, 62)
        self.open(files, program=wrapped(self, "case $1 in outcomes|rescues) sleep 0.7;; esac"))
        # So many banks are not asked for unasked.
        self.assertEqual(self.text("next"), "not asked yet")
        self.click("ask-curve")
        self.until(lambda: re.search(r"[01] of \d+ pieces?, [0-9.]+ s", self.text("curve-told")))
        self.until(lambda: "to ten per mille so far" in self.text("curve-title"))
        self.assertTrue(self.count("#curve-place .curve"))
        self.js("document.querySelector('#curve-told .stops').click()")
        self.until(lambda: "Stopped after " in self.text("curve-told"))
        self.assertEqual(self.js("return document.getElementById('ask-curve').hidden"), False)
        # What has come stays, and it can be asked again to its end.
        self.assertTrue(self.count("#curve-place .curve"))
        self.click("ask-curve")
        self.until(lambda: "some cut of all cash" in self.text("curve-title"))
        self.until(lambda: "%" in self.text("next") or "no cut" in self.text("next"))
        lines = [line.split(",") for line in clearing("breaking", *files).stdout.decode().splitlines()[1:]]
        self.assertIn(f"{sum(int(line[1]) <= 1000 for line in lines):,} banks of 62", self.text("curve-title"))
        bank = next(at for at, line in enumerate(lines) if 0 < int(line[1]) <= 1000)
        self.focus("find")
        self.press(f"bank {bank}", Keys.ENTER)
        said = f"at a cut of {int(lines[bank][1]):,} per mille"
        self.until(lambda: said in self.js("return document.getElementById('breaks')?.innerText ?? ''"))
        # The answer on one bank comes first, and then the rest of it.
        fallen = next(at for at, line in enumerate(lines) if int(line[1]) == 0)
        self.focus("find")
        self.press(f"bank {fallen}", Keys.ENTER)
        self.until(lambda: self.js("return document.getElementById('bank').dataset.of") == str(fallen))
        self.click("ask-rescue")
        self.until(lambda: "lets it pay in full" in self.text("answer-rescue"))
        self.until(lambda: not self.js("return document.querySelector('#answer-rescue .stops')"))


if __name__ == "__main__":
    unittest.main()
