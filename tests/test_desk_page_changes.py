"""Changes on the desk's page: what is typed, moved or picked is cleared at once, and what is refused is told there."""
import re
import unittest

from browser import Keys
from common import TWELVE, files_of
from desk import SCENARIOS, payments_of, standings, wrapped
from desk_page import DeskPage


class Changes(DeskPage):
    def test_a_cut_is_cleared_at_once(self):
        self.open()
        self.assert_shown(self.base(), self.base(), payments_of(*files_of(TWELVE)))
        self.slide("cut", 950)
        self.until_state(1)
        shock = self.file("s.toml", '[[scenario]]\nname = "s"\ncut = 950\n')
        words = [*files_of(TWELVE), "--scenarios", shock]
        now = standings("stress", *words)
        self.assert_shown(self.base(), now, payments_of(*words))
        fallen = [row[0] for row, before in zip(now, self.base()) if row[5] != "sound" and before[5] == "sound"]
        self.assertGreater(len(fallen), 1)
        more = sum(int(row[3]) - int(row[2]) for row in now) - sum(int(row[3]) - int(row[2]) for row in self.base())
        self.assertEqual(
            self.text("told"), f"{' and '.join(fallen)} join those in default; {more:,} units more stay unpaid"
        )
        # The most first; a head of the table sorts it, and sorts it the other way.
        order = [row[0] for row in sorted(self.rows(), key=lambda row: -int(row[4].replace(",", "").replace("−", "-")))]
        self.assertEqual([row[0] for row in self.rows()][:6], order[:6])
        self.js("document.querySelector('[data-order=bank]').click()")
        self.assertEqual([row[0] for row in self.rows()], [row[0] for row in self.base()])
        self.js("document.querySelector('[data-order=bank]').click()")
        self.assertEqual([row[0] for row in self.rows()], [row[0] for row in self.base()][::-1])
        self.assertEqual(self.js("return document.activeElement.dataset.order"), "bank")

    def test_a_bank_and_its_debts_are_changed(self):
        self.open()
        self.choose(1)
        self.unfold("change-bank")
        self.type_in("cash", "5000000")
        self.until_state(1)
        self.assert_is_cleared()
        self.assertIn("Birk", self.text("told"))
        self.type_in("outside", "70000")
        self.until_state(2)
        self.pick("rule", "order")
        self.until_state(3)
        self.assertIn("Birk,5000000,order,70000", self.taken_files()[1].read_text())
        self.type_in("claim-3", "12")
        self.until_state(4)
        self.until(lambda: self.js("return document.getElementById('strike-4')"))
        self.click("strike-4")
        self.until_state(5)
        self.unfold("add-debt")
        for key, value in (("creditor", "Kemi"), ("class", "3")):
            self.fill_in(key, value)
        self.type_in("claim", "54321")
        self.until_state(6)
        debts = self.taken_files()[3].read_text()
        self.assertIn("Birk,Calder,1,12\n", debts)
        self.assertNotIn("Birk,Kemi,2,700000\n", debts)
        self.assertIn("Birk,Kemi,3,54321\n", debts)
        changes = self.text("changes")
        for words in (
            "Birk: cash 5,000,000 in place of 1,500,001",
            "rule order in place of equal",
            "owed outside 70,000 in place of 0",
            "Birk to Calder, class 1: the debt is 12 in place of 1,000,000",
            "Birk to Kemi, class 2: the debt of 700,000 is struck",
            "Birk to Kemi, class 3: a debt of 54,321 is added",
        ):
            self.assertIn(words, changes)
        # Each is taken back by its own button, and then all is as it is.
        for number in range(7, 13):
            self.js("document.querySelector('#changes li button:not(.link)').click()")
            self.until_state(number)
        self.assertEqual(self.text("changes"), "Nothing.")
        self.assertEqual(self.text("told"), "Nothing differs")

    def test_undo_redo_and_as_it_is(self):
        self.open()
        shown = {0: self.picture()}
        for number, cut in ((1, 100), (2, 500), (3, 900)):
            self.slide("cut", cut)
            self.until_state(number)
            shown[number] = self.picture()
        self.assertEqual(len({tuple(titles) for titles in shown.values()}), 4)

        def is_at(number: int) -> None:
            self.until_state(number)
            self.until(lambda: self.picture() == shown[number])

        self.click("undo")
        is_at(2)
        self.js("document.activeElement.blur()")
        self.chord(Keys.CONTROL, "z")
        is_at(1)
        self.chord(Keys.CONTROL, Keys.SHIFT, "z")
        is_at(2)
        self.click("redo")
        is_at(3)
        self.assertTrue(self.js("return document.getElementById('redo').disabled"))
        self.tab("As it is")
        is_at(0)
        self.assertIn("Four of twelve banks are in default", self.text("told"))
        self.click("undo")
        is_at(3)

    def test_an_answer_that_comes_late_is_not_shown(self):
        self.open()
        shown = self.picture()
        for number, cut in ((1, 500), (2, 900)):
            self.slide("cut", cut)
            self.until_state(number)
        # The answer to the first step back comes when that to the second was shown.
        self.js(
            """const ask = window.fetch; let isFirst = true; window.late = 0;
            window.fetch = (path, ...words) => {
                const answer = ask(path, ...words);
                if (!isFirst || !String(path).startsWith("state/")) return answer;
                isFirst = false;
                return answer.then(found => new Promise(done => setTimeout(() => {
                    done(found);
                    setTimeout(() => window.late = 1, 300);
                }, 1500)));
            }"""
        )
        self.click("undo")
        self.click("undo")
        self.until_state(0)
        self.until(lambda: self.js("return window.late"))
        self.assertEqual((self.state(), self.picture()), (0, shown))

    def test_a_scenario_and_what_default_keeps(self):
        self.open(None, "--scenarios", SCENARIOS)
        self.assertEqual(
            self.js("return [...document.getElementById('scenario').options].map(o => o.text)")[1:],
            re.findall('name = "(.*)"', SCENARIOS.read_text()),
        )
        self.pick("scenario", "2")
        self.until_state(1)
        self.assert_is_cleared()
        self.assertIn("Havel 4,000,000, Kemi 2,000,000", self.text("losses"))
        self.tab("As it is")
        self.until_state(0)
        self.slide("keep", 400)
        self.until_state(2)
        rows = standings("costs", *files_of(TWELVE), "--keep", "400")
        self.assertEqual(self.text("sum-lost"), f"{sum(int(row[2]) for row in rows):,} units")
        self.assertEqual(self.text("sum-pays"), f"{sum(int(row[4]) for row in rows):,} units")

    def test_a_slider_asks_for_the_newest_value_only(self):
        self.open(program=wrapped(self, '[ "$1" != stress ] || sleep 0.2'))
        self.js(
            """window.posts = 0;
            const real = fetch;
            window.fetch = (...words) => { if (words[0] === 'change') posts += 1; return real(...words); };
            const s = document.getElementById('cut-slide');
            for (let at = 1; at <= 200; at += 1) { s.value = at; s.dispatchEvent(new Event('input')); }"""
        )
        self.until(lambda: self.js("return document.getElementById('cut').value") == "200")
        self.assertEqual(self.js("return posts"), 2)
        self.js("document.getElementById('cut-slide').dispatchEvent(new Event('change'))")
        # What moved at once is one step.
        self.click("undo")
        self.until_state(0)

    def test_a_refused_change_is_told_at_its_field(self):
        self.open()
        self.expected = ["422"]
        self.choose(1)
        before = self.picture()
        self.unfold("change-bank")
        for key, value, said in (
            (
                "cash",
                "1000000000001",
                "banks row 2: limit (6) — a number is outside its limit; it is at most 1,000,000,000,000.",
            ),
            ("outside", "x", "banks row 2: number (4)"),
            ("claim-3", "0.5", "debts row 4: number (4)"),
            ("cut", "1001", "scenarios row 1: limit (6)"),
            ("keep", "all", "is no value of --keep"),
        ):
            self.type_in(key, value)
            self.until(lambda: not self.js("return document.getElementById(arguments[0] + '-fault').hidden", key))
            self.assertIn(said, self.text(f"{key}-fault"))
            self.assertEqual(
                self.js(
                    "const e = document.getElementById(arguments[0]);"
                    " return [e.getAttribute('aria-invalid'), e.getAttribute('aria-describedby'), e.value]",
                    key,
                ),
                ["true", f"{key}-fault", value],
            )
            self.assertEqual((self.state(), self.picture()), (0, before))
        self.unfold("add-debt")
        for creditor, rank, field, said in (
            ("Nobody", "1", "creditor", "unknown bank (8)"),
            ("Calder", "1", "creditor", "double debt (11)"),
            ("Kemi", "x", "class", "class (10)"),
        ):
            for key, value in (("creditor", creditor), ("class", rank), ("claim", "5")):
                self.fill_in(key, value)
            self.click("add")
            self.until(lambda: said in self.text(f"{field}-fault"))
        # The next good change takes the faults away.
        self.type_in("cash", "1")
        self.until_state(1)
        self.until(lambda: self.js("return [...document.querySelectorAll('.fault')].every(f => f.hidden)"))

    def test_a_state_is_a_link_and_two_tabs_are_apart(self):
        self.open()
        self.slide("cut", 700)
        self.until_state(1)
        first, shown = self.driver.current_window_handle, self.picture()
        link = self.js("return document.getElementById('here').href")
        self.driver.switch_to.new_window("tab")
        try:
            self.driver.get(link)
            self.ready()
            self.assertEqual((self.state(), self.picture()), (1, shown))
            self.click("undo")
            self.until_state(0)
            self.slide("cut", 10)
            self.until_state(2)
        finally:
            self.driver.close()
            self.driver.switch_to.window(first)
        self.assertEqual((self.state(), self.picture()), (1, shown))
        self.driver.refresh()
        self.ready()
        self.assertEqual((self.state(), self.picture()), (1, shown))
        self.driver.get(f"{self.desk.link}#state-2")
        self.until_state(2)

    def test_what_is_taken_away_is_a_download(self):
        self.open()
        self.unfold("take")
        self.slide("cut", 300)
        self.until_state(1)
        for what, begins in (
            ("banks", "name,cash,rule\n"),
            ("debts", "debtor,creditor,class,claim\n"),
            ("scenario", "# Source: clearing "),
            ("report", "<!DOCTYPE html>"),
            ("evidence", "PK"),
            ("case", "PK"),
            ("session", "PK"),
        ):
            found = self.js(
                """const link = document.getElementById('take-' + arguments[0]);
                return fetch(link.href).then(async a => [
                    link.checkVisibility(), link.hasAttribute('download'), a.status,
                    a.headers.get('Content-Disposition'), (await a.text()).slice(0, 40)])""",
                what,
            )
            self.assertEqual(found[:3], [True, True, 200], what)
            self.assertTrue(found[3].startswith("attachment"))
            self.assertTrue(found[4].startswith(begins), found)
        self.slide("keep", 500)
        self.until_state(2)
        self.assertFalse(self.js("return document.getElementById('take-scenario').checkVisibility()"))
        self.assertEqual(
            self.text("no-scenario"),
            "No changes.toml: a scenario takes cash and nothing else, and changed here: what default keeps.",
        )

    def test_a_desk_that_has_ended_is_told(self):
        self.open()
        self.until(lambda: "some cut of all cash" in self.text("curve-title"))
        self.desk.end()
        self.expected = ["net::ERR_", "Failed to fetch"]
        self.slide("cut", 5)
        self.until(lambda: "has ended" in self.js("return document.body.innerText"))


if __name__ == "__main__":
    unittest.main()
