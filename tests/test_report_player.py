"""The drawing of the report, and the player of the journal."""
import re

from browser import Keys
from common import EXAMPLES, ROOT
from reports import TWELVE, InTheBrowser, files_of, largest, ring_with_outside, rows_of


class Player(InTheBrowser):
    def test_the_last_frame_is_the_payments_and_each_before_what_the_journal_says(self):
        files = files_of(TWELVE)
        self.open(files)
        debts = rows_of("clear", files)
        key = {tuple(debt[:3]): at for at, debt in enumerate(debts)}
        final = self.expected_flows([(debt[:4], int(debt[4])) for debt in debts], {})
        self.assert_flows(final)
        raises = [row for row in rows_of("clear", files, "--show", "journal", "--workers", "1") if row[0] != "rounds"]
        cash = {
            line.split(",")[0]: int(line.split(",")[1])
            for line in (TWELVE / "banks.csv").read_text().split("\n")[1:]
            if line
        }
        self.assertEqual(self.js("return +document.getElementById('step').max"), len(raises))
        self.click("first")
        self.run_of("Emulation.setEmulatedMedia", features=[{"name": "prefers-reduced-motion", "value": "reduce"}])
        paid = [0] * len(debts)
        self.assert_flows(self.expected_flows([(debt[:4], 0) for debt in debts], {}))
        for at, (stamp, debtor, creditor, rank, to) in enumerate(raises, 1):
            self.click("next")
            paid[key[debtor, creditor, rank]] = int(to)
            self.assert_flows(self.expected_flows([(debt[:4], sum_) for debt, sum_ in zip(debts, paid)], {}))
            said, line = self.js(
                "return ['raise', 'line'].map(key =>"
                " document.getElementById(key).textContent.replace(/[\\u2068\\u2069]/g, ''))"
            )
            has = cash[debtor] + sum(sum_ for debt, sum_ in zip(debts, paid) if debt[1] == debtor)
            self.assertEqual(line, f"line {at + 1}: {stamp},{debtor},{creditor},{rank},{to}")
            self.assertIn(f"{debtor} then had {has:,} units", said)
            self.assertIn(f"stamp {stamp}:", said)
        self.assert_flows(final)
        self.assertIn("Nobody can pay more", said)
        self.assertIn(
            "8,256,671 units of 9,750,000 units", self.js("return document.getElementById('sum').textContent")
        )

    def test_the_area_of_a_bank_is_what_it_leaves_unpaid(self):
        self.open(files_of(TWELVE))
        sides = (
            "return Object.fromEntries([...document.querySelectorAll('svg.net a[data-bank]')].map(a => [a.dataset.bank,"
            " Math.sqrt(a.querySelector('.n').getBBox().width ** 2 * (a.querySelector('rect') ? 1 : 0.5))]))"
        )
        rows = rows_of("defaults", files_of(TWELVE))
        unpaid = {str(at): int(row[3]) - int(row[2]) for at, row in enumerate(rows)}
        found = self.js(sides)
        for at, units in unpaid.items():
            if units:
                self.assertAlmostEqual(found[at], max(12, 50 * (units / max(unpaid.values())) ** 0.5), delta=0.5)
        # While the journal plays the marks stay, and what is unpaid at the end, of a bank or on a debt, is not said.
        seen = (
            "return [...new Set([...document.querySelectorAll('svg.net .un, svg.net .amt')].map("
            "e => e.classList[0] + ' ' + getComputedStyle(e).visibility))].sort()"
        )
        self.click("first")
        self.assertEqual(self.js(sides), found)
        self.assertEqual(self.js(seen), ["amt hidden", "un hidden"])
        self.click("last")
        self.assertEqual(self.js(seen), ["amt visible", "un visible"])
        # The words of the curve are letters, not strokes.
        self.assertEqual(
            self.js(
                "return [...new Set([...document.querySelectorAll('#rise text')].map(e => getComputedStyle(e).stroke))]"
            ),
            ["none"],
        )

    def test_it_plays_to_the_end(self):
        self.open(files_of(TWELVE))
        self.js(
            "document.getElementById('step').value = 46; document.getElementById('step').dispatchEvent(new"
            " Event('input'))"
        )
        self.click("play")
        self.assertEqual(self.js("return document.getElementById('play').textContent"), "Pause")
        self.until(lambda: self.js("return document.getElementById('play').textContent") == "Play")
        self.until(
            lambda: not self.js("return [...document.querySelectorAll('*')].some(e => d3.active(e) || e.__transition)")
        )
        self.assertEqual(self.js("return +document.getElementById('step').value"), 49)
        self.assert_flows(
            self.expected_flows([(debt[:4], int(debt[4])) for debt in rows_of("clear", files_of(TWELVE))], {})
        )

    def test_the_matrix_plays_too(self):
        files = files_of(ROOT / "examples/core")
        self.open(files)
        final = self.flows()
        # The pairs drawn and those of the blocks of others together are all debts.
        for part, column in ((r": ([0-9,]+) of", 4), (r" of ([0-9,]+) paid", 3)):
            drawn = [int(re.search(part, title)[1].replace(",", "")) for title in final]
            self.assertEqual(sum(drawn), sum(int(debt[column]) for debt in rows_of("clear", files)))
        debts = {}
        for debtor, creditor, _, claim, sum_ in rows_of("clear", files):
            before = debts.get((debtor, creditor), (0, 0))
            debts[debtor, creditor] = before[0] + int(claim), before[1] + int(sum_)
        alone = {f"{a} to {b}: {part:,} of {claim:,} paid" for (a, b), (claim, part) in debts.items()}
        self.assertGreater(len(alone & set(final)), 20)
        self.assertEqual(
            [title for title in final if not re.search("[0-9] others? ", title) and title not in alone], []
        )
        self.click("first")
        self.assertNotIn(0, self.flows().values())
        self.click("last")
        self.assert_same(self.flows(), final)

    def test_a_bank_with_the_focus_shows_its_row(self):
        self.open(files_of(TWELVE))
        first = self.js("return document.querySelector('svg.net a').dataset.bank")
        self.js("document.querySelector('.lim a').focus()")
        self.press(Keys.TAB)
        self.assertEqual(self.js("return document.activeElement.dataset.bank"), first)
        for at in range(1, 4):
            self.press(Keys.TAB)
        self.assertEqual(self.js("return document.activeElement.dataset.bank"), "3")
        text = self.js("return document.getElementById('shown').innerText")
        for word in ("Dunmore", "1,400,001", "2,100,000", "fundamental", "699,999"):
            self.assertIn(word, text)
        self.assertEqual(
            self.js("return document.querySelectorAll('g.flow.lit').length"),
            len({tuple(debt[:2]) for debt in rows_of("clear", files_of(TWELVE)) if "Dunmore" in debt[:2]}),
        )
        hover = "document.querySelector('svg.net a[data-bank=\"4\"]').dispatchEvent(new MouseEvent(arguments[0]))"
        self.js(hover, "mouseenter")
        self.assertIn("1,620,001", self.js("return document.getElementById('shown').innerText"))
        self.assertEqual(self.js("return document.querySelector('tr.lit').id"), "row-4")
        self.js(hover, "mouseleave")
        self.assertIsNone(self.js("return document.querySelector('tr.lit')"))
        self.press(Keys.ENTER)
        self.assertTrue(self.driver.current_url.endswith("#bank-3"))

    def test_gridlock_and_a_journal_without_a_raise(self):
        self.open(files_of(ROOT / "examples/gridlock"))
        values = self.js("return [...document.querySelectorAll('#figures .value')].map(v => v.textContent)")
        self.assertEqual(values, ["3 of 3 banks", "300 units", "300 units", "\u2013"])
        self.assertIn(
            "greater payments, by 300 units in all, would clear too",
            self.js("return document.getElementById('summary').innerText"),
        )
        self.assertEqual(self.js("return document.getElementById('raise').textContent"), "Nothing is paid yet.")
        self.click("next")
        self.click("play")
        self.assertEqual(set(self.flows().values()), {15.0})
        self.assertEqual(self.js("return document.querySelectorAll('svg.net .n-gridlock').length"), 3)

    def test_the_keyboard_alone_reaches_and_works_all(self):
        self.open(files_of(TWELVE), "--scenarios", TWELVE / "scenarios.toml")
        reached = []
        for _ in range(260):
            self.press(Keys.TAB)
            reached.append(
                self.js("const e = document.activeElement; return e.id || e.dataset.bank || e.textContent.trim()")
            )
        for key in (
            "To the summary",
            "0",
            "11",
            "step",
            "first",
            "back",
            "play",
            "next",
            "last",
            "search",
            "state",
            "Owed",
            "CSV",
            "PNG",
        ):
            self.assertIn(key, reached)
        self.js("document.getElementById('step').focus()")
        self.press(Keys.HOME)
        self.assertEqual(self.js("return document.getElementById('raise').textContent"), "Nothing is paid yet.")
        self.press(Keys.ARROW_RIGHT, Keys.ARROW_RIGHT)
        self.assertIn("line 3:", self.js("return document.getElementById('line').textContent"))
        self.js("document.querySelector('#banks-table thead th:nth-child(6) button').focus()")
        self.press(Keys.ENTER)
        self.assertEqual(self.shown_rows()[0], "Crédit Loire")

    def walk(self) -> None:
        """Goes through the journal by each of its ways, without motion."""
        self.run_of("Emulation.setEmulatedMedia", features=[{"name": "prefers-reduced-motion", "value": "reduce"}])
        self.click("first")
        for _ in range(3):
            self.click("next")
        for share in (0.3, 0.9):
            self.js(
                (
                    "const s = document.getElementById('step'); s.value = Math.round(s.max * arguments[0]);"
                    " s.dispatchEvent(new Event('input'))"
                ),
                share,
            )
        self.click("back")
        self.click("last")

    def test_every_network_is_played_without_a_fault(self):
        banks = lambda text: self.file("banks.csv", "name,cash,rule\n" + text)
        debts = lambda text: self.file("debts.csv", "debtor,creditor,class,claim\n" + text)
        made = [
            *((folder.name, lambda folder=folder: files_of(folder)) for folder in EXAMPLES),
            *(
                (f"{count} banks", lambda count=count: ring_with_outside(self.folder, count))
                for count in (1, 2, 40, 41, 100, 1000)
            ),
            ("the largest", lambda: largest(self.folder)),
            ("nobody", lambda: ["--banks", banks(""), "--debts", debts("")]),
            ("no debts", lambda: ["--banks", banks("A,3,order\nB,0,equal\n"), "--debts", debts("")]),
            ("one bank", lambda: ["--banks", banks("A,3,order\n"), "--debts", debts("")]),
        ]
        for name, files in made:
            with self.subTest(network=name):
                self.open(files())
                final = self.flows()
                self.walk()
                self.assert_same(self.flows(), final)
                self.assert_quiet()
                self.address = "about:blank"
                self.driver.get(self.address)

    def test_what_many_banks_pay_outside_is_played_too(self):
        files = ring_with_outside(self.folder, 60)
        self.open(files)
        outside = lambda: sum(
            int(re.search(": ([0-9,]+) of", title)[1].replace(",", "")) for title in self.flows() if "outside" in title
        )
        cash = {at: (at * 7 % 11, 2 + at % 5) for at in range(60)}
        self.click("first")
        self.assertEqual(outside(), sum(min(pair) for pair in cash.values()))
        self.click("last")
        self.assertEqual(outside(), sum(int(row[2]) for row in rows_of("defaults", files)))
