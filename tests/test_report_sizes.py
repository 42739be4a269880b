"""The report on all widths, in both themes, on paper, without its script, and at its largest."""
import base64
import re
import shutil
import subprocess
from typing import Any, List

from browser import CONTRAST
from common import ROOT, Word, needs
from reports import TWELVE, InTheBrowser, files_of, largest, rows_of


class Sizes(InTheBrowser):
    def test_no_width_cuts_the_page(self):
        names = [letter * 64 for letter in "abcd"]
        self.file("banks.csv", "name,cash,rule\n" + "".join(f"{name},1,order\n" for name in names))
        self.file(
            "debts.csv", "debtor,creditor,class,claim\n" + "".join(f"{a},{b},1,9\n" for a, b in zip(names, names[1:]))
        )
        scenarios = self.file("s.toml", f'[[scenario]]\nname = "{"e" * 64}"\ncut = 1000\n')
        self.widths_of(files_of(TWELVE), "--scenarios", TWELVE / "scenarios.toml", "--title", "A" * 90)
        self.widths_of(files_of(self.folder), "--scenarios", scenarios, "--default-keeps", "700")
        self.widths_of(files_of(TWELVE), "--default-keeps", "700", "--unit", "90", "--currency", "EUR")

    def widths_of(self, *words: Any) -> None:
        self.open(*words)
        self.js("document.querySelector('svg.net a').focus()")
        for wide in (320, 360, 640, 1280):  # 640 is 1280 at 200 %, 320 at 400 %
            self.size(wide, 800)
            self.assertLessEqual(self.js("return document.scrollingElement.scrollWidth"), wide)
            cut = self.js(
                """const kinds = 'button, input, select, .kpi > div, .shown, .player, h1, h2, h3, p';
                return [...document.querySelectorAll(kinds)].filter(e => e.checkVisibility() && !e.closest('.scroll')
                    && !e.closest('nav') && e.getBoundingClientRect().right > innerWidth + 1
                ).map(e => e.outerHTML.slice(0, 80))"""
            )
            self.assertEqual(cut, [], wide)

    # Cells.

    # A table without a caption is known by its head.
    CUT = """return [...document.querySelectorAll('th, td')].filter(c => c.checkVisibility()
        && (c.scrollWidth > c.clientWidth + 1
        || c.scrollHeight > c.clientHeight + 1)).map(
        c => c.closest('table').rows[0].textContent.slice(0, 30) + ': ' + c.textContent.slice(0, 40))"""
    # A table is within its frame, or the frame has a bar, by which its last column is reached.
    FRAMES = """return [...document.querySelectorAll('.scroll')].filter(
        f => f.checkVisibility() && f.scrollWidth > f.clientWidth + 1).map(f => {
        const bar = f.offsetHeight - f.clientHeight, end = f.getBoundingClientRect().right;
        f.scrollTo(f.scrollWidth, 0);
        const last = [...f.querySelectorAll('thead th')].filter(h => h.checkVisibility()).pop();
        const reached = !last || last.getBoundingClientRect().right <= end + 1;
        f.scrollTo(0, 0);
        return [f.getAttribute('aria-label') || 'a bank', bar >= 10, reached];
    })"""

    def large(self) -> List[Word]:
        """Thirty banks with long names that hold much, and some debts."""
        names = [f"{letter * 30} & Söhne Landesbank {at}" for at, letter in enumerate("abcdefghijklmnopqrstuvwxyzMWQ@")]
        self.file(
            "banks.csv",
            "name,cash,rule,outside\n"
            + "".join(f"{name},{10**12 - at if at % 3 else 7},equal,{10**11 - at}\n" for at, name in enumerate(names)),
        )
        self.file(
            "debts.csv",
            "debtor,creditor,class,claim\n"
            + "".join(f"{a},{b},1,{333333 - at}\n" for at, (a, b) in enumerate(zip(names, names[1:]))),
        )
        return [*files_of(self.folder), "--unit", "1234567.89", "--currency", "EUR"]

    def test_no_cell_is_cut(self):
        for words in (
            self.large(),
            [*files_of(TWELVE), "--scenarios", TWELVE / "scenarios.toml", "--unit", "1000", "--currency", "EUR"],
        ):
            self.open(words, "--default-keeps", "700")
            for font in ("DejaVu Sans", "Liberation Sans"):
                self.js("document.body.style.fontFamily = arguments[0]", font)
                for wide in (390, 768, 1366, 1920):
                    with self.subTest(width=wide, font=font):
                        self.size(wide, 768)
                        self.assertEqual(self.js(self.CUT), [])
                        self.assertEqual([frame for frame in self.js(self.FRAMES) if not all(frame[1:])], [])

    def test_a_table_on_a_desk_needs_no_bar(self):
        self.open(files_of(TWELVE), "--scenarios", TWELVE / "scenarios.toml", "--unit", "1000", "--currency", "EUR")
        for wide in (1366, 1920):
            self.size(wide, 768)
            self.assertEqual(
                self.js("const f = document.querySelector('#banks .scroll'); return f.scrollWidth - f.clientWidth"), 0
            )

    def test_paper_of_a4_holds_it(self):
        self.open(files_of(TWELVE), "--scenarios", TWELVE / "scenarios.toml", "--unit", "1000000", "--currency", "EUR")
        self.run_of("Emulation.setEmulatedMedia", media="print")
        self.size(703, 1000)  # 186 mm between the margins
        cut = self.js(
            """return [...document.querySelectorAll('body *')].filter(e => e.checkVisibility()
            && !e.closest('svg.chart *')
            && e.getBoundingClientRect().right > 704).map(e => e.tagName + ' ' + e.textContent.slice(0, 40))"""
        )
        self.assertEqual(cut, [])
        self.assertFalse(self.js("return document.getElementById('player').checkVisibility()"))
        # Figures, rows and running titles: each page has its number, and no figure is parted.
        self.assertEqual(
            set(self.js("return [...document.querySelectorAll('figure')].map(f => getComputedStyle(f).breakInside)")),
            {"avoid"},
        )

    PAPERS = {"A4": (8.27, 11.69), "Letter": (8.5, 11)}

    def pages(self, paper: Any) -> Any:
        """The texts of the pages on paper of this kind, with none of its heads at the foot of a page, alone or with
        its first words."""
        wide, tall = self.PAPERS[paper]
        printed = self.run_of(
            "Page.printToPDF", paperWidth=wide, paperHeight=tall, preferCSSPageSize=True, printBackground=False
        )["data"]
        file = self.file("paper.pdf", base64.b64decode(printed))
        pages = subprocess.run(
            ["pdftotext", "-layout", file, "-"], capture_output=True, encoding="utf-8", check=True
        ).stdout.split("\f")[:-1]
        heads = set(self.js("return [...document.querySelectorAll('h2, h3, caption')].map(e => e.textContent.trim())"))
        lines = [[line.strip() for line in page.split("\n") if line.strip()] for page in pages]
        self.assertEqual(
            [page[-1] for page in lines], [f"page {at} of {len(pages)}" for at in range(1, len(pages) + 1)]
        )
        self.assertEqual(
            [page[0].split("  ")[0] for page in lines], [page[0].split("  ")[0] for page in lines[:1]] * len(pages)
        )
        last = [page[-2:-1] for page in lines]
        self.assertEqual([line for line in last if line and line[0] in heads], [])
        pages = [" ".join(page.split()) for page in pages]
        # Nor stands a head there with nothing but its first words.
        first = self.js(
            "return [...document.querySelectorAll('h2 + p')].map(p => [p.previousElementSibling.textContent.trim(),"
            " p.textContent])"
        )
        alone = [
            head
            for head, words in first
            for page in pages
            if f"{head} " in page and " ".join(words.split()).startswith(page.rpartition(f"{head} ")[2])
        ]
        self.assertEqual(alone, [])
        return pages

    @needs("pdftotext")
    def test_twelve_banks_are_five_pages(self):
        self.open(files_of(TWELVE), "--scenarios", TWELVE / "scenarios.toml", "--unit", "1000", "--currency", "EUR")
        for paper in self.PAPERS:
            pages = self.pages(paper)
            self.assertLessEqual(len(pages), 5, paper)
            for words in (
                "Summary",
                "Figure 1",
                "Unpaid is not loss",
                "The rule matters",
                "What this says and what not",
                "The evidence",
            ):
                self.assertIn(words, " ".join(pages))
            self.assertIn("Dunmore leaves the most unpaid", pages[0])

    def thirty(self) -> List[Word]:
        """Thirty banks and a hundred scenarios."""
        self.file(
            "banks.csv", "name,cash,rule\n" + "".join(f"Bank number {i},{i * 7919 % 500},webster\n" for i in range(30))
        )
        debts = [
            f"Bank number {x % 30},Bank number {(x % 30 + 1 + x // 30 * 7) % 30},1,{1 + x * 104729 % 190}\n"
            for x in range(120)
        ]
        self.file("debts.csv", "debtor,creditor,class,claim\n" + "".join(debts))
        loss = (
            '[[scenario]]\nname = "shock number {0}"\ncut = {1}\n[[scenario.loss]]\nbank = "Bank number {2}"\namount ='
            " {3}\n"
        )
        scenarios = self.file("s.toml", "".join(loss.format(k, 9 * k, k % 30, 11 * k) for k in range(100)))
        return [*files_of(self.folder), "--scenarios", scenarios]

    @needs("pdftotext")
    def test_thirty_banks_with_a_hundred_scenarios_are_twelve_pages(self):
        self.open(self.thirty())
        for paper in self.PAPERS:
            pages = self.pages(paper)
            self.assertLessEqual(len(pages), 12, paper)
            self.assertIn("shock number 99", " ".join(pages))

    def test_a_phone_shows_the_summary_first(self):
        self.open(files_of(TWELVE), "--scenarios", TWELVE / "scenarios.toml", "--unit", "1000", "--currency", "EUR")
        self.size(390, 844)
        # The finding and the four figures stand on the first screen, and the first sentences.
        self.assertLess(self.js("return document.querySelector('#figures').getBoundingClientRect().bottom"), 844)
        self.assertLess(self.js("return document.querySelector('#summary li').getBoundingClientRect().bottom"), 844)
        # In place of the picture a list by bank.
        self.assertFalse(self.js("return document.querySelector('svg.net').checkVisibility()"))
        listed = self.js("return [...document.querySelectorAll('.netlist li b')].map(b => b.textContent)")
        self.assertEqual(listed, ["Dunmore", "Isar", "Elbe", "Birk"])
        links = self.js(
            "return [...document.querySelectorAll('nav a')].map(a =>"
            " document.querySelector(a.hash).getBoundingClientRect().top)"
        )
        self.assertEqual(len(links), 9)
        self.assertEqual(links, sorted(links))

    def test_text_can_be_read_on_its_ground_in_both_themes(self):
        for files in (files_of(TWELVE), files_of(ROOT / "examples/core")):
            for theme in ("light", "dark"):
                self.run_of("Emulation.setEmulatedMedia", features=[{"name": "prefers-color-scheme", "value": theme}])
                self.open(files)
                poor, count = self.js(CONTRAST)
                self.assertGreater(count, 300)
                self.assertEqual(poor, [], theme)

    def test_without_the_script_tables_and_pictures_stay(self):
        self.run_of("Emulation.setScriptExecutionDisabled", value=True)
        self.open(files_of(ROOT / "examples/core"))
        # A script of the driver still runs; those of the page do not.
        self.assertFalse(self.js("return !!window.d3"))
        self.assertEqual(len(self.shown_rows()), 100)
        self.assertTrue(self.js("return document.querySelector('svg.net').checkVisibility()"))
        for key in ("player", "table-tools", "shown"):
            self.assertFalse(self.js("return document.getElementById(arguments[0]).checkVisibility()", key))
        self.open(files_of(ROOT / "examples/core"), part="#bank-70")
        seen = self.js(
            "return [...document.querySelectorAll('[id^=bank-]')].filter(e => e.checkVisibility()).map(e => e.id)"
        )
        self.assertEqual([key for key in seen if re.fullmatch("bank-[0-9]+", key)], ["bank-70"])

    def test_the_largest_network_is_laid_out_page_by_page(self):
        files = largest(self.folder)
        loss = '[[scenario]]\nname = "shock {0}"\ncut = {1}\n[[scenario.loss]]\nbank = "bank {2}"\namount = {3}\n'
        scenarios = self.file("s.toml", "".join(loss.format(k, 9 * k, 7 * k, 11 * k) for k in range(100)))
        self.open(files, "--scenarios", scenarios)
        self.assertLess((self.folder / "report.html").stat().st_size, 8_000_000)
        # What is laid out at first does not grow with the banks: no part of a bank, and of each table a page.
        self.assertEqual(self.js("return document.getElementById('part').childNodes.length"), 0)
        rows = rows_of("defaults", files)
        short = sorted((row for row in rows if row[-1] != "sound"), key=lambda row: int(row[2]) - int(row[3]))
        order = [row[0] for row in short] + [row[0] for row in rows if row[-1] == "sound"]
        self.assertEqual(self.shown_rows(), order[:50])
        self.click("later")
        self.assertEqual(self.shown_rows(), order[50:100])
        debts = rows_of("clear", files)
        self.js("location.hash = '#bank-700'")
        self.until(lambda: self.js("return document.querySelector('#bank-700')"))
        shown = self.js(
            "return [...document.querySelectorAll('#bank-700 table')].map("
            "t => [...t.tBodies[0].rows].map(r => [...r.cells].map(c => c.textContent)))"
        )
        name = rows[700][0]
        self.assertEqual(
            [[row[0], row[3]] for row in shown[0]],
            [[debt[1], f"{int(debt[4]):,}"] for debt in debts if debt[0] == name],
        )
        steps = self.js("return +document.getElementById('step').max")
        self.assertTrue(500 < steps <= 2000, steps)
        final = self.flows()
        self.assertEqual(
            sum(int(re.search(r": ([0-9,]+) of", title)[1].replace(",", "")) for title in final),
            sum(int(debt[4]) for debt in debts),
        )
        self.click("first")
        self.assertNotIn(0, self.flows().values())
        self.click("last")
        self.assert_same(self.flows(), final)
        if shutil.which("pdftotext"):
            pages = self.pages("A4")
            self.assertLessEqual(len(pages), 12)
            self.assertIn("all 1,000 banks are in the CSV of the page", " ".join(pages))
