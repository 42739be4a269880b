"""The desk's page is there for everyone: by the keyboard alone, read aloud, at each width, in both themes, on paper,
and with names that are markup."""
import base64
import json
import re
import subprocess
import unittest

import browser
from browser import Keys
from common import ROOT, files_of, needs
from desk import SCENARIOS
from desk_page import DeskPage, strip
from odd_names import MARKUP

# What the tabulator must come to: controls by their names, banks by their places, links by their texts.
CONTROLS = ["find", "Take away", "against", "cut-slide", "cut", "scenario", "keep-slide", "keep", "build-open"]
CONTROLS += ["0", "11", "keep-open"]


class Access(DeskPage):
    def test_each_control_of_the_page_is_reached_by_the_tabulator(self):
        self.open(None, "--scenarios", SCENARIOS)
        self.js("document.activeElement.blur()")
        reached = []
        for _ in range(60):
            self.press(Keys.TAB)
            reached.append(
                self.js("const e = document.activeElement; return e.id || e.dataset.bank || e.textContent.trim()")
            )
        for key in CONTROLS:
            self.assertIn(key, reached)

    def test_a_slider_is_moved_by_keys_and_its_number_goes_along(self):
        self.open(None, "--scenarios", SCENARIOS)
        self.focus("cut-slide")
        self.press(Keys.END)
        self.until_state(1)
        self.assertEqual(
            self.js("return [document.activeElement.id, document.getElementById('cut').value]"), ["cut-slide", "1000"]
        )
        self.press(Keys.ARROW_LEFT)
        self.until_state(2)
        self.assertEqual(self.js("return document.getElementById('cut').value"), "999")

    def open_bank_by_keys(self) -> None:
        """Goes from the picture to Dunmore, by the keyboard."""
        self.open(None, "--scenarios", SCENARIOS)
        self.js("document.querySelector('#picture a[data-bank=\"3\"]').focus()")
        self.press(Keys.ENTER)
        self.until(lambda: self.js("return document.activeElement.id") == "bank-name")
        self.assertIn("Dunmore", self.text("bank-name"))

    def test_a_bank_is_opened_and_changed_by_the_keyboard_and_keeps_the_focus(self):
        self.open_bank_by_keys()
        self.unfold("change-bank")
        self.js("document.querySelector('#change-bank summary').focus()")
        self.press(Keys.TAB)
        self.assertEqual(self.js("return document.activeElement.id"), "cash")
        self.chord(Keys.CONTROL, "a")
        self.press("123456789", Keys.ENTER)
        self.until_state(1)
        self.until(lambda: self.js("return document.getElementById('cash')?.value") == "123456789")
        self.until(lambda: self.js("return document.activeElement.id") == "cash")
        self.press(Keys.TAB)
        self.assertEqual(self.js("return document.activeElement.id"), "outside")

    def test_where_what_had_the_focus_goes_its_part_has_it(self):
        self.open_bank_by_keys()
        self.unfold("change-bank")
        debt = self.js("return document.querySelector('#owes button[id^=strike]').id")
        self.focus(debt)
        self.press(Keys.ENTER)
        self.until_state(1)
        self.until(lambda: self.js("return document.activeElement.id") == "bank-name")
        self.js("[...document.querySelectorAll('#changes button')].at(-1).focus()")
        self.press(Keys.ENTER)
        self.until_state(2)
        self.until(lambda: self.js("return document.activeElement.id") == "changes")
        self.until(lambda: self.js("return !!document.getElementById(arguments[0])", debt))

    def test_what_changes_is_announced(self):
        self.open()
        self.assertEqual(
            self.js(
                "const e = document.getElementById('told').parentElement; return [e.getAttribute('aria-live'),"
                " e.getAttribute('role')]"
            ),
            ["polite", "status"],
        )
        self.slide("cut", 1000)
        self.until(lambda: re.search(r" joins? those in default; ", self.text("told")))
        nameless = self.js(
            """return [...document.querySelectorAll('input, select, button, a')].filter(e => e.checkVisibility()
                && !(e.labels?.length || e.getAttribute('aria-label')
            || e.textContent.trim())).map(e => e.outerHTML)"""
        )
        self.assertEqual(nameless, [])

    def test_no_width_cuts_the_page_and_both_themes_can_be_read(self):
        names = ["W" * 64, *(f"bank {at}" for at in range(5))]
        self.file(
            "banks.csv",
            "name,cash,rule,outside\n" + "".join(f"{name},{at},order,99999999999\n" for at, name in enumerate(names)),
        )
        self.file(
            "debts.csv",
            "debtor,creditor,class,claim\n" + "".join(f"{a},{b},1,1000000\n" for a, b in zip(names, names[1:])),
        )
        for words in ([None, "--scenarios", SCENARIOS], [files_of(self.folder)]):
            self.open(*words)
            self.slide("cut", 1000)
            self.until_state(1)
            self.choose(0)
            self.js("document.querySelectorAll('details:not(.menu)').forEach(d => { d.open = true; })")
            for wide in (320, 390, 640, 800, 1280, 1920):  # 640 is 1280 at 200 %
                self.size(wide, 800)
                self.assertLessEqual(self.js("return document.scrollingElement.scrollWidth"), wide)
                cut = self.js(
                    """const kinds = 'button, input, select, .figures > div, .account, h1, h2, h3, p';
                    return [...document.querySelectorAll(kinds)].filter(e => e.checkVisibility()
                        && !e.closest('.scroll, .tabs') && e.getBoundingClientRect().right > innerWidth + 1
                    ).map(e => e.outerHTML.slice(0, 90))"""
                )
                self.assertEqual(cut, [], wide)
            for theme in ("light", "dark"):
                self.run_of("Emulation.setEmulatedMedia", features=[{"name": "prefers-color-scheme", "value": theme}])
                poor, count = self.js(browser.CONTRAST)
                self.assertGreater(count, 80)
                self.assertEqual(poor, [], theme)

    @needs("pdftotext", "pdfinfo")
    def test_it_is_printed_whole_and_with_nothing_to_press(self):
        self.open(None, "--unit", "1000", "--currency", "EUR", "--title", "Twelve banks")
        self.slide("cut", 950)
        self.until_state(1)
        self.choose(5)
        self.until(lambda: self.count("#curve-place a[data-bank]") == 12)
        wide = lambda: self.js(
            "return ['picture', 'curve-place']"
            ".map(id => Number(document.querySelector(`#${id} svg`).getAttribute('width')))"
        )
        before = wide()
        paper = self.folder / "paper.pdf"
        paper.write_bytes(
            base64.b64decode(self.run_of("Page.printToPDF", preferCSSPageSize=True, printBackground=True)["data"])
        )
        said = lambda *words: subprocess.run(words, capture_output=True, encoding="utf-8", check=True).stdout
        text = strip(re.sub(r"\s+", " ", said("pdftotext", paper, "-")))
        version = (ROOT / "VERSION").read_text().strip()
        for words in (
            f"Twelve banks · date not stated · “Cut 950” against “As it is” · clearing {version}",
            "EUR 6.08 billion more stays unpaid",
            "The account of what it lacks, EUR thousand, to the last unit",
            "fall at some cut of all cash",
            "What differs",
            "Source: clearing",
            "All cash is cut by 950 per mille.",
            "page 1 of",
            *self.names(),
        ):
            self.assertIn(words, text)
        for words in ("Undo", "Take away", "Build a scenario", "Strike", "What saves it", "SVG", "Scenario"):
            self.assertNotIn(words, text)
        self.assertLessEqual(int(re.search("Pages: +([0-9]+)", said("pdfinfo", paper))[1]), 4)
        # The drawings are as wide as the sheet while it is printed, so that no letter shrinks.
        self.until(lambda: wide() == before)
        self.js("dispatchEvent(new Event('beforeprint'))")
        self.assertEqual(wide(), [672, 672])
        self.js("dispatchEvent(new Event('afterprint'))")
        self.assertEqual(wide(), before)

    def test_names_do_nothing_and_are_shown(self):
        names = MARKUP
        self.file(
            "banks.csv", "name,cash,rule\n" + "".join(f"{name},{at % 3},equal\n" for at, name in enumerate(names))
        )
        self.file(
            "debts.csv",
            "debtor,creditor,class,claim\n"
            + "".join(f"{name},{names[(at + 1) % len(names)]},1,{2 + at % 4}\n" for at, name in enumerate(names)),
        )
        scenarios = self.file("s.toml", f"[[scenario]]\nname = {json.dumps(names[0])}\ncut = 1000\n")
        labels = self.file("l.csv", f"code,name\n{names[0]},{names[2]} again\n")
        self.open(files_of(self.folder), "--scenarios", scenarios, "--labels", labels)
        self.pick("scenario", "1")
        self.until_state(1)
        self.assertIn(names[0], self.text("changes"))
        for at in range(0, len(names), 3):
            self.choose(at)
            self.assertIn(names[(at + 1) % len(names)], self.text("owes"))
        self.assertEqual([self.count("img"), self.count("script")], [0, 2])
        self.expected = ["422"]
        self.unfold("add-debt")
        self.fill_in("creditor", "<img src=x onerror=alert(2)>")
        self.type_in("claim", "5")
        self.until(lambda: "unknown bank" in self.text("creditor-fault"))
        self.assertEqual(self.count("img"), 0)


if __name__ == "__main__":
    unittest.main()
