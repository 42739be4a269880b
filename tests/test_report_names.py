"""Names in the report: they are shown, do nothing, and do not lie."""
import json
from typing import Dict, List

from common import Word
from reports import InTheBrowser, networks_of_every_character, odd_net

from clearing_tools.labels import shown

# What a longer name has more of: its whole name on pointing, a second line in a picture, and the note with the names
# in full.
LONGER = {"title ", "text text-anchor,x,y", "P "}


class Names(InTheBrowser):
    def test_hostile_names_do_nothing_and_are_shown(self):
        files, names = odd_net(self.folder, 38)
        self.open(files)
        drawn = self.js(
            "return [...document.querySelectorAll('svg.net a')].map("
            "a => { a.focus(); return [a.dataset.bank, document.querySelector('#shown h3').textContent]; })"
        )
        self.assertEqual([name for _, name in sorted(drawn, key=lambda pair: int(pair[0]))], list(map(shown, names)))
        for key in ("first", "next", "next", "last"):
            self.click(key)
        self.assertEqual(self.js("return document.querySelectorAll('img, script:not([type])').length"), 2)
        self.assertEqual(
            sorted(self.js("return [...document.querySelectorAll('#banks-table tbody th')].map(h => h.textContent)")),
            sorted(map(shown, names)),
        )

    def ring_of(self, names: List[str]) -> List[Word]:
        """A ring of banks of these names, short of cash, with scenarios by these names: the words for its files."""
        banks = "".join(f"{name},{at % 3},equal\n" for at, name in enumerate(names))
        debts = "".join(f"{name},{names[(at + 1) % len(names)]},1,{2 + at % 4}\n" for at, name in enumerate(names))
        text = lambda name: json.dumps(name, ensure_ascii=False)
        scenarios = "".join(
            f"[[scenario]]\nname = {text(name)}\ncut = 100\n[[scenario.loss]]\nbank = {text(name)}\namount = 1\n"
            for name in names[:3]
        )
        return [
            *["--banks", self.file("banks.csv", "name,cash,rule\n" + banks)],
            *["--debts", self.file("debts.csv", "debtor,creditor,class,claim\n" + debts)],
            *["--scenarios", self.file("scenarios.toml", scenarios)],
        ]

    def elements(self) -> Dict[str, int]:
        """How often the page has each kind of element with each list of attributes, where the search is empty and no
        part is laid out. Names that are written from right to left have an element `bdi` of their own."""
        self.js(
            "location.hash = ''; const box = document.getElementById('search'); box.value = ''; box.dispatchEvent(new"
            " Event('input'))"
        )
        self.until(lambda: not self.js("return document.getElementById('part').childNodes.length"))
        return self.js(
            """const count = {};
            for (const e of document.querySelectorAll('*:not(bdi)')) {
                const names = [...e.attributes].map(a => a.name).filter(name => name !== 'class');
                const kind = e.tagName + ' ' + names.sort();
                count[kind] = (count[kind] || 0) + 1;
            }
            return count;"""
        )

    def test_names_of_every_character_are_shown_as_text(self):
        """In every place at once, since each page of so many banks takes a second or two."""
        for number, given in enumerate(networks_of_every_character()):
            names, title = list(map(shown, given)), f"</title><img src=x> {given[number % len(given)]}"
            self.open(self.ring_of(given), "--title", title)
            with self.subTest(names=number):
                self.tables_and_titles_have(names, shown(title))
                for at in range(number % 7, len(names), max(1, len(names) // 12)):
                    self.part_has(at, [names[at], names[(at + 1) % len(names)], names[at - 1]])
                self.player_says_who_pays_whom(names)
                for name, raw in list(zip(names, given))[number % 5 :: max(1, len(names) // 5)]:
                    self.search_finds(name, raw)
                self.names_make_no_element(len(names))

    def tables_and_titles_have(self, names: List[str], title: str) -> None:
        """The page's own table, its data, its title and its scenarios have the names."""
        rows = self.js(
            "return [...document.querySelectorAll('#banks-table tbody tr')].map(r => [+r.dataset.bank,"
            " r.cells[0].textContent])"
        )
        self.assertEqual([name for _, name in sorted(rows)], names)
        self.assertEqual(self.js("return JSON.parse(document.getElementById('data').textContent).names"), names)
        self.assertTrue(self.js("return document.querySelector('title').textContent").startswith(title))
        self.assertEqual(self.js("return document.querySelector('#case').textContent"), title)
        everything = self.js("return document.body.textContent")
        self.assertEqual([name for name in names[:3] if everything.count(name) < 3], [])

    def part_has(self, bank: int, names: List[str]) -> None:
        """The part of a bank, which is laid out when asked for, has some names."""
        self.js("location.hash = arguments[0]", f"#bank-{bank}")
        self.until(lambda: self.js("return document.querySelector(arguments[0])", f"#bank-{bank}"))
        part = self.js("return document.querySelector(arguments[0]).textContent", f"#bank-{bank}")
        for name in names:
            self.assertIn(name, part)

    def player_says_who_pays_whom(self, names: List[str]) -> None:
        """The player says it in words, and shows the line of the journal."""
        self.click("first")
        self.click("next")
        debtor, creditor = self.js("return document.getElementById('line').textContent").split(",")[1:3]
        self.assertEqual(names[(names.index(debtor) + 1) % len(names)], creditor)
        self.assertIn(
            f"\u2068{debtor}\u2069 has now paid \u2068{creditor}\u2069",
            self.js("return document.getElementById('raise').textContent"),
        )

    def search_finds(self, name: str, raw: str) -> None:
        """The search finds a bank by its whole name, as it is shown and as it is in the file."""
        for word in (name, raw):
            self.js(
                "const box = document.getElementById('search'); box.value = arguments[0];"
                " box.dispatchEvent(new Event('input'))",
                word,
            )
            self.assertIn(name, self.shown_rows())

    def names_make_no_element(self, count: int) -> None:
        """The page has the elements that it has with plain names of as many banks, which is opened in its place."""
        found = self.elements()
        self.page(self.ring_of([f"N{at}" for at in range(count)]), "--title", "N")
        self.driver.get(self.address)
        self.click("first")
        self.click("next")
        plain = self.elements()
        self.assertEqual(set(found), set(plain))
        self.assertEqual(
            {kind: found[kind] for kind in found if kind not in LONGER},
            {kind: plain[kind] for kind in plain if kind not in LONGER},
        )
