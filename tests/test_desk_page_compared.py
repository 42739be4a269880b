"""States and cases side by side on the desk's page, banks that one unit decides, and the source of each figure."""
import csv
import io
import pathlib
import unittest
from xml.etree import ElementTree
from typing import Tuple

from common import ROOT, TWELVE, files_of
from desk import payments_of, standings
from desk_page import DeskPage, grouped, strip

# How many points of the last file, a PNG, are not as its corner is, and how many of them are neither ink nor grey.
DRAWN = """return createImageBitmap(given.at(-1)).then(bitmap => {
    const canvas = new OffscreenCanvas(bitmap.width, bitmap.height), to = canvas.getContext("2d");
    to.drawImage(bitmap, 0, 0);
    const { data } = to.getImageData(0, 0, bitmap.width, bitmap.height);
    let drawn = 0, coloured = 0;
    for (let at = 0; at < data.length; at += 4) {
        if (Math.abs(data[at] - data[0]) > 24) drawn += 1;
        if (Math.abs(data[at] - data[at + 2]) > 60) coloured += 1;
    }
    return [drawn, coloured];
});"""


class Compared(DeskPage):
    def shock(self, cut: int) -> pathlib.Path:
        """A file of one scenario that cuts all cash."""
        return self.file(f"cut-{cut}.toml", f'[[scenario]]\nname = "s"\ncut = {cut}\n')

    def test_any_two_kept_states_are_compared(self):
        self.open()
        for number, cut in ((1, 940), (2, 941)):
            self.slide("cut", cut)
            self.until_state(number)
            self.keep(f"Cut of {cut}", "tried for the meeting")
        self.assertEqual(self.texts("#tabs button"), ["As it is", "Cut of 940", "Cut of 941", "Name and note"])
        self.against("Cut of 940")
        before, now = ([*files_of(TWELVE), "--scenarios", self.shock(cut)] for cut in (940, 941))
        self.assert_shown(standings("stress", *before), standings("stress", *now), payments_of(*now))
        self.assertIn("Fjord joins those in default", self.text("told"))
        # The other way round.
        self.tab("Cut of 940")
        self.until_state(1)
        self.against("Cut of 941")
        self.assertIn("Fjord is in default no more", self.text("told"))
        self.assertTrue(self.count("#picture g.flow.less"))
        self.assertFalse(self.count("#picture g.flow.more"))
        # A name is changed, a state is kept no more, and the first one's name is its own.
        self.keep("Just before")
        self.assertEqual(self.texts("#tabs button"), ["As it is", "Cut of 941", "Just before", "Name and note"])
        self.click("keep-open")
        self.click("drop")
        self.until(lambda: "Cut 940 (not kept)" in self.text("tabs"))
        self.click("keep-open")
        self.expected = ["422"]
        self.fill_in("keep-name", "As it is")
        self.click("keep-done")
        self.until(lambda: "is the name of the state as it is" in self.text("keep-name-fault"))

    def test_two_cases_of_two_dates_are_compared(self):
        # In the other case three banks have other names, two of which owe Birk.
        others = {"Alster": "Aller", "Elbe": "Ems", "Isar": "Inn"}
        banks, debts = ((TWELVE / f"{what}.csv").read_text() for what in ("banks", "debts"))
        for name, other in others.items():
            banks, debts = banks.replace(name, other), debts.replace(name, other)
        banks = banks.replace("Inn,1000000", "Inn,500000")
        debts = "\n".join(line for line in debts.splitlines() if not line.startswith("Kemi,"))
        folder = self.folder / "june"
        folder.mkdir()
        (folder / "banks.csv").write_text(banks)
        (folder / "debts.csv").write_text(debts + "\n")
        self.open(None, "--against", folder)
        self.against("another case")
        before, now = standings("defaults", *files_of(folder)), standings("defaults", *files_of(TWELVE))
        shown = {row[0]: row for row in self.rows()}
        for was, is_ in zip(before, now):
            if was[0] in others.values():
                self.assertIn("not in that case → ", shown[is_[0]][1])
                continue
            unpaid, kept = [int(row[3]) - int(row[2]) for row in (was, is_)], [int(row[4]) for row in (was, is_)]
            self.assertEqual([shown[is_[0]][at] for at in (2, 3, 6, 7)], [*map(grouped, (*unpaid, *kept))], is_[0])
        self.assertEqual(self.text("absent"), "In “another case” alone: Aller, Ems and Inn.")
        self.choose(1)
        self.until(lambda: len(self.account()) > 2)
        lines, payments = self.account(), payments_of(*files_of(folder))
        for column in (1, 2):
            self.assertEqual(sum(line[column] for line in lines[:-1]), lines[-1][column])
        unpaid = sum(
            int(debt[4]) - int(debt[3]) for debt in payments if debt[1] == "Birk" and debt[0] in others.values()
        )
        self.assertLess(unpaid, 0)
        self.assertEqual(
            next(line for line in lines if line[0] == "unpaid by banks of that case alone")[1:], [unpaid, 0]
        )

    def test_banks_that_one_unit_decides_are_marked(self):
        (self.folder / "banks.csv").write_text("name,cash,rule\nA,1,order\nB,1,order\nC,0,order\n")
        (self.folder / "debts.csv").write_text("debtor,creditor,class,claim\nA,B,1,1\nB,C,1,2\n")
        self.open(files_of(self.folder))
        self.until(lambda: self.text("decided"))
        self.assertIn("One unit decides B and C: where a unit is worth twice or half as much", self.text("decided"))
        marked = lambda where: [strip(text) for text in self.texts(where) if "≈" in text]
        self.assertEqual(marked("#differences tbody th"), ["B ≈", "C ≈"])
        self.assertEqual(marked("#picture .name"), ["B ≈", "C ≈"])
        self.choose(1)
        self.assertIn("One unit decides what is said of it.", self.text("bank-decided"))
        self.assertEqual(marked("#bank-name"), ["B ≈"])
        # Of a state in which no unit decides nothing is marked, until it is held against one in which it does.
        self.choose(0)
        self.type_in("cash", "100")
        self.until_state(1)
        self.until(lambda: marked("#differences tbody th") == ["B ≈", "C ≈"])
        self.assertEqual(self.js("return document.getElementById('bank-decided')"), None)

    def open_for_files(self) -> str:
        """Opens a state that is kept, where each file that the page gives is held back: the source of its figures."""
        self.open(None, "--unit", "1000", "--currency", "EUR", "--title", "Twelve banks, and a comma")
        self.slide("cut", 950)
        self.until_state(1)
        self.keep("A hard cut")
        self.until(lambda: self.js("return !!document.querySelector('#curve-source [data-file]')"))
        self.js(
            "window.given = []; const real = URL.createObjectURL; URL.createObjectURL = blob => { given.push(blob);"
            " return real.call(URL, blob); }; HTMLAnchorElement.prototype.click = function () { given.name ="
            " this.download; };"
        )
        version = (ROOT / "VERSION").read_text().strip()
        return (
            f"Source: clearing {version}, stress and bounds. Twelve banks, and a comma, “A hard cut” against “As it"
            " is”. One unit of account is EUR 1,000."
        )

    def given(self, key: str) -> Tuple[str, str, str]:
        """The name, the kind and the text of a file that the page gives."""
        self.js(
            "given.length = 0; given.name = null; document.querySelector(`[data-file='${arguments[0]}']`).click()", key
        )
        self.until(lambda: self.js("return given.name"))
        name, kind, text = self.js(
            "const blob = given.at(-1); return blob.text().then(text => [given.name, blob.type, text])"
        )
        return name, kind, text

    def test_the_table_of_differences_has_its_source_in_each_row(self):
        source = self.open_for_files()
        name, kind, text = self.given("differences.CSV")
        self.assertEqual((name, kind), ("differences.csv", "text/csv;charset=utf-8"))
        rows = list(csv.DictReader(io.StringIO(text.replace("\u00a0", " "))))
        now = standings("defaults", *self.taken_files())
        self.assertEqual(
            [[row["bank"], int(row["unpaid"]), int(row["keeps"]), row["state"]] for row in rows],
            [[row[0], int(row[3]) - int(row[2]), int(row[4]), row[5]] for row in now],
        )
        self.assertEqual(
            [int(row["unpaid_before"]) for row in rows], [int(row[3]) - int(row[2]) for row in self.base()]
        )
        self.assertEqual({row["source"] for row in rows}, {source})

    def test_a_picture_has_its_source_and_its_colours_without_the_page(self):
        source = self.open_for_files()
        for key, title in (("picture", "join those in default"), ("curve", "fall at some cut")):
            _, kind, text = self.given(f"{key}.SVG")
            self.assertEqual(kind, "image/svg+xml")
            tree = ElementTree.fromstring(text)
            words = strip(" ".join("".join(part.itertext()) for part in tree.iter("{http://www.w3.org/2000/svg}text")))
            self.assertIn(source.partition(" bounds. ")[2] if key == "curve" else source, words)
            self.assertIn(title, words)
            self.assertNotIn("var(", text)
            # And so has a PNG of it.
            self.given(f"{key}.PNG")
            drawn, coloured = self.js(DRAWN)
            self.assertGreater(drawn, 2000, key)
            self.assertEqual(coloured > 1000, key == "picture", (key, coloured))


if __name__ == "__main__":
    unittest.main()
