"""The pictures of the desk's page: the journal that plays, blocks of many banks, a list on a phone, long names, and how
long it is from a change to its picture."""
import os
import pathlib
import re
import statistics
import time
import unittest
from typing import Any, List, Tuple

from common import TWELVE, files_of
from desk_page import DeskPage, large, strip

TICKS = os.sysconf("SC_CLK_TCK")
Box = Tuple[float, float, float, float]
"""The left, upper, right and lower end of something that is drawn."""
# The long names of banks, by their places.
LONG_LABELS = {
    9: "Société Générale de Crédit Industriel et Commercial de la Principauté de Monaco S.A.",
    10: "Österreichische Raiffeisen Zentralgenossenschaft für Steiermark, Kärnten und Tirol AG",
    7: "Landesbank für Handel, Gewerbe und Landwirtschaft der Norddeutschen Küstenländer AG",
}


def spent_by(process: int) -> float:
    """The seconds that a process and its ended children have had of the processors."""
    fields = pathlib.Path(f"/proc/{process}/stat").read_bytes().rpartition(b")")[2].split()
    return sum(map(int, fields[11:15])) / TICKS


class Pictures(DeskPage):
    def test_the_journal_plays(self):
        self.open()
        self.slide("cut", 300)
        self.until_state(1)
        final = self.picture()
        self.click("play-journal")
        self.until(lambda: self.js("return !!document.getElementById('play')"))
        self.assertEqual(self.played(), final)
        self.click("first")
        self.assertTrue(all(": 0 of " in title for title in self.played()))
        self.click("next")
        self.assertIn("Raise 1 of", self.text("raise"))
        self.js("const s = document.getElementById('step'); s.value = s.max - 3; s.dispatchEvent(new Event('input'))")
        self.click("play")
        self.until(lambda: "Nobody can pay more" in self.text("raise"))
        self.until(lambda: self.played() == final)
        # Another state takes the player away, also while it plays; tearDown looks for errors.
        self.click("first")
        self.click("play")
        self.slide("cut", 0)
        self.until(lambda: not self.js("return document.getElementById('play')"))
        time.sleep(2)

    def played(self) -> List[str]:
        """What the drawing that the journal plays in says of each debt."""
        return sorted(map(strip, self.texts("#journal-picture [data-flow] > title")))

    def test_a_phone_has_a_list_by_bank(self):
        self.open()
        self.size(390, 844)
        self.until(lambda: self.js("return document.getElementById('picture').dataset.form") == "list")
        self.slide("cut", 950)
        self.until_state(1)
        listed = self.js(
            "return [...document.querySelectorAll('.netlist li')].map(e => e.innerText.split('\\n').map(t =>"
            " t.trim()).filter(Boolean))"
        )
        self.assertEqual([part[0] for part in listed], ["Birk", "Elbe", "Dunmore", "Isar", "Jura", "Fjord"])
        self.assertIn("Newly in default. To Garda 10,000", " ".join(listed[-1]))
        self.js("document.querySelector('.netlist a[data-bank=\"5\"]').click()")
        self.until(lambda: "Fjord" in self.text("bank-name"))

    def test_many_banks_are_blocks_that_open(self):
        self.open(large(self.folder, 300, 900))
        self.assertEqual(self.js("return document.getElementById('picture').dataset.form"), "matrix")
        self.assertEqual(self.count("#picture .side"), 40)
        # All banks are there: the cells of a zoom have what the cell above them had.
        claim_in = lambda title: int(re.search("banks: ([0-9,]+)", strip(title))[1].replace(",", ""))
        claims = lambda: sum(map(claim_in, self.texts("#picture .cell > title")))
        debts = [line.split(",") for line in (self.folder / "debts.csv").read_text().splitlines()[1:]]
        self.assertEqual(claims(), sum(int(debt[3]) for debt in debts))
        ordered = "Banks stand by what they owe, the most first."
        self.assertIn(ordered, self.text("picture-unit"))
        first = self.js(
            """const cells = [...document.querySelectorAll('#picture .cell')];
            const c = cells.sort((a, b) => parseInt(b.textContent) - parseInt(a.textContent))[0];
            const t = c.querySelector('title').textContent;
            c.dispatchEvent(new MouseEvent('click', {bubbles: true})); return t"""
        )
        self.assertEqual(claims(), claim_in(first))
        self.assertEqual(self.texts(".way > *"), ["All banks", "15 by 15 banks"])
        # What the picture is in is said of what is seen: here single banks.
        self.assertNotIn(ordered, self.text("picture-unit"))
        name = self.js(
            "const s = document.querySelector('#picture .side[data-bank]'); s.dispatchEvent(new MouseEvent('click',"
            " {bubbles: true, cancelable: true})); return s.querySelector('text').textContent"
        )
        self.until(lambda: self.js("return document.getElementById('bank-name')?.innerText ?? ''").endswith(name))
        self.js("document.querySelector('.way button').click()")
        self.assertEqual(claims(), sum(int(debt[3]) for debt in debts))
        self.assertIn(ordered, self.text("picture-unit"))
        self.assertTrue(self.count("#picture .side.holds"))

    def test_the_blocks_of_very_many_banks_have_whole_names(self):
        self.open(large(self.folder, 1_400, 2_800))
        names = self.texts("#picture .side > text")
        ranks = [(70 * at + 1, 70 * at + 70) for at in range(20)]
        self.assertEqual(
            names[:20], [f"{first:,}{'th' if first % 100 == 11 else 'st'} to {last:,}th" for first, last in ranks]
        )
        self.assertEqual(names[20:], [f"{first:,}–{last:,}" for first, last in ranks])
        # None of them leaves the picture.
        self.assertTrue(
            self.js(
                "const b = document.querySelector('#picture svg').getBoundingClientRect(); return"
                " [...document.querySelectorAll('#picture .side > text')].every(e => { const t ="
                " e.getBoundingClientRect(); return t.left >= b.left && t.right <= b.right && t.top >= b.top; })"
            )
        )

    def open_long_names(self) -> None:
        """Opens sixteen banks of which three have long names, in a state in which many are in default, at one of the
        three."""
        names = [f"Bank number {at}" for at in range(16)]
        banks = "".join(f"{name},{900 + 97 * at % 500},webster\n" for at, name in enumerate(names))
        debts = "".join(
            f"{name},{names[(at + step) % 16]},1,{400 + 37 * at * step % 700}\n"
            for at, name in enumerate(names)
            for step in (1, 3, 7)
        )
        self.file("banks.csv", "name,cash,rule\n" + banks)
        self.file("debts.csv", "debtor,creditor,class,claim\n" + debts)
        text = "code,name\n" + "".join(f'{names[at]},"{label}"\n' for at, label in LONG_LABELS.items())
        self.open(files_of(self.folder), "--labels", self.file("l.csv", text), "--unit", "100000", "--currency", "EUR")
        self.slide("cut", 750)
        self.until_state(1)
        self.choose(9)

    def boxes_of_names(self) -> Tuple[Box, List[List[Box]]]:
        """The room of the picture below its title, and for each bank the boxes of its texts."""
        room, nodes = self.js(
            """const svg = document.querySelector('#picture svg'), all = svg.getBoundingClientRect();
            const title = document.getElementById('picture-unit').getBoundingClientRect();
            const nodes = [...svg.querySelectorAll('a.node')];
            return [[all.left, title.bottom, all.right, all.bottom], nodes.map(node =>
                [...node.querySelectorAll('text')].map(t => {
                const b = t.getBoundingClientRect(); return [b.left, b.top, b.right, b.bottom]; }))]"""
        )
        return room, nodes

    def test_names_of_80_signs_stand_apart_and_squeeze_nothing(self):
        self.assertTrue(all(len(name) >= 80 for name in LONG_LABELS.values()))
        self.open_long_names()
        for wide in (1280, 800):
            self.size(wide, 900)
            self.until(
                lambda: self.js(
                    "return Math.abs(document.getElementById('picture').clientWidth -"
                    " Number(document.querySelector('#picture svg').getAttribute('width'))) < 2"
                )
            )
            (left, top, right, bottom), nodes = self.boxes_of_names()
            for at, own in enumerate(nodes):
                for box in own:
                    across = left - 2 <= box[0] and box[2] <= right + 2
                    down = top - 2 <= box[1] and box[3] <= bottom + 2
                    self.assertTrue(across and down, (wide, at, box))
                    for other in (box_ for node in nodes[at + 1 :] for box_ in node):
                        across = min(box[2], other[2]) - max(box[0], other[0])
                        down = min(box[3], other[3]) - max(box[1], other[1])
                        self.assertFalse(across > 1 and down > 4, (wide, at, box, other))
            width = self.js("return document.querySelector('#account tbody th').getBoundingClientRect().width")
            self.assertGreater(width, 120)
            self.assertIn(LONG_LABELS[9], self.js("return document.querySelector('#differences tr.chosen').innerText"))

    def test_each_change_comes_to_its_picture_and_the_time_is_told(self):
        self.run_of("Performance.enable", timeDomain="threadTicks")
        for banks, debts in ((12, 40), (200, 2000), (1000, 20000)):
            with self.subTest(banks=banks):
                self.open(files_of(TWELVE) if banks == 12 else large(self.folder, banks, debts))
                clock, spent = self.measured(9)
                print(
                    f"\n{banks} banks: {statistics.median(clock):.0f} ms by the clock ({min(clock):.0f} at best),"
                    f" {statistics.median(spent):.0f} ms of the processor"
                )
                # Each of them waited for its picture. How long is for docs/SPEED.md, and depends on the machine.
                self.assertEqual((len(clock), len(spent)), (9, 9))
                self.driver.get("about:blank")
                self.desk.end()

    def measured(self, times: int) -> Tuple[Any, Any]:
        """For some changes of the cut, the milliseconds from each to its picture, and those of the processors."""
        clock, spent = [], []
        for number in range(1, times + 1):
            before = spent_by(self.desk.process.pid) + self.page_time()
            self.js("performance.clearMeasures()")
            self.slide("cut", number * 97)
            self.until(lambda: self.js("return performance.getEntriesByName('change to picture').length"))
            clock.append(self.js("return performance.getEntriesByName('change to picture')[0].duration"))
            spent.append(1000 * (spent_by(self.desk.process.pid) + self.page_time() - before))
        return clock, spent

    def page_time(self) -> Any:
        """The seconds that the page has had of the processor."""
        return {part["name"]: part["value"] for part in self.run_of("Performance.getMetrics")["metrics"]}[
            "TaskDuration"
        ]


if __name__ == "__main__":
    unittest.main()
