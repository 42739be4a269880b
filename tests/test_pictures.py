"""The pictures: what they show is what the program says, to be read in grey print and by the colour-blind as well."""
import pathlib
import re
import subprocess
import sys
import xml.etree.ElementTree as tree
from typing import Any, List, Tuple

from common import PROGRAM, ROOT, Case, Word, clearing, files_of, needs_modules, run_of, tool
from odd_names import ODD_NAMES
from pythons import python_with

from clearing_tools.drawing import lettering
from clearing_tools.labels import shown
from clearing_tools.drawing.shortfalls_picture import parts_owed
from clearing_tools.texts import read_banks, read_outside, read_payments

HUB = files_of(ROOT / "examples/hub")
CHAIN = files_of(ROOT / "examples/chain")
CORE = files_of(ROOT / "examples/core")
TWELVE = files_of(ROOT / "examples/twelve-banks")
SVG = "{http://www.w3.org/2000/svg}"


def kind(element: Any, word: str) -> bool:
    return word in (element.get("class") or "").split()


def titles(svg: str) -> List[str]:
    return [title.text for title in tree.fromstring(svg).iter(f"{SVG}title")]


def texts(svg: str) -> List[str]:
    return [text.text for text in tree.fromstring(svg).iter(f"{SVG}text")]


class Pictures(Case):
    def text(self, name: str, task: str, files: Any, *more: Word) -> pathlib.Path:
        return self.file(name, clearing(task, *files, *more).stdout)

    def both(self, files: Any) -> Tuple[pathlib.Path, pathlib.Path]:
        return self.text("p.csv", "clear", files), self.text("d.csv", "defaults", files)

    def drawn(self, files: Any, *more: Word) -> str:
        return self.made("clearing-who-pays", *self.both(files), *more)

    def alone_outside(self) -> List[Word]:
        """Three banks: A defaults on what it owes outside alone, B owes nobody, C pays all."""
        banks = self.file("banks.csv", "name,cash,rule,outside\nA,3,order,9\nB,10,webster,0\nC,50,equal,5\n")
        debts = self.file("debts.csv", "debtor,creditor,class,claim\nC,B,1,4\n")
        return ["--banks", banks, "--debts", debts]


class Network(Pictures):
    def test_a_graph_has_each_bank_and_debt(self):
        svg = self.drawn(CHAIN)
        # A pays 7 of 10, B 8 of 9, and C owes nothing.
        self.assertIn("A to B: 7 of 10 paid", titles(svg))
        self.assertIn("B to C: 8 of 9 paid", titles(svg))
        self.assertEqual(
            [text for text in texts(svg) if text in ("A", "B", "C") or text.endswith(" unpaid")],
            ["A", "3 unpaid", "B", "1 unpaid", "C"],
        )
        flows = [group for group in tree.fromstring(svg).iter(f"{SVG}g") if group.get("data-flow")]
        widths = {
            group.get("data-flow"): float(
                next(path for path in group.iter(f"{SVG}path") if kind(path, "line")).get("stroke-width")
            )
            for group in flows
        }
        # The width is what stays unpaid, from zero: 3 and 1.
        self.assertEqual(widths, {"0": 15.0, "1": 5.0})
        areas = {
            group.get("class").split("-")[1]: float(group.get("width")) ** 2
            for group in tree.fromstring(svg).iter(f"{SVG}rect")
            if kind(group, "n")
        }
        self.assertEqual(list(areas), ["fundamental"])

    def test_a_matrix_has_a_square_for_each_pair(self):
        svg = self.drawn(HUB, "--form", "matrix")
        self.assertEqual(
            sum(" paid" in title and " to " in title for title in titles(svg)), 8 + 2
        )  # and two that owe outside
        self.assertIn("South to Hub: 100 of 120 paid", titles(svg))

    def test_the_title_has_figures_unit_and_currency(self):
        svg = self.drawn(TWELVE, "--unit", "1000", "--currency", "EUR")
        self.assertEqual(texts(svg)[0], "Dunmore leaves the most unpaid, EUR 700 million of EUR 1.49 billion")
        said = " ".join(texts(svg))
        self.assertIn("12 banks owe EUR 9,750,000,000; EUR 1,493,329,000 of it, 15.3%, stays unpaid.", said)
        self.assertIn("Amounts in EUR; a unit of account is EUR 1,000.", said)
        self.assertIn("4 banks are in default: 2 with the label own fundamentals, 2 with the label contagion.", said)
        cents = self.drawn(CHAIN, "--unit", "0.01", "--currency", "EUR")
        self.assertIn("3 banks owe EUR 0.19; EUR 0.04 of it, 21.1%, stays unpaid.", " ".join(texts(cents)))

    def test_many_banks_are_a_matrix_that_can_be_read(self):
        svg = self.drawn(CORE)
        # Twelve debtors and twelve creditors by name, all others in two blocks.
        said = texts(svg)
        others = [
            int(text.split()[0]) for text in said if re.fullmatch("[0-9]+ others? (in default|that stands?)", text)
        ]
        self.assertEqual((len(others), sum(others)), (4, 2 * 88))
        # Thirteen are in default, and the twelve debtors by name are of them.
        states = [line.split(",")[-1] for line in clearing("defaults", *CORE).stdout.decode().splitlines()]
        self.assertEqual(sum(state in ("fundamental", "contagion") for state in states), 13)
        self.assertIn("1 other in default", said)
        self.assertIn("87 others that stand", said)
        flows = [title for title in titles(svg) if " paid" in title and " to " in title]
        for part, sum_ in ((r": ([0-9,]+) of", 877984), (r" of ([0-9,]+) paid", 977920)):
            self.assertEqual(sum(int(re.search(part, title)[1].replace(",", "")) for title in flows), sum_)
        sizes = {float(size) for size in re.findall(r"font-size: ?([0-9.]+)px", svg)}
        self.assertEqual(min(sizes), 12)

    def test_only_unpaid_and_around_a_bank(self):
        unpaid = self.drawn(TWELVE, "--only-unpaid")
        flows = [title for title in titles(unpaid) if " to " in title and title.endswith(" paid")]
        debts = [line.split(",") for line in clearing("clear", *TWELVE).stdout.decode().splitlines()[1:]]
        self.assertEqual(
            sorted(title.split(":")[0] for title in flows),
            sorted({f"{row[0]} to {row[1]}" for row in debts if row[3] != row[4]}),
        )
        around = self.drawn(TWELVE, "--around", "Kemi")
        flows = [title for title in titles(around) if " to " in title and title.endswith(" paid")]
        self.assertEqual(
            sorted(title.split(":")[0] for title in flows),
            sorted({f"{row[0]} to {row[1]}" for row in debts if "Kemi" in row[:2]}),
        )
        self.refused("clearing-who-pays", 1, "no bank 'Nobody'", *self.both(TWELVE), "--around", "Nobody")
        # Where there is none, the picture says so.
        sound = self.file("b.csv", "name,cash,rule\nA,9,order\nB,0,order\n"), self.file(
            "e.csv", "debtor,creditor,class,claim\nA,B,1,5\n"
        )
        self.assertIn("There is no such debt", self.drawn(["--banks", sound[0], "--debts", sound[1]], "--only-unpaid"))

    def test_a_little_unpaid_is_not_paid_in_full(self):
        banks = self.file("b.csv", "name,cash,rule\nA,999999,order\nB,9,order\n")
        debts = self.file("e.csv", "debtor,creditor,class,claim\nA,B,1,1000000\nB,A,1,1\n")
        files = ["--banks", banks, "--debts", debts]
        banks.write_text("name,cash,rule\nA,999998,order\nB,1,order\n")
        for form in ("graph", "matrix"):
            root = tree.fromstring(self.drawn(files, "--form", form))
            group = next(group for group in root.iter(f"{SVG}g") if group.get("data-flow") == "0")
            self.assertFalse(kind(group, "done"))
            if form == "graph":
                line = next(path for path in group.iter(f"{SVG}path") if kind(path, "line"))
                self.assertGreaterEqual(float(line.get("stroke-width")), 2)
            else:
                self.assertGreaterEqual(float(group.find(f"{SVG}rect").get("width")), 3)
            paid = next(group for group in root.iter(f"{SVG}g") if group.get("data-flow") == "1")
            self.assertTrue(kind(paid, "done"))

    def test_gridlock_has_a_shape_of_its_own(self):
        folder = ROOT / "examples/gridlock"
        files = ["--banks", folder / "banks.csv", "--debts", folder / "debts.csv"]
        svg = self.drawn(files, "--bounds", self.text("b.csv", "bounds", files))
        paths = list(tree.fromstring(svg).iter(f"{SVG}path"))
        self.assertEqual([sum(kind(path, name) for path in paths) for name in ("n-gridlock", "m-gridlock")], [3, 1])
        self.assertIn("3 banks are in default: 3 in gridlock.", " ".join(texts(svg)))

    def test_outside_claims_are_drawn_and_state_decides(self):
        files = self.alone_outside()
        svg = self.drawn(files, "--banks", files[1])
        self.assertIn("A to the world outside: 3 of 9 paid", titles(svg))
        self.assertIn("C to the world outside: 5 of 5 paid", titles(svg))
        self.assertIn("6 unpaid", texts(svg))
        self.assertIn("1 bank is in default: 1 with the label own fundamentals.", " ".join(texts(svg)))
        # Without the banks file what is owed there is not known, and the bank is drawn in default all the same.
        svg = self.drawn(files)
        self.assertIn("in default", texts(svg))
        self.assertTrue(any(kind(mark, "n-fundamental") for mark in tree.fromstring(svg).iter(f"{SVG}rect")))

    def test_names_stand_as_they_are_but_for_signs_that_are_not_seen(self):
        names = [name for name in ODD_NAMES if name.strip(" \t") == name]
        banks = self.file("b.csv", "name,cash,rule\n" + "".join(f"{name},1,order\n" for name in names))
        debts = self.file(
            "e.csv", "debtor,creditor,class,claim\n" + "".join(f"{a},{b},1,2\n" for a, b in zip(names, names[1:]))
        )
        files = ["--banks", banks, "--debts", debts]
        for form in ("graph", "matrix"):
            said = "".join(tree.fromstring(self.drawn(files, "--form", form)).itertext())
            # In a ring each name is told whole on pointing; in a matrix those are that have a row or a column of
            # their own.
            found = [name for name in map(shown, names) if name in said]
            self.assertEqual(found, list(map(shown, names)) if form == "graph" else found)
            self.assertGreaterEqual(len(found), 12)
            # A code is not shown as a code again.
            self.assertNotIn("<U+003C>", said)
            self.assertEqual([name for name in names if shown(name) != name and name in said], [])

    def test_full_names_stand_in_place_of_the_names(self):
        labels = self.file("l.csv", "code,name\nA,Aster & Söhne\nC,<b>Cedar\u202e</b>\nX,nobody\n")
        for form in ("graph", "matrix"):
            svg = self.drawn(CHAIN, "--form", form, "--labels", labels)
            said = " ".join(texts(svg))
            self.assertIn("Aster & Söhne", said)
            # A name that stands in two lines is told whole on pointing.
            self.assertIn("<b>Cedar<U+202E></b>", [*texts(svg), *titles(svg)])
            self.assertIn("Aster & Söhne to B: 7 of 10 paid", titles(svg))
            self.assertNotIn("nobody", svg)
        self.assertIn(
            "B to <b>Cedar<U+202E></b>: 8 of 9 paid", titles(self.drawn(CHAIN, "--around", "C", "--labels", labels))
        )
        payments, defaults = self.both(CHAIN)
        for text, status, message in [
            ("name,label\n", 1, "the first row is not code,name"),
            ("code,name\nA\n", 1, "row 1: 1 fields in place of 2"),
            ("code,name\nA,x\nA,y\n", 1, "row 2: 'A' has a full name already"),
            ('code,name\n"A,x\n', 1, "unexpected end of data"),
        ]:
            self.refused("clearing-who-pays", status, message, payments, defaults, "--labels", self.file("l.csv", text))
        self.refused("clearing-who-pays", 1, "cannot be read", payments, defaults, "--labels", self.folder / "none.csv")
        # No bank is called as another one is.
        banks = self.file("banks.csv", "name,cash,rule\nA,1,order\nx,1,order\n")
        payments, defaults = self.both(
            ["--banks", banks, "--debts", self.file("debts.csv", "debtor,creditor,class,claim\nA,x,1,2\n")]
        )
        self.refused(
            "clearing-who-pays",
            1,
            "with its full name the bank 'A' is called as another bank is",
            payments,
            defaults,
            "--labels",
            self.file("l.csv", "code,name\nA,x\n"),
        )

    def test_texts_of_other_networks_and_faulty_words_are_refused(self):
        payments, defaults = self.text("p.csv", "clear", CHAIN), self.text("d.csv", "defaults", HUB)
        self.refused("clearing-who-pays", 1, "it has no bank 'A'", payments, defaults)
        self.refused("clearing-who-pays", 1, "not the header", defaults, defaults)
        for unit in ("0", "-1", "x", "inf", "nan", ""):
            self.refused("clearing-who-pays", 2, "is not an amount above 0", payments, defaults, f"--unit={unit}")

    def test_no_input_is_written_over(self):
        payments, defaults = self.both(CHAIN)
        before = payments.read_bytes()
        self.refused("clearing-who-pays", 1, "p.csv", payments, defaults, "--output", payments)
        self.refused("clearing-who-pays", 1, "cannot write", payments, defaults, "--output", self.folder)
        self.assertEqual(payments.read_bytes(), before)
        self.made("clearing-who-pays", payments, defaults, "--output", self.folder / "out.svg")
        self.assertEqual(
            (self.folder / "out.svg").read_text(encoding="utf-8"), self.made("clearing-who-pays", payments, defaults)
        )


@needs_modules("matplotlib")
class Charts(Pictures):
    def chart(self, name: str, *words: Word) -> List[str]:
        """The words of a chart, which stand in its file as comments beside the outlines of their letters."""
        out = self.folder / "picture.svg"
        done = tool(name, *words[:1], out, *words[1:], python=python_with("matplotlib"))
        self.assertEqual((done.returncode, done.stdout, done.stderr), (0, "", ""))
        self.svg = out.read_text(encoding="utf-8")
        out.unlink()
        return re.findall(r"<!-- (.*?) -->", self.svg)

    def test_shortfalls_have_the_banks_in_default(self):
        payments, defaults = self.both(TWELVE)
        for more in ([], ["--payments", payments]):
            said = self.chart("clearing-shortfalls", defaults, *more)
            self.assertIn("4 of 12 banks in default leave 1,493,329 units unpaid", said)
            for words in (
                "Dunmore",
                "699,999 (33.3%)",
                "Isar",
                "400,000 (26.7%)",
                "Elbe",
                "279,999 (14.7%)",
                "Birk",
                "113,331 (3.9%)",
            ):
                self.assertIn(words, said)
            self.assertNotIn("Alster", said)
        self.assertIn(
            "EUR 1,493,329,000",
            " ".join(self.chart("clearing-shortfalls", defaults, "--unit", "1000", "--currency", "EUR")),
        )

    def test_full_names_stand_in_charts_too(self):
        labels = self.file("l.csv", "code,name\nDunmore,Dunmore Bank plc\nIsar,Isar $1$ AG\nAlster,Alster Bank\n")
        defaults = self.text("d.csv", "defaults", TWELVE)
        stress = self.text("s.txt", "stress", TWELVE, "--scenarios", self.file("s.toml", '[[scenario]]\nname = "x"\n'))
        for said in (
            self.chart("clearing-shortfalls", defaults, "--labels", labels),
            self.chart("clearing-stress-map", stress, "--labels", labels),
        ):
            for words in ("Dunmore Bank plc", "Isar $1$ AG", "Elbe", "Birk"):
                self.assertIn(words, said)
            self.assertNotIn("Alster", " ".join(said))

    def test_names_of_eighty_signs_are_cut_and_squeeze_no_picture(self):
        names = ["Landesbank für Handel, Gewerbe und Landwirtschaft der Norddeutschen Küstenländer A", "W" * 80]
        for banks in (4, 16, 40):
            rows = [f"b{at},{0 if at % 2 else 9},webster" for at in range(banks)]
            debts = [f"b{at},b{(at + far) % banks},1,{3 + at}" for at in range(banks) for far in (1, 2)]
            files = [
                "--banks",
                self.file("b.csv", "name,cash,rule\n" + "\n".join(rows) + "\n"),
                "--debts",
                self.file("e.csv", "debtor,creditor,class,claim\n" + "\n".join(debts) + "\n"),
            ]
            labels = self.file(
                "l.csv", "code,name\n" + "".join(f'b{at},"{names[at % 2]}{at}"\n' for at in range(banks))
            )
            payments, defaults = self.both(files)
            stress = self.text(
                "s.txt",
                "stress",
                files,
                "--scenarios",
                self.file("s.toml", f'[[scenario]]\nname = "{"s" * 64}"\ncut = 900\n'),
            )
            for said in (
                self.chart("clearing-shortfalls", defaults, "--payments", payments, "--labels", labels, "--most", 40),
                self.chart("clearing-stress-map", stress, "--labels", labels),
            ):
                self.assertTrue(any("\u2026" in words for words in said))
                self.assertNotIn(f"{names[0]}0", said)
            size = re.search(r'width="([0-9.]+)pt"', self.svg)
            self.assertLess(float(size[1]), 72 * 32)
            # In SVG each label ends within the picture.
            for form in ("graph", "matrix"):
                root = tree.fromstring(self.drawn(files, "--form", form, "--labels", labels))
                width = float(root.get("width"))
                for text in root.iter(f"{SVG}text"):
                    if not text.get("transform") and text.get("x"):
                        long = lettering.width_of("".join(text.itertext()) if not list(text) else text.text or "", 12)
                        x = float(text.get("x"))
                        left = x - {"start": 0, "middle": long / 2, "end": long}[text.get("text-anchor") or "start"]
                        self.assertGreater(left, -24, text.text)
                        self.assertLess(left + long, width + 8, text.text)

    def test_a_bank_that_defaults_on_outside_claims_alone_is_shown(self):
        files = self.alone_outside()
        payments, defaults = self.both(files)
        said = self.chart("clearing-shortfalls", defaults, "--payments", payments, "--banks", files[1])
        self.assertIn("1 of 3 banks in default leave 6 units unpaid", said)
        self.assertIn("6 (66.7%)", said)
        self.assertIn("outside", said)
        self.assertIn("1 of 3 banks in default leave 0 units unpaid", self.chart("clearing-shortfalls", defaults))
        # What a bank in default pays, outside and class by class, is what it has.
        for bank in read_banks(str(defaults), read_outside(str(files[1]))):
            paid = sum(paid for _, _, paid in parts_owed(bank, read_payments(str(payments))))
            self.assertEqual(paid if bank.state != "sound" else paid + bank.equity, bank.estate, bank.name)
        stress = self.text(
            "s.txt", "stress", files, "--scenarios", self.file("s.toml", '[[scenario]]\nname = "as it is"\n')
        )
        said = self.chart("clearing-stress-map", stress, "--banks", files[1])
        self.assertIn("1 of 3 banks defaults in at least one of 1 scenario", said)
        self.assertIn("66.7%", said)
        self.assertIn("A", self.chart("clearing-stress-map", stress))

    def test_a_map_has_scenarios_as_rows_and_whole_names(self):
        long = "a scenario with a name that is as long as a name may be at most"
        scenarios = self.file("s.toml", f'[[scenario]]\nname = "{long}"\ncut = 500\n[[scenario]]\nname = "$x_1$"\n')
        stress = self.text("s.txt", "stress", TWELVE, "--scenarios", scenarios)
        said = self.chart("clearing-stress-map", stress)
        self.assertIn(long, " ".join(said))  # in two lines
        self.assertIn("$x_1$", said)
        self.assertNotIn("Oblique", self.svg)  # it is no formula
        self.assertIn("47.5%", said)  # of Birk in the first
        self.assertIn("3.9%", said)  # and in the second
        self.assertEqual([said.count(name) for name in ("Birk", "Dunmore", "Elbe", "Isar", "Alster")], [1, 1, 1, 1, 0])

    def test_what_cannot_be_drawn_is_refused(self):
        defaults = self.text("d.csv", "defaults", TWELVE)
        stress = self.text("s.txt", "stress", TWELVE, "--scenarios", self.file("s.toml", '[[scenario]]\nname = "x"\n'))
        python = python_with("matplotlib")
        for name, text in (("clearing-shortfalls", defaults), ("clearing-stress-map", stress)):
            for out, message in (
                (self.folder, "does not end with"),
                (self.folder / "x.doc", "does not end with"),
                (text, "d"),
            ):
                before = text.read_bytes()
                done = tool(name, text, out, python=python)
                self.assertEqual((done.returncode, done.stdout, text.read_bytes()), (1, "", before))
                self.assertIn(message, done.stderr)
            (self.folder / "folder.svg").mkdir(exist_ok=True)
            self.assertEqual(tool(name, text, self.folder / "folder.svg", python=python).returncode, 1)
        done = tool("clearing-stress-map", defaults, self.folder / "x.svg", python=python)
        self.assertEqual(done.returncode, 1)
        self.assertIn("no scenario", done.stderr)
        done = tool(
            "clearing-stress-map",
            self.file("o.csv", "scenario,cash,paid,outside_paid,equity,defaults,fundamental\na,1,1,0,1,0,0\n"),
            self.folder / "x.svg",
            python=python,
        )
        self.assertEqual(done.returncode, 1)
        self.assertIn("this is what `clearing outcomes` prints", done.stderr)


class WithoutMatplotlib(Pictures):
    def test_the_python_that_lacks_it_is_named(self):
        blocked = self.folder / "matplotlib"
        blocked.mkdir()
        (blocked / "__init__.py").write_text("raise ImportError('not here')\n")
        defaults = self.text("d.csv", "defaults", TWELVE)
        for name in ("clearing-shortfalls", "clearing-stress-map"):
            done = subprocess.run(
                [*run_of(name), str(defaults), str(self.folder / "x.svg")],
                env={"PYTHONPATH": str(self.folder), "PATH": "/usr/bin:/bin", "PYTHONDONTWRITEBYTECODE": "1"},
                capture_output=True,
                encoding="utf-8",
            )
            self.assertEqual((done.returncode, done.stdout), (2, ""))
            self.assertIn("python3-matplotlib", done.stderr)
            self.assertIn(sys.executable, done.stderr)


class Script(Case):
    def test_the_pictures_of_the_documents_are_made_anew(self):
        python = python_with("matplotlib")
        if not python:
            self.skipTest("no Python here has matplotlib")
        run = lambda *words: subprocess.run(
            [ROOT / "tools/dev/pictures.sh", *words],
            capture_output=True,
            encoding="utf-8",
            stdin=subprocess.DEVNULL,
            env={"CLEARING": PROGRAM, "PYTHON": python, "PATH": "/usr/bin:/bin", "PYTHONDONTWRITEBYTECODE": "1"},
        )
        for words in (["--bogus"], ["a", "b"], [""]):
            done = run(*words)
            self.assertEqual((done.returncode, done.stdout), (2, ""), words)
            self.assertIn("pictures.sh:", done.stderr)
        done = run("--help")
        self.assertEqual((done.returncode, done.stderr), (0, ""))
        self.assertIn("tools/dev/pictures.sh", done.stdout)
        done = run(str(self.folder / "a folder"))
        self.assertEqual((done.returncode, done.stdout), (0, ""), done.stderr)
        for name in ("twelve-banks", "hub", "gridlock", "core"):
            self.assertEqual(
                (self.folder / "a folder" / f"{name}.svg").read_bytes(),
                (ROOT / f"docs/pictures/{name}.svg").read_bytes(),
            )
        self.assertTrue((self.folder / "a folder/core-shortfalls.svg").exists())
        self.assertTrue((self.folder / "a folder/twelve-banks-stress.svg").exists())
