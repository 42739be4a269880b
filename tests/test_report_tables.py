"""The tables of the report have the numbers of the program, and are sorted and filtered."""
import re
from typing import Any, Dict, List, Tuple

from browser import Keys
from common import ROOT, Word, clearing
from reports import TWELVE, InTheBrowser, amount, files_of, outside_net, rows_of

from clearing_client import Network
from clearing_client.steady import MARK, NOTE, WHY, unsteady

Rows = List[List[str]]
"""The cells of a table."""
# The pictures of the page, each of which is given with its numbers.
PICTURES = ("network", "unpaid", "breaking", "scenarios", "ruin")
# An example, and the thousandths of its estate that a bank in default keeps there.
COSTLY = (("core", 800), ("hub", 500), ("cycles", 0), ("gridlock", 900), ("chain", 1000))


def variants_of(files: List[Word]) -> Dict[str, Tuple[Rows, Rows]]:
    """The records of both files of a case, as given and in variants, by the names that the page has for them."""
    read = lambda path: [line.split(",") for line in path.read_text(encoding="utf-8").splitlines()]
    banks, debts = read(files[1]), read(files[3])
    halves = lambda rows, at: [
        rows[0],
        *([*row[:at], str(round(int(row[at]) / 2)), *row[at + 1 :]] for row in rows[1:]),
    ]
    by_rule = lambda rule: [banks[0], *([*row[:2], rule] for row in banks[1:])]
    return {
        "as given": (banks, debts),
        "each bank by webster, in proportion": (by_rule("webster"), debts),
        "each bank pays one after another (order)": (by_rule("order"), debts),
        "unit twice as large": (halves(banks, 1), halves(debts, 3)),
        "debts in reverse order": (banks, [debts[0], *debts[:0:-1]]),
    }


def cost_bounds_of(files: List[Word], keep: int) -> Tuple[Rows, Rows]:
    """What the program says of debts and of banks at both ends, where a bank in default keeps some thousandths."""
    text = clearing("cost-bounds", *files, "--keep", keep).stdout.decode()
    debts, banks = text.removesuffix("\n").split("\n\n")
    return [line.split(",") for line in debts.split("\n")[1:]], [line.split(",") for line in banks.split("\n")[1:]]


def column_of(states: List[str], *amounts: int) -> List[str]:
    """A column of the table of both ends: how many banks are in default, and by which label, and some amounts."""
    counts = [len(states) - states.count("sound"), states.count("fundamental"), states.count("contagion")]
    return [f"{count:,}" for count in [*counts, *amounts]]


def ends_of(files: List[Word], keep: int) -> Rows:
    """The columns of the table of both ends: without costs, at the least payments and at the greatest. Each ends with
    what stays unpaid, what is lost of estates, and what banks keep."""
    (debts, banks), plain = cost_bounds_of(files, keep), rows_of("defaults", files)
    given = [line.split(",") for line in files[1].read_text().splitlines()[1:]]
    cash, outside = sum(int(row[1]) for row in given), sum(int(row[3]) for row in given if len(row) > 3)
    due, kept = sum(int(debt[3]) for debt in debts) + outside, sum(int(row[-2]) for row in plain)
    unpaid = due - sum(int(row[-4]) for row in plain) - (cash - kept)
    columns = [column_of([row[-1] for row in plain], unpaid, 0, kept)]
    for end, at in ((1, 4), (4, 5)):
        lost, kept = (sum(int(row[place]) for row in banks) for place in (end, end + 1))
        unpaid = due - sum(int(debt[at]) for debt in debts) - (cash - lost - kept)
        columns.append(column_of([row[end + 2] for row in banks], unpaid, lost, kept))
    return columns


class Tables(InTheBrowser):
    def rows(self, table: str = "#banks-table") -> Dict[str, List[str]]:
        """The cells of the rows of a table, by the first of them."""
        rows = self.js(
            (
                "return [...document.querySelectorAll(arguments[0] + ' tbody tr')].map(r => [...r.cells].map(c =>"
                " c.textContent.trim()))"
            ),
            table,
        )
        return {row[0]: row[1:] for row in rows}

    def test_the_table_of_banks_has_the_numbers_of_the_program(self):
        files = files_of(TWELVE)
        self.open(files, "--unit", "0.01", "--currency", "EUR")
        self.assertEqual(
            self.heads(), ["Bank", "State", "Owed", "Paid", "Unpaid", "Keeps", "Least rescue", "Falls at a cut of"]
        )
        rows, found = self.rows(), rows_of("defaults", files)
        cuts = {row[0]: int(row[1]) for row in rows_of("breaking", files)}
        self.assertEqual(len(rows), 12)
        # Those in default stand first, the most unpaid of them before.
        short = sorted((row for row in found if row[-1] != "sound"), key=lambda row: int(row[2]) - int(row[3]))
        self.assertEqual(list(rows), [row[0] for row in short] + [row[0] for row in found if row[-1] == "sound"])
        for name, _, paid, owed, equity, state in found:
            rescue = "\u2013"
            if state != "sound":
                rescue = amount(
                    clearing("rescue", *files, "--bank", name).stdout.decode().split("\n")[0].split(",")[2], "0.01"
                )
            cut = "now" if state != "sound" else "100%" if cuts[name] == 1000 else f"{cuts[name] / 10:.1f}%"
            none = lambda units: amount(units, "0.01") if int(units) else "0"
            self.assertEqual(
                rows[name],
                [
                    {"fundamental": "own fundamentals"}.get(state, state),
                    none(owed),
                    none(paid),
                    none(int(owed) - int(paid)),
                    none(equity),
                    rescue,
                    cut,
                ],
                name,
            )
        values = self.js("return [...document.querySelectorAll('#figures .value')].map(v => v.textContent)")
        self.assertEqual(values, ["4 of 12 banks", "EUR 14,933.29", "EUR 97,500.00", "89.1%"])

    def test_each_bank_has_what_it_owes_and_is_owed(self):
        files = files_of(TWELVE)
        self.open(files)
        names = [row[0] for row in rows_of("defaults", files)]
        debts = rows_of("clear", files)
        for at, name in enumerate(names):
            shown = self.js(
                (
                    "return [...document.querySelectorAll(`#bank-${arguments[0]} table`)].map("
                    "t => [...t.tBodies[0].rows].map(r => [...r.cells].map(c => c.textContent)))"
                ),
                at,
            )
            expected = [
                [
                    [row[1 - side], row[2], *(f"{n:,}" for n in (int(row[3]), int(row[4]), int(row[3]) - int(row[4])))]
                    for row in debts
                    if row[side] == name
                ]
                for side in (0, 1)
            ]
            self.assertEqual(shown, [rows for rows in expected if rows], name)

    def test_outside_claims_are_shown_and_state_decides(self):
        files = outside_net(self.folder)
        self.open(files)
        rows = self.rows()
        self.assertEqual(rows["A"][:4], ["own fundamentals", "17", "8", "9"])
        states = {
            cells[0]: {"fundamental": "own fundamentals"}.get(cells[-1], cells[-1])
            for cells in rows_of("defaults", files)
        }
        self.assertEqual({name: cells[0] for name, cells in rows.items()}, states)
        outside = {cells[0]: (owed, int(cells[2])) for cells, owed in zip(rows_of("defaults", files), (9, 4, 5, 0))}
        self.assert_flows(
            self.expected_flows([(debt[:4], int(debt[4])) for debt in rows_of("clear", files)], outside)
        )
        # A file of the page has what is owed and paid outside apart.
        text = self.js("return JSON.parse(document.getElementById('data').textContent).files.banks").split("\n")
        self.assertEqual(dict(zip(text[0].split(","), text[1].split(",")))["owed_outside"], "9")
        self.click("first")
        # With what they have at first A pays 3 of 9 outside, and B 4 of 4.
        self.assertIn("A to the world outside: 3 of 9 paid", self.flows())
        self.assertIn("B to the world outside: 4 of 4 paid", self.flows())

    def test_scenarios_have_the_numbers_of_the_program(self):
        files = files_of(TWELVE)
        self.open(files, "--scenarios", TWELVE / "scenarios.toml", "--unit", "0.01", "--currency", "EUR")
        rows = self.rows("#cases table")
        text = clearing("stress", *files, "--scenarios", TWELVE / "scenarios.toml").stdout.decode()
        blocks = [block.split("\n") for block in re.split(r"\n\n(?=scenario,)", text.removesuffix("\n"))]
        self.assertEqual(list(rows)[1:], [block[0].removeprefix("scenario,") for block in blocks])
        for lines in blocks:
            row = rows[lines[0].removeprefix("scenario,")]
            states = [line.split(",")[-1] for line in lines[lines.index("bank,estate,paid,owed,equity,state") + 1 : -2]]
            _, _, paid, owed, _, defaults = lines[-2].split(",")
            lost = 25120002 - int(lines[-1].removeprefix("cash,"))
            self.assertEqual(
                row[:5],
                [
                    defaults,
                    str(states.count("fundamental")),
                    str(states.count("contagion")),
                    amount(int(owed) - int(paid), "0.01"),
                    amount(lost, "0.01") if lost else "0",
                ],
            )
        self.assertEqual(rows["half of all cash is lost"][5], "with the other label: Birk and Elbe")
        self.assertEqual(rows["Kemi and Havel lose their cash"][5], "the same banks, the same labels")
        # The chart says the same, and its message is that unpaid is no loss.
        chart = self.js("return document.querySelector('#scenarios .w-l').textContent")
        for lines in blocks:
            _, _, paid, owed, *_ = lines[-2].split(",")
            self.assertIn(amount(int(owed) - int(paid), "0.01"), chart)
        title = self.js("return document.querySelector('#scenarios h3').textContent.replaceAll('\u00a0', ' ')")
        self.assertEqual(
            title, "Unpaid is not loss: with EUR 60,000.00 less at Havel and Kemi, no debt more goes unpaid"
        )

    def test_does_it_stand_is_what_the_program_says_of_the_case_changed(self):
        files = files_of(TWELVE)
        self.open(files)
        rows = self.rows("#stands table")
        expected = {name: self.fallen_and_unpaid(name, *changed) for name, changed in variants_of(files).items()}
        self.assertEqual({name: row[:2] for name, row in rows.items() if name in expected}, expected)
        self.assertNotIn("unit half as large", rows)  # debts twice as large are more than a file may have
        self.assertEqual(rows["each bank pays one after another (order)"][2], "Birk and Elbe sound")
        self.assertEqual(rows["greatest payments, not least"][2], "no payment differs")

    def fallen_and_unpaid(self, name: str, banks: Rows, debts: Rows) -> List[str]:
        """What the page says of a variant: how many banks are in default, and the thousands of the case's units that
        stay unpaid."""
        text = lambda rows: "".join(",".join(row) + "\n" for row in rows)
        files = ["--banks", self.file("b.csv", text(banks)), "--debts", self.file("d.csv", text(debts))]
        found = rows_of("defaults", files)
        unit = 2 if name.startswith("unit") else 1
        unpaid = unit * sum(int(row[3]) - int(row[2]) for row in found)
        return [str(sum(row[-1] != "sound" for row in found)), f"{round(unpaid / 1000):,}"]

    def test_full_names_stand_wherever_a_bank_is_named_and_what_is_owed_outside_beside_what_banks_owe(self):
        """By `order` the bank A, which has a full name, gets nothing, and cannot pay."""
        (self.folder / "banks.csv").write_text(
            "name,cash,rule,outside\nA,0,webster,0\nC,0,webster,0\nD,15,webster,5\nE,0,webster,0\n"
        )
        (self.folder / "debts.csv").write_text("debtor,creditor,class,claim\nD,C,1,10\nD,A,1,10\nA,E,1,5\n")
        some, whole = "code,name\nA,Alpha Bank S.A.\n", "C,Beta\nD,Delta\nE,Epsilon\n"
        labels = self.file("labels.csv", some)
        words = ["--labels", labels, "--default-keeps", "900", "--unit", "1000000", "--currency", "EUR"]
        self.open(files_of(self.folder), *words)
        text = "return document.querySelector(arguments[0]).textContent"
        told = lambda key: self.js(text, key).replace("\u00a0", " ")
        self.assertIn("Alpha Bank S.A. in default", told("#stands tbody"))
        page = told("body")
        self.assertIn("EUR 25 million by 3 debts between four banks, EUR 5 million outside; with EUR 15 million", page)
        self.assertIn("it is no loss: banks and those outside together have what cash there was", page)
        self.assertIn("all others are called as in the files.", told("#evidence"))
        self.assertIn("it is divided by the rule webster, in proportion (Webster), where it is not enough", page)
        labels.write_text(some + whole)
        self.open(files_of(self.folder), *words)
        self.assertIn("no other is there.", told("#evidence"))

    def test_banks_whose_label_one_unit_decides_are_marked_in_tables_pictures_and_sentences(self):
        banks = self.file("b.csv", "name,cash,rule\nA,3,webster\nB,0,order\nC,0,order\nD,0,order\n")
        debts = self.file("d.csv", "debtor,creditor,class,claim\nA,B,1,2\nA,C,1,2\nB,D,1,2\nC,D,1,2\n")
        self.open(["--banks", banks, "--debts", debts])
        self.assertIn("One unit decides", self.js("return document.querySelector('#stands h3').textContent"))
        expected = unsteady(Network(str(banks), str(debts)))
        self.assertIn("C", expected)
        # With amounts twice as large B leaves a unit of four unpaid too, and all of them four of sixteen, which are
        # two here.
        self.assertEqual(self.rows("#stands table")["unit half as large"][:2], ["3", "2"])
        self.assertEqual(
            [name for name, cells in self.rows().items() if MARK in cells[0]],
            sorted(expected, key=list(self.rows()).index),
        )
        drawn = self.js("return [...document.querySelectorAll('svg.net .nm')].map(t => t.textContent)")
        self.assertEqual(sorted(name for name in drawn if MARK in name), sorted(f"{name} {MARK}" for name in expected))
        # It is said what the mark means.
        self.assertIn(NOTE, self.js("return document.querySelector('.lim').textContent"))
        self.assertIn(WHY, self.js("return document.querySelector('#stands .src').textContent"))

    def test_a_rescue_takes_away_what_the_program_says_when_it_is_tried(self):
        files = files_of(TWELVE)
        self.open(files)
        text = self.js("return JSON.parse(document.getElementById('data').textContent).files.unpaid").splitlines()
        paid = lambda files: sum(int(row[4]) for row in rows_of("clear", files))
        before = paid(files)
        for line in text[1:]:
            row = dict(zip(text[0].split(","), line.split(",")))
            banks = [given.split(",") for given in files[1].read_text(encoding="utf-8").splitlines()]
            banks = [
                [one[0], str(int(one[1]) + int(row["least_rescue"])), one[2]] if one[0] == row["bank"] else one
                for one in banks
            ]
            changed = self.file("b.csv", "".join(",".join(one) + "\n" for one in banks))
            self.assertEqual(int(row["takes_away"]), paid(["--banks", changed, *files[2:]]) - before, row["bank"])

    def test_the_table_is_sorted(self):
        self.open(files_of(TWELVE))
        rows = rows_of("defaults", files_of(TWELVE))
        values = {
            3: lambda row: int(row[3]),
            4: lambda row: int(row[2]),
            5: lambda row: int(row[3]) - int(row[2]),
            6: lambda row: int(row[4]),
        }
        for place, value in values.items():
            head = f"#banks-table thead th:nth-child({place})"
            at = {row[0]: (value(row), -k) for k, row in enumerate(rows)}
            self.js("document.querySelector(arguments[0] + ' button').click()", head)
            self.assertEqual(self.shown_rows(), sorted(at, key=at.get, reverse=True))
            self.assertEqual(
                self.js("return document.querySelector(arguments[0]).getAttribute('aria-sort')", head), "descending"
            )
            self.js("document.querySelector(arguments[0] + ' button').click()", head)
            self.assertEqual(self.shown_rows(), sorted(at, key=lambda name: (at[name][0], -at[name][1])))

    def test_the_table_is_filtered(self):
        self.open(files_of(TWELVE))
        state_of = {row[0]: row[-1] for row in rows_of("defaults", files_of(TWELVE))}
        choose = (
            "const s = document.getElementById('state'); s.value = arguments[0]; s.dispatchEvent(new Event('change'))"
        )
        for choice, states in (
            ("default", ("fundamental", "contagion")),
            ("sound", ("sound",)),
            ("contagion", ("contagion",)),
            ("gridlock", ()),
            ("all", ("sound", "fundamental", "contagion")),
        ):
            self.js(choose, choice)
            self.assertEqual(
                sorted(self.shown_rows()), sorted(name for name, state in state_of.items() if state in states)
            )
        self.js("document.getElementById('search').focus()")
        self.press("i", "R")
        self.assertEqual(self.shown_rows(), ["Birk", "Crédit Loire"])
        self.press(Keys.BACKSPACE, "S")
        self.assertEqual(self.shown_rows(), ["Isar"])
        self.js(choose, "sound")
        self.assertEqual(self.shown_rows(), [])

    def files_given(self) -> List[str]:
        """Opens the page with all that it may show, takes each file that it gives, and tells their names."""
        self.open(files_of(TWELVE), "--scenarios", TWELVE / "scenarios.toml", "--default-keeps", "700")
        self.js(
            """window.saved = {}; const made = URL.createObjectURL; let last;
            URL.createObjectURL = content => { last = content; return made.call(URL, content); };
            HTMLAnchorElement.prototype.click = function () { saved[this.download] = last; };
            document.querySelectorAll('button[data-file]').forEach(b => b.click());"""
        )
        buttons = "[...document.querySelectorAll('button[data-file]')]"
        missing = f"return {buttons}.filter(b => !(b.dataset.file in saved)).length"
        self.until(lambda: self.js(missing) == 0)
        return self.js("return Object.keys(saved).sort()")

    def text_of(self, name: str) -> str:
        """The text of a file that the page gave."""
        return self.driver.execute_async_script("saved[arguments[0]].text().then(arguments[1])", name)

    def test_each_table_and_picture_is_given_as_a_file(self):
        pictures = [f"{key}.{kind}" for key in PICTURES for kind in ("csv", "svg", "png")]
        self.assertEqual(self.files_given(), sorted([*pictures, "stands.csv", "banks.csv", "costs.csv"]))
        kinds = self.js(
            "return Object.fromEntries(Object.entries(saved).map(([name, content]) => [name, [content.type,"
            " content.size]]))"
        )
        for name, (kind, size) in kinds.items():
            self.assertIn({"csv": "text/csv", "svg": "image/svg+xml", "png": "image/png"}[name[-3:]], kind)
            self.assertGreater(size, 100, name)
        # No table that is shown has its numbers in no file.
        self.assertEqual(
            self.js(
                """return [...document.querySelectorAll('main table.data')].filter(t => t.checkVisibility()
            && !t.closest('#evidence, .banks-apart')
            && !t.closest('section, figure').querySelector('button[data-file$=".csv"]')
            ).map(t => t.textContent.slice(0, 40))"""
            ),
            [],
        )

    def test_files_of_the_page_have_the_numbers_of_the_program_and_pictures_without_the_page_s_style(self):
        self.files_given()
        banks = self.text_of("banks.csv").splitlines()
        self.assertEqual(
            [line.split(",")[0] for line in banks[1:]], [row[0] for row in rows_of("defaults", files_of(TWELVE))]
        )
        costs = self.text_of("costs.csv").splitlines()
        self.assertEqual(
            [line.split(",") for line in costs[1:]],
            [row for row in rows_of("cost-bounds", files_of(TWELVE), "--keep", "700") if len(row) == 7][1:],
        )
        svg = self.text_of("network.svg")
        self.assertNotIn("var(--", svg)
        self.assertEqual(svg.count("data-flow"), 40)

    def test_unpaid_is_one_figure(self):
        files = outside_net(self.folder)
        scenarios = self.file("s.toml", '[[scenario]]\nname = "half"\ncut = 500\n')
        self.open(files, "--scenarios", scenarios)
        owed, outside = {"A": 8, "B": 10, "C": 11, "D": 1}, {"A": 9, "B": 4, "C": 5, "D": 0}
        rows = rows_of("defaults", files)
        unpaid = sum(owed[row[0]] - int(row[3]) + outside[row[0]] - int(row[2]) for row in rows)
        tile = self.js(
            "return [...document.querySelectorAll('#figures div')].find(d => d.firstChild.textContent ==="
            " 'Unpaid').textContent"
        )
        self.assertIn(f"Unpaid{unpaid} units", tile)
        foot = self.js("return [...document.querySelectorAll('#banks-table tfoot td')].map(c => c.textContent)")
        self.assertEqual(dict(zip(self.heads()[1:], foot))["Unpaid"], str(unpaid))
        cases = self.rows("#cases table")
        self.assertEqual(cases["as things are"][3], str(unpaid))
        text = clearing("stress", *files, "--scenarios", scenarios).stdout.decode().split("\n")
        head = text.index("bank,estate,outside_paid,paid,owed,equity,state")
        then = [line.split(",") for line in text[head + 1 :] if line.count(",") == 6 and line[0] in "ABCD"]
        after = sum(owed[row[0]] - int(row[3]) + outside[row[0]] - int(row[2]) for row in then)
        self.assertEqual(cases["half"][3], str(after))
        self.assertIn(f": {unpaid} units of ", self.js("return document.querySelector('#summary li').textContent"))

    def test_the_charts_have_the_numbers_of_the_program(self):
        files = files_of(TWELVE)
        self.open(files)
        texts = lambda key: self.js(
            "return [...document.querySelectorAll(arguments[0] + ' .w-l text')].map(t => t.firstChild.textContent)", key
        )
        bars = self.js("return [...document.querySelectorAll('#unpaid .w-l rect.u')].map(b => b.getBBox().width)")
        unpaid = sorted(
            (int(row[3]) - int(row[2]) for row in rows_of("defaults", files) if row[-1] != "sound"), reverse=True
        )
        for bar, units in zip(bars, unpaid):
            self.assertAlmostEqual(bar / bars[0], units / unpaid[0], delta=0.01)
        self.assertEqual(len(bars), 4)
        # Of the harm of ruin what it adds: the banks that stand, those first whose ruin others feel.
        impact = {row[0]: row for row in rows_of("impact", files) if len(row) == 5}
        sound = [row[0] for row in rows_of("defaults", files) if row[-1] == "sound"]
        order = sorted(sound, key=lambda name: (-int(impact[name][3]), -int(impact[name][4]), -int(impact[name][2])))
        self.assertEqual([word for word in texts("#ruin") if word in impact], order)
        # Each step of the curve is a bank that stands, at its cut.
        cuts = sorted((int(row[1]), row[0]) for row in rows_of("breaking", files) if 0 < int(row[1]) <= 1000)
        named = [word for word in texts("#breaking") if word in impact]
        self.assertEqual(named, [name for _, name in cuts])

    def summary(self) -> List[str]:
        """The sentences of the summary."""
        return self.js(
            "return [...document.querySelectorAll('#summary li')].map(e => e.textContent.replaceAll('\u00a0', ' '))"
        )

    def test_the_summary_is_five_sentences_of_the_results(self):
        self.open(files_of(TWELVE), "--scenarios", TWELVE / "scenarios.toml", "--unit", "1000", "--currency", "EUR")
        self.assertEqual(
            self.summary(),
            [
                "Four of twelve banks cannot pay all they owe: EUR 1.49 billion of EUR 9.75 billion stays unpaid,"
                " 15.3%.",
                "Dunmore and Isar could not pay even if all their debtors paid in full; Elbe and Birk could (label:"
                " contagion).",
                "EUR 113 million more lets Birk pay in full, the least of the four; Dunmore needs EUR 700 million,"
                " and that takes EUR 1.06 billion of unpaid debt away, the most for each EUR (1.51).",
                "In the worst of three scenarios, \u201cthree quarters are lost and Isar loses all\u201d, the same"
                " four banks default and EUR 6.61 billion stays unpaid.",
                "The next bank in default is Jura, at a cut of 89.1% of all cash; then Fjord, at 94.1%.",
            ],
        )
        self.assertEqual(
            self.js("return document.querySelector('h1').textContent.replaceAll('\u00a0', ' ')"),
            "Four of twelve banks leave EUR 1.49 billion unpaid",
        )

    def test_the_summary_tells_of_banks_in_default_at_the_least_payments_alone(self):
        self.open(files_of(ROOT / "examples/gridlock"))
        self.assertEqual(
            self.summary()[1],
            "A, B and C are in default at the least payments alone (gridlock); greater payments, by 300 units in"
            " all, would clear too.",
        )

    def test_the_summary_of_a_bank_without_debts_has_five_sentences_too(self):
        banks, debts = "name,cash,rule\nA,3,order\n", "debtor,creditor,class,claim\n"
        self.open(["--banks", self.file("b.csv", banks), "--debts", self.file("d.csv", debts)])
        self.assertEqual(
            self.summary(),
            [
                "None of one bank is in default: it pays all it owes, 0 units in all.",
                "A keeps the least, 3 units.",
                "No bank needs a rescue.",
                "No scenario was given.",
                "No other bank falls at any cut of all cash.",
            ],
        )


class Costs(InTheBrowser):
    """Both ends of the payments that clear where a bank in default keeps a part of its estate."""

    def tables_of_costs(self, name: str, keep: int) -> Tuple[List[Word], List[Rows]]:
        """Opens the report of an example: its files, and the rows of the tables on costs, of which the second has the
        banks in default at either end, if any is."""
        files = files_of(ROOT / "examples" / name)
        self.open(files, "--default-keeps", keep)
        return files, self.js(
            "return [...document.querySelectorAll('#costs table')].map(t => [...t.tBodies[0].rows].map(r =>"
            " [...r.cells].map(c => c.textContent.trim())))"
        )

    def test_the_table_of_both_ends_is_what_the_program_says(self):
        for name, keep in COSTLY:
            with self.subTest(name=name):
                files, (ends, *_) = self.tables_of_costs(name, keep)
                self.assertEqual([list(column) for column in zip(*(row[1:] for row in ends))], ends_of(files, keep))
                self.assertEqual(self.js("return document.querySelectorAll('nav a[href=\"#costs\"]').length"), 1)

    def test_banks_in_default_at_either_end_are_shown_and_those_at_one_end_alone_first(self):
        words = {"fundamental": "own fundamentals"}
        for name, keep in COSTLY:
            with self.subTest(name=name):
                files, (_, *banks) = self.tables_of_costs(name, keep)
                fallen = {
                    row[0]: [
                        *(words.get(state, state) for state in (row[3], row[6])),
                        *(f"{int(row[at]):,}" for at in (1, 4, 5)),
                    ]
                    for row in cost_bounds_of(files, keep)[1]
                    if (row[3], row[6]) != ("sound", "sound")
                }
                shown = {row[0]: row[1:] for row in (banks[0] if banks else [])}
                self.assertEqual(len(shown), min(12, len(fallen)))
                self.assertEqual({bank: fallen[bank] for bank in shown}, shown)
                # As many of those at one end alone are shown as the table has room for.
                one_end = [bank for bank, cells in fallen.items() if cells[1] == "sound"]
                self.assertEqual(sum(bank in shown for bank in one_end), min(12, len(one_end)))

    def test_without_costs_of_default_there_is_no_such_part(self):
        self.open(files_of(TWELVE))
        self.assertEqual(self.js("return document.querySelectorAll('#costs, a[href=\"#costs\"]').length"), 0)

    def test_the_summary_tells_both_ends_where_default_costs(self):
        def last(*words: Any) -> List[str]:
            self.open(*words)
            return self.js("return [...document.querySelectorAll('#summary li')].map(e => e.textContent)")[5:]

        core, ring = files_of(ROOT / "examples/core"), files_of(ROOT / "examples/gridlock")
        self.assertEqual(
            last(core, "--default-keeps", "800"),
            [
                "Where a bank in default keeps 80% of its estate, 42 banks default at the least payments that clear,"
                " and 41 at the greatest. At the least 102,005 units are lost of estates, and 341,769 units more stay"
                " unpaid than without costs; at the greatest 101,718 units are lost of estates, and 340,505 units more"
                " stay unpaid than without costs."
            ],
        )
        self.assertEqual(
            last(files_of(ROOT / "examples/chain"), "--default-keeps", "500", "--unit", "1000", "--currency", "EUR"),
            [
                "Where a bank in default keeps 50% of its estate, two banks default, at the least payments that clear"
                " and at the greatest; EUR\u00a06,000 is lost of estates, and EUR\u00a010,000 more stays unpaid than"
                " without costs."
            ],
        )
        self.assertEqual(
            last(ring, "--default-keeps", "900"),
            [
                "Where a bank in default keeps 90% of its estate, three banks default at the least payments that clear,"
                " and none at the greatest. At the least nothing is lost of estates, and as much stays unpaid as"
                " without costs; at the greatest nothing is lost of estates, and 300 units less stay unpaid than"
                " without costs."
            ],
        )
        self.assertEqual(last(core), [])
