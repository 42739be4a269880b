"""Each task on networks of 5 to 200 banks beside tests/system/model.py, on small ones byte for byte, and on
documents, words and names in other dress: what a test of a library's calls would show, shown by the printed bytes of
the program."""
import random
import unittest
from collections.abc import Iterable
from pathlib import Path
from typing import Any, List

from common import CHAIN, TWELVE, Case, Word, clearing, files_of
from compared import Compared, model

from networks import RULES, generated, judge_compression, random_journal, scenarios_toml

Bank, Debt, Net, Scenario = model.Bank, model.Debt, model.Net, model.Scenario
DEBTS = "debtor,creditor,class,claim\n"


def woven(size: int) -> Any:
    """A network of so many banks, from eight on, that owe round a circle: to the next, to the seventh after it and to
    the third before it. Their cash, rules, outside claims, classes and claims go by their numbers."""
    banks = [Bank(f"{i:03}", i * 7919 % 61, RULES[i % 6], i % 13 if i % 5 == 0 else 0) for i in range(size)]
    debts = []
    for i in range(size):
        debts.append(Debt(i, (i + 1) % size, 1, 20 + i * 31 % 47))
        debts.append(Debt(i, (i + 7) % size, 1 + i % 3, 15 + i * 17 % 29))
        debts.append(Debt(i, (i - 3) % size, 1 + i % 9, 10 + i * 13 % 37))
    return Net(banks, debts)


def knot(seed: int) -> Any:
    """Five banks by as many rules, which owe each other nearly all ways; the seed tells how much they have."""
    banks = [
        Bank("A", seed % 4, "order", 1),
        Bank("B", seed % 3, "equal", 0),
        Bank("C", seed, "losses", 2),
        Bank("D", 1, "webster", seed % 5),
        Bank("E", 0, "adams", 0),
    ]
    owed = [(0, 1, 9), (0, 2, 5), (1, 2, 8), (1, 3, 4), (2, 0, 7), (2, 3, 6), (3, 4, 12), (4, 0, 6), (4, 1, 5)]
    return Net(banks, [Debt(debtor, creditor, 1, claim) for debtor, creditor, claim in owed])


def digest(text: str) -> int:
    """FNV-1a of 64 bits (Fowler, Noll and Vo 1991)."""
    told = 0xCBF29CE484222325
    for byte in text.encode():
        told = (told ^ byte) * 0x0100000001B3 % 2**64
    return told


class BesideTheModel(Compared):
    def many_times(self, net: Any) -> None:
        """The tasks that clear a network once for each bank or cut."""
        low = model.least(net)
        short = [i for i in range(len(net.banks)) if model.state(net, low, i) != "sound"]
        self.same(model.impact_text(net), "impact")
        self.same(model.rescues_text(net, {i: model.rescue(net, i) for i in short}), "rescues")
        self.same(model.breaking_text(net), "breaking")

    def test_leaving_banks_out_of_rounds_changes_nothing(self) -> None:
        for seed in range(8):
            net = knot(seed)
            self.write(net)
            self.same(model.bounds_text(net), "bounds")
            self.many_times(net)

    def test_both_ends_where_default_costs_are_those_of_plain_rounds(self) -> None:
        for size in (8, 9, *range(11, 21)):
            net = woven(size)
            self.write(net)
            for keep in (0, 500, 800, 999, 1000):
                self.same(model.costs_text(net, keep), "costs", "--keep", keep)
                self.same(model.cost_bounds_text(net, keep), "cost-bounds", "--keep", keep)

    def test_cuts_ruins_and_rescues_are_those_that_are_tried_one_by_one(self) -> None:
        for size in (8, 12, 13, 60):
            self.write(woven(size))
            self.many_times(woven(size))

    def test_two_hundred_banks_that_owe_round_a_circle(self) -> None:
        net = woven(200)
        self.write(net)
        low = model.least(net)
        self.same(model.payments_text(net, low), "clear")
        self.same(model.bounds_text(net), "bounds")
        for keep in (500, 900, 1000):
            self.same(model.costs_text(net, keep), "costs", "--keep", keep)
            self.same(model.cost_bounds_text(net, keep), "cost-bounds", "--keep", keep)
        for bank in (15, 21):
            self.same(model.rescue_text(net, bank), "rescue", "--bank", net.banks[bank].name)
        with self.subTest(task="compress"):
            self.assertIsNone(judge_compression(net, self.printed("compress", *self.files)))
        # A lawful history that no run would make.
        made = random_journal(random.Random("two hundred"), net)
        journal = self.file("made.csv", model.journal_text(net, made, None))
        self.same(f"lawful,{len(made)}\n\n{model.payments_text(net, low)}", "replay", "--journal", journal)
        # The banks stand after each tenth part of a cut as what breaks them tells.
        broken = [int(row.split(",")[1]) for row in self.printed("breaking", *self.files).splitlines()[1:]]
        scenarios = [Scenario(f"cut {cut}", cut, []) for cut in range(0, 1001, 100)]
        self.same(
            model.outcomes_text(net, scenarios),
            "outcomes",
            "--scenarios",
            self.file("s.toml", scenarios_toml(net, scenarios)),
        )
        for scenario in scenarios:
            left = model.shocked(net, scenario)
            paid = model.least(left)
            fall = [model.state(left, paid, bank) != "sound" for bank in range(200)]
            self.assertEqual([cut <= scenario.cut for cut in broken], fall, scenario.name)

    def test_networks_of_a_number(self) -> None:
        """The banks and debts of a seed, as they were made by another program; and what the program says of them."""
        cases: list[tuple[int, int, int, list[tuple[int, str]], list[tuple[int, ...]]]] = [
            (1, 1, 20, [(737, "equal")], []),
            (0, 3, 0, [(8, "webster"), (1547, "order"), (1212, "webster")], []),
            (1, 3, 0, [(737, "equal"), (1701, "order"), (198, "order")], []),
            (2**64 - 1, 3, 0, [(0, "webster"), (374, "equal"), (464, "order")], []),
            # A debt that a bank would owe itself is left out; of debts of a kind the first stays.
            (1, 3, 5, [], [(2, 1, 3, 407), (1, 2, 1, 215), (2, 0, 2, 116), (2, 0, 1, 284)]),
            (23, 2, 6, [], [(1, 0, 1, 12), (0, 1, 1, 393)]),
        ]
        for seed, size, tries, banks, debts in cases:
            net = generated(seed, size, tries)
            with self.subTest(seed=seed, size=size, tries=tries):
                if banks:
                    self.assertEqual([(bank.cash, bank.rule) for bank in net.banks], banks)
                self.assertEqual([tuple(debt) for debt in net.debts], debts)
                self.assertEqual(
                    self.printed("gen", "--seed", seed, "--size", size, "--tries", tries), model.gen_text(net)
                )


# On the twelve banks, and on 200 of a number: the words after the files, and the length and the digest of the text
# that the model gave, for which it takes long.
Text = tuple[str, list[str], int, int]
ON_TWELVE: list[Text] = [
    ("check", [], 1227, 0xED62F770E8225B69),
    ("clear", [], 1159, 0x2921B4017C50A12C),
    ("central", [], 1159, 0x2921B4017C50A12C),
    ("defaults", [], 605, 0xCA8D7CFF61C5FA43),
    ("convert", [], 308, 0xBB9E3C70CB7F302D),
    ("bounds", [], 1656, 0xB4613142DF5D9185),
    ("costs", ["--keep", "500"], 1749, 0x92B005B38CABC689),
    ("stress", ["--scenarios", "s.toml"], 3551, 0x4D036F609AEE856D),
    ("rescue", ["--bank", "Dunmore"], 1200, 0xDE716763AED9B457),
    ("compress", [], 1298, 0x5282D515A559D494),
]
ON_TWO_HUNDRED: list[Text] = [
    ("check", [], 32411, 0x9E1C477272523737),
    ("clear", [], 36394, 0x4E8A09A3538ADD34),
    ("central", [], 36394, 0x4E8A09A3538ADD34),
    ("defaults", [], 6255, 0x6A6A0632AB5AD411),
    ("convert", [], 3664, 0x190D4893E62CB85E),
    ("bounds", [], 46367, 0xB2C7040CFD4F9534),
    ("costs", ["--keep", "500"], 41869, 0x7F68768C308A2900),
    ("stress", ["--scenarios", "s.toml"], 85186, 0xB3A336014F862287),
    ("rescue", ["--bank", "N2"], 36421, 0xB7BF889E8EA127B4),
    ("compress", [], 33481, 0x3977535A8B1E566E),
    ("breaking", [], 3690, 0xC7D0A5E30DF64C2E),
    ("impact", [], 24183, 0xF535AA1B4DD7F91F),
    ("rescues", [], 1084, 0x1CE375744EAC4DE6),
    ("outcomes", ["--scenarios", "s.toml"], 1849, 0xFA7ADE02AB33ABFE),
    ("cost-bounds", ["--keep", "500"], 48958, 0x03B26283B9EE5A02),
]

# Bank by bank what saves one of the twelve, as `rescue` prints it, also of one that is sound.
SAVED = [("Alster", 0, 0), ("Birk", 113331, 1), ("Dunmore", 699999, 1), ("Elbe", 279999, 1), ("Isar", 400000, 1)]

# Banks, debts, and what cancelling leaves: claims, ranks by class and bank, and the units cancelled.
Claims = list[tuple[int, int, int, int]]
CANCELLED: list[tuple[str, Claims, list[int], list[int], int]] = [
    # Two cycles that share a debt.
    ("ABC", [(0, 1, 1, 10), (1, 0, 1, 3), (1, 2, 1, 4), (2, 0, 1, 4)], [3, 0, 0, 0], [0, 1, 0], 18),
    # One cycle in two classes, which do not mix.
    ("AB", [(0, 1, 1, 5), (1, 0, 1, 3), (0, 1, 2, 3), (1, 0, 2, 5)], [2, 0, 0, 2], [0, 1, 1, 0], 12),
    # Two banks that owe each other in nine classes.
    (
        "AB",
        [(debtor, 1 - debtor, cls, 4 if debtor else cls) for cls in range(1, 10) for debtor in (0, 1)],
        [0, 3, 0, 2, 0, 1, 0, 0, 1, 0, 2, 0, 3, 0, 4, 0, 5, 0],
        [1, 0, 1, 0, 1, 0, 0, 0, 0, 1, 0, 1, 0, 1, 0, 1, 0, 1],
        60,
    ),
]

# Money that goes round, or nearly: banks, debts, a bank, the sum that saves it, and what it lacks with a unit less.
RESCUED = [
    ("A,0,order,0\nB,0,order,0\n", "A,B,1,10\nB,A,1,10\n", "A", 1, 10),
    # What is owed outside alone is covered, up to the greatest numbers.
    ("A,3,order,7\nB,6,order,0\n", "B,A,1,4\n", "A", 0, 0),
    ("A,3,order,9\nB,6,order,0\n", "B,A,1,4\n", "A", 2, 1),
    ("A,0,order,100000000000\nB,6,order,0\n", "B,A,1,4\n", "A", 99_999_999_996, 1),
    ("A,1000000000000,order,100000000000\nB,6,order,0\n", "B,A,1,4\n", "A", 0, 0),
]


class KnownTexts(Case):
    def on(self, banks: str, debts: str, task: str, *more: object) -> str:
        """What a task prints of banks and debts, which are given without their first lines."""
        files = [
            "--banks",
            self.file("banks.csv", f"name,cash,rule,outside\n{banks}"),
            "--debts",
            self.file("debts.csv", DEBTS + debts),
        ]
        return self.printed(task, *files, *more)

    def have_texts(self, files: list[Any], texts: list[Text]) -> None:
        """Compares the texts of tasks, and replays the journal of a run."""
        scenarios = self.file("s.toml", '[[scenario]]\nname = "half"\ncut = 500\n[[scenario]]\nname = "as it is"\n')
        for task, more, length, wanted in texts:
            with self.subTest(task=task):
                text = self.printed(task, *files, *(scenarios if word == "s.toml" else word for word in more))
                self.assertEqual((len(text.encode()), digest(text)), (length, wanted))
        payments, journal = self.printed("central", *files), self.printed("clear", *files, "--show", "journal")
        text = self.printed("replay", *files, "--journal", self.file("j.csv", journal))
        self.assertEqual(text, f"lawful,{journal.count(chr(10)) - 2}\n\n{payments}")

    def test_twelve_banks_by_every_task(self) -> None:
        self.have_texts(files_of(TWELVE), ON_TWELVE)
        for bank, added, short in SAVED:
            self.assertTrue(
                self.printed("rescue", *files_of(TWELVE), "--bank", bank).startswith(
                    f"rescue,{bank},{added}\nshort,{short}\n"
                ),
                bank,
            )

    def test_two_hundred_banks_by_every_task(self) -> None:
        net = generated(1, 200, 2000)
        files = [
            "--banks",
            self.file("b.csv", model.banks_text(net, False)),
            "--debts",
            self.file("d.csv", model.debts_text(net)),
        ]
        self.have_texts(files, ON_TWO_HUNDRED)

    def test_cycles_are_cancelled_by_their_least_debt(self) -> None:
        for names, debts, claims, ranks, cancelled in CANCELLED:
            with self.subTest(debts=debts):
                record = lambda debt, claim: f"{names[debt[0]]},{names[debt[1]]},{debt[2]},{claim}\n"
                told = self.on(
                    "".join(f"{name},0,order,0\n" for name in names),
                    "".join(record(debt, debt[3]) for debt in debts),
                    "compress",
                )
                classes = sorted({debt[2] for debt in debts})
                wanted = DEBTS + "".join(map(record, debts, claims)) + "\nclass,bank,rank\n"
                wanted += "".join(
                    f"{cls},{name},{rank}\n"
                    for (cls, name), rank in zip(((c, n) for c in classes for n in names), ranks)
                )
                self.assertEqual(told, f"{wanted}cancelled,{cancelled}\n")

    def test_the_least_sum_saves_a_bank(self) -> None:
        for banks, debts, bank, added, short in RESCUED:
            with self.subTest(banks=banks):
                told = self.on(banks, debts, "rescue", "--bank", bank)
                self.assertTrue(told.startswith(f"rescue,{bank},{added}\nshort,{short}\n"), told)

    def test_default_takes_its_part_of_an_estate(self) -> None:
        # A has just the 7 that it owes, to B and outside; B lacks one unit of the 7 that it owes; C owes 1 outside
        # alone.
        told = self.on("A,7,order,3\nB,2,order,2\nC,0,order,1\n", "A,B,1,4\nB,C,1,5\n", "costs", "--keep", "500")
        self.assertEqual(
            told.partition("\n\n")[2],
            (
                "bank,estate,lost,outside_paid,paid,equity,state\nA,7,0,3,4,0,sound\n"
                "B,6,3,2,1,0,fundamental\nC,1,0,1,0,0,sound\ntotal,14,3,6,5,0,1\ncash,9\n"
            ),
        )
        for keep, paid in ((1000, [7, 8]), (999, [6, 6]), (500, [3, 2]), (0, [0, 0])):
            told = self.printed("costs", *files_of(CHAIN), "--keep", keep).partition("\n\n")[0]
            self.assertEqual([int(row.rsplit(",", 1)[1]) for row in told.splitlines()[1:]], paid, keep)

    def test_waves_go_down_to_the_last_bank(self) -> None:
        told = self.on("A,7,order,8\nB,1,order,0\nC,0,order,2\n", "A,B,1,10\nB,C,1,9\n", "bounds")
        self.assertEqual(
            told,
            (
                "debtor,creditor,class,claim,least,greatest\nA,B,1,10,0,0\nB,C,1,9,1,1\n\n"
                "bank,wave,gridlock,equity\nA,1,no,0\nB,2,no,0\nC,3,no,0\n"
            ),
        )

    def test_a_debt_is_known_by_debtor_creditor_and_class(self) -> None:
        """Each debt that a search may meet or miss, by the row or by the column, is added last: it is a double one or
        it is not."""
        banks = "".join(f"{name},0,order,0\n" for name in "ABCDEFG")
        owed = ["A,B,1", "A,B,2", "A,C,1", "A,D,1", "G,B,1", "A,E,1", "A,F,9", "F,B,3", "B,G,4"]
        others = [
            "A,B,3",
            "A,B,9",
            "A,C,2",
            "A,F,1",
            "A,G,4",
            "G,B,2",
            "G,B,3",
            "G,B,4",
            "C,B,1",
            "B,A,1",
            "F,B,1",
            "B,G,1",
        ]
        for debt in [*owed, *others]:
            debts = DEBTS + "".join(f"{each},5\n" for each in [*owed, debt])
            done = clearing(
                "convert",
                "--banks",
                self.file("b.csv", "name,cash,rule,outside\n" + banks),
                "--debts",
                self.file("d.csv", debts),
            )
            told = (4, b"clearing: debts row 10: double debt (11)\n") if debt in owed else (0, b"")
            self.assertEqual((done.returncode, done.stderr), told, debt)

    def test_a_debts_file_cut_anywhere(self) -> None:
        debts = (CHAIN / "debts.csv").read_text()
        first, header = "debtor,creditor,class,claim,paid\n", "header (1)"
        # From and to how many bytes a run ends so: what it writes, or its row and fault.
        cuts: list[tuple[int, int, str, str]] = [
            (0, 26, "", f"row 0: {header}"),
            (27, 28, first, ""),
            (29, 33, "", "row 1: fields (2)"),
            (34, 34, "", "row 1: number (4)"),
            (35, 35, first + "A,B,1,1,1\n", ""),
            (36, 37, first + "A,B,1,10,7\n", ""),
            (38, 42, "", "row 2: fields (2)"),
            (43, 43, "", "row 2: number (4)"),
            (44, 45, first + "A,B,1,10,7\nB,C,1,9,8\n", ""),
        ]
        self.assertEqual(
            [size for least, most, *_ in cuts for size in range(least, most + 1)], list(range(len(debts) + 1))
        )
        for least, most, text, fault in cuts:
            for size in range(least, most + 1):
                done = clearing("clear", "--banks", CHAIN / "banks.csv", "--debts", self.file("d.csv", debts[:size]))
                told = f"clearing: debts {fault}\n" if fault else ""
                self.assertEqual(
                    (done.returncode, done.stdout.decode(), done.stderr.decode()), (4 if fault else 0, text, told), size
                )


# A document of one scenario that cuts half, by which A has 3 less too, in other forms.
ALIKE = [
    "[[scenario]]\nname = \"half\"\ncut = 500\n[[scenario.loss]]\nbank = 'A'\namount = 3\n",
    "scenario = [{ cut = 0x1F4, loss = [{ amount = +3, bank = 'A' }], name = 'half' }]",
    (
        "\ufeff[[ \"scenario\" ]]\r\n'name' = 'half'\r\n\"c\\u0075t\" = 5_00\r\n[[scenario . loss]]\r\namount ="
        ' 3\r\nbank = "\\u0041"'
    ),
]

# What may name a bank, and what may not: 64 bytes at most, in characters of any length, and no control character,
# comma or quote.
NAMES = ["A", "Crédit A's \\ <b>~", "A\u007eB", "A\u00a0B", "n" * 64, "é" * 32, "A\u0020B"]
NO_NAMES = ["A,B", 'A"', "A\0", "\u001fA", "A\u007fB", "A\u0080B", "A\u0085B", "A\u009fB", "é" * 33, "n" * 65]


class OtherForms(Case):
    def test_other_forms_of_a_document_are_read_alike(self) -> None:
        texts = [
            self.printed("stress", *files_of(CHAIN), "--scenarios", self.file("s.toml", document)) for document in ALIKE
        ]
        self.assertEqual(texts, texts[:1] * 3)
        # Of 7 units 1 is left, and of 1 unit 1.
        self.assertTrue(texts[0].startswith("scenario,half\n") and texts[0].endswith("cash,2\n"), texts[0])
        for document in ("", "# none", "scenario = []"):
            self.assertEqual(
                self.printed("stress", *files_of(CHAIN), "--scenarios", self.file("s.toml", document)), "", document
            )

    def rows(self, name: str | bytes) -> Path:
        """A banks file of one bank of a name, which is quoted where it has a comma or a quote."""
        text = name if isinstance(name, bytes) else name.encode()
        if b"," in text or b'"' in text:
            text = b'"' + text.replace(b'"', b'""') + b'"'
        return self.file("b.csv", b"name,cash,rule\n" + text + b",1,order\n")

    def test_names(self) -> None:
        no_name: Iterable[str | bytes] = [*NO_NAMES, b"A\xff", b"A\xc3", b""]
        debts = self.file("d.csv", DEBTS)
        for name in NAMES:
            text = self.printed("convert", "--banks", self.rows(name), "--debts", debts)
            self.assertEqual(text, f"name,cash,rule,outside\n{name},1,order,0\n")
        for refused in no_name:
            done = clearing("convert", "--banks", self.rows(refused), "--debts", debts)
            self.assertEqual((done.returncode, done.stderr), (4, b"clearing: banks row 1: name (3)\n"), refused)

    def jobs(self) -> List[List[str]]:
        """Each task that reads the chain of three banks, some of them with options."""
        toml = str(self.file("s.toml", '[[scenario]]\nname = "half"\ncut = 500\n'))
        journal = self.file("j.csv", "stamp,debtor,creditor,class,to\n1,A,B,1,7\n2,B,C,1,8\n")
        return [
            ["check"],
            ["clear"],
            ["central"],
            ["defaults", "--workers", "7"],
            ["stress", "--scenarios", toml],
            ["replay", "--journal", str(journal)],
            ["convert"],
            ["bounds", "--sweeps", "1000"],
            ["rescue", "--bank", "B"],
            ["compress"],
            ["costs", "--keep", "1000"],
            ["breaking"],
            ["impact"],
            ["rescues"],
            ["outcomes", "--scenarios", toml],
            ["cost-bounds", "--keep", "0"],
            ["clear", "--workers", "64", "--sweeps", "1000"],
            ["clear", "--workers", "1", "--sweeps", "1000", "--show", "both"],
            ["clear", "--show", "journal", "--workers", "1"],
        ]

    def test_words_in_other_forms_are_the_same_job(self) -> None:
        banks, debts = (str(path) for path in files_of(CHAIN)[1::2])
        odd = [self.file("b=-.csv", Path(banks).read_bytes()), self.file("ä d", Path(debts).read_bytes())]
        files = ["--banks", banks, "--debts", debts]
        for task, *options in self.jobs():
            wanted = self.printed(task, *files, *options)
            pairs = list(zip(options[::2], options[1::2]))
            joined = [f"{name}={value}" for name, value in pairs]
            zeros = [f"{name}={value.zfill(20) if value.isdigit() else value}" for name, value in pairs]
            for words in (
                [task, f"--banks={banks}", f"--debts={debts}", *joined],
                [*files, task, *options],
                [f"--debts={debts}", *joined, f"--banks={banks}", "--", task],
                [*options, task, *files],
                [task, *files, *zeros],
                [task, *options, f"--banks={odd[0]}", "--debts", odd[1]],
            ):
                with self.subTest(words=[str(word) for word in words]):
                    self.assertEqual(self.printed(*words), wanted)

    def test_gen_takes_its_options_in_any_order_and_form(self) -> None:
        self.assertEqual(
            self.printed("gen", "--seed=9", "--size=1000", "--tries=20000"),
            self.printed("gen", "--tries", "20000", "--size", "1000", "--seed", "9"),
        )


class KnownTextsByWideLimits(KnownTexts):
    """The texts that are known of networks within the standard limits, with the wide ones said."""

    def printed(self, *words: Word) -> str:
        done = clearing(*(() if "gen" in words else ("--limits", "wide")), *words)
        self.assertEqual((done.returncode, done.stderr), (0, b""), words)
        return done.stdout.decode()


class OtherFormsByWideLimits(OtherForms):
    """The same of other forms of files, names and words."""

    printed = KnownTextsByWideLimits.printed


if __name__ == "__main__":
    unittest.main()
