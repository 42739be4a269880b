"""Each refusal of a file by the program, by file, kind and row, as docs/FORMATS.md gives it: the status, the whole
message, and no output. Each fault of a record stands in an early row and in late ones, and behind few good records and
many, since a row's number and what stands before it must change nothing else."""
import concurrent.futures
import subprocess
from typing import Any, Iterable, Iterator, List, Tuple, Union

from common import PROGRAM
from refusals import FEW_BANKS, FEW_DEBTS, HEADERS, LARGEST, MANY_BANKS, MANY_DEBTS, NUMBERS, RefusalCase, joined, one

# How many blank records stand before the others of a file.
BLANKS = [0, 3, 1_100, 60_500]
# A thousand good records of each file.
GOOD = {
    "banks": [bank.encode() for bank in [*FEW_BANKS, *(f"G{i},{i},webster" for i in range(996))]],
    "debts": [
        *(debt.encode() for debt in FEW_DEBTS),
        *(f"G{i % 16},G{(i + 1 + i // 16 % 15) % 16},{1 + i // 240},{i % 50}".encode() for i in range(998)),
    ],
    "journal": [b"1,A,B,1,1"] * 1000,
}
NAMES = {
    "name": ["x" * 65, "é" * 33, "😀" * 17, "x" * 300, b"\xff", b"x" * 64 + b"\xc3", "a\x07", '"a,b"', '"a""b"'],
    "unknown bank": ["Z", "a", "x" * 63, "y" * 64, "é" * 32, "😁" * 16],
}
NUMERALS = {
    "number": ["", "x", "-1", "+1", "1.5", "1e3", "0" * 21, "9" * 30, "9" * 300],
    "limit": ["9" * 20, str(2**64), "18446744073709551615"],
}


def bank_faults(second: bool) -> Iterator[Any]:
    """The kind of a fault, and a record that has it, below banks A, B and one with a long name."""
    more = ",0" if second else ""
    yield from (
        ("fields", text)
        for text in [
            "C,1",
            "C",
            "C,1,order,0,0",
            "C,1,order" if second else "C,1,order,0",
            "C" + ",x" * 70,
            "A,x",
            "," * 70 + "x",
        ]
    )
    yield from (("name", joined(name, ",1,order", more)) for name in ["", *NAMES["name"]])
    yield from (("double bank", f"{name},1,order{more}") for name in ["A", " A ", '"B"', "😀" * 16, "n" * 64])
    yield from (("number", f"C,{text},order{more}") for text in NUMERALS["number"])
    yield from (("limit", f"C,{text},order{more}") for text in ["1000000000001", *NUMERALS["limit"]])
    yield from (
        ("rule", f"C,1,{text}{more}") for text in ["", "Order", "proportional", "order order", "x" * 300, "losse"]
    )
    # The first check that fails is told.
    yield from [
        ("double bank", f"A,x,x{more}"),
        ("number", f"C,x,x{more}"),
        ("limit", f"C,1000000000001,x{more}"),
        ("name", f"{'x' * 65},x,x{more}"),
    ]
    if second:
        yield from (("number", f"C,1,order,{text}") for text in NUMERALS["number"])
        yield from (("limit", f"C,1,order,{text}") for text in ["100000000001", *NUMERALS["limit"]])
        yield ("rule", "C,1,x,x")


def debt_faults() -> Iterator[Any]:
    yield from (("fields", text) for text in ["A,B,2", "A", "A,B,2,1,1", "A" + ",x" * 70])
    for kind, names in NAMES.items():
        yield from ((kind, joined(name, ",A,2,1")) for name in names)
        yield from ((kind, joined("A,", name, ",2,1")) for name in names)
    yield from [("name", ",A,2,1"), ("name", "A,,2,1")]
    yield from (("self debt", f"{name},{name},2,1") for name in ["A", "n" * 64])
    yield from (("class", f"A,B,{text},1") for text in ["", "0", "10", "x", "01", "-1", "1" * 300])
    yield from (("number", f"A,B,2,{text}") for text in NUMERALS["number"])
    yield from (("limit", f"A,B,2,{text}") for text in ["1000001", *NUMERALS["limit"]])
    yield from (("double debt", text) for text in ["A,B,1,1", " A , B , 1 , 0 ", f"{'n' * 64},A,9,5"])
    yield from [
        ("unknown bank", "Z,Z,0,x"),
        ("self debt", "A,A,0,x"),
        ("class", "A,B,0,x"),
        ("number", "A,B,1,x"),
        ("limit", "A,B,1,1000001"),
    ]


def raise_faults() -> Iterator[Any]:
    yield from (
        ("fields", text)
        for text in ["2,A,B,1", "2", "2,A,B,1,1,1", "2" + ",x" * 70, "rounds,x", "rounds,1,1", "Rounds,1"]
    )
    yield from (("number", f"{text},A,B,1,1") for text in NUMERALS["number"])
    yield from (("limit", f"{text},A,B,1,1") for text in ["4294967296", *NUMERALS["limit"]])
    for kind, names in NAMES.items():
        yield from ((kind, joined("2,", name, ",A,1,1")) for name in names)
        yield from ((kind, joined("2,A,", name, ",1,1")) for name in names)
    yield from [("name", "2,,A,1,1"), ("name", "2,A,,1,1")]
    yield from (("class", f"2,A,B,{text},1") for text in ["", "0", "10", "x", "01", "1" * 300])
    yield from (
        ("unknown debt", text) for text in ["2,A,B,2,1", "2,B,A,1,1", "2,A,A,1,1", f"2,{'n' * 64},{'😀' * 16},1,1"]
    )
    yield from (("number", f"2,A,B,1,{text}") for text in NUMERALS["number"])
    yield from (("limit", f"2,A,B,1,{text}") for text in ["1000001", *NUMERALS["limit"]])
    yield from [
        ("number", "x,Z,Z,0,x"),
        ("unknown bank", "2,Z,Z,0,x"),
        ("class", "2,A,B,0,x"),
        ("unknown debt", "2,A,B,2,x"),
    ]


def header_faults(words: str) -> Iterator[Any]:
    yield from [
        "",
        "\n\n",
        words[:-1],
        words + "x",
        words.upper(),
        words + ",x",
        words + ",x" * 70,
        words.rpartition(",")[0],
        "x",
        ",",
        ",\n" + words,
        ",".join(reversed(words.split(","))),
        words.replace(",", ";"),
        "x" * 200_000,
        b"\xff\xfe",
        words.replace(",", ",,"),
    ]


def loss(bank: str, amount: Union[int, str]) -> str:
    """A loss of a scenario."""
    return f'[[scenario.loss]]\nbank = "{bank}"\namount = {amount}'


SHAPES = [
    "[[scenario]]\n",
    "[[scenario]]\ncut = 1\n",
    one("1"),
    one('["a"]'),
    one('"a"', "cuts = 1"),
    one('"a"', 'cut = "1"'),
    one('"a"', "cut = 1.0"),
    one('"a"', "loss = 1"),
    one('"a"', "loss = [1]"),
    one('"a"', "[[scenario.loss]]"),
    one('"a"', '[[scenario.loss]]\nbank = "A"'),
    one('"a"', "[[scenario.loss]]\namount = 1"),
    one('"a"', loss("A", 1), "more = 1"),
    one('"a"', loss("A", '"1"')),
    one('"a"', loss("A", "1.0")),
    one('"a"', "[scenario.loss]"),
    one('"a"', loss("A", 1), loss("B", 1), "[[scenario.loss]]\nbank = 1\namount = 1"),
    one('""', "x = 1"),
    # Keys with dots, and a loss of three keys; another shape is told before the values in it.
    "[[scenario]]\nname.first = 'a'\n",
    one('""', "cut = 0.5"),
    one('""', "[scenario.loss]"),
    one('""', 'loss = [{ bank = "X", amount = 1, a = 1 }]'),
    one('""', 'loss = [{ bank = "X", amount = 1.0 }]'),
]


def scenario_faults() -> Iterator[Tuple[str, str]]:
    """The kind of a fault, and the text of a scenario that has it."""
    yield from (("shape", text) for text in SHAPES)
    yield from (
        ("name", one(f'"{name}"'))
        for name in ["", "x" * 65, "x" * 100, "é" * 33, "😀" * 17, "x" * 5_000, "a,b", "a\\u0007", 'a\\"b']
    )
    yield from (("limit", one('"a"', f"cut = {cut}")) for cut in [1001, -1, 2**63 - 1])
    for before in ([], [loss("B", 2)], [loss("B", 2), loss("n" * 64, 10**12)]):
        yield from (
            ("unknown bank", one('"a"', *before, loss(name, 1)))
            for name in ["Z", "", "y" * 64, "x" * 65, "é" * 32, " A", "a,b"]
        )
        yield from (("limit", one('"a"', *before, loss("A", amount))) for amount in [-1, 10**12 + 1, 2**63 - 1])
    yield from (
        ("double bank", one('"a"', *losses))
        for losses in [
            [loss("A", 1)] * 2,
            [loss("A", 1), loss("B", 1), loss("A", -1)],
            [loss("n" * 64, 1)] * 3,
            [loss("B", 10**12), loss("B", 0)],
        ]
    )
    yield from [
        ("name", one('"a\\tb"', "cut = -1")),
        ("name", one('""', "cut = 1001")),
        ("limit", one('"a"', "cut = 1001", loss("Z", -1))),
        ("unknown bank", one('"a"', loss("Z", -1))),
    ]


def documents() -> Iterator[Any]:
    """The kind of a fault of a whole document, and the document."""
    for text in [
        "scenario",
        "=",
        '[[scenario]]\nname = "a',
        "[scenario]\n[scenario]",
        "a = 1\na = 1",
        one('"a"', "cut = 01"),
    ]:
        yield from [
            ("toml", text),
            ("toml", "# " + "x" * 100 + "\n" + text),
            ("toml", "# " + "x" * 200_000 + "\n" + text),
        ]
    for text in [b"\xff", b'[[scenario]]\nname = "\xc3"', b"# \xe2\x82"]:
        yield from [
            ("toml", text),
            ("toml", b"# " + b"x" * 100 + b"\n" + text),
            ("toml", b"# " + b"x" * 200_000 + b"\n" + text),
        ]
    for text in ["scenario = []\nscenario = []", 'scenario = "a" "b"']:
        yield "toml", text
    for text in [
        "scenario.name = 'a'",
        "[scenario]\nname = 'a'",
        "a = 1",
        "scenario = 1",
        "[scenario]",
        "scenarios = []",
        one('"a"') + "[x]",
        one('"a"') * 20 + "[other]",
        'scenario = "' + "x" * 200_000 + '"',
    ]:
        yield "shape", text


NOT_LAWFUL = (7, "clearing: the journal is not a lawful complete history\n")


def verdicts_behind(count: int, name: str) -> Iterator[Tuple[List[str], str]]:
    """The last records of a journal that is not lawful, behind so many raises of a bank's debt, and its verdict."""
    for to in (0, count, 900_001, 1_000_000):
        yield [f"{count},{name},B,9,{to}"], f"unlawful,{count + 1},{count},900000\n"
    yield [], f"unfinished,{name}\n"
    if count:
        yield [f"{count - 1},{name},B,9,900000"], f"falls,{count + 1},{count},{count - 1}\n"
        late = [f"4294967295,{name},B,9,{count + 1}", f"0,{name},B,9,900000"]
        yield late, f"falls,{count + 2},4294967295,0\n"


def lawful_behind(count: int, name: str) -> Tuple[List[str], str]:
    """The last records that make such a journal lawful, and what is printed of it."""
    paid = f"debtor,creditor,class,claim,paid\n{name},B,9,1000000,900000\n"
    return [f"{count},{name},B,9,900000", f"rounds,{count}"], f"lawful,{count + 1}\n\n{paid}"


class Records(RefusalCase):
    """Faults of records, in early rows and late ones."""

    def check_records(self, file: str, header: str, before: Any, faults: Any, blanks: Any = BLANKS) -> None:
        """Each fault is told in its row, behind some good records and some blank ones."""
        faults = list(faults)
        for count in blanks:
            # All faults in the first rows, and of the late ones those of each kind that come first and last.
            chosen = faults if count == blanks[0] else [*dict(reversed(faults)).items(), *dict(faults).items()]
            for kind, text in chosen:
                with self.subTest(file=file, kind=kind, text=str(text)[:60], blanks=count, before=len(before)):
                    blank = "," * header.count(",") + "\n"
                    content = joined(
                        header,
                        "\n",
                        blank * (count - count // 2),
                        *(f"{text}\n" for text in before),
                        "\n",
                        blank * (count // 2),
                        text,
                        "\n",
                        "x,x\n",
                    )
                    self.fault(file, content, count + len(before) + 1, kind)

    def test_banks(self):
        for before, blanks in ((FEW_BANKS, BLANKS), (MANY_BANKS, [0])):
            self.check_records("banks", "name,cash,rule", before, bank_faults(False), blanks)
            self.check_records(
                "banks", "name,cash,rule,outside", [f"{bank},5" for bank in before], bank_faults(True), blanks
            )

    def test_debts(self):
        for many in self.on_both():
            self.check_records(
                "debts", HEADERS["debts"], MANY_DEBTS if many else FEW_DEBTS, debt_faults(), [0] if many else BLANKS
            )

    def test_raises(self):
        for many in self.on_both():
            self.check_records(
                "journal", HEADERS["journal"], ["1,A,B,1,1"], raise_faults(), [0] if many else [0, 2, 3, 1_100, 60_500]
            )
        # No row but the last that is not blank may close a journal.
        for count in (0, 1, 2, 5, 50, 5_000, 70_000):
            raises = f"{HEADERS['journal']}\n" + "1,A,B,1,1\n" * count
            for close in ("rounds,2\n", " rounds ,\t0\n", '"rounds",99999999999999999999\n'):
                with self.subTest(count=count, close=close):
                    self.fault("journal", f"{raises}{close}1,A,B,1,1\n", count + 1, "fields")
                    self.fault("journal", f"{raises}{close},\n,,,,\nrounds,2\n", count + 1, "fields")
        with self.subTest(late="above 2,000,000"):
            self.fault("journal", HEADERS["journal"] + "\n" + ",\n" * 2_100_000 + "x\n", 2_100_001, "fields")

    def test_faults_behind_any_number_of_good_rows(self) -> None:
        """In each file behind 0 to 999 good rows, the faults of its records by turns."""
        faults = {"banks": list(bank_faults(False)), "debts": list(debt_faults()), "journal": list(raise_faults())}
        needs = {"banks": len(FEW_BANKS), "debts": len(FEW_DEBTS), "journal": 0}
        cases = []
        for count in range(1000):
            for file, found in faults.items():
                # Of the faults that speak of no row above them the first stands behind fewer.
                kind, record = found[count % len(found) if count >= needs[file] else 0]
                cases.append((file, count, kind, record))
        with concurrent.futures.ThreadPoolExecutor(4) as pool:
            for case, told in zip(cases, pool.map(lambda case: self.told_behind(case[0], case[1], case[3]), cases)):
                file, count, kind, _ = case
                with self.subTest(file=file, count=count, kind=kind):
                    self.assertEqual(told, (4, f"clearing: {file} row {count + 1}: {kind} ({NUMBERS[kind]})\n", ""))

    def told_behind(self, file: str, count: int, record: str | bytes) -> tuple[int, str, str]:
        """What a run comes to that finds this record in a file behind so many good rows."""
        rows = {"banks": GOOD["banks"][: max(count, 20)], "debts": GOOD["debts"][: count if file == "debts" else 2]}
        if file == "journal":
            rows[file] = GOOD[file][:count]
        rows[file] = [*rows[file][:count], joined(record)]
        words = ["replay" if file == "journal" else "clear"]
        for name, lines in rows.items():
            path = self.file(f"{name}-{file}-{count}", b"\n".join([HEADERS[name].encode(), *lines]))
            words += [f"--{name}", str(path)]
        done = subprocess.run(
            [PROGRAM, *words], stdin=subprocess.DEVNULL, capture_output=True, encoding="utf-8", errors="replace"
        )
        return done.returncode, done.stderr, done.stdout


class Documents(RefusalCase):
    """Faults of headers, of scenarios, and of what is too large."""

    def test_headers(self):
        for file, header in HEADERS.items():
            for text in header_faults(header):
                with self.subTest(file=file, text=str(text)[:60]):
                    self.fault(file, joined(text, "\n", "x" if text else ""), 0, "header")
            with self.subTest(file=file, text="of no bytes"):
                self.fault(file, b"", 0, "header")
        with self.subTest(file="banks", text="version 2"):
            for text in header_faults("name,cash,rule,outside"):
                if text != "name,cash,rule":
                    self.fault("banks", joined(text, "\n", "x" if text else ""), 0, "header")

    def test_scenarios(self):
        for many in self.on_both():
            for kind, text in scenario_faults():
                for before in [2] if many else [0, 1, 2, 99]:
                    with self.subTest(kind=kind, text=text[:60], before=before, many=many):
                        self.fault("scenarios", one('"a"') * before + text, before + 1, kind)
            for kind, text in documents():
                with self.subTest(kind=kind, text=str(text)[:60], many=many):
                    self.fault("scenarios", text, 0, kind)
        with self.subTest("a list in a list"):
            self.fault("scenarios", "scenario = [[]]", 1, "shape")
        with self.subTest("too many"):
            self.fault("scenarios", one('"a"') * 100 + "[[scenario]]\n", 101, "too many")
            self.fault("scenarios", one('"a"') * 101, 101, "too many")
            self.fault("scenarios", one('"a"') * 100 + one('""'), 101, "too many")

    def test_too_many(self):
        banks = "".join(f"N{i},1,order\n" for i in range(1000))
        keys = [(i, (i + 1 + c // 9) % 1000, 1 + c % 9) for i in range(1000) for c in range(20)]
        debts = "debtor,creditor,class,claim\n" + "".join(f"N{i},N{j},{c},500\n" for i, j, c in keys)
        for more in ("X,1,order", "N0,1,order", "x"):
            with self.subTest(banks=more):
                self.fault("banks", f"name,cash,rule\n{banks}{more}\n", 1001, "too many")
                self.fault("banks", f"name,cash,rule\n,,\n{banks}{',' * 3}\n{more}\n", 1003, "too many")
        self.names["banks"] = self.file("many.csv", "name,cash,rule\n" + banks)
        for more in ("N0,N9,9,0", "N0,N9,9,1", "x"):
            with self.subTest(debts=more):
                self.fault("debts", f"{debts}{more}\n", 20_001, "too many")
                self.fault("debts", f"{debts}{more}\n", 20_001, "too many", "check")
        # All claims together, at the greatest and one above it.
        with self.subTest("total"):
            lines = debts.splitlines()[:-1]
            self.fault("debts", "\n".join([*lines, "N0,N9,9,501"]) + "\n", 20_000, "total")
            self.fault(
                "debts",
                "debtor,creditor,class,claim\n" + "".join(f"N0,N{i},1,1000000\n" for i in range(1, 11)) + "N1,N0,1,1\n",
                11,
                "total",
            )

    def test_sizes(self):
        for file in ("banks", "debts", "scenarios"):
            for task in (
                ("check", "clear", "costs", "cost-bounds", "impact") if file != "scenarios" else ("stress", "outcomes")
            ):
                with self.subTest(file=file, task=task):
                    more = ["--keep", "1"] if task in ("costs", "cost-bounds") else []
                    words = self.words(file, self.file("long", b"x" * (LARGEST + 1)), task) + more
                    self.ends(words, 4, f"clearing: {file} row 0: file size (14)\n")
                    # A file of the greatest size is read.
                    words = self.words(file, self.file("long", b"x" * LARGEST), task) + more
                    kind = "toml" if file == "scenarios" else "header"
                    self.ends(words, 4, f"clearing: {file} row 0: {kind} ({NUMBERS[kind]})\n")
        # The second and the third file are looked at in tasks of three files too.
        for task, third in (("stress", "scenarios"), ("outcomes", "scenarios"), ("replay", "journal")):
            for file in ("banks", "debts"):
                self.names[file], kept = self.file("long", b"x" * (LARGEST + 1)), self.names[file]
                self.ends(self.words(third, self.names[third], task), 4, f"clearing: {file} row 0: file size (14)\n")
                self.names[file] = kept

    def test_each_kind_is_tried(self):
        tried = {
            kind for kind, _ in [*bank_faults(True), *debt_faults(), *raise_faults(), *scenario_faults(), *documents()]
        }
        self.assertEqual(tried | {"header", "too many", "total", "file size"}, set(NUMBERS))


class Verdicts(RefusalCase):
    """Journals that are no lawful complete histories."""

    def test_verdicts_at_early_and_late_entries(self):
        self.verdicts((0, 1, 3, 4, 5, 9, 10, 11, 100, 5_001, 70_000), 0)
        self.verdicts((0, 1, 5, 100), 18)

    def verdicts(self, counts: Iterable[int], others: int) -> None:
        """Each verdict behind so many raises, on two banks and others without debts."""
        name = "n" * 64
        more = "".join(f"G{i},{i},adams\n" for i in range(others))
        banks = self.file("two.csv", f"name,cash,rule\n{name},900000,order\nB,0,order\n{more}")
        debts = self.file("one.csv", f"debtor,creditor,class,claim\n{name},B,9,1000000\n")
        for count in counts:
            lawful = [f"{i},{name},B,9,{i}" for i in range(1, count + 1)]
            for further, verdict in [*verdicts_behind(count, name), lawful_behind(count, name)]:
                with self.subTest(count=count, verdict=verdict, others=others):
                    path = self.file("tried.csv", "\n".join([HEADERS["journal"], *lawful, *further]) + "\n")
                    words = ["replay", "--banks", banks, "--debts", debts, "--journal", path]
                    self.ends(words, *((0, "") if verdict.startswith("lawful") else NOT_LAWFUL), verdict)
