"""The independent checker against the program and against the plain model of tests/system."""
import itertools
import random
from typing import Any, Dict, Iterator, List, Sequence, Tuple
from unittest import mock

from common import ROOT, Case, Word, clearing, records, tool
from compared import model

from clearing_tools.evidence import audit

# A has the label fundamental, B contagion, C is sound with something to spare, D owes nothing, and E has no debts at
# all. Of its last debt A pays nothing.
BANKS = "name,cash,rule,outside\nA,7,webster,0\nB,1,order,2\nC,20,equal,3\nD,0,adams,0\nE,2,losses,0\n"
DEBTS = "debtor,creditor,class,claim\nA,B,1,6\nA,C,1,4\nB,C,2,5\nC,D,1,5\nC,A,2,1\nA,D,2,3\n"

# What stands in a file, by its name: what a field is changed to, by the word of the header above it.
CHANGES = {
    "name": lambda field: ["Z", field + "a", "", "A", "D"],
    "cash": lambda field: [plus(field, 1), plus(field, -1), "0", "+1", "7.0", str(10**12 + 1)],
    "rule": lambda field: [*model.RULES, "Order", ""],
    "outside": lambda field: [plus(field, 1), plus(field, -1), "x", str(10**11 + 1)],
    "debtor": lambda field: ["A", "B", "C", "D", "Z", ""],
    "creditor": lambda field: ["A", "B", "C", "D", "Z", ""],
    "class": lambda field: ["1", "2", "9", "0", "01", "x"],
    "claim": lambda field: [plus(field, 1), plus(field, -1), "0", "x", str(10**6 + 1)],
    "stamp": lambda field: [plus(field, 1), plus(field, -1), "0", "x", str(2**32)],
    "to": lambda field: [plus(field, 1), plus(field, -1), "0", "x", str(10**6 + 1)],
    "rounds": lambda field: [plus(field, 1), "999999", "x", ""],
    "text": lambda field: ["0", "x", "", plus(field, 1) if field.isdigit() else field + "a"],
}


def plus(field: str, units: int) -> str:
    return str(int(field) + units)


def altered(name: str, text: str) -> Iterator[Tuple[Any, str]]:
    """The place of a field and the text with another field there, for each field of a file and each change of it."""
    lines = text.removesuffix("\n").split("\n")
    words = lines[0].split(",")
    for row, line in enumerate(lines):
        fields = line.split(",")
        for at, field in enumerate(fields):
            if row == 0 or name in ("payments", "defaults"):
                kind = "text"
            elif fields[0] == "rounds":
                kind = "rounds" if at == 1 else "text"
            else:
                kind = words[at]
            for other in CHANGES[kind](field):
                if other != field:
                    new = fields[:at] + [other] + fields[at + 1 :]
                    yield (row, at, other), "\n".join([*lines[:row], ",".join(new), *lines[row + 1 :]]) + "\n"


def model_of(banks: str, debts: str, journal: str) -> Tuple[Any, List[Tuple[int, int, int]]]:
    """The network and the raises for the plain model. Only of files that are in form."""
    banks = [model.Bank(name, int(cash), rule, int(outside)) for name, cash, rule, outside in records(banks)]
    places = {bank.name: place for place, bank in enumerate(banks)}
    debts = [
        model.Debt(places[one], places[other], int(cls), int(claim)) for one, other, cls, claim in records(debts)
    ]
    seat = {debt[:3]: x for x, debt in enumerate(debts)}
    lines = [fields for fields in records(journal) if fields[0] != "rounds"]
    raises = [(int(stamp), seat[places[one], places[other], int(cls)], int(to)) for stamp, one, other, cls, to in lines]
    return model.Net(banks, debts), raises


class Audit(Case):
    def made_files(self, banks: str, debts: str, *more: Word) -> Dict[str, str]:
        """The two files, and the journal, the payments and the defaults that the program prints of them."""
        words = ["--banks", self.file("banks.csv", banks), "--debts", self.file("debts.csv", debts)]
        return {
            "banks": banks,
            "debts": debts,
            "journal": self.printed("clear", *words, "--show", "journal", *more),
            "payments": self.printed("clear", *words),
            "defaults": self.printed("defaults", *words),
        }

    def judged(self, files: Dict[str, str]) -> Tuple[List[str], int]:
        return audit.judge({name: text.encode() for name, text in files.items()})

    def words(self, files: Dict[str, str]) -> List[Word]:
        return [word for name, text in files.items() for word in (f"--{name}", self.file(f"{name}.csv", text))]

    def replayed(self, files: Dict[str, str]) -> Tuple[int, str, str]:
        """The status of a replay by the program, its first line or its message, and the payments."""
        done = clearing("replay", *self.words({name: files[name] for name in ("banks", "debts", "journal")}))
        verdict, _, payments = done.stdout.decode().partition("\n\n")
        return done.returncode, verdict.strip() or done.stderr.decode().strip(), payments

    def test_what_the_program_makes_holds(self):
        for name in ("chain", "core", "cycles", "gridlock", "hub", "ring"):
            folder = ROOT / "examples" / name
            files = [(folder / f"{file}.csv").read_text() for file in ("banks", "debts")]
            for workers in (1, 3):
                made = self.made_files(*files, "--workers", workers)
                raises = sum(1 for line in made["journal"].splitlines()) - 2
                rounds = made["journal"].splitlines()[-1].split(",")[1]
                told = [
                    f"{raises} raises lawful",
                    "nobody can pay more",
                    "payments same",
                    "defaults same",
                    f"rounds {rounds}: not checked",
                ]
                self.assertEqual(self.judged(made), (told, 0), name)

    def test_a_generated_network_of_200_holds(self):
        banks, debts = self.file("banks.csv"), self.file("debts.csv")
        self.made("clearing-gen-files", "--seed", 47, "--size", 200, "--tries", 800, "--banks", banks, "--debts", debts)
        made = self.made_files(banks.read_text(), debts.read_text(), "--workers", 2)
        lines, status = self.judged(made)
        self.assertEqual((lines[1:4], status), (["nobody can pay more", "payments same", "defaults same"], 0))

    def test_a_field_altered_is_refused_where_it_should_be(self):
        made = self.made_files(BANKS, DEBTS, "--workers", 1)
        unnoticed = {"replay": set(), "all": set()}
        for name in made:
            for place, text in altered(name, made[name]):
                files = {**made, name: text}
                with self.subTest(file=name, place=place):
                    lines, status = self.judged(files)
                    replay_status, said, payments = self.replayed(files)
                    if replay_status == 4:
                        # Both name the same first fault.
                        self.assertEqual((["clearing: " + lines[0]], status), ([said], 4))
                        continue
                    verdict, wanted, paid = model.verdict(*model_of(files["banks"], files["debts"], files["journal"]))
                    self.assertEqual((said + "\n", replay_status), (verdict, wanted))
                    if wanted == 7:
                        self.assertEqual(status, 7, lines)
                        continue
                    net, _ = model_of(files["banks"], files["debts"], files["journal"])
                    same = [
                        files["payments"] == model.payments_text(net, paid),
                        files["defaults"] == model.defaults_text(net, paid),
                    ]
                    self.assertEqual(lines[2:4] and [line.endswith(" same") for line in lines[2:4]], same)
                    self.assertEqual(status, 0 if all(same) else 1)
                    # What the program prints of the altered files is the same as audit.py has.
                    self.assertEqual(files["payments"] == payments, same[0])
                    if name in ("banks", "debts", "journal"):
                        unnoticed["replay"].add((name, *place))
                        if all(same):
                            unnoticed["all"].add((name, *place))
        self.assertEqual(unnoticed["all"], UNNOTICED)
        self.assertEqual(unnoticed["replay"] - UNNOTICED, UNNOTICED_BY_REPLAY)

    def test_a_verdict_of_a_journal_is_the_programs(self):
        made = self.made_files(BANKS, DEBTS, "--workers", 1)
        header, *raises, rounds = made["journal"].splitlines()
        kinds = set()
        for at in range(len(raises)):
            for changed in (
                [*raises[:at], *raises[at + 1 :]],
                [*raises[: at + 1], raises[at], *raises[at + 1 :]],
                raises[at:],
                raises[:at],
                [*raises[:at], "0" + raises[at][1:], *raises[at + 1 :]],
            ):
                files = {**made, "journal": "\n".join([header, *changed, rounds]) + "\n"}
                status, said, _ = self.replayed(files)
                verdict, wanted, _ = model.verdict(*model_of(BANKS, DEBTS, files["journal"]))
                self.assertEqual((said + "\n", status), (verdict, wanted))
                lines, audited = self.judged(files)
                kind, *numbers = said.split(",")
                told = {
                    "lawful": "{} raises lawful",
                    "falls": "raise {0} is not lawful: the stamp {2} is below {1}, that of the raise before",
                    "unlawful": "raise {} is not lawful: {} is paid, and its debtor may pay {}",
                    "unfinished": "{} can pay more",
                }[kind].format(*numbers)
                self.assertEqual((lines[0][: len(told)], audited), (told, status))
                kinds.add(kind)
        self.assertEqual(kinds, {"lawful", "falls", "unlawful", "unfinished"})

    def test_files_are_read_as_the_program_reads_them(self):
        made = self.made_files(BANKS, DEBTS, "--workers", 1)
        same = [
            ("banks", "\ufeff" + BANKS.replace("\n", "\r\n")),
            ("banks", BANKS.replace("\n", "\r").replace("A,7,", '"A", 007\t,')),
            ("banks", BANKS.replace("C,20,equal,3", '\n"C" ,"20","eq"ual,"3\t"\n,,,\n')),
            ("debts", DEBTS.replace("B,C,2,3", '"B"," C "," 2",0000000000003\r\n\r\n"","",,')),
            ("journal", made["journal"].replace("rounds,", '"rounds" , ') + ",,\n\n"),
        ]
        for name, text in same:
            self.assertEqual(self.replayed({**made, name: text})[0], 0, text)
            self.assertEqual(self.judged({**made, name: text})[1], 0, text)
        raises = made["journal"].splitlines()
        faulty = [
            ("banks", ""),
            ("banks", "\n"),
            ("banks", ",,\n" + BANKS),
            ("banks", BANKS + "A,0,order,0\n"),
            ("banks", BANKS + "E,1,order\n"),
            ("banks", BANKS + '"E""",1,order,0\n'),
            ("banks", BANKS + "E\x7f,1,order,0\n"),
            ("banks", BANKS + "é" * 33 + ",1,order,0\n"),
            ("banks", BANKS + "E,123456789012345678901,order,0\n"),
            ("banks", BANKS + "".join(f"E{n},0,order,0\n" for n in range(997))),
            ("debts", DEBTS + "A,A,1,1\n"),
            ("debts", DEBTS + "A,C,1,1\n"),
            ("debts", DEBTS + "D,A,1," + "1" * 20 + "\n"),
            ("debts", DEBTS + "".join(f"D,{to},{rank},1000000\n" for to in "ABC" for rank in "3456")),
            ("debts", DEBTS + "x" * 8_400_000),
            ("journal", "\n".join([*raises[:-1], "rounds,1", raises[-1]])),
            ("journal", "\n".join([raises[0], "2,A,B,1,6", "1,A,C,1,4", "x"])),
            ("journal", raises[0] + "\nrounds,,\n"),
            ("journal", raises[0] + "\n1,A,D,1,1\n"),
            ("journal", raises[0] + "\n1,A,B,1\n"),
        ]
        for name, text in faulty:
            lines, status = self.judged({**made, name: text})
            self.assertEqual(self.replayed({**made, name: text})[:2], (4, f"clearing: {lines[0]}"), text[:80])
            self.assertEqual(status, 4)

    def test_the_tool_tells_and_ends(self):
        made = self.made_files(BANKS, DEBTS, "--workers", 1)
        words = self.words(made)
        told = "7 raises lawful\nnobody can pay more\npayments same\ndefaults same\nrounds 3: not checked\n"
        self.assertEqual(self.made("clearing-audit", *words), told)
        self.assertEqual(
            self.made("clearing-audit", *words[:6]),
            told.replace("payments same", "payments: none given").replace("defaults same", "defaults: none given"),
        )
        self.refused("clearing-audit", 3, "cannot read", *words[:5], self.folder / "none.csv")
        self.refused("clearing-audit", 2, "--journal", *words[:4])
        self.file("debts.csv", DEBTS.replace("B,C,2", "B,X,2"))
        self.refused("clearing-audit", 4, "audit.py: debts row 3: unknown bank (8)", *words)
        self.file("debts.csv", DEBTS)
        self.file("payments.csv", made["payments"].replace("A,B,1,6,5", "A,B,1,6,6"))
        done = tool("clearing-audit", *words)
        self.assertEqual((done.returncode, done.stderr), (1, ""))
        self.assertIn(
            "payments differ: line 2 is 'A,B,1,6,6', and by the journal 'A,B,1,6,5'\ndefaults same\n", done.stdout
        )
        self.file("journal.csv", made["journal"].replace("1,A,B,1,4", "1,A,B,1,5"))
        done = tool("clearing-audit", *words)
        self.assertEqual(
            (done.returncode, done.stdout.splitlines()[0]),
            (7, "raise 1 is not lawful: 0 is paid, and its debtor may pay 4"),
        )

    def test_a_division_is_taken_on_where_an_estate_changed(self):
        """Many raises; bench/tools.py times a million."""
        # One unit goes round a ring of ten banks that owe 5,000 each: 50,000 raises, a twentieth of a million.
        banks = "name,cash,rule\n" + "".join(f"R{i},{int(i == 0)},webster\n" for i in range(10))
        debts = "debtor,creditor,class,claim\n" + "".join(f"R{i},R{(i + 1) % 10},1,5000\n" for i in range(10))
        made = self.made_files(banks, debts, "--workers", 1, "--sweeps", 1000)
        with mock.patch.object(audit.Division, "up_to", autospec=True, side_effect=audit.Division.up_to) as divided:
            lines, status = self.judged(made)
        self.assertEqual((lines[0], status), ("50000 raises lawful", 0))
        self.assertLess(divided.call_count, 2.1 * 50_000)

    def test_few_of_millions_of_units_go_out_one_by_one(self):
        net = small_network(random.Random(5), banks=30, debts=600, claims=[16_000], cash=200_000, outside=100)
        raises = raises_of(net)
        single = 0

        def counted(division: Any, turns: Any = audit.Division.one_by_one) -> Iterator[Any]:
            nonlocal single
            for turn in turns(division):
                single += 1
                yield turn

        with mock.patch.object(audit.Division, "one_by_one", counted):
            self.assertEqual(audit.follow(net, raises).kind, "lawful")
        units = sum(max(to for _, x, to in raises if x == debt) for debt in {x for _, x, _ in raises})
        self.assertGreater(units, 1_000_000)
        self.assertLess(single, units / 10)


def small_network(
    chance: random.Random, banks: int, debts: int, claims: Sequence[int], cash: int, outside: int
) -> Any:
    """A network with banks of all six rules, debts in classes 1 to 3 with claims of up to one of these, and outside
    debts."""
    rules = [model.RULES[at % 6] for at in range(banks)]
    rows = [
        audit.Bank(b"N%d" % at, chance.randrange(cash), rule, chance.randrange(outside))
        for at, rule in enumerate(rules)
    ]
    pairs = {}
    for _ in range(debts):
        one, other = chance.sample(range(banks), 2)
        pairs[one, other, chance.choice([1, 1, 2, 3])] = chance.randint(0, chance.choice(claims))
    return audit.Network(rows, [audit.Debt(*pair, claim) for pair, claim in pairs.items()])


def raises_of(net: Any, leaps: bool = True) -> List[Any]:
    """A journal in which all banks pay in turn, as much as they may, until nobody can pay more."""
    dividing, paid, has, raises, stamp = (
        audit.divisions(net, leaps),
        {},
        [bank.cash - bank.outside for bank in net.banks],
        [],
        0,
    )
    while True:
        stamp, before = stamp + 1, len(raises)
        for i, division in enumerate(dividing):
            division.up_to(has[i])
            for x, units in division.given.items():
                if units > paid.get(x, 0):
                    raises.append((stamp, x, units))
                    has[net.debts[x].creditor] += units - paid.get(x, 0)
                    paid[x] = units
        if len(raises) == before:
            return raises


def leaping(rule: Any, debts: Any) -> Any:
    """A division that takes a leap wherever it can, however few units are missing."""
    division = audit.Division(rule, debts)
    division.many = 0
    return division


def first_difference(seed: int, many: int = 300) -> Any:
    """Divides by leaps and one by one, by each rule in turn, up to more and more units; the first case in which the
    two differ."""
    chance = random.Random(seed)
    for case in range(many):
        rule = model.RULES[case % 6]
        claims = [chance.randint(0, chance.choice([1, 4, 30, 200])) for _ in range(chance.randint(1, 7))]
        debts = [(3 * x, audit.Debt(0, 1, chance.choice([1, 1, 1, 2, 9]), claim)) for x, claim in enumerate(claims)]
        plain, quick, usual = (
            audit.Division(rule, debts, leaps=False),
            leaping(rule, debts),
            audit.Division(rule, debts),
        )
        units = 0
        while units <= sum(claims) + 1:
            units += chance.choice([1, 2, 5, max(1, sum(claims) // 3)])
            for division in (plain, quick, usual):
                division.up_to(units)
            if not plain.given == quick.given == usual.given:
                return rule, debts, units
    return None


class TwoWays(Case):
    def test_leaps_and_single_units_give_the_same(self):
        for seed in range(10):
            self.assertIsNone(first_difference(seed))

    def test_single_units_are_those_of_the_plain_model(self):
        chance = random.Random(3)
        for case in range(120):
            rule = model.RULES[case % 6]
            claims = tuple(chance.randint(0, 9) for _ in range(chance.randint(1, 5)))
            classes = tuple(chance.choice([1, 1, 2]) for _ in claims)
            for units in range(sum(claims) + 2):
                division = audit.Division(
                    rule, [(x, audit.Debt(0, 1, *pair)) for x, pair in enumerate(zip(classes, claims))], False
                )
                division.up_to(units)
                self.assertEqual(
                    list(division.given.values()), model.share(rule, claims, classes, units), (rule, claims)
                )
        model.forget()

    def test_a_wrong_leap_is_found(self):
        level, webster = audit.below_equal, audit.BELOW["webster"]
        raised = lambda claims, units: [
            share + (share < claim) for share, claim in zip(level(claims, units), claims)
        ]
        wrong = {
            "equal": [raised, lambda claims, units: [units // len(claims)] * len(claims)],
            "losses": [
                level,
                lambda claims, units: [max(0, c - p) for c, p in zip(claims, level(claims, sum(claims) - units))],
            ],
            "jefferson": [audit.below_divisor(1, 2), audit.below_divisor(0, 1)],
            "webster": [audit.below_divisor(1, 1), lambda claims, units: webster(claims[::-1], units)],
            "adams": [
                audit.below_divisor(1, 1),
                lambda claims, units: [units * claim // sum(claims) for claim in claims],
            ],
        }
        self.assertEqual(wrong.keys(), audit.BELOW.keys())
        for rule, below in [(rule, below) for rule in wrong for below in wrong[rule]]:
            with mock.patch.dict(audit.BELOW, {rule: below}):
                found = [first_difference(seed) for seed in range(10)]
            self.assertTrue(any(case and case[0] == rule for case in found), rule)

    def test_verdicts_are_the_same_both_ways(self):
        kinds = set()
        for seed in range(60):
            chance = random.Random(seed)
            net = small_network(
                chance,
                banks=chance.randint(2, 12),
                debts=chance.randint(1, 40),
                claims=[3, 60, 400],
                cash=chance.choice([5, 300]),
                outside=chance.choice([1, 100]),
            )
            raises = raises_of(net)
            self.assertEqual(raises, raises_of(net, leaps=False))
            journals = [
                raises,
                raises[:-1],
                *(
                    [*raises[:at], (stamp, x, to + more), *raises[at + 1 :]]
                    for at, (stamp, x, to) in itertools.islice(enumerate(raises), 0, None, 7)
                    for more in (-1, 1)
                ),
            ]
            for journal in journals:
                quick, plain = audit.follow(net, journal), audit.follow(net, journal, leaps=False)
                self.assertEqual(quick, plain)
                kinds.add(quick.kind)
            verdict, _, paid = model.verdict(
                model.Net(
                    [model.Bank(b.name.decode(), *b[1:]) for b in net.banks], [model.Debt(*debt) for debt in net.debts]
                ),
                raises,
            )
            self.assertEqual((verdict, paid), (f"lawful,{len(raises)}\n", audit.follow(net, raises).paid))
        self.assertLessEqual({"lawful", "unlawful", "unfinished"}, kinds)


# What neither checker can notice. Rules that share in the same way here, or of a bank that pays all or has one debt;
# stamps that do not fall; an amount that a later raise of the debt passes, where it stays lawful; the number of
# rounds.
UNNOTICED = {
    *(("banks", 1, 2, rule) for rule in ("jefferson", "adams")),
    *(("banks", row, 2, rule) for row in (2, 3, 4, 5) for rule in model.RULES),
    *(("journal", row, 0, str(stamp)) for row in range(1, 8) for stamp in (row - 1, row + 1)),
    ("journal", 3, 4, "2"),
    *(("journal", 8, 1, rounds) for rounds in ("4", "999999")),
} - {("banks", 2, 2, "order"), ("banks", 3, 2, "equal"), ("banks", 4, 2, "adams"), ("banks", 5, 2, "losses")}

# What a replay alone does not notice, but the tables do: the tables have these numbers, and the division does not use
# them. Cash and outside claims of a bank that pays all nevertheless; the claim of a bank that divides as before; any
# field of a debt that is paid nothing; the name of a bank without debts.
UNNOTICED_BY_REPLAY = {
    *(("banks", 3, 1, cash) for cash in ("19", "21")),
    *(("banks", 3, 3, outside) for outside in ("2", "4")),
    *(("banks", 4, at, "1") for at in (1, 3)),
    *(("banks", 5, 0, name) for name in ("Z", "Ea")),
    *(("banks", 5, 1, cash) for cash in ("0", "1", "3")),
    ("banks", 5, 3, "1"),
    ("debts", 1, 3, "7"),
    *(("debts", 3, 3, claim) for claim in ("4", "6")),
    *(("debts", 6, at, field) for at, field in [(0, "B"), (1, "B"), (1, "C"), (2, "9"), (3, "0"), (3, "2"), (3, "4")]),
}

if __name__ == "__main__":
    import unittest

    unittest.main()
