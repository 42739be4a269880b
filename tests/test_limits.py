"""The limits of networks, by the printed bytes of the program: where the standard ones end and where the wide ones
do, that a network within the standard limits has the same answers by both, and that `--limits` is a word of each task
that reads files."""
import itertools
import unittest
from typing import Any, List, Sequence, Tuple

from common import CHAIN, EXAMPLES, TWELVE, Case, Word, clearing, files_of

BANKS, DEBTS = b"name,cash,rule\n", b"debtor,creditor,class,claim\n"
WIDE, USAGE = ("--limits", "wide"), b"clearing: the command line is not understood\n"
MILLION = 1_000_000


def some_banks(count: int) -> bytes:
    """A banks file of so many banks."""
    return BANKS + b"".join(b"%d,0,order\n" % bank for bank in range(count))


def some_debts(count: int, size: int) -> bytes:
    """A debts file of so many debts of no unit between so many banks."""
    names = [b"%d" % bank for bank in range(size)]
    pairs = (
        b"%b,%b,%d,0\n" % (one, other, cls)
        for cls in range(1, 10)
        for one in names
        for other in names
        if one is not other
    )
    return DEBTS + b"".join(itertools.islice(pairs, count))


def claims_of(claims: Sequence[int]) -> Tuple[bytes, bytes]:
    """A banks file of ten banks, and a debts file with these claims between two of them each."""
    keys = [(one, other, cls) for cls in range(1, 10) for one in range(10) for other in range(10) if one != other]
    return some_banks(10), DEBTS + b"".join(b"%d,%d,%d,%d\n" % (*key, claim) for key, claim in zip(keys, claims))


class Rows(Case):
    def asked(self, banks: bytes, debts: bytes, *words: Word, task: str = "check") -> Tuple[int, bytes, str]:
        """The status, the first lines of the output, and the message of a run on two files."""
        done = clearing(
            task, "--banks", self.file("banks.csv", banks), "--debts", self.file("debts.csv", debts), *words
        )
        return done.returncode, done.stdout, done.stderr.decode()

    def refused(self, message: str, banks: bytes, debts: bytes, *words: Word, task: str = "check") -> None:
        """A run refuses a file with a message."""
        told = self.asked(banks, debts, *words, task=task)
        self.assertEqual((told[0], told[1][:100], told[2]), (4, b"", f"clearing: {message}\n"), (task, words))

    def accepted(self, counts: Any, banks: bytes, debts: bytes, *words: Word) -> None:
        """A run of `check` takes the files, and begins with these lines."""
        status, output, message = self.asked(banks, debts, *words)
        self.assertEqual((status, output.partition(b"\n\n")[0].decode(), message), (0, counts, ""), words)

    def both(self, message: str, counts: Any, banks: bytes, debts: bytes) -> None:
        """What the standard limits refuse with a message, said or not, and the wide ones take."""
        self.refused(message, banks, debts)
        self.refused(message, banks, debts, "--limits", "standard")
        self.accepted(counts, banks, debts, *WIDE)

    def test_banks(self):
        self.accepted("banks,1000\ndebts,0\nowed,0\ncash,0", some_banks(1000), DEBTS)
        self.both("banks row 1001: too many (12)", "banks,1001\ndebts,0\nowed,0\ncash,0", some_banks(1001), DEBTS)
        self.accepted("banks,10000\ndebts,0\nowed,0\ncash,0", some_banks(10_000), DEBTS, *WIDE)
        self.refused("banks row 10001: too many (12)", some_banks(10_001), DEBTS, *WIDE)

    def test_debts(self):
        banks = some_banks(200)
        self.accepted("banks,200\ndebts,20000\nowed,0\ncash,0", banks, some_debts(20_000, 200))
        self.both(
            "debts row 20001: too many (12)", "banks,200\ndebts,20001\nowed,0\ncash,0", banks, some_debts(20_001, 200)
        )

    def test_a_million_debts(self):
        banks, debts = some_banks(400), some_debts(MILLION + 1, 400)
        self.refused("debts row 0: file size (14)", banks, debts)
        self.refused("debts row 1000001: too many (12)", banks, debts, *WIDE)
        self.accepted(
            f"banks,400\ndebts,{MILLION}\nowed,0\ncash,0", banks, debts[: debts.rindex(b"\n", 0, -1) + 1], *WIDE
        )

    def test_units_owed(self):
        self.accepted("banks,10\ndebts,10\nowed,10000000\ncash,0", *claims_of([MILLION] * 10))
        self.both("debts row 11: total (13)", "banks,10\ndebts,25\nowed,25000000\ncash,0", *claims_of([MILLION] * 25))
        self.both(
            "debts row 11: total (13)", "banks,10\ndebts,11\nowed,10000001\ncash,0", *claims_of([MILLION] * 10 + [1])
        )
        self.refused("debts row 26: total (13)", *claims_of([MILLION] * 25 + [1]), *WIDE)

    def test_a_claim(self):
        for words in ((), ("--limits", "standard"), WIDE):
            self.refused("debts row 1: limit (6)", *claims_of([MILLION + 1]), *words)

    def test_bytes_of_a_file(self):
        counts, most = "banks,2\ndebts,0\nowed,0\ncash,0", 8_388_608
        long = some_banks(2).ljust(most, b"\n")
        self.accepted(counts, long, DEBTS)
        self.both("banks row 0: file size (14)", counts, long + b"\n", DEBTS)
        self.both("debts row 0: file size (14)", counts, some_banks(2), DEBTS.ljust(most + 1, b"\n"))
        longest = some_banks(2).ljust(20 * most, b"\n")
        self.accepted(counts, longest, DEBTS, *WIDE)
        self.refused("banks row 0: file size (14)", longest + b"\n", DEBTS, *WIDE)

    def test_scenarios_have_one_limit(self):
        files = files_of(CHAIN)
        long = self.file("s.toml", b"#" * 8_388_608 + b"\n")
        for words in ((), WIDE):
            for task in ("stress", "outcomes"):
                done = clearing(task, *files, "--scenarios", long, *words)
                self.assertEqual((done.returncode, done.stderr), (4, b"clearing: scenarios row 0: file size (14)\n"))
        many = self.file("s.toml", "".join(f'[[scenario]]\nname = "{number}"\n' for number in range(101)))
        done = clearing("outcomes", *files, "--scenarios", many, *WIDE)
        self.assertEqual((done.returncode, done.stderr), (4, b"clearing: scenarios row 101: too many (12)\n"))

    def test_a_journal_of_ten_million_raises_and_one(self):
        """One unit goes round two banks in five classes, and in a sixth it stays. It is more than is owed within the
        standard limits, which refuse the debts; of a network within them a journal of as many raises has one too
        many."""
        one_class = b"".join(b"1,A,B,1,%d\n1,B,A,1,%d\n" % (to, to) for to in range(1, MILLION + 1))
        head, body = b"stamp,debtor,creditor,class,to\n", b"".join(
            one_class.replace(b",1,", b",%d," % cls) for cls in range(1, 6)
        )
        journal = self.file("journal.csv", head + body + b"1,A,B,6,1\n")
        debts = DEBTS + b"".join(b"A,B,%d,1000000\nB,A,%d,1000000\n" % (cls, cls) for cls in range(1, 6))
        banks, more = BANKS + b"A,1,order\nB,0,order\n", ("--journal", journal)
        self.refused("journal row 10000001: too many (12)", banks, debts, *more, task="replay")
        self.refused("debts row 11: total (13)", banks, debts + b"A,B,6,1\n", *more, task="replay")
        status, output, message = self.asked(banks, debts + b"A,B,6,1\n", *more, *WIDE, task="replay")
        first = "lawful,10000001\n\ndebtor,creditor,class,claim,paid\nA,B,1,1000000,1000000\n"
        self.assertEqual(
            (status, output[: len(first)].decode(), output[-11:], message), (0, first, b"\nA,B,6,1,1\n", "")
        )


class Large(Case):
    """A network of 400 banks and 120,000 debts by the rule `order`. It is large enough that threads make what each
    worker keeps, that lists of raises are moved and not copied, and that the lines of each scenario do not fit into
    the room through which they are written.
    """

    BANKS, OWED = 400, 300

    @classmethod
    def setUpClass(cls):
        cls.cash = [bank * 7919 % 4000 if bank % 3 else 0 for bank in range(cls.BANKS)]
        cls.rows = [
            [((bank + 1 + 97 * k) % cls.BANKS, 1 + (bank * 31 + k * 17) % 48) for k in range(cls.OWED)]
            for bank in range(cls.BANKS)
        ]

    def setUp(self):
        super().setUp()
        banks = "".join(f"B{bank},{cash},order\n" for bank, cash in enumerate(self.cash))
        debts = "".join(f"B{bank},B{to},1,{claim}\n" for bank, row in enumerate(self.rows) for to, claim in row)
        self.files = [
            "--banks",
            self.file("banks.csv", BANKS.decode() + banks),
            "--debts",
            self.file("debts.csv", DEBTS.decode() + debts),
            *WIDE,
        ]

    def least(self, cash: List[int]) -> List[int]:
        """What is paid on each debt at least, bank by bank: from no payment on, all banks pay again until nothing
        changes."""
        receipts, paid = [0] * self.BANKS, []
        while True:
            before, paid = paid, []
            for has, row in zip(map(int.__add__, cash, receipts), self.rows):
                left = has
                for _, claim in row:
                    paid.append(min(claim, left))
                    left -= paid[-1]
            if paid == before:
                return paid
            receipts = [0] * self.BANKS
            for (to, _), units in zip((debt for row in self.rows for debt in row), paid):
                receipts[to] += units

    def lines(self, cash: List[int]) -> List[str]:
        """The lines of payments of this network with other cash."""
        debts = (f"B{bank},B{to},1,{claim}" for bank, row in enumerate(self.rows) for to, claim in row)
        return [f"{debt},{units}" for debt, units in zip(debts, self.least(cash))]

    def test_any_number_of_workers_prints_the_least_payments(self):
        wanted = self.lines(self.cash)
        self.assertGreater(sum(line.endswith(",0") for line in wanted), 500)
        for words in (["central"], *(["clear", "--workers", count] for count in (1, 2, 3, 4, 31, 64))):
            done = clearing(*words, *self.files)
            lines = done.stdout.decode().splitlines()
            self.assertEqual(
                (done.returncode, done.stderr, lines[1 : 1 + len(wanted)] == wanted), (0, b"", True), words
            )

    def test_a_journal_of_four_workers_is_lawful(self):
        journal = self.file("journal.csv", clearing("clear", "--workers", 4, "--show", "journal", *self.files).stdout)
        done = clearing("replay", "--journal", journal, *self.files)
        lines = done.stdout.decode().splitlines()
        self.assertEqual(
            (done.returncode, lines[0][:7], lines[3 : 3 + self.BANKS * self.OWED] == self.lines(self.cash)),
            (0, "lawful,", True),
        )

    def test_each_scenario_has_its_own_lines(self):
        """More scenarios than threads, in file order, some of which take one bank's cash and some a part of all."""
        toml, shocks = [], [(0, None), (250, None), (0, 1), (1000, None), (300, 2), (0, 5), (100, None)]
        for number, (cut, bank) in enumerate(shocks):
            toml.append(f'[[scenario]]\nname = "shock {number}"\ncut = {cut}\n')
            if bank is not None:
                toml.append(f'[[scenario.loss]]\nbank = "B{bank}"\namount = {self.cash[bank]}\n')
        done = clearing("stress", "--scenarios", self.file("scenarios.toml", "".join(toml)), *self.files)
        self.assertEqual((done.returncode, done.stderr), (0, b""))
        blocks = done.stdout.decode().split("\n\nscenario,")
        self.assertEqual(len(blocks), len(shocks))
        for number, ((cut, bank), block) in enumerate(zip(shocks, blocks)):
            left = [0 if place == bank else cash - cash * cut // 1000 for place, cash in enumerate(self.cash)]
            lines = block.splitlines()
            at = lines.index("debtor,creditor,class,claim,paid") + 1
            self.assertIn(f"shock {number}", lines[0])
            self.assertEqual(lines[at : at + self.BANKS * self.OWED] == self.lines(left), True, number)


class Words(Case):
    def test_it_is_a_word_of_each_task_that_reads_files(self):
        files, toml = files_of(TWELVE), TWELVE / "scenarios.toml"
        journal = self.file("journal.csv", clearing("clear", *files, "--show", "journal").stdout)
        more = {
            "stress": ("--scenarios", toml),
            "outcomes": ("--scenarios", toml),
            "costs": ("--keep", 900),
            "cost-bounds": ("--keep", 900),
            "rescue": ("--bank", "Alster"),
            "replay": ("--journal", journal),
        }
        tasks = (
            "check clear central defaults stress replay convert bounds rescue compress costs breaking impact rescues"
            " outcomes cost-bounds"
        )
        for task in tasks.split():
            words = [task, *files, *more.get(task, ())]
            plain = clearing(*words)
            self.assertEqual((plain.returncode, plain.stderr), (0, b""), task)
            for limits in ("standard", "wide"):
                for said in (["--limits", limits], [f"--limits={limits}"]):
                    done = clearing(*words, *said)
                    self.assertEqual(
                        (done.returncode, done.stdout == plain.stdout, done.stderr), (0, True, b""), (task, said)
                    )

    def test_words_that_are_none(self):
        check = ["check", *files_of(CHAIN)]
        faulty = [[*check, "--limits", word] for word in ("big", "", "Wide", "wide ", "standard,wide", "1", "-")]
        faulty += [
            [*check, "--limits"],
            [*check, *WIDE, *WIDE],
            [*check, *WIDE, "--limits=standard"],
            ["wide", *check],
            [*check, "--limit", "wide"],
        ]
        faulty += [["gen", "--seed", 1, "--size", 3, "--tries", 3, "--limits", word] for word in ("standard", "wide")]
        for words in faulty:
            done = clearing(*words)
            self.assertEqual((done.returncode, done.stdout, done.stderr), (2, b"", USAGE), words)

    def test_examples_have_the_same_answers_by_both(self):
        for example in EXAMPLES:
            for task in (
                "check",
                "clear --workers 1",
                "central",
                "defaults",
                "bounds",
                "compress",
                "convert",
                "breaking",
                "impact",
                "rescues",
            ):
                words = [*task.split(), *files_of(example)]
                self.assertEqual(clearing(*words, *WIDE).stdout, clearing(*words).stdout, words)


if __name__ == "__main__":
    unittest.main()
