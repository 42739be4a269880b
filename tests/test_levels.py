"""A large estate is divided soon and in turn: among one large claim and 998 small ones, of 9.9 million units in all,
by each rule that looks for a level. What is printed is held against the rule itself: no unit that is left out has its
turn before one that is given."""
import fractions
import resource
import subprocess
import unittest

from common import PROGRAM, Case

# One claim of the greatest size among small ones of many sizes.
CLAIMS = [8_891 + 37 * place % 53 for place in range(998)]
CLAIMS.insert(500, 1_000_000)
ALL = sum(CLAIMS)
# A division takes milliseconds.
SECONDS = 2


def limited() -> None:
    """Ends a run that takes many times what a division does."""
    resource.setrlimit(resource.RLIMIT_CPU, (SECONDS, SECONDS))


def turn_of(rule: str, claim: int, units: int, place: int) -> tuple[fractions.Fraction, int]:
    """When a claim has its turn for one unit more than these: the lesser is the earlier, and at a tie the earlier
    debt."""
    above, below = {
        "equal": (units, 1),
        "losses": (units - claim, 1),
        "jefferson": (units + 1, claim),
        "webster": (2 * units + 1, claim),
        "adams": (units, claim),
    }[rule]
    return fractions.Fraction(above, below), place


class Levels(Case):
    def paid(self, rule: str, estate: int) -> list[int]:
        """What a bank with this estate pays on each of the claims, as the program prints it."""
        banks = [f"A,{estate},{rule}", *(f"N{place},0,order" for place in range(999))]
        debts = [f"A,N{place},1,{claim}" for place, claim in enumerate(CLAIMS)]
        files = [
            "--banks",
            self.file("banks.csv", "\n".join(["name,cash,rule", *banks])),
            "--debts",
            self.file("debts.csv", "\n".join(["debtor,creditor,class,claim", *debts])),
        ]
        done = subprocess.run(
            [PROGRAM, "clear", *files],
            stdin=subprocess.DEVNULL,
            capture_output=True,
            encoding="utf-8",
            preexec_fn=limited,
        )
        self.assertEqual((done.returncode, done.stderr), (0, ""))
        return [int(line.rpartition(",")[2]) for line in done.stdout.splitlines()[1:]]

    def test_large_estates_are_divided_soon_and_in_turn(self) -> None:
        self.assertTrue(9_890_000 < ALL < 10_000_000)
        for rule in ("equal", "losses", "jefferson", "webster", "adams"):
            for estate in (998, ALL // 3, 9_000_001, ALL - 1):
                with self.subTest(rule=rule, estate=estate):
                    paid = self.paid(rule, estate)
                    self.assertEqual((len(paid), sum(paid)), (len(CLAIMS), estate))
                    both = list(enumerate(zip(CLAIMS, paid)))
                    given = [turn_of(rule, claim, units - 1, place) for place, (claim, units) in both if units > 0]
                    left = [turn_of(rule, claim, units, place) for place, (claim, units) in both if units < claim]
                    self.assertLess(max(given), min(left))


if __name__ == "__main__":
    unittest.main()
