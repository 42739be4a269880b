"""The numbers of a state at the desk are those of the program, for the files that the state leads to."""
import shlex
import unittest

from common import PROGRAM, ROOT, TWELVE, clearing, files_of
from desk import SCENARIOS, DeskCase, standings, wrapped


class Numbers(DeskCase):
    def test_a_state_has_the_numbers_of_the_program(self):
        desk = self.desk(None, "--scenarios", SCENARIOS)
        self.assertEqual(self.held(desk.see("/state/0")), [row[1:] for row in standings("defaults", *files_of(TWELVE))])
        for cut in ("1", "437", "1000"):
            shock = self.file("s.toml", f'[[scenario]]\nname = "s"\ncut = {cut}\n')
            view = desk.change(0, set="cut", value=cut)
            self.assertEqual(view["cut"], int(cut))
            self.assertEqual(
                self.held(view), [row[1:] for row in standings("stress", *files_of(TWELVE), "--scenarios", shock)]
            )
        for number in (1, 2, 3):
            view = desk.change(0, set="scenario", value=number)
            text = (
                clearing("stress", *files_of(TWELVE), "--scenarios", SCENARIOS)
                .stdout.decode()
                .split("\n\nscenario,")[number - 1]
            )
            table = text[text.index("\nbank,") + 1 :].split("\n")
            self.assertEqual(self.held(view), [line.split(",")[1:] for line in table[1:13]])
        view = desk.change(0, set="keep", value="640")
        rows = standings("costs", *files_of(TWELVE), "--keep", "640")
        self.assertEqual(
            [
                [str(view[key][at]) for key in ("estate", "lost", "outsidePaid", "paid", "equity", "state")]
                for at in range(12)
            ],
            [row[1:] for row in rows],
        )
        self.assertIsNone(desk.see("/state/0")["greatest"])

    def test_where_default_costs_both_ends_are_those_of_the_program(self):
        outside = self.net(
            "A,30,order,9\nB,30,webster,0\nC,5,equal,20\n", "A,B,1,100\nB,A,1,100\nB,C,2,9\n", "name,cash,rule,outside"
        )
        for files, keep in (
            (files_of(ROOT / "examples/core"), 800),
            (files_of(ROOT / "examples/gridlock"), 500),
            (outside, 500),
            (outside, 0),
        ):
            view = self.desk(files).change(0, set="keep", value=str(keep))
            rows, least = standings("cost-bounds", *files, "--keep", keep), standings("costs", *files, "--keep", keep)
            keys = ("estate", "lost", "outsidePaid", "paid", "equity", "state")
            self.assertEqual(
                [[str(view[key][at]) for key in keys] for at in range(len(rows))], [row[1:] for row in least]
            )
            greatest = view["greatest"]
            self.assertEqual(
                [[str(greatest[key][at]) for key in ("lost", "equity", "state")] for at in range(len(rows))],
                [row[4:] for row in rows],
            )
            debts = [
                line.split(",")
                for line in clearing("cost-bounds", *files, "--keep", keep)
                .stdout.decode()
                .partition("\n\n")[0]
                .split("\n")[1:]
            ]
            paid = [sum(int(debt[5]) for debt in debts if debt[0] == row[0]) for row in rows]
            received = [sum(int(debt[5]) for debt in debts if debt[1] == row[0]) for row in rows]
            self.assertEqual(greatest["paid"], paid)
            self.assertEqual(greatest["estate"], [cash + got for cash, got in zip(view["left"], received)])
            for at, state in enumerate(greatest["state"]):
                lost, outside_paid = greatest["lost"][at], greatest["outsidePaid"][at]
                self.assertEqual(greatest["estate"][at], lost + outside_paid + paid[at] + greatest["equity"][at])
                self.assertTrue(
                    0 <= outside_paid <= view["outside"][at]
                    and (state != "sound" or outside_paid == view["outside"][at])
                )

    def test_changes_of_banks_and_debts_are_cleared_as_files_that_have_them(self):
        banks, debts = (TWELVE / "banks.csv").read_text().splitlines(), (TWELVE / "debts.csv").read_text().splitlines()
        desk = self.desk()
        first = debts[1].split(",")
        steps = [
            (
                {"set": "bank", "bank": 3, "field": "cash", "value": " 0077 "},
                lambda: banks.__setitem__(4, "Dunmore,77,jefferson"),
            ),
            (
                {"set": "bank", "bank": 3, "field": "rule", "value": "equal"},
                lambda: banks.__setitem__(4, "Dunmore,77,equal"),
            ),
            (
                {"set": "claim", "debt": 0, "value": "12345"},
                lambda: debts.__setitem__(1, ",".join([*first[:3], "12345"])),
            ),
            ({"set": "strike", "debt": 5}, lambda: debts.pop(6)),
            (
                {"set": "add", "debtor": "Kemi", "creditor": "Isar", "class": "9", "claim": "999"},
                lambda: debts.append("Kemi,Isar,9,999"),
            ),
            ({"set": "claim", "debt": 40, "value": "7"}, lambda: debts.__setitem__(-1, "Kemi,Isar,9,7")),
            ({"set": "strike", "debt": 40}, lambda: debts.pop()),
        ]
        at = 0
        for change, alter in steps:
            alter()
            view = desk.change(at, **change)
            at = view["id"]
            files = [
                "--banks",
                self.file("b.csv", "\n".join(banks) + "\n"),
                "--debts",
                self.file("d.csv", "\n".join(debts) + "\n"),
            ]
            self.assertEqual(self.held(view), [row[1:] for row in standings("defaults", *files)], change)
            self.assertEqual(desk.see(f"/take/{at}/debts").decode().splitlines(), debts)
            self.assertEqual(desk.see(f"/take/{at}/banks").decode().splitlines(), banks)
        self.assertEqual(desk.see(f"/state/{at}")["line"], list(range(len(steps) + 1)))

    def test_a_change_back_is_the_state_as_it_is(self):
        desk = self.desk()
        self.assertEqual(desk.change(0, set="cut", value="0")["id"], 0)
        struck = desk.change(0, set="strike", debt=2)["id"]
        self.assertEqual(
            self.held(desk.change(struck, set="strike", debt=2, again=True)), self.held(desk.see("/state/0"))
        )

    def test_what_is_owed_outside_is_cleared_too(self):
        files = self.net("A,3,order\nB,10,webster\nC,50,equal\n", "A,B,1,8\nB,C,1,5\nC,A,1,4\n")
        view = self.desk(files).change(0, set="bank", bank=0, field="outside", value="9")
        other = self.net(
            "A,3,order,9\nB,10,webster,0\nC,50,equal,0\n", "A,B,1,8\nB,C,1,5\nC,A,1,4\n", "name,cash,rule,outside"
        )
        rows = standings("defaults", *other)
        self.assertEqual(
            [
                [str(view[key][at]) for key in ("estate", "outsidePaid", "paid", "owed", "equity", "state")]
                for at in range(3)
            ],
            [row[1:] for row in rows],
        )

    def test_a_number_that_does_not_agree_is_told(self):
        # A program whose bounds are of another network, or whose stress takes another cut.
        others = self.file("o.csv", (TWELVE / "banks.csv").read_text().replace("1500001", "1400001"))
        shock = self.file("s.toml", '[[scenario]]\nname = "s"\ncut = 9\n')
        for task, words in (("bounds", f'--banks={others} "$3"'), ("stress", f'"$2" "$3" --scenarios={shock}')):
            program = wrapped(self, f"case $1 in {task}) exec {shlex.quote(PROGRAM)} {task} {words};; esac")
            desk = self.desk(program=program)
            self.assertIn("clearing stress", desk.change(0, 502, set="cut", value="100")["said"])


if __name__ == "__main__":
    unittest.main()
