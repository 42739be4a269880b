"""What is asked of a bank at the desk is what the tools and the package say, and a question is stopped."""
import pathlib
import random
import time
import unittest
from typing import Any, Dict, List, Optional, Tuple

from common import TWELVE, files_of, records
from desk import SCENARIOS, DeskCase, Running, standings, wrapped

from clearing_client import Network, unsteady
from clearing_client.case import Case as Folder
from clearing_tools.desk import questions, state as states
from clearing_tools.desk.runs import Desk as Table, Place, Runs, base_of


def grouped(rows: List[List[str]]) -> Dict[str, List[str]]:
    """The second fields of records by their first ones."""
    groups: Dict[str, List[str]] = {}
    for first, second, *_ in rows:
        groups.setdefault(first, []).append(second)
    return groups


class Questions(DeskCase):
    def test_the_rescue_of_a_bank_and_whom_it_saves_are_those_of_the_tool(self):
        desk, saves = self.desk(), self.file("saves.csv")
        self.made("clearing-rescues", *files_of(TWELVE), "--output", self.file("o.csv"), "--saved", saves)
        saved = grouped(records(saves.read_text()))
        self.assertTrue(saved)
        names = desk.see("/network")["names"]
        for at, name in enumerate(names):
            rescue = int(self.printed("rescue", *files_of(TWELVE), "--bank", name).split("\n")[0].split(",")[2])
            one, every = desk.answer(0, "rescue", at)
            self.assertEqual(one["added"], rescue)
            own = [(row[1], [names[other] for other in row[2]]) for row in every["rows"] if row[0] == at]
            self.assertEqual(own, [(rescue, saved.get(name, []))] if rescue else [], name)

    def test_the_cut_at_which_each_bank_falls_is_that_of_the_tool(self):
        desk = self.desk()
        breaking = dict(line.split(",", 1) for line in self.made("clearing-breaking", *files_of(TWELVE)).splitlines())
        broken = self.broken(desk, 0)
        for at, name in enumerate(desk.see("/network")["names"]):
            cut, state = broken[at]
            self.assertEqual(f"{1001 if cut is None else cut},{state}", breaking[name])

    def test_the_ruin_of_a_bank_and_of_all_at_once_is_that_of_the_tool(self):
        desk, fallen = self.desk(), self.file("fallen.csv")
        impact = {row[0]: row[1:] for row in records(self.made("clearing-impact", *files_of(TWELVE)))}
        self.made("clearing-impact", *files_of(TWELVE), "--ranking", self.file("r.csv"), "--defaults", fallen)
        others = grouped([row for row in records(fallen.read_text()) if row[0] != row[1]])
        names = desk.see("/network")["names"]
        for at, name in enumerate(names):
            [ruin] = desk.answer(0, "ruin", at)
            harm = [*(str(ruin[key]) for key in ("cash", "own", "others")), str(len(ruin["fallen"]))]
            self.assertEqual(harm, impact[name])
            self.assertEqual([names[other] for other in ruin["fallen"]], others.get(name, []))
        [ruins] = desk.answer(0, "ruin")
        self.assertEqual([[str(part) for part in row[1:]] for row in ruins["rows"]], [impact[name] for name in names])
        falls = {names[int(at)]: [names[other] for other in of] for at, of in ruins["falls"].items()}
        self.assertEqual(falls, others)

    def broken(self, desk: Running, state: int) -> Dict[int, Tuple[Optional[int], str]]:
        """The cut that breaks each bank, and how it stands then, by the bank's place."""
        return {at: (cut, how) for piece in desk.answer(state, "breaking") for at, cut, how in piece["exact"]}

    def test_a_breaking_cut_comes_on_top_of_what_a_scenario_takes(self):
        desk = self.desk(None, "--scenarios", SCENARIOS)
        at = desk.change(0, set="scenario", value=3)["id"]
        losses = "".join(
            f'[[scenario.loss]]\nbank = "{desk.see("/network")["names"][bank]}"\namount = {amount}\n'
            for bank, amount in desk.see(f"/state/{at}")["losses"]
        )
        self.assertTrue(losses)
        for bank in (0, 5, 9):
            breaks, how = self.broken(desk, at)[bank]
            states = []
            for cut in (breaks - 1, breaks):
                shock = self.file("s.toml", f'[[scenario]]\nname = "s"\ncut = {cut}\n{losses}')
                states.append(standings("stress", *files_of(TWELVE), "--scenarios", shock)[bank][-1])
            self.assertEqual(states, ["sound", how])

    def test_a_bank_of_any_name_is_asked_for(self):
        files = self.net("-A,1,order\n=B,0,order\n", "-A,=B,1,5\n")
        desk = self.desk(files)
        self.assertEqual([piece["rows"] for piece in desk.answer(0, "rescue", 0)], [[[0, 4, []]]])
        self.assertEqual(desk.answer(0, "rescue", 1)[0]["added"], 0)
        self.assertEqual(desk.answer(0, "ruin", 1)[0]["others"], 0)

    def test_a_question_is_stopped_and_asked_once(self):
        desk = self.desk(program=wrapped(self, "case $1 in rescues) sleep 30;; esac"))
        number = desk.post("/ask", state=0, what="rescue", bank=8)["question"]
        self.assertEqual(desk.post("/ask", state=0, what="rescue", bank=8)["question"], number)
        self.until(lambda: desk.see(f"/question/{number}/0")["come"] == 1)
        found = desk.see(f"/question/{number}/0")
        self.assertEqual(
            (found["pieces"], found["of"], found["ended"]), ([{"kind": "one", "bank": 8, "added": 400000}], 2, False)
        )
        begun = time.monotonic()
        desk.post("/stop", question=number)
        self.until(lambda: desk.see(f"/question/{number}/0")["ended"])
        self.assertLess(time.monotonic() - begun, 20)
        found = desk.see(f"/question/{number}/1")
        self.assertEqual((found["pieces"], found["come"], found["stopped"], found["fault"]), ([], 1, True, ""))
        # All else goes on, and it can be asked again.
        self.assertEqual(desk.change(0, set="cut", value="5")["id"], 1)
        self.assertNotEqual(desk.post("/ask", state=0, what="rescue", bank=8)["question"], number)


class OneUnit(DeskCase):
    def test_banks_that_one_unit_decides_are_those_of_the_package(self):
        chosen, decided, steady, stuck = random.Random(5), 0, 0, 0
        runs = Runs(str(self.folder))
        for number in range(40):
            names = "ABCDE"
            files = self.net(
                "".join(f"{name},{chosen.randrange(4)},order\n" for name in names),
                "".join(
                    f"{one},{other},{chosen.randrange(1, 3)},{chosen.randrange(1, 5)}\n"
                    for one in names
                    for other in names
                    if one != other and chosen.random() < 0.4
                ),
            )
            desk = Table(runs, base_of(runs, str(files[1]), str(files[3]), None), Folder())
            state = states.State(cut=str(chosen.choice([0, 0, 400])))
            with Place(runs) as place:
                *_, (last, _) = questions.unit_pieces(desk, questions.OwnRuns(runs), place, state, None)
                taken = [pathlib.Path(word.partition("=")[2]) for word in desk.files(place, state)]
                found = [names[bank] for bank in last["banks"]]
                self.assertEqual(found, unsteady(Network(*taken)), number)
            decided, steady = decided + len(found), steady + len(names) - len(found)
            stuck += sum(bank.state == "gridlock" for bank in desk.cleared(state).banks)
        self.assertGreater(min(decided, steady), 30)
        self.assertGreater(stuck, 0)

    def test_one_unit_decides_where_default_costs_and_in_another_case(self):
        other = self.folder / "other"
        other.mkdir()
        (other / "banks.csv").write_text("name,cash,rule\nA,1,order\nB,1,order\nC,0,order\n")
        (other / "debts.csv").write_text("debtor,creditor,class,claim\nA,B,1,1\nB,C,1,2\n")
        # Where a bank in default keeps half, A pays B 2 of 9, and in units of half the worth 5 of 18.
        files = self.net("A,5,order\nB,0,order\nC,0,order\n", "A,B,1,9\nB,C,1,2\n")
        desk = self.desk(files, "--against", other)
        self.assertEqual(desk.answer(0, "unit")[-1]["banks"], [])
        at = desk.change(0, set="keep", value="500")["id"]
        self.assertEqual(desk.answer(at, "unit")[-1]["banks"], [1])
        self.assertEqual(self.by_costs(files, 500), [1])
        self.assertEqual(desk.answer(0, "unit", case=1)[-1]["banks"], [1, 2])
        # Amounts twice as large come to 18 million units, for which the wide limits have room: half the unit alone
        # moves B.
        large = "".join(f"E,C,{at},500000\nE,D,{at},500000\n" for at in range(1, 10))
        banks = "A,3,webster\nB,0,order\nC,0,order\nD,0,order\nE,9000000,order\n"
        files = self.net(banks, "A,B,1,2\nA,C,1,2\nA,D,2,10\nB,D,1,2\n" + large)
        self.assertEqual(self.desk(files).answer(0, "unit")[-1]["banks"], [1])

    def by_costs(self, files: Any, keep: int) -> List[int]:
        """The banks that are otherwise in `costs` where all amounts are halved or doubled."""

        def places(banks: str, debts: str) -> List[Tuple[str, bool]]:
            return [
                (row[-1], row[-2] != "0") for row in standings("costs", *self.net(banks, debts), "--keep", str(keep))
            ]

        rows = [line.split(",") for line in pathlib.Path(files[1]).read_text().splitlines()[1:]]
        debts = [line.split(",") for line in pathlib.Path(files[3]).read_text().splitlines()[1:]]
        found = [
            places(
                "".join(f"{a},{scale(int(b))},{c}\n" for a, b, c in rows),
                "".join(f"{a},{b},{c},{scale(int(d))}\n" for a, b, c, d in debts),
            )
            for scale in (lambda units: units, lambda units: round(units / 2), lambda units: 2 * units)
        ]
        return [at for at, here in enumerate(found[0]) if any(other[at] != here for other in found[1:])]


if __name__ == "__main__":
    unittest.main()
