"""Many networks and scenarios side by side: results as they come, by processes of this machine or by an executor of
others."""
import concurrent.futures
import itertools
import os
import pathlib
import shlex
import subprocess
import sys
import time
import types
import unittest
from typing import Any, Iterator, List, Tuple
from unittest import mock

from clients import network_of
from common import CHAIN, HUB, ROOT, TWELVE, Case, needs_modules
from pythons import python_with

import clearing_client as cc
from clearing_client import Network, Scenario, Scenarios, many, network, texts


def sums_of(left: Any) -> Tuple[Any, Any]:
    """The sums of what `stress` leaves, from its standings."""
    scenarios = [
        (
            one.name,
            one.total.cash,
            sum(one.standings.column("paid")),
            sum(one.standings.column("outside_paid")),
            sum(one.standings.column("equity")),
            len(one.defaults),
            one.standings.column("state").count("fundamental"),
        )
        for one in left.scenarios
    ]
    states = list(zip(*(one.standings.column("state") for one in left.scenarios)))
    counts = [(sum(state != "sound" for state in each), each.count("fundamental")) for each in states]
    return scenarios, counts


class SideBySide(Case):
    def test_networks_in_order_by_several_jobs(self):
        nets = [Network({"A": cash, "B": 0}, {("A", "B"): 10}) for cash in range(20)]
        for jobs in (1, 3, None):
            left = list(cc.map_stress(nets, Scenarios.cuts([0, 500]), jobs=jobs))
            self.assertEqual(
                [(one.number, one.payments[0].paid) for one in left],
                [pair for cash in range(20) for pair in ((1, min(10, cash)), (2, min(10, cash - cash // 2)))],
            )
            self.assertEqual([one.network for one in left], [net for net in nets for _ in range(2)])
        self.assertEqual(list(cc.map_stress([], [])), [])
        self.assertEqual(list(cc.map_stress(nets[:1], [])), [])

    def test_outcomes_are_those_of_stress(self):
        for folder in (CHAIN, HUB, TWELVE):
            net, scenarios = network_of(folder), Scenarios.cuts(range(0, 1001, 100))
            left = net.stress(scenarios)
            self.assertEqual(tuple(cc.map_stress([net], scenarios)), left.scenarios)
            file = self.file("s.toml", scenarios.to_toml())
            self.assertEqual(tuple(cc.map_stress([net], file)), left.scenarios)

    def test_more_scenarios_than_a_file_may_have(self):
        net = network_of(CHAIN)
        left = list(cc.map_stress([net], Scenarios.cuts(range(250))))
        self.assertEqual([one.number for one in left], list(range(1, 251)))
        self.assertEqual([one.name for one in left], [f"cut {cut}" for cut in range(250)])
        for call, before in itertools.product((cc.map_stress, cc.map_outcomes), (0, 99, 100, 150, 250)):
            with self.assertRaises(cc.RefusedError) as caught:
                list(call([net], [*Scenarios.cuts(range(before)), Scenario("x", 1001)]))
            fault = caught.exception
            self.assertEqual(
                (fault.file, fault.row, fault.kind, fault.record),
                ("scenarios", before + 1, "limit", Scenario("x", 1001)),
            )

    def test_a_fault_comes_in_its_place_and_ends_it(self):
        nets = [network_of(CHAIN), Network([("A", 1, "none")], []), network_of(HUB)]
        for call in (cc.map_stress, cc.map_outcomes):
            left = call(nets, Scenarios.cuts([1]), jobs=2)
            self.assertIsNotNone(next(left))
            with self.assertRaises(cc.RefusedError):
                next(left)
            self.assertEqual(list(left), [])

    def test_runs_go_side_by_side(self):
        # Each run waits until the other has begun, but not for ever.
        self.program(
            f'touch {self.folder}/$$; n=0; while [ $(ls {self.folder} | grep -c "^[0-9]*$") -lt 2 ]; do sleep 0.02; '
            f'n=$((n + 1)); [ $n -lt 500 ] || exit 77; done; exec {shlex.quote(os.environ["CLEARING"])} "$@"'
        )
        self.assertEqual(len(list(cc.map_stress([network_of(CHAIN), network_of(HUB)], Scenarios.cuts([1]), jobs=2))), 2)

    def test_few_runs_begin_ahead_of_what_is_taken(self):
        taken = []

        def nets() -> Iterator[Network]:
            for at in range(100):
                taken.append(at)
                yield network_of(CHAIN)

        for call in (cc.map_stress, cc.map_outcomes):
            taken.clear()
            left = call(nets(), Scenarios.cuts([1]), jobs=2)
            next(left)
            self.assertLessEqual(len(taken), 6)
            # Whoever has seen enough leaves it, and nothing of it goes on.
            left.close()
            self.assertLessEqual(len(taken), 6)

    def test_memory_does_not_grow_with_the_scenarios(self):
        # 300 scenarios of 4,000 debts: held whole they are 90 megabytes more than 20 are.
        pairs = [(n, (n + step) % 200) for n in range(200) for step in range(1, 21)]
        net = Network(
            [(f"bank {n}", n * 79 % 2000, "webster") for n in range(200)],
            [(f"bank {n}", f"bank {m}", 1, 1 + (n * 31 + m * 17) % 500) for n, m in pairs],
        )
        net.write(self.folder / "banks.csv", self.folder / "debts.csv")
        script = self.file("held.py", HELD.format(source=str(ROOT / "python" / "src"), folder=str(self.folder)))
        for call in ("map_stress", "map_outcomes"):
            held = [
                int(
                    subprocess.run(
                        [sys.executable, script, call, str(count)], stdout=subprocess.PIPE, check=True
                    ).stdout
                )
                for count in (20, 300)
            ]
            self.assertLess(held[1] - held[0], 40, f"{call}: {held} megabytes")


class Sums(Case):
    def test_sums_are_those_of_stress(self):
        for folder in (CHAIN, HUB, TWELVE):
            net, scenarios = network_of(folder), Scenarios.cuts(range(0, 1001, 13))
            (left,), wanted = cc.map_outcomes([net], scenarios), sums_of(net.stress(scenarios))
            self.assertEqual([tuple(one) for one in left.scenarios], wanted[0])
            self.assertEqual([tuple(one)[1:] for one in left.banks], wanted[1])
            self.assertEqual(left.banks.column("bank"), net.banks.column("name"))
            self.assertIs(left.network, net)
            self.assertTrue(all(one.cash == one.outside_paid + one.equity for one in left.scenarios))

    def test_what_a_case_has_of_scenarios_is_taken_as_it_is(self):
        case = cc.Case.read(TWELVE)
        self.assertIsInstance(case.scenarios, bytes)
        path = TWELVE / "scenarios.toml"
        for task in (case.network.stress, case.network.outcomes):
            self.assertEqual(task(case.scenarios).text, task(path).text)
        for map_task in (cc.map_stress, cc.map_outcomes):
            told = [list(map(repr, map_task([case.network], what))) for what in (case.scenarios, path)]
            self.assertEqual(told[0], told[1])

    def test_counts_are_those_of_all_runs_of_a_hundred(self):
        net, scenarios = network_of(TWELVE), Scenarios.cuts(range(100, 1001, 3))
        (left,), outcomes = cc.map_outcomes([net], scenarios), list(cc.map_stress([net], scenarios))
        self.assertEqual([one.number for one in outcomes], [*range(1, 302)])
        wanted = sums_of(types.SimpleNamespace(scenarios=outcomes))
        self.assertEqual(([tuple(one) for one in left.scenarios], [tuple(one)[1:] for one in left.banks]), wanted)

    def test_worked_sums(self):
        scenarios = [
            Scenario("A loses all", losses={"A": 7}),
            Scenario("A loses more than it has", losses={"A": 8}),
            Scenario("half", 500),
        ]
        (left,) = cc.map_outcomes([network_of(CHAIN)], scenarios)
        self.assertEqual(
            [tuple(one) for one in left.scenarios],
            [
                ("A loses all", 1, 1, 0, 1, 2, 1),
                ("A loses more than it has", 1, 1, 0, 1, 2, 1),
                ("half", 5, 9, 0, 5, 2, 1),
            ],
        )
        self.assertEqual([tuple(one) for one in left.banks], [("A", 3, 3), ("B", 3, 0), ("C", 0, 0)])
        self.assertEqual(
            left.text,
            (
                "scenario,cash,paid,outside_paid,equity,defaults,fundamental\nA loses all,1,1,0,1,2,1\nA loses more"
                " than it has,1,1,0,1,2,1\nhalf,5,9,0,5,2,1\n\nbank,defaults,fundamental\nA,3,3\nB,3,0\nC,0,0\n"
            ),
        )
        self.assertEqual(cc.read(left.text), left)

    def test_networks_of_one_kind_are_kept_apart(self):
        nets = [network_of(CHAIN), network_of(CHAIN), network_of(HUB)]
        left = list(cc.map_outcomes(nets, Scenarios.cuts(range(60)), jobs=3))
        self.assertEqual([len(one.scenarios) for one in left], [60, 60, 60])
        self.assertEqual(left[0], left[1])
        (left,) = cc.map_outcomes([network_of(CHAIN)], [])
        self.assertEqual(
            (len(left.scenarios), [tuple(one) for one in left.banks]), (0, [("A", 0, 0), ("B", 0, 0), ("C", 0, 0)])
        )


class Text(unittest.TestCase):
    """What is read as it comes is what is read whole."""

    LINES = [
        "scenario,a,b\n",
        texts.PAYMENTS + "\n",
        "A,B,1,10,7\n",
        texts.STANDINGS_1 + "\n",
        "A,7,7,10,0,fundamental\n",
        "B,7,0,0,7,sound\n",
        "total,14,7,10,7,1\n",
        "cash,7\n",
    ]

    def read(self, text: str) -> List[Any]:
        """What each way reads, or the fault that it raises."""
        told = []
        for read in (
            lambda: cc.read(text).scenarios,
            lambda: tuple(texts.outcomes_in(text.encode().splitlines(keepends=True))),
        ):
            try:
                told.append(read())
            except cc.TextError as fault:
                told.append(str(fault))
        return told

    def test_both_ways_read_the_same(self):
        two = [*self.LINES, "\n", *self.LINES]
        whole, streamed = self.read("".join(two))
        self.assertEqual(len(whole), 2)
        self.assertEqual(whole, streamed)
        whole, streamed = self.read("\ufeff" + "".join(two).replace("\n", "\r\n"))
        self.assertEqual(len(whole), 2)
        self.assertEqual(whole, streamed)

    def test_both_ways_refuse_the_same(self):
        two = [*self.LINES, "\n", *self.LINES]
        for at in range(len(two)):
            # A line left out, twice, cut short, with a field more, or with another number.
            for line in ([], [two[at]] * 2, [two[at][:-1]], [two[at][:-1] + ",x\n"], [two[at].replace("7", "x")]):
                text = "".join([*two[:at], *line, *two[at + 1 :]])
                whole, streamed = self.read(text)
                if text.startswith("scenario,"):
                    self.assertEqual(isinstance(whole, str), isinstance(streamed, str), text)
                    self.assertTrue(isinstance(whole, str) or whole == streamed, text)


class Executors(Case):
    def test_an_executor_that_is_given_runs_them_and_goes_on(self):
        net, scenarios = network_of(TWELVE), Scenarios.cuts(range(0, 1001, 200))
        whole = list(cc.map_stress([net], scenarios))
        for kind in (concurrent.futures.ThreadPoolExecutor, concurrent.futures.ProcessPoolExecutor):
            with kind(2) as executor:
                self.assertEqual(list(cc.map_stress([net], scenarios, executor=executor)), whole)
                (left,) = cc.map_outcomes([net], scenarios, executor=executor)
                self.assertEqual([tuple(one) for one in left.scenarios], sums_of(net.stress(scenarios))[0])
                self.assertEqual(executor.submit(abs, -1).result(), 1)

    def test_what_is_parsed_is_parsed_in_other_processes(self):
        seen, parse, read = self.folder / "seen", many.outcomes_in, network.parse

        def told(parser: Any) -> Any:
            def here(*words: Any) -> Any:
                with open(seen, "a", encoding="utf-8") as file:
                    file.write(f"{os.getpid()}\n")
                return parser(*words)

            return here

        with mock.patch.object(many, "outcomes_in", told(parse)), mock.patch.object(network, "parse", told(read)):
            list(cc.map_stress([network_of(CHAIN), network_of(HUB)], Scenarios.cuts([1]), jobs=2))
            list(cc.map_outcomes([network_of(CHAIN), network_of(HUB)], Scenarios.cuts([1]), jobs=2))
        numbers = seen.read_text().split()
        self.assertEqual(len(numbers), 4)
        self.assertNotIn(str(os.getpid()), numbers)

    @needs_modules("distributed")
    def test_workers_of_dask_serve_as_they_are(self):
        python = python_with("distributed")
        script = self.file("with_dask.py", DASK.format(source=str(ROOT / "python" / "src"), folder=str(TWELVE)))
        done = subprocess.run([python, script], capture_output=True, encoding="utf-8", cwd=self.folder)
        self.assertEqual((done.returncode, done.stdout), (0, "6 6 2 True True\n"), done.stderr[-2000:])

    def test_an_interrupt_ends_it(self):
        script = self.file("long.py", LONG.format(source=str(ROOT / "python" / "src")))
        self.program("echo $$ >>{0}/begun; exec sleep 600".format(self.folder))
        process = subprocess.Popen(
            [sys.executable, script],
            stdout=subprocess.PIPE,
            stderr=subprocess.PIPE,
            encoding="utf-8",
            start_new_session=True,
        )
        self.addCleanup(process.kill)
        begun = self.folder / "begun"
        ends = time.monotonic() + 60
        while not (begun.exists() and len(begun.read_text().split()) == 2) and time.monotonic() < ends:
            time.sleep(0.05)
        os.killpg(process.pid, 2)
        output, messages = process.communicate(timeout=60)
        self.assertEqual((process.returncode, output, messages), (130, "interrupted\n", ""))
        for number in begun.read_text().split():
            self.assertFalse(
                pathlib.Path(f"/proc/{number}").exists()
                and "sleep" in pathlib.Path(f"/proc/{number}/cmdline").read_text()
            )


HELD = """
import resource
import sys
sys.path.insert(0, {source!r})
import clearing_client as cc

net = cc.Network({folder!r} + "/banks.csv", {folder!r} + "/debts.csv")
scenarios = cc.Scenarios.cuts(range(int(sys.argv[2])))
left = getattr(cc, sys.argv[1])([net], scenarios, jobs=2)
assert sum(1 for one in left) == (len(scenarios) if sys.argv[1] == "map_stress" else 1)
print(sum(resource.getrusage(whose).ru_maxrss for whose in (resource.RUSAGE_SELF, resource.RUSAGE_CHILDREN)) // 1024)
"""

DASK = """
import sys
sys.path.insert(0, {source!r})
import os
os.environ["PYTHONPATH"] = {source!r}
import clearing_client as cc
from distributed import Client, LocalCluster

if __name__ == "__main__":
    net = cc.Network({folder!r} + "/banks.csv", {folder!r} + "/debts.csv")
    scenarios = cc.Scenarios.cuts(range(0, 1001, 200))
    with LocalCluster(n_workers=2, threads_per_worker=1, dashboard_address=None) as cluster, Client(cluster) as client:
        executor = client.get_executor()
        left = list(cc.map_stress([net], scenarios, executor=executor))
        sums, = cc.map_outcomes([net], scenarios, executor=executor)
        workers = len(client.scheduler_info()["workers"])
    same = tuple(left) == net.stress(scenarios).scenarios
    print(len(left), len(sums.scenarios), workers, same, sums == next(cc.map_outcomes([net], scenarios)))
"""

LONG = """
import sys
sys.path.insert(0, {source!r})
import clearing_client as cc

nets = [cc.Network({{"A": 1}}, []) for _ in range(2)]
try:
    list(cc.map_stress(nets, cc.Scenarios.cuts([1]), jobs=2))
except KeyboardInterrupt:
    print("interrupted")
    sys.exit(130)
"""

if __name__ == "__main__":
    unittest.main()
