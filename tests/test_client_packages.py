"""With pandas, numpy and networkx: the same networks and results in their types, exactly."""
import unittest

from clients import network_of
from common import EXAMPLES, HUB, TWELVE, Case, needs_packages, there

import clearing_client as cc
from clearing_client import Network, Scenarios, TableError


class WithoutPackages(Case):
    def test_each_call_says_what_it_wants(self):
        net = Network({"A": 7, "B": 1}, {("A", "B"): 10})
        impact = net.impact()
        for name, call in [
            ("pandas", net.to_pandas),
            ("numpy", net.to_matrix),
            ("networkx", net.to_networkx),
            ("pandas", impact.to_pandas),
            ("numpy", impact.to_matrix),
            ("networkx", impact.to_networkx),
        ]:
            if there(name):
                call()
            else:
                with self.assertRaisesRegex(cc.MissingPackageError, f"python3-{name}"):
                    call()
        self.assertEqual(net.clear().to_lists(), [[0, 7], [0, 0]])
        if not there("pandas"):
            self.assertIsNone(net.banks._repr_html_())


@needs_packages("pandas")
class Pandas(Case):
    def test_a_network_goes_through_dataframes_unchanged(self):
        import pandas

        for folder in EXAMPLES:
            with self.subTest(example=folder.name):
                net, banks, debts = (
                    network_of(folder),
                    pandas.read_csv(folder / "banks.csv"),
                    pandas.read_csv(folder / "debts.csv"),
                )
                self.assertEqual(Network(banks, debts).check().text, net.check().text)
                frames = net.to_pandas()
                self.assertEqual(Network(frames["banks"], frames["debts"]).defaults(), net.defaults())

    def test_every_table_becomes_a_dataframe_with_the_same_values(self):
        net = network_of(HUB)
        journal = net.clear(journal=True).journal
        results = [
            net.check(),
            net.clear(journal=True),
            net.central(),
            net.defaults(),
            net.bounds(),
            net.costs(900),
            net.compress(),
            net.stress(Scenarios.cuts([0, 500])),
            net.rescue("East"),
            net.replay(journal),
            net.replay([]),
            net.breaking(),
            net.impact(),
            net.rescues(),
            net.outcomes(Scenarios.cuts([0, 500])),
            net.cost_bounds(900),
            cc.generate(1, 3, 3),
        ]
        for result in results:
            frames = result.to_pandas()
            for name, table in result.tables().items():
                frame = frames[name]
                self.assertEqual(tuple(frame.columns), table.columns)
                self.assertEqual([tuple(row) for row in frame.itertuples(index=False)], [tuple(row) for row in table])
                for column in frame.columns:
                    if name != "totals" and len(table) and all(type(value) is int for value in table.column(column)):
                        self.assertEqual(str(frame[column].dtype), "int64", (name, column))

    def test_no_line_of_sums_doubles_a_sum(self):
        frame = network_of(HUB).defaults().standings.to_pandas()
        self.assertEqual((len(frame), int(frame["paid"].sum()), int(frame["estate"].sum())), (5, 680, 895))
        left = network_of(HUB).stress(Scenarios.cuts([0, 500]))
        sums = left.standings.to_pandas().groupby("number")["paid"].sum()
        self.assertEqual(list(sums), [one.total.paid for one in left.scenarios])

    def test_large_sums_stay_exact(self):
        net = Network([(f"B{n}", 10**12 - n, "adams") for n in range(1000)], [("B1", "B2", 1, 1)])
        frame = net.defaults().standings.to_pandas()
        self.assertEqual(int(frame["estate"].sum()), sum(10**12 - n for n in range(1000)) + 1)
        self.assertEqual(str(frame["estate"].dtype), "int64")

    def test_tables_without_a_row_keep_their_types(self):
        frame = Network([("A", 1, "adams")], []).clear().payments.to_pandas()
        self.assertEqual((len(frame), str(frame["paid"].dtype), str(frame["debtor"].dtype)), (0, "int64", "object"))

    def test_frames_as_they_come(self):
        import pandas

        banks = pandas.DataFrame(
            {"cash": [7.0, 1.0], "rule": ["order", "order"]}, index=pandas.Index(["A", "B"], name="name")
        )
        debts = pandas.DataFrame({"debtor": ["A"], "creditor": ["B"], "claim": pandas.array([10], dtype="Int64")})
        debts = pandas.concat([debts, debts]).drop_duplicates()
        self.assertEqual(Network(banks, debts).clear().total, (10, 7))
        wrong = [
            (banks.assign(cash=[7.0, None]), debts, ("banks", 2, "cash")),
            (banks.assign(cash=[7.0, 1.5]), debts, ("banks", 2, "cash")),
            (banks.assign(country="x"), debts, ("banks", 0, "country")),
            (banks.drop(columns="cash"), debts, ("banks", 0, "cash")),
            (pandas.concat([banks, banks[["cash"]]], axis=1), debts, ("banks", 0, "")),
            (banks, debts.assign(claim=pandas.array([None], dtype="Int64")), ("debts", 1, "claim")),
            (banks, debts.assign(debtor=[None]), ("debts", 1, "debtor")),
            (banks, debts.assign(claim=[True]), ("debts", 1, "claim")),
        ]
        for one, other, place in wrong:
            with self.subTest(place=place), self.assertRaises(TableError) as caught:
                Network(one, other)
            self.assertEqual((caught.exception.file, caught.exception.row, caught.exception.field), place)

    def test_tables_show_as_html(self):
        self.assertIn("<td>Alster</td>", network_of(TWELVE).banks._repr_html_())


@needs_packages("numpy")
class Numpy(Case):
    def test_matrices_have_the_banks_in_file_order_and_all_classes_together(self):
        import numpy

        net = Network(
            [("B", 9, "order"), ("A", 0, "order"), ("C", 1, "order")],
            [("A", "B", 1, 5), ("A", "B", 2, 6), ("B", "C", 1, 4)],
        )
        self.assertEqual(net.to_matrix().tolist(), [[0, 0, 4], [11, 0, 0], [0, 0, 0]])
        self.assertEqual(net.clear().to_matrix().tolist(), [[0, 0, 4], [0, 0, 0], [0, 0, 0]])
        self.assertEqual(net.bounds().to_matrix("least").tolist(), [[0, 0, 4], [0, 0, 0], [0, 0, 0]])
        self.assertEqual(net.clear().to_matrix().dtype, numpy.int64)
        self.assertEqual(Network([], []).to_matrix().shape, (0, 0))
        for folder in EXAMPLES:
            net, done = network_of(folder), network_of(folder).clear()
            self.assertEqual(int(done.to_matrix().sum()), done.total.paid)
            self.assertEqual(int(net.to_matrix().sum()), net.check().total.owed)
            rows = done.to_matrix().sum(axis=1).tolist()
            self.assertEqual(rows, net.defaults().standings.column("paid"))
            left = net.stress([cc.Scenario("as it is")]).scenarios[0]
            self.assertEqual(left.to_matrix().tolist(), done.to_matrix().tolist())
        text = cc.read(network_of(HUB).clear().text)
        self.assertEqual(text.names(), ["East", "Hub", "North", "South", "West"])
        self.assertEqual(text.to_matrix().sum(), 680)
        outcome = cc.read(network_of(HUB).stress([cc.Scenario("x")]).text).scenarios[0]
        self.assertEqual(outcome.names(), network_of(HUB).banks.column("name"))

    def test_numbers_of_numpy(self):
        import numpy

        banks = {
            "name": numpy.array(["A", "B"]),
            "cash": numpy.array([7, 10**12], dtype="uint64"),
            "rule": ["order", "order"],
        }
        debts = {
            "debtor": ["A"],
            "creditor": ["B"],
            "class": numpy.array([1], dtype="int8"),
            "claim": numpy.float64([10]),
        }
        self.assertEqual(Network(banks, debts).clear().total, (10, 7))
        for wrong in (numpy.float64(7.5), numpy.bool_(True), numpy.nan, numpy.array([7])):
            with self.assertRaises(TableError):
                Network({"A": wrong}, [])


@needs_packages("networkx")
class Networkx(Case):
    def test_a_network_goes_through_a_graph_unchanged(self):
        for folder in EXAMPLES:
            net = network_of(folder)
            again = Network(net.to_networkx())
            self.assertEqual(again.check().total, net.check().total)
            self.assertEqual(sorted(again.debts), sorted(net.debts))
            self.assertEqual(list(again.banks), list(net.banks))

    def test_graphs_of_results_have_states_and_payments(self):
        net = network_of(HUB)
        graph = net.clear().to_networkx()
        self.assertEqual(graph.edges["East", "Hub", 1], {"class": 1, "claim": 90, "paid": 80})
        self.assertEqual(graph.nodes["Hub"], {"cash": 120, "rule": "webster", "outside": 40})
        graph = net.stress([cc.Scenario("as it is")]).scenarios[0].to_networkx()
        self.assertEqual((graph.nodes["Hub"]["state"], graph.nodes["Hub"]["cash"]), ("sound", 120))
        graph = net.bounds().to_networkx()
        self.assertEqual(graph.edges["East", "Hub", 1]["greatest"], 80)
        self.assertEqual(net.compress().to_networkx().number_of_edges(), len(net.debts))
        graph = net.cost_bounds(1000).to_networkx()
        self.assertEqual(
            (graph.edges["East", "Hub", 1]["greatest"], graph.nodes["Hub"]["state_at_greatest"]), (80, "sound")
        )
        impact = net.impact()
        graph = impact.to_networkx()
        self.assertEqual(graph.nodes["Hub"], dict(zip(impact.banks.columns[1:], impact.banks[0][1:])))
        self.assertEqual(
            {(bank, of): each["lost"] for bank, of, each in graph.edges(data=True)},
            {pair[:2]: pair.lost for pair in impact.pairs},
        )
        # A result of a text alone has its own banks.
        self.assertEqual(cc.read(net.clear().text).to_networkx().nodes["Hub"], {})

    def test_graphs_as_they_come(self):
        import networkx

        graph = networkx.DiGraph()
        graph.add_node(0, cash=7, label="x")
        graph.add_node(1, cash=1, label="y")
        graph.add_edge(0, 1, claim=10, weight=0.5)
        self.assertEqual(Network(graph, rule="order").clear().payments[0], ("0", "1", 1, 10, 7))
        with self.assertRaises(TableError):
            Network(graph.to_undirected())
        graph.add_node(2)
        with self.assertRaises(TableError) as caught:
            Network(graph)
        self.assertEqual((caught.exception.row, caught.exception.field), (3, "cash"))


if __name__ == "__main__":
    unittest.main()
