"""`clearing-to-graphml` writes a network that other programs read, with payments and states."""
import subprocess
import sys
import xml.etree.ElementTree
from typing import Any, Tuple

from common import ROOT, Case, Word, clearing, files_of, needs_modules, tool
from pythons import python_with

from clearing_tools.exports import graphml

TWELVE = files_of(ROOT / "examples/twelve-banks")
SPACE = "{http://graphml.graphdrawing.org/xmlns}"
# With characters that XML cannot hold, with what stands for one, and with what is markup.
BARRED = ["A\ufffeB", "A\uffff", "A<U+FFFE>B", "A<U+003C>U+FFFE>B", "<U+>", "A&<b>"]


class Texts(Case):
    def test_without_networkx_it_is_said_which_python_was_asked(self):
        # A folder that a package has left behind is no module.
        (self.folder / "left/networkx").mkdir(parents=True)
        script = self.executable("python", f'PYTHONPATH="{self.folder}/left" exec "{sys.executable}" -S "$@"\n')
        texts = [self.file(task, clearing(task, *TWELVE).stdout) for task in ("clear", "defaults")]
        done = tool("clearing-to-graphml", *texts, "--out", self.folder / "out", python=str(script))
        self.assertEqual((done.returncode, done.stdout), (2, ""))
        self.assertRegex(
            done.stderr,
            (
                r"clearing-to-graphml: /.* has no networkx \(Debian's package python3-networkx is for /usr/bin/python3"
                r" .*FILE\.whl\[all\]'\)"
            ),
        )

    def test_texts_of_other_networks_and_forms_are_refused(self):
        payments, defaults = (self.file(task, clearing(task, *TWELVE).stdout) for task in ("clear", "defaults"))
        hub = [ROOT / f"examples/hub/{kind}.csv" for kind in ("banks", "debts")]
        other = self.file("other", clearing("defaults", "--banks", hub[0], "--debts", hub[1]).stdout)
        raised = self.file("raised", payments.read_text(encoding="utf-8").replace("1,40000,40000", "1,40001,40001"))
        paid = self.file("paid", payments.read_text(encoding="utf-8").replace("1,40000,40000", "1,40000,40001"))
        out = ["--out", self.folder / "out"]
        for words, message in [
            ((payments, other), "the other text has no bank 'Alster'"),
            ((defaults, payments), "line 1: not the header bank,estate"),
            ((payments, defaults, "--banks", hub[0]), "is not of the network of the others"),
            ((raised, defaults), "the debts of Alster come to 150001"),
            ((paid, defaults), "line 2: more is paid than is claimed"),
            ((self.folder / "none", defaults), "cannot be read"),
            (
                (payments, self.file("cut", defaults.read_text(encoding="utf-8").rsplit("total", 1)[0])),
                "not a line with total",
            ),
        ]:
            self.refused("clearing-to-graphml", 1, message, *words, *out)
        self.assertFalse((self.folder / "out").exists())


@needs_modules("networkx")
class Graph(Case):
    def graph(self, *words: Word, banks: bool = True) -> Any:
        """The nodes and the edges of the graph of a network, with their attributes by name."""
        texts = [self.file(task, clearing(task, *words).stdout) for task in ("clear", "defaults")]
        return self.read(texts, *(words[:2] if banks else ()))

    def read(self, texts: Any, *more: Any) -> Tuple[Any, Any]:
        out = self.folder / "graph.graphml"
        done = tool("clearing-to-graphml", *texts, "--out", out, *more, python=python_with("networkx"))
        self.assertEqual((done.returncode, done.stdout, done.stderr), (0, "", ""))
        root = xml.etree.ElementTree.parse(out).getroot()
        keys = [(key.get("id"), key.get("attr.name")) for key in root.iter(f"{SPACE}key")]
        self.assertEqual(len(dict(keys)), len(keys))
        data = lambda item: {dict(keys)[part.get("key")]: part.text for part in item}
        self.assertEqual(root.find(f"{SPACE}graph").get("edgedefault"), "directed")
        nodes = {node.get("id"): data(node) for node in root.iter(f"{SPACE}node")}
        edges = [
            (edge.get("id"), edge.get("source"), edge.get("target"), data(edge)) for edge in root.iter(f"{SPACE}edge")
        ]
        return nodes, edges

    def test_banks_and_debts_stand_with_payments_and_states(self):
        nodes, edges = self.graph(*TWELVE)
        self.assertEqual(
            nodes["Birk"],
            {
                "label": "Birk",
                "estate": "2786669",
                "paid": "2786669",
                "owed": "2900000",
                "equity": "0",
                "state": "contagion",
                "cash": "1500001",
                "rule": "equal",
            },
        )
        debts = [line.split(",") for line in clearing("clear", *TWELVE).stdout.decode().splitlines()[1:]]
        self.assertEqual((len(nodes), len(edges), len({edge[0] for edge in edges})), (12, 40, 40))
        by_id = sorted(edges, key=lambda edge: int(edge[0].removeprefix("debt-")))
        for (_, debtor, creditor, data), debt in zip(by_id, debts):
            self.assertEqual([debtor, creditor, data["class"], data["claim"], data["paid"]], debt)
            self.assertEqual(data["weight"], data["claim"])
            self.assertEqual(int(data["unpaid"]), int(debt[3]) - int(debt[4]))
            self.assertAlmostEqual(float(data["share"]) * int(debt[3]), int(debt[4]), 3)

    def test_claims_outside_and_several_classes_are_there(self):
        files = [
            "--banks",
            self.file("b.csv", "name,cash,rule,outside\nA,9,order,5\nB,0,order,0\nC,1,order,0\n"),
            "--debts",
            self.file("d.csv", "debtor,creditor,class,claim\nA,B,1,3\nA,B,2,3\nB,A,1,0\n"),
        ]
        nodes, edges = self.graph(*files)
        self.assertEqual(
            (nodes["A"]["outside"], nodes["A"]["outside_paid"], nodes["A"]["state"]), ("5", "5", "fundamental")
        )
        self.assertEqual(
            [(edge[1], edge[2], edge[3]["class"], edge[3]["paid"], edge[3]["share"][:5]) for edge in edges],
            [("A", "B", "1", "3", "1.0"), ("A", "B", "2", "1", "0.333"), ("B", "A", "1", "0", "1.0")],
        )
        self.assertIn("C", nodes)
        # With the journal behind the payments, CR LF and a byte order mark, and without the banks file.
        both = clearing("clear", *files, "--show", "both").stdout.replace(b"\n", b"\r\n")
        texts = [
            self.file("both", b"\xef\xbb\xbf" + both),
            self.file("defaults", b"\xef\xbb\xbf" + clearing("defaults", *files).stdout.replace(b"\n", b"\r\n")),
        ]
        again = self.read(texts)
        self.assertEqual(again[1], edges)
        self.assertNotIn("cash", again[0]["A"])

    def test_networkx_reads_it_back(self):
        self.graph(*TWELVE)
        code = (
            "import networkx, sys; g = networkx.read_graphml(sys.argv[1]); print(type(g).__name__, g.number_of_nodes(),"
            " g.number_of_edges(), sum(d['paid'] for *_, d in g.edges(data=True)), g.nodes['Isar']['state'])"
        )
        run = [python_with("networkx"), "-c", code, str(self.folder / "graph.graphml")]
        self.assertEqual(
            subprocess.check_output(run, encoding="utf-8").split(), ["DiGraph", "12", "40", "8256671", "fundamental"]
        )

    def test_a_name_that_xml_cannot_hold_stands_as_its_code(self):
        names = ["A\ufffe", "A\uffff", "A<U+FFFE>"]
        files = [
            "--banks",
            self.file("b.csv", "name,cash,rule\n" + "".join(f"{name},1,order\n" for name in names)),
            "--debts",
            self.file("d.csv", "debtor,creditor,class,claim\n"),
        ]
        nodes, _ = self.graph(*files)
        self.assertEqual(list(nodes), ["A<U+FFFE>", "A<U+FFFF>", "A<U+003C>U+FFFE>"])

    def test_nothing_is_written_over(self):
        texts = [self.file(task, clearing(task, *TWELVE).stdout) for task in ("clear", "defaults")]
        for text in texts:
            before = text.read_bytes()
            done = tool("clearing-to-graphml", *texts, "--out", text, python=python_with("networkx"))
            self.assertEqual((done.returncode, done.stdout), (1, ""))
            self.assertIn("also read", done.stderr)
            self.assertEqual(text.read_bytes(), before)


class Names(Case):
    """Names with what XML cannot hold."""

    def test_names_that_differ_stay_so(self):
        self.assertEqual(len({graphml.xml_name(name) for name in BARRED}), len(BARRED))
        for name in BARRED:
            text = graphml.xml_name(name).replace("&", "&amp;").replace("<", "&lt;")
            xml.etree.ElementTree.fromstring(f"<a>{text}</a>")

    @needs_modules("networkx")
    def test_a_graph_of_them_is_well_formed(self):
        defaults = self.file(
            "defaults.csv",
            "bank,estate,paid,owed,equity,state\n"
            + "".join(f"{name},1,0,0,1,sound\n" for name in BARRED)
            + f"total,{len(BARRED)},0,0,{len(BARRED)},0\ncash,{len(BARRED)}\n",
        )
        payments, graph = self.file("payments.csv", "debtor,creditor,class,claim,paid\n"), self.folder / "g.graphml"
        done = tool("clearing-to-graphml", payments, defaults, "--out", graph, python=python_with("networkx"))
        self.assertEqual((done.returncode, done.stderr), (0, ""))
        nodes = xml.etree.ElementTree.parse(graph).getroot().iter(f"{SPACE}node")
        self.assertEqual([node.get("id") for node in nodes], [graphml.xml_name(name) for name in BARRED])
