"""Each status but 0 and 7 is an exception of its own, which says where the fault is."""
import os
import pickle
import signal
import tempfile
import threading
import time
import unittest
from typing import Any, Callable, Optional, Tuple

from common import CHAIN, Case

import clearing_client as cc
from clearing_client import Network, Scenario, Scenarios
from clearing_client.errors import KINDS

A_B = [("A", 7, "order"), ("B", 1, "order")]
A_TO_B = [("A", "B", 1, 10)]
MANY = [(f"B{n}", 1, "adams") for n in range(201)]


class Refused(Case):
    def refused(self, call: Callable[[], object]) -> Tuple[Any, ...]:
        with self.assertRaises(cc.RefusedError) as caught:
            call()
        fault = caught.exception
        self.assertEqual(fault.status, 4)
        self.assertEqual((fault.kind, fault.meaning), KINDS[fault.number])
        self.assertIn(f"{fault.file} row {fault.row}: {fault.kind} ({fault.number})", str(fault))
        return fault.file, fault.row, fault.kind, fault.record

    def test_each_fault_of_a_bank_has_its_record(self):
        long = "é" * 33
        for table, row, kind, record in [
            ([("A", 7, "order"), ("B", "7,5", "order")], 2, "number", ("B", "7,5", "order")),
            ([("A", 7, "order"), ("B", -7, "order")], 2, "number", ("B", "-7", "order")),
            ([("A", 7, "order"), ("B", 10**12 + 1, "order")], 2, "limit", ("B", "1000000000001", "order")),
            ([("A", 7, "Order")], 1, "rule", ("A", "7", "Order")),
            ([("A", 7, "order"), ("A", 8, "order")], 2, "double bank", ("A", "8", "order")),
            ([("A", 7, "order", 10**11 + 1)], 1, "limit", ("A", "7", "order", "100000000001")),
            ([("", 7, "order")], 1, "name", ("", "7", "order")),
            ([(long, 7, "order")], 1, "name", (long, "7", "order")),
            ([(f"B{n}", 1, "adams") for n in range(1001)], 1001, "too many", ("B1000", "1", "adams")),
        ]:
            with self.subTest(kind=kind, row=row):
                check = Network(table, [], limits="standard").check
                self.assertEqual(self.refused(check), ("banks", row, kind, record))

    def test_each_fault_of_a_debt_has_its_record(self):
        claims = [("B0", f"B{n}", 1, 10**6) for n in range(1, 12)]
        pairs = [(f"B{n // 200}", f"B{n % 200 + 1 if n % 200 >= n // 200 else n % 200}", 1, 0) for n in range(20_001)]
        for table, debts, row, kind in [
            (A_B, [("A", "C", 1, 1)], 1, "unknown bank"),
            (A_B, [("A", "B", 1, 1), ("A", "A", 1, 1)], 2, "self debt"),
            (A_B, [("A", "B", 0, 1)], 1, "class"),
            (A_B, [("A", "B", 1, 1), ("B", "A", 1, 1), ("A", "B", 1, 5)], 3, "double debt"),
            (A_B, [("A", "B", 1, 10**6 + 1)], 1, "limit"),
            (MANY, claims, 11, "total"),
            (MANY, pairs, 20_001, "too many"),
        ]:
            with self.subTest(kind=kind):
                record = tuple(map(str, debts[row - 1]))
                check = Network(table, debts, limits="standard").check
                self.assertEqual(self.refused(check), ("debts", row, kind, record))

    def test_each_fault_of_a_raise_has_its_record(self):
        net = Network(A_B, A_TO_B)
        for journal, row, kind in [
            ([(1, "A", "B", 1, 7), (2, "A", "C", 1, 7)], 2, "unknown bank"),
            ([(1, "B", "A", 1, 7)], 1, "unknown debt"),
            ([(2**32, "A", "B", 1, 7)], 1, "limit"),
        ]:
            with self.subTest(kind=kind):
                record = tuple(map(str, journal[row - 1]))
                self.assertEqual(self.refused(lambda: net.replay(journal)), ("journal", row, kind, record))

    def test_a_bank_that_no_network_has_is_a_fault_of_the_words(self):
        net = Network(A_B, A_TO_B)
        for name in ("C", " A"):
            self.assertEqual(self.refused(lambda: net.rescue(name)), ("words", 0, "unknown bank", name))

    def test_files_as_they_come(self):
        debts = self.file("d.csv", "debtor,creditor,class,claim\n")
        for text, row, kind, record in [
            ("", 0, "header", None),
            ("Name,cash,rule\n", 0, "header", ("Name", "cash", "rule")),
            ('name,cash,rule\n\n,,\r\rA,7,order\n"B\n",7,order\n', 3, "name", ("B\n", "7", "order")),
            ("name,cash,rule\nA, 7x\t,order\n", 1, "number", ("A", "7x", "order")),
            ("name,cash,rule\nA,7\n", 1, "fields", ("A", "7")),
            ("name,cash,rule\nA,7,order\n" + "x" * 8_388_608, 0, "file size", None),
        ]:
            with self.subTest(text=text[:40]):
                net = Network(self.file("b.csv", text), debts, limits="standard")
                self.assertEqual(self.refused(net.check), ("banks", row, kind, record))
        net = Network(self.file("b.csv", b"name,cash,rule\nCr\xe9dit,7,order\n"), debts)
        self.assertEqual(self.refused(net.check), ("banks", 1, "name", ("Cr\ufffddit", "7", "order")))

    def test_scenarios(self):
        net = Network(A_B, A_TO_B)
        good = Scenario("good")
        for wrong, kind in [
            (Scenario("x", 1001), "limit"),
            (Scenario("x", -1), "limit"),
            (Scenario("", 1), "name"),
            (Scenario("x", losses={"C": 1}), "unknown bank"),
            (Scenario("x", losses=[("A", 1), ("A", 1)]), "double bank"),
            (Scenario("x", losses={"A": 10**12 + 1}), "limit"),
            (Scenario("x\ny"), "name"),
            (Scenario('"'), "name"),
        ]:
            with self.subTest(wrong=wrong):
                self.assertEqual(self.refused(lambda: net.stress([good, wrong])), ("scenarios", 2, kind, wrong))
        self.assertEqual(self.refused(lambda: net.stress([good] * 101)), ("scenarios", 101, "too many", good))
        for document, row, kind in [
            ("scenario = 3\n", 0, "shape"),
            ("[[scenario\n", 0, "toml"),
            ("[[scenario]]\n", 1, "shape"),
        ]:
            with self.subTest(document=document):
                path = self.file("s.toml", document)
                self.assertEqual(self.refused(lambda: net.stress(path)), ("scenarios", row, kind, None))
        for wrong in (7.5, True, None, "7"):
            with self.assertRaises(cc.TableError):
                Scenario("x", cut=wrong)
            with self.assertRaises(cc.TableError):
                Scenario("x", losses={"A": wrong})
        for wrong in (7, {"cut": 7}, {"name": "x", "cuts": 7}, {"name": 7}):
            with self.subTest(wrong=wrong), self.assertRaises(cc.TableError):
                Scenarios([wrong])
        with self.assertRaises(cc.TableError):
            net.stress([Scenario("\ud800")])


class Statuses(Case):
    def raised(
        self, kind: Any, script: Optional[str] = None, call: Callable[[Any], object] = lambda net: net.clear()
    ) -> Any:
        if script is not None:
            self.program(script)
        with self.assertRaises(kind) as caught:
            call(Network(A_B, A_TO_B))
        self.assertIs(type(caught.exception), kind)
        self.assertIsInstance(caught.exception, cc.ClearingError)
        return caught.exception

    def test_2_words_that_are_not_understood(self):
        for call in (
            lambda net: net.clear(workers=0),
            lambda net: net.costs(1001),
            lambda net: net.defaults(sweeps="x"),
            lambda net: net.rescue("-X"),
            lambda net: net.rescue(""),
            lambda net: cc.generate(0, 0, 0),
        ):
            self.assertEqual(self.raised(cc.UsageError, call=call).status, 2)
        self.assertIn("--workers", self.raised(cc.UsageError, call=lambda net: net.clear(workers=0)).words)
        with self.assertRaises(cc.TableError):
            Network(A_B, A_TO_B).rescue("A\0")

    def test_3_a_file_that_cannot_be_read(self):
        fault = self.raised(cc.UnreadableError, 'echo "clearing: cannot read /x y" >&2; exit 3')
        self.assertEqual((fault.status, fault.file), (3, "/x y"))
        for banks in (self.folder / "no", self.folder, "a\0b"):
            with self.assertRaises(cc.UnreadableError) as caught:
                Network(banks, CHAIN / "debts.csv")
            self.assertEqual(caught.exception.file, str(banks))

    def test_5_6_and_8(self):
        self.assertEqual(self.raised(cc.OutputError, 'echo "clearing: cannot write the output" >&2; exit 5').status, 5)
        self.assertEqual(self.raised(cc.OutOfMemoryError, 'echo "clearing: out of memory" >&2; exit 6').status, 6)
        fault = self.raised(cc.NoProgramError, 'echo "clearing: the build failed" >&2; exit 8')
        self.assertEqual((fault.status, str(fault)), (8, "clearing: the build failed"))

    def test_no_program_and_other_programs(self):
        self.assertIsNone(self.raised(cc.NoProgramError, "", lambda net: self.without_program(net)).status)
        self.assertEqual(self.raised(cc.StatusError, "kill -9 $$").status, -9)
        self.assertIn("gone", str(self.raised(cc.StatusError, "echo gone >&2; exit 77")))
        self.assertEqual(self.raised(cc.StatusError, "exit 4").status, 4)
        self.raised(cc.TextError, "exit 0")
        self.raised(cc.TextError, "echo hello")
        self.raised(cc.TextError, "printf 'lawful,0\\n\\ndebtor,creditor,class,claim,paid\\n'")
        text = "debtor,creditor,class,claim,paid\\nA,B,1,10,7"
        self.raised(cc.TextError, f"printf '{text}'")

    def without_program(self, net: Network) -> None:
        os.environ["CLEARING"] = str(self.folder / "none")
        net.clear()

    def test_a_file_that_is_no_program(self):
        path = self.file("clearing", b"\x7fELF no")
        path.chmod(0o755)
        self.addCleanup(os.environ.__setitem__, "CLEARING", os.environ["CLEARING"])
        os.environ["CLEARING"] = str(path)
        with self.assertRaises(cc.NoProgramError):
            Network(A_B, A_TO_B).clear()

    def test_an_interrupt_ends_the_run(self):
        self.program(f"echo $$ > {self.folder}/pid; exec sleep 60")

        def interrupt() -> None:
            while not (self.folder / "pid").exists() or not (self.folder / "pid").read_text().strip():
                time.sleep(0.01)
            # Not before the run waits for the program: a signal just before would be seen only when that ends.
            time.sleep(0.3)
            signal.pthread_kill(threading.main_thread().ident, signal.SIGINT)

        threading.Thread(target=interrupt, daemon=True).start()
        from_start = time.monotonic()
        with self.assertRaises(KeyboardInterrupt):
            Network(A_B, A_TO_B).clear()
        self.assertLess(time.monotonic() - from_start, 30)
        with self.assertRaises(ProcessLookupError):
            os.kill(int((self.folder / "pid").read_text()), 0)

    def test_much_text_on_both_streams(self):
        self.program(
            'i=0; while [ $i -lt 3000 ]; do echo "a message that fills the pipe of messages, again and again" >&2; '
            'i=$((i + 1)); done; echo "debtor,creditor,class,claim,paid"'
        )
        self.assertEqual(len(Network(A_B, []).clear().payments), 0)

    def test_missing_packages_are_named(self):
        with self.assertRaisesRegex(cc.MissingPackageError, "python3-nothing_of_this_name") as caught:
            cc.errors.package("nothing_of_this_name", "to_pandas")
        self.assertIsInstance(caught.exception, ImportError)


class OtherProcesses(Case):
    def test_exceptions_networks_and_results_go_to_other_processes(self):
        faults = [
            cc.RefusedError("banks", 3, "rule", 5, ("A", "7", "none")),
            cc.TableError("debts", 2, "claim", 7.5, "not whole"),
            cc.UsageError(("clear", "--workers")),
            cc.UnreadableError("x"),
            cc.OutputError(),
            cc.OutOfMemoryError(),
            cc.NoProgramError("none", 8),
            cc.StatusError(-9, "gone"),
            cc.TextError(3, "no"),
            cc.MissingPackageError("x", "y"),
        ]
        for fault in faults:
            again = pickle.loads(pickle.dumps(fault))
            self.assertEqual((type(again), str(again), vars(again)), (type(fault), str(fault), vars(fault)))
        net = Network(A_B, A_TO_B)
        for one in (
            net.clear(journal=True),
            net.stress([Scenario("x", 3, {"A": 1})]),
            Scenario("x", 3, {"A": 1}),
            net.banks,
        ):
            self.assertEqual(pickle.loads(pickle.dumps(one)), one)
        self.assertEqual(pickle.loads(pickle.dumps(net)).clear(), net.clear())


class TemporaryFolders(Case):
    def test_nothing_is_left_behind(self):
        before = tempfile.tempdir
        self.addCleanup(setattr, tempfile, "tempdir", before)
        tempfile.tempdir = str(self.folder)
        Network(*[CHAIN / "banks.csv", CHAIN / "debts.csv"]).stress([Scenario("x")])
        with self.assertRaises(cc.RefusedError):
            Network([("A", 7, "none")], []).check()
        self.assertEqual(list(self.folder.iterdir()), [])


if __name__ == "__main__":
    unittest.main()
