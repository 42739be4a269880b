"""A case: a folder that keeps a network and what belongs to it, and what is refused of one."""
import hashlib
import json
import os
import pathlib
import shutil
import unittest
import unittest.mock
from decimal import Decimal
from typing import Any, Callable, Dict

from common import CHAIN, Case as TestCase, needs, needs_packages

import clearing_client as cc
from clearing_client import case as case_of_package
from clearing_client import description
from clearing_client.schema import faults_of

WHOLE = {
    "title": "Two banks, at the end of January",
    "description": "What *A* owes B.",
    "as_of": "2026-01-31",
    "test": "solvency",
    "currency": "EUR",
    "unit": "0.010",
    "limits": "wide",
    "keep": 900,
    "version": "1.0",
    "labels": [cc.Label("A", "Al", 'Alpha, "plc"', "G", "DE"), cc.Label("B", full="Beta")],
    "scenarios": [cc.Scenario("half", cut=500)],
    "contributors": [{"title": "Ada", "roles": ["author"], "desk": 4}],
    "sources": [cc.Source("list.csv", "sources/list.csv", f"sha256:{'0' * 64}")],
    "summary": cc.ImportSummary(("from_list.py", "sources/list.csv"), (cc.ImportLine("rows", 3, "7.50", "list.csv"),)),
    "origin": cc.Origin("One bank", {"banks.csv": f"sha256:{'1' * 64}"}, ("A has 7.",)),
}


def two_banks() -> cc.Network:
    return cc.Network({"A": 7, "B": 1}, {("A", "B"): 10})


class Folders(TestCase):
    def setUp(self):
        super().setUp()
        self.place = self.folder / "case"

    def written(self, **more: Any) -> cc.Case:
        case = cc.Case(two_banks(), **more)
        case.write(self.place)
        return case

    def changed(self, change: Callable[[Any], None]) -> None:
        """The folder with a description that was changed."""
        path = self.place / "datapackage.json"
        document = json.loads(path.read_text(encoding="utf-8"))
        change(document)
        path.write_text(json.dumps(document), encoding="utf-8")


class Reading(Folders):
    def test_all_that_is_written_is_read_back(self):
        made = self.written(**WHOLE)
        read = cc.Case.read(self.place)
        for key in (*WHOLE, "created"):
            self.assertEqual(getattr(read, key), getattr(made, key), key)
        self.assertEqual(read.notes, ())
        self.assertEqual(read.network.banks, two_banks().banks)
        self.assertEqual(read.author, "Ada")
        # And written again it is the same, byte by byte.
        self.assertEqual(read.files(), made.files())

    def test_amounts_are_exact(self):
        read = self.written(**WHOLE) and cc.Case.read(self.place)
        self.assertEqual(read.amount(10**12 + 1), Decimal("10000000000.01"))
        self.assertEqual(cc.Case(two_banks(), unit=20000).amount(3), Decimal(60000))
        for unit in (0.1, True, "0", "-1", "nan", "1e50", "x"):
            with self.assertRaises(cc.CaseError) as fault:
                cc.Case(two_banks(), unit=unit)
            self.assertEqual(fault.exception.key, "clearing.unit")

    def test_two_files_alone_are_a_case_without_a_description(self):
        shutil.copytree(CHAIN, self.place)
        read = cc.Case.read(self.place)
        self.assertEqual((read.unit, read.currency, read.title, read.notes, read.labels), (1, None, "", (), {}))
        self.assertFalse(read.is_described)

    def test_a_file_that_is_another_is_told(self):
        self.written(**WHOLE)
        for name in ("banks.csv", "debts.csv", "labels.csv", "scenarios.toml"):
            with open(self.place / name, "a") as file:
                file.write("\n")
            self.assertIn(f"{name} is not the file that was described", cc.Case.read(self.place).notes)
        os.unlink(self.place / "labels.csv")
        self.assertIn("labels.csv is described, and is not there", cc.Case.read(self.place).notes)

    def test_the_last_byte_of_a_long_file_is_looked_at(self):
        """A checksum is one of the whole file, however many blocks it is read in."""
        text = b"# " + b"x" * (3 << 20) + b"\n"
        self.written(scenarios=text)
        document = json.loads((self.place / "datapackage.json").read_text(encoding="utf-8"))
        described = {resource["path"]: resource["hash"] for resource in document["resources"]}
        self.assertEqual(described["scenarios.toml"], f"sha256:{hashlib.sha256(text).hexdigest()}")
        self.assertEqual(cc.Case.read(self.place).notes, ())
        (self.place / "scenarios.toml").write_bytes(text[:-2] + b"y\n")
        self.assertEqual(cc.Case.read(self.place).notes, ("scenarios.toml is not the file that was described",))

    def test_a_file_that_nobody_described_is_told(self):
        self.written()
        (self.place / "labels.csv").write_text("bank,short,full,group,country\nA,,Alpha,,\n")
        read = cc.Case.read(self.place)
        self.assertEqual((read.notes, read.labels["A"].full), (("labels.csv is not described",), "Alpha"))

    def test_a_label_is_kept_whole_however_long_it_is(self):
        for count in (64, 65, 80, 1000):
            text = ("Ärzte- und Apothekerbank, e. G. " * count)[:count].strip()
            label = cc.Label("A", *(f"{at}{text}" for at in range(4)))
            cc.Case(two_banks(), labels=[label]).write(self.folder / str(count))
            self.assertEqual(cc.Case.read(self.folder / str(count)).label("A"), label)

    def test_names_equal_but_for_capitals_have_a_label_each(self):
        full = {"Ash": "Ash Bank of the North", "ASH": "ASH Holding", "ash": "ash, a cooperative"}
        labels = [cc.Label(name, full=long) for name, long in full.items()]
        cc.Case(cc.Network(dict.fromkeys(full, 1), {}), labels=labels).write(self.place)
        read = cc.Case.read(self.place)
        self.assertEqual({name: read.label(name).full for name in (*full, "aSH")}, {**full, "aSH": ""})

    def test_keys_of_others_are_kept_and_unknown_ones_of_ours_told(self):
        self.written()

        def change(document: Any) -> None:
            document["licenses"] = [{"name": "CC0"}]
            document["resources"][0]["title"] = "Banks"
            document["clearing"]["colour"] = "red"

        self.changed(change)
        read = cc.Case.read(self.place)
        self.assertEqual(read.notes, ("the key clearing.colour is unknown",))
        again = json.loads(read.files()["datapackage.json"])
        self.assertEqual(again["licenses"], [{"name": "CC0"}])
        self.assertEqual(again["resources"][0]["title"], "Banks")
        self.assertEqual(again["clearing"]["colour"], "red")


class Refused(Folders):
    # A change of the description, and the key and the words that are told.
    CHANGES = [
        (lambda it: it["clearing"].update(unit=1), "clearing.unit", "1 is not of the type string"),
        (lambda it: it["clearing"].update(unit="1,5"), "clearing.unit", "'1,5' is not of the form"),
        (lambda it: it["clearing"].update(unit="0.00"), "clearing.unit", "'0.00' is not of the form"),
        (lambda it: it["clearing"].update(unit="1\n"), "clearing.unit", "is not of the form"),
        (lambda it: it["clearing"].update(currency="euro"), "clearing.currency", "'euro' is not of the form"),
        (lambda it: it["clearing"].update(test="both"), "clearing.test", "'both' is not one of liquidity, solvency"),
        (lambda it: it["clearing"].update(limits=None), "clearing.limits", "None is not one of standard, wide"),
        (lambda it: it["clearing"].update(keep=1001), "clearing.keep", "1001 is above 1000"),
        (lambda it: it["clearing"].update(keep=True), "clearing.keep", "True is not of the type integer"),
        (lambda it: it["clearing"].update(asOf="2026-02-30"), "clearing.asOf", "'2026-02-30' is no date"),
        (lambda it: it["clearing"]["import"]["read"][0].pop("what"), "clearing.import.read[0]", "it has no key what"),
        (
            lambda it: it["clearing"]["import"]["read"][0].update(sum="1e3"),
            "clearing.import.read[0].sum",
            "is not of the form",
        ),
        (lambda it: it["clearing"]["from"]["hashes"].update(x="md5:1"), "clearing.from.hashes.x", "is not of the form"),
        (lambda it: it.update(clearing=[]), "clearing", "[] is not of the type object"),
        (lambda it: it.update(title=7), "title", "7 is not of the type string"),
        (lambda it: it.pop("resources"), "", "it has no key resources"),
        (lambda it: it["resources"].clear(), "resources", "it has fewer than 1 in it"),
        (
            lambda it: it["resources"][0].update(path="../banks.csv"),
            "resources[0].path",
            "is not a path below the folder",
        ),
        (
            lambda it: it["resources"][0].update(path="a/../banks.csv"),
            "resources[0].path",
            "is not a path below the folder",
        ),
        (lambda it: it["resources"][0].update(path="/etc/passwd"), "resources[0].path", "is not of the form"),
        (lambda it: it["resources"][0].update(path="https://x.org/b.csv"), "resources[0].path", "is not a path below"),
        (lambda it: it["resources"][0].update(path="C:\\banks.csv"), "resources[0].path", "is not a path below"),
        (lambda it: it["resources"][0].update(path="debts.csv"), "resources[1].path", "is described twice"),
    ]

    def test_a_description_that_does_not_meet_the_schema_is_refused_by_its_key(self):
        for change, key, what in self.CHANGES:
            with self.subTest(what=what):
                shutil.rmtree(self.place, ignore_errors=True)
                self.written(**WHOLE)
                self.changed(change)
                with self.assertRaises(cc.CaseError) as fault:
                    cc.Case.read(self.place)
                self.assertEqual(fault.exception.key, key)
                self.assertIn(what, fault.exception.what)

    def test_what_is_no_json_is_refused(self):
        self.written()
        for data in (
            b"",
            b"\xff",
            b"[]",
            b"{",
            b'{"resources": 1, "resources": 2}',
            b'{"resources": NaN}',
            b"[" * 10**6,
            b'{"a":' * 10**5,
            b" " * (description.MOST_BYTES + 1),
        ):
            with self.subTest(data=data[:20]):
                (self.place / "datapackage.json").write_bytes(data)
                with self.assertRaises(cc.CaseError):
                    cc.Case.read(self.place)

    def test_links_are_refused(self):
        for name in ("banks.csv", "debts.csv", "labels.csv", "scenarios.toml", "datapackage.json"):
            with self.subTest(name=name):
                shutil.rmtree(self.place, ignore_errors=True)
                self.written(**WHOLE)
                os.rename(self.place / name, self.folder / name)
                os.symlink(self.folder / name, self.place / name)
                with self.assertRaises(cc.CaseError) as fault:
                    cc.Case.read(self.place)
                self.assertIn("link", fault.exception.what)

    def test_links_behind_which_a_described_file_stands_are_refused(self):
        self.written()
        (self.folder / "else").mkdir()
        (self.folder / "else" / "sheet.csv").write_text("x")
        os.symlink(self.folder / "else", self.place / "sources")
        self.changed(lambda it: it["resources"].append({"name": "sheet", "path": "sources/sheet.csv"}))
        with self.assertRaises(cc.CaseError):
            cc.Case.read(self.place)

    def test_links_and_folders_in_the_place_of_sheets_are_refused(self):
        """Whether a description names them or not; and what stands behind a link stays."""
        other = self.folder / "else"
        other.mkdir()
        (other / "thesis.csv").write_text("years of work")
        for what, made in (
            ("sources is a link", lambda place: os.symlink(other, place)),
            ("sources is no folder", lambda place: place.write_text("")),
            (
                "sources/a.csv is a link",
                lambda place: (place.mkdir(), os.symlink(other / "thesis.csv", place / "a.csv")),
            ),
            ("sources/a is a link", lambda place: (place.mkdir(), os.symlink(other, place / "a"))),
            ("sources/a is no file", lambda place: (place / "a").mkdir(parents=True)),
            ("sources/a is no file", lambda place: (place.mkdir(), os.mkfifo(place / "a"))),
        ):
            with self.subTest(what=what):
                shutil.rmtree(self.place, ignore_errors=True)
                self.written()
                made(self.place / "sources")
                with self.assertRaisesRegex(cc.CaseError, what):
                    cc.Case.read(self.place)
                with self.assertRaisesRegex(cc.CaseError, what):
                    cc.Case(two_banks()).write(self.place, replace=True)
                self.assertEqual((other / "thesis.csv").read_text(), "years of work")

    def test_what_is_exchanged_for_a_link_later_is_not_read(self):
        """A folder above a file, once it was looked at."""
        self.written(sources=[cc.Source("a.csv", "sources/a.csv")])
        (self.place / "sources").mkdir()
        (self.place / "sources" / "a.csv").write_text("own")
        (self.folder / "else").mkdir()
        (self.folder / "else" / "a.csv").write_text("secret")
        looked = case_of_package.is_file_in

        def exchanged(place: Any, path: str) -> Any:
            found = looked(place, path)
            if path.startswith("sources/") and not os.path.islink(self.place / "sources"):
                os.rename(self.place / "sources", self.place / "before")
                os.symlink(self.folder / "else", self.place / "sources")
            return found

        read = cc.Case.read(self.place)
        with unittest.mock.patch.object(case_of_package, "is_file_in", exchanged):
            with self.assertRaisesRegex(cc.CaseError, "sources/a.csv is a link"):
                read.sheets()

    def test_what_is_no_folder_and_no_file_is_refused(self):
        with self.assertRaises(cc.UnreadableError):
            cc.Case.read(self.place)
        self.place.write_text("")
        with self.assertRaises(cc.CaseError):
            cc.Case.read(self.place)
        self.place.unlink()
        self.written()
        os.unlink(self.place / "debts.csv")
        with self.assertRaisesRegex(cc.CaseError, "it has no debts.csv"):
            cc.Case.read(self.place)
        os.mkfifo(self.place / "debts.csv")
        with self.assertRaisesRegex(cc.CaseError, "debts.csv is no file"):
            cc.Case.read(self.place)

    def test_labels_of_another_form_are_refused(self):
        self.written(labels=[cc.Label("A", full="Alpha")])
        for text in (
            "",
            "code,name\nA,Alpha\n",
            "bank,short,full,group,country\nA,B\n",
            "bank,short,full,group,country\nA,,,,\nA,,,,\n",
            'bank,short,full,group,country\n"A,,,,\n',
        ):
            with self.subTest(text=text):
                (self.place / "labels.csv").write_text(text)
                with self.assertRaises(cc.CaseError):
                    cc.Case.read(self.place)


class Writing(Folders):
    def test_a_folder_is_written_over_where_that_was_said_alone(self):
        self.written(title="One")
        before = {path.name: path.read_bytes() for path in self.place.iterdir()}
        with self.assertRaisesRegex(cc.CaseError, "it is there"):
            cc.Case(two_banks(), title="Two").write(self.place)
        self.assertEqual({path.name: path.read_bytes() for path in self.place.iterdir()}, before)
        cc.Case(two_banks(), title="Two").write(self.place, replace=True)
        self.assertEqual(cc.Case.read(self.place).title, "Two")
        self.assertEqual([path.name for path in self.folder.iterdir()], ["case"])

    def test_a_folder_with_what_is_no_part_of_a_case_is_not_written_over(self):
        self.written()
        (self.place / "thesis.docx").write_text("years of work")
        with self.assertRaisesRegex(cc.CaseError, "thesis.docx, which is no part of a case"):
            cc.Case(two_banks()).write(self.place, replace=True)
        self.assertTrue((self.place / "thesis.docx").exists())
        os.symlink(self.place, self.folder / "link")
        with self.assertRaisesRegex(cc.CaseError, "it is no folder"):
            cc.Case(two_banks()).write(self.folder / "link", replace=True)

    def test_a_case_that_is_read_and_written_again_keeps_its_sheets(self):
        sheets = {"list.csv": b"debtor,creditor,amount\nA,B,10\n", "banks of January.xlsx": bytes(range(256))}
        sources = [cc.Source(name, f"sources/{name}", description.hash_of(data)) for name, data in sheets.items()]
        made = cc.Case(two_banks(), title="Two", sources=sources)
        made.write(self.place, sources=sheets)

        def files(place: pathlib.Path) -> Dict[str, bytes]:
            return {
                path.relative_to(place).as_posix(): path.read_bytes() for path in place.rglob("*") if path.is_file()
            }

        before = files(self.place)
        self.assertEqual({name for name in before if "/" in name}, {f"sources/{name}" for name in sheets})
        read = cc.Case.read(self.place)
        self.assertEqual((read.sheets(), read.notes, list(read.sources)), (sheets, (), sources))
        read.write(self.folder / "again")
        read.write(self.place, replace=True)
        for place in (self.folder / "again", self.place):
            self.assertEqual(files(place), before)
            self.assertEqual(cc.Case.read(place).notes, ())
        # Others, or none, where that is said.
        read.write(self.folder / "none", sources={})
        self.assertEqual(set(files(self.folder / "none")), {"banks.csv", "debts.csv", "datapackage.json"})
        # One that is gone meanwhile cannot be written: nothing is written over.
        os.unlink(self.place / "sources" / "list.csv")
        there = files(self.place)
        with self.assertRaisesRegex(cc.UnreadableError, "not there any more"):
            read.write(self.place, replace=True)
        self.assertEqual(files(self.place), there)

    def test_copies_of_sheets_keep_their_order_however_many_there_are(self):
        sheets = {f"sheet {number}.csv": b"%d" % number for number in (3, 12, 1, 11, 2, 10, 4, 9, 5, 8, 6, 7)}
        made = cc.Case(two_banks())
        made.write(self.place, sources=sheets)
        read = cc.Case.read(self.place)
        self.assertEqual(list(read.sheets().items()), list(sheets.items()))
        self.assertEqual(read.files(), made.files(sheets))

    def test_a_sheet_is_looked_at_whatever_its_length(self):
        """It may be longer than any file of a network."""
        cc.Case(two_banks()).write(self.place, sources={"a.csv": b"x" * 3000})
        with unittest.mock.patch.object(case_of_package, "WIDE_BYTES", 2000):
            self.assertEqual(cc.Case.read(self.place).notes, ())
            (self.place / "sources" / "a.csv").write_bytes(b"x" * 2999 + b"y")
            self.assertEqual(cc.Case.read(self.place).notes, ("sources/a.csv is not the file that was described",))

    def test_nothing_is_left_where_a_file_cannot_be_written(self):
        case = cc.Case(two_banks())
        with self.assertRaises(OSError):
            case.write(self.place, sources={"x" * 300: b""})
        self.assertEqual(list(self.folder.iterdir()), [])

    def test_the_description_is_in_a_fixed_order(self):
        self.written(**WHOLE)
        text = (self.place / "datapackage.json").read_text(encoding="utf-8")
        document = json.loads(text)
        self.assertEqual(list(document), list(description.KEYS))
        self.assertEqual(list(document["clearing"]), list(description.OURS))
        self.assertTrue(text.startswith('{\n  "$schema": ') and text.endswith("}\n"))
        self.assertIn("Two banks, at the end of January", text)
        self.assertEqual(
            [one["path"] for one in document["resources"]], ["banks.csv", "debts.csv", "scenarios.toml", "labels.csv"]
        )


class Standard(Folders):
    @needs_packages("jsonschema")
    def test_a_plain_checker_of_schemas_agrees(self):
        import jsonschema

        schema = description.schema()
        jsonschema.Draft7Validator.check_schema(schema)
        for change in [None, *(change for change, _, _ in Refused.CHANGES)]:
            shutil.rmtree(self.place, ignore_errors=True)
            self.written(**WHOLE)
            if change:
                self.changed(change)
            document = json.loads((self.place / "datapackage.json").read_text(encoding="utf-8"))
            if document.get("clearing") and document["clearing"]["unit"] == "1\n":
                continue  # Python's `$` passes over a line end, which the standard's does not.
            ours = bool(list(faults_of(document, schema)))
            self.assertEqual(ours, not jsonschema.Draft7Validator(schema).is_valid(document), document)

    @needs_packages("pandas")
    def test_pandas_reads_the_tables_by_their_schemas(self):
        import pandas

        self.written(**WHOLE)
        document = json.loads((self.place / "datapackage.json").read_text(encoding="utf-8"))
        kinds = {"string": "object", "integer": "int64"}
        tables = {}
        for resource in document["resources"]:
            if resource["format"] != "csv":
                continue
            fields = resource["schema"]["fields"]
            types = {field["name"]: kinds[field["type"]] for field in fields}
            tables[resource["name"]] = pandas.read_csv(
                self.place / resource["path"], dtype=types, encoding=resource["encoding"]
            )
            self.assertEqual(list(tables[resource["name"]].columns), [field["name"] for field in fields])
        self.assertEqual(tables["debts"].claim.sum(), 10)
        self.assertEqual(list(tables["labels"].full), ['Alpha, "plc"', "Beta"])
        self.assertTrue(set(tables["debts"].debtor) <= set(tables["banks"].name))

    @needs("Rscript")
    def test_r_reads_the_tables(self):
        import subprocess

        self.written(**WHOLE)
        script = 'banks <- read.csv("banks.csv"); debts <- read.csv("debts.csv"); labels <- read.csv("labels.csv")\n'
        script += "cat(sum(debts$claim), sum(banks$cash), all(debts$debtor %in% banks$name), labels$full[1])"
        done = subprocess.run(["Rscript", "-e", script], cwd=self.place, capture_output=True, text=True)
        self.assertEqual(done.stdout, '10 8 TRUE Alpha, "plc"', done.stderr)


if __name__ == "__main__":
    unittest.main()
