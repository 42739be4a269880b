"""Cases from sheets, and the tools that take one: what is said of a case reaches what they print, and what is said
beside decides."""
import json
import os
import pathlib
import re
import shutil
import unittest
from typing import List

import common
from common import CHAIN, TWELVE, Case, Word, files_of, needs_packages

import clearing_client as cc

MATRIX = ',A,B,C,Kasse,Name,Land,Gruppe,Kurz\nA,0,6.5,4,3,"Alpha, S.A.",DE,G,Alp\nB,2,0,8,4,Beta,FR,,\nC,3,1,0,5,C,,,\n'
SAID = [
    "--cash=Kasse",
    "--unit=0.5",
    "--decimal=.",
    "--currency=EUR",
    "--as-of=2026-01-31",
    "--test=liquidity",
    "--title=Three banks",
]
DROPS = ["--drop=Name", "--drop=Land", "--drop=Gruppe", "--drop=Kurz"]
PLAIN = ["--cash=Kasse", "--unit=0.5", "--decimal=.", *DROPS]
LABELS = ["--label-column=Name", "--country-column=Land", "--group-column=Gruppe", "--short-column=Kurz"]


ONE_UNIT = (
    "case: B: one unit decides: where a unit is worth twice or half as much, the bank is in another state, or begins "
    "or ceases to keep anything. What is said of it is within the rounding of a unit.\n"
)
"""What is told of the chain of three banks where its case is described."""


def texts_of(picture: pathlib.Path) -> List[str]:
    """The texts of a picture by matplotlib, which has them as comments beside their outlines."""
    return [f">{text}<" for text in re.findall("<!-- (.*?) -->", picture.read_text(encoding="utf-8"))]


class Imported(Case):
    def setUp(self):
        super().setUp()
        self.place = self.folder / "case"

    def make(self, *words: Word, text: str = MATRIX) -> str:
        return self.told("clearing-from-matrix", self.file("m.csv", text), *SAID, *LABELS, "--case", self.place, *words)

    def test_a_case_has_what_the_words_and_the_sheet_say(self):
        told = self.make("--keep-sources", "--leave-out=self")
        case = cc.Case.read(self.place)
        self.assertEqual(
            (case.title, case.currency, str(case.unit), case.as_of.isoformat(), case.test),
            ("Three banks", "EUR", "0.5", "2026-01-31", "liquidity"),
        )
        self.assertEqual(
            list(case.labels.values()),
            [cc.Label("A", "Alp", "Alpha, S.A.", "G", "DE"), cc.Label("B", "", "Beta", "", "FR")],
        )
        self.assertEqual([(source.title, source.path) for source in case.sources], [("m.csv", "sources/m.csv")])
        self.assertEqual((self.place / "sources" / "m.csv").read_text(), MATRIX)
        self.assertEqual(case.notes, ())
        # The summary is what was told, and the command names no place outside.
        lines = [line for step in case.summary[1:] for line in step]
        self.assertEqual(len(lines), len(told.splitlines()))
        self.assertIn(cc.ImportLine("debts in the sheet", 6, "24.5"), lines)
        self.assertEqual(case.summary.command[:2], ("from_matrix.py", "sources/m.csv"))
        self.assertNotIn(str(self.folder), " ".join(case.summary.command))
        self.assertEqual(case.amount(13), case.unit * 13)

    def test_a_sheet_in_thousands_has_a_unit_in_the_currency(self):
        told = self.make("--amounts-in=1000")
        self.assertIn("amounts of the sheets are in: 1,000 EUR\n", told)
        self.assertIn("debts in the sheet: 6; 24.5 in all\n", told)
        case = cc.Case.read(self.place)
        self.assertEqual((str(case.unit), str(case.amount(13))), ("500", "6500"))
        self.assertIn(cc.ImportLine("debts in the sheet", 6, "24500"), case.summary.read)
        for word in ("0", "-1", "x"):
            self.refused(
                "clearing-from-matrix", 2, "is not a number above 0", "m.csv", "--amounts-in", word, "--case", "x"
            )

    def test_the_two_files_are_those_without_a_case(self):
        self.make()
        self.told(
            "clearing-from-matrix",
            self.folder / "m.csv",
            *PLAIN,
            "--banks",
            self.folder / "b",
            "--debts",
            self.folder / "d",
        )
        self.assertEqual((self.place / "banks.csv").read_bytes(), (self.folder / "b").read_bytes())
        self.assertEqual((self.place / "debts.csv").read_bytes(), (self.folder / "d").read_bytes())

    def test_names_that_the_program_refuses_get_codes_with_full_names(self):
        self.make(text=MATRIX.replace("A,0,", '"A, Inc.",0,').replace(",A,B", ',"A, Inc.",B'))
        self.assertEqual(cc.Case.read(self.place).labels["A Inc."].full, "Alpha, S.A.")

    def test_a_case_is_written_over_where_that_was_said_alone_and_keeps_its_scenarios(self):
        self.make("--keep-sources")
        (self.place / "scenarios.toml").write_text('[[scenario]]\nname = "half"\ncut = 500\n')
        before = (self.place / "banks.csv").read_bytes()
        sheet = self.file("m.csv", MATRIX.replace("B,2,0,8,4", "B,2,0,8,9"))
        self.refused(
            "clearing-from-matrix",
            1,
            "it is there; nothing is written over it; say --replace",
            sheet,
            *PLAIN,
            "--case",
            self.place,
        )
        self.assertEqual((self.place / "banks.csv").read_bytes(), before)
        self.told("clearing-from-matrix", sheet, *PLAIN, "--case", self.place, "--replace")
        case = cc.Case.read(self.place)
        self.assertEqual((case.title, case.labels, case.notes), ("Three banks", {}, ()))
        self.assertIn(b'name = "half"', case.scenarios)
        self.assertFalse((self.place / "sources").exists() or (self.place / "labels.csv").exists())
        (self.place / "thesis.docx").write_text("years of work")
        self.refused(
            "clearing-from-matrix", 1, "which is no part of a case", sheet, *PLAIN, "--case", self.place, "--replace"
        )

    def test_losses_in_units_do_not_stay_where_a_unit_is_worth_something_else(self):
        self.make()
        scenarios = self.place / "scenarios.toml"
        scenarios.write_text('[[scenario]]\nname = "x"\n[[scenario.loss]]\nbank = "A"\namount = 4\n')
        sheet = [self.folder / "m.csv", "--case", self.place, "--replace"]
        other = [word.replace("--unit=0.5", "--unit=0.25") for word in PLAIN]
        self.assertNotEqual(other, list(PLAIN))
        self.refused(
            "clearing-from-matrix",
            1,
            "scenarios.toml has losses in units of 0.5, and a unit is 0.25 now; remove it, and make it anew by"
            " clearing-case scenarios",
            *sheet,
            *other,
        )
        self.assertEqual(str(cc.Case.read(self.place).unit), "0.5")
        self.told("clearing-from-matrix", *sheet, *PLAIN)
        self.assertIn(b"amount = 4", cc.Case.read(self.place).scenarios)
        # A cut is of cash, whatever a unit is; and without the file nothing is in the way.
        scenarios.write_text('[[scenario]]\nname = "the amount of half"\ncut = 500\n')
        self.told("clearing-from-matrix", *sheet, *other)
        scenarios.unlink()
        self.told("clearing-from-matrix", *sheet, *PLAIN)
        self.assertEqual(str(cc.Case.read(self.place).unit), "0.5")

    def test_losses_say_what_they_are_in_where_the_sheets_of_the_case_were_not_in_single_amounts(self):
        self.make("--amounts-in=1000")
        sheet = self.file("s.csv", "bank,x\nA,2\n")
        self.refused(
            "clearing-case",
            1,
            f"the sheets of {self.place} are in 1,000 EUR: say --amounts-in 1000 if this one is too, else --amounts-in"
            " 1\n",
            "scenarios",
            self.place,
            sheet,
        )
        self.assertFalse((self.place / "scenarios.toml").exists())
        for word, units in ("1000", 4), ("500", 2):
            self.made("clearing-case", "scenarios", self.place, sheet, "--replace", "--amounts-in", word)
            self.assertIn(f"amount = {units}\n".encode(), cc.Case.read(self.place).scenarios)
        shares = self.file("shares.csv", "bank,x\nA,100%\n")
        self.made("clearing-case", "scenarios", self.place, shares, "--replace", "--share")

    def test_what_belongs_to_a_case_that_is_written_over_stays_or_is_told(self):
        """What the sheets say alone goes with them: the date, and labels of banks that get none."""
        self.make()
        case = cc.Case.read(self.place)
        case.contributors, case.version, case.keep = [{"title": "The desk"}], "2.1", 900
        case.description, case.others = "By hand.", {"licenses": [{"name": "CC0-1.0"}]}
        case.write(self.place, replace=True)
        sheet = self.file("m.csv", MATRIX)
        told = self.told("clearing-from-matrix", sheet, *PLAIN, "--case", self.place, "--replace")
        for what, gone in (("the date", "2026-01-31"), ("labels", "2; A, B")):
            self.assertIn(f"{what} of the case before, not kept: {gone}\n", told)
        case = cc.Case.read(self.place)
        self.assertEqual(
            (case.title, case.description, case.contributors, case.version, case.keep, case.test, case.currency),
            ("Three banks", "By hand.", ({"title": "The desk"},), "2.1", 900, "liquidity", "EUR"),
        )
        self.assertEqual((case.as_of, case.labels, case.others["licenses"]), (None, {}, [{"name": "CC0-1.0"}]))
        said = [word.replace("EUR", "USD").replace("liquidity", "solvency") for word in SAID]
        told = self.told("clearing-from-matrix", sheet, *said, *LABELS, "--case", self.place, "--replace")
        case = cc.Case.read(self.place)
        self.assertEqual((case.test, case.currency, case.author), ("solvency", "USD", "The desk"))
        told += self.make("--replace")
        self.assertNotIn("not kept", told)

    def test_nothing_behind_a_link_is_written_over_or_removed(self):
        other = self.folder / "else"
        other.mkdir()
        (other / "thesis.docx").write_text("years of work")
        (other / "m.csv").write_text("another's")
        before = {path.name: path.read_bytes() for path in other.iterdir()}
        sheet = self.file("m.csv", MATRIX)
        for words in ([], ["--keep-sources"]):
            for name, target in (("sources", other), ("sources/m.csv", other / "m.csv"), ("sources/x", other)):
                with self.subTest(name=name, words=words):
                    shutil.rmtree(self.place, ignore_errors=True)
                    self.make()
                    described = (self.place / "banks.csv").read_bytes()
                    (self.place / name).parent.mkdir(exist_ok=True)
                    os.symlink(target, self.place / name)
                    told = f"{name} is a link, or stands behind one"
                    line = [sheet, *PLAIN, "--unit=0.25", "--case", self.place, "--replace", *words]
                    self.refused("clearing-from-matrix", 1, told, *line)
                    self.assertEqual((self.place / "banks.csv").read_bytes(), described)
                    self.assertTrue((self.place / name).is_symlink())
                    self.assertEqual({path.name: path.read_bytes() for path in other.iterdir()}, before)

    def test_what_is_exchanged_for_a_link_later_is_not_removed(self):
        """A folder of sheets, once the case was looked at; and what the new case has not goes."""
        from clearing_tools.imports import made_case

        self.make("--keep-sources")
        os.rename(self.place / "sources", self.folder / "else")
        os.symlink(self.folder / "else", self.place / "sources")
        written = [str(self.place / name) for name in ("banks.csv", "debts.csv", "datapackage.json")]
        made_case.remove_stale(written)
        self.assertEqual((self.folder / "else" / "m.csv").read_text(), MATRIX)
        self.assertTrue((self.place / "banks.csv").exists())
        self.assertFalse((self.place / "labels.csv").exists())

    def test_each_importer_writes_one(self):
        listed = self.file("l.csv", "debtor,creditor,amount\nA,B,10\n")
        table = self.file("t.csv", "bank,cash,full\nA,1,Alpha\nB,2,Beta\n")
        self.told(
            "clearing-from-list",
            listed,
            "--table",
            table,
            "--label-column=full",
            "--case",
            self.folder / "list",
            "--currency=USD",
        )
        case = cc.Case.read(self.folder / "list")
        self.assertEqual(
            ([source.title for source in case.sources], case.labels["B"].full, case.currency),
            (["l.csv", "t.csv"], "Beta", "USD"),
        )
        totals = self.file("s.csv", "bank,assets,liabilities,cash\nA,20,30,1\nB,30,20,2\nC,10,10,3\n")
        self.told(
            "clearing-from-totals",
            totals,
            "--method=sample",
            "--samples=2",
            "--steps=100",
            "--case",
            self.folder / "samples",
            "--unit=0.5",
        )
        for number in ("1", "2"):
            self.assertEqual(str(cc.Case.read(self.folder / "samples" / number).unit), "0.5")

    def test_words_of_a_case_want_one(self):
        sheet = self.file("m.csv", MATRIX)
        self.refused(
            "clearing-from-matrix",
            2,
            "--title is for --case",
            sheet,
            "--title=x",
            "--banks",
            self.folder / "b",
            "--debts",
            self.folder / "d",
        )
        self.refused("clearing-from-matrix", 2, "the following arguments are required: --banks, --debts", sheet)
        self.refused(
            "clearing-from-matrix",
            2,
            "the following arguments are required: --debts",
            sheet,
            "--banks",
            self.folder / "b",
            "--case",
            self.place,
        )
        self.refused(
            "clearing-from-matrix", 2, "'2026-02-30' is no date", sheet, "--as-of=2026-02-30", "--case", self.place
        )
        self.refused(
            "clearing-from-matrix", 2, "'euro' is not a currency", sheet, "--currency=euro", "--case", self.place
        )


class Taken(Case):
    """Tools that take a case in place of the two files."""

    FILES = files_of(CHAIN)
    TOOLS = ["clearing-breaking", "clearing-impact", "clearing-rescues", "clearing-to-matrix", "clearing-lint"]

    def setUp(self):
        super().setUp()
        self.place = self.folder / "case"
        net = cc.Network(CHAIN / "banks.csv", CHAIN / "debts.csv")
        cc.Case(net, unit="0.01", currency="EUR", labels=[cc.Label("A", full="Alpha")]).write(self.place)

    def test_each_prints_what_it_prints_of_the_files(self):
        for name in self.TOOLS:
            with self.subTest(tool=name):
                plain = self.made(name, *self.FILES)
                done = common.tool(name, *(["--unit=1"] if name == "clearing-to-matrix" else []), self.place)
                self.assertEqual((done.returncode, done.stdout), (0, plain))
                self.assertIn(done.stderr, ("", ONE_UNIT))
                # A folder with the two files alone is a case too.
                self.assertEqual(self.made(name, CHAIN), plain)

    @needs_packages("matplotlib")
    def test_a_picture_has_full_names(self):
        done = common.tool("clearing-impact", self.place, "--picture", self.folder / "p.svg")
        self.assertEqual((done.returncode, done.stderr), (0, ONE_UNIT))
        self.assertTrue({">Alpha<", ">B ≈<"} <= set(texts_of(self.folder / "p.svg")))

    def test_rescues_tell_the_banks_that_one_unit_decides(self):
        done = common.tool("clearing-rescues", self.place)
        self.assertEqual((done.returncode, done.stderr), (0, ONE_UNIT))

    @needs_packages("matplotlib")
    def test_pictures_of_breaking_and_of_draws_have_full_names_the_currency_and_marks(self):
        picture, past = self.folder / "p.svg", self.file("past.csv", "time,A,B\none,9,1\ntwo,2,3\n")
        done = common.tool("clearing-breaking", self.place, "--picture", picture)
        self.assertEqual((done.returncode, done.stderr), (0, ONE_UNIT))
        self.assertTrue({">Alpha<", ">B ≈<"} <= set(texts_of(picture)), texts_of(picture))
        common.tool("clearing-breaking", self.place, "--loss=A", "--picture", picture)
        self.assertIn(">loss of Alpha, in units<", texts_of(picture))
        done = common.tool("clearing-draws", self.place, "--past", past, "--draws=20", "--picture", picture)
        self.assertEqual((done.returncode, done.stderr), (0, ONE_UNIT))
        want = {">Alpha<", ">B ≈<", ">unpaid in the network, EUR<"}
        self.assertTrue(want <= set(texts_of(picture)), texts_of(picture))

    @needs_packages("matplotlib")
    def test_pictures_of_what_the_program_printed_take_the_case_beside(self):
        scenarios = self.file("s.toml", '[[scenario]]\nname = "half"\ncut = 500\n')
        words = {"clear": [], "defaults": [], "stress": ["--scenarios", scenarios]}
        texts = {task: self.file(f"{task}.txt", self.printed(task, *self.FILES, *more)) for task, more in words.items()}
        picture = self.folder / "p.svg"
        for words in (
            ["clearing-who-pays", texts["clear"], texts["defaults"], "--output", picture],
            ["clearing-shortfalls", texts["defaults"], picture],
            ["clearing-stress-map", texts["stress"], picture],
        ):
            with self.subTest(tool=words[0]):
                done = common.tool(*words, "--case", self.place)
                self.assertEqual((done.returncode, done.stderr), (0, ONE_UNIT))
                text = picture.read_text(encoding="utf-8")
                self.assertIn("Alpha", text)
                self.assertIn("B ≈", text)
        output = ["--output", self.place / "labels.csv", "--case", self.place]
        self.refused("clearing-who-pays", 1, "nothing is written over it", texts["clear"], texts["defaults"], *output)

    def test_what_is_said_beside_decides(self):
        files = {
            "case": self.place,
            "banks": self.file("b.csv", (CHAIN / "banks.csv").read_text().replace("A,", "A,9", 1)),
        }
        done = common.tool("clearing-to-matrix", files["case"], "--unit=1", "--banks", files["banks"])
        self.assertEqual(
            done.stdout, self.made("clearing-to-matrix", "--banks", files["banks"], "--debts", CHAIN / "debts.csv")
        )
        self.assertIn("0.0", self.made("clearing-to-matrix", self.place))
        self.assertNotIn("0.0", self.made("clearing-to-matrix", self.place, "--unit=1"))

    def test_a_file_that_is_another_is_told_in_a_line(self):
        with open(self.place / "banks.csv", "a") as file:
            file.write("\n")
        for name in self.TOOLS:
            done = common.tool(name, self.place)
            told = "case: banks.csv is not the file that was described\n"
            self.assertEqual((done.returncode, done.stderr.removesuffix(ONE_UNIT)), (0, told), name)

    def test_what_is_no_case_is_refused(self):
        for name in self.TOOLS:
            self.refused(name, 3, "there is no such folder", self.folder / "none")
            (self.folder / "empty").mkdir(exist_ok=True)
            self.refused(name, 4, "it has no banks.csv, and is no case", self.folder / "empty")
            self.refused(name, 2, "the following arguments are required: --banks, --debts")

    def test_no_file_of_a_case_is_written_over(self):
        self.refused("clearing-breaking", 2, "would be written over", self.place, "--output", self.place / "labels.csv")
        self.refused(
            "clearing-breaking", 2, "would be written over", self.place, "--output", self.place / "datapackage.json"
        )

    def test_amounts_are_those_of_the_unit(self):
        text = self.file("d.csv", self.printed("clear", *self.FILES))
        self.made("clearing-tidy", text, "--case", self.place, "--folder", self.folder / "tidy")
        plain = (self.folder / "tidy" / "d-payments.csv").read_text()
        self.made("clearing-tidy", text, "--unit", "0.01", "--folder", self.folder / "tidy2")
        self.assertEqual(plain, (self.folder / "tidy2" / "d-payments.csv").read_text())


class Command(Case):
    def setUp(self):
        super().setUp()
        self.place = self.folder / "case"
        shutil.copytree(TWELVE, self.place)

    def test_a_folder_is_described_shown_and_checked(self):
        self.assertIn("case: it has no datapackage.json", self.made("clearing-case", "check", self.place))
        self.made(
            "clearing-case",
            "refresh",
            self.place,
            "--title",
            "Twelve banks",
            "--unit",
            "1000",
            "--currency",
            "EUR",
            "--as-of",
            "2026-01-31",
            "--default-keeps",
            "900",
            "--test",
            "solvency",
            "--text",
            self.file("t.md", "What *they* owe.\n"),
        )
        self.assertEqual(self.made("clearing-case", "check", self.place), "the case is as it is described\n")
        self.assertEqual(
            self.made("clearing-case", "show", self.place),
            (
                "title: Twelve banks\nas of: 2026-01-31\ntest: solvency\ndefault keeps: 900 per mille\n"
                "amounts: in EUR; a unit of account is EUR 1,000\nbanks: 12; cash EUR 25,120,002,000\n"
                "debts: 40; EUR 9,750,000,000\n\nWhat *they* owe.\n"
            ),
        )

    def test_what_was_changed_is_told_until_it_is_described_anew(self):
        self.made("clearing-case", "refresh", self.place)
        with open(self.place / "debts.csv", "a") as file:
            file.write("Nobody,Kemi,1,7\n")
        done = common.tool("clearing-case", "check", self.place)
        self.assertEqual(done.returncode, 1)
        self.assertIn("case: debts.csv is not the file that was described\n", done.stdout)
        self.assertIn("unknown bank (8)", done.stdout)
        text = (self.place / "debts.csv").read_text().replace("Nobody,Kemi,1,7\n", "")
        (self.place / "debts.csv").write_text(text)
        self.made("clearing-case", "refresh", self.place)
        self.assertEqual(common.tool("clearing-case", "check", self.place).returncode, 0)

    def test_labels_of_no_bank_are_told(self):
        (self.place / "labels.csv").write_text("bank,short,full,group,country\nKemmi,,Kemin Pankki,,FI\n")
        self.made("clearing-case", "refresh", self.place)
        done = common.tool("clearing-case", "check", self.place)
        self.assertEqual(
            (done.returncode, done.stdout), (1, "case: labels.csv has 1 names of no bank, such as Kemmi\n1 told\n")
        )

    def test_a_description_that_is_wrong_is_refused_with_its_key(self):
        self.made("clearing-case", "refresh", self.place)
        path = self.place / "datapackage.json"
        document = json.loads(path.read_text())
        document["clearing"]["unit"] = "1,000"
        path.write_text(json.dumps(document))
        for task in ("show", "check", "refresh"):
            self.refused("clearing-case", 4, "clearing.unit: '1,000' is not of the form", task, self.place)


if __name__ == "__main__":
    unittest.main()
