"""Evidence that begins at the sheets of which the two files were made."""
import itertools
import json
import os
import pathlib
import shutil
from typing import Any

from evidences import EvidenceCase, evidence

TOTALS = "bank,assets,liabilities,cash\nA,100,60,20\nB,50,90,10\nC,70,40,30\nD,30,60,5\n"
LIST = "lender,borrower,amount,currency\nB,A,10,EUR\nA,B,4,USD\nB,A,10,EUR\n"


class Source(EvidenceCase):
    def make(self, command: str) -> Any:
        return evidence("make", self.folder / "evidence", "--source", command, cwd=self.folder)

    def given(self) -> str:
        self.file("list.csv", LIST)
        self.file("table.csv", "bank,cash\nA,3\nB,5\n")
        self.file("rates.csv", "currency,rate\nEUR,1\nUSD,0.5\n")
        return (
            "from_list.py list.csv --table table.csv --debtor borrower --creditor lender --duplicates once --rate"
            " currency=rates.csv"
        )

    def test_the_sheets_and_the_command_are_kept_and_the_files_made_anew(self):
        done = self.make(self.given())
        self.assertEqual((done.returncode, done.stderr), (0, b""))
        folder = self.folder / "evidence"
        kept = {path.name for path in (folder / "source").iterdir()}
        self.assertEqual(kept, {"1-list.csv", "3-table.csv", "11-rates.csv", "command.tsv", "summary.csv"})
        self.assertEqual((folder / "source/1-list.csv").read_text(), LIST)
        self.assertEqual((folder / "inputs/debts.csv").read_text(), "debtor,creditor,class,claim\nA,B,1,10\nB,A,1,2\n")
        done = evidence("check", folder)
        self.assertEqual((done.returncode, done.stderr), (0, b""))
        for line in (
            "source: inputs/banks.csv same",
            "source: inputs/debts.csv same",
            "source: source/summary.csv same",
            "checked: the two files are what the command in source/ makes of the sheets",
        ):
            self.assertIn(line, done.stdout.decode().splitlines())

    def test_totals_are_kept_and_the_network_made_anew(self):
        self.file("totals.csv", TOTALS)
        for method, claims in (("sparse", 4), ("sample", 5)):
            done = self.make(f"from_totals.py totals.csv --method {method} --seed 7 --steps 200")
            self.assertEqual((done.returncode, done.stderr), (0, b""))
            folder = self.folder / "evidence"
            self.assertEqual(
                {path.name for path in (folder / "source").iterdir()}, {"1-totals.csv", "command.tsv", "summary.csv"}
            )
            made = (folder / "inputs/debts.csv").read_text().splitlines()
            self.assertGreaterEqual(len(made), claims)
            done = evidence("check", folder)
            self.assertEqual((done.returncode, done.stderr), (0, b""))
            self.assertIn(
                "checked: the two files are what the command in source/ makes of the sheets",
                done.stdout.decode().splitlines(),
            )
            # Another seed makes other claims.
            command = folder / "source/command.tsv"
            command.write_text(command.read_text().replace("word\t7\n", "word\t8\n"))
            self.sums_anew(folder)
            done = evidence("check", folder)
            self.assertEqual(done.returncode, 5, method)
            self.assertIn("source: inputs/debts.csv differs\n", done.stdout.decode())
            shutil.rmtree(folder)

    CLAIMS = ',"A, Inc.",B,cash,full,country\n"A, Inc.",0,6.5,3,"Alpha, Inc.",DE\nB,2,0,4,,FR\n'

    def case(self, *words: Any) -> pathlib.Path:
        """A case of a matrix, with names that need a code."""
        self.file("m.csv", self.CLAIMS)
        said = [
            "--unit=0.5",
            "--decimal=.",
            "--label-column=full",
            "--country-column=country",
            "--currency=EUR",
            "--title=Two banks",
        ]
        self.told("clearing-from-matrix", self.folder / "m.csv", *said, "--case", self.folder / "case", *words)
        return self.folder / "case"

    def test_a_case_is_kept_with_its_names_its_description_and_its_sheets(self):
        done = evidence("make", self.folder / "evidence", "--case", self.case("--keep-sources"))
        self.assertEqual((done.returncode, done.stderr), (0, b""))
        folder = self.folder / "evidence"
        self.assertEqual(
            {path.name for path in (folder / "inputs").iterdir()},
            {"banks.csv", "debts.csv", "labels.csv", "datapackage.json"},
        )
        self.assertIn('A Inc.,,"Alpha, Inc.",,DE', (folder / "inputs/labels.csv").read_text())
        done = evidence("check", folder)
        self.assertEqual((done.returncode, done.stderr), (0, b""))
        self.assertIn("source: inputs/labels.csv same\n", done.stdout.decode())
        # Another name than the sheets say, and another than was described.
        labels = folder / "inputs/labels.csv"
        labels.write_text(labels.read_text().replace("Alpha", "Omega"))
        self.sums_anew(folder)
        done = evidence("check", folder)
        self.assertEqual(done.returncode, 4)
        for line in (
            "inputs/datapackage.json: labels.csv is not the file that was described",
            "source: inputs/labels.csv differs",
        ):
            self.assertIn(f"{line}\n", done.stdout.decode())

    def test_a_case_without_its_sheets_or_that_was_changed(self):
        place = self.case()
        done = evidence("make", self.folder / "evidence", "--case", place)
        self.assertEqual((done.returncode, done.stderr), (0, b""))
        self.assertFalse((self.folder / "evidence/source").exists())
        self.assertEqual(evidence("check", self.folder / "evidence").returncode, 0)
        with open(place / "banks.csv", "a") as file:
            file.write("\n")
        done = evidence("make", self.folder / "other", "--case", place)
        self.assertEqual((done.returncode, (self.folder / "other").exists()), (4, False))
        self.assertIn("banks.csv is not the file that was described", done.stderr.decode())
        # Once it is described anew, its sheets make another file.
        shutil.rmtree(place)
        place = self.case("--keep-sources")
        (place / "banks.csv").write_text((place / "banks.csv").read_text().replace(",6,", ",7,"))
        self.made("clearing-case", "refresh", place)
        done = evidence("make", self.folder / "other", "--case", place)
        self.assertEqual(done.returncode, 0)
        self.assertIn(
            "the sheets of the case do not make its banks.csv any more; they are left out", done.stderr.decode()
        )
        self.assertFalse((self.folder / "other/source").exists())

    def test_the_sheets_of_a_case_are_read_through_no_link(self):
        """Whether the description has them among its files or not."""
        for number, (name, is_described) in enumerate(itertools.product(("sources", "sources/m.csv"), (True, False))):
            with self.subTest(name=name, is_described=is_described):
                shutil.rmtree(self.folder / "case", ignore_errors=True)
                place = self.case("--keep-sources")
                outside = self.folder / f"outside-{number}"
                os.rename(place / name, outside)
                os.symlink(outside, place / name)
                if not is_described:
                    path = place / "datapackage.json"
                    document = json.loads(path.read_text())
                    document["resources"] = [one for one in document["resources"] if "/" not in one["path"]]
                    path.write_text(json.dumps(document))
                done = evidence("make", self.folder / "evidence", "--case", place)
                self.assertEqual((done.returncode, (self.folder / "evidence").exists()), (4, False))
                self.assertIn(" is a link, or stands behind one; a case has files alone", done.stderr.decode())

    def test_the_command_of_a_case_names_no_file_but_its_sheets(self):
        """What stands in the description of somebody else's case has no file of this machine copied."""
        secret = self.file("secret.csv", "bank,cash\nsecret,1\n")
        for word in (f"--drop={secret}", str(secret), "secret.csv", "--drop=secret.csv", "../secret.csv"):
            with self.subTest(word=word):
                shutil.rmtree(self.folder / "case", ignore_errors=True)
                shutil.rmtree(self.folder / "evidence", ignore_errors=True)
                path = self.case("--keep-sources") / "datapackage.json"
                document = json.loads(path.read_text())
                document["clearing"]["import"]["command"].append(word)
                path.write_text(json.dumps(document))
                done = evidence("make", self.folder / "evidence", "--case", self.folder / "case", cwd=self.folder)
                self.assertEqual((done.returncode, (self.folder / "evidence").exists()), (done.returncode or 1, False))
        # A source that is no copy in the folder is none of its sheets.
        path = self.case("--keep-sources", "--replace") / "datapackage.json"
        document = json.loads(path.read_text())
        document["sources"][0]["path"] = "../secret.csv"
        document["clearing"]["import"]["command"][1] = "../secret.csv"
        path.write_text(json.dumps(document))
        done = evidence("make", self.folder / "evidence", "--case", self.folder / "case")
        self.assertEqual((done.returncode, done.stderr), (0, b""))
        self.assertFalse((self.folder / "evidence/source").exists())

    def test_a_command_with_labels_is_kept_as_it_was_run(self):
        self.file("m.csv", self.CLAIMS)
        done = self.make(
            "bin/clearing-from-matrix m.csv --unit 0.5 --decimal . --label names.csv --label-column full --drop country"
            " --banks b.csv --debts=d.csv --title x"
        )
        self.assertEqual((done.returncode, done.stderr), (0, b""))
        folder = self.folder / "evidence"
        self.assertNotIn("names.csv", (folder / "source/command.tsv").read_text())
        self.assertIn('A Inc.,,"Alpha, Inc.",,', (folder / "inputs/labels.csv").read_text())
        done = evidence("check", folder)
        self.assertEqual((done.returncode, done.stderr), (0, b""))
        (folder / "inputs/labels.csv").unlink()
        self.sums_anew(folder)
        self.assertIn("source: inputs/labels.csv differs\n", evidence("check", folder).stdout.decode())

    def test_files_of_other_sheets_are_found(self):
        self.make(self.given())
        folder = self.folder / "evidence"
        sheet = folder / "source/1-list.csv"
        sheet.write_text(LIST.replace("4,USD", "6,USD"))
        self.sums_anew(folder)
        done = evidence("check", folder)
        self.assertEqual(done.returncode, 5)
        self.assertIn("source: inputs/debts.csv differs\n", done.stdout.decode())
        self.assertIn("not so: the two files are", done.stdout.decode())
        # A sheet that the tool refuses makes no files.
        sheet.write_text(LIST.replace("10", "ten"))
        self.sums_anew(folder)
        done = evidence("check", folder)
        self.assertEqual(done.returncode, 5)
        self.assertIn(
            "source: from_list: source/1-list.csv row 2 column amount: 'ten' is not an amount\n",
            done.stdout.decode().replace("-c:", "from_list:"),
        )

    def test_a_command_that_reads_or_writes_elsewhere_is_not_run(self):
        self.make(self.given())
        folder = self.folder / "evidence"
        command = folder / "source/command.tsv"
        whole = command.read_text()
        written = self.folder / "written.csv"
        for line in (
            f"word\t--label={written}\n",
            "word\t--summary\n",
            "word\t--banks=x.csv\n",
            "word\t/etc/passwd\n",
            "word\t--table=/etc/passwd\n",
            "word\tx=../../y\n",
            "file\t\t../inputs/banks.csv\n",
            "file\t--label=\t1-list.csv\n",
            "other\n",
        ):
            command.write_text(whole + line)
            self.sums_anew(folder)
            done = evidence("check", folder)
            self.assertEqual(done.returncode, 3, line)
            self.assertIn("source/command.tsv is not a command that is run", (done.stdout + done.stderr).decode())
        self.assertFalse(written.exists())
        command.write_text(whole.replace("from_list.py", "sh"))
        self.sums_anew(folder)
        self.assertEqual(evidence("check", folder).returncode, 3)

    def test_what_is_no_command_makes_nothing(self):
        totals = self.file("totals.csv", TOTALS)
        for command, status, told in [
            (
                "sh -c x",
                2,
                b"--source begins with one of clearing-from-matrix, clearing-from-list, clearing-from-totals",
            ),
            (
                f"from_totals.py {totals} --method sample --samples 2",
                2,
                b"--source is of one network, and --samples makes several",
            ),
            ("from_list.py 'x", 2, b"--source is no command"),
            (self.given().replace("--duplicates once", ""), 4, b"the same in every column as a line before"),
        ]:
            done = self.make(command)
            self.assertEqual((done.returncode, done.stdout), (status, b""))
            self.assertIn(told, done.stderr)
            self.assertFalse((self.folder / "evidence").exists())
        done = evidence(
            "make", self.folder / "evidence", "--source", "clearing-from-list", "--banks", "b.csv", "--debts", "d.csv"
        )
        self.assertEqual(done.returncode, 2)
