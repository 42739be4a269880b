"""`clearing-gen-files` writes the network that `gen` makes of the same words."""
from typing import List
from common import Case


class GenFiles(Case):
    def seven_lines(self, banks: str, debts: str) -> List[str]:
        """The lines of the task `gen`, told from what `check` and `defaults` print of two files."""
        lines = self.printed("check", "--banks", banks, "--debts", debts).splitlines()[:4]
        table = self.printed("defaults", "--banks", banks, "--debts", debts).splitlines()
        estate, paid, owed, equity, failed = table[-2].removeprefix("total,").split(",")
        return lines + [f"paid,{paid}", f"defaults,{failed}", f"equity,{equity}"]

    def test_files_have_the_seven_sums_of_gen(self):
        banks, debts = self.file("banks.csv"), self.file("debts.csv")
        for seed, size, tries in [
            (0, 1, 0),
            (1, 1, 20),
            (7, 2, 30),
            (3, 40, 300),
            (2**64 - 1, 1000, 5000),
            (11, 9, 400),
        ]:
            with self.subTest(seed=seed, size=size, tries=tries):
                words = ["--seed", seed, "--size", size, "--tries", tries]
                self.assertEqual(self.made("clearing-gen-files", *words, "--banks", banks, "--debts", debts), "")
                said = self.printed("gen", *words).splitlines()
                self.assertEqual(self.seven_lines(banks, debts), said)

    def test_files_are_in_the_form_that_check_prints(self):
        banks, debts = self.file("banks.csv"), self.file("debts.csv")
        self.made("clearing-gen-files", "--seed", 5, "--size", 20, "--tries", 99, "--banks", banks, "--debts", debts)
        said = self.printed("check", "--banks", banks, "--debts", debts).split("\n\n")
        self.assertEqual(said[1] + "\n", banks.read_text())
        self.assertEqual(said[2], debts.read_text())

    def test_first_banks_are_those_that_the_crate_tests_for(self):
        # The same values stand in the tests of the crate net_gen.
        for seed, want in [(0, "N0,8,webster\nN1,1547,order\nN2,1212,webster\n"), (1, "N0,737,equal\n")]:
            banks, debts = self.file("banks.csv"), self.file("debts.csv")
            self.made(
                "clearing-gen-files", "--seed", seed, "--size", 3, "--tries", 0, "--banks", banks, "--debts", debts
            )
            self.assertTrue(banks.read_text().startswith("name,cash,rule\n" + want))

    def test_words_out_of_form_are_refused(self):
        files = ["--banks", self.file("banks.csv"), "--debts", self.file("debts.csv")]
        for seed, size, tries in [(2**64, 3, 3), (1, 0, 3), (1, 1001, 3), (1, 3, 20001), ("-1", 3, 3), ("٣", 3, 3)]:
            self.refused(
                "clearing-gen-files",
                2,
                "is not a number from",
                f"--seed={seed}",
                f"--size={size}",
                f"--tries={tries}",
                *files,
            )

    def test_both_files_are_written_or_none(self):
        words = ["--seed", 1, "--size", 3, "--tries", 9]
        banks = self.file("banks.csv", "kept")
        self.refused("clearing-gen-files", 1, "cannot write", *words, "--banks", banks, "--debts", "/dev/full")
        self.refused("clearing-gen-files", 1, "are one file", *words, "--banks", banks, "--debts", banks)
        self.refused("clearing-gen-files", 1, "a folder", *words, "--banks", banks, "--debts", self.folder)
        self.refused("clearing-gen-files", 1, "cannot write", *words, "--banks", banks, "--debts", banks / "debts.csv")
        self.assertEqual((banks.read_text(), list(self.folder.iterdir())), ("kept", [banks]))
