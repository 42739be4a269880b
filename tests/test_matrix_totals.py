"""Lines of totals in a matrix are found by their names or their numbers, and must agree with the other lines."""
from imported import ImportCase


class Totals(ImportCase):
    """Rows and columns of totals that `clearing-from-matrix` meets."""

    def test_lines_of_totals_are_refused_by_name(self):
        text = ",A,B,C,{0},cash\nA,0,6,4,10,3\nB,2,0,8,10,4\nC,3,1,0,4,5\n{0},5,7,12,24,12\n"
        for name, why in [
            ("Total", "its name says so"),
            ("SUMME", "its name says so"),
            ("Banking system", "each of its cells is the sum of the others"),
        ]:
            sheet = self.file("m.csv", text.format(name))
            word = name if " " not in name else f"'{name}'"
            self.refused(
                "clearing-from-matrix",
                1,
                f"m.csv row 5: {name} is a row of totals: {why}; say --drop {word}, or --keep {word}",
                sheet,
                *self.files,
            )
            self.assertFalse(self.banks.exists())
            self.assertIn(
                f"control totals that agree: 1; {name} in ",
                self.told("clearing-from-matrix", sheet, "--drop", name, *self.files),
            )
            self.check(
                "name,cash,rule\nA,3,webster\nB,4,webster\nC,5,webster\n",
                "debtor,creditor,class,claim\nA,B,1,6\nA,C,1,4\nB,A,1,2\nB,C,1,8\nC,A,1,3\nC,B,1,1\n",
            )
            self.banks.unlink()
        # One of the two alone; sums of what is printed, which are off in the last digit; no cash in the line.
        for text, told in [
            (
                ",A,B,C,All banks,cash\nA,0,6,4,10,3\nB,2,0,8,10,4\nC,3,1,0,4,5\n",
                "column All banks: All banks is a column",
            ),
            (",A,B,C,cash\nA,0,6,4,3\nB,2,0,8,4\nC,3,1,0,5\nAll banks,5,7,12,\n", "row 5: All banks is a row"),
            (
                ",A,B,C,cash\nA,0,6.4,4.4,3\nB,2.4,0,8.4,4\nC,3.4,1.4,0,5\nAll banks,5.9,7.9,12.9,12\n",
                "row 5: All banks is a row",
            ),
        ]:
            self.refused("clearing-from-matrix", 1, told, self.file("m.csv", text), *self.files)
        self.refused("clearing-from-matrix", 1, "there is no Totals to drop", sheet, "--drop", "Totals", *self.files)

    def test_totals_without_a_name_are_found_by_their_numbers(self):
        text = ",A,B,C,{0},cash\nA,0,6,4,10,3\nB,2,0,8,10,4\nC,3,1,0,4,5\n{0},5,7,12,24,12\n"
        sheet = self.file("m.csv", text.format(""))
        told = (
            f"{sheet} row 5: a row of totals that has no name: each of its cells is the sum of the others; say "
            "--drop '', or --keep '' if it is a bank\n"
        )
        self.refused("clearing-from-matrix", 1, told, sheet, *self.files)
        self.assertIn(
            "control totals that agree: 1; the line without a name in ",
            self.told("clearing-from-matrix", sheet, "--drop", "", *self.files),
        )
        self.assertEqual(
            self.debts.read_text(),
            "debtor,creditor,class,claim\nA,B,1,6\nA,C,1,4\nB,A,1,2\nB,C,1,8\nC,A,1,3\nC,B,1,1\n",
        )

    def test_wrong_totals_are_refused_with_both_numbers_and_the_cell(self):
        for name in ("Total", "All banks", ""):
            for row, column, right, wrong, others in [
                (5, "B", "5,7,12", "5,8,12", 7),
                (3, name or "without a name", "8,10,4\n", "8,11,4\n", 10),
            ]:
                text = f",A,B,C,{name},cash\nA,0,6,4,10,3\nB,2,0,8,10,4\nC,3,1,0,4,5\n{name},5,7,12,24,12\n".replace(
                    right, wrong, 1
                )
                sheet = self.file("m.csv", text)
                says = (
                    f"{name or 'the line without a name'} says {8 if row == 5 else 11}, and the others come to "
                    f"{others}: correct the sheet, or delete the line of totals"
                )
                place = f"m.csv row {row} column {column}: " if column != "without a name" else f"m.csv row {row}: "
                # Whether it is to be dropped or not, nothing is made.
                for more in ([], ["--drop", name]):
                    self.refused("clearing-from-matrix", 1, place + says, sheet, *more, *self.files)
                self.nothing_made()
        # One that is left empty says nothing.
        sheet = self.file("m.csv", ",A,B,C,cash\nA,0,6,4,3\nB,2,0,8,4\nC,3,1,0,5\nTotal,,7,12,\n")
        self.told("clearing-from-matrix", sheet, "--drop", "Total", *self.files)
        # A bank that is left out is no line of totals.
        sheet = self.file("m.csv", ",A,B,C,cash\nA,0,6,4,3\nB,2,0,8,4\nC,3,1,0,5\n")
        self.refused("clearing-from-matrix", 1, "C is no line of totals", sheet, "--drop", "C", *self.files)
        self.told("clearing-from-matrix", sheet, "--leave-out", "C", *self.files)
        self.assertEqual(self.debts.read_text(), "debtor,creditor,class,claim\nA,B,1,6\nB,A,1,2\n")

    def test_a_total_that_is_wrong_is_told_in_the_row_of_a_bank_that_is_left_out(self):
        sheet = self.file("m.csv", ",A,B,C,Total,cash\nA,0,6,4,10,3\nB,2,0,8,10,4\nC,3,1,0,11,5\n")
        says = "m.csv row 4 column Total: Total says 11, and the others come to 4: correct the sheet"
        for more in ([], ["--leave-out", "C"]):
            self.refused("clearing-from-matrix", 1, says, sheet, *more, *self.files)

    def test_a_bank_that_owes_the_sum_of_the_others_may_be_kept(self):
        text = ",A,B,C,cash\nA,0,5,0,1\nB,0,0,3,1\nC,0,5,3,2\n"
        self.refused("clearing-from-matrix", 1, "C is a row of totals", self.file("m.csv", text), *self.files)
        text = ",A,B,C,cash\nA,0,5,3,2\nB,0,0,3,1\nC,0,5,0,1\n"
        sheet = self.file("m.csv", text)
        self.refused("clearing-from-matrix", 1, "A is a row of totals", sheet, *self.files)
        self.told("clearing-from-matrix", sheet, "--keep", "A", *self.files)
        self.assertEqual(self.debts.read_text(), "debtor,creditor,class,claim\nA,B,1,5\nA,C,1,3\nB,C,1,3\nC,B,1,5\n")
        # With cash of its own in a table it is a bank.
        table = self.file("t.csv", ",cash\nA,7\nB,1\nC,1\n")
        self.told(
            "clearing-from-matrix",
            self.file("n.csv", ",A,B,C\nA,0,5,3\nB,0,0,3\nC,0,5,0\n"),
            "--table",
            table,
            *self.files,
        )
