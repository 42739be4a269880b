"""`clearing-from-matrix` makes the two files of a matrix of debts, whichever way it lies, and `clearing-to-matrix`
makes a matrix of two files. Lines of totals are in `test_matrix_totals`, and amounts in `test_amounts`."""
from common import ROOT, tool
from imported import ImportCase

from clearing_tools.imports import options

# A network of three, with the columns that systemicrisk calls external assets and external liabilities.
MATRIX = ""","A","B","C","ea","el"
"A",0,6,4,3,0
"B",2,0,8.5,1e0,2
"C",3.0,1,,4,.5
"""


class TwoFiles(ImportCase):
    """What is written, and that it is written whole or not at all."""

    def test_the_name_of_a_workbook_is_no_file_to_write(self):
        sheet, told = self.file("m.csv", MATRIX), "what is written is CSV, and this is the name of a workbook"
        for name in ("x.xlsx", "X.XLSX", "x.ods", "x.xls"):
            other = self.folder / name
            for named in (["--banks", other, "--debts", self.debts], ["--banks", self.banks, "--debts", other]):
                self.refused(
                    "clearing-from-matrix", 2, told, sheet, "--cash", "ea", "--outside", "el", "--unit", "0.5", *named
                )
            self.refused(
                "clearing-from-list", 2, told, sheet, "--table", sheet, "--banks", self.banks, "--debts", other
            )
            self.refused("clearing-from-totals", 2, told, sheet, "--out", other)
            self.refused("clearing-from-matrix", 2, told, sheet, *self.files, "--label", other)
            self.assertFalse(other.exists() or self.banks.exists() or self.debts.exists())

    def test_matrix_becomes_two_files(self):
        names = ["--cash", "ea", "--outside", "el", "--unit", "0.5"]
        self.told("clearing-from-matrix", self.file("m.csv", MATRIX), *names, *self.files)
        self.check(
            "name,cash,rule,outside\nA,6,webster,0\nB,2,webster,4\nC,8,webster,1\n",
            "debtor,creditor,class,claim\nA,B,1,12\nA,C,1,8\nB,A,1,4\nB,C,1,17\nC,A,1,6\nC,B,1,2\n",
        )

    def test_names_equal_but_for_capitals_are_banks_each(self):
        """Also where what one of them owes stands below 0 in the line of the other."""
        sheet = self.file("m.csv", ",Ash,B,ASH,cash\nAsh,0,1,2,3\nB,4,0,-8,5\nASH,16,32,0,6\n")
        told = self.told("clearing-from-matrix", sheet, "--turn", "negative", *self.files)
        self.assertIn("debts summed, as one was turned round: 2; into 1\n", told)
        self.check(
            "name,cash,rule\nAsh,3,webster\nB,5,webster\nASH,6,webster\n",
            "debtor,creditor,class,claim\nAsh,B,1,1\nAsh,ASH,1,2\nB,Ash,1,4\nASH,B,1,40\nASH,Ash,1,16\n",
        )

    def test_the_input_stays_and_both_files_are_written_or_none(self):
        sheet = self.file("same.csv", MATRIX)
        table = self.file("table.csv", "bank,ea,el\nA,3,0\nB,1,2\nC,4,1\n")
        names = ["--cash", "ea", "--outside", "el", "--unit", "0.5"]
        for files, told in [
            ((sheet, self.debts), "also read"),
            ((self.banks, sheet), "also read"),
            ((self.banks, self.banks), "one file"),
            ((self.banks, self.folder), "a folder"),
            ((self.banks, "/dev/full"), "No space left"),
            ((self.banks, sheet / "debts.csv"), "cannot write"),
        ]:
            self.banks.write_text("kept")
            self.refused("clearing-from-matrix", 1, told, sheet, *names, "--banks", files[0], "--debts", files[1])
            self.assertEqual((sheet.read_text(), self.banks.read_text()), (MATRIX, "kept"))
            self.assertEqual(
                sorted(path.name for path in self.folder.iterdir()), ["banks.csv", "same.csv", "table.csv"]
            )
        self.refused(
            "clearing-from-matrix",
            1,
            "also read",
            self.file("m.csv", ",A,B,C\nA,0,6,4\nB,2,0,8\nC,3,1,0\n"),
            "--table",
            table,
            *names,
            "--banks",
            table,
            "--debts",
            self.debts,
        )


class Columns(ImportCase):
    """Which columns are banks, and which are cash, rules and what is owed outside."""

    def test_columns_may_owe_and_stand_in_any_order_beside_a_table(self):
        matrix = self.file("m.csv", "\ufefflender;Y;X\r\nX;7;0\r\nY;0;2\r\n")
        table = self.file("t.csv", "bank;equity;cash;rule\r\nY;1;5;order\r\nX;1;0;adams\r\n")
        self.told(
            "clearing-from-matrix",
            matrix,
            "--table",
            table,
            "--columns-owe",
            "--delimiter",
            ";",
            "--class",
            2,
            *self.files,
        )
        self.check("name,cash,rule\nX,0,adams\nY,5,order\n", "debtor,creditor,class,claim\nX,Y,2,2\nY,X,2,7\n")

    def test_a_column_that_is_named_is_there(self):
        beside = self.file("m.csv", ",A,B,cash,Outside,Regel\nA,0,6,3,1,order\nB,2,0,4,0,equal\n")
        matrix = self.file("n.csv", ",A,B\nA,0,6\nB,2,0\n")
        table = self.file("t.csv", "bank,cash,Outside,Regel\nA,3,1,order\nB,4,0,equal\n")
        right = ["--outside", "Outside", "--rule-column", "Regel"]
        for sheet, name in [([beside], "m.csv"), ([matrix, "--table", table], "t.csv")]:
            named = [("outside", "Outsde"), ("rule-column", "Regle"), ("outside", "outside"), ("rule-column", "rule")]
            for option, column in named:
                told = f"{name} row 1: no column {column}; it has cash, Outside, Regel; say --{option} NAME"
                self.refused("clearing-from-matrix", 1, told, *sheet, *right, f"--{option}", column, *self.files)
            self.nothing_made()
            self.told("clearing-from-matrix", *sheet, *right, *self.files)
            self.check(
                "name,cash,rule,outside\nA,3,order,1\nB,4,equal,0\n", "debtor,creditor,class,claim\nA,B,1,6\nB,A,1,2\n"
            )
            self.begin_anew()
        told = "n.csv row 1: no column Outside; it has no other; say --outside NAME"
        self.refused("clearing-from-matrix", 1, told, matrix, "--outside", "Outside", *self.files)

    def test_capitals_in_the_names_of_columns_do_not_matter(self):
        beside = self.file("m.csv", ",A,B,Cash,Outside,RULE\nA,0,6,3,1,order\nB,2,0,4,0,equal\n")
        matrix = self.file("n.csv", ",A,B\nA,0,6\nB,2,0\n")
        table = self.file("t.csv", "bank,CASH,Outside,RULE\nA,3,1,order\nB,4,0,equal\n")
        for sheet in ([beside], [matrix, "--table", table]):
            self.told("clearing-from-matrix", *sheet, *self.files)
            self.check(
                "name,cash,rule,outside\nA,3,order,1\nB,4,equal,0\n", "debtor,creditor,class,claim\nA,B,1,6\nB,A,1,2\n"
            )

    def test_which_of_two_columns_alike_is_meant_is_asked_for(self):
        beside = self.file(
            "m.csv", ",A,B,cash,Outside,outside,RULE,rule\nA,0,6,3,1,1,order,order\nB,2,0,4,0,0,equal,equal\n"
        )
        matrix = self.file("n.csv", ",A,B\nA,0,6\nB,2,0\n")
        table = self.file("t.csv", "bank,cash,Outside,outside,RULE,rule\nA,3,1,1,order,order\nB,4,0,0,equal,equal\n")
        for sheet, name in [([beside], beside), ([matrix, "--table", table], table)]:
            done = tool("clearing-from-matrix", *sheet, *self.files)
            self.assertEqual(
                (done.returncode, done.stdout, done.stderr),
                (
                    1,
                    "",
                    "".join(
                        f"clearing-from-matrix: {name} row 1 column {column}: its name is {column.lower()} but for"
                        f" capitals or spaces; say --{option} {column}, or rename it\n"
                        for column, option in [("Outside", "outside"), ("RULE", "rule-column")]
                    ),
                ),
            )
            self.told("clearing-from-matrix", *sheet, "--outside", "Outside", "--rule-column", "RULE", *self.files)
            self.check(
                "name,cash,rule,outside\nA,3,order,1\nB,4,equal,0\n", "debtor,creditor,class,claim\nA,B,1,6\nB,A,1,2\n"
            )

    def test_a_bank_may_have_such_a_name(self):
        self.told(
            "clearing-from-matrix", self.file("m.csv", ",Outside,Rule,cash\nOutside,0,6,3\nRule,2,0,4\n"), *self.files
        )
        self.check(
            "name,cash,rule\nOutside,3,webster\nRule,4,webster\n",
            "debtor,creditor,class,claim\nOutside,Rule,1,6\nRule,Outside,1,2\n",
        )
        told = "row 3: rule names a bank and a column that is none; use --table, or rename the column"
        self.refused(
            "clearing-from-matrix", 1, told, self.file("m.csv", ",A,rule,cash\nA,0,6,3\nrule,2,0,4\n"), *self.files
        )

    def test_a_column_that_may_be_owed_outside_is_asked_for(self):
        beside = self.file("m.csv", ",A,B,cash,deposits\nA,0,6,3,7\nB,2,0,4,8\n")
        matrix, table = self.file("n.csv", ",A,B\nA,0,6\nB,2,0\n"), self.file(
            "t.csv", "bank,cash,deposits\nA,3,7\nB,4,8\n"
        )
        for sheet, name in [([beside], beside), ([matrix, "--table", table], table)]:
            told = (
                f"{name} row 1 column deposits: it may be what is owed outside; say --outside deposits, or "
                "--no-outside\n"
            )
            self.refused("clearing-from-matrix", 1, told, *sheet, *self.files)
            self.nothing_made()
            self.told("clearing-from-matrix", *sheet, "--outside", "deposits", *self.files)
            self.check(
                "name,cash,rule,outside\nA,3,webster,7\nB,4,webster,8\n",
                "debtor,creditor,class,claim\nA,B,1,6\nB,A,1,2\n",
            )
            self.assertIn(
                "columns not looked at: 1; deposits\n",
                self.told("clearing-from-matrix", *sheet, "--no-outside", *self.files),
            )
            self.check("name,cash,rule\nA,3,webster\nB,4,webster\n", "debtor,creditor,class,claim\nA,B,1,6\nB,A,1,2\n")
            self.begin_anew()

    def test_what_is_owed_outside_in_several_columns_adds_up(self):
        columns = {"deposits": 1, "bonds": 2, "loans": 4, "leases": 8, "else": 16}
        text = f",A,B,cash,{','.join(columns)}\nA,0,6,3,{','.join(map(str, columns.values()))}\nB,2,0,4,0,,0,32,\n"
        words = [word for column in columns for word in ("--outside", column)]
        told = self.told("clearing-from-matrix", self.file("m.csv", text), *words, *self.files)
        self.assertIn("owed outside made: 2; 63 in all; in units of 1: 63\n", told)
        self.check(
            "name,cash,rule,outside\nA,3,webster,31\nB,4,webster,32\n",
            "debtor,creditor,class,claim\nA,B,1,6\nB,A,1,2\n",
        )

    def test_a_group_has_the_cash_of_all_its_banks(self):
        """Also where it is more than a binary fraction has exactly."""
        cash = [100_003 * units for units in (3 * 10**11, 3 * 10**11 + 1, 2 * 10**11 + 2)]
        lines = "".join(f"{name},0,0,0,{amount}\n" for name, amount in zip("ABC", cash))
        groups = self.file("g.csv", "bank,group\nA,G\nB,G\nC,G\n")
        words = ["--groups", groups, "--unit", "100003", *self.files]
        self.told("clearing-from-matrix", self.file("m.csv", f",A,B,C,cash\n{lines}"), *words)
        self.check("name,cash,rule\nG,800000000003,webster\n", "debtor,creditor,class,claim\n")

    def test_groups_equal_but_for_capitals_are_two(self):
        sheet = self.file("m.csv", ",A,B,C,cash\nA,0,1,2,3\nB,4,0,8,5\nC,16,32,0,6\n")
        groups = self.file("g.csv", "bank,group\nA,North\nB,NORTH\nC,North\n")
        told = self.told("clearing-from-matrix", sheet, "--groups", groups, *self.files)
        self.assertIn("groups: 2; of 3 banks\ndebts within groups, left out: 2; 18 in all\n", told)
        self.check(
            "name,cash,rule\nNorth,9,webster\nNORTH,5,webster\n",
            "debtor,creditor,class,claim\nNorth,NORTH,1,33\nNORTH,North,1,12\n",
        )

    def test_banks_of_the_table_alone_are_kept(self):
        matrix = self.file("m.csv", ",B,C\nA,6,4\nB,0,8\n")
        table = self.file("t.csv", "bank,cash\nD,9\nA,3\nB,4\nC,5\n")
        told = self.told("clearing-from-matrix", matrix, "--table", table, *self.files)
        self.assertIn("banks in no line of the matrix, kept: 1; D\n", told)
        self.check(
            "name,cash,rule\nA,3,webster\nB,4,webster\nC,5,webster\nD,9,webster\n",
            "debtor,creditor,class,claim\nA,B,1,6\nA,C,1,4\nB,C,1,8\n",
        )
        self.begin_anew()
        for missing in ("A", "C"):
            table = self.file("t.csv", "bank,cash\nD,9\nA,3\nB,4\nC,5\n".replace(f"{missing},", "X,"))
            done = tool("clearing-from-matrix", matrix, "--table", table, *self.files)
            self.assertEqual((done.returncode, done.stdout), (1, ""))
            self.assertRegex(
                done.stderr,
                f"no column of the name {missing}\n" if missing == "A" else f"column {missing}: no row of this name\n",
            )
        square = self.file("m.csv", ",A,B\nA,0,6\nB,2,0\n")
        self.refused(
            "clearing-from-matrix",
            1,
            "t.csv: no row for the bank B\n",
            square,
            "--table",
            self.file("t.csv", "bank,cash\nA,3\n"),
            *self.files,
        )


class Reading(ImportCase):
    """The forms of text in which a matrix is saved, and what is refused of them."""

    def test_tables_out_of_shape_are_refused(self):
        for told, text in [
            ("no column cash", ",A\nA,0\n"),
            ("column B: no row of this name\n", ",A,B,cash\nA,0,0,0\n"),
            (
                "m.csv row 1 column Bank name, row 1 column Land: no row of this name; if it tells of the banks, say"
                " --label-column, --short-column, --group-column or --country-column with its name, and if it is to"
                " be left out, --drop with its name\n",
                ",A,cash,Bank name,Land\nA,0,0,Alpha,DE\n",
            ),
            ("row 3: no column of the name B", ",A,cash\nA,0,0\nB,0,0\n"),
            ("row 3: 2 fields, and the header has 3", ",A,cash\nA,0,0\nB,0\n"),
            ("row 3: a second row of the name A", ",A,cash\nA,0,0\nA,0,0\n"),
            ("column A: a second column", ",A,A,cash\nA,0,0,0\n"),
            ("has one column alone", "x|A|cash\nA|0|0\n"),
            ("row 2: a quote opens a field and none closes it", ',A,cash\nA,0,"7\n'),
            ("has no record", ""),
            ("is not UTF-8; save it as UTF-8, or say its --encoding", "x,É,cash\nÉ,0,0\n".encode("cp1252")),
        ]:
            self.refused("clearing-from-matrix", 1, told, self.file("m.csv", text), *self.files)

    def test_all_faults_are_told_at_once(self):
        matrix = self.file("m.csv", ",A,B,cash,rule\nA,1,-2,1.5,order\nB,2000000,0,1.00x,pari\n")
        for told in [
            "m.csv row 2 column cash: 1.5 is not a whole number of units",
            "m.csv row 3 column rule: 'pari' is not one of",
            "m.csv row 2 column A: the diagonal is not 0",
            "m.csv row 3 column cash: '1.00x' is not an amount",
            "m.csv row 2 column B: '-2' is below 0; what a bank is owed stands as a debt of the bank that owes",
        ]:
            self.refused("clearing-from-matrix", 1, told, matrix, *self.files)
        # Limits are looked at where all amounts are known.
        matrix = self.file("m.csv", ",A,B,cash\nA,0,1000003,1\nB,2000000,0,1000000000002\n")
        for told in [
            "m.csv: the claim of A on B is 2,000,000, in units 2,000,000: 1,000,000 more than the most, 1,000,000",
            "m.csv: the claim of B on A is 1,000,003, in units 1,000,003: 3 more than the most, 1,000,000",
            (
                "m.csv: the cash of B is 1,000,000,000,002, in units 1,000,000,000,002: 2 more than the most, "
                "1,000,000,000,000"
            ),
            "m.csv: a unit of 2 keeps all limits on amounts (--unit 2 --round, or --unit auto)",
        ]:
            self.refused("clearing-from-matrix", 1, told, matrix, *self.files)
        self.assertFalse(self.banks.exists())

    def test_sheets_are_read_as_they_are_saved(self):
        text = "Exposures\n\nlender;É;B;cash;\nÉ;0;2;3;\nB;4;0;5\n;;;;\n"
        want = ("name,cash,rule\nÉ,3,webster\nB,5,webster\n", "debtor,creditor,class,claim\nÉ,B,1,2\nB,É,1,4\n")
        for data in [
            text.encode(),
            b"\xef\xbb\xbf" + text.replace("\n", "\r\n").encode(),
            text.replace(";", "\t").encode("utf-16"),
            text.replace("\n", "\r").encode(),
        ]:
            self.told("clearing-from-matrix", self.file("m.csv", data), "--skip", 1, *self.files)
            self.check(*want)
        self.told(
            "clearing-from-matrix",
            self.file("m.csv", text.encode("cp1252")),
            "--skip",
            1,
            "--encoding",
            "cp1252",
            *self.files,
        )
        self.check(*want)

    def test_a_delimiter_is_looked_for_outside_quotes(self):
        rows = "A;0;2;3;1\nB;4;0;5;0\n"
        want = (
            "name,cash,rule,outside\nA,3,webster,1\nB,5,webster,0\n",
            "debtor,creditor,class,claim\nA,B,1,2\nB,A,1,4\n",
        )
        for text, outside, more in [
            (';A;B;cash;"net, EUR"\n' + rows, "net, EUR", []),
            ('"lender, who";"A";"B";"cash";"net ""1,5"", EUR"\n' + rows, 'net "1,5", EUR', []),
            ('"of\r\n2025, all";A;B;cash;"net\n, EUR"\n' + rows, "net\n, EUR", []),
            ('\n"";" ";\n"Claims, 2025";\n;A;B;cash;"net, EUR"\n' + rows, "net, EUR", ["--skip", 3]),
            (';A;B;cash;net 5" wide\n' + rows + ";;;;\n", 'net 5" wide', []),
            (('\tA\tB\tcash\t"net; EUR"\n' + rows.replace(";", "\t")), "net; EUR", []),
            ((',A,B,cash,"net; EUR"\n' + rows.replace(";", ",")), "net; EUR", []),
        ]:
            self.told("clearing-from-matrix", self.file("m.csv", text), "--outside", outside, *more, *self.files)
            self.check(*want)
        # A comma of a bank's name is named as what it is.
        sheet = self.file("m.csv", ';"A, Inc.";B;cash\n"A, Inc.";0;2;3\nB;4;0;5\n')
        done = tool("clearing-from-matrix", sheet, *self.files)
        self.assertEqual(
            (done.returncode, done.stderr), (1, f"clearing-from-matrix: {sheet} row 2: 'A, Inc.' {options.NAME_HINT}\n")
        )


class Back(ImportCase):
    """The matrix that is made of two files."""

    def test_there_and_back_gives_the_same_matrix(self):
        self.told(
            "clearing-from-matrix",
            self.file("m.csv", MATRIX),
            "--cash",
            "ea",
            "--outside",
            "el",
            "--unit",
            "0.5",
            *self.files,
        )
        first = self.made("clearing-to-matrix", *self.files, "--unit", "0.5")
        self.assertEqual(
            first,
            (
                ",A,B,C,cash,outside,rule\nA,0.0,6.0,4.0,3.0,0.0,webster\n"
                "B,2.0,0.0,8.5,1.0,2.0,webster\nC,3.0,1.0,0.0,4.0,0.5,webster\n"
            ),
        )
        self.told("clearing-from-matrix", self.file("back.csv", first), "--unit", "0.5", *self.files)
        self.assertEqual(self.made("clearing-to-matrix", *self.files, "--unit", "0.5"), first)

    def test_classes_are_summed_or_one_is_taken(self):
        self.banks.write_text("name,cash,rule\nA,9,order\nB,0,order\n")
        self.debts.write_text("debtor,creditor,class,claim\nA,B,1,5\nA,B,3,7\n")
        self.assertEqual(
            self.made("clearing-to-matrix", *self.files), ",A,B,cash,rule\nA,0,12,9,order\nB,0,0,0,order\n"
        )
        self.assertEqual(
            self.made("clearing-to-matrix", *self.files, "--class", 3), ",A,B,cash,rule\nA,0,7,9,order\nB,0,0,0,order\n"
        )
        paid = self.file("paid.csv", self.printed("clear", *self.files, "--show", "both"))
        self.assertEqual(
            self.made("clearing-to-matrix", *self.files, "--payments", paid),
            ",A,B,cash,rule\nA,0,9,9,order\nB,0,0,0,order\n",
        )

    def test_payments_of_twelve_banks_come_to_what_defaults_says(self):
        files = [
            word
            for kind in ("banks", "debts")
            for word in (f"--{kind}", ROOT / "examples/twelve-banks" / f"{kind}.csv")
        ]
        paid = self.file("paid.csv", self.printed("clear", *files))
        rows = [row.split(",") for row in self.made("clearing-to-matrix", *files, "--payments", paid).splitlines()]
        table = [row.split(",") for row in self.printed("defaults", *files).splitlines()]
        for row, said in zip(rows[1:], table[1:]):
            self.assertEqual((row[0], sum(map(int, row[1:13]))), (said[0], int(said[2])))
        for place, said in enumerate(table[1:13], 1):
            receipts = sum(int(row[place]) for row in rows[1:])
            self.assertEqual(int(rows[place][13]) + receipts, int(said[1]))

    def test_payments_of_other_debts_are_refused(self):
        self.banks.write_text("name,cash,rule\nA,9,order\nB,0,order\n")
        self.debts.write_text("debtor,creditor,class,claim\nA,B,1,5\n")
        paid = self.file("paid.csv", "debtor,creditor,class,claim,paid\nA,B,1,6,5\n")
        self.refused("clearing-to-matrix", 1, "is not of the debts in", *self.files, "--payments", paid)
        self.refused("clearing-to-matrix", 1, "line 1: not the header", *self.files, "--payments", self.debts)

    def test_a_matrix_is_not_written_over_what_was_read(self):
        self.banks.write_text("name,cash,rule\nA,9,order\nB,0,order\n")
        self.debts.write_text("debtor,creditor,class,claim\nA,B,1,5\n")
        paid = self.file("paid.csv", self.printed("clear", *self.files))
        for name in (self.banks, self.debts, paid):
            before = name.read_bytes()
            self.refused(
                "clearing-to-matrix", 1, f"{name} is also read", *self.files, "--payments", paid, "--out", name
            )
            self.assertEqual(name.read_bytes(), before)

    def test_amounts_of_a_matrix_in_the_currency_are_exact(self):
        banks, debts = self.file("b.csv", "name,cash,rule\nA,7,order\nB,0,order\n"), self.file(
            "d.csv", "debtor,creditor,class,claim\nA,B,1,7\n"
        )
        words = ["--banks", banks, "--debts", debts]
        self.assertEqual(
            self.made("clearing-to-matrix", *words, "--unit", "1000000000000000.000000000000001"),
            (
                ",A,B,cash,rule\nA,0.000000000000000,7000000000000000.000000000000007,7000000000000000.000000000000007,"
                "order\n"
                "B,0.000000000000000,0.000000000000000,0.000000000000000,order\n"
            ),
        )
        for unit, status in (("1." + "1" * 120, 1), ("0", 2), ("inf", 2), ("", 2)):
            self.refused(
                "clearing-to-matrix",
                status,
                "more digits than are kept" if status == 1 else "not a number above 0",
                *words,
                "--unit",
                unit,
            )
