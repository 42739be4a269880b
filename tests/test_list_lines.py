"""Which lines of a list of debts count in `clearing-from-list`, and what is done with them: nothing is summed or lost
without a word."""
from imported import TABLE, ListCase

# A list whose lines are of two days.
DATED = "day,debtor,creditor,amount,id\n2025-12-31,A,B,10,1\n2025-09-30,A,B,4,2\n2025-12-31,B,C,7,3\n"


class Which(ListCase):
    """Which lines count."""

    def test_columns_that_are_not_looked_at_are_named(self):
        told = self.take("day,debtor,creditor,amount,id\n1,A,B,10,2\n", table="bank,cash,country\nA,1,DE\nB,2,FR\n")
        self.assertIn(f"columns not looked at: 2; day, id in {self.folder}/list.csv\n", told)
        self.assertIn(f"columns not looked at: 1; country in {self.folder}/table.csv\n", told)
        told = self.take("day,debtor,creditor,amount,\n1,A,B,10,2\n", table="bank,cash,\nA,1,7\nB,2,\n")
        self.assertIn(f"columns not looked at: 2; day, one without a name in {self.folder}/list.csv\n", told)
        self.assertIn(f"column not looked at: 1; 7 in all; one without a name in {self.folder}/table.csv\n", told)

    def test_lines_that_differ_in_another_column_are_summed_once_it_is_said(self):
        told = (
            "list.csv row 1 column day: lines of one debt differ here, such as row 2 with '2025-12-31' and row 3 "
            "with '2025-09-30'; "
            "say --ignore day to sum them, --where day=VALUE to take those of one value, or --rate day=FILE where "
            "these are currencies\n"
        )
        self.refuse(told, DATED, "--sum")
        self.refuse(
            "row 1 column id: lines of one debt differ here, such as row 2 with '1' and row 3 with '2'",
            DATED,
            "--sum",
            "--ignore",
            "day",
        )
        self.assertIn(
            "lines summed: 2; into 1 debt\n", self.take(DATED, "--sum", "--ignore", "day", "--ignore", "id")
        )
        self.assertEqual(self.debts.read_text(), "debtor,creditor,class,claim\nA,B,1,14\nB,C,1,7\n")
        self.assertIn(
            "lines left out by --where day=2025-12-31: 1; 4 in all\n",
            self.take(DATED, "--where", "day=2025-12-31"),
        )
        self.assertEqual(self.debts.read_text(), "debtor,creditor,class,claim\nA,B,1,10\nB,C,1,7\n")

    def test_where_takes_any_value_of_a_column_and_all_columns(self):
        text = "a=b,kind,debtor,creditor,amount\nx,loan,A,B,1\ny,loan,B,C,2\nz,loan,C,A,4\nx,bond,A,C,8\n"
        self.take(text, "--where", "a=b=x", "--where", "a=b=y", "--where", "kind=loan")
        self.assertEqual(self.debts.read_text(), "debtor,creditor,class,claim\nA,B,1,1\nB,C,1,2\n")
        self.begin_anew()
        self.refuse("row 1 column kind: no line has 'lone' here; it has bond, loan\n", text, "--where", "kind=lone")
        self.refuse("no column sort; it has a=b, kind, debtor", text, "--where", "sort=loan")

    def test_lines_that_are_the_same_are_asked_for(self):
        text = "debtor,creditor,amount,id\nA,B,10,1\nA,B,10,1\nB,C,7,2\nA,B,10,1\nB,C,7,2\n"
        told = (
            "list.csv row 3, row 5, row 6: the same in every column as a line before; say --duplicates once to take "
            "it once, or --duplicates sum\n"
        )
        for more in ([], ["--sum"], ["--sum", "--ignore", "id"]):
            self.refuse(told, text, *more)
        self.assertIn(
            "lines that are the same in every column: 3; 27 in all; taken once\n",
            self.take(text, "--duplicates", "once"),
        )
        self.assertEqual(self.debts.read_text(), "debtor,creditor,class,claim\nA,B,1,10\nB,C,1,7\n")
        self.take(text, "--duplicates", "sum")
        self.assertEqual(self.debts.read_text(), "debtor,creditor,class,claim\nA,B,1,30\nB,C,1,14\n")
        self.begin_anew()
        # Those that are not the same are still to be summed by a word.
        self.refuse(
            "row 7: a debt of B to C of class 1 is also in row 4; say --sum", text + "B,C,1,3\n", "--duplicates", "once"
        )

    def test_lines_of_one_pair_are_summed_on_demand_alone(self):
        text = "debtor,creditor,amount\nA,B,1.5\nB,A,2\nA,B,2.5\nA,B,0.25\nA,C,1\n"
        self.refuse("row 4, row 5: a debt of A to B of class 1 is also in row 2; say --sum", text, "--round")
        self.assertIn("lines summed: 3; into 1 debt\n", self.take(text, "--sum", "--unit", "0.25"))
        self.check(
            "name,cash,rule,outside\nA,12,order,0\nB,16,equal,4\nC,20,webster,0\n",
            "debtor,creditor,class,claim\nA,B,1,17\nB,A,1,8\nA,C,1,4\n",
        )
        # Two classes are two debts.
        self.take("debtor,creditor,class,amount\nA,B,1,1\nA,B,2,2\n")
        self.assertEqual(self.debts.read_text(), "debtor,creditor,class,claim\nA,B,1,1\nA,B,2,2\n")

    def test_a_thousand_lines_of_one_debt_are_summed_to_the_last(self):
        """The last one has no line end."""
        lines = "\n".join(f"{number},A,B,{number}" for number in range(1, 1001))
        told = self.take(f"id,debtor,creditor,amount\n{lines}", "--sum", "--ignore", "id")
        self.assertIn("lines summed: 1,000; into 1 debt\ndebts in the sheet: 1; 500,500 in all\n", told)
        self.assertEqual(self.debts.read_text(), "debtor,creditor,class,claim\nA,B,1,500500\n")

    def test_names_equal_but_for_capitals_are_banks_each(self):
        text = "debtor,creditor,amount\nAsh,B,1\nASH,B,2\nash,B,4\nB,ash,8\nB,Ash,16\nash,ASH,32\n"
        self.take(text, table="bank,cash\nash,1\nB,2\nASH,3\nAsh,4\n")
        self.check(
            "name,cash,rule\nash,1,webster\nB,2,webster\nASH,3,webster\nAsh,4,webster\n",
            "debtor,creditor,class,claim\nAsh,B,1,1\nASH,B,1,2\nash,B,1,4\nB,ash,1,8\nB,Ash,1,16\nash,ASH,1,32\n",
        )


class Totals(ListCase):
    """Lines of totals, in the list and in the table."""

    def test_lines_of_totals_are_refused_by_name(self):
        text = "debtor,creditor,amount\nA,B,10\nC,A,7\nTotal,Total,17\n"
        self.refuse("row 4 column debtor, row 4 column creditor: Total is no bank of", text)
        told = self.take(text, "--drop", "Total")
        self.assertIn("control totals that agree: 1; ", told)
        self.assertIn("lines left out by --drop Total: 1; 17 in all\n", told)
        self.check(
            "name,cash,rule,outside\nA,3,order,0\nB,4,equal,1\nC,5,webster,0\n",
            "debtor,creditor,class,claim\nA,B,1,10\nC,A,1,7\n",
        )
        self.begin_anew()
        table = TABLE + "Banking system,12,1,webster\n"
        self.refuse(
            "row 5: Banking system is a row of totals: each of its cells is the sum",
            text.replace("Total,Total,17\n", ""),
            table=table,
        )
        self.refuse(
            "row 5: Total is a row of totals: its name says so", text, table=table.replace("Banking system", "Total")
        )
        self.take(text, "--drop", "Total", table=table.replace("Banking system", "Total"))
        self.assertEqual(self.banks.read_text().count("\n"), 4)

    def test_a_bank_of_the_list_that_looks_like_a_total_of_the_table_is_left_out(self):
        """Its lines are gone by then; that they named it is not."""
        told = self.take(
            "debtor,creditor,amount\nA,B,1\nS,A,3\n", "--leave-out=S", table="bank,cash\nA,3\nB,4\nC,5\nS,12\n"
        )
        self.assertIn("debts that it owes, left out by --leave-out S: 1; 3 in all\n", told)
        self.check("name,cash,rule\nA,3,webster\nB,4,webster\nC,5,webster\n", "debtor,creditor,class,claim\nA,B,1,1\n")
        self.begin_anew()
        self.refuse("S is a row of totals", "debtor,creditor,amount\nA,B,1\n", table="bank,cash\nA,3\nB,4\nC,5\nS,12\n")

    def test_a_wrong_line_of_totals_is_refused_with_both_numbers(self):
        text = "debtor,creditor,amount\nA,B,10\nA,C,2\nC,A,7\nA,Total,13\n,,19\n"
        self.refuse(
            (
                "list.csv row 5 column amount: the line of totals says 13, and the others come to 12: correct the"
                " sheet, or delete the line of totals\n"
            ),
            text,
            "--drop",
            "Total",
            "--drop",
            "",
        )
        told = self.take(text.replace("13", "12"), "--drop", "Total", "--drop", "")
        self.assertIn(f"control totals that agree: 2; {self.folder}/list.csv\n", told)
        self.assertEqual(self.debts.read_text(), "debtor,creditor,class,claim\nA,B,1,10\nA,C,1,2\nC,A,1,7\n")
        self.begin_anew()
        table = TABLE + "All banks,12,2,webster\n"
        self.refuse(
            "table.csv row 5 column outside: Total says 2, and the others come to 1",
            text,
            "--drop",
            "Total",
            "--drop",
            "",
            table=table.replace("All banks", "Total"),
        )


class Meaning(ListCase):
    """What is made of lines: amounts of several currencies, classes of instruments, groups and codes."""

    def test_amounts_of_several_currencies_are_converted(self):
        text = "debtor,creditor,amount,ccy\nA,B,10,EUR\nA,B,40,USD\nB,C,8,USD\nC,A,3,GBP\n"
        self.refuse(
            "row 1 column ccy: amounts are in EUR, GBP, USD; say --rate ccy=FILE, --where ccy=CODE, or --ignore ccy\n",
            text,
            "--sum",
        )
        # Codes in small letters, a code that is not usual or none in a column of such a name.
        for change, told in (
            (("GBP", "gbp"), "column ccy: amounts are in EUR, USD, gbp; say"),
            (("GBP", "XAU"), "column ccy: amounts are in EUR, USD, XAU; say"),
            ((",GBP", ","), "column ccy: amounts are in none, EUR, USD; say"),
            (("ccy", "Währung"), "column Währung: amounts are in EUR, GBP, USD; say"),
        ):
            self.refuse(told, text.replace(*change), "--sum")
        rates = self.file("rates.csv", "currency;rate\nEUR;1\nUSD;0,5\n")
        self.refuse(
            f"list.csv row 5 column ccy: {rates} has no rate for 'GBP'\n", text, "--sum", "--rate", f"ccy={rates}"
        )
        told = self.take(text.replace("GBP", "EUR"), "--sum", "--rate", f"ccy={rates}")
        self.assertIn("lines in EUR: 2; 13 in all; at 1: 13\nlines in USD: 2; 48 in all; at 0.5: 24\n", told)
        self.assertEqual(self.debts.read_text(), "debtor,creditor,class,claim\nA,B,1,30\nB,C,1,4\nC,A,1,3\n")

    def test_classes_are_those_of_instruments(self):
        text = (
            "debtor,creditor,amount,kind\nA,B,10,Senior, secured\n".replace("Senior, secured", '"Senior, secured"')
            + "A,B,5,Sub\nB,C,1,Sub\n"
        )
        classes = self.file("classes.csv", 'instrument,class\n"Senior, secured",1\nSub,4\n')
        self.take(text, "--class-of", f"kind={classes}")
        self.assertEqual(self.debts.read_text(), "debtor,creditor,class,claim\nA,B,1,10\nA,B,4,5\nB,C,4,1\n")
        self.begin_anew()
        self.refuse(
            f"list.csv row 5 column kind: {classes} has no class for 'AT1'",
            text + "C,A,1,AT1\n",
            "--class-of",
            f"kind={classes}",
        )
        self.refuse(
            "row 3 column class: '0' is not a class from 1 to 9",
            text,
            "--class-of",
            f"kind={self.file('c.csv', 'kind,class' + chr(10) + 'Sub,4' + chr(10) + 'Old,0' + chr(10))}",
        )
        # A column that is none of classes is asked for once.
        told = (
            "row 2 column kind: 'Senior, secured' is not a class from 1 to 9; is kind the column of classes? "
            "--class-of kind=FILE says the class of each of its values (2 more cells ask the same)"
        )
        self.refuse(told, text, "--class-column", "kind")

    def test_banks_of_a_group_become_one(self):
        text = "debtor,creditor,amount\nA,B,10\nA,C,4\nB,C,5\nC,B,1\n"
        table = "bank,cash,outside,rule\nA,3,1,order\nB,4,2,order\nC,5,0,webster\n"
        groups = self.file("groups.csv", "bank,group\nA,AB Holding\nB,AB Holding\nX,Other\n")
        told = self.take(text, "--groups", groups, table=table)
        self.assertIn(
            (
                "banks of groups that are not here: 1; X\ngroups: 1; of 2 banks\n"
                "debts within groups, left out: 1; 10 in all\n"
                "debts summed by groups: 2; into 1\n"
            ),
            told,
        )
        self.check(
            "name,cash,rule,outside\nAB Holding,7,order,3\nC,5,webster,0\n",
            "debtor,creditor,class,claim\nAB Holding,C,1,9\nC,AB Holding,1,1\n",
        )
        # A group of the name of a bank has that bank too, and none of a bank of another group.
        told = self.take(text, "--groups", self.file("g.csv", "bank,group\nA,B\n"), table=table)
        self.assertIn("groups: 1; of 2 banks\ndebts within groups, left out: 1; 10 in all\n", told)
        self.begin_anew()
        self.refuse(
            "the group B has the name of a bank of another group",
            text,
            "--groups",
            self.file("g.csv", "bank,group\nA,B\nB,H\n"),
            table=table,
        )
        self.refuse(
            "the banks of the group AB Holding have the rules order and webster; give them one",
            text,
            "--groups",
            groups,
            table=table.replace("4,2,order", "4,2,webster"),
        )

    def test_a_column_that_may_be_owed_outside_is_asked_for(self):
        text = "debtor,creditor,amount\nA,B,10\n"
        for column in (
            "deposits",
            "External liabilities",
            "Other liabilities",
            "Einlagen",
            "el",
            "owed outside",
            "Kundenverbindlichkeiten",
            "Debt securities in issue",
            "Bonds issued",
            "liabilities to clients",
        ):
            word = column if " " not in column else f"'{column}'"
            told = (
                f"table.csv row 1 column {column}: it may be what is owed outside; say --outside {word}, or "
                "--no-outside\n"
            )
            table = f"bank,cash,{column}\nA,3,1\nB,4,2\n"
            self.refuse(told, text, table=table)
            self.take(text, "--outside", column, table=table)
            self.check(
                "name,cash,rule,outside\nA,3,webster,1\nB,4,webster,2\n", "debtor,creditor,class,claim\nA,B,1,10\n"
            )
            self.assertIn(f"columns not looked at: 1; {column} in ", self.take(text, "--no-outside", table=table))
            self.check("name,cash,rule\nA,3,webster\nB,4,webster\n", "debtor,creditor,class,claim\nA,B,1,10\n")
            self.begin_anew()
        # Several add up; what is an asset is not asked for.
        table = "bank,cash,deposits,bonds,external assets\nA,3,1,2,7\nB,4,2,5,7\n"
        self.take(text, "--outside", "deposits", "--outside", "bonds", table=table)
        self.check("name,cash,rule,outside\nA,3,webster,3\nB,4,webster,7\n", "debtor,creditor,class,claim\nA,B,1,10\n")
        self.take(text, table="bank,cash,external assets\nA,3,1\nB,4,2\n")

    def test_names_that_are_refused_get_a_code_with_a_label(self):
        long = "Bank " + "of the very long name " * 4
        text = f'debtor,creditor,amount\n"Ash, Inc.",B,10\nB,{long.strip()},5\n'
        table = f'bank,cash\n"Ash, Inc.",1\nB,2\n{long.strip()},3\n"Ash  Inc.",4\nAsh Inc.,5\n'
        self.refuse(
            (
                "row 2: 'Ash, Inc.' is not a name: 1 to 64 bytes, no comma, quote or control character; with --label "
                "FILE it gets a code"
            ),
            text,
            table=table,
        )
        labels = self.folder / "labels.csv"
        told = self.take(text, "--label", labels, table=table)
        short = "Bank of the very long name of the very long name of the very"
        self.assertIn(f"codes in place of names: 2; Ash Inc. 2 for Ash, Inc., {short} for {long.strip()}\n", told)
        self.check(
            (
                f"name,cash,rule\nAsh Inc. 2,1,webster\nB,2,webster\n{short},3,webster\nAsh  Inc.,4,webster\n"
                "Ash Inc.,5,webster\n"
            ),
            f"debtor,creditor,class,claim\nAsh Inc. 2,B,1,10\nB,{short},1,5\n",
        )
        self.assertEqual(labels.read_text(), f'code,name\nAsh Inc. 2,"Ash, Inc."\n{short},{long.strip()}\n')
        # Full names may stand in a column.
        self.take(
            "debtor,creditor,amount\nX1,X2,3\n",
            "--label",
            labels,
            "--label-column",
            "full name",
            table='code,cash,full name\nX1,1,"Ash, Inc."\nX2,2,Birch\n',
        )
        self.assertEqual(labels.read_text(), 'code,name\nX1,"Ash, Inc."\nX2,Birch\n')

    def test_many_names_of_80_letters_with_one_beginning_get_a_code_each(self):
        """Each code is a name of 64 bytes at most, however many of them are counted on."""
        names, labels = [f"{'N' * 77}{number:03}" for number in range(120)], self.file("labels.csv")
        table = "".join(f"{name},{number}\n" for number, name in enumerate(names))
        text = f"debtor,creditor,amount\n{names[0]},{names[-1]},5\n"
        self.take(text, "--label", labels, table=f"bank,cash\n{table}")
        banks = [line.split(",") for line in self.printed("check", *self.files).split("\n\n")[1].splitlines()[1:]]
        self.assertEqual([int(cash) for _, cash, _ in banks], list(range(120)))
        self.assertEqual(len({code for code, _, _ in banks}), 120)
        self.assertEqual({len(code) for code, _, _ in banks}, {64})
        told = [line.split(",") for line in labels.read_text().splitlines()[1:]]
        self.assertEqual(told, [[code, name] for (code, _, _), name in zip(banks, names)])


class Telling(ListCase):
    """What is told of lines, each thing once."""

    def test_equal_faults_are_told_once_with_their_first_places(self):
        text = "debtor,creditor,amount\n" + "A,B,NULL\n" + "\n" + "A,C,NULL\nB,A,NULL\nC,A,NULL\nC,B,NULL\n"
        self.refuse(
            (
                f"clearing-from-list: {self.folder}/list.csv row 2 column amount, row 4 column amount, row 5 column"
                " amount and 2 more, 5 in all: 'NULL' is not an amount; say --empty 0 to read it as 0, or --leave-out"
                " empty\n"
            ),
            text,
        )

    def test_a_title_above_the_header_is_told(self):
        text = "Exposures as of 2025\n\ndebtor,creditor,amount\nA,B,10\n"
        self.refuse("list.csv row 1 looks like a title above the header, which is row 3, is it? say --skip 2\n", text)
        self.take(text, "--skip", 2)
        self.begin_anew()
        self.refuse(
            "no column debtor; it has Report, of, all; row 2 has it: is that the header? say --skip 1",
            "Report,of,all\ndebtor,creditor,amount\nA,B,1\n",
        )

    def test_a_wrong_sign_is_asked_once(self):
        text = "debtor;creditor;amount\nA;B;1.234,50\nA;C;2.345,50\nB;C;7,50\n"
        told = (
            "list.csv row 2 column amount: '1.234,50' has '.' before its thousands, and --decimal says otherwise; is "
            "--thousands . meant? (1 more cell asks the same)\n"
        )
        self.refuse(told, text, "--decimal", ".")

    def test_the_summary_may_be_a_table(self):
        summary = self.folder / "summary.csv"
        self.assertEqual(self.take(DATED, "--where", "day=2025-12-31", "--summary", summary), "")
        self.assertEqual(
            summary.read_text().splitlines()[:4],
            [
                "what,count,amount,detail",
                f"rows read,3,,{self.folder}/list.csv",
                f"rows read,3,,{self.folder}/table.csv",
                f"columns not looked at,1,,id in {self.folder}/list.csv",
            ],
        )
        self.assertIn("lines left out by --where day=2025-12-31,1,4,\n", summary.read_text())
        self.assertIn("debts made,2,17,in units of 1: 17\n", summary.read_text())
