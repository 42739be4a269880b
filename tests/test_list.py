"""`clearing-from-list` makes the two files of a list of debts: its columns, and the forms of its text. What is done
with its lines is in `test_list_lines`."""
from common import ROOT
from imported import TABLE, ListCase


class TwoFiles(ListCase):
    """What is made of a list, whole or not at all."""

    def test_a_list_becomes_two_files(self):
        self.assertEqual(
            self.take("debtor,creditor,amount\nA,B,10\nC,A,7\nB,C,0\n"),
            (
                f"rows read: 3; {self.folder}/list.csv\nrows read: 3; {self.folder}/table.csv\n"
                "debts of amount 0, left out: 1\n"
                "debts in the sheet: 2; 17 in all\ncash made: 3; 12 in all; in units of 1: 12\n"
                "owed outside made: 3; 1 in all; in units of 1: 1\n"
                "debts made: 2; 17 in all; in units of 1: 17\n"
            ),
        )
        self.check(
            "name,cash,rule,outside\nA,3,order,0\nB,4,equal,1\nC,5,webster,0\n",
            "debtor,creditor,class,claim\nA,B,1,10\nC,A,1,7\n",
        )

    def test_the_list_of_an_example_gives_back_its_files(self):
        example = ROOT / "examples/twelve-banks"
        rows = [line.split(",") for line in (example / "banks.csv").read_text(encoding="utf-8").splitlines()]
        self.told(
            "clearing-from-list",
            example / "debts.csv",
            "--amount",
            "claim",
            "--table",
            example / "banks.csv",
            *self.files,
        )
        self.assertEqual(self.debts.read_text(), (example / "debts.csv").read_text(encoding="utf-8"))
        self.assertEqual([line.split(",") for line in self.banks.read_text().splitlines()], rows)

    def test_a_unit_is_chosen_and_told(self):
        told = self.take("debtor,creditor,amount\nA,B,451847000\nB,A,331\nC,A,24\n", "--unit", "auto")
        self.assertIn("debts in the sheet: 3; 451,847,355 in all\n", told)
        self.assertIn(
            "debts made: 2; 451,847,500 in all; in units of 500: 903,695; 145 more than the sheet's 451,847,355\n", told
        )
        self.assertIn(
            "amounts rounded: 6; by 206 together, the largest by 169\ndebts that became 0: 1; 24 in all; C owes A 24\n",
            told,
        )
        self.printed("check", *self.files)

    def test_nothing_is_written_over_or_by_half(self):
        words = self.words("debtor,creditor,amount\nA,B,10\n")
        listed, table = words[0], words[2]
        for banks, debts, message in [
            (listed, self.debts, "also read"),
            (self.banks, table, "also read"),
            (self.banks, self.banks, "one file"),
            (self.banks, "/dev/full", "No space"),
        ]:
            self.refused("clearing-from-list", 1, message, listed, "--table", table, "--banks", banks, "--debts", debts)
            self.assertEqual(sorted(path.name for path in self.folder.iterdir()), ["list.csv", "table.csv"])
        self.assertEqual(table.read_text(), TABLE)


class Columns(ListCase):
    """Which columns are looked at, by which names."""

    def test_columns_have_other_names_and_amounts_decimals_and_a_currency(self):
        text = "date;lender;borrower;seniority;exposure (EUR)\r\n1.1.;B;A;2;€ 1.234,50\r\n1.1.;A;B;1;7,25\r\n"
        table = "\ufeffname;liquid;own rule\r\nA;1.000,5 €;adams\r\nB;2;losses\r\n"
        names = [
            "--debtor",
            "borrower",
            "--creditor",
            "lender",
            "--amount",
            "exposure (EUR)",
            "--class-column",
            "seniority",
            "--cash",
            "liquid",
            "--rule-column",
            "own rule",
            "--unit",
            "0.25",
        ]
        self.assertIn("columns not looked at: 1; date in ", self.take(text, *names, table=table))
        self.check("name,cash,rule\nA,4002,adams\nB,8,losses\n", "debtor,creditor,class,claim\nA,B,2,4938\nB,A,1,29\n")
        self.begin_anew()
        self.refuse(
            "no column debtor; it has date, lender, borrower, seniority, exposure (EUR); say --debtor NAME",
            text,
            table=table,
        )

    def test_a_column_that_is_named_is_there(self):
        text, table = (
            "debtor,creditor,Klasse,amount\nA,B,2,10\n",
            "bank,cash,Deposits,Regel\nA,3,1,order\nB,4,0,equal\n",
        )
        for named, told in [
            (
                ["--outside", "Deposit"],
                "table.csv row 1: no column Deposit; it has cash, Deposits, Regel; say --outside NAME",
            ),
            (
                ["--rule-column", "Rgel"],
                "table.csv row 1: no column Rgel; it has cash, Deposits, Regel; say --rule-column NAME",
            ),
            (
                ["--class-column", "Klase"],
                "list.csv row 1: no column Klase; it has debtor, creditor, Klasse, amount; say --class-column NAME",
            ),
            # The usual name, said, is a name like others.
            (["--outside", "outside"], "table.csv row 1: no column outside; it has"),
            (["--rule-column", "rule"], "table.csv row 1: no column rule; it has"),
            (["--class-column", "class"], "list.csv row 1: no column class; it has"),
        ]:
            right = ["--outside", "Deposits", "--rule-column", "Regel", "--class-column", "Klasse"]
            self.refuse(told, text, *right, *named, table=table)
        self.assertNotIn("not looked at", self.take(text, *right, table=table))
        self.check("name,cash,rule,outside\nA,3,order,1\nB,4,equal,0\n", "debtor,creditor,class,claim\nA,B,2,10\n")
        # Where none is named, none of the three needs to be there.
        told = self.take(text, "--no-outside", table=table)
        self.assertIn(f"columns not looked at: 1; Klasse in {self.folder}/list.csv\n", told)
        self.assertIn(f"columns not looked at: 2; Deposits, Regel in {self.folder}/table.csv\n", told)
        self.check("name,cash,rule\nA,3,webster\nB,4,webster\n", "debtor,creditor,class,claim\nA,B,1,10\n")

    def test_capitals_and_spaces_in_the_names_of_columns_do_not_matter(self):
        text, table = "Debtor;CREDITOR;Class;Amount \nA;B;2;10\n", "Bank;Cash;Outside;Rule\nA;3;1;order\nB;4;0;equal\n"
        self.take(text, table=table)
        self.check("name,cash,rule,outside\nA,3,order,1\nB,4,equal,0\n", "debtor,creditor,class,claim\nA,B,2,10\n")
        # Nor do they in a name that is given.
        self.take(
            text,
            "--debtor",
            "debtor",
            "--class-column",
            "CLASS",
            "--cash",
            "cash",
            "--outside",
            "Outside",
            "--rule-column",
            "rule",
            table=table,
        )
        self.check("name,cash,rule,outside\nA,3,order,1\nB,4,equal,0\n", "debtor,creditor,class,claim\nA,B,2,10\n")
        # One that is to be left out is not taken.
        self.take(text, "--drop", "Outside", "--drop", "Rule", table=table)
        self.check("name,cash,rule\nA,3,webster\nB,4,webster\n", "debtor,creditor,class,claim\nA,B,2,10\n")
        text = "debtor,creditor,amount\nA,B,10\n"
        for column in ("OUTSIDE", "outside\u00a0", "\u2003oUtside"):
            self.take(text, table=TABLE.replace("outside", column))
            self.assertEqual(self.banks.read_text().splitlines()[0], "name,cash,rule,outside")
        self.begin_anew()

    def test_which_of_two_columns_alike_is_meant_is_asked_for(self):
        text = "debtor,creditor,amount\nA,B,10\n"
        self.refuse(
            "list.csv row 1: no column debtor; it has Debtor, DEBTOR, creditor, amount; say --debtor NAME",
            "Debtor,DEBTOR,creditor,amount\nA,A,B,10\n",
        )
        for column, seen, word in (
            ("OUTSIDE", "OUTSIDE", "OUTSIDE"),
            ("outside\u00a0", "outside<U+00A0>", "$'outside\\xc2\\xa0'"),
            ("\u2003oUtside", "<U+2003>oUtside", "$'\\xe2\\x80\\x83oUtside'"),
        ):
            told = (
                f"table.csv row 1 column {seen}: its name is outside but for capitals or spaces; say --outside "
                f"{word}, or rename it"
            )
            self.refuse(told, text, table=f"bank,cash,outside,{column}\nA,3,1,2\nB,4,0,0\n")
        # One of both is meant, and which one is to be said.
        both = "bank,cash,Rule,rule\nA,3,adams,order\nB,4,adams,equal\n"
        told = "table.csv row 1 column Rule: its name is rule but for capitals or spaces; say --rule-column Rule"
        self.refuse(told, text, table=both)
        for column, rules in [("Rule", ["adams", "adams"]), ("rule", ["order", "equal"])]:
            self.take(text, "--rule-column", column, table=both)
            self.assertEqual(self.banks.read_text(), f"name,cash,rule\nA,3,{rules[0]}\nB,4,{rules[1]}\n")

    def test_a_column_may_be_left_out(self):
        table = "bank,cash,outside,rule\nA,3,0.5,orders\nB,4,1,equal\n"
        self.take("debtor,creditor,amount\nA,B,10\n", "--drop", "outside", "--drop", "rule", table=table)
        self.check("name,cash,rule\nA,3,webster\nB,4,webster\n", "debtor,creditor,class,claim\nA,B,1,10\n")


class Form(ListCase):
    """How the text of a list is read: quotes, fields of several lines, and what is no debt."""

    def test_what_is_no_debt_is_refused(self):
        head = "debtor,creditor,class,amount\n"
        for message, line in [
            ("row 3 column debtor: table.csv has no bank D", "D,A,1,5"),
            ("row 3 column creditor: no bank is named; is it a line of totals?", "A,,1,5"),
            ("row 3 column creditor: A is its own creditor", "A,A,1,5"),
            ("row 3 column class: '0' is not a class", "A,B,0,5"),
            ("row 3 column class: '1.0' is not a class", "A,B,1.0,5"),
            ("row 3 column amount: '-5' is below 0", "A,B,1,-5"),
            ("row 3 column amount: '5x' is not an amount", "A,B,1,5x"),
            ("row 3 column amount: 2.5 is not a whole number", "A,B,1,2.5"),
            ("row 3 column amount: 30.445: thousands or decimals? say --thousands . or --decimal .", "A,B,1,30.445"),
            ("row 3: 3 fields, and the header has 4", "A,B,1"),
            ("the claim of B on A is 1,000,001, in units 1,000,001: 1 more than the most", "A,B,1,1000001"),
        ]:
            text = head + "B,C,1,1\n" + line + "\n"
            done_text = message.replace("table.csv", str(self.folder / "table.csv"))
            self.refuse(done_text, text)
        for table, message in [
            ("bank,money\nA,1\n", "no column cash; it has money; say --cash NAME"),
            ("bank,cash\nA,1\nA,2\n", "a second row of the name A"),
            (TABLE.replace("equal", "equals"), "'equals' is not one of"),
            (TABLE.replace("C,", "x" * 65 + ","), "is not a name"),
        ]:
            self.refuse(message, head + "A,B,1,1\n", table=table)

    def test_a_stray_quote_is_refused_with_its_row(self):
        head, rest = "debtor,creditor,amount,comment\n", "B,C,50,y\nC,A,9,z\n"
        opened = (
            "a quote opens a field and none closes it at its end; delete the quote, or write two for one in a quoted "
            "field"
        )
        for row, text in [
            ("row 2", head + 'A,B,100,"urgent\n' + rest),
            ("row 5", head + 'A,B,100,x\n\n,,,\nB,C,50,"y\nC,A,9,z\n'),
            ("row 2", head + 'A,B,100,"urgent\n' + rest + 'A,C,1,"z\n'),
            ("row 2", head + 'A,"B"x,100,y\n' + rest),
            ("row 1", head.replace("comment", '"comment') + rest),
            ("row 2", head + 'A,B,100,"urgent\n' + "B,C,50,y\n" * 20_000),
            ("row 2", (head + 'A,B,100,"urgent\n' + rest).replace(",", ";").replace("\n", "\r\n")),
        ]:
            self.refuse(f"{self.folder}/list.csv {row}: {opened}\n", text)
        self.refuse(f"{self.folder}/list.csv row 1: {opened}\n", 'Debts,"2025\n' + head + rest, "--skip", 1)
        # The table has a column that is not looked at, too.
        table = 'bank,cash,note\nA,3,x\nB,4,"y\nC,5,z\n'
        self.refuse(f"{self.folder}/table.csv row 3: {opened}\n", "debtor,creditor,amount\nA,B,10\n", table=table)

    def test_lines_between_two_stray_quotes_are_not_lost(self):
        head = "debtor,creditor,amount,comment\n"
        told = (
            "a quoted field holds a line as wide as the header; delete its quotes if they are stray, or the line break"
        )
        for row, text in [
            (1, head + 'A,B,100,"urgent\nB,C,50,late"\n'),
            (2, head + 'A,B,1,x\nB,A,100,"urgent\r\nB,C,50,\r\n\r\nC,A,9,5"\r\n'),
            (0, head.replace("comment", '"comment') + 'A,B,100,x\nB,C,50,"\n'),
            (1, (head + 'A,B,100,"x\nB,C,50,y"\n').replace(",", "\t")),
            (1, "remark," + head + '"x,A,B,100,\ny",B,C,50,z\n'),
        ]:
            self.refuse(f"{self.folder}/list.csv row {row + 1}: {told}\n", text)
        table = 'bank,cash,note\nA,3,"x\nB,4,y"\nC,5,z\n'
        self.refuse(f"table.csv row 2: {told}\n", "debtor,creditor,amount\nA,B,10\n", table=table)

    def test_fields_in_quotes_are_read(self):
        head = 'remark,debtor,creditor,"amount",comment\r\n'
        for remark, comment in [
            ('"a ""b"" c"', '5" pipe'),
            ('""', '"a, b, c, d, e\r\nf, g, h, i, j"'),
            ('"two\nlines"', '"three\n\n""lines"""'),
            ("", '"' + "x" * 200_000 + '"'),
        ]:
            self.take(f'{head}{remark},"A",B,"10",{comment}\r\n\r\n{remark},B,A,7,{comment}')
            self.assertEqual(self.debts.read_text(), "debtor,creditor,class,claim\nA,B,1,10\nB,A,1,7\n")

    def test_fields_of_several_lines_are_read_in_their_rows(self):
        """Also behind records of one line: a name with a line end is one, and lines of their own are refused."""
        table = 'bank,cash\nA,3\n"B\r\nb",4\nC,5\n'
        self.take(
            'debtor,creditor,amount,note\nA,C,1,\nA,"B\r\nb",2,\nC,A,3,"a\nb"\n',
            f"--label={self.folder}/l.csv",
            table=table,
        )
        self.check(
            "name,cash,rule\nA,3,webster\nB b,4,webster\nC,5,webster\n",
            "debtor,creditor,class,claim\nA,C,1,1\nA,B b,1,2\nC,A,1,3\n",
        )
        self.begin_anew()
        self.refuse(
            "row 3: a quoted field holds a line as wide as the header",
            'debtor,creditor,amount\nA,C,1\nA,"C,1\nC,A,3\nC",4\n',
        )

    def test_a_long_list_takes_as_long_as_its_lines(self):
        """Without a search for objects that refer to one another, which takes the longer the more there are; and the
        search goes on behind it."""
        import gc

        from clearing_tools.imports import exposure_list as tool

        lines = "".join(f"A,B,{at}\n" for at in range(30_000))
        words = [
            *map(str, self.words("debtor,creditor,amount\n" + lines)),
            "--sum",
            "--duplicates=sum",
            "--unit=1000",
            "--round",
        ]
        searches = []
        gc.callbacks.append(lambda phase, info: searches.append(info["generation"]) if phase == "start" else None)
        self.addCleanup(gc.callbacks.pop)
        tool.convert(tool.parse_args(words))
        self.assertLess(len(searches), 5)
        self.assertTrue(gc.isenabled())
