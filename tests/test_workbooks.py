"""Workbooks: what is read of them, and what is refused with its sheet, row and column."""
import datetime
import json
import pathlib
import re
import subprocess
import sys
import zipfile
from typing import Any, Dict

from common import ROOT, Case, Word, files_of, needs, needs_modules, tool
from imported import ImportCase
from pythons import python_with

PYTHON = python_with("openpyxl") or sys.executable
BANKS = "name,cash,rule\nA,3,webster\nB,4,webster\nC,5,webster\n"
DEBTS = "debtor,creditor,class,claim\nA,B,1,6\nA,C,1,4\nB,A,1,2\nB,C,1,8\nC,A,1,3\nC,B,1,1\n"
MATRIX = [["", "A", "B", "C", "cash"], ["A", 0, 6, 4, 3], ["B", 2, None, 8, 4], ["C", 3, 1, 0, 5]]


def written(path: pathlib.Path, sheets: Dict[str, Any], change: str = "") -> pathlib.Path:
    """Writes a workbook by openpyxl: its sheets by their titles, each a list of rows; then a change in Python of
    `book`."""
    script = f"import datetime, openpyxl\nbook = openpyxl.Workbook()\nbook.remove(book.active)\nsheets = {sheets!r}\n"
    script += (
        "for title, rows in sheets.items():\n    sheet = book.create_sheet(title)\n    for row in rows:\n"
        "        sheet.append(row)\n"
    )
    subprocess.run([PYTHON, "-c", f"{script}{change}\nbook.save({str(path)!r})"], check=True)
    return path


@needs_modules("openpyxl")
class Workbooks(ImportCase):
    def take(self, *words: Word, name: str = "clearing-from-matrix") -> str:
        return self.told(name, *words, *self.files, python=PYTHON)

    def refuse(self, message: str, *words: Word, name: str = "clearing-from-matrix", status: int = 1) -> None:
        done = tool(name, *words, *self.files, python=PYTHON)
        self.assertEqual((done.returncode, done.stdout), (status, ""), done.stderr)
        self.assertIn(message, done.stderr)
        self.nothing_made()

    def check(self, banks: str = BANKS, debts: str = DEBTS) -> None:
        """The two files that were made are these, by default those of the matrix; then they are taken away."""
        super().check(banks, debts)
        self.begin_anew()

    def test_a_matrix_of_a_workbook_is_that_of_its_text(self):
        book = written(self.folder / "m.xlsx", {"Claims": MATRIX})
        self.assertIn(f"rows read: 3; {book} sheet Claims\n", self.take(book))
        self.check()

    def test_the_sheet_is_asked_for_where_several_could_be_meant(self):
        rows = [["bank", "cash"], ["A", 3], ["B", 4], ["C", 5]]
        change = "book['Notes'].sheet_state = 'hidden'"
        book = written(
            self.folder / "m.xlsx",
            {"Claims": [row[:4] for row in MATRIX], "Banks": rows, "Empty": [], "Notes": [["x", "y"]]},
            change,
        )
        self.refuse(f"{book} has the sheets Claims, Banks: which one is meant? say --sheet NAME", book, "--table", book)
        self.refuse("which one is meant? say --table-sheet NAME", book, "--table", book, "--sheet", "Claims")
        self.refuse(f"{book} has no sheet Claim; it has Claims, Banks, Empty, Notes", book, "--sheet", "Claim")
        self.take(book, "--sheet", "Claims", "--table", book, "--table-sheet", "Banks")
        self.check()

    def test_a_number_is_itself_whatever_the_locale(self):
        rows = [
            ["", "A", "B", "C", "cash"],
            ["A", 0, 12.345, "1,5", 3],
            ["B", 30.445, 0, 0.1 + 0.2, 4],
            ["C", 1e3, 1e-3, 0, 5],
        ]
        change = "book['S']['B3'].number_format = '#.##0,00'"
        self.take(written(self.folder / "m.xlsx", {"S": rows}, change), "--unit", "0.001", "--decimal", ",")
        self.check(
            "name,cash,rule\nA,3000,webster\nB,4000,webster\nC,5000,webster\n",
            "debtor,creditor,class,claim\nA,B,1,12345\nA,C,1,1500\nB,A,1,30445\nB,C,1,300\nC,A,1,1000000\nC,B,1,1\n",
        )

    def test_a_whole_number_is_itself_to_its_last_digit(self):
        """Also one beyond 2^53, of which a binary fraction has not all digits."""
        rows = [["", "A", "B", "cash"], ["A", 0, 10007, 10007 * (9 * 10**11 + 1)], ["B", 0, 0, 10007 * 10**12]]
        self.take(written(self.folder / "m.xlsx", {"S": rows}), "--unit", "10007")
        self.check(
            "name,cash,rule\nA,900000000001,webster\nB,1000000000000,webster\n",
            "debtor,creditor,class,claim\nA,B,1,1\n",
        )

    def test_what_is_no_number_is_refused_with_its_cell(self):
        for value, change, told in [
            (datetime.date(2025, 12, 31), "", "C2 (column B): '2025-12-31' is a date, and no amount"),
            ("#DIV/0!", "", "C2 (column B): '#DIV/0!' is the error of a formula"),
            (True, "", "C2 (column B): 'TRUE' is true or false, and no amount"),
            (
                0.5,
                "book['S']['C2'].number_format = '0%'",
                "C2 (column B): '0.5' is shown in per cent, and is no amount",
            ),
            (-5, "", "C2 (column B): '-5' is below 0"),
            ("six", "", "C2 (column B): 'six' is not an amount"),
        ]:
            rows = [list(row) for row in MATRIX]
            rows[1][2] = value
            book = written(self.folder / "m.xlsx", {"S": rows}, change)
            self.refuse(f"clearing-from-matrix: {book} sheet S {told}", book)
        rows = [["", "A", datetime.date(2025, 1, 2), "cash"], ["A", 0, 1, 2], [datetime.date(2025, 1, 2), 0, 1, 2]]
        book = written(self.folder / "m.xlsx", {"S": rows})
        self.refuse(f"{book} sheet S row 3: the name '2025-01-02' is a date, and no name", book)

    def test_two_currencies_of_number_formats_are_refused(self):
        change = "book['S']['C2'].number_format = '[$€-407] #,##0.00'; book['S']['D2'].number_format = '[$$-409]#,##0'"
        book = written(self.folder / "m.xlsx", {"S": MATRIX}, change)
        self.refuse(
            (
                f"{book} sheet S D2 (column C): '4' is of another currency than '6': $, not EUR; convert all amounts"
                " to one"
            ),
            book,
        )

    def test_a_formula_without_a_value_is_refused_and_one_with_a_value_is_read(self):
        book = written(self.folder / "m.xlsx", {"S": MATRIX}, "book['S']['C2'] = '=2*3'")
        self.refuse(
            f"{book} sheet S C2: a formula whose value is not kept (1 in all); open it in a spreadsheet and save it",
            book,
        )

    def saved_by_libreoffice(self, form: str, folder: pathlib.Path, *books: pathlib.Path) -> None:
        """What LibreOffice makes of these books in this form, in this folder."""
        command = ["nice", "-n", "10", "soffice", f"-env:UserInstallation=file://{self.folder}/profile", "--headless"]
        subprocess.run([*command, "--convert-to", form, "--outdir", folder, *books], check=True, capture_output=True)

    @needs("soffice")
    def test_what_libreoffice_saves_is_read(self):
        book = written(
            self.folder / "m.xlsx",
            {"S": MATRIX, "Other": [["x", "y"], [1, 2]]},
            "book['S']['C2'] = '=2*3'; book['S']['D2'] = '=B3+2'",
        )
        for kind in ("xlsx", "ods"):
            made = self.folder / "made"
            self.saved_by_libreoffice(kind, made, book)
            with self.subTest(kind=kind):
                if kind == "ods" and not python_with("odf", "openpyxl"):
                    self.skipTest("no Python here has odf and openpyxl")
                self.take(made / f"m.{kind}", "--sheet", "S")
                self.check()

    @needs("soffice")
    def test_what_libreoffice_exports_in_each_locale_is_read(self):
        # How each locale shows a number: a format of the workbook, and what then stands in the sheet.
        shown = {
            "de": ("[$-407]#,##0.00", "123.456,75"),
            "fr": ("[$-40C]#,##0.00", "123[\u00a0\u202f]456,75"),
            "ch": ("[$-807]#,##0.00", "123['\u2019]456.75"),
            "us": ("[$-409]#,##0.00", "123,456.75"),
            "in": ("[$-4009]#,##,##0.00", "1,23,456.75"),
        }
        rows = [
            ["", "Crédit", "B", "C", "cash"],
            ["Crédit", 0, 123456.75, 0.5, 1000],
            ["B", 4321.25, 0, 7, 2000],
            ["C", 1234.5, 3.75, 0, 12345],
        ]
        change = (
            "for line in book['S'].iter_rows(min_row=2, min_col=2):\n    for cell in line:\n"
            "        cell.number_format = "
        )
        books = [
            written(self.folder / f"{locale}.xlsx", {"S": rows}, f"{change}{form!r}")
            for locale, (form, _) in shown.items()
        ]
        for charset, encoding in ((76, "utf-8"), (65535, "utf-16")):
            made = self.folder / encoding
            how = f"csv:Text - txt - csv (StarCalc):59,34,{charset},1,,0,false,false,true,false"
            self.saved_by_libreoffice(how, made, *books)
            for locale, (_, want) in shown.items():
                with self.subTest(locale=locale, encoding=encoding):
                    self.assertRegex((made / f"{locale}.csv").read_text(encoding), want)
                    told = self.take(made / f"{locale}.csv", "--unit", "0.25")
                    self.assertIn("debts made: 6; 129,023.75 in all; in units of 0.25: 516,095\n", told)
                    self.check(
                        "name,cash,rule\nCrédit,4000,webster\nB,8000,webster\nC,49380,webster\n",
                        (
                            "debtor,creditor,class,claim\nCrédit,B,1,493827\nCrédit,C,1,2\nB,Crédit,1,17285\nB,C,1,28\n"
                            "C,Crédit,1,4938\nC,B,1,15\n"
                        ),
                    )

    def test_a_date_that_is_not_looked_at_is_no_fault(self):
        rows = [
            ["day", "debtor", "creditor", "amount"],
            [datetime.date(2025, 12, 31), "A", "B", 5],
            [datetime.date(2025, 9, 30), "A", "B", 7],
        ]
        listed = written(self.folder / "l.xlsx", {"S": rows})
        table = self.file("t.csv", "bank,cash\nA,1\nB,2\n")
        self.take(listed, "--table", table, "--where", "day=2025-12-31", name="clearing-from-list")
        self.check("name,cash,rule\nA,1,webster\nB,2,webster\n", "debtor,creditor,class,claim\nA,B,1,5\n")

    def test_bombs_are_refused(self):
        from clearing_tools.imports.books import scan

        book = self.folder / "m.xlsx"
        written(book, {"S": MATRIX})
        parts = {info.filename: zipfile.ZipFile(book).read(info) for info in zipfile.ZipFile(book).infolist()}
        name = "xl/worksheets/sheet1.xml"
        deep = b"<x>" * (scan.MAX_DEPTH + 1) + b"</x>" * (scan.MAX_DEPTH + 1)
        laughs = b'<!DOCTYPE x [<!ENTITY a "ha"><!ENTITY b "&a;&a;">]><x>&b;</x>'
        for content, told in [
            (deep, f"nests deeper than {scan.MAX_DEPTH}"),
            (laughs, "declares a type of document"),
            (b"<worksheet>", f"its part {name} is no XML"),
        ]:
            self.made_of(book, {**parts, name: content})
            self.refuse(f"{book}{':' if 'XML' in told else ''} {told}", book)
        with zipfile.ZipFile(book, "w", zipfile.ZIP_DEFLATED) as archive:
            for part, content in parts.items():
                archive.writestr(part, content)
            with archive.open("xl/media/x.bin", "w", force_zip64=True) as file:
                for _ in range(scan.MAX_UNPACKED // (1 << 24) + 1):
                    file.write(bytes(1 << 24))
        self.refuse("would unpack to", book)
        self.made_of(book, parts, whole=False)
        self.refuse("is a workbook that cannot be read", book)
        self.refuse("save it as .xlsx without one", self.file("m.xls", bytes.fromhex("d0cf11e0a1b11ae1") + bytes(600)))
        self.made_of(book, {"mimetype": b"application/zip"})
        self.refuse("is no workbook of the form .xlsx or .ods", book)

    def test_rows_and_columns_stand_in_their_order_within_a_sheet(self):
        book, name = written(self.folder / "m.xlsx", {"S": MATRIX}), "xl/worksheets/sheet1.xml"
        archive = zipfile.ZipFile(book)
        parts = {info.filename: archive.read(info) for info in archive.infolist()}
        late = "".join(f'<row r="{row}"><c r="XFD{row}" s="0"/></row>' for row in range(5, 305))
        for old, new, told in [
            (
                "</sheetData>",
                '<row r="999999999999"><c r="A999999999999"><v>1</v></c></row></sheetData>',
                "has a row 999999999999 behind row 4; rows rise to 1,048,576",
            ),
            (
                "</sheetData>",
                '<row r="5"><c r="AAAA5"><v>1</v></c></row></sheetData>',
                "has a cell AAAA5 behind column none; columns rise to XFD",
            ),
            ("</sheetData>", f"{late}</sheetData>", "has more than 4,000,000 cells"),
            # What the library would pass over.
            ('<row r="4"', '<row r="2"', "has a row 2 behind row 3"),
            ('r="C2"', 'r="F2"', "has a cell D2 behind column F"),
        ]:
            content = parts[name].decode()
            self.assertIn(old, content)
            self.made_of(book, {**parts, name: content.replace(old, new).encode()})
            self.refuse(f"{book} {told}", book)

    @needs_modules("openpyxl", "odf")
    def test_comments_and_blanks_of_a_cell_are_no_part_of_a_name(self):
        script = (
            "import sys\nfrom odf import office, opendocument, table, text\n"
            "book = opendocument.OpenDocumentSpreadsheet()\nsheet = table.Table(name='S')\n"
            "book.spreadsheet.addElement(sheet)\nfor record in ROWS:\n    row = table.TableRow()\n"
            "    sheet.addElement(row)\n    for value in record:\n"
            "        cell = table.TableCell(valuetype='string') if isinstance(value, str) else "
            "table.TableCell(valuetype='float', value=value)\n"
            "        note = office.Annotation()\n        note.addElement(text.P(text='seen by X'))\n"
            "        cell.addElement(note)\n"
            "        line = text.P(text=str(value))\n        line.addElement(text.S(c=BLANKS))\n"
            "        cell.addElement(line)\n        row.addElement(cell)\n"
            "book.save(sys.argv[1])\n"
        )
        rows = [[value or 0 if at else value for at, value in enumerate(row)] if row[0] else row for row in MATRIX]
        python, book = python_with("openpyxl", "odf"), self.folder / "m.ods"
        for blanks, told in ((3, None), (2_000_000_000, f"{book} has more than 10,000,000 blanks")):
            subprocess.run([python, "-c", f"ROWS, BLANKS = {rows!r}, {blanks}\n{script}", book], check=True)
            if told:
                self.refuse(told, book)
            else:
                self.take(book)
                self.check()

    def made_of(self, book: pathlib.Path, parts: Any, whole: bool = True) -> None:
        with zipfile.ZipFile(book, "w", zipfile.ZIP_DEFLATED) as archive:
            for part, content in parts.items():
                archive.writestr(part, content)
        if not whole:
            book.write_bytes(book.read_bytes()[:2000])

    def test_without_openpyxl_the_package_is_named(self):
        book = written(self.folder / "m.xlsx", {"S": MATRIX})
        script = self.executable("python", f'exec "{sys.executable}" -S "$@"\n')
        done = tool("clearing-from-matrix", book, *self.files, python=str(script))
        self.assertEqual((done.returncode, done.stdout), (2, ""))
        self.assertRegex(
            done.stderr,
            rf"has no openpyxl, which reads {re.escape(str(book))} \(Debian's package python3-openpyxl is for",
        )


@needs_modules("openpyxl")
class Made(Case):
    """Workbooks that the tools write."""

    HUB = files_of(ROOT / "examples/hub")

    def sheets(self, path: pathlib.Path) -> Any:
        """The sheets of a workbook by their titles: what stands in the pane that is frozen, and the rows, each cell its
        kind and value."""
        script = (
            "import json, openpyxl, sys\nbook = openpyxl.load_workbook(sys.argv[1])\nprint(json.dumps({sheet.title: "
        )
        script += (
            "[sheet.freeze_panes, [[[cell.data_type, str(cell.value)] for cell in row] for row in sheet.rows]] for "
            "sheet in book}))\n"
        )
        return json.loads(subprocess.run([PYTHON, "-c", script, path], check=True, capture_output=True).stdout)

    def test_tidy_tables_are_sheets_of_one_workbook(self):
        text, book = self.file("d.csv", self.printed("defaults", *self.HUB)), self.folder / "d.xlsx"
        done = tool("clearing-tidy", text, "--out", book, python=PYTHON)
        self.assertEqual((done.returncode, done.stdout, done.stderr), (0, f"{book}\n", ""))
        made = [path for path in self.made("clearing-tidy", text).splitlines()]
        sheets = self.sheets(book)
        self.assertEqual([f"{self.folder}/d-{title}.csv" for title in sheets], made)
        for path, (frozen, rows) in zip(made, sheets.values()):
            lines = pathlib.Path(path).read_text(encoding="utf-8").splitlines()
            self.assertEqual(
                ([[cell[1].replace("None", "") for cell in row] for row in rows], frozen),
                ([line.split(",") for line in lines], "A2"),
            )
        # Amounts are numbers, names and states texts; the same tables make the same bytes.
        self.assertEqual([cell[0] for cell in sheets["standings"][1][1]], ["s", "n", "n", "n", "n", "n", "s"])
        first = book.read_bytes()
        tool("clearing-tidy", text, "--out", book, python=PYTHON)
        self.assertEqual(book.read_bytes(), first)
        tool("clearing-tidy", text, "--out", book, "--unit", "0.01", python=PYTHON)
        self.assertEqual(self.sheets(book)["standings"][1][1][1][0], "n")
        self.refused("clearing-tidy", 2, "--out is a file that ends with .xlsx", text, "--out", self.folder / "d.csv")

    def test_names_that_look_like_formulas_are_text(self):
        names = ["=1+1", "@SUM(A1)", "+1", "-2", "1e3", "007", "A\u202eB"]
        banks = self.file(
            "b.csv", "name,cash,rule\n" + "".join(f"{name},{at},order\n" for at, name in enumerate(names))
        )
        debts = self.file(
            "e.csv", "debtor,creditor,class,claim\n" + "".join(f"{a},{b},1,3\n" for a, b in zip(names, names[1:]))
        )
        text, book = (
            self.file("p.csv", self.printed("clear", "--banks", banks, "--debts", debts)),
            self.folder / "p.xlsx",
        )
        self.assertEqual(tool("clearing-tidy", text, "--out", book, python=PYTHON).returncode, 0)
        self.assertEqual([row[0] for row in self.sheets(book)["payments"][1][1:]], [["s", name] for name in names[:-1]])

    def test_analyses_write_a_workbook_by_its_ending(self):
        for words, sheets in [
            (["clearing-breaking", *self.HUB, "--output"], ["table"]),
            (["clearing-rescues", *self.HUB, "--output"], ["table"]),
            (["clearing-impact", *self.HUB, "--ranking"], ["table"]),
        ]:
            book = self.folder / "a.xlsx"
            done = tool(*words, book, python=PYTHON)
            self.assertEqual((done.returncode, done.stdout), (0, ""), done.stderr)
            plain = tool(*words[:-1]).stdout.splitlines()
            made = self.sheets(book)
            self.assertEqual(list(made), sheets)
            self.assertEqual(
                [[cell[1].replace("None", "") for cell in row] for row in made["table"][1]],
                [line.split(",") for line in plain],
                words[0],
            )
            self.assertIn("n", {cell[0] for cell in made["table"][1][1][1:]})

    def test_a_matrix_of_a_workbook_is_read_back(self):
        book, files = self.folder / "m.xlsx", ["--banks", self.folder / "b.csv", "--debts", self.folder / "d.csv"]
        for unit in ([], ["--unit", "0.5"]):
            done = tool("clearing-to-matrix", *self.HUB, "--out", book, *unit, python=PYTHON)
            self.assertEqual((done.returncode, done.stdout, done.stderr), (0, "", ""))
            self.assertIn("n", {cell[0] for cell in self.sheets(book)["matrix"][1][1][1:]})
            self.told("clearing-from-matrix", book, *files, *unit, python=PYTHON)
            self.assertEqual(
                self.printed("check", *files).splitlines()[:4], self.printed("check", *self.HUB).splitlines()[:4]
            )

    def test_without_openpyxl_nothing_is_written(self):
        script = self.executable("python", f'exec "{sys.executable}" -S "$@"\n')
        text = self.file("d.csv", self.printed("defaults", *self.HUB))
        done = tool("clearing-tidy", text, "--out", self.folder / "d.xlsx", python=str(script))
        self.assertEqual((done.returncode, done.stdout), (2, ""))
        self.assertIn("has no openpyxl, which writes .xlsx (Debian's package python3-openpyxl is for", done.stderr)
        self.assertFalse((self.folder / "d.xlsx").exists())
