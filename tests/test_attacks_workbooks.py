"""Workbooks that a library would read otherwise than a spreadsheet shows them, or that would take too much: each is
refused by one kind of fault, and none is read with other numbers."""
import io
import random
import re
import time
import unittest
from typing import Any, List, Tuple

from common import Case, needs_packages
from workbooks import SHEET, STRINGS, ods_of, of_parts, parts_of, sharing, xlsx_of

from clearing_tools.imports.books import parts, scan_xlsx, workbook
from clearing_tools.imports.faults import SheetError

FLIPS = 500
STYLES, BOOK = "xl/styles.xml", "xl/workbook.xml"


@needs_packages("openpyxl", "odf")
class Books(Case):
    def setUp(self):
        super().setUp()
        self.place = self.folder / "book"

    def rows(self, data: bytes) -> Tuple[str, Any, Any]:
        """What is read of a workbook: rows, each cell its text, value, fault and currency."""
        self.place.write_bytes(data)
        title, rows, hidden = workbook.sheet_rows(str(self.place), None, "--sheet")
        kept = [
            (number, [(str(cell), getattr(cell, "value", None), getattr(cell, "fault", None)) for cell in row])
            for number, row in rows
        ]
        return title, kept, hidden

    def refuse(self, data: bytes, told: str) -> None:
        with self.assertRaises(SheetError) as fault:
            self.rows(data)
        self.assertIn(told, str(fault.exception))
        self.assertLess(len(str(fault.exception)), 1000)

    def changed(self, data: bytes, part: str, old: str, new: str) -> bytes:
        parts = parts_of(data)
        self.assertRegex(parts[part].decode(), old)
        return of_parts({**parts, part: re.sub(old, lambda _: new, parts[part].decode(), count=1).encode()})


class Unseen(Books):
    """What a library passes over."""

    def test_an_ods_behind_whose_rows_the_library_stops_is_refused(self):
        data = ods_of()
        self.assertEqual(len(self.rows(data)[1]), 4)
        row = "<table:table-row><table:table-cell/></table:table-row>"
        for new, told in [
            ("<office:scripts/>", "an element scripts behind which nothing is read"),
            ("<office:meta/>", "an element meta behind which nothing is read"),
            ("<office:font-face-decls/>", "an element font-face-decls behind which nothing is read"),
            ("<office:settings/>", "an element settings behind which nothing is read"),
            ("<office:body/>", "an element body behind which nothing is read"),
            ("<nobody:knows/>", "is no XML: unbound prefix"),
            (f"<table:more>{row}</table:more>", "a table-row in an element more, where it is not read"),
            (
                f'<x:table-row-group xmlns:x="urn:x">{row}</x:table-row-group>',
                "a table-row in an element table-row-group, where",
            ),
            ('<x:table-row xmlns:x="urn:x"/>', "a table-row in an element table, where it is not read"),
            ('<table:table table:name="Other"/>', "a table that is no sheet"),
            ("<table:table-cell/>", "a table-cell in an element table, where it is not read"),
        ]:
            with self.subTest(new=new):
                self.refuse(self.changed(data, "content.xml", "</table:table-row>", "</table:table-row>" + new), told)

    def test_a_second_sheet_of_a_title_is_refused(self):
        data = ods_of()
        self.refuse(
            self.changed(data, "content.xml", "</table:table>", '</table:table><table:table table:name="Claims"/>'),
            "has two sheets with the title Claims",
        )
        data = xlsx_of()
        sheet = re.search("<sheet [^>]*/>", parts_of(data)[BOOK].decode())[0]
        self.refuse(self.changed(data, BOOK, "<sheet [^>]*/>", sheet + sheet), "has two sheets with the title Claims")
        other = sheet.replace("<sheet ", '<x:sheet xmlns:x="urn:x" ')
        self.refuse(
            self.changed(data, BOOK, "<sheet [^>]*/>", sheet + other), "a list of sheets with one of another kind"
        )

    def test_rows_of_an_xlsx_that_the_library_passes_over_are_refused(self):
        data = xlsx_of()
        self.assertEqual(len(self.rows(data)[1]), 4)
        row = '<row r="5"><c r="A5"><v>1</v></c></row>'
        for old, new, told in [
            (
                "</sheetData>",
                row.replace("row", "x:row").replace("<x:row", '<x:row xmlns:x="urn:x"') + "</sheetData>",
                "an element row among its cells",
            ),
            ("</sheetData>", f'<x:alt xmlns:x="urn:x">{row}</x:alt></sheetData>', "an element alt among its cells"),
            ("</sheetData>", f"</sheetData><sheetData>{row}</sheetData>", "has rows of another kind, or twice"),
            ("</sheetData>", f"</sheetData>{row}", "a row where no library looks for one"),
            ("<v>6</v>", '<x:v xmlns:x="urn:x">6</x:v>', "an element v among its cells"),
            ("<v>6</v>", "<v>6</v><v>7</v>", "with two values"),
            ("<v>6</v>", "<v>6<x/>7</v>", "with an element in its value"),
            ("<v>6</v>", "<v>6_0</v>", "has '6_0' as the number of a cell"),
            ("<v>6</v>", "<v>٦</v>", "as the number of a cell"),
            (' t="s"><v>0</v>', ' t="s"><v>-1</v>', "has '-1' as the number of a cell"),
            ('r="C2"', 'r="C3"', "has a cell C3 in row 2"),
            (' t="n"><v>6</v>', ' t="inlineStr"><v>6</v>', "of them are read"),
            (f'xmlns="{scan_xlsx.MAIN}"', f'xmlns="{parts.STRICT}"', "is of the form Strict Open XML"),
        ]:
            with self.subTest(new=new):
                self.refuse(self.changed(data, SHEET, old, new), told)
        self.refuse(
            self.changed(data, STRINGS, "<t>A</t>", '<x:t xmlns:x="urn:x">A</x:t>'), "an element t among its texts"
        )

    def test_text_of_a_cell_that_the_library_passes_over_is_refused(self):
        data = ods_of()
        self.refuse(
            self.changed(data, "content.xml", "<text:p>6</text:p>", "<text:h>6</text:h>"),
            "a text in a cell of Claims that is not read",
        )
        cell = '<table:table-cell office:value-type="string" office:string-value="six"/>'
        rows = self.rows(
            self.changed(data, "content.xml", "<table:table-cell[^>]*><text:p>6</text:p></table:table-cell>", cell)
        )[1]
        self.assertEqual(rows[1][1][2][0], "six")

    def test_numbers_that_python_reads_and_no_spreadsheet_are_refused(self):
        for value in ("6_0", "nan", "inf", "٦", "", "0x6"):
            self.refuse(
                self.changed(ods_of(), "content.xml", 'office:value="6"', f'office:value="{value}"'),
                "as the number of a cell",
            )


class Large(Books):
    """What is small and would take much."""

    def quick(self, data: bytes, told: Any) -> None:
        self.assertLess(len(data), 60_000)
        start = time.process_time()
        self.refuse(data, told)
        self.assertLess(time.process_time() - start, 20)

    def test_counts_without_a_sense_are_refused(self):
        data, cell = ods_of(), "<table:table-cell"
        for word, most in (("number-columns-repeated", "16,384"), ("number-rows-repeated", "1,048,576")):
            for count in ("-600000000", "600000000", "+3", "0", "1e3", "٣", ""):
                what = cell if "columns" in word else "<table:table-row"
                self.quick(
                    self.changed(data, "content.xml", what, f'{what} table:{word}="{count}"'),
                    f"has {count!r} as a {word}, which is not a number from 1 to {most}",
                )
        for count, told in (
            ("+3000000000", "as a number of blanks"),
            ("-3", "as a number of blanks"),
            ("3000000000", "more than 10,000,000 blanks"),
        ):
            self.quick(self.changed(data, "content.xml", "<text:p>6", f'<text:p><text:s text:c="{count}"/>6'), told)
        filled = '<table:table-cell table:number-columns-repeated="16000" office:value-type="float" office:value="1"/>'
        row = f'<table:table-row table:number-rows-repeated="1000000">{filled}</table:table-row></table:table>'
        self.quick(self.changed(data, "content.xml", "</table:table>", row), "has more than 4,000,000 cells")

    def test_many_elements_in_few_bytes_are_refused(self):
        data, many = xlsx_of(), 3_000_000
        told = "elements, which is too many for a workbook of its size"
        self.quick(self.changed(data, STYLES, "<cellXfs[^>]*>", "<cellXfs>" + "<xf/>" * many), told)
        self.quick(self.changed(data, STRINGS, "</sst>", "<si/>" * many + "</sst>"), told)
        self.quick(self.changed(data, SHEET, "</sheetData>", "</sheetData>" + "<x/>" * many), told)
        self.quick(self.changed(ods_of(), "content.xml", "<text:p>6", "<text:p>" + "<text:s/>" * many + "6"), told)

    def test_long_formats_attributes_and_texts_are_refused(self):
        data = xlsx_of()
        self.quick(
            self.changed(data, STYLES, 'formatCode="[^"]*"', 'formatCode="' + "[" * 50_000 + '"'),
            "a number format with more than 1,024",
        )
        self.quick(
            self.changed(data, STYLES, 'formatCode="[^"]*"', 'formatCode="' + "[" * 200_000 + '"'),
            "an attribute of more than 65,536",
        )
        self.quick(
            self.changed(data, STRINGS, "<t>A</t>", f"<t>{'A' * 200_000}</t>"),
            "a cell with more than 100,000 characters",
        )
        self.quick(
            self.changed(data, SHEET, "<v>6</v>", f"<v>{'6' * 200_000}</v>"), "a cell with more than 100,000 characters"
        )
        self.quick(
            self.changed(ods_of(), "content.xml", "<text:p>6", f"<text:p>{'6' * 200_000}"),
            "a cell with more than 100,000 characters",
        )

    def test_what_unpacks_to_more_than_its_size_tells_is_refused(self):
        parts = parts_of(xlsx_of())
        self.refuse(of_parts({**parts, "xl/media/x.bin": bytes(1 << 27)}), "would unpack to")


class Merged(Books):
    """Cells that are merged downward, such as those of a header in two rows."""

    HEAD = [["Bank", "Claims on", "", "Cash"], ["", "A", "B", ""], ["A", 0, 6, 3], ["B", 2, 0, 4], ["", 1, 1, ""]]

    def shown(self, data: bytes) -> List[List[str]]:
        return [[cell for cell, *_ in row] for _, row in self.rows(data)[1]]

    def test_a_text_stands_in_each_row_of_a_merged_cell_and_an_amount_once(self):
        import openpyxl

        want = [
            ["Bank", "Claims on", "", "Cash"],
            ["Bank", "A", "B", "Cash"],
            ["A", "0", "6", "3"],
            ["B", "2", "0", "4"],
            ["B", "1", "1"],
        ]
        book, data = openpyxl.load_workbook(io.BytesIO(xlsx_of(self.HEAD))), io.BytesIO()
        for cells in ("A1:A2", "B1:C1", "D1:D2", "A4:A5", "D4:D5"):
            book["Claims"].merge_cells(cells)
        book.save(data)
        self.assertEqual(self.shown(sharing(data.getvalue())), want)
        ods = ods_of(self.HEAD)
        for old in (">Bank<", ">Cash<", ">B</text:p></table:table-cell><table:table-cell[^>]*><text:p>2<", ">4<"):
            ods = self.changed(ods, "content.xml", f"<table:table-cell([^>]*)><text:p{old}", None)
        self.assertEqual(self.shown(ods), want)

    def changed(self, data: bytes, part: str, old: str, new: str) -> bytes:
        if new is not None:
            return super().changed(data, part, old, new)
        parts = parts_of(data)
        found = re.search(old, parts[part].decode())[0]
        spanned = found.replace("<table:table-cell", '<table:table-cell table:number-rows-spanned="2"', 1)
        return of_parts({**parts, part: parts[part].decode().replace(found, spanned, 1).encode()})


class Flipped(Books):
    """Files with a byte that was changed on the way."""

    def fuzz(self, data: bytes, seed: int) -> None:
        """Flips a bit at a time, each in the file as it was, and prints how many files were refused."""
        want, draw, refused = self.rows(data), random.Random(seed), 0
        for _ in range(FLIPS):
            at, bit = draw.randrange(len(data)), 1 << draw.randrange(8)
            flipped = bytearray(data)
            flipped[at] ^= bit
            try:
                self.assertEqual(self.rows(bytes(flipped)), want, (at, bit))
            except SheetError as fault:
                self.assertNotIn("Traceback", str(fault))
                refused += 1
        print(f"{FLIPS} flips, {refused} refused, {FLIPS - refused} read as it was; ", end="")
        self.assertGreater(refused, FLIPS // 2)

    def test_an_xlsx_is_read_as_it_was_or_refused(self):
        self.fuzz(xlsx_of(), 1)

    def test_an_ods_is_read_as_it_was_or_refused(self):
        self.fuzz(ods_of(), 2)


if __name__ == "__main__":
    unittest.main()
