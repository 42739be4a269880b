"""Workbooks that are made for tests, and their parts."""
import io
import re
import zipfile
from typing import Any, Dict, List

import common  # noqa: F401  # so that Python finds the packages of this repository

from clearing_tools.imports.books import scan_xlsx

ROWS = [["", "A", "B", "Née", "cash"], ["A", 0, 6, 4.5, 3], ["B", 2, "", 8, "€4"], ["Née", 3, 1, 0, 5]]
SHEET, STRINGS = "xl/worksheets/sheet1.xml", "xl/sharedStrings.xml"


def xlsx_of(rows: Any = ROWS) -> bytes:
    """A workbook of the form .xlsx, as openpyxl writes it."""
    import openpyxl

    book, data = openpyxl.Workbook(), io.BytesIO()
    book.active.title = "Claims"
    for row in rows:
        book.active.append([None if cell == "" else cell for cell in row])
    book.active["C2"].number_format = "#,##0.00 [$EUR]"
    book.save(data)
    return sharing(data.getvalue())


def sharing(data: bytes) -> bytes:
    """The same workbook with the texts of its cells in a part of their own, as spreadsheets write it."""
    texts: List[str] = []
    parts = parts_of(data)
    kind = "application/vnd.openxmlformats-officedocument.spreadsheetml.sharedStrings+xml"

    def share(found: "re.Match[str]") -> str:
        """A cell that names its text by its place."""
        texts.append(found[1])
        return f' t="s"><v>{len(texts) - 1}</v></c>'

    sheet = re.sub(' t="inlineStr"><is><t>([^<]*)</t></is></c>', share, parts[SHEET].decode())
    shared = f'<sst xmlns="{scan_xlsx.MAIN}">' + "".join(f"<si><t>{text}</t></si>" for text in texts) + "</sst>"
    types = parts["[Content_Types].xml"].decode()
    types = types.replace("</Types>", f'<Override PartName="/{STRINGS}" ContentType="{kind}"/></Types>')
    return of_parts({**parts, SHEET: sheet.encode(), STRINGS: shared.encode(), "[Content_Types].xml": types.encode()})


def ods_of(rows: Any = ROWS) -> bytes:
    """A workbook of the form .ods, as odfpy writes it."""
    from odf import opendocument, table, text

    book, data = opendocument.OpenDocumentSpreadsheet(), io.BytesIO()
    sheet = table.Table(name="Claims")
    book.spreadsheet.addElement(sheet)
    for record in rows:
        row = table.TableRow()
        sheet.addElement(row)
        for value in record:
            is_text = isinstance(value, str)
            cell = table.TableCell(valuetype="string") if is_text else table.TableCell(valuetype="float", value=value)
            if value != "":
                cell.addElement(text.P(text=str(value)))
            row.addElement(cell)
    book.write(data)
    return data.getvalue()


def parts_of(data: bytes) -> Dict[str, bytes]:
    """The parts of a workbook by their names."""
    with zipfile.ZipFile(io.BytesIO(data)) as archive:
        return {info.filename: archive.read(info) for info in archive.infolist()}


def of_parts(parts: Dict[str, bytes]) -> bytes:
    """A workbook of parts."""
    data = io.BytesIO()
    with zipfile.ZipFile(data, "w", zipfile.ZIP_DEFLATED) as archive:
        for name, content in parts.items():
            archive.writestr(name, content)
    return data.getvalue()
