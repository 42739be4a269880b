"""All parts of a workbook, each gone through once without being kept."""
import zipfile
from typing import Dict
from xml.parsers import expat

from ..faults import SheetError
from .scan import FREE_UNPACKED, MAX_ATTRIBUTE, MAX_DEPTH, MAX_PARTS, MAX_UNPACKED, MOST_RATIO, Budget, Scan
from .scan_ods import OFFICE, ContentScan
from .scan_xlsx import MAIN, StringsScan, StylesScan, WorkbookScan, WorksheetScan

STRICT = "http://purl.oclc.org/ooxml/spreadsheetml/main"

SCANS = {
    (MAIN, "worksheet"): WorksheetScan,
    (MAIN, "sst"): StringsScan,
    (MAIN, "workbook"): WorkbookScan,
    (MAIN, "styleSheet"): StylesScan,
    (OFFICE, "document-content"): ContentScan,
}


class Parser:
    """Goes through a part without keeping it."""

    def __init__(self, name: str, part: str, budget: Budget) -> None:
        self.name, self.part, self.budget = name, part, budget
        self.scan, self.is_of_cells = Scan(name, part), False
        self.parser = expat.ParserCreate(namespace_separator=" ")
        self.parser.StartElementHandler, self.parser.EndElementHandler = self.start, self.end
        self.parser.CharacterDataHandler = self.text
        self.parser.StartDoctypeDeclHandler = self.refuse
        self.parser.buffer_text = True

    def start(self, tag: str, attributes: Dict[str, str]) -> None:
        """Counts an element, and shows it to the scan that its root asks for."""
        space, _, local = tag.rpartition(" ")
        path = self.scan.path
        if not path:
            if space == STRICT:
                raise SheetError(
                    f"{self.name} is of the form Strict Open XML, which is not read; save it as an Excel workbook "
                    "(.xlsx)"
                )
            kind = SCANS.get((space, local), Scan)
            self.scan, self.is_of_cells = kind(self.name, self.part), kind in (WorksheetScan, StringsScan, ContentScan)
            path = self.scan.path
        path.append((space, local))
        if len(path) > MAX_DEPTH:
            raise SheetError(f"{self.name} nests deeper than {MAX_DEPTH} in one of its parts")
        self.budget.take(self.is_of_cells)
        for word, value in attributes.items():
            if len(value) > MAX_ATTRIBUTE or len(word) > MAX_ATTRIBUTE:
                raise SheetError(f"{self.name} has an attribute of more than {MAX_ATTRIBUTE:,} characters")
        self.scan.start(space, local, attributes)

    def end(self, tag: str) -> None:
        """Shows the end of an element."""
        space, _, local = tag.rpartition(" ")
        self.scan.end(space, local)
        self.scan.path.pop()

    def text(self, text: str) -> None:
        """Shows characters."""
        self.scan.text(text)

    def refuse(self, *_: object) -> None:
        """Refuses what may make much of little."""
        raise SheetError(f"{self.name} declares a type of document, which no workbook needs; save it anew")


def scan_part(name: str, archive: zipfile.ZipFile, part: str, budget: Budget) -> Scan:
    """What a part of a workbook shows."""
    parser = Parser(name, part, budget)
    try:
        with archive.open(part) as file:
            parser.parser.ParseFile(file)
    except expat.ExpatError as fault:
        raise SheetError(f"{name}: its part {part} is no XML: {fault}") from fault
    return parser.scan


def scan_all(name: str, archive: zipfile.ZipFile, size: int) -> Dict[str, Scan]:
    """What the parts of a workbook show, by their names; those that are no XML are read for their checksums alone."""
    infos = archive.infolist()
    unpacked = sum(info.file_size for info in infos)
    most = min(MAX_UNPACKED, FREE_UNPACKED + MOST_RATIO * size)
    if len(infos) > MAX_PARTS or unpacked > most:
        raise SheetError(
            f"{name} would unpack to {len(infos):,} parts of {unpacked:,} bytes; the most is {MAX_PARTS:,} and {most:,}"
        )
    parts = {info.filename for info in infos}
    if len(parts) < len(infos):
        raise SheetError(f"{name} has two parts of one name")
    budget, scans = Budget(name, size), {}
    for part in parts:
        if part.endswith((".xml", ".rels")):
            scans[part] = scan_part(name, archive, part, budget)
        else:
            read_through(archive, part)
    return scans


def read_through(archive: zipfile.ZipFile, part: str) -> None:
    """Reads a part, which fails where its name or its checksum is another than the list of parts says."""
    with archive.open(part) as file:
        while file.read(1 << 20):
            pass
