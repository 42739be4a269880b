"""Files that are altered at random, and what each reader of the package makes of them: for mutations.sh and
tests/test_attacks_mutations.py.

mutations.py N SEED

Writes what it found into told.txt of the current folder, and each file that was read wrong into its folder wrong/."""
import collections
import contextlib
import csv
import hashlib
import io
import os
import pathlib
import random
import re
import shutil
import subprocess
import sys
import tempfile
import traceback
import types
import warnings
import zipfile

ROOT = pathlib.Path(__file__).resolve().parents[2]
sys.path.insert(0, str(ROOT / "python/src"))
sys.path.append(str(ROOT / "tests"))
from odd_names import ODD_FIELDS

from clearing_client import Network, errors, request, texts
from clearing_client.results import Stress
from clearing_tools import runner, texts as tool_texts
from clearing_tools.evidence import audit, checking, layout, making, plain_files, shock, source

TWELVE, HUB = ROOT / "examples/twelve-banks", ROOT / "examples/hub"
REFUSALS = (errors.ClearingError, runner.ToolError, audit.RefusedError, shock.ScenarioError, plain_files.NoRoomError)

# What is put in the place of a field, or into a text: odd ones, and more that texts of the packages may mistake.
FIELDS = [
    *(field.encode() for field in ODD_FIELDS),
    *[b"7.5", b"0" * 30, b"9" * 5000, b'""', b'"a\nb"', b"\x7f", b"\x1f", b"\xff\xfe", "\u202eA".encode()],
    *["\u2028".encode(), b"Hub", b"=1+1", b"'", b"[", b"]", b"{}", b"\\x41", b"\\u0041", b"..", b"/etc/passwd"],
    *[b"\xef\xbb\xbf", b"true", b"nan", b"total", b"rounds"],
]


def altered(rng, data):
    """Some bytes, with one to three changes."""
    data = bytearray(data)
    for _ in range(rng.choice((1, 1, 1, 2, 3))):
        rng.choice(CHANGES)(rng, data)
    return bytes(data)


def place(rng, data):
    return rng.randrange(len(data) + 1)


def put_bytes(rng, data):
    at = place(rng, data)
    data[at : at + rng.choice((0, 0, 1, 3))] = rng.choice(FIELDS)


def change_digit(rng, data):
    digits = [found.start() for found in re.finditer(rb"[0-9]", data)]
    if digits:
        at = rng.choice(digits)
        data[at : at + 1] = rng.choice((b"0", b"9", b"5", b"", b"11", b"x", b" "))


def change_field(rng, data):
    fields = [found.span() for found in re.finditer(rb"[^,\n\t]+", data)]
    if fields:
        first, last = rng.choice(fields)
        data[first:last] = rng.choice(FIELDS)


def change_lines(rng, data):
    lines = bytes(data).split(b"\n")
    at = rng.randrange(len(lines))
    how = rng.randrange(4)
    if how == 0:
        del lines[at]
    elif how == 1:
        lines.insert(at, lines[rng.randrange(len(lines))])
    elif how == 2:
        lines[at] = lines[at] + b"\r"
    else:
        other = rng.randrange(len(lines))
        lines[at], lines[other] = lines[other], lines[at]
    data[:] = b"\n".join(lines)


def cut_off(rng, data):
    del data[place(rng, data) :]


def all_ends(rng, data):
    data[:] = bytes(data).replace(b"\n", rng.choice((b"\r\n", b"\r", b"\n\n", b" \n", b",\n")))


def flip(rng, data):
    if data:
        data[rng.randrange(len(data))] ^= 1 << rng.randrange(8)


CHANGES = [put_bytes, change_digit, change_digit, change_field, change_field, change_lines, cut_off, all_ends, flip]


class Wrong(Exception):
    """What is wrong with what a reader made of a file."""


def must(holds, what):
    if not holds:
        raise Wrong(what)


def asks(*words):
    """A run of the program: its status, what it prints, and its message."""
    done = subprocess.run(
        [os.environ["CLEARING"], *map(str, words)], stdin=subprocess.DEVNULL, capture_output=True, timeout=120
    )
    must(done.returncode in (0, 4, 7), f"the program ended with {done.returncode}: {done.stderr[-300:]!r}")
    message = done.stderr.decode("utf-8", "replace").strip().removeprefix("clearing: ")
    return done.returncode, done.stdout, message if done.returncode == 4 else ""


def refused_by(work, *words):
    """What some work makes, or the message by which it refuses."""
    try:
        return work(*words), None
    except REFUSALS as fault:
        return None, str(fault)


class Reader:
    """A reader with the files that it is given whole, by a name each. `read` says whether it took a file, and raises
    where that is wrong."""

    def __init__(self, folder):
        self.folder = pathlib.Path(folder)
        self.taken = collections.Counter()
        self.whole = self.files()

    def file(self, name, data):
        path = self.folder / name
        path.write_bytes(data)
        return path


class Networks(Reader):
    """Banks and debts: as the program reads them read them audit.py, the package and the tools, or all refuse them
    alike."""

    SHARE = 25

    def files(self):
        odd = (
            b'\xef\xbb\xbfname,cash,rule,outside\r\n"A ""B""",5,order,0\r\n Caf\xc3\xa9 , 07'
            b' ,webster,3\r\n\r\n,,,\r\n"Z\t",0,equal,1\r\n'
        )
        return {
            "twelve": (TWELVE / "banks.csv").read_bytes(),
            "hub": (HUB / "banks.csv").read_bytes(),
            "odd": odd.replace(b'"A ""B"""', b'"A B"'),
            "debts": (HUB / "debts.csv").read_bytes(),
            "debts again": (TWELVE / "debts.csv").read_bytes(),
        }

    def read(self, name, data):
        banks = data if "debts" not in name else ((HUB if name == "debts" else TWELVE) / "banks.csv").read_bytes()
        debts = (
            data
            if "debts" in name
            else (
                {"hub": HUB, "twelve": TWELVE}[name].joinpath("debts.csv").read_bytes()
                if name != "odd"
                else b"debtor,creditor,class,claim\nA B,Z,1,3\n"
            )
        )
        words = ["--banks", self.file("b.csv", banks), "--debts", self.file("d.csv", debts)]
        status, printed, message = asks("check", *words)
        network, refusal = refused_by(audit.read_network, banks, debts)
        must((refusal or "") == message, f"audit.py says {refusal!r}, the program {message!r}")
        accounts, _ = refused_by(tool_texts.read_accounts, self.folder / "b.csv")
        if status:
            return False
        owed, cash = sum(debt.claim for debt in network.debts), sum(bank.cash for bank in network.banks)
        counts = b"banks,%d\ndebts,%d\nowed,%d\ncash,%d\n\n" % (len(network.banks), len(network.debts), owed, cash)
        names = [bank.name for bank in network.banks]
        lines = [audit.line(names[debt.debtor], names[debt.creditor], debt.rank, debt.claim) for debt in network.debts]
        text = counts + shock.banks_text(network.banks) + b"\ndebtor,creditor,class,claim\n" + b"".join(lines)
        must(text == printed, "audit.py read other numbers than the program")
        # The package compares with what it reads itself, and refuses its own answer where that differs.
        check = Network(words[1], words[3]).check()
        must(
            [bank.cash for bank in check.banks] == [bank.cash for bank in network.banks], "the package read other cash"
        )
        if accounts is not None:
            known = {bank.name.decode(): (bank.cash, bank.outside) for bank in network.banks}
            read = {bank: (account.cash, account.outside) for bank, account in accounts[1].items()}
            must(read == known, "the tools read other numbers than the program")
        return True


class Journals(Reader):
    """A journal is lawful or not to the program and to audit.py alike, with the same payments."""

    SHARE = 12

    def files(self):
        words = ["--banks", HUB / "banks.csv", "--debts", HUB / "debts.csv"]
        self.words, self.network = words, audit.read_network(
            (HUB / "banks.csv").read_bytes(), (HUB / "debts.csv").read_bytes()
        )
        journal = asks("clear", *words, "--show", "journal", "--workers", 1)[1]
        return {"whole": journal, "half": journal[: len(journal) // 2].rpartition(b"\n")[0] + b"\n"}

    def read(self, name, data):
        status, printed, message = asks("replay", *self.words, "--journal", self.file("j.csv", data))
        verdict, refusal = refused_by(audit.follow, self.network, audit.Journal(data, self.network))
        must((refusal or "") == message, f"audit.py says {refusal!r}, the program {message!r}")
        if status == 4:
            return False
        told = printed.decode().partition("\n")[0].split(",")
        must(told[0] == verdict.kind, f"audit.py says {verdict.kind}, the program {told[0]}")
        if verdict.kind == "lawful":
            must(printed.partition(b"\n\n")[2] == audit.payments_text(self.network, verdict.paid), "other payments")
        elif verdict.kind == "unlawful":
            must(tuple(map(int, told[1:])) == verdict.numbers, "other numbers")
        return True


class Scenarios(Reader):
    """Scenarios leave as much cash by shock.py as by the program, or both refuse them alike."""

    SHARE = 10

    def files(self):
        self.words = ["--banks", HUB / "banks.csv", "--debts", HUB / "debts.csv"]
        self.banks = audit.read_banks((HUB / "banks.csv").read_bytes())
        text = (
            '# years\n[[scenario]]\nname = "half" # .[\ncut = 500\n\n[[scenario]]\nname = " a; b "\ncut ='
            " 333\n[[scenario.loss]]\nbank = \"South\"\namount = 41\n[[scenario.loss]]\nbank = 'Hub'\namount ="
            " 1_000\n[[scenario]]\nname = '''x'''\n"
        )
        return {
            "plain": text.encode(),
            "inline": b'scenario = [{name = "a", cut = 10, loss = [{bank = "Hub", amount = 7}]}, {name = "b"}]\n',
        }

    def read(self, name, data):
        status, printed, message = asks("outcomes", *self.words, "--scenarios", self.file("s.toml", data))
        scenarios, refusal = refused_by(shock.read_scenarios, data, self.banks)
        # Python's tomllib knows no TOML 1.1.
        if refusal == "scenarios row 0: toml (16)" and message != refusal:
            return False
        must((refusal or "") == message, f"shock.py says {refusal!r}, the program {message!r}")
        if status:
            return False
        # The package reads no scenarios: their number and names are those that were printed.
        told = texts.parse(printed.decode()).scenarios
        left = [(one.name, sum(bank.cash for bank in shock.left_by(self.banks, one))) for one in scenarios]
        must([(one.scenario, one.cash) for one in told] == left, "other cash is left")
        return True


class Texts(Reader):
    """A text of the program is refused, or says again what it said, field by field."""

    SHARE = 25

    def files(self):
        words = ["--banks", TWELVE / "banks.csv", "--debts", TWELVE / "debts.csv"]
        tasks = {
            "clear": [],
            "defaults": [],
            "bounds": [],
            "breaking": [],
            "rescues": [],
            "impact": [],
            "compress": [],
            "check": [],
            "costs": ["--keep", 500],
            "cost-bounds": ["--keep", 500],
            "rescue": ["--bank", "Calder Mutual"],
        }
        scenarios = self.file("s.toml", b'[[scenario]]\nname = "half"\ncut = 500\n[[scenario]]\nname = "as it is"\n')
        found = {task: asks(task, *words, *more) for task, more in tasks.items()}
        found["journal"] = asks("clear", *words, "--show", "both", "--workers", 1)
        found["stress"], found["outcomes"] = (
            asks(task, *words, "--scenarios", scenarios) for task in ("stress", "outcomes")
        )
        return {task: text for task, (status, text, _) in found.items() if status == 0}

    def read(self, name, data):
        try:
            text = data.decode()
        except UnicodeDecodeError:
            return False
        result, refusal = refused_by(texts.parse, text)
        if refusal is not None:
            return False
        if isinstance(result, Stress):
            parts_ = [f"scenario,{one.name}\n" + tables_text(one) for one in result.scenarios]
            same_fields(text, "\n".join(parts_))
        else:
            same_fields(text, tables_text(result))
        return True


def tables_text(result):
    """A result as the program prints it, without what stands beside the tables."""
    tables = [value for value in vars(result).values() if isinstance(value, texts.Table)]
    journal = getattr(result, "journal", None)
    return "\n".join(map(table_text, [*tables, *([journal.raises] if journal is not None else [])]))


def table_text(table):
    columns = [
        ["yes" if each is True else "no" if each is False else str(each) for each in table.column(name)]
        for name in table.columns
    ]
    return "".join(",".join(line) + "\n" for line in zip(*columns))


def same_fields(text, printed):
    """Whether all lines that were printed again stand in a text, in their order, with the same names and numbers."""
    there = iter(text.removeprefix("\ufeff").replace("\r\n", "\n").split("\n"))
    for line in filter(None, printed.split("\n")):
        fields = line.split(",")
        for other in there:
            found = other.split(",")
            # A column of what is owed or paid outside may be missing, and is 0 then.
            if len(found) < len(fields) and "0" in fields:
                short = (
                    [field for at, field in enumerate(fields) if at != fields.index("0")]
                    if len(found) == len(fields) - 1
                    else []
                )
                candidates = [
                    short,
                    *([*fields[:at], *fields[at + 1 :]] for at, field in enumerate(fields) if field == "0"),
                ]
            else:
                candidates = [fields]
            if any(
                len(each) == len(found)
                and all(a == b or a.isdigit() and b.isdigit() and int(a) == int(b) for a, b in zip(each, found))
                for each in candidates
            ):
                break
        else:
            raise Wrong(f"the line {line[:100]!r} was read, and does not stand there")


class Sheets(Reader):
    """A sheet is refused, or makes the claims that a plain reader of it makes, where that understands it."""

    SHARE = 20

    def files(self):
        return {
            "list": b"lender,borrower,amount,note\n" + b"".join(
                b"%s,%s,%d,x\n" % (a, b, 7 * n + 1)
                for n, (a, b) in enumerate(
                    [(b"A", b"B"), (b"B", b"C"), (b"C", b"A"), (b"A", b"C"), (b"D", b"A"), (b"B", b"D")]
                )
            ),
            "matrix": b"owes,A,B,C,cash\nA,0,10,20,5\nB,7,,3,6\nC,1,2,0,70\n",
            "totals": b"bank,assets,liabilities,cash\nA,100,60,20\nB,50,90,10\nC,70,40,30\nD,30,60,5\n",
            "table": b"bank,cash,outside,rule\nA,3,0,order\nB,5,1,webster\nC,0,2,equal\nD,9,0,adams\n",
        }

    def read(self, name, data):
        path = self.file(f"{name}.csv", data)
        table = self.file("known.csv", self.whole["table"]) if name != "table" else path
        try:
            if name == "matrix":
                net, plain = Network.from_matrix(str(path)), plain_matrix(data)
            elif name == "totals":
                net, plain = Network.from_totals(str(path), method="sparse"), plain_totals(data)
            else:
                sheet = path if name == "list" else self.file("list.csv", self.whole["list"])
                net = Network.from_list(
                    str(sheet), table=str(table), debtor="borrower", creditor="lender", duplicates="sum"
                )
                plain = plain_list(sheet.read_bytes())
        except errors.SheetError:
            return False
        if plain is None:
            return True
        debts = request.columns_of(net._debts, 4)
        found = collections.Counter()
        if name == "totals":
            for debtor, creditor, _, claim in zip(*debts):
                found["owes", debtor] += claim
                found["owed", creditor] += claim
        else:
            for debtor, creditor, _, claim in zip(*debts):
                found[debtor, creditor] += claim
        must(+found == +plain, f"{dict(found)} in place of {dict(plain)}")
        return True


def plain_rows(data):
    """The records of a plain sheet: nothing but fields and commas, in UTF-8; none where it is not one."""
    try:
        text = data.decode("utf-8")
    except UnicodeDecodeError:
        return None
    if re.search('["\r;\t\ufeff\0\x0b\x0c\x1c-\x1f\x85\u2028\u2029 ]', text):
        return None
    rows = [row for row in csv.reader(io.StringIO(text, newline="")) if any(row)]
    return rows if rows and all(len(row) == len(rows[0]) for row in rows) else None


def plain_number(field):
    return int(field) if re.fullmatch("0|[1-9][0-9]{0,5}", field) else None


def plain_list(data):
    rows = plain_rows(data)
    if rows is None or rows[0] != ["lender", "borrower", "amount", "note"]:
        return None
    found = collections.Counter()
    for lender, borrower, amount, _ in rows[1:]:
        if plain_number(amount) is None or {lender, borrower} - set("ABCD"):
            return None
        found[borrower, lender] += plain_number(amount)
    return found


def plain_matrix(data):
    rows = plain_rows(data)
    if rows is None or rows[0] != ["owes", "A", "B", "C", "cash"] or [row[0] for row in rows[1:]] != ["A", "B", "C"]:
        return None
    found = collections.Counter()
    for row in rows[1:]:
        for creditor, cell in zip("ABC", row[1:4]):
            if cell and plain_number(cell) is None:
                return None
            found[row[0], creditor] += plain_number(cell or "0")
    return found


def plain_totals(data):
    rows = plain_rows(data)
    if (
        rows is None
        or rows[0] != ["bank", "assets", "liabilities", "cash"]
        or any(len(row[0]) != 1 for row in rows[1:])
    ):
        return None
    found = collections.Counter()
    for bank, assets, liabilities, _ in rows[1:]:
        if plain_number(assets) is None or plain_number(liabilities) is None:
            return None
        found["owes", bank] += plain_number(liabilities)
        found["owed", bank] += plain_number(assets)
    sums = [sum(units for (way, _), units in found.items() if way == word) for word in ("owes", "owed")]
    # What is missing on one side is owed to or by the rest of the world.
    return found if sums[0] == sums[1] else None


class Workbooks(Reader):
    """A part of a workbook that is altered: it is refused, or makes a network."""

    SHARE = 3

    SHEET = (
        '<?xml version="1.0"?><worksheet xmlns="http://schemas.openxmlformats.org/spreadsheetml/2006/main"><sheetData>'
        + "".join(
            f'<row r="{r}">'
            + "".join(
                (
                    f'<c r="{c}{r}" t="inlineStr"><is><t>{v}</t></is></c>'
                    if isinstance(v, str)
                    else f'<c r="{c}{r}"><v>{v}</v></c>'
                )
                for c, v in zip("ABCDE", row)
            )
            + "</row>"
            for r, row in enumerate(
                [("owes", "A", "B", "C", "cash"), ("A", 0, 10, 20, 5), ("B", 7, 0, 3, 6), ("C", 1, 2, 0, 70)], 1
            )
        )
        + "</sheetData></worksheet>"
    )
    PARTS = {
        "[Content_Types].xml": (
            '<?xml version="1.0"?><Types xmlns="http://schemas.openxmlformats.org/package/2006/content-types"><Default'
            ' Extension="rels" ContentType="application/vnd.openxmlformats-package.relationships+xml"/><Default'
            ' Extension="xml" ContentType="application/xml"/><Override PartName="/xl/workbook.xml"'
            ' ContentType="application/vnd.openxmlformats-officedocument.spreadsheetml.sheet.main+xml"/><Override'
            ' PartName="/xl/worksheets/sheet1.xml"'
            ' ContentType="application/vnd.openxmlformats-officedocument.spreadsheetml.worksheet+xml"/></Types>'
        ),
        "_rels/.rels": (
            '<?xml version="1.0"?><Relationships'
            ' xmlns="http://schemas.openxmlformats.org/package/2006/relationships"><Relationship Id="r1"'
            ' Type="http://schemas.openxmlformats.org/officeDocument/2006/relationships/officeDocument"'
            ' Target="xl/workbook.xml"/></Relationships>'
        ),
        "xl/workbook.xml": (
            '<?xml version="1.0"?><workbook xmlns="http://schemas.openxmlformats.org/spreadsheetml/2006/main"'
            ' xmlns:r="http://schemas.openxmlformats.org/officeDocument/2006/relationships"><sheets><sheet name="debts"'
            ' sheetId="1" r:id="r1"/></sheets></workbook>'
        ),
        "xl/_rels/workbook.xml.rels": (
            '<?xml version="1.0"?><Relationships'
            ' xmlns="http://schemas.openxmlformats.org/package/2006/relationships"><Relationship Id="r1"'
            ' Type="http://schemas.openxmlformats.org/officeDocument/2006/relationships/worksheet"'
            ' Target="worksheets/sheet1.xml"/></Relationships>'
        ),
        "xl/worksheets/sheet1.xml": SHEET,
    }

    def files(self):
        return {name: part.encode() for name, part in self.PARTS.items()}

    def read(self, name, data):
        path = self.folder / "book.xlsx"
        with zipfile.ZipFile(path, "w") as archive:
            for part, content in self.whole.items():
                archive.writestr(part, data if part == name else content)
        try:
            # What openpyxl warns of is its own.
            with warnings.catch_warnings():
                warnings.simplefilter("ignore")
                Network.from_matrix(str(path))
        except (errors.SheetError, errors.MissingPackageError):
            return False
        return True


class Commands(Reader):
    """A command of an evidence is refused, or names nothing outside its folder."""

    SHARE = 3

    def files(self):
        return {
            "list": (
                b"from_list.py\nfile\t\t1-m.csv\nword\t--table\nfile\t--rate=currency=\t3-rates.csv\nword\t--unit=1.5\n"
                b"file\ta b=\t5-x y.csv\n"
            )
        }

    def read(self, name, data):
        try:
            _, words = source.words_in(data)
        except ValueError:
            return False
        for word in words:
            whole = word.text + (f"source/{word.sheet}" if word.sheet else "")
            for part in whole.split("="):
                must(not part.startswith(("/", "~")) and ".." not in part.split("/"), f"the word {whole!r}")
            must("\0" not in whole, "NUL")
            must(word.sheet is None or os.path.normpath(f"source/{word.sheet}").startswith("source/"), "another folder")
        return True


class Folders(Reader):
    """A folder of evidence of which a file was altered, with checksums made anew: it is refused, unless it says the
    same as before."""

    SHARE = 2

    def files(self):
        words = types.SimpleNamespace(
            folder=str(self.folder / "evidence"),
            banks=str(HUB / "banks.csv"),
            debts=str(HUB / "debts.csv"),
            scenarios=None,
            limits=None,
            bank="South",
            source=None,
            changes=None,
            case=None,
        )
        with contextlib.redirect_stdout(io.TextIOWrapper(io.BytesIO())):
            making.make(words)
        folder = self.folder / "evidence"
        self.network = audit.read_network(
            (folder / "inputs/banks.csv").read_bytes(), (folder / "inputs/debts.csv").read_bytes()
        )
        return {
            str(path.relative_to(folder)): path.read_bytes()
            for path in folder.rglob("*")
            if path.is_file() and path.name != "SHA256SUMS"
        }

    def read(self, name, data):
        folder = self.folder / "altered"
        shutil.copytree(self.folder / "evidence", folder)
        (folder / name).write_bytes(data)
        files = {each: data if each == name else content for each, content in self.whole.items()}
        (folder / "SHA256SUMS").write_bytes(
            layout.sums_text({each: hashlib.sha256(content).hexdigest() for each, content in files.items()})
        )
        out = io.TextIOWrapper(io.BytesIO())
        try:
            # Nothing runs the program again: what is told is told of the files alone.
            with contextlib.redirect_stdout(out), tempfile.TemporaryDirectory() as copy:
                known = checking.Checking(str(folder), copy)
                with contextlib.closing(known.folder):
                    known.look()
                    known.end(None)
        except REFUSALS:
            return False
        finally:
            shutil.rmtree(folder)
        if known.failed:
            return False
        must(known.known.network == self.network, "another network passes")
        may_differ = name == "versions.txt" or name.endswith("/journal.csv") or name.startswith("inputs/")
        must(may_differ or data == self.whole[name], f"{name} was altered, and passes")
        return True


READERS = (Networks, Journals, Scenarios, Texts, Sheets, Workbooks, Commands, Folders)


def run(count, seed, folder):
    """Gives each reader its share of so many altered files: how many each took and refused, and what was wrong, with
    the file."""
    wrong, counts, share = [], {}, sum(reader.SHARE for reader in READERS)
    for kind in READERS:
        # Each reader has a seed of its own, so that its files are the same whatever the others do.
        rng = random.Random(f"{seed} {kind.__name__}")
        place_ = pathlib.Path(folder) / kind.__name__
        place_.mkdir()
        reader = kind(place_)
        for name, data in reader.whole.items():
            if not reader.read(name, data) and kind is not Workbooks:
                wrong.append((kind.__name__, name, data, "it is refused as it was"))
        for number in range(count * kind.SHARE // share):
            name = rng.choice(sorted(reader.whole))
            data = altered(rng, reader.whole[name])
            try:
                reader.taken[bool(reader.read(name, data))] += 1
            except Wrong as fault:
                wrong.append((kind.__name__, name, data, str(fault)))
            except Exception:
                wrong.append((kind.__name__, name, data, traceback.format_exc(limit=-4)))
        counts[kind.__name__] = dict(reader.taken)
    return counts, wrong


def main(count, seed):
    with tempfile.TemporaryDirectory() as folder:
        counts, wrong = run(count, seed, folder)
    for number, (reader, name, data, what) in enumerate(wrong, 1):
        pathlib.Path("wrong").mkdir(exist_ok=True)
        pathlib.Path(f"wrong/{number}").write_bytes(data)
        print(f"wrong/{number}: {reader}, {name}: {what}")
    for reader, taken in counts.items():
        print(f"{reader}: {taken.get(True, 0)} read, {taken.get(False, 0)} refused")
    cases = sum(sum(taken.values()) for taken in counts.values()) + len(wrong)
    pathlib.Path("told.txt").write_text(f"{cases} files, {len(wrong)} wrong\n")
    return 1 if wrong else 0


if __name__ == "__main__":
    sys.exit(main(int(sys.argv[1]), int(sys.argv[2])))
