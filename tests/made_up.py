"""Files that are made up at random, for what must judge files as the program does: networks, scenarios and journals,
each within all limits at first, and then with up to a few changes of its records, fields, values and bytes. A seed
makes the same file each time."""
import random
from typing import Dict, List

import common  # noqa: F401  # so that Python finds the packages of this repository
from odd_names import ODD_FIELDS

from clearing_client.format import RULES
from clearing_tools.checks import findings

NAMES: List[str] = [
    *["A", "B", "C", "Crédit Loire", "D 1", "x" * 64, "é" * 32, "order", "0", "\u00a0E"],
]
"""Names of banks that are accepted."""
FIELDS: List[str] = [
    *ODD_FIELDS,
    *["7\u00a0", "\u00a07", "1'000", "7,5", "7.0", "1E+06", "²", "1" * 20, "0" * 20, "0" * 20 + "1", "1000000"],
    *["100000000000", "100000000001", "1000000000000", "1000000000001", "webster", "orders", "é" * 33, 'a"b', "a\nb"],
    *["a\x7f", "\x1fa", "\x80", "\x9f", "a", "B", "1", "9", "10", "01", "1.0", "\ufeffA", "Cre\u0301dit Loire", "=3"],
    *["name", ";"],
]
"""What is put in place of a field, or into it: odd ones, and more that are beside what the program takes."""
BYTES: List[bytes] = [
    *[b'"', b'""', b",", b"\r", b"\n", b"\r\n", b" ", b"\t", b";", b"\0", b"\xff", b"\xc3", b"\xc2\xa0"],
    *[b"\xef\xbb\xbf", b"\x80", b"A", b"0"],
]
"""What is put into the bytes of a file."""

NETWORK: Dict[str, bytes] = {
    "banks": "name,cash,rule,outside\nA,7,order,0\nB,1,equal,2\nCrédit Loire,5,losses,0\nD 1,0,webster,0\n".encode(),
    "debts": (
        "debtor,creditor,class,claim\nA,B,1,10\nB,Crédit Loire,1,9\nB,Crédit Loire,3,9\nCrédit Loire,A,2,1000000\n"
        "D 1,A,9,0\n".encode()
    ),
}
"""Two files that are accepted, for what is made up of scenarios and journals."""
KEYS: List[str] = [
    *["name", "cut", "loss", "bank", "amount", "scenario", "Name", "cuts", "", "1", "a b"],
]
"""Keys of scenarios, and others."""
TEXTS: List[str] = [
    *['""', '"A"', "'B'", '"Crédit Loire"', '"Cr\\u00e9dit Loire"', '"D 1"', '"E"', '"a,b"', "'a\"b'", '"a\\nb"'],
    *['" "', '"A "', '"' + "x" * 65 + '"', '"' + "é" * 32 + '"', '"\\u0080"', '"\\u007f"', '"\\U0001F600"'],
    *['"\\ud800"', '"a\\qb"', '"""A"""', "'''A'''", '"""\n\nA"""', '"\u00a0"', '"\ufeffA"', '"\t"', "“A”", "A"],
]
"""Values that are texts of TOML, or nearly; the first few are names of banks."""
WHOLE: List[str] = [
    *["0", "1", "500", "1000", "1001", "-1", "+7", "-0", "1_000", "0x10", "0o7", "0b1", "00", "01"],
    *["1000000000000", "1000000000001", "9223372036854775807", "9223372036854775808", "-9223372036854775808"],
    *["-9223372036854775809", "1_", "1,000", "0xFFFFFFFFFFFFFFFF"],
]
"""Values that are whole numbers of TOML, or nearly."""
OTHERS: List[str] = [
    *["1.0", "1e3", "inf", "nan", "true", "false", "[]", "[1]", "[{}]", "{}", "{ a = 1 }", "1979-05-27"],
    *["07:32:00", "1979-05-27T07:32:00Z", "", '[["A"]]', '[{ bank = "A", amount = 1 }]'],
    *['[{ bank = "A", amount = 1 }, { bank = "A", amount = 2 }]', '{ bank = "A", amount = 1 }'],
    *["1979-05-27 07:32:00.999999-07:00"],
]
"""Values that are neither."""
STRAY: List[str] = [
    *["[[scenario]]", "[scenario]", "[[scenario.loss]]", "[scenario.loss]", "[[ scenario ]] # c"],
    *["[[scenario.loss.x]]", "[other]", "[[other]]", "# comment", "", "x = 1", "scenario = []"],
    *['scenario.name = "A"', 'name = "again"', "]", "[[scenario]", 'loss.bank = "A"', "\\", '"name" = "A"'],
    *["name . x = 1"],
]
"""Lines that stand somewhere among the scenarios."""


class MadeNetwork:
    """Makes two files: a network within all limits, then up to a few changes of its records, fields and bytes."""

    def __init__(self, seed: int) -> None:
        """The same file for the same seed."""
        self.random = random.Random(seed)

    def files(self) -> List[bytes]:
        """A banks file and a debts file."""
        pick = self.random
        names = pick.sample(NAMES, pick.randint(1, 6))
        two = pick.random() < 0.4
        banks = [
            [name, self.number(10**12), pick.choice(RULES)] + ([self.number(10**11)] if two else [])
            for name in names
        ]
        keys = [(a, b, str(c)) for a in names for b in names if a != b for c in range(1, 10)]
        most = pick.choice([1000, 10**6])
        debts = [[*key, self.number(most)] for key in pick.sample(keys, min(len(keys), pick.randint(0, 14)))]
        if pick.random() < 0.03:
            # About as many claims of the greatest size as all claims may come to.
            debts = [[*key, "1000000"] for key in pick.sample(keys, min(len(keys), pick.randint(10, 11)))]
        tables = [[findings.BANKS_2 if two else findings.BANKS_1] + banks, [findings.DEBTS] + debts]
        tables = [[list(record) for record in table] for table in tables]
        for _ in range(pick.choice([0, 0, 0, 1, 1, 2, 3])):
            self.change(pick.choice(tables))
        files = [self.text_of(table) for table in tables]
        for _ in range(pick.choice([0, 0, 0, 1, 3])):
            place = pick.randrange(2)
            files[place] = self.changed_bytes(files[place])
        return files

    def number(self, most: int) -> str:
        """A number from 0 to the most, often at an end."""
        return str(self.random.choice([0, 1, 7, self.random.randint(0, most), most]))

    def change(self, table: List[List[str]]) -> None:
        """Changes one record of a table, or its place."""
        pick = self.random
        # The header less often than the others.
        place = (
            pick.randrange(len(table)) if pick.random() < 0.3 else pick.randrange(min(1, len(table) - 1), len(table))
        )
        kind = pick.randrange(9)
        record = table[place]
        if kind <= 3 and record:
            record[pick.randrange(len(record))] = pick.choice(FIELDS)
        elif kind == 4:
            record.insert(pick.randint(0, len(record)), pick.choice(FIELDS))
        elif kind == 5 and record:
            del record[pick.randrange(len(record))]
        elif kind == 6 and len(record) > 1:
            record[pick.randrange(2)] = record[pick.randrange(2)]
        elif kind == 7:
            table.insert(pick.randint(0, len(table)), list(pick.choice(table)))
        else:
            table.insert(place + 1, [pick.choice(["", " ", "\t"])] * pick.randint(1, 5))

    def field_of(self, field: str) -> str:
        """A field as a file has it: in quotes, with blanks around it, or plain."""
        pick = self.random
        needs = any(c in field for c in ',"\r\n')
        if pick.random() < (0.9 if needs else 0.1):
            return '"' + field.replace('"', '""') + '"'
        return field if pick.random() < 0.9 else pick.choice([" ", "\t", "  "]) + field + pick.choice([" ", "\t", ""])

    def text_of(self, table: List[List[str]]) -> bytes:
        """The file of some records, with one or several kinds of line ends."""
        pick = self.random
        ends = [pick.choice(["\n", "\n", "\r\n", "\r"])]
        if pick.random() < 0.1:
            ends = ["\n", "\r\n", "\r", "\n\n", "\r\n\r\n", "\n\r"]
        text = "".join(",".join(map(self.field_of, record)) + pick.choice(ends) for record in table)
        if pick.random() < 0.2:
            text = text.rstrip("\r\n")
        if pick.random() < 0.1:
            text = "\ufeff" + text
        code = "utf-8"
        if pick.random() < 0.03:
            code = pick.choice(["utf-16", "latin-1"])
        return text.encode(code, "replace")

    def changed_bytes(self, data: bytes) -> bytes:
        """A file with some bytes more, fewer or in place of others."""
        pick = self.random
        at = pick.randint(0, len(data))
        kind = pick.randrange(3)
        if kind == 0:
            return data[:at] + pick.choice(BYTES) + data[at:]
        if kind == 1:
            return data[:at] + data[at + pick.randint(1, 4) :]
        return data[:at] + pick.choice(BYTES) + data[at + 1 :]


class MadeScenarios:
    """Makes a scenarios file: scenarios of names, cuts and losses, with a few changes of their values, lines and
    bytes."""

    def __init__(self, seed: int) -> None:
        """The same file for the same seed."""
        self.random = random.Random(seed)

    def value(self, good: List[str]) -> str:
        """A value of these, or seldom an odd one."""
        pick = self.random
        if pick.random() < 0.93:
            return pick.choice(good)
        return pick.choice(pick.choice([TEXTS, WHOLE, OTHERS]))

    def key(self, key: str) -> str:
        """This key, or seldom an odd one."""
        return key if self.random.random() < 0.98 else self.random.choice(KEYS)

    def file(self) -> bytes:
        """A file of scenarios."""
        pick = self.random
        lines = []
        for _ in range(pick.choice([0, 1, 1, 2, 2, 3])):
            lines.append("[[scenario]]")
            parts = [f"{self.key('name')} = {self.value(TEXTS[1:6])}"]
            if pick.random() < 0.6:
                parts.append(f"{self.key('cut')} = {self.value(WHOLE[:4])}")
            pick.shuffle(parts)
            lines += parts[: len(parts) if pick.random() < 0.97 else 1]
            banks = pick.sample(TEXTS[1:4] + ['"D 1"'], pick.choice([0, 0, 1, 2, 3]))
            for bank in banks + (banks[:1] if pick.random() < 0.1 else []):
                parts = [
                    f"{self.key('bank')} = {self.value([bank])}",
                    f"{self.key('amount')} = {self.value(WHOLE[:3] + ['1000000000000'])}",
                ]
                lines += ["[[scenario.loss]]"] + parts[: 2 if pick.random() < 0.97 else 1]
        for _ in range(pick.choice([0, 0, 0, 1, 2])):
            at = pick.randint(0, len(lines))
            if pick.random() < 0.3 and at < len(lines):
                del lines[at]
            else:
                lines.insert(at, pick.choice(STRAY))
        text = pick.choice(["\n", "\n", "\n", "\r\n", "\n\n"]).join(lines) + pick.choice(["\n", ""])
        data = ("\ufeff" if pick.random() < 0.05 else "").encode() + text.encode()
        for _ in range(pick.choice([0, 0, 0, 0, 0, 1])):
            at = pick.randint(0, len(data))
            data = data[:at] + pick.choice(BYTES) + data[at + pick.choice([0, 1]) :]
        return data


class MadeJournal(MadeNetwork):
    """Makes a journal of raises of some debts, with a few changes of its records, fields and bytes."""

    def file(self) -> bytes:
        """A journal."""
        pick = self.random
        debts = [line.split(",")[:3] for line in NETWORK["debts"].decode().splitlines()[1:]]
        table = [list(findings.JOURNAL)]
        for stamp in range(pick.randint(0, 8)):
            table.append([str(pick.choice([stamp, 0, 2**32 - 1])), *pick.choice(debts), self.number(10**6)])
        if pick.random() < 0.5:
            table.insert(
                len(table) if pick.random() < 0.9 else pick.randint(1, len(table)),
                ["rounds", pick.choice(["2", "0", "07", "9" * 20, "9" * 21, "", "x", "-1"])],
            )
        if pick.random() < 0.2:
            table.append([" "] * pick.randint(1, 5))
        for _ in range(pick.choice([0, 0, 1, 1, 2])):
            self.change(table)
        if pick.random() < 0.1:
            record = pick.choice(table)
            if record:
                record[pick.randrange(len(record))] = pick.choice(["4294967295", "4294967296", "C", "B", "3", "2"])
        data = self.text_of(table)
        return self.changed_bytes(data) if pick.random() < 0.2 else data
