"""Ways of tampering with a folder of evidence whose checksums are made anew: each has its status where no program is
at hand, or the check names what was altered as not checked."""
import concurrent.futures
import functools
import os
import pathlib
import re
import shlex
import shutil
import socket
import types
import unittest
import unittest.mock
from typing import Any, Callable, Optional, Union

from common import PROGRAM, ROOT
from clearing_tools.evidence.checking import FIRST, Checking
from clearing_tools.evidence.plain_files import NoRoomError
from evidences import EvidenceCase, evidence

ONE = """[[scenario]]
name = "half"
cut = 500
"""

Work = Callable[[pathlib.Path], Any]
"""Something that is done to a folder of evidence."""


def put(name: str, content: Union[str, bytes]) -> Work:
    """Puts a file, with the folder that it is in."""

    def work(folder: pathlib.Path) -> None:
        (folder / name).parent.mkdir(exist_ok=True)
        (folder / name).write_bytes(content.encode() if isinstance(content, str) else content)

    return work


def alter(name: str, old: str, new: str, count: int = 1) -> Work:
    """Writes other text in a file."""

    def work(folder: pathlib.Path) -> None:
        text = (folder / name).read_bytes()
        assert old.encode() in text, (name, old, text)
        (folder / name).write_bytes(text.replace(old.encode(), new.encode(), count))

    return work


def changed(name: str, change: Callable[[bytes], bytes]) -> Work:
    """Writes what a change makes of a file."""
    return lambda folder: put(name, change((folder / name).read_bytes()))(folder)


def without_last(text: bytes) -> bytes:
    """A text without its last line."""
    return b"".join(text.splitlines(True)[:-1])


def copy(name: str, to: str) -> Work:
    return lambda folder: put(to, (folder / name).read_bytes())(folder)


def remove(*names: str) -> Work:
    def work(folder: pathlib.Path) -> None:
        for name in names:
            path = folder / name
            shutil.rmtree(path) if path.is_dir() else path.unlink()

    return work


def both(*works: Work) -> Work:
    return lambda folder: [work(folder) for work in works]


def without_lines(name: str, beginning: str) -> Work:
    """Leaves out the lines of a file with this beginning."""

    def work(folder: pathlib.Path) -> None:
        lines = (folder / name).read_text().splitlines(True)
        left = [line for line in lines if not re.match(beginning, line)]
        assert len(left) < len(lines)
        (folder / name).write_text("".join(left))

    return work


def link(name: str, to: str) -> Work:
    def work(folder: pathlib.Path) -> None:
        (folder / name).unlink(missing_ok=True)
        (folder / name).symlink_to(to)

    return work


def a_link_of_a_folder(folder: pathlib.Path) -> None:
    (folder / "as-is").rename(folder.parent / f"{folder.name}-as-is")
    (folder / "as-is").symlink_to(f"../{folder.name}-as-is")


def a_socket(folder: pathlib.Path) -> None:
    (folder / "stress.csv").unlink()
    # The name of a socket is short, and the folder that a process works in is that of all its threads.
    place = os.open(folder, os.O_RDONLY | os.O_DIRECTORY)
    try:
        with socket.socket(socket.AF_UNIX) as made:
            made.bind(f"/proc/self/fd/{place}/stress.csv")
    finally:
        os.close(place)


def a_pipe(folder: pathlib.Path) -> None:
    (folder / "stress.csv").unlink()
    os.mkfifo(folder / "stress.csv")


def sparse(name: str, size: int) -> Work:
    def work(folder: pathlib.Path) -> None:
        with open(folder / name, "r+b" if (folder / name).exists() else "wb") as file:
            file.truncate(size)

    return work


def swap(folder: pathlib.Path) -> None:
    """The payments of the scenario in the place of those as it is, and the other way round."""
    one, other = folder / "as-is/payments.csv", folder / "scenario-1/payments.csv"
    first = one.read_bytes()
    one.write_bytes(other.read_bytes())
    other.write_bytes(first)


def a_sum(change: Any) -> Work:
    """Alters SHA256SUMS itself, once it is made anew."""

    def work(folder: pathlib.Path) -> None:
        work.later = lambda: (folder / "SHA256SUMS").write_bytes(change((folder / "SHA256SUMS").read_bytes()))

    return work


SOUND = alter("scenario-1/defaults.csv", "contagion", "sound", 9)
MANY = [put(f"more-{number}", "") for number in range(1100)]

# What is done; the status; a line of the output or the messages.
TABLE = [
    # Names that do not belong to it.
    (
        "no scenarios, but what they left",
        both(remove("inputs/scenarios.toml"), without_lines("commands.tsv", "stress|scenario-")),
        3,
        "stress.csv: none of these commands makes it here",
    ),
    (
        "the same with the states made up",
        both(remove("inputs/scenarios.toml"), without_lines("commands.tsv", "stress|scenario-"), SOUND),
        3,
        "scenario-1/defaults.csv: none of these commands makes it here",
    ),
    (
        "no scenarios, but their stress",
        both(remove("inputs/scenarios.toml", "scenario-1"), without_lines("commands.tsv", "stress|scenario-")),
        3,
        "stress.csv: none of these commands makes it here",
    ),
    (
        "an invented scenario",
        both(
            *(
                copy(f"scenario-1/{name}.csv", f"scenario-9/{name}.csv")
                for name in ("banks", "journal", "payments", "defaults")
            )
        ),
        3,
        "scenario-9/payments.csv: none of these commands makes it here",
    ),
    ("a scenario 01", copy("scenario-1/payments.csv", "scenario-01/payments.csv"), 3, "scenario-01/payments.csv: none"),
    (
        "a unit less without a rescue",
        both(remove("rescue"), without_lines("commands.tsv", "rescue|unit-less")),
        3,
        "unit-less/banks.csv: none",
    ),
    ("a rescue above the folder's own", put("rescue.csv", "rescue,South,0\nshort,0\n"), 3, "rescue.csv: none"),
    (
        "banks beside the network as it is",
        put("as-is/banks.csv", "name,cash,rule\nHub,999,order\n"),
        3,
        "as-is/banks.csv: none",
    ),
    (
        "a rescue within the network as it is",
        put("as-is/rescue.csv", "rescue,South,0\nshort,0\n"),
        3,
        "as-is/rescue.csv: none",
    ),
    ("bounds that nobody asked for", put("as-is/bounds.csv", "x\n"), 3, "as-is/bounds.csv: none"),
    ("a file among the inputs", put("inputs/more.csv", "x\n"), 3, "inputs/more.csv: none"),
    ("a file that is hidden", put(".verdict", "checked: all is well\n"), 3, ".verdict: none"),
    ("a text beside README.txt", put("README", "all is well\n"), 3, "README: none"),
    ("an empty folder", lambda folder: (folder / "scenario-2").mkdir(), 3, "scenario-2/: none"),
    ("a folder in a folder", lambda folder: (folder / "as-is/more").mkdir(), 3, "as-is/more/: none"),
    (
        "a file deep down",
        both(lambda folder: (folder / "as-is/more").mkdir(), put("as-is/more/x.csv", "x")),
        3,
        "as-is/more/: none",
    ),
    ("a name that ends a line", put("x\nchecked: all files are fine", "x"), 3, None),
    ("a name that clears the terminal", put("x\x1b[2J\x9b2Jx", "x"), 3, "x<U+001B>[2J<U+009B>2Jx: none"),
    ("a name that turns the line round", put("x\u202efine", "x"), 3, "x<U+202E>fine: none"),
    (
        "a name in other letters",
        lambda folder: (folder / "stress.csv").rename(folder / "Stress.csv"),
        3,
        "stress.csv is not there",
    ),
    ("more names than any folder has", both(*MANY), 3, "more than 1000 names"),
    # What is there, but no file.
    (
        "a link to the inputs",
        link("as-is/payments.csv", "../scenario-1/payments.csv"),
        3,
        "as-is/payments.csv is not there",
    ),
    ("a link out of the folder", link("inputs/banks.csv", "/etc/hostname"), 3, "inputs/banks.csv is not there"),
    ("a link of a folder", a_link_of_a_folder, 3, "is not there"),
    ("a pipe", a_pipe, 3, "stress.csv is not there"),
    ("a socket", a_socket, 3, "stress.csv is not there"),
    ("a device", link("versions.txt", "/dev/zero"), 3, "versions.txt is not there"),
    (
        "a folder in the place of a file",
        both(remove("versions.txt"), lambda folder: (folder / "versions.txt").mkdir()),
        3,
        "versions.txt is not there",
    ),
    (
        "twelve gigabytes of nothing",
        sparse("versions.txt", 12 << 30),
        3,
        "versions.txt: it is longer than 8,388,608 bytes",
    ),
    (
        "twelve gigabytes of banks",
        sparse("inputs/banks.csv", 12 << 30),
        3,
        "inputs/banks.csv: it is longer than 167,772,160 bytes",
    ),
    # What is missing.
    ("no payments of a scenario", remove("scenario-1/payments.csv"), 3, "scenario-1/payments.csv is not there"),
    ("no journal of a unit less", remove("unit-less/journal.csv"), 3, "unit-less/journal.csv is not there"),
    ("no unit less", both(remove("unit-less"), without_lines("commands.tsv", "unit-less")), 3, "is not there"),
    ("no stress", both(remove("stress.csv"), without_lines("commands.tsv", "stress")), 3, "stress.csv is not there"),
    ("no README.txt", remove("README.txt"), 3, "README.txt is not there"),
    ("no versions", remove("versions.txt"), 3, "versions.txt is not there"),
    # Texts.
    (
        "another README.txt",
        put("README.txt", "Everything here was checked and found true.\n"),
        3,
        "README.txt: not the text of these tools",
    ),
    ("a blank in README.txt", alter("README.txt", "\n\n", "\n \n"), 3, "README.txt: not the text of these tools"),
    ("a command fewer", without_lines("commands.tsv", "stress"), 3, "commands.tsv: not the commands"),
    ("another status", alter("commands.tsv", "\t0\t", "\t7\t"), 3, "commands.tsv: not the commands"),
    (
        "a command of other words",
        alter("commands.tsv", "--workers\t1", "--workers\t2"),
        3,
        "commands.tsv: not the commands",
    ),
    (
        "versions with a line more",
        alter("versions.txt", "\npython", "\nchecked: all\npython"),
        3,
        "versions.txt: not of its form",
    ),
    ("versions with an escape", alter("versions.txt", "python ", "python \x1b[2J"), 3, "versions.txt: not of its form"),
    (
        "another program in versions",
        lambda folder: put(
            "versions.txt", re.sub(b"program .*", b"program " + b"0" * 64, (folder / "versions.txt").read_bytes())
        )(folder),
        0,
        "not checked: that versions.txt is true",
    ),
    # SHA256SUMS.
    (
        "checksums in another order",
        a_sum(lambda text: b"".join(sorted(text.splitlines(True)))),
        3,
        "SHA256SUMS: not as these commands write it",
    ),
    ("a checksum in capitals", a_sum(lambda text: text[:64].upper() + text[64:]), 4, "README.txt differs"),
    ("an empty line", a_sum(lambda text: text + b"\n"), 3, "SHA256SUMS is not a list of checksums"),
    (
        "checksums of files elsewhere",
        a_sum(lambda text: text + b"0" * 64 + b"  ../../etc/passwd\n"),
        3,
        "../../etc/passwd is not there",
    ),
    (
        "a file listed twice",
        a_sum(lambda text: text + text.splitlines(True)[0]),
        3,
        "SHA256SUMS is not a list of checksums",
    ),
    ("a file not listed", a_sum(lambda text: b"".join(text.splitlines(True)[1:])), 4, "is not listed"),
    ("no checksums at all", a_sum(lambda text: b""), 3, "SHA256SUMS is not a list of checksums"),
    # Banks.
    ("a scenario that leaves more", alter("scenario-1/banks.csv", ",", ",9"), 5, "scenario 1: banks differ"),
    ("a scenario of another rule", alter("scenario-1/banks.csv", ",webster", ",order"), 5, "scenario 1: banks differ"),
    ("the same banks in another form", alter("scenario-1/banks.csv", "\n", "\r\n", 99), 5, "scenario 1: banks differ"),
    ("another scenario", alter("inputs/scenarios.toml", "500", "400"), 5, "scenario 1: banks differ"),
    ("a rescue with more", alter("rescue/banks.csv", "South,", "South,1"), 5, "rescue: banks differ"),
    ("another sum", alter("rescue/rescue.csv", "rescue,South,2", "rescue,South,3"), 5, "rescue: banks differ"),
    # Journals.
    (
        "a raise too high",
        lambda folder: put(
            "as-is/journal.csv",
            re.sub(
                rb"(\n[0-9]+,[^\n]*,)([0-9]+)\n", rb"\g<1>9\2\n", (folder / "as-is/journal.csv").read_bytes(), count=1
            ),
        )(folder),
        6,
        "is not lawful",
    ),
    (
        "a raise less",
        lambda folder: put(
            "as-is/journal.csv", re.sub(rb"\n[^\n]*(\nrounds)", rb"\1", (folder / "as-is/journal.csv").read_bytes())
        )(folder),
        6,
        "can pay more",
    ),
    ("no raises", put("as-is/journal.csv", "stamp,debtor,creditor,class,to\nrounds,1\n"), 6, "can pay more"),
    ("an empty journal", put("as-is/journal.csv", ""), 6, "journal row 0: header (1)"),
    (
        "another number of rounds",
        alter("as-is/journal.csv", "rounds,", "rounds,9"),
        0,
        "not checked: the numbers of rounds",
    ),
    ("no number of rounds", without_lines("as-is/journal.csv", "rounds"), 0, "not checked: the numbers of rounds"),
    # Tables.
    ("payments of another network", swap, 7, "payments differ"),
    (
        "a unit more paid",
        lambda folder: put(
            "as-is/payments.csv", re.sub(rb"([0-9]+)\n$", rb"9\1\n", (folder / "as-is/payments.csv").read_bytes())
        )(folder),
        7,
        "payments differ",
    ),
    ("payments in another form", alter("as-is/payments.csv", "\n", "\r\n", 99), 7, "payments differ"),
    ("a state made up", alter("scenario-1/defaults.csv", "contagion", "sound"), 7, "defaults differ"),
    ("sums made up", alter("as-is/defaults.csv", "total,", "total,9"), 7, "defaults differ"),
    ("states of stress made up", alter("stress.csv", "contagion", "sound", 9), 7, "stress.csv: differs"),
    ("stress of another name", alter("stress.csv", "scenario,half", "scenario,none"), 7, "stress.csv: differs"),
    ("a scenario more of stress", changed("stress.csv", lambda text: text + b"\n" + text), 7, "stress.csv: differs"),
    ("a line end more of stress", changed("stress.csv", lambda text: text + b"\n"), 7, "stress.csv: differs"),
    ("stress without its last line", changed("stress.csv", without_last), 7, "stress.csv: differs"),
    ("no payment of the last debt", changed("as-is/payments.csv", without_last), 7, "payments differ"),
    ("no line of cash", changed("scenario-1/defaults.csv", without_last), 7, "defaults differ"),
    ("a bank more", changed("as-is/defaults.csv", lambda text: text + b"Nord,0,0,0,0,sound\n"), 7, "defaults differ"),
    ("states made up in both", both(SOUND, alter("stress.csv", "contagion", "sound", 9)), 7, "scenario 1: lawful"),
    ("another want of the rescue", alter("rescue/rescue.csv", "short,1", "short,2"), 7, "not what the tables say"),
    (
        "the sum with a sign",
        alter("rescue/rescue.csv", "South,", "South,+"),
        3,
        "rescue.csv is not what `clearing rescue` prints",
    ),
    (
        "the sum with a blank",
        alter("rescue/rescue.csv", "South,", "South, "),
        3,
        "rescue.csv is not what `clearing rescue` prints",
    ),
    (
        "a sum of 5,000 digits",
        alter("rescue/rescue.csv", "South,", "South," + "9" * 5000),
        3,
        "rescue.csv is not what `clearing rescue` prints",
    ),
    (
        "payments of the rescue made up",
        lambda folder: put(
            "rescue/rescue.csv", re.sub(rb"([0-9]+)\n$", rb"9\1\n", (folder / "rescue/rescue.csv").read_bytes())
        )(folder),
        7,
        "not what the tables say",
    ),
]


class Tampering(EvidenceCase):
    maxDiff = None

    def tampered(self, kept: pathlib.Path, number: int, row: Any) -> Optional[str]:
        """What is not as the row has it, or nothing."""
        about, work, status, line = row
        folder = self.folder / f"tampered-{number}"
        shutil.copytree(kept, folder)
        work(folder)
        self.sums_anew(folder)
        getattr(work, "later", lambda: None)()
        done = self.without_program("check", folder, timeout=300)
        told = (done.stdout + done.stderr).decode()
        shutil.rmtree(folder)
        if done.returncode != status or (line or "") not in told or "Traceback" in told or "\x1b" in told:
            return f"{about}: {done.returncode}, not {status} with {line!r}:\n{told}"
        # Nothing that was altered is said to be checked, and what a name says is no line.
        failed = {3: "the folder has", 4: "the files are", 5: "each banks file", 6: "each journal", 7: "payments"}.get(
            status
        )
        if re.search(f"(?m)^checked: ({failed}|all)", told):
            return f"{about}: said to be checked:\n{told}"
        return None

    def test_each_way_of_tampering_has_its_status(self):
        self.assertGreaterEqual(len(TABLE), 40)
        kept = self.hub(ONE)
        done = self.without_program("check", kept)
        self.assertEqual((done.returncode, done.stderr), (0, b""), done.stdout)
        with concurrent.futures.ThreadPoolExecutor(4) as pool:
            found = pool.map(functools.partial(self.tampered, kept), range(len(TABLE)), TABLE)
        self.assertEqual([], [about for about in found if about])

    def test_what_does_not_belong_to_it_is_not_copied(self):
        folder = self.hub(ONE)
        belongs = {str(path.relative_to(folder)) for path in folder.rglob("*") if path.is_file()}
        others = {
            f"scenario-{number}/{name}.csv"
            for number in (9, 999)
            for name in ("banks", "journal", "payments", "defaults")
        }
        for name in others:
            put(name, "x" * 1000)(folder)
        read = self.copied(folder).folder
        self.assertEqual({str(path.relative_to(read.copy)) for path in read.copy.rglob("*") if path.is_file()}, belongs)
        self.assertEqual(set(read.sums), belongs)
        # Nothing belongs to inputs that are none but what says so.
        put("inputs/banks.csv", "x")(folder)
        read = self.copied(folder).folder
        self.assertLess(
            {path.name for path in read.copy.rglob("*") if path.is_file()}, {os.path.basename(name) for name in FIRST}
        )
        self.assertLess(set(read.sums), FIRST)
        shutil.rmtree(folder)
        # Nor is a copy made that takes more than half of the room.
        folder = self.hub(ONE)
        room = unittest.mock.patch("shutil.disk_usage", return_value=types.SimpleNamespace(free=9_000))
        with room, self.assertRaises(NoRoomError) as caught:
            self.copied(folder)
        self.assertIn(" bytes, and there is room for 4,500", str(caught.exception))

    def copied(self, folder: pathlib.Path) -> Any:
        """A folder under check, of which a copy was made."""
        shutil.rmtree(self.folder / "copy", ignore_errors=True)
        (self.folder / "copy").mkdir()
        checking = Checking(folder, self.folder / "copy")
        self.addCleanup(checking.folder.close)
        return checking

    def test_a_change_while_it_is_checked_is_told(self):
        folder = self.hub(ONE)
        for about, change in [
            ("versions.txt", f"echo x >>{folder}/versions.txt"),
            ("the folder", f"echo x >{folder}/more.txt"),
            ("the folder", f"rm -f {folder}/more.txt {folder}/README.txt; mkfifo {folder}/README.txt"),
        ]:
            kept = shutil.copytree(folder, self.folder / "kept")
            program = self.executable("program", f'{{ {change}; }} 2>/dev/null\nexec {shlex.quote(PROGRAM)} "$@"\n')
            done = evidence("check", folder, program=str(program), timeout=300)
            self.assertEqual(done.returncode, 4, done.stdout.decode())
            self.assertIn(f"{about}: changed while it was checked\nchecked: the folder has", done.stdout.decode())
            # What is told is told of what was read.
            self.assertIn("; payments same; defaults same\n", done.stdout.decode())
            shutil.rmtree(folder)
            kept.rename(folder)

    def test_only_what_was_looked_at_is_said_to_be_checked(self):
        plain = self.folder / "plain"
        files = [
            "--banks",
            self.file("banks.csv", "name,cash,rule\nA,1,order\nB,1,order\n"),
            "--debts",
            self.file("debts.csv", "debtor,creditor,class,claim\nA,B,1,2\n"),
        ]
        self.assertEqual(evidence("make", plain, *files).returncode, 0)
        told = self.without_program("check", plain).stdout.decode()
        self.assertIn("checked: payments and defaults are those of the journals\n", told)
        for word in ("banks file", "rescue", "stress", "scenario"):
            self.assertNotIn(word, told)
        self.assertIn("not checked: that the inputs are true (inputs/banks.csv, inputs/debts.csv), ", told)
        self.assertIn("not checked: that versions.txt is true\n", told)

    def test_what_may_be_altered_is_named_as_not_checked(self):
        """In the output, by the row of the table, and in GUIDE."""
        guide = (
            (ROOT / "docs/GUIDE.md")
            .read_text(encoding="utf-8")
            .partition("**What no check of files says**")[2]
            .partition("\n\n")[0]
        )
        for about, _, status, line in TABLE:
            if status == 0:
                self.assertTrue(line.startswith("not checked: "), about)
                named = next((word for word in ("versions.txt", "numbers of rounds") if word in line), "")
                self.assertTrue(named and named in guide, (about, guide))
        for word in ("inputs", "sheets", "who ran", "[proofs]"):
            self.assertIn(word, " ".join(guide.split()))


if __name__ == "__main__":
    unittest.main()
