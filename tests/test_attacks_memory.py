"""Inputs that would take a tool gigabytes: points and brackets of TOML, long fields, files without an end. Each tool
has some hundred megabytes and some seconds for them, and ends with a message."""
import concurrent.futures
import os
import resource
import subprocess
import unittest
from typing import Any, Optional, Tuple

from common import HUB, PROGRAM, Case, Word, clearing, files_of, run_of
from places import EachTool
from evidences import EvidenceCase

from clearing_tools.evidence import audit, bounds

FILES = files_of(HUB)


def limited(
    megabytes: int, *words: Word, python: Optional[str] = None, seconds: int = 120
) -> "subprocess.CompletedProcess[str]":
    """A run of a tool that has so much memory."""
    limit = lambda: resource.setrlimit(resource.RLIMIT_AS, (megabytes << 20, megabytes << 20))
    return subprocess.run(
        [*run_of(words[0], python), *map(str, words[1:])],
        preexec_fn=limit,
        timeout=seconds,
        stdin=subprocess.DEVNULL,
        capture_output=True,
        encoding="utf-8",
        errors="replace",
        env={**os.environ, "CLEARING": os.path.realpath(PROGRAM)},
    )


# Documents, and the fault that the program names; none where the program takes longer to say it.
DEEP = {
    "points": "a" + ".a" * 20_000 + " = 1\n",
    "some points": "a" + ".a" * 2_000 + " = 1\n",
    "points of a table": "[a" + ".a" * 20_000 + "]\n",
    "brackets": "a = " + "[" * 20_000 + "]" * 20_000 + "\n",
    "braces": "a = " + "{a=" * 20_000 + "1" + "}" * 20_000 + "\n",
    "brackets alone": "[" * 100_000,
    "one too many": "a" + ".a" * 80 + " = 1\n",
    "a bracket too many": "a = " + "[" * 81 + "]" * 81 + "\n",
    "as deep as may be": "a" + ".a" * 79 + " = " + "[" * 79 + "]" * 79 + "\n",
    "nested": "a = " + "".join("{" + "a." * 79 + "a = " for _ in range(79)) + "1" + "}" * 79,
    "many tables": "".join(f"[a{n}" + ".a" * 78 + "]\n" for n in range(20_000)),
    "many short ones": "".join(f"[a{n}]\n" for n in range(300_000)),
    "a number of digits": "a = " + "9" * 100_000 + "\n",
    "points in a text": (
        '[[scenario]]\nname = "' + "a." * 30 + '"\n[[ "scenario" . loss ]]\nbank = \'Nobody\'\namount = 1\n'
    ),
}


class Scenarios(EvidenceCase):
    def test_deep_and_wide_documents_are_refused_as_the_program_does(self):
        for about, document in DEEP.items():
            with self.subTest(about):
                file = self.file("s.toml", document)
                said = (
                    clearing("stress", *FILES, "--scenarios", file).stderr.decode().strip().removeprefix("clearing: ")
                )
                shock = limited(
                    500, "clearing-shock", "--banks", HUB / "banks.csv", "--scenarios", file, "--scenario", 1
                )
                self.assertEqual((shock.returncode, shock.stderr.strip().removeprefix("clearing-shock: ")), (4, said))
                lint = limited(500, "clearing-lint", *FILES, "--scenarios", file)
                self.assertEqual((lint.returncode, lint.stderr), (1, ""))
                kind = said.split(": ")[1]
                self.assertIn(f": {kind}:", lint.stdout.split("\n")[0])

    def test_so_are_they_in_a_folder_of_evidence(self):
        folder = self.hub()
        for about in ("points", "some points", "many tables", "nested"):
            (folder / "inputs/scenarios.toml").write_text(DEEP[about])
            self.sums_anew(folder)
            done = limited(500, "clearing-evidence", "check", folder)
            self.assertEqual((done.returncode, "Traceback" in done.stderr), (3, False), (about, done.stderr))
            self.assertIn("inputs: scenarios row 0: ", done.stderr, about)

    def test_no_document_of_scenarios_is_beyond_the_limits(self):
        # As many scenarios and losses as there may be, in texts and comments what would be too many of anything.
        losses = "".join(f"[[scenario.loss]] # {'.[{' * 9}\nbank = '''N.{n}'''\namount = {n}\n" for n in range(1000))
        document = "".join(f'[[scenario]]\nname = "{n}{"." * 40}" # ["{{[[[[\n{losses}' for n in range(80))
        self.assertIsNone(bounds.fault_of(document))
        inline = "".join(
            f"[[\"scenario\"]]\nname = '{n}'\nloss ="
            f" [{', '.join(chr(123) + 'bank = ' + repr(f'N{k}') + ', amount = 1}' for k in range(100))}]\n"
            for n in range(100)
        )
        self.assertIsNone(bounds.fault_of(inline))
        for text in (
            'x = """a.""b.\\"""c""""' + '"\n',
            "x = '''a.''b.'''''\n",
            "x = 'a.b\n",
            'x = "a.b\\"\n',
            "'''",
            '"""',
            "#",
            "# a",
            "",
        ):
            self.assertIsNone(bounds.fault_of(text * 9000 if text.endswith("\n") else text), text)
        self.assertEqual(bounds.fault_of("x = 1.5\n" * 10_001), "shape")


class Fields(Case):
    def judged(self, **files: Any) -> Tuple[int, str]:
        """What audit.py says of files of which one is hostile, with a tenth of the memory that it took once."""
        words = [
            word
            for option in ("banks", "debts", "journal")
            for word in (f"--{option}", self.file(option, files[option]))
        ]
        done = limited(400, "clearing-audit", *words)
        self.assertNotIn("Traceback", done.stderr)
        return done.returncode, done.stderr.strip()

    def test_long_fields_take_little(self):
        banks, debts = "name,cash,rule\nA,1,order\nB,1,order\n", "debtor,creditor,class,claim\nA,B,1,2\n"
        head, many = "stamp,debtor,creditor,class,to\n", 20_000_000
        for about, record in [
            ("a field of letters", f'"{"a" * many}"\n'),
            ("of quotes", f'"{chr(34) * many}"\n'),
            ("of quotes and letters", '"' + 'a""' * (many // 3) + '"\n'),
            ("without an end", '"' + "a" * many),
            ("of blanks", f'1,A," {" " * many}",1,1\n'),
            ("many fields", "," * many + "x\n"),
            ("many with quotes", '"",' * 500_000 + "x\n"),
        ]:
            status, said = self.judged(banks=banks, debts=debts, journal=head + record)
            kind = "name (3)" if about == "of blanks" else "fields (2)"
            self.assertEqual((status, said), (4, f"audit.py: journal row 1: {kind}"), about)

    def test_fields_are_read_as_before(self):
        for data, wanted in [
            (b'"a""b",c\n', [[b'a"b', b"c"]]),
            (b'"",""""\n', [[b"", b'"']]),
            (b'"a"b,"c\n', [[b"ab", b"c\n"]]),
            (b'"a\nb",\r\n\r\nc', [[b"a\nb", b""], [b"c"]]),
            (b"a,,,,,,,\n", [[b"a", b"", b"", b"", b"", b"", b""]]),
            (b"a, , , , , , ,b\n", [[b"a", b"", b"", b"", b"", b"", b"b"]]),
            (b'"""a"""x\n', [[b'"a"x']]),
        ]:
            self.assertEqual(list(audit.records(data)), wanted, data)


class Bounded(Case):
    def test_what_is_far_too_long_is_not_read_to_its_end(self):
        sparse = self.file("sparse", "")
        os.truncate(sparse, 12 << 30)
        sheet = self.file("sheet.csv", "debtor,creditor,amount\nA,B,1\n")
        for name, words in [
            ("clearing-draws", [*FILES, "--draws", 2, "--moments", "/dev/zero"]),
            ("clearing-draws", [*FILES, "--draws", 2, "--past", sparse]),
            ("clearing-tidy", ["/dev/zero", "--folder", self.folder / "tables"]),
            ("clearing-tidy", [sparse, "--folder", self.folder / "tables"]),
            (
                "clearing-evidence",
                ["make", self.folder / "evidence", "--source", f"from_list.py {sparse} --table {sheet}"],
            ),
            (
                "clearing-evidence",
                ["make", self.folder / "evidence", "--source", f"from_list.py {sheet} --table {sparse}"],
            ),
        ]:
            with self.subTest(name, words=words):
                done = limited(1200, name, *words)
                self.assertGreater(done.returncode, 0)
                self.assertRegex(done.stderr, "longer than [0-9,]+ bytes")


class Endless(EachTool):
    def test_a_file_without_an_end_ends_no_tool(self):
        """/dev/zero, and a file of 12 GiB that has no content, in the place of each input of each tool."""
        sparse = self.given("sparse", "")
        os.truncate(sparse, 12 << 30)
        runs, seen = [], set()
        for name, words, _, how in self.each():
            for at, word in enumerate(words):
                if self.is_input(word) and (name, word.name) not in seen and name != "clearing-why":
                    seen.add((name, word.name))
                    endless = (sparse, "/dev/zero")[len(seen) % 2] if word.name != "jobs.tsv" else sparse
                    runs.append(
                        (
                            name,
                            self.placed([*words[:at], endless, *words[at + 1 :]], self.out / f"place-{len(seen)}"),
                            how.get("python"),
                            word.name,
                        )
                    )

        def ends(run: Any) -> Any:
            name, words, python, given = run
            try:
                done = limited(2500, name, *words, python=python, seconds=240)
            except subprocess.TimeoutExpired:
                return f"{name} {given}: it goes on"
            if (
                done.returncode <= 0
                or "Traceback" in done.stderr
                or any(word in done.stderr for word in ("MemoryError", "not enough memory"))
            ):
                return f"{name} {given}: {done.returncode} {done.stderr[-500:]}"
            return None

        with concurrent.futures.ThreadPoolExecutor(3) as pool:
            self.assertEqual([], [said for said in pool.map(ends, runs) if said])


if __name__ == "__main__":
    unittest.main()
