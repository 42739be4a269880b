"""Names cannot lie: signs that are not seen stand as codes in messages, pictures and the report, and lint tells of
them."""
import re
import sys
import unicodedata

from common import Case, tool
from pythons import python_with

from clearing_tools import runner
from clearing_tools.checks import names as odd
from clearing_tools.labels import word_shown
from clearing_tools.runner import shown

TURNING = [chr(code) for code in (*range(0x202A, 0x202F), *range(0x2066, 0x206A), 0x200E, 0x200F, 0x061C)]
# Signs of Unicode that are formats and are seen: signs of numbers and of abbreviation that stand before letters.
SEEN = set(map(chr, [*range(0x600, 0x606), 0x6DD, 0x70F, 0x890, 0x891, 0x8E2, 0x110BD, 0x110CD]))


class Signs(Case):
    def test_what_turns_letters_and_what_is_not_seen_stands_as_its_code(self):
        self.assertEqual(len(TURNING), 12)
        for sign in TURNING:
            self.assertEqual(shown(f"A{sign}B"), f"A<U+{ord(sign):04X}>B")
        for code in [*range(0xD800), *range(0xE000, 0x110000)]:
            sign = chr(code)
            kind = unicodedata.category(sign)
            unseen = (
                sign not in SEEN
                and sign != "\n"
                and (kind in ("Cc", "Cf", "Zl", "Zp") or (kind == "Zs" and sign != " "))
            )
            if unseen:
                self.assertEqual(shown(sign), f"<U+{code:04X}>")
            elif kind[0] in "LNPS" and sign not in "\u115f\u1160\u2800\u3164\uffa0":
                self.assertEqual(shown(sign), sign)

    def test_texts_that_differ_are_shown_differently(self):
        texts = ["A\u202eB", "A<U+202E>B", "A<U+003C>U+202E>B", "AB", "A B", "A  B", "A\u00a0B", "A\u200bB"]
        self.assertEqual(len(set(map(shown, texts))), len(texts))
        self.assertEqual(shown("A < B <U+> <U+12>"), "A < B <U+> <U+12>")

    def test_a_command_with_such_a_name_can_be_run_again(self):
        for name in ["A\u202eB", "it's\u200b\\n", "<U+202E>", "a  b", "plain", "$HOME"]:
            line = word_shown(name)
            self.assertEqual(shown(line), line)
            status, output, _ = runner.ProgramRuns().run(["bash", "-c", f"printf %s {line}"])
            self.assertEqual((status, output.decode()), (0, name))

    def test_messages_have_no_such_sign(self):
        name = self.folder / "bank\u202evsc.s\u200b"
        for words in (
            ["clearing-lint"],
            ["clearing-tidy"],
            ["clearing-impact"],
            ["clearing-report", "--out", self.folder / "r.html"],
        ):
            python = python_with("jinja2") if words[0] == "clearing-report" else None
            done = tool(words[0], "--banks", name, "--debts", name, *words[1:], python=python)
            self.assertNotEqual(done.returncode, 0)
            self.assertNotRegex(done.stderr, "[\u202e\u200b]")
            self.assertRegex(done.stderr, r"<U\+202E>|\\u202e", words)

    def test_lint_warns_of_names_that_mislead(self):
        banks = [
            "A,1,order",
            "A\u200b,1,order",
            "P\u0430ris,1,order",
            "A b,1,order",
            "A  b,1,order",
            "\u6f22 Bank,1,order",
            "\u05d1\u05e0\u05e7,1,order",
            "Cr\u00e9dit,1,order",
            "Cre\u0301dit,1,order",
            "\u03a9 Bank,1,order",
            "B\u202eC,1,order",
            "\u30ab\u30ca\u3068\u6f22,1,equal",
        ]
        banks = self.file("b.csv", "name,cash,rule\n" + "\n".join(banks) + "\n")
        debts = self.file("d.csv", "debtor,creditor,class,claim\n")
        more = (
            ["--scenarios", self.file("s.toml", '[[scenario]]\nname = "x\u2066y"\n')]
            if sys.version_info >= (3, 11)
            else []
        )
        done = tool("clearing-lint", "--banks", banks, "--debts", debts, *more)
        said = [re.sub(f"^{re.escape(str(self.folder))}/", "", line) for line in done.stdout.splitlines()]
        self.assertEqual((done.returncode, done.stderr), (0, ""))
        expected = [
            "b.csv line 3 (row 2) name: warning: the name 'A<U+200B>' has U+200B, which is not seen",
            "b.csv line 3 (row 2) name: warning: the names 'A' and 'A<U+200B>' look the same",
            "b.csv line 4 (row 3) name: warning: the name 'P\u0430ris' has letters of Latin and Cyrillic",
            "b.csv line 6 (row 5) name: warning: the name 'A <U+0020>b' has U+0020, which is not seen",
            "b.csv line 6 (row 5) name: warning: the names 'A b' and 'A <U+0020>b' look the same",
            "b.csv line 10 (row 9) name: warning: the names 'Cr\u00e9dit' and 'Cre\u0301dit' look the same",
            "b.csv line 11 (row 10) name: warning: the name '\u03a9 Bank' has letters of Greek and Latin",
            "b.csv line 12 (row 11) name: warning: the name 'B<U+202E>C' has U+202E, which is not seen",
            *["s.toml line 1 (row 1) name: warning: the name 'x<U+2066>y' has U+2066, which is not seen"] * bool(more),
        ]
        self.assertEqual(said, [*expected, f"no fault, {len(expected)} warnings"])

    def test_names_that_differ_look_the_same_only_where_they_do(self):
        self.assertEqual(odd.look_of("A\u00a0b"), odd.look_of("A  b"))
        self.assertNotEqual(odd.look_of("A<U+200B>"), odd.look_of("A\u200b"))
        self.assertEqual(list(odd.oddities(["Alster", "Birk", "a", "A"])), [])

    def test_pictures_have_no_such_sign(self):
        banks = self.file("b.csv", "name,cash,rule\nA\u202eB,1,order\nC\u200b,0,order\n")
        debts = self.file("d.csv", "debtor,creditor,class,claim\nA\u202eB,C\u200b,1,5\n")
        files = ["--banks", banks, "--debts", debts]
        payments, defaults = self.file("p.csv", self.printed("clear", *files)), self.file(
            "e.csv", self.printed("defaults", *files)
        )
        for form in ("graph", "matrix"):
            svg = self.made("clearing-who-pays", payments, defaults, "--form", form)
            self.assertNotRegex(svg, "[\u202e\u200b]")
            self.assertIn("A&lt;U+202E&gt;B", svg)
        python = python_with("matplotlib")
        if python:
            done = tool("clearing-shortfalls", defaults, self.folder / "s.svg", python=python)
            self.assertEqual((done.returncode, done.stderr), (0, ""))
            svg = (self.folder / "s.svg").read_text(encoding="utf-8")
            self.assertNotRegex(svg, "[\u202e\u200b]")
            self.assertIn("U+202E", svg)
