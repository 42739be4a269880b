"""What tools say when their input is hostile: no traceback, no sign that moves a terminal, no line that a file has
made up, nothing on a closed stream."""
import os
import subprocess
import sys
import unittest
from typing import Any, Iterator

from common import HUB, PROGRAM, ROOT, Case, Word, files_of, run_of
from places import EachTool, Place

FILES = files_of(HUB)
MADE_UP = "x\nchecked: all files are fine\x1b[2J\x9b1A\u202e"


def ways(text: str) -> Iterator[Any]:
    """A text with what Python, a terminal or a reader of lines stumbles over in the place of its fields."""
    header, *rows = text.split("\n")
    yield "digits", "\n".join(
        [header] + [",".join("9" * 5000 if field.isdigit() else field for field in row.split(",")) for row in rows]
    )
    yield "blanks", "\n".join([header] + [row.replace(",", "," + " " * 200_000, 1) for row in rows])
    yield "controls", "\n".join([header] + [row.replace(",", "\x1b[2J\x9b1A\u202e,", 1) for row in rows])
    yield "a NUL", "\n".join([header] + [row + "\0" for row in rows])
    yield "a quote", "\n".join([header, '"' + "\n".join(rows)])


class Hostile(EachTool):
    def test_no_content_makes_a_traceback(self):
        seen = set()
        for name, words, asks, how in self.each():
            for at, word in enumerate(words):
                if (
                    not self.is_input(word)
                    or (name, word.name) in seen
                    or name in ("clearing-why", "clearing-evidence", "clearing-many")
                ):
                    continue
                seen.add((name, word.name))
                for about, text in ways(word.read_text(encoding="utf-8")):
                    bad = self.given("bad", text)
                    done = self.attempt(
                        name,
                        *self.placed([*words[:at], bad, *words[at + 1 :]], self.out / f"{about}-{len(seen)}"),
                        **how,
                    )
                    said = (done.stdout + done.stderr).decode(errors="replace")
                    with self.subTest(tool=name, file=word.name, how=about):
                        self.assertNotIn("Traceback", said)
                        self.assertLessEqual(0, done.returncode, said)
                        for sign in "\x1b\x9b\u202e":
                            self.assertNotIn(sign, done.stderr.decode(errors="replace"))
                    bad.unlink()

    def test_no_name_of_a_file_makes_a_line(self):
        seen = set()
        for name, words, asks, how in self.each():
            for at, word in enumerate(words):
                if self.is_input(word) and name not in seen and name != "clearing-why":
                    seen.add(name)
                    done = self.attempt(
                        name,
                        *self.placed([*words[:at], MADE_UP, *words[at + 1 :]], self.out / f"place-{len(seen)}"),
                        **how,
                    )
                    said = (done.stdout + done.stderr).decode(errors="replace")
                    with self.subTest(tool=name):
                        self.assertGreater(done.returncode, 0, said)
                        self.assertNotIn("\nchecked: all", said)
                        for sign in "\x1b\x9b\u202e":
                            self.assertNotIn(sign, said)


class Words(Place):
    def test_no_word_moves_a_terminal(self):
        for path in sorted((ROOT / "bin").iterdir()):
            for words in (
                [f"--none={MADE_UP}"],
                [MADE_UP, MADE_UP, MADE_UP],
                ["check", MADE_UP],
                ["make", self.out / "place", "--banks", MADE_UP, "--debts", MADE_UP],
            ):
                done = self.attempt(path.name, *words)
                said = (done.stdout + done.stderr).decode(errors="replace")
                with self.subTest(tool=path.name, words=words[:1]):
                    self.assertGreater(done.returncode, 0, said)
                    for sign in "\x1b\x9b\u202e":
                        self.assertNotIn(sign, said)


class Streams(Case):
    def run_closed(self, close: str, *words: Word) -> "subprocess.CompletedProcess[str]":
        environment = {**os.environ, "CLEARING": os.path.realpath(PROGRAM)}
        return subprocess.run(
            ["sh", "-c", f'exec "$@" {close}', "sh", *map(str, words)],
            env=environment,
            capture_output=True,
            encoding="utf-8",
        )

    def test_a_closed_stream_is_no_file(self):
        """What is said goes to no file that took the number of a closed stream, and an output that cannot be written
        is told."""
        scenarios = self.file("s.toml", '[[scenario]]\nname = "a"\n')
        for name, words in [
            ("clearing-lint", FILES),
            ("clearing-audit", [*FILES, "--journal", HUB / "debts.csv"]),
            ("clearing-shock", ["--banks", HUB / "banks.csv", "--scenarios", scenarios, "--scenario", 1]),
            ("clearing-evidence", ["check", self.folder]),
            ("clearing-breaking", FILES),
            ("clearing-to-matrix", FILES),
        ]:
            done = self.run_closed("2>&-", *run_of(name), *words)
            self.assertNotIn("Traceback", done.stdout + done.stderr, name)
            done = self.run_closed(">&-", *run_of(name), *words)
            self.assertNotIn("Traceback", done.stderr, name)
            self.assertNotEqual(done.returncode, 0, (name, done.stderr))
            out = self.folder / "out"
            if name in ("clearing-breaking", "clearing-to-matrix"):
                option = "--output" if name == "clearing-breaking" else "--out"
                done = self.run_closed("<&- 2>&-", *run_of(name), *words, option, out)
                self.assertEqual(done.returncode, 0, name)
                self.assertNotIn(name, out.read_text())

    def test_what_makes_bytes_of_bytes_is_no_encoding(self):
        sheet = self.file("sheet.csv", "debtor,creditor,amount\nA,B,1\n")
        for encoding in ("zlib", "base64", "rot13", "hex", "no\0ne", "\x1b[2J"):
            done = subprocess.run(
                [
                    sys.executable,
                    "-c",
                    (
                        "import sys; sys.path.insert(0, sys.argv.pop(1)); sys.argv[0] = 'from_list.py'\nsys.argv[1:] ="
                        f" [sys.argv[1], '--encoding', {encoding!r}]\nfrom clearing_tools.imports.exposure_list import"
                        " main; main()"
                    ),
                    str(ROOT / "python/src"),
                    str(sheet),
                ],
                capture_output=True,
                encoding="utf-8",
            )
            self.assertEqual(done.returncode, 2, (encoding, done.stderr))
            self.assertNotIn("Traceback", done.stderr, encoding)
            self.assertNotIn("\x1b", done.stderr)


if __name__ == "__main__":
    unittest.main()
