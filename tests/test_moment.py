"""The moment at which something is made is that of SOURCE_DATE_EPOCH, where this has something in it, for all alike."""
import datetime
import os
import pathlib
import subprocess
from typing import Any
from unittest import mock

from common import CHAIN, PACKAGES, Case, files_of, needs_modules, run_of, tool
from pythons import python_with

import clearing_client as cc
from clearing_client import description

WRONG = ["x", "-1", "1.5", " 1", "1 ", "1e3", "²", "9" * 12]


class Moment(Case):
    def at(self, moment: str) -> Any:
        """Has the environment say a moment, for a block."""
        return mock.patch.dict(os.environ, {"SOURCE_DATE_EPOCH": moment})

    def test_there_is_one_reader(self):
        readers = [
            path.name for path in PACKAGES.rglob("*.py") if '"SOURCE_DATE_EPOCH"' in path.read_text(encoding="utf-8")
        ]
        self.assertEqual(readers, ["description.py"])

    def test_it_is_that_moment_or_now(self):
        with self.at("86400"):
            self.assertEqual((description.seconds(), description.now()), (86400, "1970-01-02T00:00:00Z"))
        with self.at(""):
            year = datetime.datetime.now(datetime.timezone.utc).year
            self.assertLessEqual(abs(int(description.now()[:4]) - year), 1)
            self.assertEqual(tool("clearing-case", "refresh", self.case()).returncode, 0)
        for wrong in WRONG:
            with self.at(wrong), self.assertRaisesRegex(
                cc.CaseError, "^SOURCE_DATE_EPOCH: .* is not a number of whole seconds"
            ):
                cc.Case(cc.Network({"A": 1}, {})).write(self.folder / "none")
        self.assertFalse((self.folder / "none").exists())

    def case(self) -> pathlib.Path:
        """A case of two files alone."""
        place = self.folder / "case"
        place.mkdir(exist_ok=True)
        for name in ("banks.csv", "debts.csv"):
            (place / name).write_bytes((CHAIN / name).read_bytes())
        return place

    def test_what_is_no_moment_is_told_before_anything_runs(self):
        sheet = self.file("list.csv", "debtor,creditor,amount\nA,B,5\n")
        table = self.file("table.csv", "bank,cash\nA,1\nB,2\n")
        shocks = self.file("shocks.csv", "bank,bad\nA,1\n")
        place = self.case()
        before = {path.name: path.read_bytes() for path in place.iterdir()}
        self.program('echo run >>"$0.ran"\nexit 1\n')
        for words in (
            ["clearing-report", *files_of(CHAIN), "--out", self.folder / "r.html"],
            ["clearing-case", "refresh", place],
            ["clearing-case", "scenarios", place, shocks],
            ["clearing-desk", *files_of(CHAIN), "--no-browser"],
            ["clearing-from-list", sheet, "--table", table, "--case", self.folder / "made"],
        ):
            with self.at("soon"):
                self.refused(words[0], 2, "SOURCE_DATE_EPOCH: 'soon' is not a number of whole seconds", *words[1:])
        self.assertEqual({path.name: path.read_bytes() for path in place.iterdir()}, before)
        left = sorted(path.name for path in self.folder.iterdir())
        self.assertEqual(left, ["case", "clearing", "list.csv", "shocks.csv", "table.csv"])
        # Who makes nothing of the kind does not ask.
        with self.at("soon"):
            self.told(
                "clearing-from-list",
                sheet,
                "--table",
                table,
                "--banks",
                self.folder / "b",
                "--debts",
                self.folder / "d",
            )

    @needs_modules("jinja2")
    def test_the_report_is_made_where_it_is_empty(self):
        for moment, told in (
            ("86400", "1970-01-02 00:00 UTC"),
            ("", f"{datetime.datetime.now(datetime.timezone.utc).year}-"),
        ):
            out = self.folder / "r.html"
            with self.at(moment):
                done = subprocess.run(
                    [
                        *map(str, run_of("clearing-report", python_with("jinja2"))),
                        *map(str, files_of(CHAIN)),
                        "--out",
                        str(out),
                    ],
                    capture_output=True,
                    encoding="utf-8",
                )
            self.assertEqual(done.returncode, 0, done.stderr)
            self.assertIn(told, out.read_text(encoding="utf-8"))
