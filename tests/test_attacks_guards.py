"""The table of what is guarded, docs/GUARDS.md: each test that it names is there, and no module of attacks is left
out."""
import ast
import re
import unittest
from typing import Any, List

from common import ROOT

ROW = re.compile(
    r"^\| (?P<threat>[^|]+) \| (?P<guard>[^|]+) \| `(?P<module>\w+)\.(?P<case>\w+)\.(?P<test>\w+)` \|$", re.MULTILINE
)


class Guards(unittest.TestCase):
    def rows(self) -> List[Any]:
        text = (ROOT / "docs/GUARDS.md").read_text(encoding="utf-8")
        rows = list(ROW.finditer(text))
        heads = len(re.findall(r"^\|---", text, re.MULTILINE))
        self.assertEqual(
            len(rows),
            len(re.findall(r"^\|", text, re.MULTILINE)) - 2 * heads,
            "a row has not a threat, a guard and a test",
        )
        return rows

    def test_each_test_that_it_names_is_there(self):
        rows = self.rows()
        self.assertGreater(len(rows), 35)
        for row in rows:
            tree = ast.parse((ROOT / f"tests/{row['module']}.py").read_text(encoding="utf-8"))
            cases = {
                node.name: {inner.name for inner in node.body if isinstance(inner, ast.FunctionDef)}
                for node in tree.body
                if isinstance(node, ast.ClassDef)
            }
            self.assertIn(row["test"], cases.get(row["case"], ()), row[0])

    def test_no_module_of_attacks_is_left_out(self):
        named = {row["module"] for row in self.rows()} | {"test_attacks_guards"}
        self.assertEqual({path.stem for path in (ROOT / "tests").glob("test_*attacks*.py")} - named, set())

    def test_no_test_is_named_for_two_threats_of_one_table(self):
        for part in (ROOT / "docs/GUARDS.md").read_text(encoding="utf-8").split("\n## "):
            named = [row[0].rpartition("|")[0].rpartition("| ")[2] for row in ROW.finditer(part)]
            self.assertEqual(len(named), len(set(named)))


if __name__ == "__main__":
    unittest.main()
