"""The rules of the house for all sources: how long lines and functions are, what a helper of a test says of itself,
where a skip stands, and that no name is idle."""
import ast
import configparser
import pathlib
import re
import shutil
import subprocess
import unittest
from typing import Iterable, Iterator, List, Tuple

from common import ROOT
from sources import OTHERS, SCRIPTS, SOURCES, SYSTEM, TESTS

FLAKE8 = shutil.which("flake8")


def functions_in(paths: Iterable[pathlib.Path]) -> Iterator[Tuple[str, ast.FunctionDef]]:
    """Each function of some files, with its place and name, by which a fault tells it."""
    for path in paths:
        for node in ast.walk(ast.parse(path.read_text(encoding="utf-8"))):
            if isinstance(node, ast.FunctionDef):
                yield f"{path.relative_to(ROOT)}:{node.lineno} {node.name}", node


def untyped_in(text: str) -> Iterator[ast.FunctionDef]:
    """The functions of a module of tests, and the methods of its classes, that do not say what they take and give. A
    test, and what stands around tests, takes and gives nothing."""
    tree = ast.parse(text)
    bodies = [tree.body, *(node.body for node in tree.body if isinstance(node, ast.ClassDef))]
    for node in (node for body in bodies for node in body if isinstance(node, ast.FunctionDef)):
        given = [*node.args.posonlyargs, *node.args.args, *node.args.kwonlyargs, node.args.vararg, node.args.kwarg]
        takes = [one for one in given if one and one.arg not in ("self", "cls")]
        is_around = re.match(r"test_|(setUp|tearDown)(Class)?$", node.name)
        if not is_around and (not node.returns or any(one.annotation is None for one in takes)):
            yield node


class Sources(unittest.TestCase):
    def test_a_function_has_some_40_lines(self):
        lines = {name: node.end_lineno - node.lineno + 1 for name, node in functions_in([*SOURCES, *SCRIPTS, *SYSTEM])}
        self.assertEqual({name: count for name, count in lines.items() if count > 44}, {})
        self.assertGreater(max(lines.values()), 30)

    def test_a_function_of_a_script_has_at_most_six_parameters_and_says_what_it_does(self):
        found = dict(functions_in([*SCRIPTS, *SYSTEM]))
        self.assertGreater(len(found), 250)
        for name, node in found.items():
            given = [node.args.vararg, node.args.kwarg, *node.args.posonlyargs, *node.args.args, *node.args.kwonlyargs]
            self.assertLessEqual(len(list(filter(None, given))), 6, name)
            if not node.name.startswith("__"):
                self.assertTrue(ast.get_docstring(node), name)

    def test_a_helper_of_a_test_says_its_types(self):
        """The functions of the modules of tests but the tests themselves, and what stands within a function."""
        modules = [path for path in TESTS if path.name.startswith("test_")]
        untyped = [f"{path.name} {node.name}" for path in modules for node in untyped_in(path.read_text())]
        self.assertEqual(untyped, [])
        self.assertGreater(len(modules), 100)
        helpers = "def one(a: int, *b, c: str) -> int:\n    pass\n\n\ndef two(d: int):\n    pass\n"
        tests = "class A:\n    def test_it(self):\n        pass\n\n    def ok(self, f: int) -> None:\n        pass\n"
        self.assertEqual([node.name for node in untyped_in(helpers + tests)], ["one", "two"])

    def test_no_module_of_tests_imports_another(self):
        """Whose tests it would run again, or have to erase: what several share stands in a module of its own."""
        imports = re.compile(r"^ *(?:import|from) test_\w+", re.MULTILINE)
        found = {path.name: imports.findall(path.read_text(encoding="utf-8")) for path in TESTS}
        self.assertEqual({name: lines for name, lines in found.items() if lines}, {})
        self.assertEqual(len(imports.findall("import test_one\n    from test_two import a\nimport tests\n")), 2)

    def test_lines_have_the_one_length_of_the_settings(self):
        settings = configparser.ConfigParser()
        settings.read(ROOT / "python/.flake8")
        most = settings.getint("flake8", "max-line-length")
        wide = [
            f"{path.relative_to(ROOT)}:{at}"
            for path in [*SOURCES, *SCRIPTS, *TESTS, *OTHERS]
            for at, text in enumerate(path.read_text(encoding="utf-8").split("\n"), 1)
            if len(text) > most
        ]
        self.assertEqual((most, wide), (120, []))
        self.assertGreater(len(OTHERS), 40)

    def test_a_skip_stands_on_a_test(self):
        """On another function it skips nothing, and hides what calls that."""

        def astray(text: str) -> List[str]:
            nodes = (node for node in ast.walk(ast.parse(text)) if isinstance(node, ast.FunctionDef))
            return [
                node.name
                for node in nodes
                if not node.name.startswith(("test", "setUp"))
                and any("skip" in ast.unparse(one) for one in node.decorator_list)
            ]

        for path in TESTS:
            self.assertEqual(astray(path.read_text(encoding="utf-8")), [], path)
        self.assertEqual(astray("@unittest.skipIf(WHY, WHY)\ndef made():\n    pass\n"), ["made"])

    def test_no_module_has_an_idle_name(self):
        if not FLAKE8:
            self.skipTest("without flake8 (Debian's package flake8)")
        words = ["python/src", "python/build.py", "tools/dev", "bench", "tests"]
        done = subprocess.run(
            [FLAKE8, "--config", "python/.flake8", *words], cwd=ROOT, capture_output=True, encoding="utf-8"
        )
        self.assertEqual((done.returncode, done.stdout), (0, ""))

    def test_a_line_of_the_tests_is_let_off_where_it_has_a_fault(self):
        """Else the word stays when the fault has gone, and hides the next one."""
        if not FLAKE8:
            self.skipTest("without flake8 (Debian's package flake8)")
        words = [FLAKE8, "--config", "python/.flake8", "--disable-noqa", "tests"]
        told = subprocess.run(words, cwd=ROOT, capture_output=True, encoding="utf-8").stdout
        faults = set(re.findall(r"(?m)^(\S+?:\d+):\d+: ([A-Z]\d+)", told))
        let_off = {
            (f"{path.relative_to(ROOT)}:{at}", code)
            for path in TESTS
            for at, line in enumerate(path.read_text(encoding="utf-8").split("\n"), 1)
            for code in re.findall(r"  # noqa: ([A-Z]\d+)", line)
        }
        self.assertGreater(len(let_off), 5)
        self.assertEqual(let_off - faults, set())


if __name__ == "__main__":
    unittest.main()
