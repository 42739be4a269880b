"""The packages, the scripts beside them and what tests share are typed, a program that uses the packages wrongly is
told apart, and no function is idle."""
import ast
import builtins
import pathlib
import re
import shutil
import subprocess
import tempfile
import unittest
from typing import Iterable, Iterator, List, Set, Tuple

from common import ROOT, Case
from sources import SCRIPTS, SHARED, SOURCES, SYSTEM

MYPY = shutil.which("mypy")


def checked_at_once(root: pathlib.Path) -> Tuple[List[str], List[str]]:
    """What is checked at once, seen from python/: two of the scripts are called build."""
    shared = [f"../tests/{path.name}" for path in sorted((root / "tests").glob("*.py")) if path.name[:5] != "test_"]
    system = [root / path.relative_to(ROOT) for path in SYSTEM]
    return ["src", "build.py", "../bench", *shared], ["../tools/dev", *(str(path) for path in system if path.exists())]


def idle_in(paths: Iterable[pathlib.Path], words: Set[str]) -> Iterator[str]:
    """The functions of some files, outside their classes, that nothing calls: none of the files has the name beside the
    definition, imports it from there or has an attribute of its name, and it is none of some words besides."""
    trees = {path: ast.parse(path.read_text(encoding="utf-8")) for path in paths}
    nodes = [node for tree in trees.values() for node in ast.walk(tree)]
    attributes = {node.attr for node in nodes if isinstance(node, ast.Attribute)} | words
    imported = {
        (node.module.split(".")[-1], one.name)
        for node in nodes
        if isinstance(node, ast.ImportFrom) and node.module
        for one in node.names
    }
    for path, tree in trees.items():
        named = {node.id for node in ast.walk(tree) if isinstance(node, ast.Name)} | attributes
        for node in tree.body:
            if isinstance(node, ast.FunctionDef) and node.name not in named and (path.stem, node.name) not in imported:
                yield f"{path.name}:{node.lineno} {node.name}"


@unittest.skipUnless(MYPY, "without mypy (Debian's package mypy)")
class Types(Case):
    def mypy(self, *words: object, cwd: pathlib.Path = ROOT / "python") -> "subprocess.CompletedProcess[str]":
        line = [MYPY, "--cache-dir", str(self.folder / "cache"), "--config-file", "pyproject.toml", *map(str, words)]
        return subprocess.run(line, cwd=cwd, capture_output=True, encoding="utf-8")

    def test_the_packages_and_the_scripts_have_their_types_and_keep_them(self):
        for words in checked_at_once(ROOT):
            done = self.mypy(*words)
            self.assertEqual(done.returncode, 0, done.stdout + done.stderr)

    def test_a_function_without_types_is_told_in_each_room(self):
        """In a copy, in which a file of each folder has such a function."""
        for name in ("python", "bench", "tools/dev"):
            shutil.copytree(ROOT / name, self.folder / name, ignore=shutil.ignore_patterns("__pycache__"))
        (self.folder / "tests").mkdir()
        for path in SHARED:
            shutil.copy(path, self.folder / "tests")
        rooms = sorted({path.relative_to(ROOT).parent for path in [*SOURCES, *SCRIPTS]})
        self.assertGreater(len(rooms), 13)
        for number, room in enumerate(rooms):
            # A script's module has no package before its name, so that no two may be called the same.
            path = self.folder / ("python/build.py" if str(room) == "python" else room / f"untyped{number}.py")
            with open(path, "a", encoding="utf-8") as file:
                file.write("\n\ndef same(value):\n    return value\n")
        lines = [
            line
            for words in checked_at_once(self.folder)
            for line in self.mypy(*words, cwd=self.folder / "python").stdout.splitlines()
        ]
        found = [
            (self.folder / "python" / line.partition(":")[0]).resolve()
            for line in lines
            if line.endswith("[no-untyped-def]")
        ]
        self.assertEqual(
            sorted(path.parent.relative_to(self.folder.resolve()) for path in found), rooms, "\n".join(lines)
        )

    def test_who_uses_it_sees_the_types(self):
        right = (
            "import clearing_client as cc\nnet = cc.Network({'A': 7}, [])\npaid: int = net.clear().payments[0].paid\n"
        )
        done = self.mypy(self.file("right.py", right))
        self.assertEqual(done.returncode, 0, done.stdout + done.stderr)
        for wrong in (
            "paid: str = net.clear().payments[0].paid\n",
            "net.clear(workers='4')\n",
            "net.cleared()\n",
            "net.defaults().payments\n",
            "net.stress(7)\n",
        ):
            done = self.mypy(self.file("wrong.py", right + wrong))
            self.assertEqual((done.returncode, done.stdout.count("error:")), (1, 1), done.stdout + done.stderr)


class Sources(unittest.TestCase):
    def test_no_module_is_let_off(self):
        """What is strict is so for each module: an exception names libraries alone, and a line let off says why."""
        text = (ROOT / "python/pyproject.toml").read_text(encoding="utf-8").partition("[tool.mypy]\n")[2]
        settings, *exceptions = text.split("[[tool.mypy.overrides]]\n")
        self.assertIn("strict = true\n", settings)
        self.assertNotIn("false", text)
        for exception in exceptions:
            self.assertNotIn("clearing", exception)
            keys = re.findall(r"^(\w+) =", exception, re.MULTILINE)
            self.assertEqual(keys, ["module", "ignore_missing_imports"])
        for path in [*SOURCES, *SCRIPTS]:
            for line in path.read_text(encoding="utf-8").split("\n"):
                self.assertNotRegex(line, r"# type: ignore(?!\[[a-z, -]+\]  # \w)", path.name)

    def test_any_stands_where_no_type_can_be_said_alone(self):
        """Each module with its lines: a column's values by a name that is a text, and words that go on to a call."""
        found = {}
        for path in SOURCES:
            for line in path.read_text(encoding="utf-8").split("\n"):
                if re.search(r"\bAny\b", line) and not re.match(r"(from typing import|    [\w, ]+,$)", line):
                    found.setdefault(path.name, []).append(line.strip())
        self.assertEqual(
            found,
            {
                "case.py": ['def of_files(cls, banks: File, debts: File, **more: Any) -> "Case":'],
                "table.py": ["def column(self, name: str) -> List[Any]:"],
            },
        )

    def test_names_say_what_they_are(self):
        """What a command line says is `args`, an exception ends with Error or Warning, no local is a bare participle,
        and no module but `format` has the name of something that Python has built in."""
        riddles, parsed = [], 0
        for path in SOURCES:
            if path.stem in dir(builtins) and path.stem != "format":
                riddles.append(f"module {path.name}")
            for node in ast.walk(ast.parse(path.read_text(encoding="utf-8"))):
                if isinstance(node, (ast.arg, ast.Name)):
                    is_bound = isinstance(node, ast.arg) or isinstance(node.ctx, ast.Store)
                    name = node.arg if isinstance(node, ast.arg) else node.id
                    riddles += (
                        [f"{path.name}:{node.lineno} {name}"]
                        if is_bound and name in ("asked", "told", "said", "wanted")
                        else []
                    )
                if isinstance(node, ast.ClassDef):
                    is_fault = any(ast.unparse(base).endswith(("Error", "Exception", "Warning")) for base in node.bases)
                    riddles += (
                        [f"{path.name} {node.name}"]
                        if is_fault and not node.name.endswith(("Error", "Warning"))
                        else []
                    )
                if (
                    isinstance(node, ast.Assign)
                    and isinstance(node.value, ast.Call)
                    and ast.unparse(node.value.func).endswith("parse_args")
                ):
                    parsed += 1
                    riddles += (
                        [f"{path.name}:{node.lineno}"]
                        if not re.match(r"\(?(parser, )?args\b", ast.unparse(node.targets[0]))
                        else []
                    )
        self.assertEqual(riddles, [])
        self.assertGreater(parsed, 15)

    def test_each_function_has_a_caller(self):
        """Or it is a command, or a template calls it."""
        others = [ROOT / "python/pyproject.toml", *(ROOT / "python/src").rglob("*.html")]
        words = {word for path in others for word in re.findall(r"\w+", path.read_text(encoding="utf-8"))}
        self.assertEqual(list(idle_in(SOURCES, words)), [])
        with tempfile.TemporaryDirectory() as name:
            paths = [pathlib.Path(name, file) for file in ("one.py", "other.py", "third.py")]
            paths[0].write_text("def here():\n    pass\n\n\ndef idle():\n    here()\n\n\ndef there():\n    pass\n")
            paths[1].write_text("from .one import there\nfrom . import third\n\nthere()\nthird.idle()\n")
            self.assertEqual(list(idle_in(paths[:1], set())), ["one.py:5 idle", "one.py:9 there"])
            paths[2].write_text("def there():\n    pass\n")
            self.assertEqual(
                list(idle_in(paths, set())), ["third.py:1 there"], "of attributes the name alone does not tell"
            )


if __name__ == "__main__":
    unittest.main()
