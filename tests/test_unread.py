"""Nothing is there for nobody: each field of the packages is read somewhere, each default is a choice that some call
makes, each parameter is looked at, and each key of the desk's answers is one that the scripts of its page read."""
import ast
import collections
import pathlib
import re
import subprocess
import unittest
from typing import Dict, Iterable, Iterator, List, Set

from common import ROOT, Case, needs_modules
from pythons import python_with
from sources import MODULES, SCRIPTS, SOURCES

TOOLS = ROOT / "python/src/clearing_tools"
GUIDE = set(re.findall(r"\w+", (ROOT / "docs/PYTHON.md").read_text(encoding="utf-8")))
# Keys that the desk sends and its page does not read, each with its reason.
NOT_READ = {"estate": "the tests hold what the desk says of a bank against the program's whole line of it"}
# What the desk answers, by the functions and records that make it, and how the scripts describe it.
ANSWERS = {
    "the network": ({"view.network_view", "app.network"}, ["Network"]),
    "another case": ({"view.other_view"}, ["OtherCase"]),
    "a scenario": ({"view.scenarios_view"}, ["Scenario"]),
    "a state": ({"view.state_view", "view.end_view", "app.view_of"}, ["End", "Changes"]),
    "a question": ({"questions.view"}, ["Told"]),
    "a fault": ({"app.fault"}, ["Fault"]),
    "an account": ({"account.Account"}, ["Account"]),
}
# What it answers besides, as pieces that are put together or have no name in the scripts.
PARTS = {
    "app.add_scenario",
    "app.ask",
    "questions.breaking_pieces",
    "questions.impact_pieces",
    "questions.rescue_pieces",
    "questions.ruin_of",
    "questions.unit_pieces",
    "report/player.debts_of",
    "report/player.money_of",
    "report/player.names_of",
    "steps.Kept",
    "view.bank_view",
    "view.journal_view",
}
# An object that a module describes: all on a line, or with a line for each key, which may go on in the next.
TYPEDEF = re.compile(
    r"@typedef \{(?P<type>.*)\} (?P<name>\w+)$(?P<rest>(?:\n \* @property.*|\n \*  .*)*)", re.MULTILINE
)
PLANTED = """import dataclasses
from typing import List, NamedTuple, TypedDict


class Pair(NamedTuple):
    read: int
    idle: int
    apart: int
    passed_over: int


class Other(NamedTuple):
    idle: int = 0


class Keys(TypedDict):
    read: int
    idle: int


@dataclasses.dataclass
class Kept:
    read: int
    idle: int
    unset: int = 0


class Slots:
    __slots__ = ("read", "idle")

    def __init__(self, read: int, idle: int = 0) -> None:
        self.read, self.idle = read, idle

    def more(self, by: int = 1, to: int = 2) -> int:
        return self.read + by + to


def work(pairs: List[Pair], other: Other, keys: Keys, most: int = 0, least: int = 0) -> int:
    _, _, apart, _passed_over = pairs[0]
    kept, slots = Kept(1, 2), Slots(3)
    return pairs[0].read + apart + other.idle + keys["read"] + kept.read + kept.unset + slots.more(to=4) + most + least


work([Pair(1, 2, 3, 4)], Other(), {"read": 1, "idle": 2}, least=1)
"""


def unread_in(root: pathlib.Path) -> List[str]:
    """What is of no use in the packages of a checkout."""
    line = [python_with("mypy"), ROOT / "tools/dev/unread.py", root]
    done = subprocess.run(line, capture_output=True, encoding="utf-8")
    if done.returncode:
        raise AssertionError(done.stderr)
    return done.stdout.splitlines()


def is_documented(line: str) -> bool:
    """Whether it is for those who use the package clearing_client. A record is a line of a text of the program, whole;
    of all else the guide names the class or the function, and the field or the parameter."""
    module, *names = line.removeprefix("clearing_client.").replace("(", ".").rstrip(")").split(".")
    return line.startswith("clearing_client.") and (module == "records" or set(names[-2:]) <= GUIDE)


@needs_modules("mypy")
class Packages(Case):
    def test_each_field_is_read_and_each_default_is_a_choice(self):
        found = unread_in(ROOT)
        self.assertEqual([line for line in found if not is_documented(line)], [])
        self.assertIn("clearing_client.network.Network.compress(timeout)", found, "which the guide names")

    def test_what_is_of_no_use_is_told(self):
        """Of a record, of keys, of an object and of a call, although another record has a field of the same name."""
        path = self.folder / "python/src/clearing_tools/planted.py"
        path.parent.mkdir(parents=True)
        (path.parent / "__init__.py").touch()
        path.write_text(PLANTED, encoding="utf-8")
        idle = ["Pair.idle", "Pair.passed_over", "Keys.idle", "Kept.idle", "Slots.idle"]
        fixed = ["Other(idle)", "Kept(unset)", "Slots(idle)", "Slots.more(by)", "work(most)"]
        self.assertEqual(unread_in(self.folder), [f"clearing_tools.planted.{name}" for name in [*idle, *fixed]])


def unused_in(texts: Dict[str, str]) -> Iterator[str]:
    """The parameters that the bodies of functions do not name, of modules by their names. A function that is passed on,
    or has the name of another, has the parameters that all such functions have; one that only says what it is for is
    there to be overridden."""
    trees = {path: ast.parse(text) for path, text in texts.items()}
    every = [node for tree in trees.values() for node in ast.walk(tree)]
    called = {id(node.func) for node in every if isinstance(node, ast.Call)}
    passed_on = {getattr(node, "id", getattr(node, "attr", "")) for node in every if id(node) not in called}
    names = collections.Counter(node.name for node in every if isinstance(node, ast.FunctionDef))
    for path, tree in trees.items():
        for one in ast.walk(tree):
            if not isinstance(one, ast.FunctionDef) or one.name in passed_on or names[one.name] > 1:
                continue
            body = one.body[1:] if ast.get_docstring(one) else one.body
            named = {node.id for part in body for node in ast.walk(part) if isinstance(node, ast.Name)}
            given = [arg.arg for arg in [*one.args.posonlyargs, *one.args.args, *one.args.kwonlyargs]]
            idle = [word for word in given if word not in {"self", "cls", *named} and not word.startswith("_")]
            yield from (f"{path}: {one.name}({word})" for word in idle if body)


class Parameters(unittest.TestCase):
    def test_each_is_looked_at(self):
        """But for those of the functions by which an installer has the wheel built."""
        paths = {*SOURCES, *SCRIPTS} - {ROOT / "python/build.py"}
        texts = {path.relative_to(ROOT): path.read_text(encoding="utf-8") for path in sorted(paths)}
        self.assertEqual(list(unused_in(texts)), [])
        planted = "def work(one, idle):\n    return one\n\n\ndef other(idle):\n    pass\n\n\nmap(other, [work(1, 2)])\n"
        self.assertEqual(list(unused_in({"planted.py": planted})), ["planted.py: work(idle)"])


def keys_made(places: Iterable[str]) -> Set[str]:
    """The keys of what some functions give and some records are, each told as MODULE.NAME, of the desk where no other
    folder is told."""
    keys = set()
    for place in places:
        path, name = place.rsplit(".", 1)
        tree = ast.parse((TOOLS / f"{path if '/' in path else f'desk/{path}'}.py").read_text(encoding="utf-8"))
        kinds = (ast.ClassDef, ast.FunctionDef)
        [found] = [one for one in ast.walk(tree) if isinstance(one, kinds) and one.name == name]
        if isinstance(found, ast.ClassDef):
            keys |= {one.target.id for one in found.body if isinstance(one, ast.AnnAssign)}
        for one in ast.walk(found):
            if isinstance(one, ast.Dict):
                keys |= {key.value for key in one.keys if isinstance(key, ast.Constant)}
    return keys


def keys_described(text: str) -> Dict[str, Set[str]]:
    """The keys of each object that a module describes."""
    return {
        found["name"]: set(
            re.findall(r"@property \{.*?\} \[?(\w+)", found["rest"])
            if found["type"] == "Object"
            else re.findall(r"(\w+)\??: ", found["type"])
        )
        for found in TYPEDEF.finditer(text)
    }


def is_read(key: str, code: str) -> bool:
    """Whether scripts read a key: behind a point, or as one of the names that an object is taken apart into."""
    return bool(re.search(rf"\.{key}\b|[{{,]\s*{key}\s*(?=[,}}:=])", code))


class Answers(unittest.TestCase):
    @classmethod
    def setUpClass(cls):
        cls.texts = {path: path.read_text(encoding="utf-8") for path in MODULES}
        cls.code = "\n".join(re.sub(r"/\*[\s\S]*?\*/|//.*", "", text) for text in cls.texts.values())

    def test_what_the_desk_sends_is_what_the_scripts_describe(self):
        described = {}
        for path, text in self.texts.items():
            if path.parent.parent.name == "desk":
                described.update({name: keys for name, keys in keys_described(text).items()})
        for what, (places, names) in ANSWERS.items():
            with self.subTest(what=what):
                self.assertEqual(keys_made(places), set().union(*(described[name] for name in names)))

    def test_each_key_that_the_desk_sends_is_read(self):
        keys = keys_made(PARTS.union(*(places for places, _ in ANSWERS.values())))
        self.assertGreater(len(keys), 70)
        self.assertEqual({key for key in keys if not is_read(key, self.code)}, set(NOT_READ))

    def test_a_key_that_is_read_is_told_from_one_that_is_not(self):
        code = "const { one, two: three } = view; four(view.five, { six: 1 }); seven = [eight];"
        words = "one two three four five seven eight".split()
        self.assertEqual([word for word in words if is_read(word, code)], ["one", "two", "five"])


if __name__ == "__main__":
    unittest.main()
